/* vq for C: whether a script of queues, timelines and batches is lawful, and if not, its first fault; and runs of
 * lawful scripts, whose actors a program drives from threads of its own: over one core, one call at a time, or over a
 * board that the threads share.
 *
 * Link with libvq_c.a and with an allocator: the kit's liblibc_c.a, or the three functions of vq_alloc.h. A shared
 * object is linked with -Wl,--exclude-libs,ALL, so that it keeps these names to itself.
 *
 * What a caller owes, in each call, and nothing checks: pointers are valid and not null, also at length 0, but for an
 * output that isn't wanted and a room of size 0 (below), and what they lead to doesn't overlap; the text doesn't change
 * during the call, and the room isn't read or written by anybody else. A call may come from any thread, not from a
 * signal handler, and not in the child of a fork of a process with threads. No call waits, starts a thread, or ends
 * the process, and only vq_plan, vq_open and vq_share keep something, until vq_close. An output is written only where
 * the call says so, and else not touched. */
#ifndef VQ_H
#define VQ_H

#include <stddef.h>
#include <stdint.h>

#ifdef __cplusplus
extern "C" {
#endif

/* For compilers that know these: no pointer is null, and the answer isn't dropped. */
#if defined(__GNUC__)
#define VQ_CALL __attribute__((nonnull))
#define VQ_ASK __attribute__((nonnull, warn_unused_result))
#define VQ_TOLD __attribute__((warn_unused_result))
#else
#define VQ_CALL
#define VQ_ASK
#define VQ_TOLD
#endif

/* A function of this header itself, also for C before 1999. */
#if defined(__cplusplus) || (defined(__STDC_VERSION__) && __STDC_VERSION__ >= 199901L)
#define VQ_INLINE static inline
#elif defined(__GNUC__)
#define VQ_INLINE static __inline__
#else
#define VQ_INLINE static
#endif

/* The codes: made of codes.txt. */
enum vq_code {
    VQ_LAWFUL = 0,          /* the script is lawful */
    VQ_NO_MEMORY = 1,       /* there was no memory */
    VQ_TOO_LONG = 2,        /* the text has more than 4,194,304 bytes */
    VQ_SYNTAX = 16,         /* no line of this place has these words */
    VQ_ORDER = 17,          /* the line stands too late */
    VQ_NUMBER = 18,         /* a numeral is missing or too great */
    VQ_NAME = 19,           /* a name isn't declared, or is of another kind */
    VQ_TWICE = 20,          /* a name is declared again */
    VQ_RANGE = 21,          /* a size or a range doesn't fit */
    VQ_OVERLAP = 22,        /* the two ranges of a copy share a byte */
    VQ_LIMIT = 23,          /* one too many, or too large */
    VQ_NO_SIGNAL = 32,      /* a wait of a binary semaphore has no signal */
    VQ_SIGNALED_TWICE = 33, /* a binary semaphore is signaled twice with no wait between */
    VQ_FENCE_USED = 34,     /* a fence is used again without a reset */
    VQ_UNREACHABLE = 48,    /* a wait is never reached */
    VQ_UNORDERED = 49,      /* two signals of a timeline are in no sure order */
    VQ_FENCE_BUSY = 50,     /* a fence is reset that may be in use */
    VQ_NOT_PENDING = 51,    /* a wait of an immediate queue may not be pending */
    VQ_RACE = 52,           /* commands of two batches share a byte, in no sure order */
    VQ_DONE = 0,            /* the call did what it says */
    VQ_MOVED = 64,          /* the turn made an event */
    VQ_BLOCKED = 65,        /* the actor waits for something: nothing was done */
    VQ_ENDED = 66,          /* nothing of the actor is left to do */
    VQ_NO_ACTOR = 80,       /* no actor has this number: nothing was done */
    VQ_NO_OP = 82,          /* the plan has no such signal operation */
    VQ_NO_BUFFER = 83,      /* the plan has no such buffer */
    VQ_UNFINISHED = 84,     /* not all jobs are finished yet */
    VQ_NO_ROOM = 85,        /* the room is too small: it was filled, and the rest left out */
    VQ_NOT_HOST = 86,       /* the handle isn't the host's: nothing was done */
    VQ_SHARED = 87,         /* other actors' handles are open still: nothing was done */
    VQ_WRONG_KIND = 88,     /* the handle holds something of another kind: nothing was done */
    VQ_CLOSED = 89,         /* the board is closed: nothing was done */
    VQ_NO_HANDLE = 90       /* nothing is open at the handle: it was never opened, or is closed */
};

/* What a number of enum vq_code says. */
VQ_INLINE const char *vq_words(enum vq_code code)
{
    switch (code) {
    case VQ_LAWFUL:
        return "the script is lawful; or the call did what it says";
    case VQ_NO_MEMORY:
        return "there was no memory";
    case VQ_TOO_LONG:
        return "the text has more than 4,194,304 bytes";
    case VQ_SYNTAX:
        return "no line of this place has these words";
    case VQ_ORDER:
        return "the line stands too late";
    case VQ_NUMBER:
        return "a numeral is missing or too great";
    case VQ_NAME:
        return "a name isn't declared, or is of another kind";
    case VQ_TWICE:
        return "a name is declared again";
    case VQ_RANGE:
        return "a size or a range doesn't fit";
    case VQ_OVERLAP:
        return "the two ranges of a copy share a byte";
    case VQ_LIMIT:
        return "one too many, or too large";
    case VQ_NO_SIGNAL:
        return "a wait of a binary semaphore has no signal";
    case VQ_SIGNALED_TWICE:
        return "a binary semaphore is signaled twice with no wait between";
    case VQ_FENCE_USED:
        return "a fence is used again without a reset";
    case VQ_UNREACHABLE:
        return "a wait is never reached";
    case VQ_UNORDERED:
        return "two signals of a timeline are in no sure order";
    case VQ_FENCE_BUSY:
        return "a fence is reset that may be in use";
    case VQ_NOT_PENDING:
        return "a wait of an immediate queue may not be pending";
    case VQ_RACE:
        return "commands of two batches share a byte, in no sure order";
    case VQ_MOVED:
        return "the turn made an event";
    case VQ_BLOCKED:
        return "the actor waits for something: nothing was done";
    case VQ_ENDED:
        return "nothing of the actor is left to do";
    case VQ_NO_ACTOR:
        return "no actor has this number: nothing was done";
    case VQ_NO_OP:
        return "the plan has no such signal operation";
    case VQ_NO_BUFFER:
        return "the plan has no such buffer";
    case VQ_UNFINISHED:
        return "not all jobs are finished yet";
    case VQ_NO_ROOM:
        return "the room is too small: it was filled, and the rest left out";
    case VQ_NOT_HOST:
        return "the handle isn't the host's: nothing was done";
    case VQ_SHARED:
        return "other actors' handles are open still: nothing was done";
    case VQ_WRONG_KIND:
        return "the handle holds something of another kind: nothing was done";
    case VQ_CLOSED:
        return "the board is closed: nothing was done";
    case VQ_NO_HANDLE:
        return "nothing is open at the handle: it was never opened, or is closed";
    }
    return "no such code";
}

enum vq_event {
    VQ_EVENT_SUBMIT = 1,   /* a batch was submitted */
    VQ_EVENT_TAKE = 2,     /* a signal operation was given a point */
    VQ_EVENT_RELEASE = 3,  /* a batch was released to its queue */
    VQ_EVENT_BIND = 4,     /* a signal operation was bound to its point: it is pending */
    VQ_EVENT_REFER = 5,    /* the actor refers to a point */
    VQ_EVENT_LOOK = 6,     /* the actor saw a point signaled */
    VQ_EVENT_UNREF = 7,    /* the actor gave back a reference */
    VQ_EVENT_COMPLETE = 8, /* a signal operation is past */
    VQ_EVENT_FREE = 9,     /* a point was freed */
    VQ_EVENT_START = 10,   /* a batch or a host step was started */
    VQ_EVENT_APPLY = 11,   /* a command was applied to the buffers */
    VQ_EVENT_SIGNAL = 12,  /* a signal operation was signaled */
    VQ_EVENT_FINISH = 13,  /* a batch or a host step was finished */
    VQ_EVENT_ANSWER = 14   /* a host step was answered */
};

/* What a number of enum vq_event says. */
VQ_INLINE const char *vq_event_words(enum vq_event code)
{
    switch (code) {
    case VQ_EVENT_SUBMIT:
        return "a batch was submitted";
    case VQ_EVENT_TAKE:
        return "a signal operation was given a point";
    case VQ_EVENT_RELEASE:
        return "a batch was released to its queue";
    case VQ_EVENT_BIND:
        return "a signal operation was bound to its point: it is pending";
    case VQ_EVENT_REFER:
        return "the actor refers to a point";
    case VQ_EVENT_LOOK:
        return "the actor saw a point signaled";
    case VQ_EVENT_UNREF:
        return "the actor gave back a reference";
    case VQ_EVENT_COMPLETE:
        return "a signal operation is past";
    case VQ_EVENT_FREE:
        return "a point was freed";
    case VQ_EVENT_START:
        return "a batch or a host step was started";
    case VQ_EVENT_APPLY:
        return "a command was applied to the buffers";
    case VQ_EVENT_SIGNAL:
        return "a signal operation was signaled";
    case VQ_EVENT_FINISH:
        return "a batch or a host step was finished";
    case VQ_EVENT_ANSWER:
        return "a host step was answered";
    }
    return "no such code";
}

enum vq_want {
    VQ_WANT_SUBMITTED = 1,   /* a batch is submitted */
    VQ_WANT_RELEASED = 2,    /* a batch is released */
    VQ_WANT_BOUND = 3,       /* a signal operation is pending */
    VQ_WANT_NEXT = 4,        /* a signal operation is pending that another one follows */
    VQ_WANT_SIGNALED = 5,    /* a signal operation is signaled */
    VQ_WANT_FINISHED = 6,    /* a job is finished */
    VQ_WANT_MEMORY_TURN = 7, /* the buffers are free */
    VQ_WANT_EXCHANGE = 8,    /* the word of a point wasn't changed just then */
    VQ_WANT_LISTED = 9       /* the lists of a chain are free */
};

/* What a number of enum vq_want says. */
VQ_INLINE const char *vq_want_words(enum vq_want code)
{
    switch (code) {
    case VQ_WANT_SUBMITTED:
        return "a batch is submitted";
    case VQ_WANT_RELEASED:
        return "a batch is released";
    case VQ_WANT_BOUND:
        return "a signal operation is pending";
    case VQ_WANT_NEXT:
        return "a signal operation is pending that another one follows";
    case VQ_WANT_SIGNALED:
        return "a signal operation is signaled";
    case VQ_WANT_FINISHED:
        return "a job is finished";
    case VQ_WANT_MEMORY_TURN:
        return "the buffers are free";
    case VQ_WANT_EXCHANGE:
        return "the word of a point wasn't changed just then";
    case VQ_WANT_LISTED:
        return "the lists of a chain are free";
    }
    return "no such code";
}

enum vq_answer {
    VQ_ANSWER_REACHED = 1,   /* ok */
    VQ_ANSWER_TIMEOUT = 2,   /* timeout */
    VQ_ANSWER_NOT_READY = 3, /* not-ready */
    VQ_ANSWER_VALUE = 4      /* value, and the payload that was read */
};

/* What a number of enum vq_answer says. */
VQ_INLINE const char *vq_answer_words(enum vq_answer code)
{
    switch (code) {
    case VQ_ANSWER_REACHED:
        return "ok";
    case VQ_ANSWER_TIMEOUT:
        return "timeout";
    case VQ_ANSWER_NOT_READY:
        return "not-ready";
    case VQ_ANSWER_VALUE:
        return "value, and the payload that was read";
    }
    return "no such code";
}
/* The end of the codes. */

/* A code, and the lines that it speaks of, counted from 1; 0 where there is none. */
struct vq_verdict {
    enum vq_code code;
    uint32_t first;
    uint32_t second;
};

/* The version of this face, and the latest version of scripts that it reads. */
struct vq_versions {
    uint32_t face;
    uint32_t script;
};

/* The version. It can't fail. */
struct vq_versions vq_version(void);

/* Whether the script that a text holds is lawful, and if not, its first fault. Any bytes may be passed. VQ_NO_MEMORY
 * comes where an allocation was refused; then nothing is said of the text. */
VQ_ASK struct vq_verdict vq_check(const uint8_t *text, size_t length);

/* The same, and in words: `lawful`, or the line that refuses the text and a line that begins with `mend: `. So many
 * bytes of these words as go into the room are written there, with no zero behind them; `*needed` is how many there
 * are. The rest of the room stays as it is. */
VQ_CALL struct vq_verdict vq_explain(const uint8_t *text, size_t length, uint8_t *room, size_t size, size_t *needed);

/* What a program holds of a lawful script: a plan (vq_plan), a run of it over one core with all its actors (vq_open),
 * or one actor of a run over a board, with its share of the board and its timelines (vq_share). These write `at`, and
 * vq_close ends what is there. A call that isn't of a handle's kind answers VQ_WRONG_KIND, and does nothing. A zeroed
 * handle (VQ_NOTHING) holds nothing, and so does a closed one: calls answer VQ_NO_HANDLE, and vq_close does nothing.
 *
 * What a caller owes of a handle, and nothing checks: each call is given one as it was last written; two structs don't
 * stand for one handle; calls on one handle are made one at a time, and where it moves to another thread, a lock, a
 * join or the like stands between. So where several threads drive the actors of one run over one core, a mutex is held
 * round each call; turns of actors with handles of their own may be taken at the same time, from any threads, with
 * nothing held round them: no call waits for another, and none wakes one. Runs are free of one another. The calls
 * whose handle is `const` write nothing but their output. */
struct vq_handle {
    void *at;
};
#define VQ_NOTHING {0}

/* What a turn made (VQ_MOVED; `kind` is of enum vq_event), or what the actor waits for (VQ_BLOCKED; `kind` is of enum
 * vq_want). Numbers that it doesn't speak of are VQ_NONE. `more` is 1 where VQ_EVENT_TAKE gives a new point, and of
 * enum vq_answer for VQ_EVENT_ANSWER, where `value` is the payload that was read. */
#define VQ_NONE UINT32_MAX
struct vq_turn_result {
    uint32_t kind;
    uint32_t job;     /* a batch or a step of the host; vq_line has its line */
    uint32_t op;      /* a signal operation; vq_op has what it signals */
    uint32_t point;   /* a point: a semaphore of the device's own, which operations share by turns */
    uint32_t command; /* a command */
    uint32_t more;
    uint64_t value;
};

/* A signal operation: the chain that it is of (that of a semaphore or a fence, in the order of the script), its place
 * there, its job, its line, and the payload that it sets. */
struct vq_signal {
    uint32_t chain;
    uint32_t index;
    uint32_t job;
    uint32_t line;
    uint64_t value;
};

/* What a step of the host was answered: the step's line, the answer, and the payload that was read. */
struct vq_answered {
    uint32_t line;
    enum vq_answer kind;
    uint64_t value;
};

/* The verdict of vq_check; where it is VQ_LAWFUL, `*plan` holds the script's plan, and else it stays as it was. */
VQ_ASK struct vq_verdict vq_plan(const uint8_t *text, size_t length, struct vq_handle *plan);

/* The verdict of vq_check; where it is VQ_LAWFUL, `*run` holds a run of the script over one core, before its first
 * turn, and else it stays as it was. All memory of the run's turns is taken here. */
VQ_ASK struct vq_verdict vq_open(const uint8_t *text, size_t length, struct vq_handle *run);

/* The most numbers that the actors of a script have: two for each of 16 queues, and the host's. */
#define VQ_MOST_ACTORS 33

/* The verdict of vq_check; where it is VQ_LAWFUL, the room has the actors of a run of the script over a board, before
 * its first turn, each at its number (as for vq_actors, the host's is 0), and NULL in all other places; `*needed` is
 * how many numbers there are. VQ_NO_ROOM: the script is lawful, and the room has less places than `*needed` says; the
 * room stays. With any other code room and number stay. The size of the room is in actors. All memory of the run's
 * turns is taken here. */
VQ_ASK struct vq_verdict vq_share(const uint8_t *text, size_t length, struct vq_handle *room, size_t size,
                                  size_t *needed);

/* How many numbers the actors of the plan have: 0 is the host's, and of the queue q, from 0 in the order of the
 * script, 2q + 1 its submit actor's and 2q + 2 its ring's. Where the host submits for a queue, no actor has the number
 * 2q + 1. It is 0 where nothing is open. */
VQ_CALL uint64_t vq_actors(const struct vq_handle *handle);

/* One turn of the actor that is held. VQ_MOVED: it made one event, told in `*turn`. VQ_BLOCKED: it waits for what
 * `*turn` tells, and made nothing; ask again after another actor has moved. VQ_ENDED: nothing of it is left to do.
 * VQ_CLOSED: vq_bytes has closed its board. VQ_WRONG_KIND: no actor is held. With the last three `*turn` stays. While
 * another actor asks the lists of the same chain, a turn may be blocked with VQ_WANT_LISTED: nothing was done, ask
 * again. Other actors may see what the turn made before the call returns (docs/C.md, "Runs that threads share"). It
 * takes no memory. */
VQ_ASK enum vq_code vq_turn(struct vq_handle *actor, struct vq_turn_result *turn);

/* One turn of the actor with a number, of the run over one core that is held: as vq_turn. What a blocked one waits for
 * isn't so. VQ_NO_ACTOR: no actor has the number. VQ_WRONG_KIND: no run over one core is held. Then `*turn` stays. */
VQ_ASK enum vq_code vq_turn_of(struct vq_handle *run, uint32_t actor, struct vq_turn_result *turn);

/* The line of a job of the plan, counted from 1; 0 where there is none, or nothing is open. */
VQ_CALL uint32_t vq_line(const struct vq_handle *handle, uint32_t job);

/* What an operation of the plan signals. VQ_DONE, or VQ_NO_OP. */
VQ_ASK enum vq_code vq_op(const struct vq_handle *handle, uint32_t op, struct vq_signal *signal);

/* Whether all jobs are finished: VQ_DONE or VQ_UNFINISHED. Of a run over a board the host sees that, once its program
 * has ended: after VQ_UNFINISHED ask again. VQ_NOT_HOST: another actor is held. VQ_WRONG_KIND: a plan is held. */
VQ_ASK enum vq_code vq_finished(struct vq_handle *handle);

/* What the steps of the host were answered so far, in the order of the script. So many rows as go into the room are
 * written to its front, and `*needed` is how many there are: VQ_DONE, or VQ_NO_ROOM where some were left out.
 * VQ_NO_MEMORY, VQ_NOT_HOST (another actor is held), VQ_WRONG_KIND (a plan is held): nothing was written. The size of
 * the room is in rows. */
VQ_ASK enum vq_code vq_answers(const struct vq_handle *handle, struct vq_answered *room, size_t size, size_t *needed);

/* The bytes of a buffer, numbered from 0 in the order of the script, once all jobs are finished: as vq_answers. Of a
 * run over a board the host is asked, once no other actor of it is open; the board is closed by that. VQ_UNFINISHED,
 * VQ_SHARED (another actor is open), VQ_NO_BUFFER, VQ_NO_MEMORY, VQ_NOT_HOST, VQ_WRONG_KIND: nothing was written. */
VQ_ASK enum vq_code vq_bytes(struct vq_handle *handle, uint32_t buffer, uint8_t *room, size_t size, size_t *needed);

/* Ends what is held, wherever its run is, frees its memory, and zeroes the handle; of the actors of a board the last
 * one frees the run's. Of a zeroed handle it does nothing. */
VQ_CALL void vq_close(struct vq_handle *handle);

/* An output that isn't wanted, which is a number that is needed, a turn or a signal, is NULL, and so is a room of size
 * 0: the library itself wants each of them, so these give it one that nobody reads, and stand for the calls. */
VQ_INLINE struct vq_verdict vq_explain_nullable(const uint8_t *text, size_t length, uint8_t *room, size_t size,
                                                    size_t *needed)
{
    uint8_t no_room;
    size_t unread;
    return vq_explain(text, length, room ? room : &no_room, size, needed ? needed : &unread);
}

VQ_TOLD VQ_INLINE struct vq_verdict vq_share_nullable(const uint8_t *text, size_t length, struct vq_handle *room,
                                                          size_t size, size_t *needed)
{
    struct vq_handle no_room;
    size_t unread;
    return vq_share(text, length, room ? room : &no_room, size, needed ? needed : &unread);
}

VQ_TOLD VQ_INLINE enum vq_code vq_turn_nullable(struct vq_handle *actor, struct vq_turn_result *turn)
{
    struct vq_turn_result unread;
    return vq_turn(actor, turn ? turn : &unread);
}

VQ_TOLD VQ_INLINE enum vq_code vq_turn_of_nullable(struct vq_handle *run, uint32_t actor,
                                                       struct vq_turn_result *turn)
{
    struct vq_turn_result unread;
    return vq_turn_of(run, actor, turn ? turn : &unread);
}

VQ_TOLD VQ_INLINE enum vq_code vq_op_nullable(const struct vq_handle *handle, uint32_t op, struct vq_signal *signal)
{
    struct vq_signal unread;
    return vq_op(handle, op, signal ? signal : &unread);
}

VQ_TOLD VQ_INLINE enum vq_code vq_answers_nullable(const struct vq_handle *handle, struct vq_answered *room,
                                                       size_t size, size_t *needed)
{
    struct vq_answered no_room;
    size_t unread;
    return vq_answers(handle, room ? room : &no_room, size, needed ? needed : &unread);
}

VQ_TOLD VQ_INLINE enum vq_code vq_bytes_nullable(struct vq_handle *handle, uint32_t buffer, uint8_t *room,
                                                     size_t size, size_t *needed)
{
    uint8_t no_room;
    size_t unread;
    return vq_bytes(handle, buffer, room ? room : &no_room, size, needed ? needed : &unread);
}

#define vq_explain vq_explain_nullable
#define vq_share vq_share_nullable
#define vq_turn vq_turn_nullable
#define vq_turn_of vq_turn_of_nullable
#define vq_op vq_op_nullable
#define vq_answers vq_answers_nullable
#define vq_bytes vq_bytes_nullable

#ifdef __cplusplus
}
#endif

#endif

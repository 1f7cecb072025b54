/* Tests the face for C on the scripts that are named: prints of each the first line of its words, and stops with a line
 * and status 1 where something is not as vq.h says. Four threads ask at once; allocations are refused, each in turn.
 */
#include <pthread.h>
#include <stdio.h>
#include <stdlib.h>
#include <string.h>

#include "testing.h"
#include "vq.h"

enum { LONGEST = 1 << 23, THREADS = 4, ROUNDS = 3, WORDS = 512 };

static int same(struct vq_verdict a, struct vq_verdict b)
{
    return a.code == b.code && a.first == b.first && a.second == b.second;
}

struct text {
    const char *name;
    const uint8_t *bytes;
    size_t length;
    struct vq_verdict verdict;
};

static void *ask(void *of)
{
    const struct text *text = of;
    for (int round = 0; round < ROUNDS; round++)
        if (!same(vq_check(text->bytes, text->length), text->verdict))
            fail(text->name, "another thread got another verdict");
    return NULL;
}

static void on_threads(struct text *text)
{
    pthread_t threads[THREADS];
    for (int i = 0; i < THREADS; i++)
        if (pthread_create(&threads[i], NULL, ask, text) != 0)
            fail(text->name, "no thread");
    for (int i = 0; i < THREADS; i++)
        pthread_join(threads[i], NULL);
}

/* Words go into a room as far as they fit, and no further. */
static void in_small_rooms(const struct text *text, const uint8_t *words, size_t needed)
{
    for (size_t size = 0; size < needed + 2; size += 1 + needed / 3) {
        uint8_t room[WORDS];
        size_t again;
        memset(room, 0xaa, sizeof room);
        if (!same(vq_explain(text->bytes, text->length, room, size, &again), text->verdict) || again != needed)
            fail(text->name, "a smaller room got another answer");
        size_t written = size < needed ? size : needed;
        if (memcmp(room, words, written) != 0)
            fail(text->name, "a smaller room got other words");
        for (size_t i = written; i < sizeof room; i++)
            if (room[i] != 0xaa)
                fail(text->name, "bytes behind the words were written");
    }
}

#ifndef WITHOUT_REFUSALS
/* Each allocation in turn is refused: then there was no memory, or it wasn't needed. */
static void without_memory(const struct text *text)
{
    for (unsigned long n = 1, step = 1; ; n += step, step = 1 + n / 40) {
        uint8_t room[WORDS];
        size_t needed;
        left = n;
        struct vq_verdict verdict = vq_explain(text->bytes, text->length, room, sizeof room, &needed);
        int came = left == 0;
        left = 0;
        if (!came) {
            if (!same(verdict, text->verdict))
                fail(text->name, "another verdict with all memory");
            return;
        }
        if (verdict.code == VQ_NO_MEMORY) {
            if (needed != strlen("no memory\n") || memcmp(room, "no memory\n", needed) != 0)
                fail(text->name, "other words for want of memory");
        } else if (!same(verdict, text->verdict))
            fail(text->name, "another verdict for want of memory");
    }
}
#endif

static void test(const char *name, uint8_t *bytes)
{
    FILE *file = fopen(name, "rb");
    if (file == NULL)
        fail(name, "can't be read");
    struct text text = {name, bytes, fread(bytes, 1, LONGEST, file), {0, 0, 0}};
    fclose(file);
    uint8_t words[WORDS];
    size_t needed;
    text.verdict = vq_explain(bytes, text.length, words, sizeof words, &needed);
    if (needed > sizeof words || !same(vq_check(bytes, text.length), text.verdict))
        fail(name, "the two calls differ");
    if (!same(vq_explain(bytes, text.length, NULL, 0, NULL), text.verdict))
        fail(name, "without a room the verdict differs");
    on_threads(&text);
    in_small_rooms(&text, words, needed);
#ifndef WITHOUT_REFUSALS
    without_memory(&text);
#endif
    size_t line = (size_t)((uint8_t *)memchr(words, '\n', needed) - words);
    printf("%.*s\n", (int)line, (const char *)words);
}

int main(int argc, char **argv)
{
    struct vq_versions version = vq_version();
    if (version.face != 4 || version.script != 2)
        fail("vq_version", "another version");
    uint8_t *bytes = malloc(LONGEST);
    if (bytes == NULL)
        fail("tests", "no memory");
    for (int i = 1; i < argc; i++)
        test(argv[i], bytes);
    free(bytes);
    return 0;
}

/* What a shader's code does with its bindings (SPIR-V 1.6): by the decorations of its variables and by each instruction
 * that loads, stores, samples, reads or writes through one. Of an array of descriptors it is one element where the
 * index is a constant of the code, and else all. An access by a pointer or an image that came by a function's
 * argument, or from a choice between two, isn't seen; of atomic operations only that they read. */
#include "capture.h"

#include <stdlib.h>

enum {
    HEADER_WORDS = 5,
    OP_TYPE_ARRAY = 28,
    OP_TYPE_RUNTIME_ARRAY = 29,
    OP_TYPE_POINTER = 32,
    OP_CONSTANT = 43,
    OP_FUNCTION_CALL = 57,
    OP_VARIABLE = 59,
    OP_IMAGE_TEXEL_POINTER = 60,
    OP_LOAD = 61,
    OP_STORE = 62,
    OP_COPY_MEMORY = 63,
    OP_ACCESS_CHAIN = 65,
    OP_IN_BOUNDS_ACCESS_CHAIN = 66,
    OP_PTR_ACCESS_CHAIN = 67,
    OP_IN_BOUNDS_PTR_ACCESS_CHAIN = 70,
    OP_DECORATE = 71,
    OP_COPY_OBJECT = 83,
    OP_SAMPLED_IMAGE = 86,
    OP_IMAGE_SAMPLE_IMPLICIT_LOD = 87,
    OP_IMAGE_READ = 98,
    OP_IMAGE_WRITE = 99,
    OP_IMAGE = 100,
    OP_ATOMIC_LOAD = 227,
    OP_ATOMIC_STORE = 228,
    OP_ATOMIC_XOR = 242,
    OP_IMAGE_SPARSE_SAMPLE_IMPLICIT_LOD = 305,
    OP_IMAGE_SPARSE_READ = 320,
    DECORATION_BINDING = 33,
    DECORATION_DESCRIPTOR_SET = 34,
    MOST_IDS = 1 << 22
};

/* What is known of an id: its decorations; the use that it leads to, as its place in `uses` plus 1; of a constant its
 * value; and whether it is an array as a type, a pointer to one as a type, or a variable that is one. */
struct id {
    uint32_t set, binding;
    uint32_t leads_to, value;
    bool has_binding, is_constant, is_array;
};

struct reading {
    struct pipeline *to;
    struct id *ids;
    uint32_t bound, stage;
};

/* A use of its own for an id: of all that a variable has, or of an element. */
static bool add_use(struct reading *r, uint32_t id, struct use u)
{
    struct pipeline *p = r->to;
    if (!has_room((void **)&p->uses, &p->room, p->count, sizeof *p->uses))
        return false;
    p->uses[p->count++] = u;
    r->ids[id].leads_to = (uint32_t)p->count;
    return true;
}

static bool declare(struct reading *r, uint32_t type, uint32_t id)
{
    struct id *variable = &r->ids[id];
    variable->is_array = type < r->bound && r->ids[type].is_array;
    return !variable->has_binding
           || add_use(r, id, (struct use){variable->set, variable->binding, r->stage, .element = ANY_ELEMENT});
}

/* Types and constants, of `words` words with the first. */
static void learn(struct reading *r, uint32_t op, uint32_t words, const uint32_t *a)
{
    if ((op == OP_TYPE_ARRAY || op == OP_TYPE_RUNTIME_ARRAY) && words > 2 && a[0] < r->bound)
        r->ids[a[0]].is_array = true;
    if (op == OP_TYPE_POINTER && words > 3 && a[0] < r->bound && a[2] < r->bound)
        r->ids[a[0]].is_array = r->ids[a[2]].is_array;
    if (op == OP_CONSTANT && words == 4 && a[1] < r->bound) {
        r->ids[a[1]].is_constant = true;
        r->ids[a[1]].value = a[2];
    }
}

static struct use *use_of(struct reading *r, uint32_t id)
{
    return id < r->bound && r->ids[id].leads_to ? &r->to->uses[r->ids[id].leads_to - 1] : NULL;
}

static void lead(struct reading *r, uint32_t id, uint32_t from)
{
    if (id < r->bound && from < r->bound)
        r->ids[id].leads_to = r->ids[from].leads_to;
}

static void decorate(struct reading *r, uint32_t words, const uint32_t *a)
{
    if (words < 4 || a[0] >= r->bound)
        return;
    if (a[1] == DECORATION_DESCRIPTOR_SET)
        r->ids[a[0]].set = a[2];
    if (a[1] == DECORATION_BINDING) {
        r->ids[a[0]].binding = a[2];
        r->ids[a[0]].has_binding = true;
    }
}

static bool samples(uint32_t op)
{
    return (op >= OP_IMAGE_SAMPLE_IMPLICIT_LOD && op <= OP_IMAGE_READ)
           || (op >= OP_IMAGE_SPARSE_SAMPLE_IMPLICIT_LOD && op <= OP_IMAGE_SPARSE_READ && op != 316);
}

static bool leads(uint32_t op)
{
    return (op >= OP_ACCESS_CHAIN && op <= OP_PTR_ACCESS_CHAIN) || op == OP_IN_BOUNDS_PTR_ACCESS_CHAIN
           || op == OP_COPY_OBJECT || op == OP_SAMPLED_IMAGE || op == OP_IMAGE || op == OP_IMAGE_TEXEL_POINTER
           || op == OP_LOAD;
}

/* Whether a chain goes to an element of an array of descriptors that a constant names. */
static bool is_element(const struct reading *r, uint32_t op, uint32_t words, const uint32_t *a)
{
    return (op == OP_ACCESS_CHAIN || op == OP_IN_BOUNDS_ACCESS_CHAIN) && words > 4 && a[1] < r->bound && a[2] < r->bound
           && a[3] < r->bound && r->ids[a[2]].is_array && r->ids[a[2]].leads_to && r->ids[a[3]].is_constant;
}

/* One use for an element, however often it is asked for. */
static bool lead_to_element(struct reading *r, const uint32_t *a)
{
    const struct pipeline *p = r->to;
    const struct use whole = p->uses[r->ids[a[2]].leads_to - 1];
    uint32_t element = r->ids[a[3]].value;
    for (size_t i = 0; i < p->count; i++) {
        const struct use *u = &p->uses[i];
        if (u->set == whole.set && u->binding == whole.binding && u->stage == r->stage && u->element == element) {
            r->ids[a[1]].leads_to = (uint32_t)i + 1;
            return true;
        }
    }
    return add_use(r, a[1], (struct use){whole.set, whole.binding, r->stage, .element = element});
}

/* What the result of an instruction leads to. */
static bool go_on(struct reading *r, uint32_t op, uint32_t words, const uint32_t *a)
{
    if (is_element(r, op, words, a))
        return lead_to_element(r, a);
    if (leads(op) && words > 3)
        lead(r, a[1], a[2]);
    return true;
}

/* The accesses of one instruction, of `words` words with its first; `a` are the others. */
static void access(struct reading *r, uint32_t op, uint32_t words, const uint32_t *a)
{
    struct use *first = words > 1 ? use_of(r, a[0]) : NULL, *second = words > 2 ? use_of(r, a[1]) : NULL;
    struct use *third = words > 3 ? use_of(r, a[2]) : NULL;
    if (first && (op == OP_STORE || op == OP_COPY_MEMORY))
        first->stores = true;
    if (second && op == OP_COPY_MEMORY)
        second->loads = true;
    if (first && op == OP_IMAGE_WRITE)
        first->writes = true;
    if (third && op == OP_LOAD)
        third->loads = true;
    if (third && samples(op))
        third->reads = true;
    if (third && op >= OP_ATOMIC_LOAD && op <= OP_ATOMIC_XOR && op != OP_ATOMIC_STORE)
        third->loads = third->reads = true;
}

/* A function's accesses through its arguments aren't seen. */
static void hand_over(struct reading *r, uint32_t words, const uint32_t *a)
{
    for (uint32_t i = 3; i + 1 < words; i++)
        if (use_of(r, a[i]))
            count_unseen(UNSEEN_ARGUMENTS);
}

static bool read_all(struct reading *r, const uint32_t *code, size_t count)
{
    for (size_t i = HEADER_WORDS; i < count;) {
        uint32_t op = code[i] & 0xffff, words = code[i] >> 16;
        const uint32_t *a = code + i + 1;
        if (words == 0 || words > count - i)
            return true;
        if (op == OP_DECORATE)
            decorate(r, words, a);
        else if (op == OP_VARIABLE && words > 3 && a[1] < r->bound && !declare(r, a[0], a[1]))
            return false;
        learn(r, op, words, a);
        access(r, op, words, a);
        if (op == OP_FUNCTION_CALL)
            hand_over(r, words, a);
        if (!go_on(r, op, words, a))
            return false;
        i += words;
    }
    return true;
}

bool reflect(struct pipeline *to, const uint32_t *code, size_t size, uint32_t stage)
{
    size_t count = size / sizeof *code;
    if (count < HEADER_WORDS || code[3] > MOST_IDS)
        return true;
    struct reading r = {.to = to, .ids = get(code[3], sizeof *r.ids), .bound = code[3], .stage = stage};
    bool is_read = r.ids && read_all(&r, code, count);
    free(r.ids);
    return is_read;
}

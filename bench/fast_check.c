/* Check of the optimised baseline: the records are decoded once into an array of 16-byte nodes, and a few passes go over it without
 * recursion. */
#include "fast.h"

#include <string.h>

/* What check finds out of each node: its size, its place in a walk from the root on, its depth, the depth up to which it is needed at
 * once, the first group upward, the depth of the last node that the way up from a case may come to, how often it is named, its type and
 * its bounds. */
struct tree {
    uint16_t size[COUPLERFINCH_NODES], enter[COUPLERFINCH_NODES], depth[COUPLERFINCH_NODES], top[COUPLERFINCH_NODES];
    uint16_t home[COUPLERFINCH_NODES], way[COUPLERFINCH_NODES], named[COUPLERFINCH_NODES];
    uint8_t type[COUPLERFINCH_NODES];
    uint32_t evaluated[COUPLERFINCH_NODES], updated[COUPLERFINCH_NODES];
    int edition;
};

enum { S = 1, B, C, E };

/* The sort of a kind's nodes, and those of its children, which stand in its first fields. */
static const uint8_t sorts[KINDS] = {0, S, S, S, S, S, S, S, S, B, C, 0, 0, 0, 0, 0, E, E, E, E, E, E, E, E, E, E, E, E, E, E};
static const uint8_t children[KINDS][3] = {
    [EXT] = {E},        [DELAY] = {S},   [LET] = {S, S},   [SWITCH] = {S, S, S}, [GROUP] = {S, B}, [UNTIL] = {S, C},
    [BRANCH] = {S, B},  [CASE] = {S, C}, [ADD] = {E, E},   [SUBTRACT] = {E, E},  [MULTIPLY] = {E, E}, [DIVIDE] = {E, E},
    [LESS] = {E, E},    [EQUAL] = {E, E}, [NOT] = {E},     [AND] = {E, E},       [OR] = {E, E},    [IF] = {E, E, E},
    [JUST] = {E},       [TAKE] = {E, E, E},
};
static const uint8_t child_counts[KINDS] = {
    [EXT] = 1, [DELAY] = 1, [LET] = 2, [SWITCH] = 3, [GROUP] = 2, [UNTIL] = 2, [BRANCH] = 2, [CASE] = 2, [ADD] = 2, [SUBTRACT] = 2,
    [MULTIPLY] = 2, [DIVIDE] = 2, [LESS] = 2, [EQUAL] = 2, [NOT] = 1, [AND] = 2, [OR] = 2, [IF] = 3, [JUST] = 1, [TAKE] = 3,
};

/* The bits of a record's first 8 bytes that are zero for its kind. */
#define NO_TYPE 0xff00ull
#define NO_A 0xffff0000ull
#define NO_B 0xffff00000000ull
#define NO_C 0xffff000000000000ull
static const uint64_t zeros[KINDS] = {
    [INPUT] = NO_TYPE | NO_B | NO_C, [TIME] = NO_TYPE | NO_A | NO_B | NO_C, [EXT] = NO_TYPE | NO_B | NO_C, [DELAY] = NO_C,
    [LET] = NO_C, [SWITCH] = 0, [GROUP] = NO_TYPE | NO_C, [UNTIL] = NO_TYPE | NO_C, [BRANCH] = NO_C, [CASE] = NO_TYPE,
    [VARIABLE] = NO_TYPE | NO_B | NO_C, [CONSTANT] = NO_A | NO_C, [ADD] = NO_TYPE | NO_C, [SUBTRACT] = NO_TYPE | NO_C,
    [MULTIPLY] = NO_TYPE | NO_C, [DIVIDE] = NO_TYPE | NO_C, [LESS] = NO_TYPE | NO_C, [EQUAL] = NO_TYPE | NO_C,
    [NOT] = NO_TYPE | NO_B | NO_C, [AND] = NO_TYPE | NO_C, [OR] = NO_TYPE | NO_C, [IF] = NO_TYPE, [JUST] = NO_TYPE | NO_B | NO_C,
    [TAKE] = 0,
};

uint32_t fast_refuse(couplerfinch_answer *answer, uint32_t code, uint32_t place)
{
    *answer = (couplerfinch_answer){.code = code, .place = place};
    return code;
}

/* The check of a block, four bytes at a time. */
static uint32_t block_sum(const uint8_t *block)
{
    uint32_t sum = 0;
    for (uint32_t i = 0; i < 508; i += 4) {
        uint32_t four = get32(block + i), b = four >> 8 & 255, c = four >> 16 & 255, d = four >> 24;
        sum += (i + 1) * ((four & 255) + b + c + d) + b + 2 * c + 3 * d;
    }
    return sum;
}

/* Code 4 at a record before the end. */
static int node_wrong(const uint8_t *at)
{
    uint64_t first = get64(at);
    unsigned kind = first & 255, type = first >> 8 & 255;
    if (kind >= KINDS || !sorts[kind] || first & zeros[kind])
        return 1;
    if (kind == DELAY || kind == CONSTANT)
        return !value_fits(type, first >> 32 & 65535, get32(at + 8));
    if (get32(at + 8))
        return 1;
    if (kind == INPUT)
        return (first >> 16 & 65535) > 7;
    if (kind == LET)
        return !is_plain(type) && !is_maybe(type);
    return (kind == SWITCH || kind == BRANCH || kind == TAKE) && !is_plain(type);
}

/* Code 4; it decodes the records too. */
static unsigned decode_all(struct program *p, const uint8_t *bytes, unsigned blocks)
{
    unsigned count = 0;
    for (unsigned k = 0; k < blocks; k++) {
        const uint8_t *at = bytes + COUPLERFINCH_BLOCK * k + 4, *end = at + 12 * PER_BLOCK;
        for (const uint8_t *from = at; at < end; at += 12) {
            if (at[0] == 0 && k + 1 == blocks && at > from) {
                for (unsigned place = count; at < end; at += 12, place++)
                    if (get64(at) | get32(at + 8))
                        return place;
                break;
            }
            if (node_wrong(at))
                return count;
            struct code *n = &p->code[count++];
            memcpy(n, at, 8);
            n->value = (uint64_t)n->type | (n->b ? 256 : 0) | (uint64_t)get32(at + 8) << 32;
        }
    }
    p->count = count;
    return NOWHERE;
}

/* Codes 1-4. */
static uint32_t format_fault(struct program *p, const uint8_t *bytes, size_t length, couplerfinch_answer *answer)
{
    if (length == 0 || length > COUPLERFINCH_BLOCKS * COUPLERFINCH_BLOCK || length % COUPLERFINCH_BLOCK)
        return fast_refuse(answer, 1, 0);
    unsigned blocks = (unsigned)(length / COUPLERFINCH_BLOCK);
    for (unsigned k = 0; k < blocks; k++)
        if (block_sum(bytes + COUPLERFINCH_BLOCK * k) != get32(bytes + COUPLERFINCH_BLOCK * k + 508))
            return fast_refuse(answer, 2, k);
    for (unsigned k = 0; k < blocks; k++)
        if (get32(bytes + COUPLERFINCH_BLOCK * k) != (k | blocks << 16 | (uint32_t)bytes[3] << 24) || bytes[3] > 1)
            return fast_refuse(answer, 3, k);
    unsigned place = decode_all(p, bytes, blocks);
    return place != NOWHERE ? fast_refuse(answer, 4, place) : 0;
}

/* How many children a node names. */
static inline unsigned count_children(const struct code *n)
{
    return child_counts[n->kind] - (sorts[n->kind] != S && sorts[n->kind] != E && n->b == NO_NEXT);
}

/* Code 5; it finds sizes too. Of the faults the smallest place counts: a wrong child, or a node not named once. */
static unsigned shape_fault(const struct program *p, struct tree *t)
{
    unsigned first = p->count;
    memset(t->named, 0, sizeof *t->named * p->count);
    for (unsigned i = 0; i < p->count; i++) {
        const struct code *n = &p->code[i];
        unsigned size = 1, many = count_children(n);
        for (unsigned f = 0; f < many; f++) {
            unsigned x = n->field[f];
            if (x >= i || sorts[p->code[x].kind] != children[n->kind][f])
                first = i < first ? i : first;
            if (x >= i)
                continue;
            t->named[x]++;
            size += t->size[x];
        }
        t->size[i] = (uint16_t)size;
    }
    for (unsigned i = 0; i + 1 < p->count && i < first; i++)
        if (t->named[i] != 1)
            return i;
    if (first == p->count && sorts[p->code[p->count - 1].kind] != S)
        return p->count - 1;
    return first == p->count ? NOWHERE : first;
}

/* Whether the way up by field f of a node of the kind keeps its group. */
static int keeps_home(unsigned kind, unsigned f)
{
    return kind == BRANCH || (f == 1 && (kind == LET || kind == UNTIL || kind == CASE));
}

/* Whether a node of the kind needs at once what its field f needs. */
static int counts(unsigned kind, unsigned f)
{
    return kind != DELAY && kind != CASE && !(f == 1 && (kind == SWITCH || kind == UNTIL));
}

/* A child of node i takes over depths and group. The way up ends at the first group in edition one, and goes on in edition two. */
static inline void go_to(const struct code *n, struct tree *t, unsigned i, unsigned f, unsigned x, int expression)
{
    t->depth[x] = (uint16_t)(t->depth[i] + 1);
    t->top[x] = expression || counts(n->kind, f) ? t->top[i] : t->depth[x];
    if (expression)
        return;
    int keeps = keeps_home(n->kind, f);
    t->home[x] = n->kind == GROUP ? (uint16_t)i : keeps ? t->home[i] : (uint16_t)NOWHERE;
    t->way[x] = n->kind == GROUP ? (t->edition ? t->way[i] : t->depth[i]) : keeps ? t->way[i] : t->depth[x];
}

/* From the root down: places, depths and groups. */
static void go_down(const struct program *p, struct tree *t)
{
    unsigned root = p->count - 1;
    t->enter[root] = t->depth[root] = t->top[root] = t->way[root] = 0;
    t->home[root] = NOWHERE;
    for (unsigned i = root + 1; i-- > 0;) {
        const struct code *n = &p->code[i];
        unsigned next = t->enter[i] + 1u, many = count_children(n);
        for (unsigned f = 0; f < many; f++) {
            unsigned x = n->field[f];
            t->enter[x] = (uint16_t)next;
            next += t->size[x];
            go_to(n, t, i, f, x, n->kind == EXT || n->kind >= VARIABLE);
        }
    }
}

/* Whether node i stands in the part x. */
static int within(const struct tree *t, unsigned i, unsigned x)
{
    return t->enter[i] >= t->enter[x] && t->enter[i] < t->enter[x] + t->size[x];
}

static int in_scope(const struct program *p, const struct tree *t, unsigned i, unsigned binder)
{
    if (binder >= p->count)
        return 0;
    const struct code *n = &p->code[binder];
    switch (n->kind) {
    case LET: return within(t, i, n->a) || within(t, i, n->b);
    case SWITCH: case TAKE: return within(t, i, n->c);
    case BRANCH: return within(t, i, n->a);
    default: return 0;
    }
}

/* Whether the way up from a case meets the group of its target. */
static int target_met(const struct program *p, const struct tree *t, unsigned i, unsigned target)
{
    if (target >= p->count || p->code[target].kind != BRANCH)
        return 0;
    unsigned group = t->home[target];
    return within(t, i, group) && t->depth[group] >= t->way[i];
}

/* Code 6. */
static unsigned scope_fault(const struct program *p, const struct tree *t)
{
    for (unsigned i = 0; i < p->count; i++) {
        const struct code *n = &p->code[i];
        if (n->kind == VARIABLE && !in_scope(p, t, i, n->a))
            return i;
        if (n->kind == CASE && !target_met(p, t, i, n->c))
            return i;
    }
    return NOWHERE;
}

/* The type of a node by its own rule, or -1. A branch passes on its body's if the rest of the list has it too, else 255. */
static int type_of(const struct program *p, const uint8_t *type, const struct code *n)
{
    switch (n->kind) {
    case INPUT: return n->a <= 3 ? INT : MAYBE + INT;
    case TIME: return INT;
    case EXT: case UNTIL: return type[n->a];
    case DELAY: return type[n->a] == n->type ? type[n->a] : -1;
    case LET: return type[n->a] == n->type ? type[n->b] : -1;
    case SWITCH: return type[n->b] == n->type + MAYBE && type[n->a] == type[n->c] ? type[n->a] : -1;
    case GROUP: return type[n->a] == type[n->b] ? type[n->a] : -1;
    case BRANCH: return n->b == NO_NEXT || type[n->a] == type[n->b] ? type[n->a] : 255;
    case CASE: return type[n->a] == p->code[n->c].type + MAYBE ? 0 : -1;
    case VARIABLE: return p->code[n->a].type;
    case CONSTANT: return n->type;
    case ADD: case SUBTRACT: case MULTIPLY: return type[n->a] == INT && type[n->b] == INT ? INT : -1;
    case DIVIDE: return type[n->a] == INT && type[n->b] == INT ? MAYBE + INT : -1;
    case LESS: case EQUAL: return type[n->a] == INT && type[n->b] == INT ? BOOL : -1;
    case NOT: return type[n->a] == BOOL ? BOOL : -1;
    case AND: case OR: return type[n->a] == BOOL && type[n->b] == BOOL ? BOOL : -1;
    case IF: return type[n->a] == BOOL && type[n->b] == type[n->c] ? type[n->b] : -1;
    case JUST: return is_plain(type[n->a]) ? type[n->a] + MAYBE : -1;
    default: return type[n->a] == n->type + MAYBE && type[n->b] == type[n->c] ? type[n->b] : -1;
    }
}

/* Codes 7 and 8. */
static uint32_t type_fault(const struct program *p, struct tree *t, couplerfinch_answer *answer)
{
    unsigned least = NOWHERE;
    for (unsigned i = 0; i < p->count; i++) {
        const struct code *n = &p->code[i];
        int type = type_of(p, t->type, n);
        if (type < 0)
            return fast_refuse(answer, 7, i);
        t->type[i] = (uint8_t)type;
        if (n->kind != VARIABLE || n->a >= least || p->code[n->a].kind != LET)
            continue;
        unsigned definition = p->code[n->a].a;
        if (within(t, i, definition) && t->top[i] <= t->depth[definition])
            least = n->a;
    }
    return least != NOWHERE ? fast_refuse(answer, 8, least) : 0;
}

static uint32_t larger(uint32_t x, uint32_t y) { return x > y ? x : y; }

/* The bounds of node i, from those of the nodes before it. */
static void bound_node(const struct code *n, unsigned i, uint32_t *e, uint32_t *u)
{
    e[i] = u[i] = 1;
    switch (n->kind) {
    case EXT: case NOT: case JUST: e[i] += e[n->a]; break;
    case DELAY: u[i] += e[n->a] + u[n->a]; break;
    case LET: e[i] += e[n->a] + e[n->b]; u[i] += e[n->a] + u[n->a] + u[n->b]; break;
    case SWITCH: e[i] += larger(e[n->a], e[n->c]); u[i] += e[n->b] + u[n->b] + larger(u[n->a], u[n->c]); break;
    case GROUP: e[i] += larger(e[n->a], e[n->b]); u[i] += larger(u[n->a], u[n->b]); break;
    case UNTIL: e[i] += e[n->a]; u[i] += u[n->b] + u[n->a]; break;
    case BRANCH:
        e[i] = n->b == NO_NEXT ? e[n->a] : larger(e[n->a], e[n->b]);
        u[i] = n->b == NO_NEXT ? u[n->a] : larger(u[n->a], u[n->b]);
        break;
    case CASE: u[i] = e[n->a] + u[n->a] + (n->b == NO_NEXT ? 0 : u[n->b]); break;
    case IF: case TAKE: e[i] += e[n->a] + larger(e[n->b], e[n->c]); break;
    case INPUT: case TIME: case VARIABLE: case CONSTANT: break;
    default: e[i] += e[n->a] + e[n->b];
    }
}

/* The bound of an accepted program, its cells: their numbers, and how many stand below each node, and the groups of its branches. */
static void measure(struct program *p, struct tree *t)
{
    p->cells = 0;
    for (unsigned i = 0; i < p->count; i++) {
        struct code *n = &p->code[i];
        unsigned held = (unsigned)has_cell(n->kind);
        bound_node(n, i, t->evaluated, t->updated);
        unsigned many = n->kind == EXT || n->kind > CASE ? 0 : count_children(n);
        for (unsigned f = 0; f < many; f++)
            held += p->held[n->field[f]];
        p->held[i] = (uint16_t)held;
        if (n->kind == BRANCH)
            n->value = t->home[i];
        else if (n->kind == SWITCH)
            n->value = p->cells++;
        else if (has_cell(n->kind))
            n->c = (uint16_t)p->cells++;
    }
    p->bound = t->evaluated[p->count - 1] + t->updated[p->count - 1];
    p->root_type = t->type[p->count - 1];
}

/* Codes 1-8. */
uint32_t fast_decode(struct program *p, const uint8_t *bytes, size_t length, couplerfinch_answer *answer)
{
    struct tree t;
    if (format_fault(p, bytes, length, answer))
        return answer->code;
    unsigned place = shape_fault(p, &t);
    if (place != NOWHERE)
        return fast_refuse(answer, 5, place);
    t.edition = bytes[3];
    go_down(p, &t);
    if ((place = scope_fault(p, &t)) != NOWHERE)
        return fast_refuse(answer, 6, place);
    if (type_fault(p, &t, answer))
        return answer->code;
    measure(p, &t);
    *answer = (couplerfinch_answer){.nodes = p->count, .cells = p->cells, .bound = p->bound, .type = p->root_type};
    return 0;
}

uint32_t fast_check(const uint8_t *program, size_t program_length, couplerfinch_answer *answer)
{
    struct program p;
    return fast_decode(&p, program, program_length, answer);
}

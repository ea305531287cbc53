/* A decoded program made into register code, once for a run. The evaluation of a signal is made once: what its update would evaluate
 * again, a let's definition, is kept with its count from the evaluation of the same step. Variables, constants, ext, until and let cost
 * no instruction; a comparison and its branch are one; work is added once for a run of instructions. */
#include "strong.h"

#include <stdlib.h>
#include <string.h>

static const void *const *place_of;

static uint32_t emit(struct machine *m, enum operation op, unsigned d, unsigned a, unsigned b, int w)
{
    if (m->count == MOST_CODE)
        abort();
    m->code[m->count] = (struct instruction){place_of[op], (uint16_t)d, (uint16_t)a, (uint16_t)b, 0, w, 0};
    return m->count++;
}

/* The work that was counted, for an instruction that adds it. */
static int taken(struct machine *m)
{
    int w = m->work;
    m->work = 0;
    return w;
}

/* The register in which the value of node i stands. */
static unsigned in(const struct machine *m, unsigned i)
{
    for (;;) {
        const struct code *n = &m->p.code[i];
        const struct code *binder = &m->p.code[n->a];
        if (n->kind == EXT || n->kind == UNTIL)
            i = n->a;
        else if (n->kind == LET)
            i = n->b;
        else if (n->kind != VARIABLE)
            return i;
        else if (binder->kind == LET || binder->kind == TAKE)
            i = binder->a;
        else
            return COUPLERFINCH_NODES + n->a;
    }
}

/* The rules of an evaluation where they are always the same, else -1. */
static int fixed(struct machine *m, unsigned i)
{
    const struct code *n = &m->p.code[i];
    int x, y, z;
    if (m->fixed[i] != -2)
        return m->fixed[i];
    switch (n->kind) {
    case INPUT: case TIME: case DELAY: case VARIABLE: case CONSTANT: return m->fixed[i] = 1;
    case EXT: case UNTIL: case NOT: case JUST: x = fixed(m, n->a); return m->fixed[i] = x < 0 ? -1 : x + 1;
    case SWITCH: case GROUP: return m->fixed[i] = -1;
    case IF: case TAKE:
        x = fixed(m, n->a), y = fixed(m, n->b), z = fixed(m, n->c);
        return m->fixed[i] = x < 0 || y < 0 || y != z ? -1 : 1 + x + y;
    default: x = fixed(m, n->a), y = fixed(m, n->b); return m->fixed[i] = x < 0 || y < 0 ? -1 : 1 + x + y;
    }
}

static void expression(struct machine *m, unsigned i, unsigned d);

/* A test, as a branch that is taken if it is false (turned: if it is true); the instruction whose place is still open. */
static uint32_t test(struct machine *m, unsigned i, int turned)
{
    const struct code *n = &m->p.code[i];
    if (n->kind == NOT) {
        m->work++;
        return test(m, n->a, !turned);
    }
    if (n->kind != LESS && n->kind != EQUAL) {
        expression(m, i, i);
        return emit(m, turned ? IF_TRUE : IF_FALSE, 0, in(m, i), 0, 0);
    }
    m->work++;
    expression(m, n->a, n->a);
    expression(m, n->b, n->b);
    enum operation op = n->kind == LESS ? (turned ? IF_LESS : IF_NOT_LESS) : (turned ? IF_SAME : IF_OTHER);
    return emit(m, op, 0, in(m, n->a), in(m, n->b), 0);
}

/* If and take: one arm is worked out, into register d. */
static void arms(struct machine *m, const struct code *n, unsigned d)
{
    unsigned yes = n->kind == IF ? n->b : n->c, no = n->kind == IF ? n->c : n->b;
    uint32_t other, end;
    if (n->kind == IF)
        other = test(m, n->a, 0);
    else {
        expression(m, n->a, n->a);
        other = emit(m, IF_ABSENT, 0, in(m, n->a), 0, 0);
    }
    int before = m->work;
    if (m->p.code[yes].kind <= CONSTANT) {
        m->work++;
        end = emit(m, MOVE_GO, d, in(m, yes), 0, 0);
    } else {
        expression(m, yes, d);
        end = emit(m, GO, 0, 0, 0, 0);
    }
    int after = m->work;
    m->work = before;
    m->code[other].to = m->count;
    expression(m, no, d);
    m->code[end].w = after - m->work;
    m->code[end].to = m->count;
}

/* Expression i into register d; a variable or a constant that is wanted in its own place costs nothing. */
static void expression(struct machine *m, unsigned i, unsigned d)
{
    static const enum operation op[KINDS] = {[ADD] = ADDED, [SUBTRACT] = LESS_BY, [MULTIPLY] = TIMES, [DIVIDE] = DIVIDED, [LESS] = IS_LESS,
                                             [EQUAL] = IS_EQUAL, [AND] = BOTH, [OR] = EITHER};
    const struct code *n = &m->p.code[i];
    m->work++;
    switch (n->kind) {
    case VARIABLE: case CONSTANT:
        if (d != i)
            emit(m, MOVE, d, in(m, i), 0, 0);
        return;
    case NOT: case JUST:
        expression(m, n->a, n->a);
        emit(m, n->kind == NOT ? NEGATED : LIFTED, d, in(m, n->a), 0, 0);
        return;
    case IF: case TAKE: arms(m, n, d); return;
    default:
        expression(m, n->a, n->a);
        expression(m, n->b, n->b);
        emit(m, op[n->kind], d, in(m, n->a), in(m, n->b), 0);
    }
}

static void evaluation(struct machine *m, unsigned i);

/* One part of a switch or group i: its evaluation ends in the register of i. The answer waits for its end. */
static uint32_t part_value(struct machine *m, unsigned i, struct part *at, unsigned part)
{
    at->evaluate = m->count;
    evaluation(m, part);
    return emit(m, MOVE_GO, i, in(m, part), 0, taken(m));
}

static void parts_value(struct machine *m, unsigned i)
{
    const struct code *n = &m->p.code[i];
    uint32_t ends[COUPLERFINCH_NODES], many = 0;
    emit(m, GO_EVALUATE, 0, strong_cell(n), 0, taken(m));
    ends[many++] = part_value(m, i, &m->first[i], n->a);
    if (n->kind == SWITCH)
        ends[many++] = part_value(m, i, &m->second[i], n->c);
    else
        for (unsigned j = n->b; j != NO_NEXT; j = m->p.code[j].b)
            ends[many++] = part_value(m, i, &m->second[j], m->p.code[j].a);
    while (many)
        m->code[ends[--many]].to = m->count;
}

static void evaluation(struct machine *m, unsigned i)
{
    const struct code *n = &m->p.code[i];
    int varies;
    m->work++;
    switch (n->kind) {
    case INPUT:
        if (n->a <= 3)
            emit(m, WORD_IN, i, 4 + 4 * n->a, 0, 0);
        else
            emit(m, EVENT_IN, i, 24 + 4 * (n->a - 4), n->a - 4, 0);
        return;
    case TIME: emit(m, WORD_IN, i, 0, 0, 0); return;
    case EXT: expression(m, n->a, n->a); return;
    case DELAY: emit(m, CELL_GET, i, n->c, 0, 0); return;
    case LET:
        varies = fixed(m, n->a) < 0;
        if (varies)
            emit(m, COUNT_FROM, i, 0, 0, taken(m));
        evaluation(m, n->a);
        if (varies)
            emit(m, COUNT_TO, i, 0, 0, taken(m));
        evaluation(m, n->b);
        return;
    case UNTIL: evaluation(m, n->a); return;
    default: parts_value(m, i);
    }
}

/* The cells in the order of a walk from the root on, so that those below a node stand together. */
static void list_cells(struct machine *m, unsigned i)
{
    const struct code *n = &m->p.code[i];
    unsigned from = m->cells_listed;
    if (n->kind <= CASE && n->kind != EXT && m->p.held[i]) {
        if (has_cell(n->kind))
            m->listed[m->cells_listed++] = (uint16_t)strong_cell(n);
        list_cells(m, n->a);
        if (n->kind != DELAY && n->b != NO_NEXT)
            list_cells(m, n->b);
        if (n->kind == SWITCH)
            list_cells(m, n->c);
    }
    m->below[i] = (struct span){(uint16_t)from, (uint16_t)(m->cells_listed - from)};
}

static void update(struct machine *m, unsigned i);

/* A switch: its event, and where that is absent its current part. */
static void update_switch(struct machine *m, unsigned i)
{
    const struct code *n = &m->p.code[i];
    evaluation(m, n->b);
    update(m, n->b);
    uint32_t at = emit(m, SWITCHES, i, in(m, n->b), strong_cell(n), taken(m));
    m->first[i].update = m->count;
    update(m, n->a);
    uint32_t end = emit(m, GO, 0, 0, 0, taken(m));
    m->second[i].update = m->count;
    update(m, n->c);
    emit(m, WORK, 0, 0, 0, taken(m));
    m->code[at].to = m->code[end].to = m->count;
}

/* One part of group i. The answer waits for the group's end. */
static uint32_t update_part(struct machine *m, unsigned i, struct part *at, unsigned part)
{
    at->update = m->count;
    m->within[i] = (uint16_t)part;
    update(m, part);
    return emit(m, GO, 0, 0, 0, taken(m));
}

static void update_group(struct machine *m, unsigned i)
{
    const struct code *n = &m->p.code[i];
    uint32_t ends[COUPLERFINCH_NODES], many = 0;
    emit(m, GO_UPDATE, 0, strong_cell(n), 0, taken(m));
    ends[many++] = update_part(m, i, &m->first[i], n->a);
    for (unsigned j = n->b; j != NO_NEXT; j = m->p.code[j].b)
        ends[many++] = update_part(m, i, &m->second[j], m->p.code[j].a);
    m->group_end[i] = m->count;
    while (many)
        m->code[ends[--many]].to = m->count;
}

/* An until: a present event leaves for its target's group; else events and signal go on. */
static void update_until(struct machine *m, const struct code *n)
{
    for (unsigned j = n->b; j != NO_NEXT; j = m->p.code[j].b) {
        const struct code *one = &m->p.code[j];
        unsigned group = (unsigned)m->p.code[one->c].value;
        evaluation(m, one->a);
        uint32_t at = emit(m, TAKES, one->c, in(m, one->a), group, m->work);
        m->code[at].part = m->within[group];
    }
    for (unsigned j = n->b; j != NO_NEXT; j = m->p.code[j].b)
        update(m, m->p.code[j].a);
    update(m, n->a);
}

static void update(struct machine *m, unsigned i)
{
    const struct code *n = &m->p.code[i];
    m->work++;
    switch (n->kind) {
    case DELAY:
        evaluation(m, n->a);
        update(m, n->a);
        emit(m, CELL_PUT, n->c, in(m, n->a), 0, 0);
        return;
    case LET:
        if (fixed(m, n->a) < 0)
            emit(m, COUNTED, i, 0, 0, 0);
        else
            m->work += fixed(m, n->a);
        update(m, n->a);
        update(m, n->b);
        return;
    case SWITCH: update_switch(m, i); return;
    case GROUP: update_group(m, i); return;
    case UNTIL: update_until(m, n); return;
    default: return;
    }
}

void strong_code(struct machine *m, const void *const *places)
{
    unsigned root = m->p.count - 1;
    place_of = places;
    m->count = 0;
    m->work = 0;
    m->cells_listed = 0;
    memset(m->below, 0, sizeof m->below);
    for (unsigned i = 0; i < m->p.count; i++) {
        const struct code *n = &m->p.code[i];
        m->fixed[i] = -2;
        if (has_cell(n->kind))
            m->node_of[strong_cell(n)] = (uint16_t)i;
        if (n->kind == CONSTANT)
            m->value[i] = strong_value(n->value);
    }
    list_cells(m, root);
    evaluation(m, root);
    emit(m, SHOW, 0, in(m, root), m->p.root_type, 0);
    update(m, root);
    emit(m, STEPPED, 0, 0, 0, taken(m));
    for (uint32_t k = 0; k < m->count; k++)
        if (m->code[k].go == places[TAKES])
            m->code[k].to = m->group_end[m->code[k].b];
}

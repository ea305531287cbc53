/* A straightforward interpreter of the tables, as one would first write it in C: every visit reads the node's fields from the bytes of
 * the table, and evaluation and update recurse by node number. */
#include "straight.h"

#include <string.h>

struct value {
    uint8_t type, present;
    uint32_t word;
};

/* A run on its way. */
struct run {
    const struct tree *tree;
    uint8_t *state;
    const uint8_t *record;
    uint32_t work;
    int wrapped; /* whether a number wrapped so far */
    struct value caught;
    struct value bound[COUPLERFINCH_NODES];
};

static uint8_t *cell_of(const struct tree *t, uint8_t *state, unsigned i) { return state + 8 + 8 * t->cell[i]; }

static void put_value(uint8_t *at, struct value v, unsigned middle)
{
    at[0] = v.type;
    at[1] = v.present;
    at[2] = (uint8_t)middle;
    at[3] = (uint8_t)(middle >> 8);
    put32(at + 4, v.word);
}

static struct value get_value(const uint8_t *at) { return (struct value){at[0], at[1], get32(at + 4)}; }

/* All cells below a node, itself included, go to start. */
static void reset(const struct tree *t, uint8_t *state, unsigned i)
{
    struct node n = node_at(t->program, i);
    if (n.kind == DELAY)
        put_value(cell_of(t, state, i), (struct value){(uint8_t)n.type, (uint8_t)n.b, n.word}, 0);
    if (n.kind == SWITCH || n.kind == GROUP)
        memset(cell_of(t, state, i), 0, 8);
    if (n.kind <= EXT)
        return;
    reset(t, state, n.a);
    if (n.kind != DELAY && n.b != NO_NEXT)
        reset(t, state, n.b);
    if (n.kind == SWITCH)
        reset(t, state, n.c);
}

/* Whether a cell holds a value of a type, with a number in bytes 2-3. */
static int holds(const uint8_t *cell, unsigned type, unsigned middle)
{
    return cell[0] == type && get16(cell + 2) == middle && value_fits(type, cell[1], get32(cell + 4));
}

static int well(const struct tree *t, uint8_t *state, unsigned i, int current);

/* Branches are current if the group's cell names them; one of them must be named, unless the cell is zeros. */
static int well_group(const struct tree *t, uint8_t *state, unsigned i, int current)
{
    const uint8_t *cell = cell_of(t, state, i);
    struct node n = node_at(t->program, i);
    int zeros = get64(cell) == 0, named = zeros;
    if ((!current && !zeros) || !well(t, state, n.a, current && zeros))
        return 0;
    for (unsigned j = n.b; j != NO_NEXT;) {
        struct node branch = node_at(t->program, j);
        int entered = !zeros && get16(cell + 2) == j;
        if ((entered && !holds(cell, branch.type, j)) || !well(t, state, branch.a, current && entered))
            return 0;
        named |= entered;
        j = branch.b;
    }
    return named;
}

/* The cells below node i are valid, and start where they are not current. */
static int well(const struct tree *t, uint8_t *state, unsigned i, int current)
{
    struct node n = node_at(t->program, i);
    const uint8_t *cell = cell_of(t, state, i);
    switch (n.kind) {
    case DELAY:
        if (current ? !holds(cell, n.type, 0) : !(cell[0] == n.type && get16(cell + 2) == 0 && cell[1] == n.b && get32(cell + 4) == n.word))
            return 0;
        return well(t, state, n.a, current);
    case LET: return well(t, state, n.a, current) && well(t, state, n.b, current);
    case SWITCH: {
        int zeros = get64(cell) == 0;
        if (!zeros && (!current || !holds(cell, n.type, 0)))
            return 0;
        return well(t, state, n.a, current && zeros) && well(t, state, n.b, current) && well(t, state, n.c, current && !zeros);
    }
    case GROUP: return well_group(t, state, i, current);
    case UNTIL: return well(t, state, n.a, current) && well(t, state, n.b, current);
    case CASE: return well(t, state, n.a, current) && (n.b == NO_NEXT || well(t, state, n.b, current));
    default: return 1;
    }
}

static struct value whole(uint32_t word) { return (struct value){INT, 1, word}; }
static struct value truth(int yes) { return (struct value){BOOL, 1, yes ? 1 : 0}; }

/* A sum, difference or product, cut to 32 bits. */
static struct value cut(struct run *r, int64_t exact)
{
    r->wrapped |= exact != (int32_t)exact;
    return whole((uint32_t)exact);
}

static struct value divide(struct run *r, int32_t x, int32_t y)
{
    r->wrapped |= x == INT32_MIN && y == -1;
    if (y == 0)
        return (struct value){MAYBE + INT, 0, 0};
    return (struct value){MAYBE + INT, 1, y == -1 ? 0u - (uint32_t)x : (uint32_t)(x / y - (x % y != 0 && (x % y < 0) != (y < 0)))};
}

static struct value operate(struct run *r, unsigned kind, uint32_t x, uint32_t y)
{
    switch (kind) {
    case ADD: return cut(r, (int64_t)(int32_t)x + (int32_t)y);
    case SUBTRACT: return cut(r, (int64_t)(int32_t)x - (int32_t)y);
    case MULTIPLY: return cut(r, (int64_t)(int32_t)x * (int32_t)y);
    case DIVIDE: return divide(r, (int32_t)x, (int32_t)y);
    case LESS: return truth((int32_t)x < (int32_t)y);
    case EQUAL: return truth(x == y);
    case AND: return truth(x & y);
    default: return truth(x | y);
    }
}

static struct value expression(struct run *r, unsigned i)
{
    struct node n = node_at(r->tree->program, i);
    struct value v;
    r->work++;
    switch (n.kind) {
    case VARIABLE: return r->bound[n.a];
    case CONSTANT: return (struct value){(uint8_t)n.type, (uint8_t)n.b, n.word};
    case NOT: return truth(!expression(r, n.a).word);
    case IF: return expression(r, expression(r, n.a).word ? n.b : n.c);
    case JUST:
        v = expression(r, n.a);
        v.type += MAYBE;
        return v;
    case TAKE:
        v = expression(r, n.a);
        if (!v.present)
            return expression(r, n.b);
        v.type -= MAYBE;
        r->bound[i] = v;
        return expression(r, n.c);
    default:
        v = expression(r, n.a);
        return operate(r, n.kind, v.word, expression(r, n.b).word);
    }
}

static struct value channel(const uint8_t *record, unsigned a)
{
    if (a <= 3)
        return whole(get32(record + 4 + 4 * a));
    return (struct value){MAYBE + INT, record[20] >> (a - 4) & 1, get32(record + 24 + 4 * (a - 4))};
}

/* The current part of a switch or group, its variable bound. */
static unsigned current_part(struct run *r, unsigned i, struct node n)
{
    const uint8_t *cell = cell_of(r->tree, r->state, i);
    if (get64(cell) == 0)
        return n.a;
    unsigned binder = n.kind == SWITCH ? i : get16(cell + 2);
    r->bound[binder] = get_value(cell);
    return n.kind == SWITCH ? n.c : node_at(r->tree->program, binder).a;
}

static struct value evaluate(struct run *r, unsigned i)
{
    struct node n = node_at(r->tree->program, i);
    r->work++;
    switch (n.kind) {
    case INPUT: return channel(r->record, n.a);
    case TIME: return whole(get32(r->record));
    case EXT: return expression(r, n.a);
    case DELAY: return get_value(cell_of(r->tree, r->state, i));
    case LET:
        r->bound[i] = evaluate(r, n.a);
        return evaluate(r, n.b);
    case UNTIL: return evaluate(r, n.a);
    default: return evaluate(r, current_part(r, i, n));
    }
}

static unsigned update(struct run *r, unsigned i);

/* A switch: if its event is present, it catches the value, else it updates the current part. */
static void update_switch(struct run *r, unsigned i, struct node n)
{
    struct value v = evaluate(r, n.b);
    update(r, n.b);
    if (!v.present) {
        update(r, current_part(r, i, n));
        return;
    }
    v.type -= MAYBE;
    put_value(cell_of(r->tree, r->state, i), v, 0);
    reset(r->tree, r->state, n.a);
    reset(r->tree, r->state, n.c);
}

/* An until: the target of the first present event, or 0 after events and signal are updated. */
static unsigned update_until(struct run *r, struct node n)
{
    struct node c;
    for (unsigned j = n.b; j != NO_NEXT; j = c.b) {
        c = node_at(r->tree->program, j);
        struct value v = evaluate(r, c.a);
        if (v.present) {
            v.type -= MAYBE;
            r->caught = v;
            return c.c;
        }
    }
    for (unsigned j = n.b; j != NO_NEXT; j = c.b) {
        c = node_at(r->tree->program, j);
        update(r, c.a);
    }
    update(r, n.a);
    return 0;
}

/* The group that has a branch. */
static unsigned group_of(const struct tree *t, unsigned branch)
{
    unsigned i = t->parent[branch];
    while (node_at(t->program, i).kind == BRANCH)
        i = t->parent[i];
    return i;
}

/* A group: a jump out of its current part is caught. In edition one a case leaves for the first group above; in edition two a jump for
 * another group is handed on. */
static unsigned update_group(struct run *r, unsigned i, struct node n)
{
    unsigned target = update(r, current_part(r, i, n));
    if (target == 0 || (r->tree->program[3] == 1 && group_of(r->tree, target) != i))
        return target;
    reset(r->tree, r->state, i);
    put_value(cell_of(r->tree, r->state, i), r->caught, target);
    return 0;
}

/* Signal i goes one step on. The answer is the branch that an until leaves for, or 0. */
static unsigned update(struct run *r, unsigned i)
{
    struct node n = node_at(r->tree->program, i);
    r->work++;
    switch (n.kind) {
    case DELAY: {
        struct value v = evaluate(r, n.a);
        update(r, n.a);
        put_value(cell_of(r->tree, r->state, i), v, 0);
        return 0;
    }
    case LET:
        r->bound[i] = evaluate(r, n.a);
        update(r, n.a);
        return update(r, n.b);
    case SWITCH: update_switch(r, i, n); return 0;
    case GROUP: return update_group(r, i, n);
    case UNTIL: return update_until(r, n);
    default: return 0;
    }
}

uint32_t straight_start(const uint8_t *program, size_t program_length, uint8_t *state, size_t state_length, couplerfinch_answer *answer)
{
    struct tree t;
    if (straight_read(&t, program, program_length, answer))
        return answer->code;
    if (state_length != COUPLERFINCH_STATE(t.cells))
        return straight_refuse(answer, 9, 0);
    put32(state, NO_TIME);
    put32(state + 4, checks_of(program, program_length));
    reset(&t, state, t.count - 1);
    return straight_refuse(answer, 0, 0);
}

/* Codes 9, 15, 10 and 11. */
static uint32_t lent_fault(const struct tree *t, uint32_t checks, uint8_t *state, size_t state_length, size_t records_length,
                           size_t output_length)
{
    if (state_length != COUPLERFINCH_STATE(t->cells))
        return 9;
    if (get32(state + 4) != checks)
        return 15;
    if ((get32(state) > LATEST && get32(state) != NO_TIME) ||
        !well(t, state, t->count - 1, 1))
        return 9;
    if (records_length % COUPLERFINCH_RECORD || records_length / COUPLERFINCH_RECORD > COUPLERFINCH_RECORDS)
        return 10;
    return output_length != records_length / COUPLERFINCH_RECORD * COUPLERFINCH_VALUE ? 11 : 0;
}

/* One record: its code, or 0 after its step. */
static uint32_t one_record(struct run *r, uint8_t *output)
{
    const struct tree *t = r->tree;
    uint32_t last = get32(r->state), now = get32(r->record);
    if (record_wrong(r->record))
        return 12;
    if (last != NO_TIME && now < last)
        return 13;
    put_value(output, evaluate(r, t->count - 1), 0);
    update(r, t->count - 1);
    put32(r->state, now);
    return 0;
}

/* A run that is refused before its first step. */
static uint32_t refuse_run(couplerfinch_answer *answer, uint32_t code, uint32_t place)
{
    *answer = (couplerfinch_answer){.code = code, .place = place, .wrapped = COUPLERFINCH_NO_STEP};
    return code;
}

uint32_t straight_run(const uint8_t *program, size_t program_length, uint8_t *state, size_t state_length, const uint8_t *records,
                      size_t records_length, uint8_t *output, size_t output_length, couplerfinch_answer *answer)
{
    struct tree t;
    struct run r;
    if (straight_read(&t, program, program_length, answer))
        return refuse_run(answer, answer->code, answer->place);
    uint32_t code = lent_fault(&t, checks_of(program, program_length), state, state_length, records_length, output_length);
    if (code)
        return refuse_run(answer, code, 0);
    r.tree = &t;
    r.state = state;
    r.work = 0;
    r.wrapped = 0;
    uint32_t done = 0, first = COUPLERFINCH_NO_STEP;
    for (; done < records_length / COUPLERFINCH_RECORD && !code; done += !code) {
        r.record = records + COUPLERFINCH_RECORD * done;
        code = one_record(&r, output + COUPLERFINCH_VALUE * done);
        if (r.wrapped && first == COUPLERFINCH_NO_STEP)
            first = done;
    }
    *answer = (couplerfinch_answer){.code = code, .place = code ? done : 0, .steps = done, .work = r.work, .wrapped = first};
    return code;
}

/* One more record of a program that was read before, for a caller that prints each step when it is done. */
uint32_t straight_next(const struct tree *t, uint8_t *state, const uint8_t *record, uint8_t *output, couplerfinch_answer *answer)
{
    struct run r;
    r.tree = t;
    r.state = state;
    r.record = record;
    r.work = 0;
    r.wrapped = 0;
    uint32_t code = one_record(&r, output);
    *answer = (couplerfinch_answer){.code = code, .steps = !code, .work = r.work};
    return code;
}

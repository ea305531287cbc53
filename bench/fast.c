/* An optimised interpreter of the tables, over the decoded nodes: values are one 64-bit number, cells are read into an array once for a
 * run, variables and constants are taken without a call, and what stands last in a rule is a loop and not a call. */
#include "fast.h"

#include <string.h>

/* A run on its way. */
struct run {
    const struct code *code;
    const uint16_t *held;
    const uint8_t *record;
    uint64_t *cells;
    uint64_t caught;
    uint32_t work, first; /* the first step in which a number wrapped */
    int wrapped;
    uint64_t bound[COUPLERFINCH_NODES];
};

#define VALUE(type, word) ((uint64_t)(type) | 256 | (uint64_t)(uint32_t)(word) << 32)
#define WORD(value) ((uint32_t)((value) >> 32))
#define PRESENT(value) ((value) & 256)

/* All cells below a node, itself included, go to start; parts without cells are passed by. */
static void reset(const struct code *code, const uint16_t *held, uint64_t *cells, unsigned i)
{
    while (i != NO_NEXT && code[i].kind <= CASE && held[i]) {
        const struct code *n = &code[i];
        switch (n->kind) {
        case DELAY: cells[n->c] = n->value; i = n->a; continue;
        case SWITCH:
            cells[n->value] = 0;
            reset(code, held, cells, n->a);
            reset(code, held, cells, n->c);
            break;
        case GROUP: cells[n->c] = 0; reset(code, held, cells, n->a); break;
        default: reset(code, held, cells, n->a);
        }
        i = n->b;
    }
}

/* Whether a cell holds a value of a type, with a number in bytes 2-3. */
static int holds(uint64_t cell, unsigned type, unsigned middle)
{
    return (cell & 255) == type && (cell >> 16 & 65535) == middle && value_fits(type, cell >> 8 & 255, WORD(cell));
}

/* The cells below node i are valid, and start where they are not current. */
static int well(const struct program *p, const uint64_t *cells, unsigned i, int current)
{
    const struct code *n = &p->code[i];
    uint64_t cell;
    if (p->code[i].kind > CASE || !p->held[i])
        return 1;
    switch (n->kind) {
    case DELAY:
        cell = cells[n->c];
        return (current ? holds(cell, n->type, 0) : cell == n->value) && well(p, cells, n->a, current);
    case SWITCH:
        cell = cells[n->value];
        if (cell && (!current || !holds(cell, n->type, 0)))
            return 0;
        return well(p, cells, n->a, current && !cell) && well(p, cells, n->b, current) && well(p, cells, n->c, current && cell);
    case GROUP: {
        int named = !(cell = cells[n->c]);
        if ((cell && !current) || !well(p, cells, n->a, current && !cell))
            return 0;
        for (unsigned j = n->b; j != NO_NEXT; j = p->code[j].b) {
            int entered = cell && (cell >> 16 & 65535) == j;
            if ((entered && !holds(cell, p->code[j].type, j)) || !well(p, cells, p->code[j].a, current && entered))
                return 0;
            named |= entered;
        }
        return named;
    }
    default: return well(p, cells, n->a, current) && (n->b == NO_NEXT || well(p, cells, n->b, current));
    }
}

static uint64_t channel(const uint8_t *record, unsigned a)
{
    if (a <= 3)
        return VALUE(INT, get32(record + 4 + 4 * a));
    return (uint64_t)(MAYBE + INT) | (uint64_t)(record[20] >> (a - 4) & 1) << 8 | (uint64_t)get32(record + 24 + 4 * (a - 4)) << 32;
}

static uint64_t divide(struct run *r, int32_t x, int32_t y)
{
    r->wrapped |= x == INT32_MIN && y == -1;
    if (y == 0)
        return MAYBE + INT;
    return VALUE(MAYBE + INT, y == -1 ? 0u - (uint32_t)x : (uint32_t)(x / y - (x % y != 0 && (x % y < 0) != (y < 0))));
}

static uint64_t expression(struct run *r, unsigned i);

/* An operand: variables and constants without a call. */
static inline uint64_t operand(struct run *r, unsigned i)
{
    const struct code *n = &r->code[i];
    if (n->kind > CONSTANT)
        return expression(r, i);
    r->work++;
    return n->kind == VARIABLE ? r->bound[n->a] : n->value;
}

static uint64_t expression(struct run *r, unsigned i)
{
    uint64_t x;
    int32_t word;
    for (;;) {
        const struct code *n = &r->code[i];
        r->work++;
        switch (n->kind) {
        case VARIABLE: return r->bound[n->a];
        case CONSTANT: return n->value;
        case ADD:
            x = operand(r, n->a);
            r->wrapped |= __builtin_add_overflow((int32_t)WORD(x), (int32_t)WORD(operand(r, n->b)), &word);
            return VALUE(INT, word);
        case SUBTRACT:
            x = operand(r, n->a);
            r->wrapped |= __builtin_sub_overflow((int32_t)WORD(x), (int32_t)WORD(operand(r, n->b)), &word);
            return VALUE(INT, word);
        case MULTIPLY:
            x = operand(r, n->a);
            r->wrapped |= __builtin_mul_overflow((int32_t)WORD(x), (int32_t)WORD(operand(r, n->b)), &word);
            return VALUE(INT, word);
        case DIVIDE: x = operand(r, n->a); return divide(r, (int32_t)WORD(x), (int32_t)WORD(operand(r, n->b)));
        case LESS: x = operand(r, n->a); return VALUE(BOOL, (int32_t)WORD(x) < (int32_t)WORD(operand(r, n->b)));
        case EQUAL: x = operand(r, n->a); return VALUE(BOOL, WORD(x) == WORD(operand(r, n->b)));
        case NOT: return operand(r, n->a) ^ (uint64_t)1 << 32;
        case AND: x = operand(r, n->a); return x & operand(r, n->b);
        case OR: x = operand(r, n->a); return x | operand(r, n->b);
        case IF: i = WORD(operand(r, n->a)) ? n->b : n->c; continue;
        case JUST: return operand(r, n->a) + MAYBE;
        default:
            x = operand(r, n->a);
            r->bound[i] = x - MAYBE;
            i = PRESENT(x) ? n->c : n->b;
        }
    }
}

/* The current part of a switch. */
static inline unsigned in_switch(struct run *r, const struct code *n, unsigned i)
{
    uint64_t cell = r->cells[n->value];
    r->bound[i] = cell;
    return cell ? n->c : n->a;
}

/* The current part of a group. */
static inline unsigned in_group(struct run *r, const struct code *n)
{
    uint64_t cell = r->cells[n->c];
    unsigned branch = cell >> 16 & 65535;
    if (!cell)
        return n->a;
    r->bound[branch] = cell & ~(uint64_t)0xffff0000;
    return r->code[branch].a;
}

static uint64_t evaluate(struct run *r, unsigned i)
{
    for (;;) {
        const struct code *n = &r->code[i];
        r->work++;
        switch (n->kind) {
        case INPUT: return channel(r->record, n->a);
        case TIME: return VALUE(INT, get32(r->record));
        case EXT: return operand(r, n->a);
        case DELAY: return r->cells[n->c];
        case LET: r->bound[i] = evaluate(r, n->a); i = n->b; continue;
        case SWITCH: i = in_switch(r, n, i); continue;
        case GROUP: i = in_group(r, n); continue;
        default: i = n->a;
        }
    }
}

static unsigned update(struct run *r, unsigned i);

/* The event of a switch; whether it was caught. */
static int catches(struct run *r, const struct code *n)
{
    uint64_t v = evaluate(r, n->b);
    update(r, n->b);
    if (!PRESENT(v))
        return 0;
    r->cells[n->value] = v - MAYBE;
    reset(r->code, r->held, r->cells, n->a);
    reset(r->code, r->held, r->cells, n->c);
    return 1;
}

/* The events of an until: the target of the first present one, or 0 after they are updated. */
static unsigned events(struct run *r, unsigned first)
{
    for (unsigned j = first; j != NO_NEXT; j = r->code[j].b) {
        uint64_t v = evaluate(r, r->code[j].a);
        if (PRESENT(v)) {
            r->caught = v - MAYBE;
            return r->code[j].c;
        }
    }
    for (unsigned j = first; j != NO_NEXT; j = r->code[j].b)
        update(r, r->code[j].a);
    return 0;
}

/* A group: a jump out of its current part is caught if it is for one of its branches, else handed on. */
static unsigned update_group(struct run *r, const struct code *n, unsigned i)
{
    unsigned target = update(r, in_group(r, n));
    if (!target || r->code[target].value != i)
        return target;
    reset(r->code, r->held, r->cells, i);
    r->cells[n->c] = r->caught | (uint64_t)target << 16;
    return 0;
}

/* Signal i goes one step on. The answer is the branch that an until leaves for, or 0. */
static unsigned update(struct run *r, unsigned i)
{
    unsigned target;
    for (;;) {
        const struct code *n = &r->code[i];
        r->work++;
        switch (n->kind) {
        case DELAY: {
            uint64_t v = evaluate(r, n->a);
            update(r, n->a);
            r->cells[n->c] = v;
            return 0;
        }
        case LET: r->bound[i] = evaluate(r, n->a); update(r, n->a); i = n->b; continue;
        case SWITCH:
            if (catches(r, n))
                return 0;
            i = in_switch(r, n, i);
            continue;
        case GROUP: return update_group(r, n, i);
        case UNTIL:
            if ((target = events(r, n->b)) != 0)
                return target;
            i = n->a;
            continue;
        default: return 0;
        }
    }
}

uint32_t fast_start(const uint8_t *program, size_t program_length, uint8_t *state, size_t state_length, couplerfinch_answer *answer)
{
    struct program p;
    uint64_t cells[COUPLERFINCH_NODES];
    if (fast_decode(&p, program, program_length, answer))
        return answer->code;
    if (state_length != COUPLERFINCH_STATE(p.cells))
        return fast_refuse(answer, 9, 0);
    put32(state, NO_TIME);
    put32(state + 4, checks_of(program, program_length));
    reset(p.code, p.held, cells, p.count - 1);
    memcpy(state + 8, cells, 8 * p.cells);
    return fast_refuse(answer, 0, 0);
}

/* Codes 9, 15, 10 and 11; it reads the cells too. */
uint32_t fast_fault(const struct program *p, uint32_t checks, uint64_t *cells, const uint8_t *state, size_t state_length,
                    size_t records_length, size_t output_length)
{
    if (state_length != COUPLERFINCH_STATE(p->cells))
        return 9;
    if (get32(state + 4) != checks)
        return 15;
    memcpy(cells, state + 8, 8 * p->cells);
    if ((get32(state) > LATEST && get32(state) != NO_TIME) || !well(p, cells, p->count - 1, 1))
        return 9;
    if (records_length % COUPLERFINCH_RECORD || records_length / COUPLERFINCH_RECORD > COUPLERFINCH_RECORDS)
        return 10;
    return output_length != records_length / COUPLERFINCH_RECORD * COUPLERFINCH_VALUE ? 11 : 0;
}

/* The records of a run. The answer is the code of the first that is refused; done counts the others. */
static uint32_t records_run(struct run *r, const struct program *p, uint32_t *time, const uint8_t *records, uint32_t count,
                            uint8_t *output, uint32_t *done)
{
    for (*done = 0; *done < count; ++*done) {
        r->record = records + COUPLERFINCH_RECORD * *done;
        uint32_t now = get32(r->record);
        if (record_wrong(r->record))
            return 12;
        if (*time != NO_TIME && now < *time)
            return 13;
        uint64_t v = evaluate(r, p->count - 1);
        memcpy(output + COUPLERFINCH_VALUE * *done, &v, 8);
        update(r, p->count - 1);
        if (r->wrapped && r->first == COUPLERFINCH_NO_STEP)
            r->first = *done;
        *time = now;
    }
    return 0;
}

/* A run that is refused before its first step. */
uint32_t fast_refuse_run(couplerfinch_answer *answer, uint32_t code, uint32_t place)
{
    *answer = (couplerfinch_answer){.code = code, .place = place, .wrapped = COUPLERFINCH_NO_STEP};
    return code;
}

uint32_t fast_run(const uint8_t *program, size_t program_length, uint8_t *state, size_t state_length, const uint8_t *records,
                  size_t records_length, uint8_t *output, size_t output_length, couplerfinch_answer *answer)
{
    struct program p;
    struct run r;
    uint64_t cells[COUPLERFINCH_NODES];
    if (fast_decode(&p, program, program_length, answer))
        return fast_refuse_run(answer, answer->code, answer->place);
    uint32_t code = fast_fault(&p, checks_of(program, program_length), cells, state, state_length, records_length, output_length);
    if (code)
        return fast_refuse_run(answer, code, 0);
    r.code = p.code;
    r.held = p.held;
    r.cells = cells;
    r.work = 0;
    r.wrapped = 0;
    r.first = COUPLERFINCH_NO_STEP;
    uint32_t time = get32(state), done;
    code = records_run(&r, &p, &time, records, (uint32_t)(records_length / COUPLERFINCH_RECORD), output, &done);
    put32(state, time);
    memcpy(state + 8, cells, 8 * p.cells);
    *answer = (couplerfinch_answer){.code = code, .place = code ? done : 0, .steps = done, .work = r.work, .wrapped = r.first};
    return code;
}

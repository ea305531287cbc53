/* The strongest interpreter here: direct-threaded register code, made of the decoded program once for a run (strong_code.c). A switch and
 * a group go straight to the code of what is current; a part that is left is reset by the list of its cells. */
#include "strong.h"

#include <string.h>

static void reset(struct machine *m, struct span s)
{
    for (unsigned k = s.from; k < (unsigned)s.from + s.many; k++) {
        unsigned c = m->listed[k], i = m->node_of[c];
        if (m->p.code[i].kind == DELAY)
            m->cell[c] = strong_value(m->p.code[i].value);
        else {
            m->entered[c] = 0;
            m->current[c] = m->first[i];
        }
    }
}

/* Cell c of a switch or group takes a part, number which, with a value. */
static void enter(struct machine *m, unsigned c, unsigned which, uint32_t word)
{
    m->value[COUPLERFINCH_NODES + which] = word;
    m->entered[c] = (uint16_t)which;
    m->current[c] = m->second[which];
}

static uint64_t divide(struct machine *m, int32_t x, int32_t y)
{
    m->wrapped |= x == INT32_MIN && y == -1;
    if (y == 0)
        return 0;
    uint32_t q = y == -1 ? 0u - (uint32_t)x : (uint32_t)(x / y - (x % y != 0 && (x % y < 0) != (y < 0)));
    return q | (uint64_t)1 << 32;
}

/* A register as the 8 bytes of a value of a type. */
static uint64_t bytes_of(uint64_t x, unsigned type) { return type | (type > MAYBE ? x >> 32 & 1 : 1) << 8 | x << 32; }

static void leave(struct machine *m, const struct instruction *at)
{
    uint32_t word = (uint32_t)m->value[at->a];
    reset(m, m->below[at->part]);
    enter(m, m->p.code[at->b].c, at->d, word);
}

static void switches(struct machine *m, const struct instruction *at)
{
    uint32_t word = (uint32_t)m->value[at->a];
    reset(m, m->below[m->p.code[at->d].a]);
    reset(m, m->below[m->p.code[at->d].c]);
    enter(m, at->b, at->d, word);
}

#define W(x) ((uint32_t)v[x])
#define I(x) ((int32_t)v[x])
#define NEXT goto *(++at)->go
#define TO(place) goto *(at = code + (place))->go
#define UNLESS(test) if (test) NEXT; TO(at->to)
#define WRAPS(how) m->wrapped |= how(I(at->a), I(at->b), &word); v[at->d] = (uint32_t)word; NEXT

/* One step: the rules that it used. Without a machine: the places of the operations. */
static uint32_t step(struct machine *m, const uint8_t *rec, uint8_t *out, const void *const **places)
{
#define PLACE(name) &&name##_,
    static const void *const table[OPERATION_COUNT] = {OPERATIONS(PLACE)};
    if (!m) {
        *places = table;
        return 0;
    }
    const struct instruction *code = m->code, *at = code;
    uint64_t *v = m->value, x;
    uint32_t w = 0;
    int32_t word;
    goto *at->go;
WORD_IN_: v[at->d] = get32(rec + at->a); NEXT;
EVENT_IN_: v[at->d] = get32(rec + at->a) | (uint64_t)(rec[20] >> at->b & 1) << 32; NEXT;
MOVE_: v[at->d] = v[at->a]; NEXT;
MOVE_GO_: v[at->d] = v[at->a]; w += (uint32_t)at->w; TO(at->to);
ADDED_: WRAPS(__builtin_add_overflow);
LESS_BY_: WRAPS(__builtin_sub_overflow);
TIMES_: WRAPS(__builtin_mul_overflow);
DIVIDED_: v[at->d] = divide(m, I(at->a), I(at->b)); NEXT;
IS_LESS_: v[at->d] = I(at->a) < I(at->b); NEXT;
IS_EQUAL_: v[at->d] = W(at->a) == W(at->b); NEXT;
NEGATED_: v[at->d] = W(at->a) ^ 1; NEXT;
BOTH_: v[at->d] = W(at->a) & W(at->b); NEXT;
EITHER_: v[at->d] = W(at->a) | W(at->b); NEXT;
LIFTED_: v[at->d] = W(at->a) | (uint64_t)1 << 32; NEXT;
IF_FALSE_: UNLESS(W(at->a));
IF_TRUE_: UNLESS(!W(at->a));
IF_NOT_LESS_: UNLESS(I(at->a) < I(at->b));
IF_LESS_: UNLESS(I(at->a) >= I(at->b));
IF_OTHER_: UNLESS(W(at->a) == W(at->b));
IF_SAME_: UNLESS(W(at->a) != W(at->b));
IF_ABSENT_: UNLESS(v[at->a] >> 32);
GO_: w += (uint32_t)at->w; TO(at->to);
CELL_GET_: v[at->d] = m->cell[at->a]; NEXT;
CELL_PUT_: m->cell[at->d] = v[at->a]; NEXT;
GO_EVALUATE_: w += (uint32_t)at->w; TO(m->current[at->a].evaluate);
GO_UPDATE_: w += (uint32_t)at->w; TO(m->current[at->a].update);
SWITCHES_:
    w += (uint32_t)at->w;
    if (!(v[at->a] >> 32))
        TO(m->current[at->b].update);
    switches(m, at);
    TO(at->to);
TAKES_:
    if (!(v[at->a] >> 32))
        NEXT;
    w += (uint32_t)at->w;
    leave(m, at);
    TO(at->to);
COUNT_FROM_: w += (uint32_t)at->w; m->counted[at->d] = w; NEXT;
COUNT_TO_: w += (uint32_t)at->w; m->counted[at->d] = w - m->counted[at->d]; NEXT;
COUNTED_: w += m->counted[at->d]; NEXT;
WORK_: w += (uint32_t)at->w; NEXT;
SHOW_: x = bytes_of(v[at->a], at->b); memcpy(out, &x, 8); NEXT;
STEPPED_: return w + (uint32_t)at->w;
}

/* The cells of a state into the machine, and back. */
static void load(struct machine *m, const uint64_t *cells)
{
    for (unsigned c = 0; c < m->p.cells; c++) {
        unsigned i = m->node_of[c];
        const struct code *n = &m->p.code[i];
        if (n->kind == DELAY)
            m->cell[c] = strong_value(cells[c]);
        else if (cells[c])
            enter(m, c, n->kind == SWITCH ? i : cells[c] >> 16 & 65535, (uint32_t)(cells[c] >> 32));
        else {
            m->entered[c] = 0;
            m->current[c] = m->first[i];
        }
    }
}

static void store(const struct machine *m, uint64_t *cells)
{
    for (unsigned c = 0; c < m->p.cells; c++) {
        const struct code *n = &m->p.code[m->node_of[c]];
        unsigned which = m->entered[c];
        if (n->kind == DELAY)
            cells[c] = bytes_of(m->cell[c], n->type);
        else if (!which)
            cells[c] = 0;
        else
            cells[c] = bytes_of(m->value[COUPLERFINCH_NODES + which], m->p.code[which].type) | (n->kind == GROUP ? (uint64_t)which << 16 : 0);
    }
}

/* The records of a run, as the other baselines have it. */
static uint32_t records_run(struct machine *m, uint32_t *time, const uint8_t *records, uint32_t count, uint8_t *output,
                            couplerfinch_answer *a)
{
    m->wrapped = 0;
    for (; a->steps < count; a->steps++) {
        const uint8_t *record = records + COUPLERFINCH_RECORD * a->steps;
        uint32_t now = get32(record);
        if (record_wrong(record))
            return 12;
        if (*time != NO_TIME && now < *time)
            return 13;
        a->work += step(m, record, output + COUPLERFINCH_VALUE * a->steps, NULL);
        if (m->wrapped && a->wrapped == COUPLERFINCH_NO_STEP)
            a->wrapped = a->steps;
        *time = now;
    }
    return 0;
}

uint32_t strong_check(const uint8_t *program, size_t program_length, couplerfinch_answer *answer)
{
    return fast_check(program, program_length, answer);
}

uint32_t strong_start(const uint8_t *program, size_t program_length, uint8_t *state, size_t state_length, couplerfinch_answer *answer)
{
    return fast_start(program, program_length, state, state_length, answer);
}

uint32_t strong_run(const uint8_t *program, size_t program_length, uint8_t *state, size_t state_length, const uint8_t *records,
                    size_t records_length, uint8_t *output, size_t output_length, couplerfinch_answer *answer)
{
    static struct machine m;
    static uint64_t cells[COUPLERFINCH_NODES];
    const void *const *places;
    if (fast_decode(&m.p, program, program_length, answer))
        return fast_refuse_run(answer, answer->code, answer->place);
    uint32_t code = fast_fault(&m.p, checks_of(program, program_length), cells, state, state_length, records_length, output_length);
    if (code)
        return fast_refuse_run(answer, code, 0);
    step(NULL, NULL, NULL, &places);
    strong_code(&m, places);
    load(&m, cells);
    uint32_t time = get32(state);
    *answer = (couplerfinch_answer){.wrapped = COUPLERFINCH_NO_STEP};
    answer->code = records_run(&m, &time, records, (uint32_t)(records_length / COUPLERFINCH_RECORD), output, answer);
    answer->place = answer->code ? answer->steps : 0;
    put32(state, time);
    store(&m, cells);
    memcpy(state + 8, cells, 8 * m.p.cells);
    return answer->code;
}

/* Check of the straightforward baseline: codes 1-8, each by itself, with the fields of a node read from the bytes at every visit. */
#include "straight.h"

uint32_t straight_refuse(couplerfinch_answer *answer, uint32_t code, uint32_t place)
{
    *answer = (couplerfinch_answer){.code = code, .place = place};
    return code;
}

/* Code 4 at a record before the end. */
static int node_wrong(struct node n)
{
    if (n.kind >= KINDS || rows[n.kind][0] == 0)
        return 1;
    const char *row = rows[n.kind];
    if (n.kind == INPUT && n.a > 7)
        return 1;
    if ((row[1] == '0' && n.a) || (row[2] == '0' && n.b) || (row[3] == '0' && n.c))
        return 1;
    if (row[0] == 'v')
        return !value_fits(n.type, n.b, n.word);
    if (n.word)
        return 1;
    return row[0] == '0' ? n.type != 0 : !is_plain(n.type) && !(row[0] == 't' && is_maybe(n.type));
}

static int is_zero(struct node n) { return !n.kind && !n.type && !n.a && !n.b && !n.c && !n.word; }

/* Code 4, and how many nodes there are. */
static unsigned record_fault(struct tree *t, unsigned blocks)
{
    int ended = 0;
    t->count = 0;
    for (unsigned i = 0; i < PER_BLOCK * blocks; i++) {
        struct node n = node_at(t->program, i);
        ended |= n.kind == 0 && i > PER_BLOCK * (blocks - 1);
        if (ended ? !is_zero(n) : node_wrong(n))
            return i;
        t->count += !ended;
    }
    return NOWHERE;
}

/* Codes 1-4. */
static uint32_t format_fault(struct tree *t, size_t length, couplerfinch_answer *answer)
{
    if (length == 0 || length > COUPLERFINCH_BLOCKS * COUPLERFINCH_BLOCK || length % COUPLERFINCH_BLOCK)
        return straight_refuse(answer, 1, 0);
    unsigned blocks = (unsigned)(length / COUPLERFINCH_BLOCK);
    for (unsigned k = 0; k < blocks; k++) {
        const uint8_t *block = t->program + COUPLERFINCH_BLOCK * k;
        if (check_sum(block) != get32(block + 508))
            return straight_refuse(answer, 2, k);
    }
    for (unsigned k = 0; k < blocks; k++) {
        const uint8_t *block = t->program + COUPLERFINCH_BLOCK * k;
        if (get16(block) != k || block[2] != blocks || block[3] != t->program[3] || block[3] > 1)
            return straight_refuse(answer, 3, k);
    }
    unsigned place = record_fault(t, blocks);
    return place != NOWHERE ? straight_refuse(answer, 4, place) : 0;
}

/* Code 5; it finds the parents too. */
static unsigned shape_fault(struct tree *t)
{
    uint8_t named[COUPLERFINCH_NODES] = {0}, wrong[COUPLERFINCH_NODES] = {0};
    for (unsigned i = 0; i < t->count; i++) {
        struct node n = node_at(t->program, i);
        unsigned fields[3] = {n.a, n.b, n.c};
        for (unsigned f = 0; f < 3; f++) {
            unsigned x = fields[f];
            char sort = child_sort(rows[n.kind][1 + f], x);
            if (sort == 0)
                continue;
            if (x >= i || sort_of(node_at(t->program, x).kind) != sort)
                wrong[i] = 1;
            if (x >= i)
                continue;
            named[x] += named[x] < 2;
            t->parent[x] = (uint16_t)i;
            t->field[x] = (uint8_t)f;
        }
    }
    for (unsigned i = 0; i + 1 < t->count; i++)
        if (wrong[i] || named[i] != 1)
            return i;
    unsigned last = t->count - 1;
    return wrong[last] || sort_of(node_at(t->program, last).kind) != 'S' ? last : NOWHERE;
}

/* Whether a variable stands below its binder, in a part where it binds. */
static int in_scope(const struct tree *t, unsigned i, unsigned binder)
{
    for (; i != t->count - 1; i = t->parent[i]) {
        if (t->parent[i] != binder)
            continue;
        unsigned kind = node_at(t->program, binder).kind, field = t->field[i];
        return kind == LET || ((kind == SWITCH || kind == TAKE) && field == 2) || (kind == BRANCH && field == 0);
    }
    return 0;
}

/* The first group that the way up leads to, or none. */
static unsigned home_of(const struct tree *t, unsigned i)
{
    for (; i != t->count - 1; i = t->parent[i]) {
        unsigned kind = node_at(t->program, t->parent[i]).kind;
        if (kind == GROUP)
            return t->parent[i];
        if (kind != BRANCH && !((kind == LET || kind == UNTIL || kind == CASE) && t->field[i] == 1))
            return NOWHERE;
    }
    return NOWHERE;
}

/* Whether a case's target is a branch of the first group on the way up; in edition two, of any group met. */
static int target_met(const struct tree *t, unsigned i, unsigned target)
{
    if (target >= t->count || node_at(t->program, target).kind != BRANCH)
        return 0;
    unsigned wanted = home_of(t, target), home = home_of(t, i);
    while (home != wanted && home != NOWHERE)
        home = t->program[3] == 0 ? NOWHERE : home_of(t, home);
    return home != NOWHERE;
}

/* Code 6. */
static unsigned scope_fault(const struct tree *t)
{
    for (unsigned i = 0; i < t->count; i++) {
        struct node n = node_at(t->program, i);
        if (n.kind == VARIABLE && !in_scope(t, i, n.a))
            return i;
        if (n.kind == CASE && !target_met(t, i, n.c))
            return i;
    }
    return NOWHERE;
}

/* Whether all bodies of a group have one type. */
static int one_type(const struct tree *t, struct node group)
{
    for (unsigned j = group.b; j != NO_NEXT;) {
        struct node branch = node_at(t->program, j);
        if (t->type[branch.a] != t->type[group.a])
            return 0;
        j = branch.b;
    }
    return 1;
}

/* The type of a signal, branch or case by its own rule, or -1. */
static int signal_type(const struct tree *t, struct node n)
{
    const uint8_t *type = t->type;
    switch (n.kind) {
    case INPUT: return n.a <= 3 ? INT : MAYBE + INT;
    case TIME: return INT;
    case DELAY: return type[n.a] == n.type ? (int)n.type : -1;
    case LET: return type[n.a] == n.type ? type[n.b] : -1;
    case SWITCH: return type[n.b] == n.type + MAYBE && type[n.a] == type[n.c] ? type[n.a] : -1;
    case GROUP: return one_type(t, n) ? type[n.a] : -1;
    case BRANCH: return 0;
    case CASE: return type[n.a] == node_at(t->program, n.c).type + MAYBE ? 0 : -1;
    default: return type[n.a];
    }
}

/* The type of an expression by its own rule, or -1. */
static int expression_type(const struct tree *t, struct node n)
{
    const uint8_t *type = t->type;
    switch (n.kind) {
    case VARIABLE: return (int)node_at(t->program, n.a).type;
    case CONSTANT: return (int)n.type;
    case ADD: case SUBTRACT: case MULTIPLY: return type[n.a] == INT && type[n.b] == INT ? INT : -1;
    case DIVIDE: return type[n.a] == INT && type[n.b] == INT ? MAYBE + INT : -1;
    case LESS: case EQUAL: return type[n.a] == INT && type[n.b] == INT ? BOOL : -1;
    case NOT: return type[n.a] == BOOL ? BOOL : -1;
    case AND: case OR: return type[n.a] == BOOL && type[n.b] == BOOL ? BOOL : -1;
    case IF: return type[n.a] == BOOL && type[n.b] == type[n.c] ? type[n.b] : -1;
    case JUST: return is_plain(type[n.a]) ? type[n.a] + MAYBE : -1;
    default: return type[n.a] == n.type + MAYBE && type[n.b] == type[n.c] ? type[n.b] : -1;
    }
}

/* Code 7; it finds the types too. */
static unsigned type_fault(struct tree *t)
{
    for (unsigned i = 0; i < t->count; i++) {
        struct node n = node_at(t->program, i);
        int type = sort_of(n.kind) == 'E' ? expression_type(t, n) : signal_type(t, n);
        if (type < 0)
            return i;
        t->type[i] = (uint8_t)type;
    }
    return NOWHERE;
}

/* Whether a use of a let's variable makes its definition need it at once. */
static int needed_at_once(const struct tree *t, unsigned i, unsigned let)
{
    for (;; i = t->parent[i]) {
        unsigned parent = t->parent[i], kind = node_at(t->program, parent).kind;
        if (parent == let)
            return t->field[i] == 0;
        if (kind == DELAY || kind == CASE || ((kind == SWITCH || kind == UNTIL) && t->field[i] == 1))
            return 0;
    }
}

/* Code 8. */
static unsigned ready_fault(const struct tree *t)
{
    unsigned least = NOWHERE;
    for (unsigned i = 0; i < t->count; i++) {
        struct node n = node_at(t->program, i);
        if (n.kind == VARIABLE && n.a < least && node_at(t->program, n.a).kind == LET && needed_at_once(t, i, n.a))
            least = n.a;
    }
    return least;
}

static uint32_t larger(uint32_t x, uint32_t y) { return x > y ? x : y; }

/* The bounds of a node: of its evaluation and of its update, from those of the nodes before it. */
static void bound_node(const struct tree *t, unsigned i, uint32_t *e, uint32_t *u)
{
    struct node n = node_at(t->program, i);
    e[i] = u[i] = 1;
    switch (n.kind) {
    case EXT: case NOT: case JUST: e[i] += e[n.a]; break;
    case DELAY: u[i] += e[n.a] + u[n.a]; break;
    case LET: e[i] += e[n.a] + e[n.b]; u[i] += e[n.a] + u[n.a] + u[n.b]; break;
    case SWITCH: e[i] += larger(e[n.a], e[n.c]); u[i] += e[n.b] + u[n.b] + larger(u[n.a], u[n.c]); break;
    case GROUP: e[i] += larger(e[n.a], e[n.b]); u[i] += larger(u[n.a], u[n.b]); break;
    case UNTIL: e[i] += e[n.a]; u[i] += u[n.b] + u[n.a]; break;
    case BRANCH:
        e[i] = n.b == NO_NEXT ? e[n.a] : larger(e[n.a], e[n.b]);
        u[i] = n.b == NO_NEXT ? u[n.a] : larger(u[n.a], u[n.b]);
        break;
    case CASE: u[i] = e[n.a] + u[n.a] + (n.b == NO_NEXT ? 0 : u[n.b]); break;
    case IF: case TAKE: e[i] += e[n.a] + larger(e[n.b], e[n.c]); break;
    case INPUT: case TIME: case VARIABLE: case CONSTANT: break;
    default: e[i] += e[n.a] + e[n.b];
    }
}

/* The cells' numbers and the bound of an accepted program. */
static void measure(struct tree *t)
{
    uint32_t e[COUPLERFINCH_NODES], u[COUPLERFINCH_NODES];
    t->cells = 0;
    for (unsigned i = 0; i < t->count; i++) {
        t->cell[i] = (uint16_t)t->cells;
        t->cells += has_cell(node_at(t->program, i).kind);
        bound_node(t, i, e, u);
    }
    t->bound = e[t->count - 1] + u[t->count - 1];
}

/* Codes 1-8. */
uint32_t straight_read(struct tree *t, const uint8_t *program, size_t length, couplerfinch_answer *answer)
{
    t->program = program;
    if (format_fault(t, length, answer))
        return answer->code;
    unsigned place = shape_fault(t);
    if (place != NOWHERE)
        return straight_refuse(answer, 5, place);
    if ((place = scope_fault(t)) != NOWHERE)
        return straight_refuse(answer, 6, place);
    if ((place = type_fault(t)) != NOWHERE)
        return straight_refuse(answer, 7, place);
    if ((place = ready_fault(t)) != NOWHERE)
        return straight_refuse(answer, 8, place);
    measure(t);
    *answer = (couplerfinch_answer){.nodes = t->count, .cells = t->cells, .bound = t->bound, .type = t->type[t->count - 1]};
    return 0;
}

uint32_t straight_check(const uint8_t *program, size_t program_length, couplerfinch_answer *answer)
{
    struct tree t;
    return straight_read(&t, program, program_length, answer);
}

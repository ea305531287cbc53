/* The code that the strongest baseline makes of a decoded program, and the machine that runs it. */
#ifndef BENCH_STRONG_H
#define BENCH_STRONG_H

#include "fast.h"

/* Operations. Registers d, a and b hold a word in their low half and the present byte in bit 32; w is work, and to a place in the code. */
#define OPERATIONS(X)                                                                                                            \
    X(WORD_IN) X(EVENT_IN) X(MOVE) X(MOVE_GO) X(ADDED) X(LESS_BY) X(TIMES) X(DIVIDED) X(IS_LESS) X(IS_EQUAL) X(NEGATED) X(BOTH)    \
    X(EITHER) X(LIFTED) X(IF_FALSE) X(IF_TRUE) X(IF_NOT_LESS) X(IF_LESS) X(IF_OTHER) X(IF_SAME) X(IF_ABSENT) X(GO) X(CELL_GET)     \
    X(CELL_PUT) X(GO_EVALUATE) X(GO_UPDATE) X(SWITCHES) X(TAKES) X(COUNT_FROM) X(COUNT_TO) X(COUNTED) X(WORK) X(SHOW) X(STEPPED)

#define NAMED(name) name,
enum operation { OPERATIONS(NAMED) OPERATION_COUNT };

/* An instruction; part is the part that a jump leaves. */
struct instruction {
    const void *go;
    uint16_t d, a, b, part;
    int32_t w;
    uint32_t to;
};

/* Where a part's evaluation and its update begin. */
struct part {
    uint32_t evaluate, update;
};

/* The cells below a node, as a part of the list of cells. */
struct span {
    uint16_t from, many;
};

enum { MOST_CODE = 8 * COUPLERFINCH_NODES };

struct machine {
    struct program p;
    struct instruction code[MOST_CODE];
    uint32_t count;
    int work; /* counted and not yet in an instruction */
    uint64_t value[2 * COUPLERFINCH_NODES]; /* by node; then those of variables of switches and branches */
    uint64_t cell[COUPLERFINCH_NODES];      /* by cell, as its node and what is current */
    uint16_t node_of[COUPLERFINCH_NODES], entered[COUPLERFINCH_NODES];
    struct part current[COUPLERFINCH_NODES];
    struct part first[COUPLERFINCH_NODES], second[COUPLERFINCH_NODES]; /* by node: a group's body or a switch's first; a branch or second */
    uint32_t counted[COUPLERFINCH_NODES];                              /* by let: the rules of its definition in this step */
    struct span below[COUPLERFINCH_NODES];
    uint16_t listed[COUPLERFINCH_NODES], cells_listed;
    int fixed[COUPLERFINCH_NODES];
    uint16_t within[COUPLERFINCH_NODES];   /* by group: the part whose update is being made */
    uint32_t group_end[COUPLERFINCH_NODES];
    int wrapped;
};

void strong_code(struct machine *m, const void *const *places);

/* The cell of a node, and a value as a register holds it. */
static inline unsigned strong_cell(const struct code *n) { return n->kind == SWITCH ? (unsigned)n->value : n->c; }
static inline uint64_t strong_value(uint64_t bytes) { return bytes >> 32 | (bytes >> 8 & 1) << 32; }

#endif

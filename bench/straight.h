/* What the straightforward baseline's check hands to its runs. */
#ifndef BENCH_STRAIGHT_H
#define BENCH_STRAIGHT_H

#include "baselines.h"
#include "table.h"

struct node {
    unsigned kind, type, a, b, c;
    uint32_t word;
};

/* A program on its way through check, and then through a run. */
struct tree {
    const uint8_t *program;
    unsigned count, cells;
    uint32_t bound;
    uint16_t parent[COUPLERFINCH_NODES], cell[COUPLERFINCH_NODES];
    uint8_t field[COUPLERFINCH_NODES], type[COUPLERFINCH_NODES];
};

/* The fields of node i, read from the bytes of the table. */
static inline struct node node_at(const uint8_t *program, unsigned i)
{
    const uint8_t *at = program + COUPLERFINCH_BLOCK * (i / PER_BLOCK) + 4 + 12 * (i % PER_BLOCK);
    return (struct node){at[0], at[1], get16(at + 2), get16(at + 4), get16(at + 6), get32(at + 8)};
}

uint32_t straight_refuse(couplerfinch_answer *answer, uint32_t code, uint32_t place);
uint32_t straight_read(struct tree *t, const uint8_t *program, size_t length, couplerfinch_answer *answer);
uint32_t straight_next(const struct tree *t, uint8_t *state, const uint8_t *record, uint8_t *output, couplerfinch_answer *answer);

#endif

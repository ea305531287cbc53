/* The decoded program that the check of the optimised baseline hands to its runs and to those of the strongest one. */
#ifndef BENCH_FAST_H
#define BENCH_FAST_H

#include "baselines.h"
#include "table.h"

/* A node as decoded. Delays and groups keep the number of their cell in c, switches in value; constants and delays
 * their value, branches the number of their group. */
struct code {
    uint8_t kind, type;
    union {
        struct {
            uint16_t a, b, c;
        };
        uint16_t field[3];
    };
    uint64_t value;
};

struct program {
    unsigned count, cells;
    uint32_t bound;
    uint8_t root_type;
    struct code code[COUPLERFINCH_NODES];
    uint16_t held[COUPLERFINCH_NODES]; /* how many cells there are below a node, itself included */
};

uint32_t fast_refuse(couplerfinch_answer *answer, uint32_t code, uint32_t place);
uint32_t fast_refuse_run(couplerfinch_answer *answer, uint32_t code, uint32_t place);
uint32_t fast_fault(const struct program *p, uint32_t checks, uint64_t *cells, const uint8_t *state, size_t state_length,
                    size_t records_length, size_t output_length);
uint32_t fast_decode(struct program *p, const uint8_t *bytes, size_t length, couplerfinch_answer *answer);

#endif

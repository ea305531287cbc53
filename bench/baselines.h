/* The three baselines: the calls of couplerfinch.h under other names. */
#ifndef BENCH_BASELINES_H
#define BENCH_BASELINES_H

#include "../include/couplerfinch.h"

#define BASELINE(name)                                                                                                          \
    uint32_t name##_check(const uint8_t *program, size_t program_length, couplerfinch_answer *answer);                          \
    uint32_t name##_start(const uint8_t *program, size_t program_length, uint8_t *state, size_t state_length,                   \
                          couplerfinch_answer *answer);                                                                         \
    uint32_t name##_run(const uint8_t *program, size_t program_length, uint8_t *state, size_t state_length,                     \
                        const uint8_t *records, size_t records_length, uint8_t *output, size_t output_length,                   \
                        couplerfinch_answer *answer)

BASELINE(straight);
BASELINE(fast);
BASELINE(strong);

#endif

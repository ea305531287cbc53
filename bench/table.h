/* What both baselines know of a table: kinds, types, which fields a kind has, and little-endian numbers. */
#ifndef BENCH_TABLE_H
#define BENCH_TABLE_H

#include "../include/couplerfinch.h"

enum {
    INPUT = 1, TIME, EXT, DELAY, LET, SWITCH, GROUP, UNTIL, BRANCH, CASE,
    VARIABLE = 16, CONSTANT, ADD, SUBTRACT, MULTIPLY, DIVIDE, LESS, EQUAL, NOT, AND, OR, IF, JUST, TAKE, KINDS
};

enum { UNIT = 1, BOOL = 2, INT = 3, MAYBE = 4 };
enum { NO_NEXT = 65535, PER_BLOCK = 42, NOWHERE = 65535, LATEST = 2147483647 };
#define NO_TIME 4294967295u

/* A row for each kind: its type byte, then the fields a, b and c. Type: 0 none, t any, p plain, v of a value. Fields: 0 none,
 * n a number that names no child, S signal, E expression, B first branch, C first case, b next branch, c next case. */
static const char rows[KINDS][5] = {
    [INPUT] = "0n00",    [TIME] = "0000",     [EXT] = "0E00",      [DELAY] = "vSn0",  [LET] = "tSS0",   [SWITCH] = "pSSS",
    [GROUP] = "0SB0",    [UNTIL] = "0SC0",    [BRANCH] = "pSb0",   [CASE] = "0Scn",   [VARIABLE] = "0n00", [CONSTANT] = "v0n0",
    [ADD] = "0EE0",      [SUBTRACT] = "0EE0", [MULTIPLY] = "0EE0", [DIVIDE] = "0EE0", [LESS] = "0EE0",  [EQUAL] = "0EE0",
    [NOT] = "0E00",      [AND] = "0EE0",      [OR] = "0EE0",       [IF] = "0EEE",     [JUST] = "0E00",  [TAKE] = "pEEE",
};

static inline unsigned get16(const uint8_t *at) { return at[0] | (unsigned)at[1] << 8; }
static inline uint32_t get32(const uint8_t *at) { return get16(at) | (uint32_t)get16(at + 2) << 16; }
static inline uint64_t get64(const uint8_t *at) { return get32(at) | (uint64_t)get32(at + 4) << 32; }

static inline void put32(uint8_t *at, uint32_t x)
{
    for (int k = 0; k < 4; k++)
        at[k] = (uint8_t)(x >> 8 * k);
}

static inline int is_plain(unsigned type) { return type >= UNIT && type <= INT; }
static inline int is_maybe(unsigned type) { return type >= MAYBE + UNIT && type <= MAYBE + INT; }

/* Whether a type, a present byte and a word are those of a value. */
static inline int value_fits(unsigned type, unsigned present, uint32_t word)
{
    if (!(is_plain(type) && present == 1) && !(is_maybe(type) && present <= 1))
        return 0;
    if (present == 0 || (type & 3) == UNIT)
        return word == 0;
    return (type & 3) == INT || word <= 1;
}

/* The sort of a node: S signal, B branch, C case, E expression. */
static inline char sort_of(unsigned kind)
{
    return kind <= UNTIL ? 'S' : kind == BRANCH ? 'B' : kind == CASE ? 'C' : 'E';
}

/* The sort of the child that a field names, or 0 where it names none. */
static inline char child_sort(char field, unsigned x)
{
    if (field == 'b' || field == 'c')
        return x == NO_NEXT ? 0 : field == 'b' ? 'B' : 'C';
    return field == 'S' || field == 'E' || field == 'B' || field == 'C' ? field : 0;
}

static inline int has_cell(unsigned kind) { return kind == DELAY || kind == SWITCH || kind == GROUP; }

/* The sum of the checks that stand in a program's blocks. */
static inline uint32_t checks_of(const uint8_t *program, size_t length)
{
    uint32_t sum = 0;
    for (size_t at = 0; at < length; at += COUPLERFINCH_BLOCK)
        sum += get32(program + at + 508);
    return sum;
}

/* The check of a block. */
static inline uint32_t check_sum(const uint8_t *block)
{
    uint32_t sum = 0;
    for (unsigned i = 0; i < 508; i++)
        sum += (i + 1) * block[i];
    return sum;
}

/* Code 12: a record that is not as it should be. */
static inline int record_wrong(const uint8_t *record)
{
    if (get32(record) > LATEST || record[20] > 15 || record[21] || record[22] || record[23])
        return 1;
    for (unsigned k = 0; k < 4; k++)
        if (!(record[20] >> k & 1) && get32(record + 24 + 4 * k) != 0)
            return 1;
    return 0;
}

#endif

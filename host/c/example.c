/* Runs a crossing through the library: reads a file of blocks and then records, checks the program, starts its state and makes a
 * step for each record, and says where a number wrapped in it. A record that is refused changes nothing, so the next one is tried from the
 * same state.
 *
 *   cc -std=c99 -Iinclude host/c/example.c crates/couplerfinch/out/libcouplerfinch.a -o example && ./example FILE
 */
#include "couplerfinch.h"

#include <inttypes.h>
#include <stdio.h>

static uint32_t number(const uint8_t *at)
{
    return at[0] | (uint32_t)at[1] << 8 | (uint32_t)at[2] << 16 | (uint32_t)at[3] << 24;
}

/* Prints a value: its type (1-3 unit, bool, int; 5-7 maybe of these), whether it is present, two zero bytes, a word. */
static void print_value(const uint8_t *value)
{
    uint32_t word = number(value + 4);
    const char *some = value[0] > 4 ? "some " : "";
    if (!value[1])
        printf("none");
    else if (value[0] % 4 == 1)
        printf("%sunit", some);
    else if (value[0] % 4 == 2)
        printf("%s%s", some, word ? "true" : "false");
    else
        printf("%s%" PRId64, some, (int64_t)word - (word >> 31 ? INT64_C(4294967296) : 0));
}

static int refused(const couplerfinch_answer *answer)
{
    printf("program refused: code %" PRIu32 ", place %" PRIu32 "\n", answer->code, answer->place);
    return 1;
}

/* Reads the program: as many blocks as byte 2 of its first block says, if there is room for so many and byte 3, the edition, is 0 or 1. */
static size_t read_program(FILE *file, uint8_t *program)
{
    size_t length = fread(program, 1, COUPLERFINCH_BLOCK, file);
    size_t blocks = length < COUPLERFINCH_BLOCK || program[3] > 1 ? 0 : program[2];
    if (blocks > 1 && blocks <= COUPLERFINCH_BLOCKS)
        length += fread(program + length, 1, (blocks - 1) * COUPLERFINCH_BLOCK, file);
    return length;
}

int main(int argc, char **argv)
{
    static uint8_t program[COUPLERFINCH_BLOCKS * COUPLERFINCH_BLOCK], state[COUPLERFINCH_LONGEST_STATE];
    uint8_t record[COUPLERFINCH_RECORD], value[COUPLERFINCH_VALUE];
    couplerfinch_answer answer;
    FILE *file = argc == 2 ? fopen(argv[1], "rb") : NULL;
    if (file == NULL) {
        fprintf(stderr, "use: example FILE\n");
        return 2;
    }
    size_t length = read_program(file, program);
    if (couplerfinch_check(program, length, &answer) != COUPLERFINCH_DONE)
        return refused(&answer);
    printf("%" PRIu32 " nodes, %" PRIu32 " cells, at most %" PRIu32 " rules a step\n", answer.nodes, answer.cells, answer.bound);
    size_t state_length = COUPLERFINCH_STATE(answer.cells);
    if (couplerfinch_start(program, length, state, state_length, &answer) != COUPLERFINCH_DONE)
        return refused(&answer);
    while (fread(record, 1, sizeof record, file) == sizeof record) {
        uint32_t code = couplerfinch_run(program, length, state, state_length, record, sizeof record, value, sizeof value, &answer);
        printf("%10" PRIu32 " ms  code %2" PRIu32 "  ", number(record), code);
        if (code == COUPLERFINCH_DONE)
            print_value(value);
        else
            printf("refused");
        printf(answer.wrapped == COUPLERFINCH_NO_STEP ? "\n" : "  a number wrapped\n");
    }
    fclose(file);
    return 0;
}

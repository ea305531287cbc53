/* watchrun over the straightforward baseline: the same lines, each as soon as its step is done. Standard input: blocks, then records. */
#include "straight.h"

#include <stdio.h>

static int refused(uint32_t code, uint32_t place)
{
    printf("REFUSED %u %u\n", code, place);
    fflush(stdout);
    return 0;
}

static const char *type_words(unsigned type)
{
    static const char *words[] = {"", "unit", "bool", "int", "", "maybe unit", "maybe bool", "maybe int"};
    return words[type & 7];
}

static void print_step(uint32_t time, const uint8_t *value, uint32_t work)
{
    printf("%u ", time);
    if (value[0] > MAYBE && !value[1]) {
        printf("none %u\n", work);
    } else {
        const char *some = value[0] > MAYBE ? "some " : "";
        switch (value[0] & 3) {
        case UNIT: printf("%sunit %u\n", some, work); break;
        case BOOL: printf("%s%s %u\n", some, value[4] ? "true" : "false", work); break;
        default: printf("%s%d %u\n", some, (int)(int32_t)get32(value + 4), work);
        }
    }
    fflush(stdout);
}

/* The blocks: as many as block 0 says, if 1 to 24, else just one. */
static size_t take_program(uint8_t *program)
{
    size_t length = fread(program, 1, COUPLERFINCH_BLOCK, stdin);
    if (length < COUPLERFINCH_BLOCK)
        return length;
    unsigned blocks = program[3] > 1 ? 0 : program[2];
    if (blocks < 1 || blocks > COUPLERFINCH_BLOCKS)
        return length;
    return length + fread(program + length, 1, (blocks - 1) * COUPLERFINCH_BLOCK, stdin);
}

/* One record after another. A step's refusal has the number of steps printed as its place. */
static int steps(const struct tree *t, uint8_t *state)
{
    uint8_t record[COUPLERFINCH_RECORD], value[COUPLERFINCH_VALUE];
    couplerfinch_answer answer;
    uint32_t done = 0, total = 0;
    for (;; done++) {
        size_t got = fread(record, 1, sizeof record, stdin);
        if (got == 0)
            break;
        if (got < sizeof record || done == COUPLERFINCH_RECORDS)
            return refused(COUPLERFINCH_RECORDS_LENGTH, 0);
        if (straight_next(t, state, record, value, &answer))
            return refused(answer.code, done);
        total += answer.work;
        print_step(get32(record), value, answer.work);
    }
    printf("END %u %u\n", done, total);
    return 0;
}

int main(void)
{
    static uint8_t program[COUPLERFINCH_BLOCKS * COUPLERFINCH_BLOCK], state[COUPLERFINCH_LONGEST_STATE];
    static struct tree t;
    couplerfinch_answer answer;
    size_t length = take_program(program);
    if (straight_check(program, length, &answer))
        return refused(answer.code, answer.place);
    printf("OK %u %u %u %s\n", answer.nodes, answer.cells, answer.bound, type_words(answer.type));
    fflush(stdout);
    size_t state_length = COUPLERFINCH_STATE(answer.cells);
    if (straight_start(program, length, state, state_length, &answer))
        return refused(answer.code, answer.place);
    if (straight_read(&t, program, length, &answer))
        return refused(answer.code, answer.place);
    return steps(&t, state);
}

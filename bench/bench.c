/* Times of the library beside the baselines, on the same input in one run: bench FOLDER check:NAME rule:NAME step:NAME .. Before anything is
 * measured, the answers and the memory of all sides are compared. Each side is repeated for some milliseconds, the sides take turns, and
 * the least of several rounds counts. */
#include "baselines.h"

#include <stdio.h>
#include <stdlib.h>
#include <string.h>
#include <time.h>

enum { SIDES = 4, ROUNDS = 9 };
#define ROUND_NS 20000000.0

struct side {
    const char *name;
    __typeof__(straight_check) *check;
    __typeof__(straight_start) *start;
    __typeof__(straight_run) *run;
};

static const struct side sides[SIDES] = {
    {"library", couplerfinch_check, couplerfinch_start, couplerfinch_run},
    {"straight", straight_check, straight_start, straight_run},
    {"fast", fast_check, fast_start, fast_run},
    {"strong", strong_check, strong_start, strong_run},
};

/* A table with its records, and the rooms of one call. */
struct job {
    uint8_t *program, *records;
    size_t program_length, records_length, state_length, output_length;
    uint8_t state[COUPLERFINCH_LONGEST_STATE], begin[COUPLERFINCH_LONGEST_STATE];
    uint8_t output[COUPLERFINCH_RECORDS * COUPLERFINCH_VALUE];
    couplerfinch_answer answer;
};

static void fail(const char *what, const char *name)
{
    fprintf(stderr, "bench: %s: %s\n", name, what);
    exit(1);
}

static uint8_t *read_file(const char *folder, const char *name, const char *ending, size_t *length)
{
    char path[1000];
    snprintf(path, sizeof path, "%s/%s.%s", folder, name, ending);
    FILE *file = fopen(path, "rb");
    uint8_t *bytes = malloc(COUPLERFINCH_RECORDS * COUPLERFINCH_RECORD + 1);
    if (!file || !bytes)
        fail("cannot be read", path);
    *length = fread(bytes, 1, COUPLERFINCH_RECORDS * COUPLERFINCH_RECORD + 1, file);
    fclose(file);
    return bytes;
}

static double now_ns(void)
{
    struct timespec t;
    clock_gettime(CLOCK_PROCESS_CPUTIME_ID, &t);
    return 1e9 * (double)t.tv_sec + (double)t.tv_nsec;
}

static void call_check(const struct side *s, struct job *j) { s->check(j->program, j->program_length, &j->answer); }

static void call_run(const struct side *s, struct job *j)
{
    memcpy(j->state, j->begin, j->state_length);
    s->run(j->program, j->program_length, j->state, j->state_length, j->records, j->records_length, j->output, j->output_length,
           &j->answer);
}

/* All sides must give one answer and one content of the memory, with code 0. */
static void compare(struct job *j, void (*call)(const struct side *, struct job *), const char *name)
{
    static struct job first;
    for (int s = 0; s < SIDES; s++) {
        memset(&j->answer, 0xee, sizeof j->answer);
        memset(j->output, 0xee, sizeof j->output);
        call(&sides[s], j);
        if (j->answer.code)
            fail("a call was refused", name);
        if (s == 0)
            first = *j;
        else if (memcmp(&first.answer, &j->answer, sizeof j->answer) || memcmp(first.state, j->state, j->state_length) ||
                 memcmp(first.output, j->output, sizeof j->output))
            fail("two sides differ", name);
    }
}

/* Nanoseconds of one call for each side: the least of the rounds. */
static void measure(struct job *j, void (*call)(const struct side *, struct job *), double least[SIDES])
{
    int times[SIDES];
    for (int s = 0; s < SIDES; s++) {
        double from = now_ns();
        call(&sides[s], j);
        times[s] = (int)(ROUND_NS / (now_ns() - from + 1)) + 1;
    }
    for (int round = 0; round < ROUNDS; round++)
        for (int s = 0; s < SIDES; s++) {
            double begin = now_ns();
            for (int k = 0; k < times[s]; k++)
                call(&sides[s], j);
            double each = (now_ns() - begin) / times[s];
            if (round == 0 || each < least[s])
                least[s] = each;
        }
}

static void print_row(const char *what, const char *name, const double least[SIDES], double unit)
{
    printf("%-6s %-13s", what, name);
    for (int s = 0; s < SIDES; s++)
        printf(" %10.3f", least[s] / unit);
    for (int s = 1; s < SIDES; s++)
        printf(" %9.2f", least[0] / least[s]);
    putchar('\n');
    fflush(stdout);
}

static void load(struct job *j, const char *folder, const char *name)
{
    j->program = read_file(folder, name, "table", &j->program_length);
    j->records = read_file(folder, name, "records", &j->records_length);
    j->output_length = j->records_length / COUPLERFINCH_RECORD * COUPLERFINCH_VALUE;
    if (couplerfinch_check(j->program, j->program_length, &j->answer))
        fail("check refuses it", name);
    j->state_length = COUPLERFINCH_STATE(j->answer.cells);
    for (int s = 0; s < SIDES; s++) {
        memset(j->state, 0xee, sizeof j->state);
        if (sides[s].start(j->program, j->program_length, j->state, j->state_length, &j->answer))
            fail("start refuses it", name);
        if (s > 0 && memcmp(j->begin, j->state, j->state_length))
            fail("two sides start differently", name);
        memcpy(j->begin, j->state, sizeof j->begin);
    }
}

/* One row: check:NAME in microseconds, rule:NAME in nanoseconds a rule, step:NAME in microseconds a step. */
static void row(const char *folder, const char *word)
{
    static struct job j;
    char what[6] = "";
    const char *name = strchr(word, ':');
    double least[SIDES], unit = 1000;
    if (name && name - word < 6)
        memcpy(what, word, (size_t)(name - word));
    int is_check = !strcmp(what, "check"), is_rule = !strcmp(what, "rule");
    if (!is_check && !is_rule && strcmp(what, "step"))
        fail("no such measurement", word);
    void (*call)(const struct side *, struct job *) = is_check ? call_check : call_run;
    load(&j, folder, ++name);
    compare(&j, call, name);
    if (!is_check)
        unit = is_rule ? j.answer.work : 1000.0 * j.answer.steps;
    measure(&j, call, least);
    print_row(what, name, least, unit);
    free(j.program);
    free(j.records);
}

int main(int count, char **words)
{
    if (count < 3) {
        fprintf(stderr, "usage: bench FOLDER check:NAME rule:NAME step:NAME ..\n");
        return 2;
    }
    printf("%-6s %-13s %10s %10s %10s %10s %9s %9s %9s\n", "of", "table", "library", "straight", "fast", "strong", "/straight", "/fast", "/strong");
    for (int k = 2; k < count; k++)
        row(words[1], words[k]);
    return 0;
}

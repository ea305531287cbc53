/* One piece of work, whose instructions bench/instructions counts from outside: count SIDE FOLDER NAME CHECKS RECORDS makes so many checks
 * of the table and then, if RECORDS is not 0, one run of its first so many records from the start state. It prints the work. With node numbers
 * behind it the library's run is a watched one. */
#include "baselines.h"

#include <stdio.h>
#include <stdlib.h>
#include <string.h>

struct side {
    const char *name;
    __typeof__(straight_check) *check;
    __typeof__(straight_start) *start;
    __typeof__(straight_run) *run;
};

static const struct side sides[] = {
    {"library", couplerfinch_check, couplerfinch_start, couplerfinch_run},
    {"straight", straight_check, straight_start, straight_run},
    {"fast", fast_check, fast_start, fast_run},
    {"strong", strong_check, strong_start, strong_run},
};

static uint8_t program[COUPLERFINCH_BLOCKS * COUPLERFINCH_BLOCK], records[COUPLERFINCH_RECORDS * COUPLERFINCH_RECORD];
static uint8_t state[COUPLERFINCH_LONGEST_STATE], output[COUPLERFINCH_RECORDS * COUPLERFINCH_VALUE];
static uint8_t shown[COUPLERFINCH_SHOWN(COUPLERFINCH_WATCHED, COUPLERFINCH_RECORDS)];
static uint16_t list[COUPLERFINCH_WATCHED];

static size_t read_file(const char *folder, const char *name, const char *ending, uint8_t *room, size_t length)
{
    char path[1000];
    snprintf(path, sizeof path, "%s/%s.%s", folder, name, ending);
    FILE *file = fopen(path, "rb");
    if (!file) {
        perror(path);
        exit(1);
    }
    length = fread(room, 1, length, file);
    fclose(file);
    return length;
}

int main(int count, char **words)
{
    const struct side *s = NULL;
    for (size_t k = 0; k < sizeof sides / sizeof *sides; k++)
        if (count >= 6 && count <= 6 + (int)COUPLERFINCH_WATCHED && !strcmp(words[1], sides[k].name))
            s = &sides[k];
    if (!s) {
        fprintf(stderr, "usage: count library|straight|fast|strong FOLDER NAME CHECKS RECORDS [NODE..]\n");
        return 2;
    }
    couplerfinch_answer a = {0};
    size_t length = read_file(words[2], words[3], "table", program, sizeof program);
    size_t most = read_file(words[2], words[3], "records", records, sizeof records) / COUPLERFINCH_RECORD;
    size_t n = strtoul(words[5], NULL, 10);
    for (int k = atoi(words[4]); k > 0; k--)
        s->check(program, length, &a);
    size_t state_length = COUPLERFINCH_STATE(a.cells);
    size_t entries = count - 6;
    for (size_t k = 0; k < entries; k++)
        list[k] = atoi(words[6 + k]);
    if (n > 0 && n <= most && !a.code && !s->start(program, length, state, state_length, &a) && entries > 0)
        couplerfinch_watch(program, length, state, state_length, records, COUPLERFINCH_RECORD * n, list, entries, output, COUPLERFINCH_VALUE * n,
                           shown, COUPLERFINCH_SHOWN(entries, n), &a);
    else if (n > 0 && n <= most && !a.code)
        s->run(program, length, state, state_length, records, COUPLERFINCH_RECORD * n, output, COUPLERFINCH_VALUE * n, &a);
    if (a.code || a.steps != n) {
        fprintf(stderr, "count: %s: code %u at %u after %u steps\n", words[3], a.code, a.place, a.steps);
        return 1;
    }
    printf("%u\n", a.work);
    return 0;
}

/* Answers the requests of second/README.md ("calls serve") by one of the libraries: agree library|straight|fast|strong. The answers go to standard
 * output in the same form, so that they can be compared byte for byte with those of `calls serve`. */
#include "baselines.h"

#include <stdio.h>
#include <stdlib.h>
#include <string.h>

struct side {
    const char *name;
    __typeof__(straight_check) *check;
    __typeof__(straight_start) *start;
    __typeof__(straight_run) *run;
};

static const struct side sides[] = {
#ifndef BASELINES_ONLY
    {"library", couplerfinch_check, couplerfinch_start, couplerfinch_run},
#endif
    {"straight", straight_check, straight_start, straight_run},
    {"fast", fast_check, fast_start, fast_run},
    {"strong", strong_check, strong_start, strong_run},
};

/* So many bytes of standard input, in memory of exactly that length. */
static uint8_t *take(size_t length)
{
    uint8_t *room = malloc(length ? length : 1);
    if (!room || fread(room, 1, length, stdin) != length) {
        fprintf(stderr, "agree: the stream ends within a request\n");
        exit(1);
    }
    return room;
}

static void hex(const uint8_t *room, size_t length)
{
    for (size_t k = 0; k < length; k++)
        printf("%02x", room[k]);
    putchar('\n');
}

/* The first line of an answer; of an accepted one as the call's name says. */
static void first_line(char call, couplerfinch_answer a)
{
    if (a.code && call == 'r')
        printf("REFUSED %u %u %u %u\n", a.code, a.place, a.work, a.wrapped);
    else if (a.code)
        printf("REFUSED %u %u %u\n", a.code, a.place, a.work);
    else if (call == 'c')
        printf("OK %u %u %u %u\n", a.nodes, a.cells, a.bound, a.type);
    else if (call == 't')
        printf("OK\n");
    else
        printf("OK %u %u %u\n", a.steps, a.work, a.wrapped);
}

/* One request: its name and the lengths of program, state, records and output. */
static void answer(const struct side *s, const char *name, size_t lengths[4])
{
    uint8_t *rooms[4];
    couplerfinch_answer a;
    memset(&a, 0xee, sizeof a);
    for (int k = 0; k < 4; k++)
        rooms[k] = take(lengths[k]);
    if (!strcmp(name, "check")) {
        s->check(rooms[0], lengths[0], &a);
        first_line('c', a);
    } else if (!strcmp(name, "start")) {
        s->start(rooms[0], lengths[0], rooms[1], lengths[1], &a);
        first_line('t', a);
        hex(rooms[1], lengths[1]);
    } else {
        s->run(rooms[0], lengths[0], rooms[1], lengths[1], rooms[2], lengths[2], rooms[3], lengths[3], &a);
        first_line('r', a);
        hex(rooms[1], lengths[1]);
        hex(rooms[3], lengths[3]);
    }
    for (int k = 0; k < 4; k++)
        free(rooms[k]);
}

int main(int count, char **words)
{
    const struct side *s = NULL;
    for (size_t k = 0; k < sizeof sides / sizeof *sides; k++)
        if (count == 2 && !strcmp(words[1], sides[k].name))
            s = &sides[k];
    if (!s) {
        fprintf(stderr, "usage: agree library|straight|fast|strong\n");
        return 2;
    }
    char line[200], name[8];
    while (fgets(line, sizeof line, stdin)) {
        size_t n[4] = {0};
        if (sscanf(line, "%7s %zu %zu %zu %zu", name, &n[0], &n[1], &n[2], &n[3]) < 2) {
            printf("NO REQUEST\n");
            return 1;
        }
        answer(s, name, n);
    }
    return 0;
}

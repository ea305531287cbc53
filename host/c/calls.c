/* Answers requests to the calls through the library, as the second program's `calls` does (second/README.md): one request on
 * standard input, or a stream of them with the word `serve`.
 *
 * Every room that a call is lent is exactly as long as the request says and stands between guard bytes. A call that writes outside
 * its rooms, or to a program, records, a list or a pairing that it only reads, or whose answer is not as couplerfinch.h says, ends this program with
 * status 3 and a line on standard error.
 */
#include "couplerfinch.h"

#include <inttypes.h>
#include <stdbool.h>
#include <stdio.h>
#include <stdlib.h>
#include <string.h>

#define LINE 200         /* the most bytes that a request's line may have */
#define GUARD 64         /* guard bytes on each side of a room */
#define GUARD_BYTE 0xA5
#define ROOMS 6          /* the most that a call is lent */
#define CHUNK (1u << 16) /* how much memory a length is trusted with before its bytes are there */

enum call { CHECK, START, RUN, WATCH, CHAIN, MEND, TIDY, PAIR, READ, PRINT };

/* The calls: how many rooms each is lent, the program or text first; which of them it may write; which has entries, two bytes each (0: none). */
static const struct {
    const char *name;
    size_t rooms;
    bool written[ROOMS];
    size_t entries;
} calls[] = {
    {"check", 1, {false}, 0},
    {"start", 2, {false, true}, 0},
    {"run", 4, {false, true, false, true}, 0},
    {"watch", 6, {false, true, false, false, true, true}, 2},
    {"chain", 2, {false, true}, 1},
    {"mend", 3, {false, true, true}, 2},
    {"tidy", 2, {false, true}, 0},
    {"pair", 3, {false}, 2},
    {"read", 2, {false, true}, 0},
    {"print", 2, {false, true}, 0},
};

/* Bytes lent to a call: `bytes` points behind the first guard. */
struct room {
    uint8_t *bytes;
    size_t length;
};

struct request {
    enum call call;
    size_t count;
    struct room rooms[ROOMS];
};

/* A word of a line. */
struct word {
    const unsigned char *at;
    size_t length;
};

static void fail(const char *what)
{
    fprintf(stderr, "calls: %s\n", what);
    exit(3);
}

static uint8_t *memory(uint8_t *old, size_t length)
{
    uint8_t *new = length <= SIZE_MAX - 2 * GUARD ? realloc(old, length + 2 * GUARD) : NULL;
    if (new == NULL)
        fail("no memory");
    return new;
}

/* Reads a room of exactly so many bytes, if the input has them; memory grows with what was read. */
static bool read_room(struct room *room, uint64_t length)
{
    uint8_t *all = NULL;
    uint64_t got = 0, size = 0;
    do {
        uint64_t more = size == 0 ? CHUNK : size;
        size = length - size < more ? length : size + more;
        all = memory(all, size);
        got += fread(all + GUARD + got, 1, size - got, stdin);
    } while (got == size && size < length);
    if (got != length) {
        free(all);
        return false;
    }
    memset(all, GUARD_BYTE, GUARD);
    memset(all + GUARD + length, GUARD_BYTE, GUARD);
    *room = (struct room){all + GUARD, length};
    return true;
}

static struct room copy_of(struct room room)
{
    uint8_t *all = memory(NULL, room.length);
    memcpy(all + GUARD, room.bytes, room.length);
    return (struct room){all + GUARD, room.length};
}

static void free_room(struct room room)
{
    free(room.bytes - GUARD);
}

/* Whether all guard bytes from a place on are as they were. */
static bool guards(const uint8_t *at)
{
    for (size_t i = 0; i < GUARD; i++) {
        if (at[i] != GUARD_BYTE)
            return false;
    }
    return true;
}

/* How long the white space at a place is, 0 for none: Unicode's, as the second program parts words by it. */
static size_t space(const unsigned char *at, const unsigned char *end)
{
    static const char *const wide[] = {"\xC2\x85", "\xC2\xA0", "\xE1\x9A\x80", "\xE2\x80\xA8", "\xE2\x80\xA9", "\xE2\x80\xAF",
                                       "\xE2\x81\x9F", "\xE3\x80\x80"};
    if (*at == ' ' || (*at >= '\t' && *at <= '\r'))
        return 1;
    if (end - at >= 3 && at[0] == 0xE2 && at[1] == 0x80 && at[2] >= 0x80 && at[2] <= 0x8A)
        return 3;
    for (size_t i = 0; i < sizeof wide / sizeof *wide; i++) {
        size_t length = strlen(wide[i]);
        if ((size_t)(end - at) >= length && memcmp(at, wide[i], length) == 0)
            return length;
    }
    return 0;
}

/* The next word of a line, and the place after it; of length 0 where there is none. */
static struct word next_word(const unsigned char **at, const unsigned char *end)
{
    size_t skip;
    while (*at < end && (skip = space(*at, end)) > 0)
        *at += skip;
    struct word word = {*at, 0};
    while (*at < end && space(*at, end) == 0)
        ++*at;
    word.length = (size_t)(*at - word.at);
    return word;
}

/* A decimal number below 2 to the 64th; a plus may stand before it. */
static bool number(struct word word, uint64_t *value)
{
    size_t i = word.length > 1 && word.at[0] == '+' ? 1 : 0;
    for (*value = 0; i < word.length; i++) {
        if (word.at[i] < '0' || word.at[i] > '9')
            return false;
        unsigned digit = word.at[i] - (unsigned)'0';
        if (*value > (UINT64_MAX - digit) / 10)
            return false;
        *value = *value * 10 + digit;
    }
    return true;
}

static bool call_named(struct word word, enum call *call)
{
    for (int i = CHECK; i <= PRINT; i++) {
        if (strlen(calls[i].name) == word.length && memcmp(calls[i].name, word.at, word.length) == 0) {
            *call = (enum call)i;
            return true;
        }
    }
    return false;
}

/* The call and the lengths of a line, if it is a request's. */
static bool parse(const unsigned char *line, size_t length, struct request *request, uint64_t *lengths)
{
    const unsigned char *end = line + length;
    if (!call_named(next_word(&line, end), &request->call))
        return false;
    request->count = 0;
    for (struct word word = next_word(&line, end); word.length > 0; word = next_word(&line, end)) {
        if (request->count == ROOMS || !number(word, &lengths[request->count]))
            return false;
        request->count++;
    }
    size_t entries = calls[request->call].entries;
    return request->count == calls[request->call].rooms && (entries == 0 || lengths[entries] % 2 == 0);
}

/* Reads a request; false where the input is none. */
static bool read_request(struct request *request)
{
    unsigned char line[LINE];
    uint64_t lengths[ROOMS];
    size_t length = 0;
    for (int c = 0; length < LINE && c != '\n' && (c = getchar()) != EOF;)
        line[length++] = (unsigned char)c;
    if (!parse(line, length, request, lengths))
        return false;
    for (size_t i = 0; i < request->count; i++) {
        if (read_room(&request->rooms[i], lengths[i]))
            continue;
        while (i > 0)
            free_room(request->rooms[--i]);
        return false;
    }
    return true;
}

/* A room's entries. */
static uint16_t *entries(struct room room)
{
    return (uint16_t *)(void *)room.bytes;
}

/* Makes the call. */
static uint32_t call(const struct request *request, couplerfinch_answer *answer)
{
    const struct room *r = request->rooms;
    switch (request->call) {
    case CHECK:
        return couplerfinch_check(r[0].bytes, r[0].length, answer);
    case START:
        return couplerfinch_start(r[0].bytes, r[0].length, r[1].bytes, r[1].length, answer);
    case WATCH:
        return couplerfinch_watch(r[0].bytes, r[0].length, r[1].bytes, r[1].length, r[3].bytes, r[3].length, entries(r[2]), r[2].length / 2,
                                  r[4].bytes, r[4].length, r[5].bytes, r[5].length, answer);
    case CHAIN:
        return couplerfinch_explain(r[0].bytes, r[0].length, entries(r[1]), r[1].length / 2, answer);
    case MEND:
        return couplerfinch_mend(r[0].bytes, r[0].length, r[1].bytes, r[1].length, entries(r[2]), r[2].length / 2, answer);
    case TIDY:
        return couplerfinch_tidy(r[0].bytes, r[0].length, r[1].bytes, r[1].length, answer);
    case READ:
        return couplerfinch_read(r[0].bytes, r[0].length, r[1].bytes, r[1].length, answer);
    case PRINT:
        return couplerfinch_print(r[0].bytes, r[0].length, r[1].bytes, r[1].length, answer);
    case PAIR:
        return couplerfinch_paired(r[0].bytes, r[0].length, r[1].bytes, r[1].length, entries(r[2]), r[2].length / 2, answer);
    default:
        return couplerfinch_run(r[0].bytes, r[0].length, r[1].bytes, r[1].length, r[2].bytes, r[2].length, r[3].bytes, r[3].length,
                                answer);
    }
}

/* Whether a code is one from the first to the last. */
static bool among(uint32_t code, uint32_t first, uint32_t last)
{
    return code >= first && code <= last;
}

/* Whether a call may give a code. */
static bool may_give(enum call of, uint32_t code)
{
    switch (of) {
    case CHECK:
        return code <= COUPLERFINCH_NOT_READY;
    case START:
        return code <= COUPLERFINCH_STATE_FAULT;
    case WATCH:
        return code <= COUPLERFINCH_TIME_BACK || code == COUPLERFINCH_OTHER_PROGRAM || among(code, COUPLERFINCH_WATCH_LENGTH, COUPLERFINCH_WATCH_ENTRY);
    case CHAIN:
        return code <= COUPLERFINCH_TYPE_FAULT || among(code, COUPLERFINCH_NO_LET, COUPLERFINCH_ROOM_LENGTH);
    case MEND:
        return code <= COUPLERFINCH_STATE_FAULT || among(code, COUPLERFINCH_OTHER_PROGRAM, COUPLERFINCH_LIST_LENGTH);
    case TIDY:
        return code <= COUPLERFINCH_NOT_READY || code == COUPLERFINCH_NEW_LENGTH;
    case READ:
        return code == 0 || among(code, COUPLERFINCH_SCOPE_FAULT, COUPLERFINCH_NOT_READY) ||
               among(code, COUPLERFINCH_TEXT_WORD, COUPLERFINCH_TEXT_ROOM);
    case PRINT:
        return code <= COUPLERFINCH_NOT_READY || code == COUPLERFINCH_TEXT_ROOM;
    case PAIR:
        return code <= COUPLERFINCH_NOT_READY || among(code, COUPLERFINCH_PAIRING_LENGTH, COUPLERFINCH_OTHER_EDITION) ||
               among(code, COUPLERFINCH_NEW_PROGRAM_LENGTH, COUPLERFINCH_NEW_NOT_READY);
    default:
        return code <= COUPLERFINCH_TIME_BACK || code == COUPLERFINCH_OTHER_PROGRAM;
    }
}

/* Holds what the header says of an answer: the code is answered too, and numbers that the call does not give are 0. */
static void hold_answer(enum call of, uint32_t code, const couplerfinch_answer *a)
{
    bool checked = of == CHECK && code == 0, explained = of == CHAIN && code == 0;
    bool mended = of == MEND && code == 0, made = (of == TIDY || of == READ) && code == 0, printed = of == PRINT && code == 0;
    bool ran = of == RUN || of == WATCH;
    if (code != a->code || !may_give(of, code))
        fail("the code answered is not that of the answer, or not the call's");
    if ((a->place != 0 && code == 0) || (!ran && (a->steps != 0 || a->work != 0)))
        fail("a place, steps or work where there is none");
    if ((!checked && (a->cells != 0 || a->bound != 0 || a->type != 0)) || (!checked && !made && a->nodes != 0))
        fail("nodes, cells, bound or type where there is none");
    if ((!explained && a->node != 0) || (!explained && !mended && a->entries != 0) || (!made && !printed && a->length != 0) || (!ran && a->wrapped != 0))
        fail("wrapped, length, entries or a node where there is none");
    if (ran && a->wrapped != COUPLERFINCH_NO_STEP && a->wrapped >= a->steps)
        fail("a wrapped step that was not done");
    if ((code == COUPLERFINCH_INPUT_FAULT || code == COUPLERFINCH_TIME_BACK) && a->steps != a->place)
        fail("a record refused is not the one after the steps done");
}

/* Makes the call, and then holds the guards and all that it only reads. */
static couplerfinch_answer guarded(const struct request *request)
{
    struct {
        uint8_t before[GUARD];
        couplerfinch_answer answer;
        uint8_t after[GUARD];
    } lent;
    struct room old[ROOMS];
    const bool *written = calls[request->call].written;
    for (size_t i = 0; i < request->count; i++)
        old[i] = copy_of(request->rooms[i]);
    memset(&lent, GUARD_BYTE, sizeof lent);
    uint32_t code = call(request, &lent.answer);
    if (!guards(lent.before) || !guards(lent.after))
        fail("a guard byte of the answer was written");
    for (size_t i = 0; i < request->count; i++) {
        struct room room = request->rooms[i];
        if (!guards(room.bytes - GUARD) || !guards(room.bytes + room.length))
            fail("a guard byte of a room was written");
    }
    for (size_t i = 0; i < request->count; i++) {
        bool same = memcmp(old[i].bytes, request->rooms[i].bytes, old[i].length) == 0;
        if (!same && !written[i])
            fail("a program, a text, records, a list or a pairing were written");
        if (!same && code != 0 && request->call != RUN && request->call != WATCH)
            fail("a refused call wrote to a room");
        free_room(old[i]);
    }
    hold_answer(request->call, code, &lent.answer);
    return lent.answer;
}

static void print_hex(struct room room)
{
    static const char digits[] = "0123456789abcdef";
    char text[4096];
    size_t length = 0;
    for (size_t i = 0; i < room.length; i++) {
        text[length++] = digits[room.bytes[i] >> 4];
        text[length++] = digits[room.bytes[i] & 15];
        if (length == sizeof text) {
            fwrite(text, 1, length, stdout);
            length = 0;
        }
    }
    fwrite(text, 1, length, stdout);
    putchar('\n');
}

/* Prints the answer's numbers and the memory that the call may write. */
static void print_answer(const struct request *request, const couplerfinch_answer *a)
{
    if (a->code != COUPLERFINCH_DONE && (request->call == RUN || request->call == WATCH))
        printf("REFUSED %" PRIu32 " %" PRIu32 " %" PRIu32 " %" PRIu32 "\n", a->code, a->place, a->work, a->wrapped);
    else if (a->code != COUPLERFINCH_DONE)
        printf("REFUSED %" PRIu32 " %" PRIu32 " %" PRIu32 "\n", a->code, a->place, a->work);
    else if (request->call == CHECK)
        printf("OK %" PRIu32 " %" PRIu32 " %" PRIu32 " %" PRIu32 "\n", a->nodes, a->cells, a->bound, a->type);
    else if (request->call == START || request->call == PAIR)
        printf("OK\n");
    else if (request->call == CHAIN)
        printf("OK %" PRIu32 " %" PRIu32 "\n", a->node, a->entries);
    else if (request->call == MEND)
        printf("OK %" PRIu32 "\n", a->entries);
    else if (request->call == PRINT)
        printf("OK %" PRIu32 "\n", a->length);
    else if (request->call == TIDY || request->call == READ)
        printf("OK %" PRIu32 " %" PRIu32 "\n", a->nodes, a->length);
    else
        printf("OK %" PRIu32 " %" PRIu32 " %" PRIu32 "\n", a->steps, a->work, a->wrapped);
    for (size_t i = 0; i < request->count; i++) {
        if (calls[request->call].written[i])
            print_hex(request->rooms[i]);
    }
}

static bool at_end(void)
{
    int c = getchar();
    return c == EOF || ungetc(c, stdin) == EOF;
}

int main(int argc, char **argv)
{
    bool serve = argc > 1 && strcmp(argv[1], "serve") == 0;
    struct request request;
    while (!at_end()) {
        if (!read_request(&request)) {
            puts("NO REQUEST");
            break;
        }
        couplerfinch_answer answer = guarded(&request);
        print_answer(&request, &answer);
        for (size_t i = 0; i < request.count; i++)
            free_room(request.rooms[i]);
        if (fflush(stdout) != 0 || !serve)
            break;
    }
    return 0;
}

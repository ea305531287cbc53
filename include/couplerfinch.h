/* The ten calls of Couplerfinch for C: check, start, run, watch, explain, mend, tidy, paired, read and print.
 *
 * Every call ends and answers, whatever bytes and lengths it is handed; none has a precondition on the content. It writes the answer
 * to the room that is lent for it, and answers the code too: 0 where the call went through, or the first code that the rules
 * give. A refused call writes nothing else, but for a run and a watched run: they keep the whole steps done before the refused record, so
 * that a run of one record that is refused changes nothing.
 *
 * What C can't say, and the caller owes: a pointer is not NULL, even where its length is 0, and points to as many bytes as its
 * length says (explain's room, the lists of mend and watch and a pairing: to as many 16-bit numbers as its entries say); no room that is written overlaps
 * another. No call allocates, keeps a pointer or has memory of its own; each needs at most 512 KiB of stack.
 */
#ifndef COUPLERFINCH_H
#define COUPLERFINCH_H

#include <stddef.h>
#include <stdint.h>

#ifdef __cplusplus
extern "C" {
#endif

/* The version of this header and of the library; host/rust and tables version have the same. */
#define COUPLERFINCH_VERSION "1.1.0"

/* A record, 40 bytes (docs/FORMAT.md has them all, and a function that makes one). Numbers are little-endian.
 *
 *   0-3                  time in milliseconds, 0 to 2,147,483,647; never before the last record's, equal is allowed
 *   4-7 8-11 12-15 16-19 channels 0 to 3, steady readings, signed
 *   20                   flags: bits 0 to 3 are set where an event came on channels 4 to 7; bits 4 to 7 zero
 *   21-23                zero
 *   24-27 .. 36-39       the events' numbers, channels 4 to 7, signed; zero where none came
 *
 * A value, 8 bytes: type (1 unit, 2 bool, 3 int; 5, 6, 7 maybe of these), present (1, or 0 for an absent maybe), two zero bytes, the number.
 */

/* A program is 1 to 24 blocks; an input record has 40 bytes and the value of a step 8; a run has 0 to 4,096 records. Byte 2 of each block is
 * the count of blocks, and byte 3 the edition: 0 for edition one, 1 for edition two, where a case may leave more than one group at once. */
#define COUPLERFINCH_BLOCK 512u
#define COUPLERFINCH_BLOCKS 24u
#define COUPLERFINCH_NODES 1008u
#define COUPLERFINCH_RECORD 40u
#define COUPLERFINCH_VALUE 8u
#define COUPLERFINCH_RECORDS 4096u

/* The length of the longest program: a room for tidy and read that is long enough for any. */
#define COUPLERFINCH_LONGEST_PROGRAM (COUPLERFINCH_BLOCK * COUPLERFINCH_BLOCKS)

/* No printed text is longer: a room for print that is long enough for any. */
#define COUPLERFINCH_LONGEST_TEXT 107868u

/* An entry of explain's room behind the chain. */
#define COUPLERFINCH_NO_ENTRY 65535u

/* What a run answers in wrapped where in none of its finished steps a number wrapped. */
#define COUPLERFINCH_NO_STEP 65535u

/* The length of a state of so many cells, and of the longest one. A state is the last time, the sum of its program's block checks, 4 bytes
 * each, and the cells: by the sum a run knows its program's states (programs of equal sums are not told apart). */
#define COUPLERFINCH_STATE(cells) (8u + 8u * (size_t)(cells))
#define COUPLERFINCH_LONGEST_STATE COUPLERFINCH_STATE(COUPLERFINCH_NODES)

/* How many nodes a watched run lists at most, and the length of its second room for so many entries and records. */
#define COUPLERFINCH_WATCHED 8u
#define COUPLERFINCH_SHOWN(entries,records) (8u * (size_t)(entries) * (size_t)(records))

/* How many entries mend's list has room for with so many cells, and at most; and its first entry if the time changed. */
#define COUPLERFINCH_LIST(cells) ((size_t)(cells) + 1u)
#define COUPLERFINCH_LONGEST_LIST COUPLERFINCH_LIST(COUPLERFINCH_NODES)
#define COUPLERFINCH_TIME_ENTRY 65535u

/* The codes; docs/CODES.md says what each means, where its place is and what to do. A run tries a state by 9 for its length, then by 15 for a
 * sum that is not the program's, then by 9 for the rest, before 10. (14 was a code, and is not used again.) Mend tries 9 for the length alone,
 * then 15, then 16, a list that has not COUPLERFINCH_LIST(cells) entries. Watch alone gives 17 and 18, for its list, after 8 and before 9, and
 * gives 11 for either of its rooms. Tidy alone gives 19, a room that is shorter than the program.
 * Read alone gives 21 to 23, a word that does not fit at its position in the text, and with print 24, a room that is shorter than the result.
 * Explain alone gives 25, no let to explain, and 26, a room that has not COUPLERFINCH_NODES entries. Paired alone gives 27 to 29, and 33 to 40:
 * 1 to 8 of the new program. */
#define COUPLERFINCH_DONE 0u
/* the program is empty, longer than 24 blocks or not whole blocks of 512 bytes */
#define COUPLERFINCH_PROGRAM_LENGTH 1u
/* the check sum of this block is not that of its bytes */
#define COUPLERFINCH_CHECK_SUM 2u
/* this block has not its own number, the count of all blocks or the edition of block 0 */
#define COUPLERFINCH_BLOCK_NUMBER 3u
/* this record of the table by itself is wrong: its kind, type, constant, channel, a field that must be zero, or the end of the records */
#define COUPLERFINCH_RECORD_FAULT 4u
/* the nodes do not make one tree of the right sorts */
#define COUPLERFINCH_SHAPE_FAULT 5u
/* the binder of this variable does not hold here, or the target of this case is no branch of a group that it may leave */
#define COUPLERFINCH_SCOPE_FAULT 6u
/* the types at this node do not agree */
#define COUPLERFINCH_TYPE_FAULT 7u
/* the definition of this let needs its own value of the same step */
#define COUPLERFINCH_NOT_READY 8u
/* the state is not one that this program can have, or has not its length */
#define COUPLERFINCH_STATE_FAULT 9u
/* the records are not whole records of 40 bytes, or more than 4,096 */
#define COUPLERFINCH_RECORDS_LENGTH 10u
/* the room for values is not 8 bytes for each record */
#define COUPLERFINCH_OUTPUT_LENGTH 11u
/* this record is not well-formed */
#define COUPLERFINCH_INPUT_FAULT 12u
/* the time of this record is before the time of the state */
#define COUPLERFINCH_TIME_BACK 13u
/* the state is that of another program */
#define COUPLERFINCH_OTHER_PROGRAM 15u
/* the room for the list is not one entry for each cell and one more */
#define COUPLERFINCH_LIST_LENGTH 16u
/* the list of nodes to watch has not 1 to 8 entries */
#define COUPLERFINCH_WATCH_LENGTH 17u
/* this entry of the list is no signal node, or not above the one before */
#define COUPLERFINCH_WATCH_ENTRY 18u
/* the room for the new program is shorter than the old program */
#define COUPLERFINCH_NEW_LENGTH 19u
/* this word or parenthesis does not fit here */
#define COUPLERFINCH_TEXT_WORD 21u
/* this name is unknown here, or bound twice */
#define COUPLERFINCH_TEXT_NAME 22u
/* this constant or channel is out of range */
#define COUPLERFINCH_TEXT_NUMBER 23u
/* the result is longer than the room for it */
#define COUPLERFINCH_TEXT_ROOM 24u
/* no let needs its own value of the same step: there is nothing to explain */
#define COUPLERFINCH_NO_LET 25u
/* the room for the chain is not 1,008 entries */
#define COUPLERFINCH_ROOM_LENGTH 26u
/* the pairing has not one entry for each new node */
#define COUPLERFINCH_PAIRING_LENGTH 27u
/* this entry of the pairing is wrong */
#define COUPLERFINCH_PAIRING_ENTRY 28u
/* the old and the new program are of different editions */
#define COUPLERFINCH_OTHER_EDITION 29u
/* of the new program: the program is empty, longer than 24 blocks or not whole blocks of 512 bytes */
#define COUPLERFINCH_NEW_PROGRAM_LENGTH 33u
/* of the new program: the check sum of this block is not that of its bytes */
#define COUPLERFINCH_NEW_CHECK_SUM 34u
/* of the new program: this block has not its own number, the count of all blocks or the edition of block 0 */
#define COUPLERFINCH_NEW_BLOCK_NUMBER 35u
/* of the new program: this record of the table by itself is wrong: its kind, type, constant, channel, a field that must be zero, or the end of the records */
#define COUPLERFINCH_NEW_RECORD_FAULT 36u
/* of the new program: the nodes do not make one tree of the right sorts */
#define COUPLERFINCH_NEW_SHAPE_FAULT 37u
/* of the new program: the binder of this variable does not hold here, or the target of this case is no branch of a group that it may leave */
#define COUPLERFINCH_NEW_SCOPE_FAULT 38u
/* of the new program: the types at this node do not agree */
#define COUPLERFINCH_NEW_TYPE_FAULT 39u
/* of the new program: the definition of this let needs its own value of the same step */
#define COUPLERFINCH_NEW_NOT_READY 40u

/* An answer: twelve numbers, those that its call does not give are 0. */
typedef struct couplerfinch_answer {
    uint32_t code;    /* 0, or the first code that the rules give */
    uint32_t place;   /* of a refusal: the block (2, 3), record (4), node (5-8), input record (12, 13), position (21-23) or entry (18, 28); 34-40 as 2-8 */
    uint32_t steps;   /* run, watch: whole steps done, of a refusal too */
    uint32_t work;    /* run, watch: rules used by the steps done, of a refusal too */
    uint32_t nodes;   /* check: how many nodes the program has; tidy, read: how many the new one has */
    uint32_t cells;   /* check: how many cells its state has */
    uint32_t bound;   /* check: the most rules that a step uses */
    uint32_t type;    /* check: the type of the value of a step */
    uint32_t wrapped; /* run, watch: the first step, from 0, in which a number wrapped, of a refusal too; COUPLERFINCH_NO_STEP if none */
    uint32_t length;  /* tidy, read: the length of the new program in bytes; print: of the text */
    uint32_t entries; /* explain: how many entries the chain has; mend: how many were listed */
    uint32_t node;    /* explain: the let */
} couplerfinch_answer;

/* Checks a program: its first code and smallest place, or its nodes, cells, bound and type. */
uint32_t couplerfinch_check(const uint8_t *program, size_t program_length, couplerfinch_answer *answer);

/* Makes the room the program's start state, if it is as long as that is: COUPLERFINCH_STATE(cells). */
uint32_t couplerfinch_start(const uint8_t *program, size_t program_length, uint8_t *state, size_t state_length,
                            couplerfinch_answer *answer);

/* Makes a step for each record, one or many: the values go to the output, 8 bytes each, and the state goes on; the program is checked
 * once. A list of records may be cut anywhere and its parts run one after the other: the same values, state and summed work. A number
 * wraps where a sum, a difference or a product that the step evaluates, for its value or for its state, leaves the 32 bits; of quotients,
 * where the lowest number is divided by -1. */
uint32_t couplerfinch_run(const uint8_t *program, size_t program_length, uint8_t *state, size_t state_length, const uint8_t *records,
                          size_t records_length, uint8_t *output, size_t output_length, couplerfinch_answer *answer);

/* Runs the records as couplerfinch_run does, with the same answer, output and state, and writes down what nodes inside the table gave: the list
 * has 1 to COUPLERFINCH_WATCHED signal nodes (kinds 1-8), rising. For each step and in it for each entry, 8 bytes of the second room, shown,
 * are the value that the node gave while the step's value was worked out, or zeros where that did not come to the node: in a part that is not
 * current, inside a delay, in the event of a switch or an until. The room is COUPLERFINCH_SHOWN(entries, records) bytes long. Codes 1-8, 17,
 * 18, then as run; 11 for either room. */
uint32_t couplerfinch_watch(const uint8_t *program, size_t program_length, uint8_t *state, size_t state_length, const uint8_t *records,
                            size_t records_length, const uint16_t *list, size_t list_entries, uint8_t *output, size_t output_length,
                            uint8_t *shown, size_t shown_length, couplerfinch_answer *answer);

/* Explains why a program is not ready, where the check refuses it by code 8: the let that the code names, and in the room, which has
 * COUPLERFINCH_NODES entries, the chain from the let's definition down to the use of its own variable, each node a child of the one
 * before, the first by field order; the entries behind it are COUPLERFINCH_NO_ENTRY. Codes 1-7 as the check, then 25, then 26. */
uint32_t couplerfinch_explain(const uint8_t *program, size_t program_length, uint16_t *room, size_t room_entries,
                              couplerfinch_answer *answer);

/* Brings a damaged state back: a cell that is valid for its node and in a current part is kept, every other is put to start, and a time above
 * 2,147,483,647 becomes all ones, "none". The list, which has COUPLERFINCH_LIST(cells) entries, gets what changed:
 * COUPLERFINCH_TIME_ENTRY in front if the time did, then the cells' numbers from 0, rising; the entries behind are left. What comes out is
 * well-formed; a state that was comes back untouched, with none listed. Codes 1-8, 9 for the length, 15, then 16: the state of another
 * program is not brought back. */
uint32_t couplerfinch_mend(const uint8_t *program, size_t program_length, uint8_t *state, size_t state_length, uint16_t *list,
                           size_t list_entries, couplerfinch_answer *answer);

/* Tidies a program: each let whose body does not name its variable is replaced by that body, again until none is left, and the nodes are
 * numbered children first. The new program fills the first blocks of the room, which is at least as long as the old one, and the rest is
 * left; from start the two answer every list of records with the same values and refusals. Codes 1-8, then 19. */
uint32_t couplerfinch_tidy(const uint8_t *program, size_t program_length, uint8_t *room, size_t room_length,
                           couplerfinch_answer *answer);

/* Accepts a new program exactly when it is the old one with some unused lets dropped, one after the other, and its nodes are numbered as the
 * pairing says, which has for each new node its old one; from start the two then answer every list of records with the same values and
 * refusals. Codes 1-8 for the old program, 33-40 for the new one, 29 for two editions, 27 if the pairing has not one entry for each new
 * node, 28 at its first wrong entry. Nothing but the answer is written. */
uint32_t couplerfinch_paired(const uint8_t *old_program, size_t old_length, const uint8_t *new_program, size_t new_length,
                             const uint16_t *pairing, size_t pairing_entries, couplerfinch_answer *answer);

/* Reads a table as it is typed (docs/TEXT.md) and writes its blocks to the front of the room; what is behind is left. Codes 21 to
 * 23 at the first word that does not fit, whose position in bytes from 0 is the place (the text's length, where it ends too early); then 24 if
 * the blocks are longer than the room; then 6 to 8 as the check, with the nodes of the text's own numbering: children first, in field order. */
uint32_t couplerfinch_read(const uint8_t *text, size_t text_length, uint8_t *room, size_t room_length, couplerfinch_answer *answer);

/* Prints a program as text to the front of the room; what is behind is left. Reading the text gives the program numbered children first, and
 * printing that gives the text again. Codes 1-8, then 24 if the text is longer than the room; none is longer than
 * COUPLERFINCH_LONGEST_TEXT. */
uint32_t couplerfinch_print(const uint8_t *program, size_t program_length, uint8_t *room, size_t room_length, couplerfinch_answer *answer);

#ifdef __cplusplus
}
#endif

#endif

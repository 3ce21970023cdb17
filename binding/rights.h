/* The rights register of document 01, for callers in C11 and C++11 on x86-64 Linux, on a processor of x86-64-v2 or later.
 *
 * Link with target/staticlib/libplanner.a, which `tools/build` makes. What each function promises is proved for every
 * header, command, register and text, and for buffers of every length: whatever is out of range is refused by its number.
 *
 * What the caller owes, because no callee can check it:
 *  - a pointer and the length behind it name memory that may be read, and written unless the pointer is to const;
 *  - no pointer is null, not even before a length of 0;
 *  - buffers that one call is lent do not overlap, and nothing else writes them during the call.
 *
 * The library keeps nothing between calls and allocates nothing. 128 KiB of stack are enough for every call.
 */
#ifndef RIGHTS_H
#define RIGHTS_H

#include <stddef.h>
#include <stdint.h>

#ifdef __cplusplus
extern "C" {
#endif

/* ---- numbers ---- */

/* An answer is 0 for done, or the refusal. */
enum rights_answer {
    RIGHTS_DONE = 0,
    RIGHTS_SIZE_OR_SOURCE = 1,         /* n outside 2..128, or SOA >= n */
    RIGHTS_BUFFER_LENGTH = 2,          /* register buffer not n*n long (text reader: shorter) */
    RIGHTS_NOT_SOUND = 3,              /* register not sound */
    RIGHTS_ACT_OR_PERMISSION = 4,      /* unknown act, or perm not allowed for it */
    RIGHTS_OTHER_LAYER = 5,            /* command for another layer */
    RIGHTS_OFFICE_NUMBER = 6,          /* office number >= n */
    RIGHTS_SAME_OFFICE_OR_SOURCE = 7,  /* by equals to, or to is SOA */
    RIGHTS_NOT_ENTITLED = 8,           /* grant: by holds nothing that entitles perm */
    RIGHTS_RECORD_STANDS = 9,          /* grant: record already stands */
    RIGHTS_CELL_EMPTY = 10,            /* deletion: cell empty */
    RIGHTS_CHAIN_BUFFER_SHORT = 11,    /* chain buffer shorter than n */
    RIGHTS_NOT_HELD = 12,              /* office does not hold the permission */
    RIGHTS_NOT_OF_THE_FORM = 13,       /* text not of the form */
    RIGHTS_TOO_LITTLE_ROOM = 14,       /* too little room for a row's text */
    RIGHTS_INPUT_TOO_LONG = 15,        /* program input too long: given by the program regrun alone */
    RIGHTS_RUN_TOO_LONG = 16           /* run of more than 256 */
};

enum rights_act { RIGHTS_GRANT = 0, RIGHTS_WLD = 1, RIGHTS_WGD = 2, RIGHTS_SLD = 3, RIGHTS_SGD = 4 };

/* The first letter is the right to pass on, the second the right to issue negatives. A cell is a sum of these. */
enum rights_perm { RIGHTS_NONE = 0, RIGHTS_FF = 1, RIGHTS_FT = 2, RIGHTS_TF = 4, RIGHTS_TT = 8 };

/* Sizes that are always enough: offices of a register, commands of a run, the text of a header, of a row, of the end line. Those of
 * header and row are proved bounds (`header_short` and `row_short`). */
enum rights_most {
    RIGHTS_OFFICES = 128,
    RIGHTS_RUN = 256,
    RIGHTS_HEADER_TEXT = 26,
    RIGHTS_ROW_TEXT = 11264,
    RIGHTS_END_TEXT = 13
};

/* ---- what goes in and comes out ---- */

/* Offices and layers are types of their own, so that neither is taken for the other. */
typedef struct { uint16_t number; } rights_office_t;
typedef struct { uint16_t number; } rights_layer_t;

/* What a register's bytes do not say: how many offices, which is the source of authority, and whose layer. */
typedef struct { uint16_t n; rights_office_t soa; rights_layer_t layer; } rights_header_t;

/* perm is 1, 2, 4 or 8 for a grant and 0 for a deletion. */
typedef struct { uint8_t act; rights_layer_t layer; rights_office_t by; rights_office_t to; uint8_t perm; } rights_command_t;

/* No command answers with this. Put in the place for an answer before a run, it still stands there after a run that was refused. */
enum rights_place { RIGHTS_UNANSWERED = 255 };

/* A command of a run, with the place for its answer. */
typedef struct { rights_command_t command; uint8_t answer; } rights_entry_t;

/* Records removed (stood before, not after) and added (after, not before). */
typedef struct { uint64_t removed; uint64_t added; } rights_tally_t;

typedef struct { uint8_t answer; rights_tally_t tally; } rights_ran_t;
typedef struct { uint8_t answer; uint32_t removed; uint32_t added; } rights_outcome_t;
typedef struct { uint8_t answer; uint8_t offices; } rights_held_t;

/* at: where the first bad line starts, 0 unless the answer is 13. next: where the unread part starts, refused the text's length. */
typedef struct { uint8_t answer; size_t at; rights_header_t header; size_t next; } rights_register_read_t;
typedef struct { uint8_t answer; size_t at; rights_command_t command; size_t next; } rights_command_read_t;

typedef struct { uint8_t answer; size_t size; } rights_written_t;

/* ---- the entries ---- */

/* One command to the register in cells. Checks 1 to 10 in order; "a refusal leaves the register and gives tally 0, 0". */
rights_outcome_t rights_command(uint8_t *cells, size_t cells_length, rights_header_t header, rights_command_t command);

/* "Does what the commands one by one would do, and sets each answer. No other field of an entry changes." Answers 16 where
 * entries_length is more than 256, which leaves everything unchanged, and else 0; each command's own answer is in its entry. */
rights_ran_t rights_run(uint8_t *cells, size_t cells_length, rights_header_t header, rights_entry_t *entries,
                        size_t entries_length);

/* Does the office hold perm? Checks 1, 2, 3, 4, 6, 11, 12. Given, "it writes the chain with fewest links, among those the smallest
 * list compared from SOA on, one byte an office, and gives the number of offices; later bytes stay". Refused, the chain buffer
 * stays and offices is 0. */
rights_held_t rights_holding(const uint8_t *cells, size_t cells_length, rights_header_t header, rights_office_t office, uint8_t perm,
                             uint8_t *chain, size_t chain_length);

/* Reads a register text. Checks 13, 1, 2, 6, 7, 3, "each over the whole text before the next". Done: n*n bytes written, the rest of
 * the buffer zero. Refused: the whole buffer zero, and n, SOA and layer given as 0. */
rights_register_read_t rights_read_register(const uint8_t *text, size_t text_length, uint8_t *cells, size_t cells_length);

/* Reads the five lines of a command, or answers 13 with a command of zeros. */
rights_command_read_t rights_read_command(const uint8_t *text, size_t text_length);

/* The writers of a register's text: "header, rows 0 to n - 1, end". Done, "the text stands at the start of the room, its length is
 * given, and the rest of the room stays"; refused, "the room is unchanged and the length 0". 14 exactly if the text is longer than
 * the room. The header checks 1 and 14, a row 1, 2, 3, 6 and 14, the end line 14. */
rights_written_t rights_write_header(rights_header_t header, uint8_t *room, size_t room_length);
rights_written_t rights_write_row(const uint8_t *cells, size_t cells_length, rights_header_t header, rights_office_t row,
                                  uint8_t *room, size_t room_length);
rights_written_t rights_write_end(uint8_t *room, size_t room_length);

/* ---- the layout that the archive was compiled for ---- */

#ifdef __cplusplus
#define RIGHTS_LAID_OUT(fact) static_assert(fact, #fact)
#else
#define RIGHTS_LAID_OUT(fact) _Static_assert(fact, #fact)
#endif

RIGHTS_LAID_OUT(sizeof(rights_office_t) == 2);
RIGHTS_LAID_OUT(sizeof(rights_layer_t) == 2);
RIGHTS_LAID_OUT(sizeof(rights_header_t) == 6);
RIGHTS_LAID_OUT(offsetof(rights_header_t, soa) == 2);
RIGHTS_LAID_OUT(offsetof(rights_header_t, layer) == 4);
RIGHTS_LAID_OUT(sizeof(rights_command_t) == 10);
RIGHTS_LAID_OUT(offsetof(rights_command_t, layer) == 2);
RIGHTS_LAID_OUT(offsetof(rights_command_t, by) == 4);
RIGHTS_LAID_OUT(offsetof(rights_command_t, to) == 6);
RIGHTS_LAID_OUT(offsetof(rights_command_t, perm) == 8);
RIGHTS_LAID_OUT(sizeof(rights_entry_t) == 12);
RIGHTS_LAID_OUT(offsetof(rights_entry_t, answer) == 10);
RIGHTS_LAID_OUT(sizeof(rights_tally_t) == 16);
RIGHTS_LAID_OUT(offsetof(rights_tally_t, added) == 8);
RIGHTS_LAID_OUT(sizeof(rights_ran_t) == 24);
RIGHTS_LAID_OUT(offsetof(rights_ran_t, tally) == 8);
RIGHTS_LAID_OUT(sizeof(rights_outcome_t) == 12);
RIGHTS_LAID_OUT(offsetof(rights_outcome_t, removed) == 4);
RIGHTS_LAID_OUT(offsetof(rights_outcome_t, added) == 8);
RIGHTS_LAID_OUT(sizeof(rights_held_t) == 2);
RIGHTS_LAID_OUT(offsetof(rights_held_t, offices) == 1);
RIGHTS_LAID_OUT(sizeof(rights_register_read_t) == 32);
RIGHTS_LAID_OUT(offsetof(rights_register_read_t, at) == 8);
RIGHTS_LAID_OUT(offsetof(rights_register_read_t, header) == 16);
RIGHTS_LAID_OUT(offsetof(rights_register_read_t, next) == 24);
RIGHTS_LAID_OUT(sizeof(rights_command_read_t) == 40);
RIGHTS_LAID_OUT(offsetof(rights_command_read_t, at) == 8);
RIGHTS_LAID_OUT(offsetof(rights_command_read_t, command) == 16);
RIGHTS_LAID_OUT(offsetof(rights_command_read_t, next) == 32);
RIGHTS_LAID_OUT(sizeof(rights_written_t) == 16);
RIGHTS_LAID_OUT(offsetof(rights_written_t, size) == 8);

#undef RIGHTS_LAID_OUT

#ifdef __cplusplus
}
#endif

#endif

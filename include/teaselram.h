/*
 * Teaselram: the rule sheet of a calling convention, its calling table, and the verdict on a table.
 *
 * A sheet says for each kind of argument how it is placed in registers or on the stack. A table is a sheet worked out:
 * one row for each state of the walk, one transition for each kind. What the bytes and the answers mean is told in
 * docs/FORMAT.md; every call is proved to do exactly that, on any input.
 *
 * Every call:
 * - takes each slice as a pointer and a length. No pointer may be NULL, also where its length is 0, and `out` may not
 *   overlap what the call reads;
 * - reads nothing but the slices, writes nothing but `out`, keeps nothing, allocates nothing;
 * - answers by value one of the three structs below. `number` is 0 on success and the refusal's number otherwise; every
 *   field that is not named for an answer is 0;
 * - leaves `out` as it was where it refuses, and otherwise the bytes of `out` after those it writes.
 *
 * In C and C++ a slice of no bytes may have a NULL pointer, as `std::vector<uint8_t>().data()` may be. Pass a pointer
 * to any byte in its place; nothing is read or written there:
 *
 *     uint8_t none = 0;
 *     answer = teaselram_place_by_table(table, table_len, len ? kinds : &none, len, len ? out : &none, len * 6);
 *
 * What to link: target/staticlib/libteaselram.a, which `tools/build` writes. It is position-independent code
 * for x86-64 Linux, and needs of its host memcpy, memset and TEASELRAM_MOST_STACK bytes of stack, nothing else. The kit
 * writes code for no other processor. target/emulated/libteaselram.a, which `tests/emulated/build` makes, has the same
 * calls and answers each in a second process. It is a way to test and no product.
 */
#ifndef TEASELRAM_H
#define TEASELRAM_H

#include <stddef.h>
#include <stdint.h>

#ifdef __cplusplus
extern "C" {
#endif

/* The most arguments that a call places. */
#define TEASELRAM_MOST_ARGUMENTS 400

/* The most states of a table. */
#define TEASELRAM_MOST_STATES 200

/* The bytes of one argument's record: form, first register or offset in four bytes, big-endian, and count. */
#define TEASELRAM_RECORD_LENGTH 6

/* The bytes of the longest sheet, 8 kinds of 16 starts, and of the longest table, 8 kinds and 200 states. */
#define TEASELRAM_LONGEST_SHEET 167
#define TEASELRAM_LONGEST_TABLE 6424

/* The room that judging needs for a table of 200 states: two bytes a state. */
#define TEASELRAM_LONGEST_LIST (2 * TEASELRAM_MOST_STATES)

/*
 * The bytes of stack that do for any call, its return address and glibc's memcpy and memset included. Building needs
 * the most; 4,608 do for judging, 3,584 for placing and 1,024 for all others. Not proved but measured on a painted
 * stack, by tests/c/stack.c.
 */
#define TEASELRAM_MOST_STACK 10240

/* The numbers of refusals. */
enum teaselram_refusal {
    TEASELRAM_ACCEPTED = 0,
    TEASELRAM_WRONG_LENGTH = 1,       /* fewer than 2 bytes, or the length field is not the count of bytes after it */
    TEASELRAM_WRONG_VERSION = 2,      /* version not 1 */
    TEASELRAM_MISSING_BYTE = 3,       /* a byte is missing */
    TEASELRAM_WRONG_HEAD = 4,         /* registers, width, modulus, kinds or states outside its values */
    TEASELRAM_WRONG_KIND = 5,         /* a kind's field outside its values */
    TEASELRAM_LEFT_OVER = 6,          /* bytes left over */
    TEASELRAM_WRONG_TRANSITION = 7,   /* a transition outside its values */
    TEASELRAM_TOO_MANY_ARGUMENTS = 8, /* more than 400 arguments */
    TEASELRAM_UNKNOWN_KIND = 9,       /* no such kind; from placing, count is the first such position, from 0 */
    TEASELRAM_FAULTY_STEP = 10,       /* a faulty step; count: its position, from 0; fault: its fault */
    TEASELRAM_TOO_MANY_STATES = 11,   /* lists of the sheet's kinds reach more than 200 allocation states */
    TEASELRAM_SHORT_OUTPUT = 12,      /* the lent output is shorter than needed */
    TEASELRAM_UNKNOWN_STATE = 13      /* a row asked of a state that the table does not have */
};

/* The faults of a step; the first that applies is the step's. */
enum teaselram_fault {
    TEASELRAM_NO_PLACE = 1,       /* there is no place */
    TEASELRAM_GIVEN_TWICE = 2,    /* a register of the run was given to an earlier argument */
    TEASELRAM_WRONG_ROOM = 3,     /* more or fewer registers than the size needs, or stack bytes other than the size */
    TEASELRAM_WRONG_ALIGNMENT = 4 /* a stack residue that is no multiple of the alignment */
};

/* The forms of a transition and, but for 0, of a record. */
enum teaselram_form {
    TEASELRAM_FORM_NONE = 0,
    TEASELRAM_FORM_REGISTERS = 1,
    TEASELRAM_FORM_STACK = 2
};

/* The flags of a sheet's kind, of which it may have both. */
enum teaselram_flag {
    TEASELRAM_MAY_USE_STACK = 1,
    TEASELRAM_CLOSING = 2 /* where it is placed, the runs of starts tried and not taken become unavailable */
};

/* What a call answers that does more than read; each call says what `fault`, `count` and `value` are. */
struct teaselram_answer {
    uint8_t number;
    uint8_t fault;
    uint16_t count;
    uint32_t value;
};

/* What reading answers: the head of the sheet or the table. */
struct teaselram_head {
    uint8_t number;
    uint8_t registers; /* n, 0 to 16 */
    uint8_t width;     /* w, the bytes of a register: 1, 2, 4 or 8 */
    uint8_t modulus;   /* A, the stack modulus: 1, 2, 4, 8 or 16 */
    uint8_t kinds;     /* m, 1 to 8 */
    uint8_t zero;      /* always 0 */
    uint16_t states;   /* N, 1 to 200; 0 for a sheet */
};

/* What asking for a kind answers: its fields. A table's kind has size and alignment alone, and 0 in the others. */
struct teaselram_kind {
    uint8_t number;
    uint8_t size;         /* 1 to 64 */
    uint8_t alignment;    /* 1, 2, 4, 8 or 16, at most A */
    uint8_t flags;        /* a sum of enum teaselram_flag */
    uint8_t starts;       /* t, how many start registers it has: 0 to 16 */
    uint8_t zero;         /* always 0 */
    uint16_t first_start; /* where in the sheet the first of them stands, or would; the others follow it */
};

#if defined(__cplusplus) && __cplusplus >= 201103L
static_assert(sizeof(struct teaselram_answer) == 8, "an answer has eight bytes");
static_assert(sizeof(struct teaselram_head) == 8, "a head has eight bytes");
static_assert(sizeof(struct teaselram_kind) == 8, "a kind has eight bytes");
#elif defined(__STDC_VERSION__) && __STDC_VERSION__ >= 201112L
_Static_assert(sizeof(struct teaselram_answer) == 8, "an answer has eight bytes");
_Static_assert(sizeof(struct teaselram_head) == 8, "a head has eight bytes");
_Static_assert(sizeof(struct teaselram_kind) == 8, "a kind has eight bytes");
#endif

/*
 * Reads a sheet.
 * Answers its head. Writes nothing.
 * Refuses with 1, and then, as the bytes are read left to right, with 2, 3, 4 or 5; 6 comes last.
 */
struct teaselram_head teaselram_read_sheet(const uint8_t *sheet, size_t sheet_len);

/*
 * Reads a table.
 * Answers its head and the number of its states. Writes nothing.
 * Refuses with 1, and then, as the bytes are read left to right, with 2, 3, 4, 5 or 7; 6 comes last.
 */
struct teaselram_head teaselram_read_table(const uint8_t *table, size_t table_len);

/*
 * Asks for a kind of a sheet by its number, counted from 0; any number may be asked for.
 * Answers the kind's fields. Its start registers are the sheet's own bytes: `starts` of them, from `first_start` on.
 * Writes nothing.
 * Refuses as reading the sheet does, then with 9 where it has no such kind.
 */
struct teaselram_kind teaselram_sheet_kind(const uint8_t *sheet, size_t sheet_len, uint64_t kind);

/*
 * Asks for a kind of a table by its number, counted from 0; any number may be asked for.
 * Answers the kind's size and alignment. Writes nothing.
 * Refuses as reading the table does, then with 9 where it has no such kind.
 */
struct teaselram_kind teaselram_table_kind(const uint8_t *table, size_t table_len, uint64_t kind);

/*
 * Asks for the row of a state: the table's own bytes, four for each kind.
 * Answers the row's length as count, and where in the table it starts as value. Writes nothing.
 * Refuses as reading the table does, then with 13.
 */
struct teaselram_answer teaselram_row(const uint8_t *table, size_t table_len, uint64_t state);

/*
 * Places a list of kinds, one byte an argument, by the rules of a sheet.
 * Answers the number of arguments as count, and as value the final p, the end of the stack bytes used: at most 31,600.
 * Writes the records, six bytes an argument, and needs that much room.
 * Refuses as reading the sheet does, then with 8, 12, 9, 10; number 10 has fault 1, as there was no place.
 * A refusal writes nothing.
 */
struct teaselram_answer teaselram_place_by_rules(const uint8_t *sheet, size_t sheet_len, const uint8_t *kinds,
                                                 size_t kinds_len, uint8_t *out, size_t out_len);

/*
 * Places a list of kinds, one byte an argument, by a table.
 * Answers the number of arguments as count, and as value the final p, the end of the stack bytes used: at most 31,600.
 * Writes the records, six bytes an argument, and needs that much room.
 * Refuses as reading the table does, then with 8, 12, 9, 10; number 10 has the step's fault, 1 to 4.
 * A refusal writes nothing.
 */
struct teaselram_answer teaselram_place_by_table(const uint8_t *table, size_t table_len, const uint8_t *kinds,
                                                 size_t kinds_len, uint8_t *out, size_t out_len);

/*
 * Builds the table of a sheet.
 * Answers the number of states as count, and the table's length as value.
 * Writes the table, and needs as much room as it is long; TEASELRAM_LONGEST_TABLE bytes hold any.
 * Refuses as reading the sheet does, then with 11, 12. A refusal writes nothing.
 */
struct teaselram_answer teaselram_build(const uint8_t *sheet, size_t sheet_len, uint8_t *out, size_t out_len);

/*
 * Judges a table: does some list of kinds, of any length, have a faulty step?
 * Answers fault 0 and count 0 where none does, and writes nothing then; or the fault number as fault and the length of
 * the shortest faulty list, the earliest in kind order of that length, as count.
 * Writes that list, one byte an argument. Needs room for two bytes a state; TEASELRAM_LONGEST_LIST does for any table.
 * Refuses as reading the table does, then with 12. A refusal writes nothing.
 */
struct teaselram_answer teaselram_judge(const uint8_t *table, size_t table_len, uint8_t *out, size_t out_len);

#ifdef __cplusplus
}
#endif

#endif

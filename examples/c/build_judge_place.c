/*
 * Reads sheet S and its kinds, builds its table, judges it, and places lists of arguments by it, the empty one too; then
 * shows what a faulty table looks like. From the top of the repository, after `tools/build`, on x86-64:
 *
 *   gcc -std=c99 -Iinclude -o target/build_judge_place examples/c/build_judge_place.c target/staticlib/libteaselram.a
 *
 * That archive is x86-64 code.
 */
#include <stdio.h>
#include <string.h>

#include "teaselram.h"

enum kind { CHAR, INT, DOUBLE };

static const char *const NAMES[] = {"char", "int", "double"};

static const uint8_t S[] = {
    0x00, 0x1C,                                     /* 28 bytes follow */
    0x01,                                           /* version 1 */
    0x04, 0x04, 0x08, 0x03,                         /* 4 registers of 4 bytes, stack modulus 8, 3 kinds */
    0x01, 0x01, 0x01, 0x04, 0x00, 0x01, 0x02, 0x03, /* char: 1 byte, alignment 1, stack, starts 0 1 2 3 */
    0x04, 0x04, 0x01, 0x04, 0x00, 0x01, 0x02, 0x03, /* int: 4 bytes, alignment 4, stack, starts 0 1 2 3 */
    0x08, 0x08, 0x01, 0x03, 0x00, 0x01, 0x02,       /* double: 8 bytes, alignment 8, stack, starts 0 1 2 */
};

/* Where double's flags stand in S. */
#define DOUBLE_FLAGS 25

static int refused(const char *call, struct teaselram_answer answer)
{
    printf("%s: refused %d\n", call, answer.number);
    return 1;
}

/* Prints a kind of a sheet that was read; its start registers stand in the sheet. */
static void print_kind(const uint8_t *sheet, size_t sheet_len, enum kind number)
{
    struct teaselram_kind kind = teaselram_sheet_kind(sheet, sheet_len, number);
    const uint8_t *starts = sheet + kind.first_start;
    printf("%s: size %d, alignment %d, %s, starts", NAMES[number], kind.size, kind.alignment,
           kind.flags & TEASELRAM_MAY_USE_STACK ? "stack" : "no stack");
    for (size_t i = 0; i < kind.starts; i++) {
        printf(" %d", starts[i]);
    }
    printf("\n");
}

/* Builds the sheet's table and judges it. Answers the table's length, 0 where a call refuses. */
static size_t build_and_judge(const uint8_t *sheet, size_t sheet_len, uint8_t table[TEASELRAM_LONGEST_TABLE])
{
    uint8_t list[TEASELRAM_LONGEST_LIST];
    struct teaselram_answer built = teaselram_build(sheet, sheet_len, table, TEASELRAM_LONGEST_TABLE);
    struct teaselram_answer verdict;
    if (built.number != TEASELRAM_ACCEPTED) {
        refused("build", built);
        return 0;
    }
    printf("table: %d states, %lu bytes\n", built.count, (unsigned long)built.value);

    verdict = teaselram_judge(table, built.value, list, sizeof list);
    if (verdict.number != TEASELRAM_ACCEPTED) {
        refused("judge", verdict);
        return 0;
    }
    if (verdict.fault == 0) {
        printf("verdict: clean\n");
    } else {
        printf("verdict: fault %d for", verdict.fault);
        for (size_t i = 0; i < verdict.count; i++) {
            printf(" %s", NAMES[list[i]]);
        }
        printf("\n");
    }
    return built.value;
}

static void print_record(enum kind kind, const uint8_t record[TEASELRAM_RECORD_LENGTH])
{
    unsigned long first = (unsigned long)record[1] << 24 | (unsigned long)record[2] << 16 |
                          (unsigned long)record[3] << 8 | record[4];
    unsigned long last = first + record[5] - 1;
    const char *where = record[0] == TEASELRAM_FORM_REGISTERS ? "registers" : "stack bytes";
    printf("%s: %s %lu to %lu\n", NAMES[kind], where, first, last);
}

/* Places a list. `kinds` may be NULL where `count` is 0; the call then gets a pointer to a byte that it does not touch. */
static int place(const uint8_t *table, size_t table_len, const uint8_t *kinds, size_t count)
{
    uint8_t records[TEASELRAM_MOST_ARGUMENTS * TEASELRAM_RECORD_LENGTH];
    uint8_t none = 0;
    struct teaselram_answer placed =
        teaselram_place_by_table(table, table_len, count ? kinds : &none, count, records, sizeof records);
    if (placed.number != TEASELRAM_ACCEPTED) {
        return refused("place", placed);
    }
    for (size_t i = 0; i < placed.count; i++) {
        print_record((enum kind)kinds[i], records + i * TEASELRAM_RECORD_LENGTH);
    }
    printf("stack: %lu bytes\n", (unsigned long)placed.value);
    return 0;
}

int main(void)
{
    static const uint8_t kinds[] = {CHAR, INT, INT, DOUBLE, INT};
    uint8_t table[TEASELRAM_LONGEST_TABLE];
    uint8_t stackless[sizeof S];
    struct teaselram_head head = teaselram_read_sheet(S, sizeof S);
    size_t length;
    if (head.number != TEASELRAM_ACCEPTED) {
        printf("read: refused %d\n", head.number);
        return 1;
    }
    printf("sheet: %d registers of %d bytes, stack modulus %d, %d kinds\n", head.registers, head.width, head.modulus,
           head.kinds);
    for (int kind = 0; kind < head.kinds; kind++) {
        print_kind(S, sizeof S, (enum kind)kind);
    }
    length = build_and_judge(S, sizeof S, table);
    if (length == 0 || place(table, length, kinds, sizeof kinds) != 0) {
        return 1;
    }

    printf("the empty list\n");
    if (place(table, length, NULL, 0) != 0) {
        return 1;
    }

    printf("the same with no stack for double\n");
    memcpy(stackless, S, sizeof S);
    stackless[DOUBLE_FLAGS] = 0;
    return build_and_judge(stackless, sizeof stackless, table) == 0;
}

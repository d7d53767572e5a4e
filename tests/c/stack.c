/*
 * How many bytes of stack each call takes, its return address and the C library's memcpy and memset included: each is
 * made on a painted stack, and what lost its paint was taken. Makes every call with the sheet and the table in the two
 * files that are named, prints what each took, and fails where one took more than the header says. Is compiled without
 * -O, so that each call has its return address, and linked with -Wl,-z,now, so that no call also looks for memcpy.
 */
#include <stdio.h>
#include <string.h>
#include <ucontext.h>

#include "teaselram.h"

#define PAINT 0xA5

/* The numbers of a kind and of a state that no file has. */
enum { NO_KIND = 8, NO_STATE = TEASELRAM_MOST_STATES };

/* A sheet or a table, and the most arguments that it may place: each of its kinds in turn. */
static struct file {
    uint8_t bytes[TEASELRAM_LONGEST_TABLE];
    size_t len;
    uint8_t list[TEASELRAM_MOST_ARGUMENTS];
} sheet, table;

/* Not on the stack, where it would count as the call's. */
static struct teaselram_answer placed;
static uint8_t out[TEASELRAM_LONGEST_TABLE];

static void nothing(void) {}
static void read_sheet(void) { teaselram_read_sheet(sheet.bytes, sheet.len); }
static void read_table(void) { teaselram_read_table(table.bytes, table.len); }
static void build(void) { teaselram_build(sheet.bytes, sheet.len, out, sizeof out); }
static void judge(void) { teaselram_judge(table.bytes, table.len, out, sizeof out); }

static void sheet_kind(void)
{
    teaselram_sheet_kind(sheet.bytes, sheet.len, 0);
    teaselram_sheet_kind(sheet.bytes, sheet.len, NO_KIND);
}

static void table_kind(void)
{
    teaselram_table_kind(table.bytes, table.len, 0);
    teaselram_table_kind(table.bytes, table.len, NO_KIND);
}

static void row(void)
{
    teaselram_row(table.bytes, table.len, 0);
    teaselram_row(table.bytes, table.len, NO_STATE);
}

/* Where a step is faulty, places once more what is before it, so that records are written. */
static void by_rules(void)
{
    placed = teaselram_place_by_rules(sheet.bytes, sheet.len, sheet.list, sizeof sheet.list, out, sizeof out);
    if (placed.number == TEASELRAM_FAULTY_STEP)
        teaselram_place_by_rules(sheet.bytes, sheet.len, sheet.list, placed.count, out, sizeof out);
}

/* The same by the table. */
static void by_table(void)
{
    placed = teaselram_place_by_table(table.bytes, table.len, table.list, sizeof table.list, out, sizeof out);
    if (placed.number == TEASELRAM_FAULTY_STEP)
        teaselram_place_by_table(table.bytes, table.len, table.list, placed.count, out, sizeof out);
}

static const struct call {
    const char *name;
    void (*make)(void);
    size_t most;
} CALLS[] = {
    {"read_sheet", read_sheet, 1024},
    {"read_table", read_table, 1024},
    {"sheet_kind", sheet_kind, 1024},
    {"table_kind", table_kind, 1024},
    {"row", row, 1024},
    {"place_by_rules", by_rules, 3584},
    {"place_by_table", by_table, 3584},
    {"build", build, TEASELRAM_MOST_STACK},
    {"judge", judge, 4608},
};

/* How many bytes of a painted stack lose their paint where this runs on it. */
static size_t taken(void (*make)(void))
{
    static uint8_t stack[1 << 16];
    static ucontext_t here, there;
    size_t painted = 0;
    memset(stack, PAINT, sizeof stack);
    getcontext(&there);
    there.uc_stack.ss_sp = stack;
    there.uc_stack.ss_size = sizeof stack;
    there.uc_link = &here;
    makecontext(&there, make, 0);
    swapcontext(&here, &there);
    while (painted < sizeof stack && stack[painted] == PAINT)
        painted++;
    return sizeof stack - painted;
}

/* Answers whether there is such a file. */
static int fill(struct file *file, const char *name)
{
    FILE *from = fopen(name, "rb");
    if (from == NULL)
        return 0;
    file->len = fread(file->bytes, 1, sizeof file->bytes, from);
    fclose(from);
    return 1;
}

/* The list of a file with so many kinds, 0 where it is refused. */
static void make_list(struct file *file, uint8_t kinds)
{
    for (size_t i = 0; i < sizeof file->list; i++)
        file->list[i] = kinds == 0 ? 0 : i % kinds;
}

int main(int count, char **words)
{
    size_t before = taken(nothing);
    int failed = 0;
    if (count != 3 || !fill(&sheet, words[1]) || !fill(&table, words[2])) {
        fprintf(stderr, "stack: a sheet and a table are needed\n");
        return 2;
    }
    make_list(&sheet, teaselram_read_sheet(sheet.bytes, sheet.len).kinds);
    make_list(&table, teaselram_read_table(table.bytes, table.len).kinds);
    for (size_t i = 0; i < sizeof CALLS / sizeof CALLS[0]; i++) {
        size_t bytes = taken(CALLS[i].make) - before;
        printf("%s %lu\n", CALLS[i].name, (unsigned long)bytes);
        if (bytes > CALLS[i].most) {
            fprintf(stderr, "stack: %s takes more than %lu bytes\n", CALLS[i].name, (unsigned long)CALLS[i].most);
            failed = 1;
        }
    }
    return failed;
}

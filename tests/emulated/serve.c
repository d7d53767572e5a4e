/*
 * The proved library, served to programs in other processes: reads requests from standard input, makes each call and writes
 * its reply to standard output, until the input ends. tests/emulated/build links it with the library and puts it into the archive that sends the requests.
 *
 * The tests cannot see this memory, so what they see elsewhere is held here: a call that touches a byte after a slice gets
 * a fault from the system, and one that writes before a slice or into its input is found out after it. Either ends the
 * program without a reply.
 */
#include <stddef.h>
#include <stdint.h>

#include "request.h"
#include "teaselram.h"

/* Of the C library, for which the kit has no headers; the constants are those of x86-64 Linux. */
long read(int file, void *bytes, size_t count);
long write(int file, const void *bytes, size_t count);
void *mmap(void *address, size_t length, int protection, int flags, int file, long offset);
int mprotect(void *address, size_t length, int protection);
void *memcpy(void *to, const void *from, size_t count);
void *memset(void *to, int byte, size_t count);
int memcmp(const void *left, const void *right, size_t count);
_Noreturn void _exit(int status);

enum { PROTECT_ALL = 0, PROTECT_NOTHING = 3, PRIVATE_AND_OF_NO_FILE = 0x22 };

/* What no call may touch: so many bytes after an area, no less than a page of any machine, and so many before a slice. */
#define GUARD ((size_t)1 << 16)
#define MARGIN ((size_t)8)
#define MARGIN_BYTE 0xA5

/* A slice as a call gets it: the last bytes of an area after which there is no memory. */
struct slice {
    uint8_t *area_end;
    uint8_t *bytes;
    size_t len;
};

static struct slice file, kinds, out;

/* A request's bytes as they came, and a reply's as they go: each is read and written at once. */
static uint8_t came[3 * LONGEST_SLICE];
static uint8_t goes[ANSWER_LEN + LONGEST_SLICE];

static _Noreturn void fail(const char *message, size_t length)
{
    static const char name[] = "serve: ";
    if (write(2, name, sizeof name - 1) < 0 || write(2, message, length) < 0)
        _exit(2);
    _exit(1);
}

#define FAIL(message) fail(message "\n", sizeof message)

/* Answers 0 where the input ends before the first byte. */
static int read_whole(void *bytes, size_t count)
{
    size_t done = 0;
    while (done < count) {
        long got = read(0, (uint8_t *)bytes + done, count - done);
        if (got == 0 && done == 0)
            return 0;
        if (got <= 0)
            FAIL("the request breaks off");
        done += (size_t)got;
    }
    return 1;
}

static void write_whole(const void *bytes, size_t count)
{
    size_t done = 0;
    while (done < count) {
        long put = write(1, (const uint8_t *)bytes + done, count - done);
        if (put <= 0)
            FAIL("the reply is not taken");
        done += (size_t)put;
    }
}

static void make_area(struct slice *slice)
{
    size_t length = MARGIN + LONGEST_SLICE;
    uint8_t *area;
    length += GUARD - length % GUARD;
    area = mmap(NULL, length + GUARD, PROTECT_NOTHING, PRIVATE_AND_OF_NO_FILE, -1, 0);
    if ((intptr_t)area == -1 || mprotect(area + length, GUARD, PROTECT_ALL) != 0)
        FAIL("there is no memory for a slice");
    slice->area_end = area + length;
}

/* Puts the bytes at the end of the slice's area; answers where the next slice's bytes are. */
static const uint8_t *fill(struct slice *slice, const uint8_t *from, size_t len)
{
    slice->bytes = slice->area_end - len;
    slice->len = len;
    memset(slice->bytes - MARGIN, MARGIN_BYTE, MARGIN);
    memcpy(slice->bytes, from, len);
    return from + len;
}

static void hold_margin(const struct slice *slice)
{
    for (size_t at = 1; at <= MARGIN; at++)
        if (*(slice->bytes - at) != MARGIN_BYTE)
            FAIL("a call wrote before a slice");
}

/* The file and the kinds came first, in this order, and no call may write to them. */
static void hold_input(void)
{
    if (memcmp(file.bytes, came, file.len) != 0 || memcmp(kinds.bytes, came + file.len, kinds.len) != 0)
        FAIL("a call wrote to its input");
    hold_margin(&file);
    hold_margin(&kinds);
    hold_margin(&out);
}

static struct teaselram_head head(uint64_t call)
{
    if (call == READ_SHEET)
        return teaselram_read_sheet(file.bytes, file.len);
    return teaselram_read_table(file.bytes, file.len);
}

static struct teaselram_kind kind(uint64_t call, uint64_t which)
{
    if (call == SHEET_KIND)
        return teaselram_sheet_kind(file.bytes, file.len, which);
    return teaselram_table_kind(file.bytes, file.len, which);
}

static struct teaselram_answer answer(uint64_t call, uint64_t which)
{
    switch (call) {
    case ROW:
        return teaselram_row(file.bytes, file.len, which);
    case PLACE_BY_RULES:
        return teaselram_place_by_rules(file.bytes, file.len, kinds.bytes, kinds.len, out.bytes, out.len);
    case PLACE_BY_TABLE:
        return teaselram_place_by_table(file.bytes, file.len, kinds.bytes, kinds.len, out.bytes, out.len);
    case BUILD:
        return teaselram_build(file.bytes, file.len, out.bytes, out.len);
    case JUDGE:
        return teaselram_judge(file.bytes, file.len, out.bytes, out.len);
    default:
        FAIL("there is no such call");
    }
}

/* Makes the call, and puts the eight bytes of its answer where the reply begins. */
static void make_call(const struct request *request)
{
    if (request->call == READ_SHEET || request->call == READ_TABLE) {
        struct teaselram_head said = head(request->call);
        memcpy(goes, &said, ANSWER_LEN);
    } else if (request->call == SHEET_KIND || request->call == TABLE_KIND) {
        struct teaselram_kind said = kind(request->call, request->which);
        memcpy(goes, &said, ANSWER_LEN);
    } else {
        struct teaselram_answer said = answer(request->call, request->which);
        memcpy(goes, &said, ANSWER_LEN);
    }
}

static void serve(const struct request *request)
{
    const uint8_t *from = came;
    if (request->file_len > LONGEST_SLICE || request->kinds_len > LONGEST_SLICE || request->out_len > LONGEST_SLICE)
        FAIL("a slice is too long");
    if (!read_whole(came, request->file_len + request->kinds_len + request->out_len))
        FAIL("the request breaks off");
    from = fill(&file, from, request->file_len);
    from = fill(&kinds, from, request->kinds_len);
    fill(&out, from, request->out_len);
    make_call(request);
    hold_input();
    memcpy(goes + ANSWER_LEN, out.bytes, out.len);
    write_whole(goes, ANSWER_LEN + out.len);
}

int main(void)
{
    struct request request;
    make_area(&file);
    make_area(&kinds);
    make_area(&out);
    while (read_whole(&request, sizeof request))
        serve(&request);
    return 0;
}

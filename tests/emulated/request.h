/*
 * A request and its reply, as they go between forward.c and serve.c, which runs in a second process.
 * A request: struct request, the bytes of the file, those of the kinds, and `out` as it is before the call.
 * A reply: the eight bytes of the answer, and `out` as it is after the call.
 */
#ifndef REQUEST_H
#define REQUEST_H

#include <stddef.h>
#include <stdint.h>

#if __BYTE_ORDER__ != __ORDER_LITTLE_ENDIAN__
#error "both sides send numbers as they have them, and x86-64 has them little-endian"
#endif

/* The nine calls of teaselram.h. */
enum call { READ_SHEET, READ_TABLE, SHEET_KIND, TABLE_KIND, ROW, PLACE_BY_RULES, PLACE_BY_TABLE, BUILD, JUDGE };

/* What a call is given. What it does not have is sent as 0, a slice by its length. */
struct request {
    uint64_t call;
    uint64_t which;    /* the kind or the state that is asked for */
    uint64_t file_len; /* the sheet or the table */
    uint64_t kinds_len;
    uint64_t out_len;
};

/* Each struct that a call answers has so many bytes; the header asserts it. */
#define ANSWER_LEN 8

/* The most bytes of one slice: far more than a file can say of itself (65,537), and the tests go a little beyond that. */
#define LONGEST_SLICE ((size_t)1 << 20)

#endif

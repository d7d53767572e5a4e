/* Compiled as C and as C++: the header stands alone, may be included twice, and says what document 01 and its boundary say. */
#include "teaselram.h"
#include "teaselram.h"

#define HOLDS(name, condition) extern char name[(condition) ? 1 : -1]

HOLDS(answer_has_eight_bytes, sizeof(struct teaselram_answer) == 8);
HOLDS(answer_fault, offsetof(struct teaselram_answer, fault) == 1);
HOLDS(answer_count, offsetof(struct teaselram_answer, count) == 2);
HOLDS(answer_value, offsetof(struct teaselram_answer, value) == 4);

HOLDS(head_has_eight_bytes, sizeof(struct teaselram_head) == 8);
HOLDS(head_registers, offsetof(struct teaselram_head, registers) == 1);
HOLDS(head_width, offsetof(struct teaselram_head, width) == 2);
HOLDS(head_modulus, offsetof(struct teaselram_head, modulus) == 3);
HOLDS(head_kinds, offsetof(struct teaselram_head, kinds) == 4);
HOLDS(head_zero, offsetof(struct teaselram_head, zero) == 5);
HOLDS(head_states, offsetof(struct teaselram_head, states) == 6);

HOLDS(kind_has_eight_bytes, sizeof(struct teaselram_kind) == 8);
HOLDS(kind_size, offsetof(struct teaselram_kind, size) == 1);
HOLDS(kind_alignment, offsetof(struct teaselram_kind, alignment) == 2);
HOLDS(kind_flags, offsetof(struct teaselram_kind, flags) == 3);
HOLDS(kind_starts, offsetof(struct teaselram_kind, starts) == 4);
HOLDS(kind_zero, offsetof(struct teaselram_kind, zero) == 5);
HOLDS(kind_first_start, offsetof(struct teaselram_kind, first_start) == 6);

HOLDS(refusals_1_to_4, TEASELRAM_WRONG_LENGTH == 1 && TEASELRAM_WRONG_VERSION == 2 && TEASELRAM_MISSING_BYTE == 3 &&
                           TEASELRAM_WRONG_HEAD == 4);
HOLDS(refusals_5_to_8, TEASELRAM_WRONG_KIND == 5 && TEASELRAM_LEFT_OVER == 6 && TEASELRAM_WRONG_TRANSITION == 7 &&
                           TEASELRAM_TOO_MANY_ARGUMENTS == 8);
HOLDS(refusals_9_to_11,
      TEASELRAM_UNKNOWN_KIND == 9 && TEASELRAM_FAULTY_STEP == 10 && TEASELRAM_TOO_MANY_STATES == 11);
HOLDS(refusals_12_and_13, TEASELRAM_SHORT_OUTPUT == 12 && TEASELRAM_UNKNOWN_STATE == 13);
HOLDS(faults_1_to_4, TEASELRAM_NO_PLACE == 1 && TEASELRAM_GIVEN_TWICE == 2 && TEASELRAM_WRONG_ROOM == 3 &&
                         TEASELRAM_WRONG_ALIGNMENT == 4);
HOLDS(flags_1_and_2, TEASELRAM_MAY_USE_STACK == 1 && TEASELRAM_CLOSING == 2);

HOLDS(longest_sheet, TEASELRAM_LONGEST_SHEET == 2 + 1 + 4 + 8 * (4 + 16));
HOLDS(longest_table, TEASELRAM_LONGEST_TABLE == 2 + 1 + 4 + 8 * 2 + 1 + 4 * 8 * TEASELRAM_MOST_STATES);
HOLDS(limits, TEASELRAM_MOST_ARGUMENTS == 400 && TEASELRAM_MOST_STATES == 200 && TEASELRAM_RECORD_LENGTH == 6);

/* The calls once more, with C's linkage in C++ too: a declaration that differs from the header's does not compile. */
#ifdef __cplusplus
extern "C" {
#endif
struct teaselram_head teaselram_read_sheet(const uint8_t *, size_t);
struct teaselram_head teaselram_read_table(const uint8_t *, size_t);
struct teaselram_kind teaselram_sheet_kind(const uint8_t *, size_t, uint64_t);
struct teaselram_kind teaselram_table_kind(const uint8_t *, size_t, uint64_t);
struct teaselram_answer teaselram_row(const uint8_t *, size_t, uint64_t);
struct teaselram_answer teaselram_place_by_rules(const uint8_t *, size_t, const uint8_t *, size_t, uint8_t *, size_t);
struct teaselram_answer teaselram_place_by_table(const uint8_t *, size_t, const uint8_t *, size_t, uint8_t *, size_t);
struct teaselram_answer teaselram_build(const uint8_t *, size_t, uint8_t *, size_t);
struct teaselram_answer teaselram_judge(const uint8_t *, size_t, uint8_t *, size_t);
#ifdef __cplusplus
}
#endif

/* Calls each function of griffeljol.h at its edges: NULL with length 0, outputs that just fit or do not, what stays unchanged,
 * and which refusal comes first. The argument is the sample sheet, of four nodes. */
#include "griffeljol.h"

#include <math.h>
#include <stdio.h>
#include <string.h>

static int failures = 0;

#define CHECK(fact)                                                            \
    do {                                                                       \
        if (!(fact)) {                                                         \
            fprintf(stderr, "%s:%d: not so: %s\n", __FILE__, __LINE__, #fact); \
            failures++;                                                        \
        }                                                                      \
    } while (0)

/* Whole answers, so that bits 40 to 63 are seen to be 0. */
static uint64_t refused(uint64_t number)
{
    return number << 32;
}

/* The whole answer of a refusal of one of two, so that bits 48 to 63 are seen to be 0. */
static uint64_t refused_in(uint64_t fault, uint64_t number, uint64_t place)
{
    return fault << 40 | number << 32 | place;
}

enum { SHEET = 512, NODES = 4, ROWS = NODES * GRIFFELJOL_ROW_WIDTH };

static void check_helpers(void)
{
    uint64_t answer = (UINT64_C(0xABCDEF) << 40) | (UINT64_C(12) << 32) | UINT64_C(0xFFFFFFFF);
    CHECK(griffeljol_refusal(answer) == GRIFFELJOL_REFUSAL_LIST);
    CHECK(griffeljol_place(answer) == 0xFFFFFFFF);
    CHECK(griffeljol_value(answer) == 0xFFFFFFFF);
    CHECK(griffeljol_fault(answer) == 0xEF);
    CHECK(griffeljol_fault(refused(20)) == 0);
    CHECK(griffeljol_refusal(0xFFFFFFFF) == GRIFFELJOL_REFUSAL_NONE);
}

static void check_resolve(uint32_t edition, const uint8_t *sheet)
{
    const uint32_t expected[ROWS] = {255, 0, 255, 30, 0, 0, 0, 4, 0, 0, 0, 255, 0, 0, 3, 0, 0, 0, 4, 0, 0, 0,
                                     255, 0, 2,   30, 0, 0, 1, 4, 1, 1, 1, 6,   0, 1, 1, 0, 0, 2, 4, 2, 2, 1};
    uint32_t rows[ROWS + 1], before[ROWS + 1];
    uint8_t wrong[SHEET];
    memset(rows, 0xA5, sizeof rows);
    memcpy(before, rows, sizeof rows);
    CHECK(griffeljol_resolve(edition, NULL, 0, NULL, 0) == refused(1));
    CHECK(griffeljol_resolve(edition, NULL, 0, rows, ROWS) == refused(1));
    CHECK(griffeljol_resolve(edition, sheet, SHEET - 1, rows, ROWS) == refused(1));
    CHECK(griffeljol_resolve(edition, sheet, SHEET, NULL, 0) == refused(14));
    CHECK(griffeljol_resolve(edition, sheet, SHEET, rows, ROWS - 1) == refused(14));
    memcpy(wrong, sheet, SHEET);
    wrong[30] ^= 1;
    CHECK(griffeljol_resolve(edition, wrong, SHEET, NULL, 0) == refused(2));
    CHECK(griffeljol_resolve(edition, wrong, SHEET, rows, ROWS) == refused(2));
    CHECK(memcmp(rows, before, sizeof rows) == 0);
    CHECK(griffeljol_resolve(edition, sheet, SHEET, rows, ROWS) == NODES);
    CHECK(memcmp(rows, expected, sizeof expected) == 0);
    CHECK(griffeljol_resolve(edition, sheet, SHEET, rows, ROWS + 1) == NODES);
    CHECK(memcmp(rows, expected, sizeof expected) == 0);
    CHECK(rows[ROWS] == before[ROWS]);
}

static void check_rewrite(uint32_t edition, const uint8_t *sheet)
{
    enum { START = 45, BEHIND = 3, OUT = START + SHEET + BEHIND };
    uint8_t out[OUT], before[OUT], again[SHEET];
    uint32_t rows[ROWS], rewritten[ROWS];
    memset(out, 0xA5, sizeof out);
    memcpy(before, out, sizeof out);
    CHECK(griffeljol_rewrite(edition, NULL, 0, NULL, 0, 0) == refused(1));
    CHECK(griffeljol_rewrite(edition, sheet, SHEET, NULL, 0, 0) == refused(14));
    CHECK(griffeljol_rewrite(edition, sheet, SHEET, NULL, 0, 1) == refused(14));
    CHECK(griffeljol_rewrite(edition, sheet, SHEET, out, OUT, SIZE_MAX) == refused(14));
    CHECK(griffeljol_rewrite(edition, sheet, SHEET, out, OUT, OUT) == refused(14));
    CHECK(griffeljol_rewrite(edition, sheet, SHEET, out, OUT, OUT + 1) == refused(14));
    CHECK(griffeljol_rewrite(edition, sheet, SHEET, out, OUT, START + BEHIND + 1) == refused(14));
    CHECK(griffeljol_rewrite(edition, sheet, SHEET - 1, out, OUT, OUT + 1) == refused(1));
    CHECK(memcmp(out, before, sizeof out) == 0);
    CHECK(griffeljol_rewrite(edition, sheet, SHEET, out, OUT, START) == SHEET);
    CHECK(memcmp(out, before, START) == 0);
    CHECK(memcmp(out + START + SHEET, before + START + SHEET, BEHIND) == 0);
    CHECK(griffeljol_resolve(edition, sheet, SHEET, rows, ROWS) == NODES);
    CHECK(griffeljol_resolve(edition, out + START, SHEET, rewritten, ROWS) == NODES);
    CHECK(memcmp(rows, rewritten, sizeof rows) == 0);
    CHECK(griffeljol_rewrite(edition, out + START, SHEET, again, SHEET, 0) == SHEET);
    CHECK(memcmp(out + START, again, SHEET) == 0);
    CHECK(griffeljol_rewrite(edition, sheet, SHEET, out, OUT, START + BEHIND) == SHEET);
    CHECK(memcmp(out + START + BEHIND, again, SHEET) == 0);
}

/* Where the slot of a node starts in a sheet of one block. */
static size_t slot(size_t node)
{
    return 6 + node * GRIFFELJOL_ENTRY_SIDE;
}

/* Stores the right check in a sheet of one block. */
static void renew_check(uint8_t *sheet)
{
    uint32_t sum = 0;
    for (uint32_t i = 0; i < SHEET - 2; i++)
        sum += (i + 1) * sheet[i];
    sheet[SHEET - 2] = (uint8_t)(sum % 65521 & 0xFF);
    sheet[SHEET - 1] = (uint8_t)(sum % 65521 >> 8);
}

/* The sample with another byte at an index of a node's slot. */
static void changed(uint8_t *out, const uint8_t *sheet, size_t node, size_t index, uint8_t byte)
{
    memcpy(out, sheet, SHEET);
    out[slot(node) + index] = byte;
    renew_check(out);
}

/* The root of the sample with two required leaves of INT32, each of a name of one letter. */
static void two_leaves(uint8_t *out, const uint8_t *sheet, char first, char second)
{
    const char names[2] = {first, second};
    memset(out, 0, SHEET);
    memcpy(out, sheet, slot(1));
    out[2] = out[4] = 3;
    out[slot(0) + GRIFFELJOL_DIFFERENCE_CHILD_COUNT] = 2;
    for (size_t node = 1; node <= 2; node++) {
        uint8_t *leaf = &out[slot(node)];
        leaf[GRIFFELJOL_DIFFERENCE_PHYSICAL] = GRIFFELJOL_PHYSICAL_INT32;
        leaf[GRIFFELJOL_DIFFERENCE_CONVERTED] = GRIFFELJOL_CONVERTED_NONE;
        leaf[GRIFFELJOL_DIFFERENCE_NAME_LENGTH] = 1;
        leaf[GRIFFELJOL_DIFFERENCE_NAME] = (uint8_t)names[node - 1];
    }
    renew_check(out);
}

/* Whether an entry has this code, this node below 256, and on each side these bytes and then zeros. */
static int entry_is(const uint8_t *entry, uint8_t code, uint8_t node, const uint8_t *first, size_t first_len,
                    const uint8_t *second, size_t second_len)
{
    uint8_t expected[GRIFFELJOL_ENTRY_WIDTH] = {code, 0, node, 0};
    if (first_len > 0)
        memcpy(expected + GRIFFELJOL_ENTRY_FIRST, first, first_len);
    if (second_len > 0)
        memcpy(expected + GRIFFELJOL_ENTRY_SECOND, second, second_len);
    return memcmp(entry, expected, sizeof expected) == 0;
}

static void check_compare(uint32_t edition, const uint8_t *sheet)
{
    enum { WIDTH = GRIFFELJOL_ENTRY_WIDTH, BEHIND = 3, OUT = 2 * WIDTH + BEHIND };
    uint8_t out[OUT], before[OUT], other[SHEET], wrong[SHEET], refused_slot[SHEET], swapped[SHEET];
    const uint8_t optional[1] = {GRIFFELJOL_REPETITION_OPTIONAL}, required[1] = {GRIFFELJOL_REPETITION_REQUIRED};
    const uint8_t zero[2] = {0, 0}, one[2] = {1, 0};
    CHECK(GRIFFELJOL_MAX_COMPARISON == 1856512);
    memset(out, 0xA5, sizeof out);
    memcpy(before, out, sizeof out);
    /* The check of one differs; the other has a fault at its node 2. */
    memcpy(wrong, sheet, SHEET);
    wrong[30] ^= 1;
    changed(refused_slot, sheet, 2, GRIFFELJOL_DIFFERENCE_PHYSICAL, 8);
    CHECK(griffeljol_compare(edition, NULL, 0, NULL, 0, NULL, 0) == refused_in(1, 1, 0));
    CHECK(griffeljol_compare(edition, sheet, SHEET, NULL, 0, NULL, 0) == refused_in(2, 1, 0));
    CHECK(griffeljol_compare(edition, NULL, 0, sheet, SHEET, out, OUT) == refused_in(1, 1, 0));
    CHECK(griffeljol_compare(edition, sheet, SHEET - 1, sheet, SHEET, out, OUT) == refused_in(1, 1, 0));
    CHECK(griffeljol_compare(edition, sheet, SHEET, sheet, SHEET - 1, out, OUT) == refused_in(2, 1, 0));
    CHECK(griffeljol_compare(edition, wrong, SHEET, sheet, SHEET, out, OUT) == refused_in(1, 2, 0));
    CHECK(griffeljol_compare(edition, sheet, SHEET, wrong, SHEET, NULL, 0) == refused_in(2, 2, 0));
    /* The first sheet's refusal comes first, whatever the second's number is. */
    CHECK(griffeljol_compare(edition, refused_slot, SHEET, wrong, SHEET, out, OUT) == refused_in(1, 4, 2));
    CHECK(griffeljol_compare(edition, wrong, SHEET, refused_slot, SHEET, out, OUT) == refused_in(1, 2, 0));
    CHECK(griffeljol_compare(edition, sheet, SHEET, refused_slot, SHEET, out, OUT) == refused_in(2, 4, 2));
    /* Sheets without a difference ask for no output, and write nothing. */
    CHECK(griffeljol_compare(edition, sheet, SHEET, sheet, SHEET, NULL, 0) == 0);
    CHECK(griffeljol_compare(edition, sheet, SHEET, sheet, SHEET, out, OUT) == 0);
    /* One field. */
    changed(other, sheet, 3, GRIFFELJOL_DIFFERENCE_REPETITION, GRIFFELJOL_REPETITION_REQUIRED);
    CHECK(griffeljol_compare(edition, sheet, SHEET, other, SHEET, NULL, 0) == refused(14));
    CHECK(griffeljol_compare(edition, sheet, SHEET, other, SHEET, out, WIDTH - 1) == refused(14));
    CHECK(memcmp(out, before, sizeof out) == 0);
    CHECK(griffeljol_compare(edition, sheet, SHEET, other, SHEET, out, WIDTH) == 1);
    CHECK(entry_is(out, GRIFFELJOL_DIFFERENCE_REPETITION, 3, optional, 1, required, 1));
    CHECK(memcmp(out + WIDTH, before + WIDTH, sizeof out - WIDTH) == 0);
    CHECK(griffeljol_compare(edition, other, SHEET, sheet, SHEET, out, OUT) == 1);
    CHECK(entry_is(out, GRIFFELJOL_DIFFERENCE_REPETITION, 3, required, 1, optional, 1));
    CHECK(memcmp(out + WIDTH, before + WIDTH, sizeof out - WIDTH) == 0);
    /* The roots match whatever their names are. */
    changed(other, sheet, 0, GRIFFELJOL_DIFFERENCE_NAME, 's');
    CHECK(griffeljol_compare(edition, sheet, SHEET, other, SHEET, out, OUT) == 1);
    CHECK(entry_is(out, GRIFFELJOL_DIFFERENCE_NAME, 0, sheet + slot(0) + GRIFFELJOL_DIFFERENCE_NAME, 48,
                   other + slot(0) + GRIFFELJOL_DIFFERENCE_NAME, 48));
    /* A node of another name is only in the first, and one only in the second. */
    changed(other, sheet, 3, GRIFFELJOL_DIFFERENCE_NAME, 'E');
    memcpy(out, before, sizeof out);
    CHECK(griffeljol_compare(edition, sheet, SHEET, other, SHEET, out, 2 * WIDTH - 1) == refused(14));
    CHECK(memcmp(out, before, sizeof out) == 0);
    CHECK(griffeljol_compare(edition, sheet, SHEET, other, SHEET, out, OUT) == 2);
    CHECK(entry_is(out, GRIFFELJOL_DIFFERENCE_ONLY_FIRST, 3, sheet + slot(3), GRIFFELJOL_ENTRY_SIDE, NULL, 0));
    CHECK(entry_is(out + WIDTH, GRIFFELJOL_DIFFERENCE_ONLY_SECOND, 3, NULL, 0, other + slot(3), GRIFFELJOL_ENTRY_SIDE));
    CHECK(memcmp(out + 2 * WIDTH, before + 2 * WIDTH, BEHIND) == 0);
    /* Siblings that have changed their places; of one name, the first matches the first. */
    two_leaves(other, sheet, 'a', 'b');
    two_leaves(swapped, sheet, 'b', 'a');
    CHECK(griffeljol_compare(edition, other, SHEET, swapped, SHEET, out, 2 * WIDTH) == 2);
    CHECK(entry_is(out, GRIFFELJOL_DIFFERENCE_PLACE, 1, zero, 2, one, 2));
    CHECK(entry_is(out + WIDTH, GRIFFELJOL_DIFFERENCE_PLACE, 2, one, 2, zero, 2));
    two_leaves(other, sheet, 'a', 'a');
    CHECK(griffeljol_compare(edition, other, SHEET, other, SHEET, NULL, 0) == 0);
}

/* Reads a value into out, of three numbers, and says whether the answer is as it should be and the third stayed. */
static int reads(uint32_t edition, uint32_t physical, uint32_t kind, uint32_t p1, uint32_t p2, const uint8_t *value,
                 size_t length, uint32_t value_case, uint64_t first, uint64_t second)
{
    uint64_t out[3] = {7, 7, 7};
    uint64_t answer = griffeljol_read(edition, physical, 0, kind, p1, p2, value, length, out, 3);
    return answer == value_case && out[0] == first && out[1] == second && out[2] == 7;
}

static void check_read(uint32_t edition)
{
    static uint8_t longest[GRIFFELJOL_MAX_VALUE + 1] = {0};
    const uint8_t one[1] = {1}, two[1] = {2};
    const uint8_t ones[8] = {255, 255, 255, 255, 255, 255, 255, 255};
    const uint8_t float_nan[4] = {1, 0, 0x80, 0xFF}, minus_zero[4] = {0, 0, 0, 0x80};
    const uint8_t double_nan[8] = {1, 0, 0, 0, 0, 0, 0xF0, 0x7F};
    uint64_t out[2] = {7, 7};
    CHECK(reads(edition, GRIFFELJOL_PHYSICAL_BOOLEAN, 0, 0, 0, one, 1, GRIFFELJOL_CASE_TRUTH, 1, 0));
    CHECK(reads(edition, GRIFFELJOL_PHYSICAL_INT32, 0, 0, 0, ones, 4, GRIFFELJOL_CASE_SIGNED, UINT64_MAX, 0));
    CHECK(reads(edition, GRIFFELJOL_PHYSICAL_INT64, 0, 0, 0, ones, 8, GRIFFELJOL_CASE_SIGNED, UINT64_MAX, 0));
    CHECK(reads(edition, GRIFFELJOL_PHYSICAL_INT32, 10, 32, 0, ones, 4, GRIFFELJOL_CASE_UNSIGNED, 0xFFFFFFFF, 0));
    CHECK(reads(edition, GRIFFELJOL_PHYSICAL_INT64, 10, 64, 0, ones, 8, GRIFFELJOL_CASE_UNSIGNED, UINT64_MAX, 0));
    CHECK(reads(edition, GRIFFELJOL_PHYSICAL_FLOAT, 0, 0, 0, minus_zero, 4, GRIFFELJOL_CASE_FLOAT, 0x80000000, 0));
    CHECK(reads(edition, GRIFFELJOL_PHYSICAL_FLOAT, 0, 0, 0, float_nan, 4, GRIFFELJOL_CASE_FLOAT, 0x7FC00000, 0));
    CHECK(reads(edition, GRIFFELJOL_PHYSICAL_DOUBLE, 0, 0, 0, double_nan, 8, GRIFFELJOL_CASE_DOUBLE,
                UINT64_C(0x7FF8000000000000), 0));
    CHECK(reads(edition, GRIFFELJOL_PHYSICAL_BYTE_ARRAY, 0, 0, 0, ones, 8, GRIFFELJOL_CASE_BYTES, 0, 8));
    CHECK(reads(edition, GRIFFELJOL_PHYSICAL_BYTE_ARRAY, 0, 0, 0, NULL, 0, GRIFFELJOL_CASE_BYTES, 0, 0));
    CHECK(reads(edition, GRIFFELJOL_PHYSICAL_BYTE_ARRAY, 1, 0, 0, NULL, 0, GRIFFELJOL_CASE_BYTES, 0, 0));
    CHECK(reads(edition, GRIFFELJOL_PHYSICAL_BYTE_ARRAY, 0, 0, 0, longest, GRIFFELJOL_MAX_VALUE, GRIFFELJOL_CASE_BYTES, 0,
                GRIFFELJOL_MAX_VALUE));
    CHECK(griffeljol_read(edition, GRIFFELJOL_PHYSICAL_GROUP, 0, 30, 0, 0, NULL, 0, NULL, 0) == refused(20));
    CHECK(griffeljol_read(edition, GRIFFELJOL_PHYSICAL_BOOLEAN, 0, 0, 0, 0, NULL, 0, NULL, 0) == refused(15));
    CHECK(griffeljol_read(edition, GRIFFELJOL_PHYSICAL_BYTE_ARRAY, 0, 0, 0, 0, longest, sizeof longest, out, 2) == refused(15));
    CHECK(griffeljol_read(edition, GRIFFELJOL_PHYSICAL_BOOLEAN, 0, 0, 0, 0, two, 1, NULL, 0) == refused(16));
    CHECK(griffeljol_read(edition, GRIFFELJOL_PHYSICAL_BOOLEAN, 0, 0, 0, 0, one, 1, NULL, 0) == refused(14));
    CHECK(griffeljol_read(edition, GRIFFELJOL_PHYSICAL_BOOLEAN, 0, 0, 0, 0, one, 1, out, 1) == refused(14));
    CHECK(griffeljol_read(edition, GRIFFELJOL_PHYSICAL_BOOLEAN, 0, 0, 0, 0, two, 1, out, 2) == refused(16));
    longest[GRIFFELJOL_MAX_VALUE - 1] = 0x80;
    CHECK(griffeljol_read(edition, GRIFFELJOL_PHYSICAL_BYTE_ARRAY, 0, GRIFFELJOL_KIND_STRING, 0, 0, longest, GRIFFELJOL_MAX_VALUE,
                          out, 2) == refused_in(0, 16, GRIFFELJOL_MAX_VALUE - 1));
    CHECK(out[0] == 7 && out[1] == 7);
}

static void check_order(uint32_t edition)
{
    const uint8_t text[3] = {'a', 'b', 0xFF};
    const uint8_t zero[4] = {0, 0, 0, 0}, minus_zero[4] = {0, 0, 0, 0x80}, nan[4] = {0, 0, 0xC0, 0x7F};
    const uint32_t bytes = GRIFFELJOL_PHYSICAL_BYTE_ARRAY;
    CHECK(griffeljol_order(edition, bytes, 0, 0, 0, 0, NULL, 0, NULL, 0) == GRIFFELJOL_ORDER_EQUAL);
    CHECK(griffeljol_order(edition, bytes, 0, 0, 0, 0, NULL, 0, text, 1) == GRIFFELJOL_ORDER_LESS);
    CHECK(griffeljol_order(edition, bytes, 0, 0, 0, 0, text, 2, text, 1) == GRIFFELJOL_ORDER_GREATER);
    CHECK(griffeljol_order(edition, bytes, 0, 0, 0, 0, text, 3, text, 3) == GRIFFELJOL_ORDER_EQUAL);
    CHECK(griffeljol_order(edition, GRIFFELJOL_PHYSICAL_FLOAT, 0, 0, 0, 0, zero, 4, minus_zero, 4) == GRIFFELJOL_ORDER_EQUAL);
    CHECK(griffeljol_order(edition, GRIFFELJOL_PHYSICAL_FLOAT, 0, 0, 0, 0, nan, 4, nan, 4) == GRIFFELJOL_ORDER_UNORDERED);
    CHECK(griffeljol_order(edition, bytes, 1, 0, 0, 0, NULL, 0, NULL, 0) == refused(20));
    CHECK(griffeljol_order(edition, GRIFFELJOL_PHYSICAL_FIXED_LEN_BYTE_ARRAY, 12, GRIFFELJOL_KIND_INTERVAL, 0, 0, NULL, 0, NULL, 0)
          == refused(17));
    CHECK(griffeljol_order(edition, GRIFFELJOL_PHYSICAL_INT32, 0, 0, 0, 0, NULL, 0, zero, 4) == refused_in(1, 15, 0));
    CHECK(griffeljol_order(edition, bytes, 0, GRIFFELJOL_KIND_STRING, 0, 0, text, 3, text, 2) == refused_in(1, 16, 2));
    CHECK(griffeljol_order(edition, bytes, 0, GRIFFELJOL_KIND_STRING, 0, 0, text, 2, text, 3) == refused_in(2, 16, 2));
    CHECK(griffeljol_order(edition, bytes, 0, GRIFFELJOL_KIND_STRING, 0, 0, text + 1, 2, text, 3) == refused_in(1, 16, 1));
    /* The first value's 16 comes before the second's 15. */
    CHECK(griffeljol_order(edition, bytes, 0, GRIFFELJOL_KIND_DECIMAL, 1, 0, text, 1, NULL, 0) == refused_in(1, 16, 0));
}

/* What the first edition has not: decimals whose scale equals their precision. */
static void check_fractions(void)
{
    const uint32_t bytes = GRIFFELJOL_PHYSICAL_BYTE_ARRAY, decimal = GRIFFELJOL_KIND_DECIMAL;
    const uint8_t a[1] = {0x63}, b[1] = {0x9D};
    for (uint32_t edition = GRIFFELJOL_EDITION_2; edition <= GRIFFELJOL_EDITION_3; edition++) {
        CHECK(reads(edition, bytes, decimal, 2, 2, a, 1, GRIFFELJOL_CASE_BYTES, 0, 1));
        CHECK(griffeljol_read(edition, bytes, 0, decimal, 0, 0, a, 1, NULL, 0) == refused(20));
        CHECK(griffeljol_read(edition, bytes, 0, decimal, 2, 3, a, 1, NULL, 0) == refused(20));
        CHECK(griffeljol_order(edition, bytes, 0, decimal, 2, 2, a, 1, b, 1) == GRIFFELJOL_ORDER_GREATER);
    }
    CHECK(griffeljol_read(GRIFFELJOL_EDITION_1, bytes, 0, decimal, 2, 2, a, 1, NULL, 0) == refused(20));
    CHECK(griffeljol_order(GRIFFELJOL_EDITION_1, bytes, 0, decimal, 2, 2, a, 1, b, 1) == refused(20));
}

/* A sheet with one leaf of INT96, its node 2, and with a logical type there. */
static void int96_leaf(uint8_t *out, const uint8_t *sheet, uint8_t logical)
{
    uint8_t leaves[SHEET];
    two_leaves(leaves, sheet, 'a', 'b');
    changed(out, leaves, 2, GRIFFELJOL_DIFFERENCE_PHYSICAL, GRIFFELJOL_PHYSICAL_INT96);
    changed(leaves, out, 2, GRIFFELJOL_DIFFERENCE_LOGICAL, logical);
    memcpy(out, leaves, SHEET);
}

/* What the third edition has not: leaves and columns of INT96. */
static void check_third_edition(const uint8_t *sheet)
{
    const uint32_t int96 = GRIFFELJOL_PHYSICAL_INT96;
    const uint8_t value[GRIFFELJOL_INT96_WIDTH] = {0}, logicals[2] = {GRIFFELJOL_LOGICAL_NONE, GRIFFELJOL_KIND_UNKNOWN};
    uint8_t leaf[SHEET], wrong[SHEET], out[SHEET], before[SHEET];
    uint32_t rows[3 * GRIFFELJOL_ROW_WIDTH];
    for (uint32_t edition = GRIFFELJOL_EDITION_1; edition <= GRIFFELJOL_EDITION_2; edition++) {
        CHECK(reads(edition, int96, 0, 0, 0, value, sizeof value, GRIFFELJOL_CASE_BYTES, 0, sizeof value));
        CHECK(griffeljol_read(edition, int96, 0, 0, 0, 0, NULL, 0, NULL, 0) == refused(15));
        CHECK(griffeljol_order(edition, int96, 0, 0, 0, 0, NULL, 0, NULL, 0) == refused(17));
    }
    CHECK(griffeljol_read(GRIFFELJOL_EDITION_3, int96, 0, 0, 0, 0, value, sizeof value, NULL, 0) == refused(20));
    CHECK(griffeljol_read(GRIFFELJOL_EDITION_3, int96, 0, GRIFFELJOL_KIND_UNKNOWN, 0, 0, NULL, 0, NULL, 0) == refused(20));
    CHECK(griffeljol_order(GRIFFELJOL_EDITION_3, int96, 0, 0, 0, 0, NULL, 0, NULL, 0) == refused(20));
    memset(out, 0xA5, sizeof out);
    memcpy(before, out, sizeof out);
    for (size_t i = 0; i < sizeof logicals; i++) {
        int96_leaf(leaf, sheet, logicals[i]);
        CHECK(griffeljol_resolve(GRIFFELJOL_EDITION_2, leaf, SHEET, rows, 3 * GRIFFELJOL_ROW_WIDTH) == 3);
        CHECK(griffeljol_resolve(GRIFFELJOL_EDITION_3, leaf, SHEET, NULL, 0) == refused_in(0, 10, 2));
        CHECK(griffeljol_rewrite(GRIFFELJOL_EDITION_3, leaf, SHEET, out, SHEET, 0) == refused_in(0, 10, 2));
        CHECK(griffeljol_compare(GRIFFELJOL_EDITION_3, leaf, SHEET, sheet, SHEET, NULL, 0) == refused_in(1, 10, 2));
        CHECK(griffeljol_compare(GRIFFELJOL_EDITION_3, sheet, SHEET, leaf, SHEET, out, SHEET) == refused_in(2, 10, 2));
        /* At the leaf itself 8 comes first, and so does 9. */
        changed(wrong, leaf, 2, GRIFFELJOL_DIFFERENCE_TYPE_LENGTH, GRIFFELJOL_INT96_WIDTH);
        CHECK(griffeljol_resolve(GRIFFELJOL_EDITION_3, wrong, SHEET, NULL, 0) == refused_in(0, 8, 2));
    }
    changed(wrong, leaf, 2, GRIFFELJOL_DIFFERENCE_CONVERTED, GRIFFELJOL_CONVERTED_UTF8);
    CHECK(griffeljol_resolve(GRIFFELJOL_EDITION_3, wrong, SHEET, NULL, 0) == refused_in(0, 9, 2));
    CHECK(memcmp(out, before, sizeof out) == 0);
}

/* A sheet with one leaf of BYTE_ARRAY, its node 2, of a logical type with parameter a. */
static void geospatial_leaf(uint8_t *out, const uint8_t *sheet, uint8_t logical, uint8_t a)
{
    uint8_t leaves[SHEET];
    two_leaves(leaves, sheet, 'a', 'b');
    changed(out, leaves, 2, GRIFFELJOL_DIFFERENCE_PHYSICAL, GRIFFELJOL_PHYSICAL_BYTE_ARRAY);
    changed(leaves, out, 2, GRIFFELJOL_DIFFERENCE_LOGICAL, logical);
    changed(out, leaves, 2, GRIFFELJOL_DIFFERENCE_A, a);
}

/* What the third edition alone has: leaves and columns of GEOMETRY and GEOGRAPHY. */
static void check_geospatial(const uint8_t *sheet)
{
    const uint32_t bytes = GRIFFELJOL_PHYSICAL_BYTE_ARRAY;
    const uint8_t kinds[2] = {GRIFFELJOL_KIND_GEOMETRY, GRIFFELJOL_KIND_GEOGRAPHY}, value[2] = {0xFF, 0x80};
    uint8_t leaf[SHEET], wrong[SHEET], out[SHEET];
    uint32_t rows[3 * GRIFFELJOL_ROW_WIDTH];
    const uint32_t *row = &rows[2 * GRIFFELJOL_ROW_WIDTH];
    for (size_t i = 0; i < sizeof kinds; i++) {
        uint8_t kind = kinds[i], last = kind == GRIFFELJOL_KIND_GEOGRAPHY ? GRIFFELJOL_EDGE_RULE_KARNEY : 0;
        for (uint8_t a = 0; a <= GRIFFELJOL_EDGE_RULE_KARNEY + 1; a++) {
            geospatial_leaf(leaf, sheet, kind, a);
            for (uint32_t edition = GRIFFELJOL_EDITION_1; edition <= GRIFFELJOL_EDITION_2; edition++) {
                CHECK(griffeljol_resolve(edition, leaf, SHEET, NULL, 0) == refused_in(0, 4, 2));
                CHECK(griffeljol_rewrite(edition, leaf, SHEET, NULL, 0, 0) == refused_in(0, 4, 2));
                CHECK(griffeljol_compare(edition, sheet, SHEET, leaf, SHEET, NULL, 0) == refused_in(2, 4, 2));
                CHECK(griffeljol_read(edition, bytes, 0, kind, a, 0, value, 2, NULL, 0) == refused(20));
                CHECK(griffeljol_order(edition, bytes, 0, kind, a, 0, value, 2, value, 2) == refused(20));
            }
            if (a > last) {
                CHECK(griffeljol_resolve(GRIFFELJOL_EDITION_3, leaf, SHEET, NULL, 0) == refused_in(0, 10, 2));
                CHECK(griffeljol_read(GRIFFELJOL_EDITION_3, bytes, 0, kind, a, 0, value, 2, NULL, 0) == refused(20));
                CHECK(griffeljol_order(GRIFFELJOL_EDITION_3, bytes, 0, kind, a, 0, value, 2, value, 2) == refused(20));
                continue;
            }
            CHECK(griffeljol_resolve(GRIFFELJOL_EDITION_3, leaf, SHEET, rows, 3 * GRIFFELJOL_ROW_WIDTH) == 3);
            CHECK(row[GRIFFELJOL_ROW_PHYSICAL] == bytes && row[GRIFFELJOL_ROW_KIND] == kind);
            CHECK(row[GRIFFELJOL_ROW_P1] == a && row[GRIFFELJOL_ROW_P2] == 0);
            CHECK(griffeljol_rewrite(GRIFFELJOL_EDITION_3, leaf, SHEET, out, SHEET, 0) == SHEET);
            CHECK(memcmp(out, leaf, SHEET) == 0);
            CHECK(griffeljol_compare(GRIFFELJOL_EDITION_3, leaf, SHEET, leaf, SHEET, NULL, 0) == 0);
            CHECK(reads(GRIFFELJOL_EDITION_3, bytes, kind, a, 0, value, 2, GRIFFELJOL_CASE_BYTES, 0, 2));
            CHECK(griffeljol_order(GRIFFELJOL_EDITION_3, bytes, 0, kind, a, 0, value, 2, value, 2) == refused(17));
        }
        geospatial_leaf(leaf, sheet, kind, 0);
        changed(wrong, leaf, 2, GRIFFELJOL_DIFFERENCE_PHYSICAL, GRIFFELJOL_PHYSICAL_INT32);
        CHECK(griffeljol_resolve(GRIFFELJOL_EDITION_3, wrong, SHEET, NULL, 0) == refused_in(0, 10, 2));
        changed(wrong, leaf, 2, GRIFFELJOL_DIFFERENCE_B, 1);
        CHECK(griffeljol_resolve(GRIFFELJOL_EDITION_3, wrong, SHEET, NULL, 0) == refused_in(0, 10, 2));
        changed(wrong, leaf, 2, GRIFFELJOL_DIFFERENCE_CONVERTED, GRIFFELJOL_CONVERTED_UTF8);
        CHECK(griffeljol_resolve(GRIFFELJOL_EDITION_3, wrong, SHEET, NULL, 0) == refused_in(0, 9, 2));
    }
}

/* An edition that is unknown: 21 before every other refusal, and nothing written. */
static void check_unknown_edition(uint32_t edition, const uint8_t *sheet)
{
    const uint8_t one[1] = {1};
    uint32_t rows[ROWS], rows_before[ROWS];
    uint8_t out[SHEET], out_before[SHEET];
    uint64_t words[2] = {7, 7};
    memset(rows, 0xA5, sizeof rows);
    memcpy(rows_before, rows, sizeof rows);
    memset(out, 0xA5, sizeof out);
    memcpy(out_before, out, sizeof out);
    CHECK(griffeljol_resolve(edition, NULL, 0, NULL, 0) == refused(GRIFFELJOL_REFUSAL_UNKNOWN_EDITION));
    CHECK(griffeljol_resolve(edition, sheet, SHEET - 1, rows, ROWS) == refused(21));
    CHECK(griffeljol_resolve(edition, sheet, SHEET, rows, ROWS) == refused(21));
    CHECK(griffeljol_rewrite(edition, NULL, 0, NULL, 0, 1) == refused(21));
    CHECK(griffeljol_rewrite(edition, sheet, SHEET, out, SHEET, SIZE_MAX) == refused(21));
    CHECK(griffeljol_rewrite(edition, sheet, SHEET, out, SHEET, 0) == refused(21));
    CHECK(griffeljol_compare(edition, NULL, 0, NULL, 0, NULL, 0) == refused(21));
    CHECK(griffeljol_compare(edition, sheet, SHEET, sheet, SHEET - 1, out, SHEET) == refused(21));
    CHECK(griffeljol_compare(edition, sheet, SHEET, sheet, SHEET, out, SHEET) == refused_in(0, 21, 0));
    CHECK(griffeljol_read(edition, GRIFFELJOL_PHYSICAL_GROUP, 0, 30, 0, 0, NULL, 0, NULL, 0) == refused(21));
    CHECK(griffeljol_read(edition, GRIFFELJOL_PHYSICAL_BOOLEAN, 0, 0, 0, 0, one, 1, words, 2) == refused(21));
    CHECK(griffeljol_order(edition, GRIFFELJOL_PHYSICAL_INT96, 0, 0, 0, 0, NULL, 0, NULL, 0) == refused(21));
    CHECK(griffeljol_order(edition, GRIFFELJOL_PHYSICAL_BOOLEAN, 0, 0, 0, 0, NULL, 0, one, 1) == refused_in(0, 21, 0));
    CHECK(memcmp(rows, rows_before, sizeof rows) == 0);
    CHECK(memcmp(out, out_before, sizeof out) == 0);
    CHECK(words[0] == 7 && words[1] == 7);
}

static void check_timestamps(void)
{
    const int64_t day[8] = {1970, 1, 3, 0, 0, 0, 0, 99};
    const int64_t leap_day[7] = {1900, 2, 29, 0, 0, 0, 0};
    const int64_t far[7] = {INT64_MAX, 1, 1, 0, 0, 0, 0};
    int64_t fields[8] = {7, 7, 7, 7, 7, 7, 7, 7};
    int64_t count[2] = {7, 7};
    CHECK(griffeljol_decode(0, 0, NULL, 0) == refused(20));
    CHECK(griffeljol_decode(4, 0, fields, 8) == refused(20));
    CHECK(griffeljol_decode(1, 0, NULL, 0) == refused(14));
    CHECK(griffeljol_decode(1, 0, fields, 6) == refused(14));
    for (int i = 0; i < 8; i++)
        CHECK(fields[i] == 7);
    CHECK(griffeljol_decode(1, 172800000, fields, 7) == GRIFFELJOL_FIELDS_WIDTH);
    CHECK(memcmp(fields, day, 7 * sizeof fields[0]) == 0);
    CHECK(griffeljol_decode(3, INT64_MIN, fields, 8) == GRIFFELJOL_FIELDS_WIDTH);
    CHECK(fields[GRIFFELJOL_FIELD_YEAR] == 1677 && fields[GRIFFELJOL_FIELD_FRACTION] == 145224192);
    CHECK(fields[7] == 7);
    CHECK(griffeljol_encode(0, NULL, 0, NULL, 0) == refused(20));
    CHECK(griffeljol_encode(1, NULL, 0, NULL, 0) == refused(18));
    CHECK(griffeljol_encode(1, day, 6, count, 2) == refused(18));
    CHECK(griffeljol_encode(1, leap_day, 7, NULL, 0) == refused(18));
    CHECK(griffeljol_encode(1, far, 7, NULL, 0) == refused(19));
    CHECK(griffeljol_encode(1, day, 7, NULL, 0) == refused(14));
    CHECK(count[0] == 7 && count[1] == 7);
    CHECK(griffeljol_encode(1, day, 8, count, 1) == 1);
    CHECK(count[0] == 172800000);
    CHECK(griffeljol_encode(3, fields, 7, count, 2) == 1);
    CHECK(count[0] == INT64_MIN && count[1] == 7);
}

/* The bytes of an INT96 of so many nanoseconds in a Julian day. */
static void put_int96(uint8_t *value, uint64_t nanos, uint32_t day)
{
    for (int i = 0; i < 8; i++)
        value[GRIFFELJOL_INT96_NANOS + i] = (uint8_t)(nanos >> 8 * i);
    for (int i = 0; i < 4; i++)
        value[GRIFFELJOL_INT96_DAY + i] = (uint8_t)(day >> 8 * i);
}

/* Whether an INT96 is turned into a count, and that back, with the rest of both outputs kept. */
static int turns(uint64_t nanos, uint32_t day, int64_t expected)
{
    uint8_t value[GRIFFELJOL_INT96_WIDTH], back[GRIFFELJOL_INT96_WIDTH + 1];
    int64_t count[2] = {7, 7};
    put_int96(value, nanos, day);
    memset(back, 0xA5, sizeof back);
    return griffeljol_from_int96(value, sizeof value, count, 2) == 1 && count[0] == expected && count[1] == 7
        && griffeljol_to_int96(expected, back, sizeof back) == GRIFFELJOL_INT96_WIDTH
        && memcmp(back, value, sizeof value) == 0 && back[GRIFFELJOL_INT96_WIDTH] == 0xA5;
}

static void check_int96(void)
{
    enum { WIDTH = GRIFFELJOL_INT96_WIDTH, DAY = GRIFFELJOL_INT96_EPOCH };
    const uint64_t full = UINT64_C(86400000000000);
    uint8_t value[WIDTH + 1] = {0}, out[WIDTH], before[WIDTH];
    int64_t count[1] = {7};
    CHECK(turns(0, DAY, 0));
    CHECK(turns(full - 1, DAY - 1, -1));
    CHECK(turns(full - 1, DAY, (int64_t)full - 1));
    /* The first day of all counts begins before the least of them. */
    CHECK(turns(UINT64_C(763145224192), 2333836, INT64_MIN));
    CHECK(turns(UINT64_C(85636854775807), 2547339, INT64_MAX));
    CHECK(griffeljol_from_int96(NULL, 0, NULL, 0) == refused(15));
    CHECK(griffeljol_from_int96(value, WIDTH - 1, NULL, 0) == refused(15));
    CHECK(griffeljol_from_int96(value, WIDTH + 1, count, 1) == refused(15));
    put_int96(value, full, 0);
    CHECK(griffeljol_from_int96(value, WIDTH - 1, count, 1) == refused(15));
    CHECK(griffeljol_from_int96(value, WIDTH, NULL, 0) == refused(16));
    CHECK(griffeljol_from_int96(value, WIDTH, count, 1) == refused(16));
    put_int96(value, UINT64_MAX, DAY);
    CHECK(griffeljol_from_int96(value, WIDTH, count, 1) == refused(16));
    put_int96(value, UINT64_C(763145224191), 2333836);
    CHECK(griffeljol_from_int96(value, WIDTH, count, 1) == refused(19));
    put_int96(value, UINT64_C(85636854775808), 2547339);
    CHECK(griffeljol_from_int96(value, WIDTH, NULL, 0) == refused(19));
    put_int96(value, 0, 0);
    CHECK(griffeljol_from_int96(value, WIDTH, count, 1) == refused(19));
    put_int96(value, full - 1, UINT32_MAX);
    CHECK(griffeljol_from_int96(value, WIDTH, NULL, 0) == refused(19));
    put_int96(value, 0, DAY);
    CHECK(griffeljol_from_int96(value, WIDTH, NULL, 0) == refused(14));
    CHECK(count[0] == 7);
    memset(out, 0xA5, sizeof out);
    memcpy(before, out, sizeof out);
    CHECK(griffeljol_to_int96(0, NULL, 0) == refused(14));
    for (size_t lent = 0; lent < WIDTH; lent++)
        CHECK(griffeljol_to_int96(INT64_MIN, out, lent) == refused(14));
    CHECK(memcmp(out, before, sizeof out) == 0);
    CHECK(griffeljol_to_int96(0, out, WIDTH) == WIDTH);
    CHECK(memcmp(out, value, WIDTH) == 0);
}

/* Whether two runs of doubles are equal as numbers, none of which is a NaN. */
static int equal(const double *a, const double *b, size_t count)
{
    for (size_t i = 0; i < count; i++)
        if (!(a[i] == b[i]))
            return 0;
    return 1;
}

static void check_box(void)
{
    enum { WIDTH = GRIFFELJOL_BOX_WIDTH, GEOMETRY = GRIFFELJOL_KIND_GEOMETRY, GEOGRAPHY = GRIFFELJOL_KIND_GEOGRAPHY };
    const uint32_t others[6] = {0, GEOMETRY - 1, GEOGRAPHY + 1, 256 + GEOMETRY, 1u << 31 | GEOMETRY, UINT32_MAX};
    const double points[8] = {3, -4, NAN, 6, -1, NAN, 2, 5}, expected[WIDTH] = {-1, 3, -4, 6}, sevens[WIDTH + 1] = {7, 7, 7, 7, 7};
    const double far[2] = {181, 1}, gone[4] = {NAN, 91, NAN, 1}, single[4] = {NAN, 1, NAN, 2}, zeros[4] = {0.0, -0.0, -0.0, 0.0};
    const double ends[4] = {-180, -90, 180, 90}, infinite[2] = {INFINITY, -INFINITY}, none[WIDTH] = {0};
    double box[WIDTH + 1];
    memcpy(box, sevens, sizeof box);
    for (size_t i = 0; i < sizeof others / sizeof *others; i++) {
        CHECK(griffeljol_box(others[i], NULL, 0, NULL, 0) == refused(20));
        CHECK(griffeljol_box(others[i], far, 1, box, WIDTH) == refused(20));
        CHECK(griffeljol_inside(others[i], NAN, 0, 1, 0, 181, 0) == refused(20));
    }
    for (uint32_t kind = GEOMETRY; kind <= GEOGRAPHY; kind++) {
        memcpy(box, sevens, sizeof box);
        CHECK(griffeljol_box(kind, NULL, 0, NULL, 0) == 0);
        CHECK(griffeljol_box(kind, NULL, 0, box, WIDTH) == 0);
        CHECK(griffeljol_box(kind, single, 4, NULL, 0) == 0);
        CHECK(griffeljol_box(kind, single, 4, box, WIDTH) == 0);
        CHECK(griffeljol_box(kind, far, 1, NULL, 0) == refused(15));
        CHECK(griffeljol_box(kind, single, 3, box, WIDTH) == refused(15));
        for (size_t lent = 0; lent < WIDTH; lent++)
            CHECK(griffeljol_box(kind, points, 8, lent == 0 ? NULL : box, lent) == refused(14));
        CHECK(equal(box, sevens, WIDTH + 1));
        CHECK(griffeljol_box(kind, points, 8, box, WIDTH) == WIDTH && equal(box, expected, WIDTH));
        CHECK(griffeljol_box(kind, zeros, 4, box, WIDTH + 1) == WIDTH && equal(box, none, WIDTH));
        CHECK(griffeljol_box(kind, ends, 4, box, WIDTH + 1) == WIDTH);
        CHECK(box[GRIFFELJOL_BOX_XMIN] == -180 && box[GRIFFELJOL_BOX_XMAX] == 180);
        CHECK(box[GRIFFELJOL_BOX_YMIN] == -90 && box[GRIFFELJOL_BOX_YMAX] == 90 && box[WIDTH] == 7);
    }
    memcpy(box, sevens, sizeof box);
    CHECK(griffeljol_box(GEOGRAPHY, far, 2, NULL, 0) == refused(16));
    CHECK(griffeljol_box(GEOGRAPHY, far, 2, box, WIDTH) == refused(16));
    CHECK(griffeljol_box(GEOGRAPHY, gone, 4, NULL, 0) == refused(16));
    CHECK(griffeljol_box(GEOGRAPHY, infinite, 2, box, WIDTH) == refused(16));
    CHECK(griffeljol_box(GEOMETRY, gone, 4, box, WIDTH) == 0);
    CHECK(equal(box, sevens, WIDTH + 1));
    CHECK(griffeljol_box(GEOMETRY, infinite, 2, box, WIDTH) == WIDTH && box[0] == INFINITY && box[2] == -INFINITY);
}

static void check_inside(void)
{
    enum { GEOMETRY = GRIFFELJOL_KIND_GEOMETRY, GEOGRAPHY = GRIFFELJOL_KIND_GEOGRAPHY };
    for (uint32_t kind = GEOMETRY; kind <= GEOGRAPHY; kind++) {
        CHECK(griffeljol_inside(kind, -1, 2, -3, 4, 0, 0) == 1);
        CHECK(griffeljol_inside(kind, -1, 2, -3, 4, -1, 4) == 1);
        CHECK(griffeljol_inside(kind, -1, 2, -3, 4, 2, -3) == 1);
        CHECK(griffeljol_inside(kind, -1, 2, -3, 4, 3, 0) == 0);
        CHECK(griffeljol_inside(kind, -1, 2, -3, 4, 0, -4) == 0);
        CHECK(griffeljol_inside(kind, -1, 2, -3, 4, NAN, 0) == 0);
        CHECK(griffeljol_inside(kind, -1, 2, -3, 4, 0, NAN) == 0);
        CHECK(griffeljol_inside(kind, 0.0, -0.0, -0.0, 0.0, -0.0, 0.0) == 1);
        CHECK(griffeljol_inside(kind, 170, -170, 0, 1, 180, 1) == 1);
        CHECK(griffeljol_inside(kind, 170, -170, 0, 1, -170, 0) == 1);
        CHECK(griffeljol_inside(kind, 170, -170, 0, 1, 0, 0) == 0);
        CHECK(griffeljol_inside(kind, 170, -170, 1, 0, 180, 1) == refused(16));
        CHECK(griffeljol_inside(kind, NAN, 2, -3, 4, 0, 0) == refused(16));
        CHECK(griffeljol_inside(kind, -1, NAN, -3, 4, NAN, 0) == refused(16));
        CHECK(griffeljol_inside(kind, -1, 2, NAN, 4, 0, 0) == refused(16));
        CHECK(griffeljol_inside(kind, -1, 2, -3, NAN, 0, NAN) == refused(16));
        CHECK(griffeljol_inside(kind, -180, 180, -90, 90, -180, 90) == 1);
    }
    CHECK(griffeljol_inside(GEOGRAPHY, -180, 181, -90, 90, 0, 0) == refused(16));
    CHECK(griffeljol_inside(GEOGRAPHY, -180, 180, -91, 90, 0, 0) == refused(16));
    CHECK(griffeljol_inside(GEOGRAPHY, -180, 180, -90, 90, -181, 0) == refused(16));
    CHECK(griffeljol_inside(GEOGRAPHY, -180, 180, -90, 90, NAN, 91) == refused(16));
    CHECK(griffeljol_inside(GEOMETRY, -180, 181, -91, 90, 0, 0) == 1);
    CHECK(griffeljol_inside(GEOMETRY, -180, 180, -90, 90, -181, 0) == 0);
    CHECK(griffeljol_inside(GEOMETRY, -INFINITY, INFINITY, -INFINITY, INFINITY, INFINITY, -INFINITY) == 1);
}

int main(int argc, char **argv)
{
    uint8_t sheet[SHEET];
    FILE *file = argc == 2 ? fopen(argv[1], "rb") : NULL;
    if (file == NULL || fread(sheet, 1, SHEET, file) != SHEET) {
        fprintf(stderr, "usage: interface SHEET\n");
        return 2;
    }
    fclose(file);
    check_helpers();
    for (uint32_t edition = GRIFFELJOL_EDITION_1; edition <= GRIFFELJOL_EDITION_3; edition++) {
        check_resolve(edition, sheet);
        check_rewrite(edition, sheet);
        check_compare(edition, sheet);
        check_read(edition);
        check_order(edition);
    }
    check_fractions();
    check_third_edition(sheet);
    check_geospatial(sheet);
    check_unknown_edition(0, sheet);
    check_unknown_edition(4, sheet);
    check_unknown_edition(5, sheet);
    check_unknown_edition(257, sheet);
    check_unknown_edition(UINT32_MAX, sheet);
    check_timestamps();
    check_int96();
    check_box();
    check_inside();
    return failures == 0 ? 0 : 1;
}

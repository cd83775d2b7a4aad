/* Each function of griffeljol.h once, on the sheet in the file that is the argument. From the repository's root:
 *   cc -std=c99 -Iinclude include/example.c target/staticlib/libgriffeljol.a -o example && ./example crates/schema_rows/stdin
 */
#include "griffeljol.h"

#include <inttypes.h>
#include <math.h>
#include <stdio.h>

/* Whether an answer is a result; a refusal is told. */
static int accepted(uint64_t answer)
{
    if (griffeljol_refusal(answer) == GRIFFELJOL_REFUSAL_NONE)
        return 1;
    printf("refused %" PRIu32 " at %" PRIu32 "\n", griffeljol_refusal(answer), griffeljol_place(answer));
    return 0;
}

/* The rows of a sheet. */
static void resolve(const uint8_t *sheet, size_t length)
{
    static uint32_t rows[GRIFFELJOL_MAX_ROWS];
    uint64_t answer = griffeljol_resolve(GRIFFELJOL_EDITION_1, sheet, length, rows, GRIFFELJOL_MAX_ROWS);
    if (!accepted(answer))
        return;
    printf("nodes %" PRIu32 "\n", griffeljol_value(answer));
    for (uint32_t node = 0; node < griffeljol_value(answer); node++) {
        const uint32_t *row = &rows[node * GRIFFELJOL_ROW_WIDTH];
        for (int i = 0; i < GRIFFELJOL_ROW_WIDTH; i++)
            printf("%s%" PRIu32, i == 0 ? "" : " ", row[i]);
        printf("\n");
    }
}

/* The sheet anew, with both annotations at every node. */
static void rewrite(const uint8_t *sheet, size_t length)
{
    static uint8_t out[GRIFFELJOL_MAX_SHEET];
    uint64_t answer = griffeljol_rewrite(GRIFFELJOL_EDITION_1, sheet, length, out, sizeof out, 0);
    if (accepted(answer))
        printf("rewritten: %" PRIu32 " bytes\n", griffeljol_value(answer));
}

/* What rewriting changes in a sheet: each entry of the comparison, by its node and its code. */
static void compare(const uint8_t *sheet, size_t length)
{
    static uint8_t rewritten[GRIFFELJOL_MAX_SHEET], out[GRIFFELJOL_MAX_COMPARISON];
    if (!accepted(griffeljol_rewrite(GRIFFELJOL_EDITION_1, sheet, length, rewritten, sizeof rewritten, 0)))
        return;
    uint64_t answer = griffeljol_compare(GRIFFELJOL_EDITION_1, sheet, length, rewritten, length, out, sizeof out);
    if (!accepted(answer))
        return;
    printf("differences %" PRIu32 "\n", griffeljol_value(answer));
    for (uint32_t i = 0; i < griffeljol_value(answer); i++) {
        const uint8_t *entry = &out[i * GRIFFELJOL_ENTRY_WIDTH];
        int node = entry[GRIFFELJOL_ENTRY_NODE] | entry[GRIFFELJOL_ENTRY_NODE + 1] << 8;
        if (entry[GRIFFELJOL_ENTRY_CODE] == GRIFFELJOL_DIFFERENCE_LOGICAL)
            printf("node %d: logical %d, was %d\n", node, entry[GRIFFELJOL_ENTRY_SECOND], entry[GRIFFELJOL_ENTRY_FIRST]);
        else
            printf("node %d: code %d\n", node, entry[GRIFFELJOL_ENTRY_CODE]);
    }
}

/* A value of INT(8, false) on INT32: 255, little-endian. */
static void read_value(void)
{
    const uint8_t value[4] = {255, 0, 0, 0};
    uint64_t out[GRIFFELJOL_READ_WIDTH];
    uint64_t answer = griffeljol_read(GRIFFELJOL_EDITION_1, GRIFFELJOL_PHYSICAL_INT32, 0, GRIFFELJOL_KIND_INTEGER, 8, 0,
                                      value, sizeof value, out, GRIFFELJOL_READ_WIDTH);
    if (accepted(answer) && griffeljol_value(answer) == GRIFFELJOL_CASE_UNSIGNED)
        printf("unsigned %" PRIu64 "\n", out[0]);
}

/* Two decimals of precision and scale 3 on BYTE_ARRAY, big-endian two's complement: -0.128 is below 0.127. Edition 1 has no such
 * column. */
static void order_values(void)
{
    const uint8_t a[1] = {0x80};
    const uint8_t b[1] = {0x7F};
    uint64_t answer = griffeljol_order(GRIFFELJOL_EDITION_2, GRIFFELJOL_PHYSICAL_BYTE_ARRAY, 0, GRIFFELJOL_KIND_DECIMAL, 3, 3,
                                       a, sizeof a, b, sizeof b);
    if (accepted(answer) && griffeljol_value(answer) == GRIFFELJOL_ORDER_LESS)
        printf("less\n");
}

/* A timestamp as its date and time, and back. */
static void timestamp(void)
{
    int64_t fields[GRIFFELJOL_FIELDS_WIDTH];
    int64_t count = 0;
    if (accepted(griffeljol_decode(GRIFFELJOL_UNIT_MILLIS, -1, fields, GRIFFELJOL_FIELDS_WIDTH)))
        printf("%04" PRId64 "-%02" PRId64 "-%02" PRId64 " %02" PRId64 ":%02" PRId64 ":%02" PRId64 ".%03" PRId64 "\n",
               fields[GRIFFELJOL_FIELD_YEAR], fields[GRIFFELJOL_FIELD_MONTH], fields[GRIFFELJOL_FIELD_DAY],
               fields[GRIFFELJOL_FIELD_HOUR], fields[GRIFFELJOL_FIELD_MINUTE], fields[GRIFFELJOL_FIELD_SECOND],
               fields[GRIFFELJOL_FIELD_FRACTION]);
    if (accepted(griffeljol_encode(GRIFFELJOL_UNIT_MILLIS, fields, GRIFFELJOL_FIELDS_WIDTH, &count, 1)))
        printf("%" PRId64 " ms\n", count);
}

/* Noon of 1 January 2000 as an INT96 in nanoseconds since 1970, and back. */
static void int96(void)
{
    const uint8_t noon[GRIFFELJOL_INT96_WIDTH] = {0x00, 0x80, 0xA7, 0x48, 0x4A, 0x27, 0x00, 0x00, 0x59, 0x68, 0x25, 0x00};
    uint8_t value[GRIFFELJOL_INT96_WIDTH];
    int64_t count = 0;
    if (accepted(griffeljol_from_int96(noon, sizeof noon, &count, 1)))
        printf("%" PRId64 " ns\n", count);
    if (!accepted(griffeljol_to_int96(count, value, sizeof value)))
        return;
    for (int i = 0; i < GRIFFELJOL_INT96_WIDTH; i++)
        printf("%02x", value[i]);
    printf("\n");
}

/* The box of three terminals, one of which has no longitude; whether the second is inside it, and inside one that goes
 * around. */
static void box(void)
{
    const double terminals[6] = {174.76, -36.85, 178.44, -18.14, NAN, -13.83};
    double bounds[GRIFFELJOL_BOX_WIDTH];
    uint64_t answer = griffeljol_box(GRIFFELJOL_KIND_GEOGRAPHY, terminals, 6, bounds, GRIFFELJOL_BOX_WIDTH);
    if (!accepted(answer) || griffeljol_value(answer) == 0)
        return;
    printf("x %.2f to %.2f, y %.2f to %.2f\n", bounds[GRIFFELJOL_BOX_XMIN], bounds[GRIFFELJOL_BOX_XMAX],
           bounds[GRIFFELJOL_BOX_YMIN], bounds[GRIFFELJOL_BOX_YMAX]);
    answer = griffeljol_inside(GRIFFELJOL_KIND_GEOGRAPHY, bounds[GRIFFELJOL_BOX_XMIN], bounds[GRIFFELJOL_BOX_XMAX],
                               bounds[GRIFFELJOL_BOX_YMIN], bounds[GRIFFELJOL_BOX_YMAX], terminals[2], terminals[3]);
    if (accepted(answer))
        printf("%s\n", griffeljol_value(answer) ? "inside" : "outside");
    answer = griffeljol_inside(GRIFFELJOL_KIND_GEOGRAPHY, 179, -179, -20, -10, terminals[2], terminals[3]);
    if (accepted(answer))
        printf("%s\n", griffeljol_value(answer) ? "inside" : "outside");
}

int main(int argc, char **argv)
{
    /* One byte more than the longest sheet, so that a longer file is refused. */
    static uint8_t sheet[GRIFFELJOL_MAX_SHEET + 1];
    FILE *file = argc == 2 ? fopen(argv[1], "rb") : NULL;
    if (file == NULL) {
        fprintf(stderr, "usage: example SHEET\n");
        return 2;
    }
    size_t length = fread(sheet, 1, sizeof sheet, file);
    fclose(file);
    resolve(sheet, length);
    rewrite(sheet, length);
    compare(sheet, length);
    read_value();
    order_values();
    timestamp();
    int96();
    box();
    return 0;
}

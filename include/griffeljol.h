/* griffeljol.h: the proved reader of Parquet schema sheets, for C99 and C++.
 *
 * Link the archive libgriffeljol.a, which `tests/build` proves and writes to target/staticlib; it links into x86-64 Linux
 * programs. "Document 01" is the paper that defines the sheet, the rows and the refusals, "document 02" the one that adds
 * editions, comparison, the turning of INT96 times, and boxes of points.
 *
 * Answers
 *   Each function answers one uint64_t. Bits 32 to 39 are the number of a refusal, 1 to 21, or 0 for a result. Bits 0 to 31
 *   are the place of the refusal, or for a result the value that the function names. Bits 40 to 47 tell in a refusal of
 *   griffeljol_order which value is at fault, in one of griffeljol_compare which sheet, and are 0 in every other answer. Bits 48
 *   to 63 are 0 and kept for later: take an answer apart by griffeljol_refusal, griffeljol_place, griffeljol_value and
 *   griffeljol_fault, and never compare it whole.
 *
 * Editions
 *   What reads or judges a sheet or a column type takes the number of an edition first. In edition 1 the scale of a DECIMAL is
 *   below its precision, as document 01 has it; in edition 2 it may also equal it. All else is the same in both: what edition 1
 *   accepts, edition 2 accepts with the same answer. Edition 3 is edition 2 without INT96: such a leaf is refused with 10, whatever
 *   its annotation, and such a column type with 20. It also has GEOMETRY and GEOGRAPHY, whose numbers the other two
 *   refuse with 4 in a sheet and with 20 in a column type. Any other number of an edition is refused with 21, before
 *   every other refusal.
 *
 * Memory
 *   An array is a pointer and a length, which counts elements and not bytes. The pointer is aligned for its type; that many
 *   elements can be read, and behind a pointer that is not const also written, until the call returns; and nothing else writes
 *   them meanwhile. What a call may write overlaps no other argument of it; arrays that it only reads may overlap. Where the
 *   length is 0 the pointer is not followed and may be NULL; where it is not 0, NULL is not valid. Nothing else is asked: any
 *   bytes and any numbers may be offered.
 *   A refusal writes nothing. A result writes what its function names, and the elements behind it stay as they were.
 *   Nothing is allocated, kept or shared between calls, so any number of threads may call at a time.
 *
 * What is proved
 *   Each function is proved, for all bytes and numbers, to answer and to write what its contract in crates/griffeljol_c says. This
 *   header is not: no prover sees that these declarations are those of the archive, that a caller's pointers and lengths are
 *   valid, or that its compiler passes them as the archive takes them.
 */
#ifndef GRIFFELJOL_H
#define GRIFFELJOL_H

#include <stddef.h>
#include <stdint.h>

#ifdef __cplusplus
extern "C" {
#endif

/* Editions. */
#define GRIFFELJOL_EDITION_1 1 /* a DECIMAL's scale is below its precision */
#define GRIFFELJOL_EDITION_2 2 /* it is at most its precision */
#define GRIFFELJOL_EDITION_3 3 /* likewise, no leaf is INT96, and one may be GEOMETRY or GEOGRAPHY */

/* The most bytes of a sheet, its most nodes, and the most bytes of a value. */
#define GRIFFELJOL_MAX_SHEET 65536
#define GRIFFELJOL_MAX_NODES 896
#define GRIFFELJOL_MAX_VALUE 65536

/* The numbers of a row, and which stands where in it. Rows of every sheet fit into GRIFFELJOL_MAX_ROWS numbers. */
#define GRIFFELJOL_ROW_WIDTH 11
#define GRIFFELJOL_MAX_ROWS (GRIFFELJOL_ROW_WIDTH * GRIFFELJOL_MAX_NODES)
#define GRIFFELJOL_ROW_PHYSICAL 0
#define GRIFFELJOL_ROW_TYPE_LENGTH 1
#define GRIFFELJOL_ROW_REPETITION 2
#define GRIFFELJOL_ROW_KIND 3
#define GRIFFELJOL_ROW_P1 4
#define GRIFFELJOL_ROW_P2 5
#define GRIFFELJOL_ROW_PARENT 6 /* the parent's node number; the root's is 0 */
#define GRIFFELJOL_ROW_END 7    /* one past the last descendant */
#define GRIFFELJOL_ROW_ROLE 8
/* How many nodes on the path from the root to this node, itself included, are optional or repeated, and how many are repeated: the
 * greatest definition and repetition level of its column. */
#define GRIFFELJOL_ROW_DEFINITION_LEVEL 9
#define GRIFFELJOL_ROW_REPETITION_LEVEL 10

/* The bytes of an entry of a comparison, and where in it each part starts. The node's number has two bytes, little-endian; byte 1
 * is 0. Each side has GRIFFELJOL_ENTRY_SIDE bytes, its content and then zeros. The entries of any two sheets fit into
 * GRIFFELJOL_MAX_COMPARISON bytes: there are at most 13 for each node of the first sheet, and 1 for each of the second. */
#define GRIFFELJOL_ENTRY_WIDTH 148
#define GRIFFELJOL_ENTRY_CODE 0
#define GRIFFELJOL_ENTRY_NODE 2
#define GRIFFELJOL_ENTRY_FIRST 4
#define GRIFFELJOL_ENTRY_SECOND 76
#define GRIFFELJOL_ENTRY_SIDE 72
#define GRIFFELJOL_MAX_ENTRIES (14 * GRIFFELJOL_MAX_NODES)
#define GRIFFELJOL_MAX_COMPARISON (GRIFFELJOL_ENTRY_WIDTH * GRIFFELJOL_MAX_ENTRIES)

/* The numbers that griffeljol_read writes. */
#define GRIFFELJOL_READ_WIDTH 2

/* The fields of a date and time, and which stands where. */
#define GRIFFELJOL_FIELDS_WIDTH 7
#define GRIFFELJOL_FIELD_YEAR 0
#define GRIFFELJOL_FIELD_MONTH 1
#define GRIFFELJOL_FIELD_DAY 2
#define GRIFFELJOL_FIELD_HOUR 3
#define GRIFFELJOL_FIELD_MINUTE 4
#define GRIFFELJOL_FIELD_SECOND 5
#define GRIFFELJOL_FIELD_FRACTION 6 /* in ticks of the unit, below one second */

/* The bytes of an INT96 time: 8 bytes of nanoseconds in the day, then 4 bytes of Julian day, both unsigned, little-endian. Julian day
 * GRIFFELJOL_INT96_EPOCH is 1 January 1970. */
#define GRIFFELJOL_INT96_WIDTH 12
#define GRIFFELJOL_INT96_NANOS 0
#define GRIFFELJOL_INT96_DAY 8
#define GRIFFELJOL_INT96_EPOCH 2440588

/* The numbers of a bounding box, and which stands where. */
#define GRIFFELJOL_BOX_WIDTH 4
#define GRIFFELJOL_BOX_XMIN 0
#define GRIFFELJOL_BOX_XMAX 1
#define GRIFFELJOL_BOX_YMIN 2
#define GRIFFELJOL_BOX_YMAX 3

/* Physical types. */
#define GRIFFELJOL_PHYSICAL_BOOLEAN 0
#define GRIFFELJOL_PHYSICAL_INT32 1
#define GRIFFELJOL_PHYSICAL_INT64 2
#define GRIFFELJOL_PHYSICAL_INT96 3
#define GRIFFELJOL_PHYSICAL_FLOAT 4
#define GRIFFELJOL_PHYSICAL_DOUBLE 5
#define GRIFFELJOL_PHYSICAL_BYTE_ARRAY 6
#define GRIFFELJOL_PHYSICAL_FIXED_LEN_BYTE_ARRAY 7
#define GRIFFELJOL_PHYSICAL_GROUP 255

/* Repetitions. Only the root has none. */
#define GRIFFELJOL_REPETITION_REQUIRED 0
#define GRIFFELJOL_REPETITION_OPTIONAL 1
#define GRIFFELJOL_REPETITION_REPEATED 2
#define GRIFFELJOL_REPETITION_NONE 255

/* Kinds. p1 and p2 are precision and scale of a DECIMAL; unit and UTC (1 or 0) of a TIME or TIMESTAMP; bit width and signed
 * (1 or 0) of an INTEGER; edge rule and 0 of a GEOGRAPHY; else 0. */
#define GRIFFELJOL_KIND_PLAIN_LEAF 0
#define GRIFFELJOL_KIND_STRING 1
#define GRIFFELJOL_KIND_MAP 2
#define GRIFFELJOL_KIND_LIST 3
#define GRIFFELJOL_KIND_ENUM 4
#define GRIFFELJOL_KIND_DECIMAL 5
#define GRIFFELJOL_KIND_DATE 6
#define GRIFFELJOL_KIND_TIME 7
#define GRIFFELJOL_KIND_TIMESTAMP 8
#define GRIFFELJOL_KIND_INTEGER 10
#define GRIFFELJOL_KIND_UNKNOWN 11
#define GRIFFELJOL_KIND_JSON 12
#define GRIFFELJOL_KIND_BSON 13
#define GRIFFELJOL_KIND_UUID 14
#define GRIFFELJOL_KIND_GEOMETRY 17  /* in edition 3, as the next */
#define GRIFFELJOL_KIND_GEOGRAPHY 18
#define GRIFFELJOL_KIND_INTERVAL 21
#define GRIFFELJOL_KIND_PLAIN_GROUP 30

/* Converted types, as a slot has them. */
#define GRIFFELJOL_CONVERTED_UTF8 0
#define GRIFFELJOL_CONVERTED_MAP 1
#define GRIFFELJOL_CONVERTED_MAP_KEY_VALUE 2
#define GRIFFELJOL_CONVERTED_LIST 3
#define GRIFFELJOL_CONVERTED_ENUM 4
#define GRIFFELJOL_CONVERTED_DECIMAL 5
#define GRIFFELJOL_CONVERTED_DATE 6
#define GRIFFELJOL_CONVERTED_TIME_MILLIS 7
#define GRIFFELJOL_CONVERTED_TIME_MICROS 8
#define GRIFFELJOL_CONVERTED_TIMESTAMP_MILLIS 9
#define GRIFFELJOL_CONVERTED_TIMESTAMP_MICROS 10
#define GRIFFELJOL_CONVERTED_UINT_8 11
#define GRIFFELJOL_CONVERTED_UINT_16 12
#define GRIFFELJOL_CONVERTED_UINT_32 13
#define GRIFFELJOL_CONVERTED_UINT_64 14
#define GRIFFELJOL_CONVERTED_INT_8 15
#define GRIFFELJOL_CONVERTED_INT_16 16
#define GRIFFELJOL_CONVERTED_INT_32 17
#define GRIFFELJOL_CONVERTED_INT_64 18
#define GRIFFELJOL_CONVERTED_JSON 19
#define GRIFFELJOL_CONVERTED_BSON 20
#define GRIFFELJOL_CONVERTED_INTERVAL 21
#define GRIFFELJOL_CONVERTED_NONE 255

/* Logical types, as a slot has them: none, or the number of the kind from GRIFFELJOL_KIND_STRING to _GEOGRAPHY. */
#define GRIFFELJOL_LOGICAL_NONE 0

/* Codes of a comparison's entries. That of a field is where its first byte stands in the slot. */
#define GRIFFELJOL_DIFFERENCE_PHYSICAL 0
#define GRIFFELJOL_DIFFERENCE_REPETITION 1
#define GRIFFELJOL_DIFFERENCE_CONVERTED 2
#define GRIFFELJOL_DIFFERENCE_LOGICAL 3
#define GRIFFELJOL_DIFFERENCE_A 4
#define GRIFFELJOL_DIFFERENCE_B 5
#define GRIFFELJOL_DIFFERENCE_CHILD_COUNT 6 /* two bytes, little-endian */
#define GRIFFELJOL_DIFFERENCE_TYPE_LENGTH 8 /* four bytes, signed, little-endian, as the next two */
#define GRIFFELJOL_DIFFERENCE_SCALE 12
#define GRIFFELJOL_DIFFERENCE_PRECISION 16
#define GRIFFELJOL_DIFFERENCE_NAME_LENGTH 20 /* at the root alone, as the next: other matched nodes have one name */
#define GRIFFELJOL_DIFFERENCE_NAME 24        /* 48 bytes */
#define GRIFFELJOL_DIFFERENCE_PLACE 72       /* places among the siblings, from 0: two bytes, little-endian */
#define GRIFFELJOL_DIFFERENCE_ONLY_FIRST 73  /* a node that the second sheet has not: its slot, 72 bytes */
#define GRIFFELJOL_DIFFERENCE_ONLY_SECOND 74 /* a node that the first sheet has not, likewise */

/* Roles. */
#define GRIFFELJOL_ROLE_FIELD 0
#define GRIFFELJOL_ROLE_LIST_LAYER 1
#define GRIFFELJOL_ROLE_ELEMENT 2
#define GRIFFELJOL_ROLE_ELEMENT_LAYER 3 /* a group layer that is the element */
#define GRIFFELJOL_ROLE_KEY_VALUE_LAYER 4
#define GRIFFELJOL_ROLE_KEY 5
#define GRIFFELJOL_ROLE_VALUE 6
#define GRIFFELJOL_ROLE_BARE_REPEATED 7

/* Time units. */
#define GRIFFELJOL_UNIT_MILLIS 1
#define GRIFFELJOL_UNIT_MICROS 2
#define GRIFFELJOL_UNIT_NANOS 3

/* Edge rules: how the points between two vertices of a GEOGRAPHY are found. */
#define GRIFFELJOL_EDGE_RULE_SPHERICAL 0
#define GRIFFELJOL_EDGE_RULE_VINCENTY 1
#define GRIFFELJOL_EDGE_RULE_THOMAS 2
#define GRIFFELJOL_EDGE_RULE_ANDOYER 3
#define GRIFFELJOL_EDGE_RULE_KARNEY 4

/* The cases of a read value. */
#define GRIFFELJOL_CASE_TRUTH 0
#define GRIFFELJOL_CASE_SIGNED 1
#define GRIFFELJOL_CASE_UNSIGNED 2
#define GRIFFELJOL_CASE_FLOAT 3
#define GRIFFELJOL_CASE_DOUBLE 4
#define GRIFFELJOL_CASE_BYTES 5

/* How the first of two values stands to the second. */
#define GRIFFELJOL_ORDER_LESS 0
#define GRIFFELJOL_ORDER_EQUAL 1
#define GRIFFELJOL_ORDER_GREATER 2
#define GRIFFELJOL_ORDER_UNORDERED 3 /* one of them is a NaN */

/* Refusals, each with what it is given for and its place. */
#define GRIFFELJOL_REFUSAL_NONE 0             /* a result */
#define GRIFFELJOL_REFUSAL_SHEET_LENGTH 1     /* sheet length 0, not a multiple of 512, or over 65,536: 0 */
#define GRIFFELJOL_REFUSAL_BLOCK_CHECK 2      /* block check differs: the first such block */
#define GRIFFELJOL_REFUSAL_BLOCK_HEADER 3     /* block header wrong: the first such block */
#define GRIFFELJOL_REFUSAL_SLOT 4             /* slot code outside the lists, name length or zero bytes wrong, unused slot not
                                                 zero: the first such node */
#define GRIFFELJOL_REFUSAL_NODES_MISSING 5    /* more children are claimed than nodes exist: T, the number of nodes */
#define GRIFFELJOL_REFUSAL_NODES_LEFT 6       /* nodes remain after the root's tree: the first node left over */
#define GRIFFELJOL_REFUSAL_DEPTH 7            /* a node deeper than 32: the first such node */
#define GRIFFELJOL_REFUSAL_SHAPE 8            /* shape: the node */
#define GRIFFELJOL_REFUSAL_DISAGREEMENT 9     /* converted and logical disagree: the node */
#define GRIFFELJOL_REFUSAL_ANNOTATION 10      /* annotation on the wrong physical type, length or parameters, or INT96 in
                                                 edition 3: the node */
#define GRIFFELJOL_REFUSAL_DECIMAL 11         /* DECIMAL scale or precision: the node */
#define GRIFFELJOL_REFUSAL_LIST 12            /* LIST structure: the LIST */
#define GRIFFELJOL_REFUSAL_MAP 13             /* MAP structure: the MAP */
#define GRIFFELJOL_REFUSAL_OUTPUT 14          /* output too short, or its start lies beyond its end: 0 */
#define GRIFFELJOL_REFUSAL_VALUE_LENGTH 15    /* value of wrong length, or over 65,536 bytes: 0 */
#define GRIFFELJOL_REFUSAL_VALUE 16           /* value breaks its annotation: the byte where UTF-8 stops in a STRING, ENUM or
                                                 JSON, else 0 */
#define GRIFFELJOL_REFUSAL_NO_ORDER 17        /* this column has no order: 0 */
#define GRIFFELJOL_REFUSAL_NO_DATE 18         /* fields form no date or time: 0 */
#define GRIFFELJOL_REFUSAL_NO_COUNT 19        /* fields not representable in a signed 64-bit count: 0 */
#define GRIFFELJOL_REFUSAL_COLUMN_TYPE 20     /* no accepted sheet has a leaf of this column type, or a time unit is not
                                                 1 to 3: 0 */
#define GRIFFELJOL_REFUSAL_UNKNOWN_EDITION 21 /* edition unknown: 0 */

/* The number of an answer's refusal, or GRIFFELJOL_REFUSAL_NONE for a result. */
static inline uint32_t griffeljol_refusal(uint64_t answer)
{
    return (uint32_t)(answer >> 32) & 0xFF;
}

/* The place of a refusal: a block, a node, T, a byte or 0, as the list of refusals says. */
static inline uint32_t griffeljol_place(uint64_t answer)
{
    return (uint32_t)(answer & 0xFFFFFFFF);
}

/* The value of a result, as each function names it. */
static inline uint32_t griffeljol_value(uint64_t answer)
{
    return (uint32_t)(answer & 0xFFFFFFFF);
}

/* Which of two is at fault in a refusal: of griffeljol_order 1 for a, 2 for b; of griffeljol_compare 1 for first, 2 for second; 0
 * for neither. */
static inline uint32_t griffeljol_fault(uint64_t answer)
{
    return (uint32_t)(answer >> 40) & 0xFF;
}

/* Judges a sheet and resolves it into rows.
 *   edition   GRIFFELJOL_EDITION_1, _2 or _3
 *   sheet     the sheet's bytes
 *   rows      where the rows go, GRIFFELJOL_ROW_WIDTH numbers for each node
 * Result: T, the number of nodes, 1 to GRIFFELJOL_MAX_NODES. The rows stand in the first GRIFFELJOL_ROW_WIDTH * T numbers of
 * rows, in listing order; the numbers behind them stay.
 * Refusals: 21; then 1 to 7, each judged over the whole sheet before the next; then 8 to 13 node by node, at one node in number
 * order; then 14, where rows_len is below GRIFFELJOL_ROW_WIDTH * T. rows stays as it was. */
uint64_t griffeljol_resolve(uint32_t edition, const uint8_t *sheet, size_t sheet_len, uint32_t *rows, size_t rows_len);

/* Judges a sheet and writes it anew with both annotations at every node.
 *   edition   GRIFFELJOL_EDITION_1, _2 or _3
 *   sheet     the sheet's bytes
 *   out       where the rewritten sheet goes
 *   start     the index in out of its first byte
 * Result: the number of bytes written, which is sheet_len. They stand in out from start on; the bytes before and behind stay.
 * Refusals: 21, then 1 to 13 as griffeljol_resolve judges them; then 14, where start is above out_len or fewer than sheet_len bytes
 * stand from start on. out stays as it was. */
uint64_t griffeljol_rewrite(uint32_t edition, const uint8_t *sheet, size_t sheet_len,
                            uint8_t *out, size_t out_len, size_t start);

/* Compares two sheets: each field in which matched nodes differ, each matched node whose place among its siblings differs, and
 * each node that only one of the sheets has. The roots match; children of matched nodes match by name, and where siblings share
 * one, the first matches the first, and so on. Fields are the bytes of the slots, and not what they resolve to.
 *   edition         GRIFFELJOL_EDITION_1, _2 or _3, for both sheets
 *   first, second   the bytes of the two sheets; they may be the same
 *   out             where the entries go, GRIFFELJOL_ENTRY_WIDTH bytes each
 * Result: the number of entries. They stand in out from its first byte on; the bytes behind them stay. There are none exactly
 * where both sheets have the same paths in the same order with equal slots. They come
 *   node by node of the first sheet, with its number there: of a matched node the fields that differ and then
 *   GRIFFELJOL_DIFFERENCE_PLACE, by rising code, with the contents of both sides; of any other node
 *   GRIFFELJOL_DIFFERENCE_ONLY_FIRST, with its slot on the first side and zeros on the second;
 *   then node by node of the second sheet, with its number there, those that are not matched, as
 *   GRIFFELJOL_DIFFERENCE_ONLY_SECOND, with zeros on the first side and the slot on the second.
 * Refusals: 21; then 1 to 13 of first, as griffeljol_resolve judges it; then those of second; then 14, where out_len is below
 * GRIFFELJOL_ENTRY_WIDTH times the number of entries. griffeljol_fault tells whose it is: 1 for first, 2 for second, and 0 for 21
 * and 14. out stays as it was. */
uint64_t griffeljol_compare(uint32_t edition, const uint8_t *first, size_t first_len, const uint8_t *second, size_t second_len,
                            uint8_t *out, size_t out_len);

/* Reads one value of a column.
 *   edition   GRIFFELJOL_EDITION_1, _2 or _3
 *   physical, type_length, kind, p1, p2   the column type, five numbers as a row has them
 *   value     the value's bytes, as a page stores them, without a length in front
 *   out       where GRIFFELJOL_READ_WIDTH numbers go
 * Result: the case of the value. out[0] and out[1] are
 *   GRIFFELJOL_CASE_TRUTH      0 or 1, and 0
 *   GRIFFELJOL_CASE_SIGNED     the whole number as 64-bit two's complement, and 0
 *   GRIFFELJOL_CASE_UNSIGNED   the whole number, and 0
 *   GRIFFELJOL_CASE_FLOAT      the bits of the FLOAT in the low 32 bits, a NaN as 7FC00000 hexadecimal, and 0
 *   GRIFFELJOL_CASE_DOUBLE     the bits of the DOUBLE, a NaN as 7FF8000000000000 hexadecimal, and 0
 *   GRIFFELJOL_CASE_BYTES      where the stretch of bytes starts in value, and its length
 * and the numbers behind them stay.
 * Refusals: 21, then 20, then 15, then 16, then 14 where out_len is below GRIFFELJOL_READ_WIDTH. out stays as it was. The place of
 * 16 is, for a STRING, ENUM or JSON, the index in value where whole sequences of UTF-8, read from the start, stop: what stands before
 * it is valid, and a sequence that is cut off or wrong begins there. It is 0 for every other value. */
uint64_t griffeljol_read(uint32_t edition, uint32_t physical, uint32_t type_length, uint32_t kind, uint32_t p1, uint32_t p2,
                         const uint8_t *value, size_t value_len, uint64_t *out, size_t out_len);

/* Orders two values of a column.
 *   edition   GRIFFELJOL_EDITION_1, _2 or _3
 *   physical, type_length, kind, p1, p2   the column type, five numbers as a row has them
 *   a, b      the bytes of the two values; they may be the same
 * Result: how a stands to b, one of GRIFFELJOL_ORDER_LESS, _EQUAL, _GREATER and _UNORDERED. Nothing is written.
 * Refusals: 21, then 20, then 17, then 15 or 16 for a, then 15 or 16 for b. griffeljol_fault tells whose it is: 0 for 21, 20 and
 * 17, 1 for a, 2 for b. That of a or b is the one that griffeljol_read gives for the value, with its place. */
uint64_t griffeljol_order(uint32_t edition, uint32_t physical, uint32_t type_length, uint32_t kind, uint32_t p1, uint32_t p2,
                          const uint8_t *a, size_t a_len, const uint8_t *b, size_t b_len);

/* Turns a timestamp's count into its date and time, by the Gregorian calendar carried both ways.
 *   unit     GRIFFELJOL_UNIT_MILLIS, _MICROS or _NANOS
 *   count    ticks since 1970-01-01 00:00:00; every count has a date and time
 *   fields   where year, month, day, hour, minute, second and fraction go
 * Result: GRIFFELJOL_FIELDS_WIDTH, the numbers written; those behind them stay.
 * Refusals: 20 for the unit, then 14 where fields_len is below GRIFFELJOL_FIELDS_WIDTH. fields stays as it was. */
uint64_t griffeljol_decode(uint32_t unit, int64_t count, int64_t *fields, size_t fields_len);

/* Turns a date and time into its timestamp's count.
 *   unit     GRIFFELJOL_UNIT_MILLIS, _MICROS or _NANOS
 *   fields   year, month, day, hour, minute, second and fraction, any number in each; what stands behind them is not read
 *   count    where the count goes
 * Result: 1, the numbers written; those behind count[0] stay.
 * Refusals: 20 for the unit, then 18, also for fewer than GRIFFELJOL_FIELDS_WIDTH fields, then 19, then 14 where count_len is 0.
 * count stays as it was. */
uint64_t griffeljol_encode(uint32_t unit, const int64_t *fields, size_t fields_len, int64_t *count, size_t count_len);

/* Turns an INT96 time into a timestamp's count in nanoseconds. It takes no edition: it is what one needs to leave INT96.
 *   value   the bytes of the INT96
 *   count   where the count goes, nanoseconds since 1970-01-01 00:00:00
 * Result: 1, the numbers written; those behind count[0] stay.
 * Refusals: 15 where value_len is not GRIFFELJOL_INT96_WIDTH, then 16 for a full day of nanoseconds, 86,400,000,000,000, or more,
 * then 19 where the count does not fit, then 14 where count_len is 0. count stays as it was. */
uint64_t griffeljol_from_int96(const uint8_t *value, size_t value_len, int64_t *count, size_t count_len);

/* Turns a timestamp's count in nanoseconds into its INT96 time, which griffeljol_from_int96 turns back into the count.
 *   count   nanoseconds since 1970-01-01 00:00:00; every count has an INT96
 *   value   where the bytes of the INT96 go
 * Result: GRIFFELJOL_INT96_WIDTH, the bytes written; those behind them stay.
 * Refusals: 14 where value_len is below GRIFFELJOL_INT96_WIDTH. value stays as it was. */
uint64_t griffeljol_to_int96(int64_t count, uint8_t *value, size_t value_len);

/* Finds the bounding box of points. It takes no edition, as griffeljol_inside.
 *   kind          GRIFFELJOL_KIND_GEOMETRY or _GEOGRAPHY
 *   coordinates   x and y of each point in turn, any doubles; coordinates_len counts the doubles and not the points
 *   box           where xmin, xmax, ymin and ymax go
 * Result: GRIFFELJOL_BOX_WIDTH, the numbers written, or 0 where there is no box and nothing is written; the numbers
 * behind the box stay. A coordinate that is a NaN is skipped, and the other one of its point still counts. Every
 * coordinate that counts lies from the least bound of its axis to the greatest, and each bound equals one of them; a
 * zero may be written with either sign. There is no box exactly where an axis has no coordinate that counts, so also
 * where there are no points.
 * Refusals: 20 for another kind, then 15 where coordinates_len is odd, then 16 where, for GEOGRAPHY, a coordinate that
 * is no NaN lies outside [-180, 180] in x or [-90, 90] in y, then 14 where there is a box and box_len is below
 * GRIFFELJOL_BOX_WIDTH. box stays as it was. */
uint64_t griffeljol_box(uint32_t kind, const double *coordinates, size_t coordinates_len, double *box, size_t box_len);

/* Tests whether a point is inside a bounding box, its bounds included.
 *   kind                     GRIFFELJOL_KIND_GEOMETRY or _GEOGRAPHY
 *   xmin, xmax, ymin, ymax   the box. Where xmin is above xmax it goes around: x is inside where it is at least xmin or
 *                            at most xmax
 *   x, y                     the point; a NaN is inside nothing
 * Result: 1 where both coordinates are inside, else 0. Nothing is written.
 * Refusals: 20 for another kind, then 16 for a box with a NaN, with ymin above ymax or, for GEOGRAPHY, with a bound
 * outside [-180, 180] in x or [-90, 90] in y, and for a point of GEOGRAPHY with a coordinate outside them that is no
 * NaN. */
uint64_t griffeljol_inside(uint32_t kind, double xmin, double xmax, double ymin, double ymax, double x, double y);

#ifdef __cplusplus
}
#endif

#endif

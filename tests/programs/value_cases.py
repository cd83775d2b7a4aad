"""Values of columns: a column type's five numbers, the value, and the line that comes. Every line is written by hand from document 01, and
from document 02's R-4, R-10 and R-11 where a line depends on the edition."""
import editions
from sheets import *

PLAIN_BOOLEAN, PLAIN_INT32, PLAIN_INT64, PLAIN_INT96 = [(physical, 0, 0, 0, 0) for physical in (BOOLEAN, INT32, INT64, INT96)]
PLAIN_FLOAT, PLAIN_DOUBLE, PLAIN_BYTES = [(physical, 0, 0, 0, 0) for physical in (FLOAT, DOUBLE, BYTE_ARRAY)]
INTERVAL_KIND = 21
MOST_BYTES = 65536


def text(kind):
    return BYTE_ARRAY, 0, kind, 0, 0


def integer(bits, signed):
    return INT64 if bits == 64 else INT32, 0, INTEGER, bits, signed


def little(number, width=4):
    return number.to_bytes(width, "little", signed=number < 0)


READ = [
    ("true", PLAIN_BOOLEAN, b"\1", "true"),
    ("false", PLAIN_BOOLEAN, b"\0", "false"),
    ("INT32 -1", PLAIN_INT32, little(-1), "-1"),
    ("the least INT32", PLAIN_INT32, little(-2**31), "-2147483648"),
    ("the greatest INT64", PLAIN_INT64, little(2**63 - 1, 8), "9223372036854775807"),
    ("the least INT64", PLAIN_INT64, little(-2**63, 8), "-9223372036854775808"),
    ("INT(8, false) of 255", integer(8, 0), little(255), "255"),
    ("INT(32, false) of all bits", integer(32, 0), b"\xff" * 4, "4294967295"),
    ("INT(64, false) of all bits", integer(64, 0), b"\xff" * 8, "18446744073709551615"),
    ("INT(8, true) of -128", integer(8, 1), little(-128), "-128"),
    ("DATE", (INT32, 0, DATE, 0, 0), little(-719528), "-719528"),
    ("the last tick of a day", (INT32, 0, TIME, MILLIS, 1), little(86399999), "86399999"),
    ("the last tick of a day in nanoseconds", (INT64, 0, TIME, NANOS, 0), little(86399999999999, 8), "86399999999999"),
    ("TIMESTAMP", (INT64, 0, TIMESTAMP, MILLIS, 0), little(-1, 8), "-1"),
    ("DECIMAL of -99 on INT32", (INT32, 0, DECIMAL, 2, 1), little(-99), "-99"),
    ("FLOAT 1", PLAIN_FLOAT, little(0x3F800000), "float 3f800000"),
    ("FLOAT -0", PLAIN_FLOAT, little(0x80000000), "float 80000000"),
    ("FLOAT, least above 0", PLAIN_FLOAT, little(1), "float 00000001"),
    ("FLOAT NaN", PLAIN_FLOAT, little(0x7FC00000), "float NaN"),
    ("FLOAT NaN of other bits", PLAIN_FLOAT, little(0xFF800001), "float NaN"),
    ("DOUBLE 1", PLAIN_DOUBLE, little(0x3FF0000000000000, 8), "double 3ff0000000000000"),
    ("DOUBLE, minus infinity", PLAIN_DOUBLE, little(0xFFF0000000000000, 8), "double fff0000000000000"),
    ("DOUBLE NaN", PLAIN_DOUBLE, b"\xff" * 8, "double NaN"),
    ("no bytes in a BYTE_ARRAY", PLAIN_BYTES, b"", "bytes 0 0"),
    ("65,536 bytes", PLAIN_BYTES, b"\xff" * MOST_BYTES, "bytes 0 65536"),
    ("STRING", text(STRING), "a\u00fc\u20ac\U0010ffff".encode(), "bytes 0 10"),
    ("no bytes in a STRING", text(STRING), b"", "bytes 0 0"),
    ("65,536 bytes of STRING", text(STRING), b"a" * MOST_BYTES, "bytes 0 65536"),
    ("BSON of any bytes", text(BSON), b"\xff", "bytes 0 1"),
    ("UUID", (FIXED, 16, UUID, 0, 0), bytes(16), "bytes 0 16"),
    ("INTERVAL", (FIXED, 12, INTERVAL_KIND, 0, 0), bytes(12), "bytes 0 12"),
    ("DECIMAL of precision 2: 63 hex", (BYTE_ARRAY, 0, DECIMAL, 2, 0), b"\x63", "bytes 0 1"),
    ("DECIMAL of 256 bytes", (BYTE_ARRAY, 0, DECIMAL, 2, 0), bytes(256), "bytes 0 256"),
]

NO_COLUMN = [  # 20
    ("physical 8", (8, 0, 0, 0, 0), b"", "refused 20 at 0"),
    ("a group", (GROUP, 0, 30, 0, 0), b"", "refused 20 at 0"),
    ("each number the greatest", (2**32 - 1,) * 5, b"", "refused 20 at 0"),
    ("kind 9", (INT32, 0, 9, 0, 0), bytes(4), "refused 20 at 0"),
    ("a type length on INT32", (INT32, 4, 0, 0, 0), bytes(4), "refused 20 at 0"),
    ("FIXED 0", (FIXED, 0, 0, 0, 0), b"", "refused 20 at 0"),
    ("STRING on INT32", (INT32, 0, STRING, 0, 0), bytes(4), "refused 20 at 0"),
    ("STRING with a parameter", (BYTE_ARRAY, 0, STRING, 0, 1), b"a", "refused 20 at 0"),
    ("precision 10 on INT32", (INT32, 0, DECIMAL, 10, 0), bytes(4), "refused 20 at 0"),
    ("precision 0", (BYTE_ARRAY, 0, DECIMAL, 0, 0), b"\0", "refused 20 at 0"),
    ("scale above precision", (INT32, 0, DECIMAL, 5, 6), bytes(4), "refused 20 at 0"),
    ("precision 3 on FIXED 1", (FIXED, 1, DECIMAL, 3, 0), b"\0", "refused 20 at 0"),
    ("TIMESTAMP on INT96", (INT96, 0, TIMESTAMP, NANOS, 1), bytes(12), "refused 20 at 0"),
    ("GEOGRAPHY of a sixth edge rule", (BYTE_ARRAY, 0, GEOGRAPHY, KARNEY + 1, 0), b"", "refused 20 at 0"),
    ("GEOGRAPHY with a second parameter", (BYTE_ARRAY, 0, GEOGRAPHY, KARNEY, 1), b"", "refused 20 at 0"),
    ("GEOMETRY with an edge rule", (BYTE_ARRAY, 0, GEOMETRY, 1, 0), b"", "refused 20 at 0"),
    ("GEOMETRY on FIXED", (FIXED, 1, GEOMETRY, 0, 0), b"\0", "refused 20 at 0"),
    ("kind 16", (BYTE_ARRAY, 0, 16, 0, 0), b"", "refused 20 at 0"),
    ("kind 19", (BYTE_ARRAY, 0, 19, 0, 0), b"", "refused 20 at 0"),
    ("kind 273, whose low byte is GEOMETRY", (BYTE_ARRAY, 0, 256 + GEOMETRY, 0, 0), b"", "refused 20 at 0"),
]

WRONG_LENGTH = [  # 15
    ("BOOLEAN of no bytes", PLAIN_BOOLEAN, b"", "refused 15 at 0"),
    ("BOOLEAN of two bytes", PLAIN_BOOLEAN, b"\1\0", "refused 15 at 0"),
    ("INT32 of three bytes", PLAIN_INT32, bytes(3), "refused 15 at 0"),
    ("INT64 of nine bytes", PLAIN_INT64, bytes(9), "refused 15 at 0"),
    ("UUID of fifteen bytes", (FIXED, 16, UUID, 0, 0), bytes(15), "refused 15 at 0"),
    ("DECIMAL of no bytes", (BYTE_ARRAY, 0, DECIMAL, 2, 0), b"", "refused 15 at 0"),
    ("DECIMAL of 257 bytes", (BYTE_ARRAY, 0, DECIMAL, 2, 0), bytes(257), "refused 15 at 0"),
    ("65,537 bytes", PLAIN_BYTES, bytes(MOST_BYTES + 1), "refused 15 at 0"),
    ("65,537 bytes, as a FIXED of that length has", (FIXED, MOST_BYTES + 1, 0, 0, 0), bytes(MOST_BYTES + 1), "refused 15 at 0"),
    ("65,537 bytes of STRING", text(STRING), b"a" * (MOST_BYTES + 1), "refused 15 at 0"),
]

BREAKS_ANNOTATION = [  # 16
    ("BOOLEAN 2", PLAIN_BOOLEAN, b"\2", "refused 16 at 0"),
    ("INT(8, false) of 256", integer(8, 0), little(256), "refused 16 at 0"),
    ("INT(8, true) of 128", integer(8, 1), little(128), "refused 16 at 0"),
    ("INT(16, true) of -32769", integer(16, 1), little(-32769), "refused 16 at 0"),
    ("one tick past the day", (INT32, 0, TIME, MILLIS, 1), little(86400000), "refused 16 at 0"),
    ("a time below 0", (INT64, 0, TIME, MICROS, 1), little(-1, 8), "refused 16 at 0"),
    ("DECIMAL of 100 in two digits", (INT32, 0, DECIMAL, 2, 1), little(100), "refused 16 at 0"),
    ("DECIMAL of precision 2: 64 hex", (BYTE_ARRAY, 0, DECIMAL, 2, 0), b"\x64", "refused 16 at 0"),
    ("UNKNOWN", (INT32, 0, UNKNOWN, 0, 0), bytes(4), "refused 16 at 0"),
    ("a text that is bad at once", text(STRING), b"\xffabc", "refused 16 at 0"),
    ("a text that goes bad at byte 5", text(STRING), b"hello\x80", "refused 16 at 5"),
    ("a text that is cut off in a sequence", text(STRING), b"ab\xe2\x82", "refused 16 at 2"),
    ("a surrogate in an ENUM", text(ENUM), b"abcdefghij\xed\xa0\x80", "refused 16 at 10"),
    ("an overlong form in a JSON", text(JSON), b'{"a":\xc0\xaf}', "refused 16 at 5"),
    ("the last byte of 65,536", text(STRING), b"a" * (MOST_BYTES - 1) + b"\xc3", "refused 16 at 65535"),
]

# "One value is checked for 20, then 15, then 16."
WHICH_COMES_FIRST = [
    ("20 before 15", (BYTE_ARRAY, 0, STRING, 1, 0), b"a" * (MOST_BYTES + 1), "refused 20 at 0"),
    ("15 before 16 under UNKNOWN", (INT32, 0, UNKNOWN, 0, 0), bytes(3), "refused 15 at 0"),
    ("15 before 16 in a text", text(STRING), b"\xff" * (MOST_BYTES + 1), "refused 15 at 0"),
]

VALUES = READ + NO_COLUMN + WRONG_LENGTH + BREAKS_ANNOTATION + WHICH_COMES_FIRST

# No accepted sheet has such a leaf.
NO_LEAF = "refused 20 at 0"


def fraction(line):
    return editions.since_second(NO_LEAF, line)


def retired(line):
    return editions.until_third(line, NO_LEAF)


def geospatial(line):
    return editions.until_third(NO_LEAF, line)


# Scale equal to precision, INT96, and GEOMETRY and GEOGRAPHY: a column type, a value, and the line of each edition.
BY_EDITION = [
    ("DECIMAL(5, 5) on INT32", (INT32, 0, DECIMAL, 5, 5), little(-99999), fraction("-99999")),
    ("DECIMAL(18, 18) on INT64", (INT64, 0, DECIMAL, 18, 18), little(1, 8), fraction("1")),
    ("DECIMAL(2, 2) on FIXED 1", (FIXED, 1, DECIMAL, 2, 2), b"\x63", fraction("bytes 0 1")),
    ("DECIMAL(2, 2) on BYTE_ARRAY", (BYTE_ARRAY, 0, DECIMAL, 2, 2), b"\0\x63", fraction("bytes 0 2")),
    ("DECIMAL(2, 2) of 64 hex", (BYTE_ARRAY, 0, DECIMAL, 2, 2), b"\x64", fraction("refused 16 at 0")),
    ("DECIMAL(2, 2) of no bytes", (BYTE_ARRAY, 0, DECIMAL, 2, 2), b"", fraction("refused 15 at 0")),
    ("INT96", PLAIN_INT96, b"\xff" * 12, retired("bytes 0 12")),
    ("INT96 of eleven bytes", PLAIN_INT96, bytes(11), retired("refused 15 at 0")),
    ("UNKNOWN on INT96", (INT96, 0, UNKNOWN, 0, 0), bytes(12), retired("refused 16 at 0")),
    ("UNKNOWN on INT96 of no bytes", (INT96, 0, UNKNOWN, 0, 0), b"", retired("refused 15 at 0")),
    ("GEOMETRY of bytes that are no text", text(GEOMETRY), b"\xff\x80", geospatial("bytes 0 2")),
    ("GEOMETRY of no bytes", text(GEOMETRY), b"", geospatial("bytes 0 0")),
    ("GEOMETRY of 65,537 bytes", text(GEOMETRY), bytes(MOST_BYTES + 1), geospatial("refused 15 at 0")),
    *[(f"GEOGRAPHY of edge rule {edge_rule}", (BYTE_ARRAY, 0, GEOGRAPHY, edge_rule, 0), b"\xff", geospatial("bytes 0 1"))
      for edge_rule in EDGE_RULES],
]

# An edition that is unknown comes before every other refusal, whatever the column type and the value are.
UNKNOWN_EDITION = [
    (f"edition {edition!r}, {name}", (edition, *column), value, editions.REFUSAL)
    for edition in editions.UNKNOWN
    for name, column, value in [
        ("a value that is read", PLAIN_BOOLEAN, b"\1"),
        ("no column type", (8, 0, 0, 0, 0), b""),
        ("a wrong length", PLAIN_INT32, b""),
    ]
]

USAGE = b"usage: column_values [EDITION] PHYSICAL TYPE_LENGTH KIND P1 P2 < VALUE\n"
ODD_ARGUMENTS = [
    ("none", []),
    ("an edition alone", ["1"]),
    ("four", ["1", "0", "0", "0"]),
    ("seven", ["1", "1", "0", "0", "0", "0", "0"]),
    ("an empty one", ["1", "0", "0", "0", ""]),
    ("a word", ["INT32", "0", "0", "0", "0"]),
    ("a sign before a number", ["+1", "0", "0", "0", "0"]),
    ("a number below 0", ["1", "-1", "0", "0", "0"]),
    ("a space behind a number", ["1 ", "0", "0", "0", "0"]),
    ("hexadecimal digits", ["0x1", "0", "0", "0", "0"]),
    ("one past 32 bits", ["1", "0", "0", "0", "4294967296"]),
    ("one past 64 bits", ["18446744073709551617", "0", "0", "0", "0"]),
    ("seventeen digits", ["1", "0", "0", "0", "0" * 17]),
    ("an edition and an empty one", ["2", "1", "0", "0", "0", ""]),
    ("an edition and a word", ["1", "INT32", "0", "0", "0", "0"]),
    ("an edition and one past 32 bits", ["2", "1", "0", "0", "0", "4294967296"]),
]

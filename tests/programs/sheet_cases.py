"""Sheets that are refused in every edition, each with the line that document 01's table gives, sheets that are accepted in every edition,
and sheets that the editions answer otherwise than one another.

Refusals 1 to 4 are those of opening, which every program makes; 5 to 13 are of the tree, which `sheet_slots` does not judge. 14 cannot
occur: the programs hold output for the greatest sheet.
"""
from editions import since_second, until_third
from sheets import *

EXAMPLE = sheet(root(list_of(layer(leaf(BYTE_ARRAY, repetition=OPTIONAL, converted=UTF8, name=b"element")))))
# 17 nodes in three blocks, of which the last has the unused slots 17 to 20.
WIDE = sheet(root(*[leaf()] * 16))
# 65,536 bytes: 128 blocks, 896 nodes.
GREATEST = sheet(root(*[leaf()] * (MOST_NODES - 1)))


def chain(length, bottom):
    """So many groups, one in the other, and a node in the last."""
    return group(chain(length - 1, bottom)) if length else bottom


# A root with a name for which the check is 0.
CHECK_ZERO = sheet(root(name=b"check zero aagsa"))


LENGTH = [  # 1
    ("no bytes", b"", "refused 1 at 0"),
    ("one byte", b"\0", "refused 1 at 0"),
    ("511 bytes", EXAMPLE[:511], "refused 1 at 0"),
    ("513 bytes", EXAMPLE + b"\0", "refused 1 at 0"),
    ("65,535 bytes", GREATEST[:-1], "refused 1 at 0"),
    ("65,537 bytes", GREATEST + b"\0", "refused 1 at 0"),
    ("129 blocks", sheet(root(*[leaf()] * MOST_NODES)), "refused 1 at 0"),
    ("513 bytes and a bad check", put(EXAMPLE, 30, 1) + b"\0", "refused 1 at 0"),
]

BLOCK_CHECK = [  # 2
    ("a header's byte changed in block 0", put(WIDE, 3, 2), "refused 2 at 0"),
    ("a check's low byte changed in block 1", put(WIDE, in_block(1, 510), WIDE[in_block(1, 510)] ^ 1), "refused 2 at 1"),
    ("a check's high byte changed in block 2", put(WIDE, in_block(2, 511), WIDE[in_block(2, 511)] ^ 128), "refused 2 at 2"),
    ("a name's byte changed in block 127", put(GREATEST, in_slot(895, 24), 9), "refused 2 at 127"),
    ("blocks 1 and 2 changed: the first counts", put(put(WIDE, in_block(1, 9), 1), in_block(2, 9), 1), "refused 2 at 1"),
    ("a check of 65,521 where 0 is right", put(CHECK_ZERO, 510, 0xF1, 0xFF), "refused 2 at 0"),
    ("byte 509 alone is 255, and no check", bytes(509) + b"\xff\0\0", "refused 2 at 0"),
]

BLOCK_HEADER = [  # 3
    ("all zero but byte 509, with its check 64,529", bytes(509) + b"\xff" + (64529).to_bytes(2, "little"), "refused 3 at 0"),
    ("T is 0", change(EXAMPLE, 4, 0, 0), "refused 3 at 0"),
    ("T is 897 in 128 blocks", change(GREATEST, 4, 897 & 255, 897 >> 8), "refused 3 at 0"),
    ("T needs one block more", change(WIDE, 4, 22, 0), "refused 3 at 0"),
    ("T needs one block less", change(WIDE, 4, 14, 0), "refused 3 at 0"),
    ("block 1 says block 2", change(WIDE, in_block(1, 0), 2, 0), "refused 3 at 1"),
    ("block 1 says block 257", change(WIDE, in_block(1, 1), 1), "refused 3 at 1"),
    ("block 1 says 6 nodes", change(WIDE, in_block(1, 2), 6), "refused 3 at 1"),
    ("the last block says 7 nodes", change(WIDE, in_block(2, 2), 7), "refused 3 at 2"),
    ("block 2 has version 2", change(WIDE, in_block(2, 3), 2), "refused 3 at 2"),
    ("block 2 has another T", change(WIDE, in_block(2, 4), 18), "refused 3 at 2"),
    ("block 127 has version 0", change(GREATEST, in_block(127, 3), 0), "refused 3 at 127"),
    ("two blocks exchanged", WIDE[:512] + WIDE[1024:] + WIDE[512:1024], "refused 3 at 1"),
]

SLOT_CODES = [  # 4
    ("physical 8 at the root", change(WIDE, in_slot(0, 0), 8), "refused 4 at 0"),
    ("physical 254 in block 1", change(WIDE, in_slot(9, 0), 254), "refused 4 at 9"),
    ("repetition 3", change(WIDE, in_slot(7, 1), 3), "refused 4 at 7"),
    ("converted 22", change(WIDE, in_slot(13, 2), 22), "refused 4 at 13"),
    ("logical 9", change(WIDE, in_slot(14, 3), 9), "refused 4 at 14"),
    ("logical 15", change(WIDE, in_slot(16, 3), 15), "refused 4 at 16"),
    ("logical 16", change(WIDE, in_slot(6, 3), 16), "refused 4 at 6"),
    ("logical 19", change(WIDE, in_slot(10, 3), 19), "refused 4 at 10"),
    ("name length 0", sheet(root(leaf(), leaf(name=b""))), "refused 4 at 2"),
    ("name length 49", sheet(root(leaf(), leaf(), leaf(name=b"n" * 48, name_length=49))), "refused 4 at 3"),
    ("byte 21 not zero", change(WIDE, in_slot(8, 21), 1), "refused 4 at 8"),
    ("byte 23 not zero", change(WIDE, in_slot(8, 23), 1), "refused 4 at 8"),
    ("a byte past the name not zero", change(WIDE, in_slot(15, 25), 1), "refused 4 at 15"),
    ("the last byte past the name not zero", change(WIDE, in_slot(11, 71), 1), "refused 4 at 11"),
    ("the first unused slot not zero", change(WIDE, in_slot(17, 0), 1), "refused 4 at 17"),
    ("the last unused slot not zero", change(WIDE, in_slot(20, 71), 1), "refused 4 at 20"),
    ("the last node of the greatest sheet", change(GREATEST, in_slot(895, 2), 100), "refused 4 at 895"),
]

MISSING_NODES = [  # 5
    ("a root alone that claims a child", sheet(root(claims=1)), "refused 5 at 1"),
    ("a root that claims one child too many", sheet(root(*[leaf()] * 16, claims=17)), "refused 5 at 17"),
    ("a last leaf that claims a child", sheet(root(leaf(), leaf(claims=1))), "refused 5 at 3"),
    ("the greatest child count, in the greatest sheet", sheet(root(*[leaf()] * 895, claims=65535)), "refused 5 at 896"),
]

NODES_LEFT_OVER = [  # 6
    ("a root without children, and a leaf", sheet(root() + leaf()), "refused 6 at 1"),
    ("a root with 2 children of 16", sheet(root(*[leaf()] * 16, claims=2)), "refused 6 at 3"),
    ("a tree that ends in block 1", sheet(root(*[leaf()] * 9) + group(leaf()) + leaf()), "refused 6 at 10"),
    ("the last node alone", sheet(root(*[leaf()] * 895, claims=894)), "refused 6 at 895"),
]

TOO_DEEP = [  # 7
    ("a leaf at depth 33", sheet(root(chain(32, leaf()))), "refused 7 at 33"),
    ("a group at depth 33, and more below", sheet(root(chain(40, leaf()))), "refused 7 at 33"),
    ("depth 33 behind two leaves", sheet(root(leaf(), leaf(), chain(32, leaf()))), "refused 7 at 35"),
    ("depth 32 twice, then 33", sheet(root(chain(31, leaf()), chain(31, leaf()), chain(32, leaf()))), "refused 7 at 97"),
]

SHAPE = [  # 8
    ("the root is a leaf", sheet(leaf(repetition=NO_REPETITION)), "refused 8 at 0"),
    ("the root has a repetition", sheet(root(leaf(), repetition=REQUIRED)), "refused 8 at 0"),
    ("the root has a converted type", sheet(root(leaf(), converted=C_LIST)), "refused 8 at 0"),
    ("the root has a logical type", sheet(root(leaf(), logical=MAP)), "refused 8 at 0"),
    ("a leaf without repetition", behind(leaf(repetition=NO_REPETITION)), "refused 8 at 10"),
    ("a leaf with a child", behind(leaf(INT32, leaf())), "refused 8 at 10"),
    ("a group without children", behind(group()), "refused 8 at 10"),
    ("a type length on INT32", behind(leaf(type_length=4)), "refused 8 at 10"),
    ("a type length on a group", behind(group(leaf(), type_length=1)), "refused 8 at 10"),
    ("FIXED of length 0", behind(leaf(FIXED)), "refused 8 at 10"),
    ("FIXED of length -1", behind(leaf(FIXED, type_length=-1)), "refused 8 at 10"),
    ("a scale without DECIMAL", behind(leaf(), leaf(scale=1)), "refused 8 at 11"),
    ("a precision without DECIMAL", behind(leaf(), leaf(precision=-1)), "refused 8 at 11"),
]

DISAGREEMENT = [  # 9
    ("UTF8 beside JSON", behind(leaf(BYTE_ARRAY, converted=UTF8, logical=JSON)), "refused 9 at 10"),
    ("TIME_MILLIS beside TIME(NANOS)", behind(leaf(INT64, converted=TIME_MILLIS, logical=TIME, a=NANOS)), "refused 9 at 10"),
    ("INT_8 beside INT(16, true)", behind(leaf(converted=INT_8, logical=INTEGER, a=16, b=1)), "refused 9 at 10"),
    ("UINT_8 beside INT(8, true)", behind(leaf(), leaf(converted=UINT_8, logical=INTEGER, a=8, b=1)), "refused 9 at 11"),
    ("UTF8 beside STRING with a parameter", behind(leaf(BYTE_ARRAY, converted=UTF8, logical=STRING, a=1)), "refused 9 at 10"),
    ("MAP_KEY_VALUE beside MAP", behind(map_of(layer(leaf()), converted=MAP_KEY_VALUE)), "refused 9 at 10"),
    ("UTF8 beside UUID, in the last of 896 nodes", sheet(root(*[leaf()] * 894, leaf(FIXED, type_length=16, converted=UTF8, logical=UUID))),
     "refused 9 at 895"),
]

MISPLACED = [  # 10
    ("a parameter at the root", sheet(root(leaf(), a=1)), "refused 10 at 0"),
    ("a parameter without a logical type", behind(leaf(b=1)), "refused 10 at 10"),
    ("STRING on INT32", behind(leaf(logical=STRING)), "refused 10 at 10"),
    ("UUID on FIXED 15", behind(leaf(FIXED, type_length=15, logical=UUID)), "refused 10 at 10"),
    ("INTERVAL on FIXED 16", behind(leaf(FIXED, type_length=16, converted=INTERVAL)), "refused 10 at 10"),
    ("DATE on INT64", behind(leaf(INT64, converted=C_DATE)), "refused 10 at 10"),
    ("INT 64 on INT32", behind(leaf(logical=INTEGER, a=64, b=1)), "refused 10 at 10"),
    ("INT of 24 bits", behind(leaf(logical=INTEGER, a=24, b=1)), "refused 10 at 10"),
    ("INT with a sign of 2", behind(leaf(logical=INTEGER, a=32, b=2)), "refused 10 at 10"),
    ("TIME in unit 4", behind(leaf(INT64, logical=TIME, a=4, b=1)), "refused 10 at 10"),
    ("TIME(MILLIS) on INT64", behind(leaf(INT64, logical=TIME, a=MILLIS)), "refused 10 at 10"),
    ("TIMESTAMP on INT96", behind(leaf(), leaf(INT96, logical=TIMESTAMP, a=NANOS)), "refused 10 at 11"),
    ("LIST on a leaf", behind(leaf(), leaf(converted=C_LIST)), "refused 10 at 11"),
    ("UNKNOWN on a group", behind(leaf(), group(leaf(), logical=UNKNOWN)), "refused 10 at 11"),
    ("DECIMAL on FLOAT", behind(leaf(FLOAT, logical=DECIMAL, precision=2)), "refused 10 at 10"),
]

DIGITS = [  # 11
    ("precision 10 on INT32", behind(leaf(converted=C_DECIMAL, precision=10)), "refused 11 at 10"),
    ("precision 19 on INT64", behind(leaf(INT64, logical=DECIMAL, precision=19)), "refused 11 at 10"),
    ("precision 3 on FIXED 1", behind(leaf(FIXED, type_length=1, logical=DECIMAL, precision=3)), "refused 11 at 10"),
    ("FIXED 257", behind(leaf(FIXED, type_length=257, logical=DECIMAL, precision=1)), "refused 11 at 10"),
    ("precision 0", behind(leaf(), leaf(logical=DECIMAL)), "refused 11 at 11"),
    ("scale above precision", behind(leaf(), leaf(logical=DECIMAL, precision=5, scale=6)), "refused 11 at 11"),
    ("precision 10 and scale 10 on INT32", behind(leaf(converted=C_DECIMAL, precision=10, scale=10)), "refused 11 at 10"),
    ("scale -1", behind(leaf(), leaf(BYTE_ARRAY, logical=DECIMAL, precision=5, scale=-1)), "refused 11 at 11"),
]

LIST_STRUCTURE = [  # 12
    ("a repeated LIST", behind(list_of(layer(leaf()), repetition=REPEATED)), "refused 12 at 10"),
    ("a LIST of two children", behind(list_of(layer(leaf()), layer(leaf()))), "refused 12 at 10"),
    ("a LIST whose child is not repeated", behind(list_of(group(leaf()))), "refused 12 at 10"),
    ("a LIST whose layer has no fields", behind(list_of(layer())), "refused 12 at 10"),
    ("a LIST whose element has no repetition", behind(leaf(), list_of(layer(leaf(repetition=NO_REPETITION)))), "refused 12 at 11"),
    ("a LIST in an optional group", behind(group(list_of(leaf()), repetition=OPTIONAL)), "refused 12 at 11"),
]

MAP_STRUCTURE = [  # 13
    ("a repeated MAP", behind(map_of(layer(leaf()), repetition=REPEATED)), "refused 13 at 10"),
    ("a MAP of two children", behind(map_of(layer(leaf()), layer(leaf()))), "refused 13 at 10"),
    ("a MAP whose layer is a leaf", behind(map_of(leaf(repetition=REPEATED))), "refused 13 at 10"),
    ("a MAP whose layer is not repeated", behind(map_of(group(leaf()))), "refused 13 at 10"),
    ("a MAP with a third field", behind(map_of(layer(leaf(), leaf(), leaf()))), "refused 13 at 10"),
    ("a MAP with an optional key", behind(leaf(), map_of(layer(leaf(repetition=OPTIONAL)))), "refused 13 at 11"),
    ("a MAP with a repeated value", behind(leaf(), map_of(layer(leaf(), leaf(repetition=REPEATED)))), "refused 13 at 11"),
    ("MAP_KEY_VALUE outside a MAP", behind(group(leaf(), converted=MAP_KEY_VALUE)), "refused 13 at 10"),
]

# Where two refusals hold: 1 to 7 in their order over the whole sheet, then 8 to 13 node by node, at one node in number order.
WHICH_COMES_FIRST = [
    ("2 in block 2 before 3 in block 1 and 4 in block 0",
     put(change(change(WIDE, in_slot(0, 0), 8), in_block(1, 3), 2), in_block(2, 9), 1), "refused 2 at 2"),
    ("3 in block 2 before 4 in block 0", change(change(WIDE, in_slot(0, 0), 8), in_block(2, 3), 2), "refused 3 at 2"),
    ("4 in an unused slot before 5", change(sheet(root(*[leaf()] * 8, claims=9)), in_slot(12, 0), 1), "refused 4 at 12"),
    ("4 at the last node before 6", change(sheet(root(*[leaf()] * 8, claims=2)), in_slot(8, 1), 3), "refused 4 at 8"),
    ("6, though later children would fill the sheet", sheet(root() + group(leaf(), claims=9)), "refused 6 at 1"),
    ("6 before 7", sheet(root(chain(32, leaf())) + leaf()), "refused 6 at 34"),
    ("5 before 7", sheet(root(chain(32, leaf()), claims=2)), "refused 5 at 34"),
    ("7 before 8 at the root", sheet(root(chain(32, leaf()), repetition=REQUIRED)), "refused 7 at 33"),
    ("13 at node 10 before 8 at node 13", behind(map_of(layer(leaf(repetition=OPTIONAL))), group()), "refused 13 at 10"),
    ("11 at node 10 before 9 at node 11", behind(leaf(converted=C_DECIMAL), leaf(converted=UTF8, logical=JSON)), "refused 11 at 10"),
    ("12 at the LIST before 8 at its layer", behind(list_of(layer())), "refused 12 at 10"),
    ("8 before 9 at one node", behind(leaf(type_length=1, converted=UTF8, logical=JSON)), "refused 8 at 10"),
    ("9 before 10 at one node", behind(leaf(converted=UTF8, logical=JSON)), "refused 9 at 10"),
    ("10 before 11 at one node", behind(leaf(FLOAT, converted=C_DECIMAL)), "refused 10 at 10"),
    ("8 before 12 at one node", behind(list_of(layer(leaf()), repetition=NO_REPETITION)), "refused 8 at 10"),
    ("9 before 12 at one node", behind(list_of(layer(leaf()), repetition=REPEATED, logical=MAP)), "refused 9 at 10"),
    ("10 before 13 at one node", behind(map_of(layer(leaf()), repetition=REPEATED, a=1)), "refused 10 at 10"),
    ("8 before INT96's 10 at one node", behind(leaf(INT96, type_length=12)), "refused 8 at 10"),
    ("9 before INT96's 10 at one node", behind(leaf(INT96, converted=UTF8, logical=UNKNOWN)), "refused 9 at 10"),
    ("6 before INT96's 10", sheet(root(leaf(INT96), leaf(), claims=1)), "refused 6 at 2"),
    ("8 at node 10 before INT96's 10 at node 11", behind(leaf(type_length=1), leaf(INT96)), "refused 8 at 10"),
]

REFUSED = (LENGTH + BLOCK_CHECK + BLOCK_HEADER + SLOT_CODES + MISSING_NODES + NODES_LEFT_OVER + TOO_DEEP
           + SHAPE + DISAGREEMENT + MISPLACED + DIGITS + LIST_STRUCTURE + MAP_STRUCTURE + WHICH_COMES_FIRST)

# What the editions answer otherwise than one another: the line of each, or none where it accepts the sheet.
ACCEPTS = None


def fraction(line):
    return since_second(line, ACCEPTS)


def retired(line):
    return until_third(ACCEPTS, line)


def geospatial(**numbers):
    return leaf(**dict(physical=BYTE_ARRAY, logical=GEOGRAPHY, a=KARNEY) | numbers)


# Document 02, R-4: scale equal to precision, in each form of a DECIMAL; R-10: INT96 leaves; R-11: GEOMETRY and GEOGRAPHY.
FRACTION = dict(logical=DECIMAL, precision=5, scale=5)
BY_EDITION = [
    ("scale equal to precision", behind(leaf(), leaf(**FRACTION)), fraction("refused 11 at 11")),
    ("scale equal to precision on INT64", behind(leaf(INT64, converted=C_DECIMAL, precision=18, scale=18)), fraction("refused 11 at 10")),
    ("scale equal to precision on FIXED", behind(leaf(FIXED, type_length=1, logical=DECIMAL, precision=2, scale=2)),
     fraction("refused 11 at 10")),
    ("scale equal to precision on BYTE_ARRAY",
     behind(leaf(BYTE_ARRAY, converted=C_DECIMAL, logical=DECIMAL, precision=2**31 - 1, scale=2**31 - 1)), fraction("refused 11 at 10")),
    ("scale equal to precision twice", behind(group(leaf(**FRACTION)), leaf(**FRACTION)), fraction("refused 11 at 11")),
    ("one fraction", sheet(root(leaf(**FRACTION))), fraction("refused 11 at 1")),
    ("one INT96", sheet(root(leaf(INT96))), retired("refused 10 at 1")),
    ("INT96 of each repetition", behind(leaf(), *[leaf(INT96, repetition=one) for one in (OPTIONAL, REPEATED, REQUIRED)]),
     retired("refused 10 at 11")),
    ("UNKNOWN on INT96", behind(leaf(INT96, logical=UNKNOWN)), retired("refused 10 at 10")),
    ("INT96 as a list's layer", behind(list_of(leaf(INT96, repetition=REPEATED))), retired("refused 10 at 11")),
    ("INT96 as a list's element", behind(list_of(layer(leaf(INT96)))), retired("refused 10 at 12")),
    ("INT96 as a map's key", behind(map_of(layer(leaf(INT96), leaf()))), retired("refused 10 at 12")),
    ("INT96 as a map's value", behind(map_of(layer(leaf(), leaf(INT96)))), retired("refused 10 at 13")),
    ("INT96 at node 895", sheet(root(*[leaf()] * (MOST_NODES - 2), leaf(INT96))), retired("refused 10 at 895")),
    ("INT96 behind scale equal to precision", behind(leaf(**FRACTION), leaf(INT96)),
     ("refused 11 at 10", ACCEPTS, "refused 10 at 11")),
    ("INT96 before scale equal to precision", behind(leaf(INT96), leaf(**FRACTION)),
     ("refused 11 at 11", ACCEPTS, "refused 10 at 10")),
    ("INT96 at node 10 before 8 at node 11", behind(leaf(INT96), leaf(type_length=1)),
     until_third("refused 8 at 11", "refused 10 at 10")),
    ("INT96 at node 10 before 12 at node 11", behind(leaf(INT96), list_of(leaf())), until_third("refused 12 at 11", "refused 10 at 10")),
    ("INT96 before 8 at INT96", behind(leaf(INT96), leaf(INT96, type_length=12)), until_third("refused 8 at 11", "refused 10 at 10")),
    ("one GEOMETRY", sheet(root(geospatial(logical=GEOMETRY, a=0))), until_third("refused 4 at 1", ACCEPTS)),
    ("GEOGRAPHY of each edge rule", behind(*[geospatial(a=edge_rule) for edge_rule in EDGE_RULES]),
     until_third("refused 4 at 10", ACCEPTS)),
    ("GEOGRAPHY of each repetition", behind(leaf(), *[geospatial(repetition=one) for one in (OPTIONAL, REPEATED, REQUIRED)]),
     until_third("refused 4 at 11", ACCEPTS)),
    ("GEOGRAPHY of a sixth edge rule", behind(geospatial(a=KARNEY + 1)), until_third("refused 4 at 10", "refused 10 at 10")),
    ("GEOGRAPHY with a second parameter", behind(geospatial(b=1)), until_third("refused 4 at 10", "refused 10 at 10")),
    ("GEOMETRY with an edge rule", behind(geospatial(logical=GEOMETRY, a=1)), until_third("refused 4 at 10", "refused 10 at 10")),
    ("GEOMETRY on FIXED", behind(geospatial(physical=FIXED, type_length=21, logical=GEOMETRY, a=0)),
     until_third("refused 4 at 10", "refused 10 at 10")),
    ("GEOGRAPHY on INT32", behind(geospatial(physical=INT32)), until_third("refused 4 at 10", "refused 10 at 10")),
    ("GEOMETRY on a group", behind(group(leaf(), logical=GEOMETRY)), until_third("refused 4 at 10", "refused 10 at 10")),
    ("GEOMETRY at the root", sheet(root(leaf(), logical=GEOMETRY)), until_third("refused 4 at 0", "refused 8 at 0")),
    ("UTF8 beside GEOMETRY", behind(geospatial(converted=UTF8, logical=GEOMETRY, a=0)), until_third("refused 4 at 10", "refused 9 at 10")),
    ("BSON beside GEOGRAPHY of a sixth edge rule", behind(geospatial(converted=C_BSON, a=KARNEY + 1)),
     until_third("refused 4 at 10", "refused 9 at 10")),
    ("a type length on GEOGRAPHY", behind(geospatial(type_length=21)), until_third("refused 4 at 10", "refused 8 at 10")),
    ("GEOGRAPHY as a list's element", behind(list_of(layer(geospatial()))), until_third("refused 4 at 12", ACCEPTS)),
    ("GEOGRAPHY as a map's key", behind(map_of(layer(geospatial(), leaf()))), until_third("refused 4 at 12", ACCEPTS)),
    ("GEOGRAPHY at node 895", sheet(root(*[leaf()] * (MOST_NODES - 2), geospatial())), until_third("refused 4 at 895", ACCEPTS)),
    ("8 at node 10 before GEOGRAPHY at node 11", behind(leaf(type_length=1), geospatial()),
     until_third("refused 4 at 11", "refused 8 at 10")),
    ("INT96 before GEOGRAPHY", behind(leaf(INT96), geospatial()), until_third("refused 4 at 11", "refused 10 at 10")),
    ("GEOGRAPHY behind scale equal to precision", behind(leaf(**FRACTION), geospatial()), until_third("refused 4 at 11", ACCEPTS)),
    ("a node left over behind GEOGRAPHY", sheet(root(geospatial(), leaf(), claims=1)), until_third("refused 4 at 1", "refused 6 at 2")),
]

# A column, its annotation, and its annotation once rewritten.
FIXED_12, FIXED_16 = dict(physical=FIXED, type_length=12), dict(physical=FIXED, type_length=16)
ON_INT32, ON_INT64, ON_BYTES = dict(physical=INT32), dict(physical=INT64), dict(physical=BYTE_ARRAY)
REWRITTEN_AS = [
    (ON_BYTES, dict(converted=UTF8), dict(converted=UTF8, logical=STRING)),
    (ON_BYTES, dict(logical=STRING), dict(converted=UTF8, logical=STRING)),
    (ON_BYTES, dict(converted=C_ENUM), dict(converted=C_ENUM, logical=ENUM)),
    (ON_BYTES, dict(logical=JSON), dict(converted=C_JSON, logical=JSON)),
    (ON_BYTES, dict(converted=C_BSON), dict(converted=C_BSON, logical=BSON)),
    (FIXED_16, dict(logical=UUID), dict(logical=UUID)),
    (FIXED_12, dict(converted=INTERVAL), dict(converted=INTERVAL)),
    (ON_INT32, dict(converted=C_DATE), dict(converted=C_DATE, logical=DATE)),
    (ON_INT32, dict(converted=UINT_8), dict(converted=UINT_8, logical=INTEGER, a=8, b=0)),
    (ON_INT32, dict(logical=INTEGER, a=16, b=1), dict(converted=INT_16, logical=INTEGER, a=16, b=1)),
    (ON_INT64, dict(converted=UINT_64), dict(converted=UINT_64, logical=INTEGER, a=64, b=0)),
    (ON_INT32, dict(converted=TIME_MILLIS), dict(converted=TIME_MILLIS, logical=TIME, a=MILLIS, b=1)),
    (ON_INT64, dict(logical=TIME, a=MICROS, b=0), dict(converted=TIME_MICROS, logical=TIME, a=MICROS, b=0)),
    (ON_INT64, dict(logical=TIME, a=NANOS, b=1), dict(logical=TIME, a=NANOS, b=1)),
    (ON_INT64, dict(converted=TIMESTAMP_MICROS), dict(converted=TIMESTAMP_MICROS, logical=TIMESTAMP, a=MICROS, b=1)),
    (ON_INT64, dict(logical=TIMESTAMP, a=NANOS), dict(logical=TIMESTAMP, a=NANOS)),
    (ON_INT32, dict(logical=UNKNOWN), dict(logical=UNKNOWN)),
    (ON_INT32 | dict(precision=9, scale=2), dict(converted=C_DECIMAL), dict(converted=C_DECIMAL, logical=DECIMAL)),
    (ON_INT32, dict(), dict()),
]
BEFORE = sheet(root(*[node(repetition=OPTIONAL, **column, **before) for column, before, _ in REWRITTEN_AS]))
AFTER = sheet(root(*[node(repetition=OPTIONAL, **column, **after) for column, _, after in REWRITTEN_AS]))


def lists_and_maps(alone):
    """LISTs and MAPs of each structure, their annotations alone or both."""
    as_list = dict(converted=C_LIST) if alone else dict(converted=C_LIST, logical=LIST)
    as_map = dict(logical=MAP) if alone else dict(converted=C_MAP, logical=MAP)
    return sheet(root(
        list_of(leaf(repetition=REPEATED), **as_list),
        list_of(layer(leaf(), leaf()), **as_list),
        list_of(layer(leaf(), name=b"array"), repetition=OPTIONAL, **as_list),
        list_of(layer(leaf(), name=b"parts_tuple"), **as_list),
        list_of(layer(leaf(), name=b"other_tuple"), **as_list),
        list_of(layer(leaf(repetition=REPEATED)), **as_list),
        map_of(layer(leaf(), name=b"key_value"), **as_map),
        map_of(layer(leaf(), leaf(repetition=OPTIONAL), **dict(converted=MAP_KEY_VALUE) if alone else {}), **as_map),
        group(layer(leaf(), leaf()), **dict(converted=MAP_KEY_VALUE) if alone else as_map),
        leaf(repetition=REPEATED),
        group(leaf(repetition=REPEATED), repetition=REPEATED),
    ))


ACCEPTED = [
    ("a root alone", sheet(root())),
    ("document 01's example", EXAMPLE),
    ("seven nodes, so one block", sheet(root(*[leaf()] * 6))),
    ("eight nodes, so two", sheet(root(*[leaf()] * 7))),
    ("names of 48 bytes, of 255 and of 0", sheet(root(leaf(name=bytes(range(208, 256))), leaf(name=b"\0")))),
    ("a leaf at depth 32", sheet(root(chain(31, leaf())))),
    ("a check of 0", CHECK_ZERO),
    ("each annotation, alone", BEFORE),
    ("each annotation, both where there are", AFTER),
    ("lists and maps, annotations alone", lists_and_maps(alone=True)),
    ("lists and maps, both annotations", lists_and_maps(alone=False)),
    ("896 nodes in one run", GREATEST),
    ("896 nodes, 28 times 32 deep, one more", sheet(root(*[chain(31, leaf())] * 27, chain(30, leaf())))),
]

# What stands where, written by hand: the rows of the example, with the levels of document 02's R-8, and rewritten sheets.
EXAMPLE_ROWS = b"""nodes 4
255 0 255 30 0 0 0 4 0 0 0
255 0 0 3 0 0 0 4 0 0 0
255 0 2 30 0 0 1 4 1 1 1
6 0 1 1 0 0 2 4 2 2 1
"""
EXAMPLE_SLOTS = b"""255 255 255 0 0 0 1 0 0 0 1 30 1
255 0 3 0 0 0 1 0 0 0 5 102 5
255 2 255 0 0 0 1 0 0 0 4 174 4
6 1 0 0 0 0 0 0 0 0 7 246 7
"""
BY_HAND = [
    ("schema_rows", "document 01's example", EXAMPLE_ROWS),
    ("sheet_slots", "document 01's example", EXAMPLE_SLOTS),
    ("schema_rewrite", "each annotation, alone", AFTER),
    ("schema_rewrite", "each annotation, both where there are", AFTER),
    ("schema_rewrite", "lists and maps, annotations alone", lists_and_maps(alone=False)),
    ("schema_rewrite", "lists and maps, both annotations", lists_and_maps(alone=False)),
    ("schema_rewrite", "896 nodes in one run", GREATEST),
]
BY_HAND_SINCE_SECOND = [
    ("schema_rows", "one fraction", b"nodes 2\n255 0 255 30 0 0 0 2 0 0 0\n1 0 0 5 5 5 0 2 0 0 0\n"),
    ("schema_rewrite", "one fraction", sheet(root(leaf(converted=C_DECIMAL, **FRACTION)))),
]
BY_HAND_UNTIL_THIRD = [
    ("schema_rows", "one INT96", b"nodes 2\n255 0 255 30 0 0 0 2 0 0 0\n3 0 0 0 0 0 0 2 0 0 0\n"),
    ("schema_rewrite", "one INT96", sheet(root(leaf(INT96)))),
]
BY_HAND_SINCE_THIRD = [
    ("schema_rows", "one GEOMETRY", b"nodes 2\n255 0 255 30 0 0 0 2 0 0 0\n6 0 0 17 0 0 0 2 0 0 0\n"),
    ("schema_rewrite", "one GEOMETRY", sheet(root(geospatial(logical=GEOMETRY, a=0)))),
    ("schema_rewrite", "GEOGRAPHY of each edge rule", behind(*[geospatial(a=edge_rule) for edge_rule in EDGE_RULES])),
]

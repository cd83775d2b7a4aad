"""Sheets made from slots, by document 01's layout and apart from every reader.

A node is written as a call, its fields inside it, and is the list of the slots of its listing: `root(leaf(INT32), group(leaf(FLOAT)))`.
"""
import struct

BLOCK, HEADER, SLOT, SLOTS_IN_BLOCK, CHECK = 512, 6, 72, 7, 510
MOST_NODES = 896

BOOLEAN, INT32, INT64, INT96, FLOAT, DOUBLE, BYTE_ARRAY, FIXED, GROUP = *range(8), 255
REQUIRED, OPTIONAL, REPEATED = range(3)
NO_REPETITION = NO_CONVERTED = 255
NO_LOGICAL = 0
(UTF8, C_MAP, MAP_KEY_VALUE, C_LIST, C_ENUM, C_DECIMAL, C_DATE, TIME_MILLIS, TIME_MICROS, TIMESTAMP_MILLIS, TIMESTAMP_MICROS,
 UINT_8, UINT_16, UINT_32, UINT_64, INT_8, INT_16, INT_32, INT_64, C_JSON, C_BSON, INTERVAL) = range(22)
STRING, MAP, LIST, ENUM, DECIMAL, DATE, TIME, TIMESTAMP = range(1, 9)
INTEGER, UNKNOWN, JSON, BSON, UUID = range(10, 15)
GEOMETRY, GEOGRAPHY = 17, 18
MILLIS, MICROS, NANOS = 1, 2, 3
EDGE_RULES = SPHERICAL, VINCENTY, THOMAS, ANDOYER, KARNEY = range(5)


def slot(physical, repetition, converted=NO_CONVERTED, logical=NO_LOGICAL, a=0, b=0, children=0, type_length=0, scale=0, precision=0,
         name=b"v", name_length=None):
    """The 72 bytes of a slot; its name length is its name's unless another is given."""
    length = len(name) if name_length is None else name_length
    numbers = physical, repetition, converted, logical, a, b, children, type_length, scale, precision, length
    return struct.pack("<6BH3iB3x48s", *numbers, name)


def node(*fields, claims=None, **numbers):
    """A node and all below it, in listing order; it claims the fields that it has unless another number is given."""
    return [slot(children=len(fields) if claims is None else claims, **numbers)] + [slot for field in fields for slot in field]


def root(*fields, **numbers):
    return node(*fields, **dict(physical=GROUP, repetition=NO_REPETITION, name=b"r") | numbers)


def group(*fields, **numbers):
    return node(*fields, **dict(physical=GROUP, repetition=REQUIRED, name=b"g") | numbers)


def leaf(physical=INT32, *fields, **numbers):
    return node(*fields, **dict(physical=physical, repetition=REQUIRED) | numbers)


def layer(*fields, **numbers):
    """A repeated group, as LIST and MAP have one."""
    return group(*fields, **dict(repetition=REPEATED, name=b"list") | numbers)


def list_of(*fields, **numbers):
    return group(*fields, **dict(converted=C_LIST, name=b"parts") | numbers)


def map_of(*fields, **numbers):
    return group(*fields, **dict(logical=MAP, name=b"pairs") | numbers)


def behind(*nodes):
    """A root with nine plain leaves and then these: the first of them is node 10, in the second block."""
    return sheet(root(*[leaf()] * 9, *nodes))


def sheet(slots):
    """The sheet that lists these slots, its headers and checks right for up to 896 of them."""
    blocks = []
    for block, first in enumerate(range(0, len(slots), SLOTS_IN_BLOCK)):
        here = slots[first:first + SLOTS_IN_BLOCK]
        blocks.append((struct.pack("<HBBH", block, len(here), 1, len(slots)) + b"".join(here)).ljust(BLOCK, b"\0"))
    return renewed(b"".join(blocks))


def renewed(sheet):
    """The sheet with the check of every block made right."""
    blocks = [sheet[at:at + CHECK] for at in range(0, len(sheet), BLOCK)]
    return b"".join(block + struct.pack("<H", check(block)) for block in blocks)


def check(block):
    """The sum of (i+1) times byte i, over i from 0 to 509, modulo 65,521."""
    return sum((i + 1) * byte for i, byte in enumerate(block[:CHECK])) % 65521


def in_block(block, at):
    """Where a byte of a block stands in the sheet."""
    return BLOCK * block + at


def in_slot(node, at):
    """Where a byte of a node's slot stands in the sheet."""
    return in_block(node // SLOTS_IN_BLOCK, HEADER + SLOT * (node % SLOTS_IN_BLOCK) + at)


def put(sheet, at, *bytes_there):
    """The sheet with other bytes at a place, checks as they were."""
    return sheet[:at] + bytes(bytes_there) + sheet[at + len(bytes_there):]


def change(sheet, at, *bytes_there):
    """The same with the checks made right."""
    return renewed(put(sheet, at, *bytes_there))

"""The editions as a program's arguments spell them, by document 02's R-4, R-10 and R-11."""

# Without an argument it is the first.
KNOWN = [(), ("1",), ("2",), ("3",)]
FIRST, SECOND, THIRD = KNOWN[1:]

# No known edition, or no spelling of one: decimal, and no needless zero.
UNKNOWN = [
    "0", "4", "5", "10", "11", "12", "13", "21", "30", "33", "257", "259", "4294967295", "4294967296", "4294967297",
    "18446744073709551617", "1" * 17, "01", "02", "03", "00", "00000000000000001", "", "+1", "-1", " 1", "1 ", "1\n", "1.0", "1e0",
    "0x1", "x", "one", "1,", "\u0661", "\u00b9",
]

# More than one argument, known editions or not.
TOO_MANY = [("1", "1"), ("1", "2"), ("3", "3"), ("2", ""), ("", "1"), ("1", "x"), ("0", "0", "0")]

REFUSAL = "refused 21 at 0"


def of(edition, by_edition):
    """What an edition's arguments ask for, of what the first, the second and the third have."""
    return by_edition[max(KNOWN.index(edition) - 1, 0)]


def since_second(first, later):
    return first, later, later


def until_third(earlier, third):
    return earlier, earlier, third

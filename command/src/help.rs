//! The help of the command and of each of its parts.

pub const ALL: &str = "\
griffeljol reads Parquet schema sheets. Every answer is the proved library's.

  griffeljol rows FILE [--json]            the sheet's rows
  griffeljol tree FILE [--json]            the schema as an indented tree
  griffeljol rewrite FILE -o OUT           the sheet anew, with both annotations at every node
  griffeljol compare A B [--json | --report]
                                           what differs between two sheets, or a page to sign
  griffeljol value PHYSICAL LENGTH KIND P1 P2 (FILE | --hex HEX) [--json]
                                           one value of a column
  griffeljol timestamp decode UNIT COUNT [--json]
  griffeljol timestamp encode UNIT DATE TIME [--json]
                                           a count as a date and time, and back
  griffeljol int96 decode (HEX | --file FILE) [--json]
  griffeljol int96 encode COUNT [--json]   an INT96 time as a count and its date and time, and back
  griffeljol box KIND FILE [--binary] [--json]
                                           the bounding box of points
  griffeljol inside KIND BOX POINT [--json]
                                           whether a point is inside a bounding box
  griffeljol COMMAND --help                more on one of them

All but timestamp, int96, box and inside take --edition N, the edition that judges the sheet or the column type, which
is 1 without it.

FILE, one of A and B, and OUT may be - for standard input and standard output. Behind -- every word is taken as it
stands.

Exit status
    0  done; of compare, the sheets do not differ; of inside, the point is inside
    1  refused: standard error has the line 'refused N at P', then its meaning in words; of int96 decode --file, how
       many values were refused
    2  wrong arguments, or a file that cannot be read or written or has no points where it must: standard error has one
       line
    3  of compare, the sheets differ; of inside, the point is outside
  141  whoever read standard output stopped reading; nothing is said
";

/// Stands behind the help of each part that takes it.
pub const EDITION: &str = "
  --edition N   judges by edition N, 1 to 3, and by 1 without it. In edition 1 the scale of a DECIMAL is below its
                precision, in 2 and 3 it may also equal it. In 3 no leaf is INT96: one is refused with 10, and such a
                column type with 20; and a leaf may be GEOMETRY or GEOGRAPHY, which in 1 and 2 are refused with 4, and
                such column types with 20. A number that is no known edition is refused with 21
";

pub const ROWS: &str = "\
griffeljol rows FILE [--edition N] [--json]

Judges the sheet in FILE, or on standard input for -, and prints 'nodes T' and then a line for each of its T nodes:
physical, type length, repetition, kind, p1, p2, parent, end, role, definition level and repetition level: how many
nodes on the path from the root to this one are optional or repeated, and how many are repeated.

  --json   prints an object with the number of nodes and the rows, each with its numbers by name. A refusal is
           printed as an object, besides its words on standard error
";

pub const REWRITE: &str = "\
griffeljol rewrite FILE -o OUT [--edition N]

Judges the sheet in FILE, or on standard input for -, and writes it to OUT with both annotations at every node.
OUT may be FILE itself, or - for standard output.

OUT is replaced whole once the sheet is accepted and written beside it. On a refusal or any other failure an existing
OUT stays as it was.
";

pub const TREE: &str = "\
griffeljol tree FILE [--edition N] [--json]

Judges the sheet in FILE, or on standard input for -, and draws its schema, a line for each node: its number, its level
below the root, its name under its parent's, its type, annotation, repetition and role. A TIME or TIMESTAMP is
adjusted to UTC, or local.

A name with a space, with characters that do not print by themselves or with bytes that are no UTF-8 stands in quotes,
with escapes. Names are read from the accepted sheet's bytes; all else is the library's answer.

  --json   prints an object with the nodes in order, each with these and its row. A name that is no UTF-8 is null;
           name_hex has its bytes. A refusal is printed as an object, besides its words on standard error
";

pub const COMPARE: &str = "\
griffeljol compare A B [--edition N] [--json | --report]

Judges the sheets in the files A and B, one of which may be - for standard input, and prints a line for each difference
from A to B, and then their number. It exits 0 where there is none, and 3 where there are some.

  parts.list.element: repetition optional, was required     a field with another content in B
  kvn: place 2, was 0                                       its place among its siblings, counted from 0
  kcv: only in B, optional BYTE_ARRAY STRING                a node that A does not have

The roots match, and children of matched nodes match by name; where siblings share one, the first matches the first, and
so on. The fields are those of document 01's slot: physical, repetition, converted, logical, parameter a, parameter b,
child count, type length, scale and precision, and of the root also name length and name. They are compared as they
stand: an annotation that A has as a converted type alone and B as a logical type too is a difference.

Nodes come in A's order, and those that are only in B last, in B's. A node goes by its path, the names from the root's
children down with points between them; the root by 'the root'. Of siblings that share a name the first has it alone,
the second has [1] behind it, the third [2], and so on. A name with a space, a point or a bracket, with characters that
do not print by themselves or with bytes that are no UTF-8 stands in quotes, with escapes. Paths are read from the
accepted sheets' bytes; every difference is the library's.

A refusal's words begin with A or B and the file that is refused. Where both are, it is A's.

  --json     prints an object with the count of the differences and their list, each with its node's number (that of A,
             or of B for a node that is only there), path, code, field, and the contents in A and B: numbers, a name
             with its bytes in hexadecimal, a whole slot, or null where there is no such node. A refusal is printed as
             an object, besides its words on standard error, with the sheet and the file that are refused
  --report   prints a page for two custodians to sign: both files with their length, the check of each block and the
             number of nodes and of columns; the columns; the differences; and a line for each custodian
";

pub const VALUE: &str = "\
griffeljol value PHYSICAL LENGTH KIND P1 P2 (FILE | --hex HEX) [--edition N] [--json]

Reads one value of the column type of these five numbers, which a leaf's row has. The value's bytes are those of FILE,
of standard input for -, or of HEX, pairs of hexadecimal digits. Prints true or false, a whole number, 'float' or
'double' and its decimal, or for INT96 and all byte forms 'bytes', where they start and how many they are; behind those
of a plain INT96 its date and time, where it has one. A STRING, ENUM or JSON that is no UTF-8 is refused with 16 at the
byte where its whole sequences, read from the start, stop.

  --json   prints an object with the case and the value, for floats also the bits, for a plain INT96 also the time, or
           null where it has none. A refusal is printed as an object, besides its words on standard error

  PHYSICAL   0 BOOLEAN  1 INT32  2 INT64  3 INT96  4 FLOAT  5 DOUBLE  6 BYTE_ARRAY  7 FIXED_LEN_BYTE_ARRAY
  LENGTH     bytes of a FIXED_LEN_BYTE_ARRAY, else 0
  KIND       0 none  1 STRING  4 ENUM  5 DECIMAL  6 DATE  7 TIME  8 TIMESTAMP  10 INTEGER  11 UNKNOWN  12 JSON
             13 BSON  14 UUID  21 INTERVAL, and in edition 3  17 GEOMETRY  18 GEOGRAPHY
  P1 P2      DECIMAL: precision and scale. TIME, TIMESTAMP: unit (1 millis, 2 micros, 3 nanos) and UTC (1 or 0).
             INTEGER: bit width and signed (1 or 0). GEOGRAPHY: edge rule (0 SPHERICAL, 1 VINCENTY, 2 THOMAS,
             3 ANDOYER, 4 KARNEY) and 0. Else 0 0

For example, a DECIMAL of precision 3 and scale 2 on BYTE_ARRAY: griffeljol value 6 0 5 3 2 --hex FF
";

pub const TIMESTAMP: &str = "\
griffeljol timestamp decode UNIT COUNT [--json]
griffeljol timestamp encode UNIT DATE TIME [--json]

Turns a count of ticks since 1970-01-01 00:00:00 into its date and time, by the Gregorian calendar carried both ways,
and back. UNIT is millis, micros or nanos, or its number, 1 to 3. DATE is YEAR-MONTH-DAY, TIME is HOUR:MINUTE:SECOND
with at most the unit's digits behind a point.

  --json   prints an object with the unit, the count and the fields, the fraction in ticks. A refusal is printed as an
           object, besides its words on standard error

For example:
  griffeljol timestamp decode millis -1
  griffeljol timestamp encode nanos 1677-09-21 00:12:43.145224192
";

pub const INT96: &str = "\
griffeljol int96 decode HEX [--json]
griffeljol int96 decode --file FILE [--json]
griffeljol int96 encode COUNT [--json]

Turns an INT96 time into its count of nanoseconds since 1970-01-01 00:00:00 and its date and time, and a count into its
INT96. An INT96 is 12 bytes: 8 of nanoseconds in the day, then 4 of Julian day, both unsigned, little-endian; day
2,440,588 is 1 January 1970. HEX is its bytes, pairs of hexadecimal digits, and encode prints them so. Another length is
refused with 15, a full day of nanoseconds or more with 16, and a time that no count holds with 19.

  --file FILE   turns the values of FILE, or of standard input for -, which stand behind one another, and prints a line
                for each as it goes: its index from 0, its count, date and time, or 'refused N at 0' and its meaning. A
                last value that is cut off is refused with 15. It exits 1 where some value was refused, and says on
                standard error how many. While it works it tells there how far it has come, where standard error is a
                terminal and standard output is not
  --json        prints an object with the bytes, the count and the fields, the fraction in nanoseconds; of a file one
                for each value, with its index, a refused one with its refusal. Any other refusal is printed as an
                object, besides its words on standard error

For example:
  griffeljol int96 decode 0080A7484A27000059682500
  griffeljol int96 encode 946728000000000000
";

pub const BOX: &str = "\
griffeljol box KIND FILE [--binary] [--json]

Finds the bounding box of the points in FILE, or on standard input for -, and prints 'xmin A xmax B ymin C ymax D', or
'no box' where no point has an x or none has a y. KIND is GEOMETRY or GEOGRAPHY, or its number, 17 or 18; every other
number is refused with 20. A coordinate that is nan is skipped, and the other one of its point still counts. One of
GEOGRAPHY that lies outside [-180, 180] in x or [-90, 90] in y is refused with 16.

FILE has a point on a line: x and y, two numbers with spaces, tabs or one comma between them. A number is a decimal, as
-36.85 or 1e-3, or nan, inf or -inf in capitals or not. Empty lines are skipped. Any other line, one of more than 4096
bytes and a decimal that no double reaches are told with the line's number, and the status is 2.

  --binary   FILE has x and y in turn as doubles of 8 bytes, little-endian. An odd number of them is refused with 15
  --json     prints an object with the box, which has four numbers or is null. An infinity is the text inf or -inf. A
             refusal is printed as an object, besides its words on standard error

Each bound stands as the shortest decimal that reads back as the same double.
";

pub const INSIDE: &str = "\
griffeljol inside KIND BOX POINT [--json]

Prints 'inside' where a point is inside a bounding box, its bounds included, and exits 0; or prints 'outside', and exits
3. KIND is GEOMETRY or GEOGRAPHY, or its number, 17 or 18; every other number is refused with 20. BOX is xmin, xmax,
ymin and ymax and POINT is x and y, with a comma and no blank between each two. Numbers are spelled as in the file of
griffeljol box.

Where xmin is above xmax the box goes around, and x is inside where it is at least xmin or at most xmax. A coordinate
that is nan is inside nothing. A box with nan or with ymin above ymax is refused with 16, and so are a bound and a
coordinate of GEOGRAPHY that lie outside [-180, 180] in x or [-90, 90] in y.

  --json   prints an object with a truth value. A refusal is printed as an object, besides its words on standard error

For example, across the line of 180 degrees:
  griffeljol inside GEOGRAPHY 177,-178,-21,-12 178.44,-18.14
";

//! Published vectors, each under its source, and those of each edition. Data alone: whoever runs them brings the reader.

/// Document 02, R-4, R-10 and R-11: the known editions, and numbers of none.
pub const KNOWN_EDITIONS: [u32; 3] = [1, 2, 3];
pub const UNKNOWN_EDITIONS: [u32; 4] = [0, 4, 5, u32::MAX];

/// Every edition that the vectors are asked in.
pub fn editions() -> impl Iterator<Item = u32> {
    KNOWN_EDITIONS.into_iter().chain(UNKNOWN_EDITIONS)
}

/// What the known editions answer, in their order.
pub type ByEdition<T> = [T; KNOWN_EDITIONS.len()];

/// What the first edition answers, and what those after it do.
const fn since_second<T: Copy>(first: T, later: T) -> ByEdition<T> {
    [first, later, later]
}

/// What the editions before the third answer, and what that does.
const fn until_third<T: Copy>(earlier: T, third: T) -> ByEdition<T> {
    [earlier, earlier, third]
}

/// What an edition answers; an unknown one refuses all.
fn answer_in<T: Copy>(edition: u32, answers: ByEdition<T>, unknown: T) -> T {
    KNOWN_EDITIONS.iter().position(|&known| known == edition).map_or(unknown, |at| answers[at])
}

/// Days from 1 January 1970 to a date: a year, a month, a day, the day number.
pub type Day = (i64, i64, i64, i64);

/// Howard Hinnant, "chrono-Compatible Low-Level Date Algorithms": day 0, and the first days of the eras of years 0 and 2000, which
/// begin 719,468 days before it and 5 times 146,097 days later.
pub const HINNANT: [Day; 3] = [(1970, 1, 1, 0), (0, 3, 1, -719_468), (2000, 3, 1, 5 * 146_097 - 719_468)];

/// Edward M. Reingold and Nachum Dershowitz, "Calendrical Calculations", appendix of sample data, columns R.D. and Gregorian.
/// R.D. 719,163 is 1 January 1970.
pub const REINGOLD_DERSHOWITZ_EPOCH: i64 = 719_163;
/// A year, a month, a day, its R.D. number.
pub const REINGOLD_DERSHOWITZ: [Day; 33] = [
    (-586, 7, 24, -214_193),
    (-168, 12, 5, -61_387),
    (70, 9, 24, 25_469),
    (135, 10, 2, 49_217),
    (470, 1, 8, 171_307),
    (576, 5, 20, 210_155),
    (694, 11, 10, 253_427),
    (1013, 4, 25, 369_740),
    (1096, 5, 24, 400_085),
    (1190, 3, 23, 434_355),
    (1240, 3, 10, 452_605),
    (1288, 4, 2, 470_160),
    (1298, 4, 27, 473_837),
    (1391, 6, 12, 507_850),
    (1436, 2, 3, 524_156),
    (1492, 4, 9, 544_676),
    (1553, 9, 19, 567_118),
    (1560, 3, 5, 569_477),
    (1648, 6, 10, 601_716),
    (1680, 6, 30, 613_424),
    (1716, 7, 24, 626_596),
    (1768, 6, 19, 645_554),
    (1819, 8, 2, 664_224),
    (1839, 3, 27, 671_401),
    (1903, 4, 19, 694_799),
    (1929, 8, 25, 704_424),
    (1941, 9, 29, 708_842),
    (1943, 4, 19, 709_409),
    (1943, 10, 7, 709_580),
    (1992, 3, 17, 727_274),
    (1996, 2, 25, 728_714),
    (2038, 11, 10, 744_313),
    (2094, 7, 18, 764_652),
];

/// Jean Meeus, "Astronomical Algorithms", chapter 7, the dates of the Gregorian calendar. Julian Day 2,440,587.5 is
/// 1 January 1970, 0 h.
pub const MEEUS_EPOCH_HALF_DAYS: i64 = 2 * 2_440_587 + 1;
/// A year, a month, a day, an hour, twice its Julian Day.
pub const MEEUS: [(i64, i64, i64, i64, i64); 9] = [
    (2000, 1, 1, 12, 2 * 2_451_545),
    (1999, 1, 1, 0, 2 * 2_451_179 + 1),
    (1987, 1, 27, 0, 2 * 2_446_822 + 1),
    (1987, 6, 19, 12, 2 * 2_446_966),
    (1988, 1, 27, 0, 2 * 2_447_187 + 1),
    (1988, 6, 19, 12, 2 * 2_447_332),
    (1900, 1, 1, 0, 2 * 2_415_020 + 1),
    (1600, 1, 1, 0, 2 * 2_305_447 + 1),
    (1600, 12, 31, 0, 2 * 2_305_812 + 1),
];

/// A unit, a count, the fields it decodes to: year, month, day, hour, minute, second, fraction.
pub type Instant = (u32, i64, [i64; 7]);

/// Document 01, fixed points; document 003, the examples of TIMESTAMP, and the ends of NANOS that 000 and 003 give.
pub const INSTANTS: [Instant; 7] = [
    (1, 172_800_000, [1970, 1, 3, 0, 0, 0, 0]),
    (1, -1, [1969, 12, 31, 23, 59, 59, 999]),
    (3, i64::MIN, [1677, 9, 21, 0, 12, 43, 145_224_192]),
    (1, 169_200_000, [1970, 1, 2, 23, 0, 0, 0]),
    (3, i64::MAX, [2262, 4, 11, 23, 47, 16, 854_775_807]),
    (2, 0, [1970, 1, 1, 0, 0, 0, 0]),
    (2, -1, [1969, 12, 31, 23, 59, 59, 999_999]),
];

/// A unit, fields, the number of the refusal they meet.
pub type NoInstant = (u32, [i64; 7], u32);

/// Document 01: 29 February 1900. Document 003, fields that cannot be represented; the NANOS next to the ends.
pub const NO_INSTANTS: [NoInstant; 8] = [
    (1, [1900, 2, 29, 0, 0, 0, 0], 18),
    (1, [1970, 1, 1, -1, 0, 0, 0], 18),
    (1, [1970, 1, 1, 25, 0, 0, 0], 18),
    (1, [1970, 1, 1, 0, 61, 0, 0], 18),
    (1, [1970, 13, 1, 0, 0, 0, 0], 18),
    (1, [2023, 2, 29, 0, 0, 0, 0], 18),
    (3, [1677, 9, 21, 0, 12, 43, 145_224_191], 19),
    (3, [2262, 4, 11, 23, 47, 16, 854_775_808], 19),
];

/// The nanoseconds in a day and the Julian day of an INT96, and its count of nanoseconds since 1970, or the number of its refusal.
pub type Int96 = (u64, u32, Result<i64, u32>);

const NANOS_OF_DAY: u64 = 86_400_000_000_000;

/// Document 02, R-10: 1 January 1970, and a full day of nanoseconds. Document 003, the ends of NANOS: 21 September 1677 at 00:12:43 and
/// 11 April 2262 at 23:47:16, with the nanosecond of each end and the one beyond; the Julian days of both are R-10's, 106,752 days
/// before and 106,751 days behind 1970.
/// Meeus, chapter 7: the Modified Julian Day begins at Julian Day 2,400,000.5, which is 17 November 1858, 0 h, and Julian Day 2,451,545.0
/// is 1 January 2000, 12 h; 40,587 days before and 10,957 days behind 1970. Julian Days are counted from the year -4712 on.
pub const INT96: [Int96; 11] = [
    (0, 2_440_588, Ok(0)),
    (NANOS_OF_DAY - 1, 2_440_587, Ok(-1)),
    (NANOS_OF_DAY, 2_440_587, Err(16)),
    (763_145_224_192, 2_333_836, Ok(i64::MIN)),
    (763_145_224_191, 2_333_836, Err(19)),
    (85_636_854_775_807, 2_547_339, Ok(i64::MAX)),
    (85_636_854_775_808, 2_547_339, Err(19)),
    (0, 2_400_001, Ok(-40_587 * NANOS_OF_DAY as i64)),
    (NANOS_OF_DAY / 2, 2_451_545, Ok(10_957 * NANOS_OF_DAY as i64 + NANOS_OF_DAY as i64 / 2)),
    (0, 0, Err(19)),
    (0, u32::MAX, Err(19)),
];

/// The INT96 of a date and time of [`MEEUS`], of its hour and twice its Julian Day: the Julian day of a date is its Julian Day at noon.
pub fn int96_of_meeus(hour: i64, halves: i64) -> (u64, u32) {
    (hour as u64 * (NANOS_OF_DAY / 24), ((halves + 1) / 2) as u32)
}

/// A kind, coordinates, and their box, or no box, or the number of the refusal.
pub type Points = (u32, &'static [f64], Result<Option<[f64; 4]>, u32>);

/// Document 02, R-11, sentence by sentence: NaN coordinates are skipped one by one, no box results exactly if an axis
/// has none, the range of GEOGRAPHY and of it alone, and which refusal comes first.
pub const BOXES: [Points; 16] = [
    (17, &[1.0, 2.0, -3.0, 4.0], Ok(Some([-3.0, 1.0, 2.0, 4.0]))),
    (18, &[1.0, 2.0, -3.0, 4.0], Ok(Some([-3.0, 1.0, 2.0, 4.0]))),
    (17, &[f64::NAN, 2.0, -3.0, f64::NAN], Ok(Some([-3.0, -3.0, 2.0, 2.0]))),
    (17, &[f64::NAN, 2.0, f64::NAN, 4.0], Ok(None)),
    (18, &[1.0, f64::NAN], Ok(None)),
    (17, &[], Ok(None)),
    (18, &[-180.0, -90.0, 180.0, 90.0], Ok(Some([-180.0, 180.0, -90.0, 90.0]))),
    (18, &[180.00000000000003, 0.0], Err(16)),
    (18, &[0.0, -90.00000000000001], Err(16)),
    (
        17,
        &[180.00000000000003, -90.00000000000001],
        Ok(Some([180.00000000000003, 180.00000000000003, -90.00000000000001, -90.00000000000001])),
    ),
    (18, &[f64::NAN, 90.00000000000001], Err(16)),
    (
        17,
        &[f64::INFINITY, f64::NEG_INFINITY],
        Ok(Some([f64::INFINITY, f64::INFINITY, f64::NEG_INFINITY, f64::NEG_INFINITY])),
    ),
    (18, &[200.0], Err(15)),
    (17, &[1.0, 2.0, 3.0], Err(15)),
    (16, &[200.0], Err(20)),
    (0, &[], Err(20)),
];

/// A kind, a box, a point, and whether it is inside, or the number of the refusal.
pub type Tested = (u32, [f64; 4], [f64; 2], Result<bool, u32>);

/// Document 02, R-11: xmin above xmax, the bounds themselves, boxes that are none, and points of GEOGRAPHY out of its
/// range.
pub const INSIDE: [Tested; 14] = [
    (17, [0.0, 1.0, 0.0, 1.0], [1.0, 0.0], Ok(true)),
    (17, [0.0, 1.0, 0.0, 1.0], [2.0, 0.0], Ok(false)),
    (18, [170.0, -170.0, 0.0, 1.0], [180.0, 1.0], Ok(true)),
    (18, [170.0, -170.0, 0.0, 1.0], [-175.0, 0.5], Ok(true)),
    (17, [170.0, -170.0, 0.0, 1.0], [0.0, 0.5], Ok(false)),
    (17, [1.0, 0.0, 0.0, 1.0], [500.0, 0.5], Ok(true)),
    (17, [0.0, 1.0, 1.0, 0.0], [0.5, 0.5], Err(16)),
    (17, [f64::NAN, 1.0, 0.0, 1.0], [0.5, 0.5], Err(16)),
    (18, [0.0, 181.0, 0.0, 1.0], [0.5, 0.5], Err(16)),
    (17, [0.0, 181.0, 0.0, 1.0], [0.5, 0.5], Ok(true)),
    (18, [0.0, 1.0, 0.0, 1.0], [0.5, 91.0], Err(16)),
    (17, [0.0, 1.0, 0.0, 1.0], [f64::NAN, 0.5], Ok(false)),
    (18, [0.0, 1.0, 0.0, 1.0], [0.5, f64::NAN], Ok(false)),
    (15, [f64::NAN, 1.0, 0.0, 1.0], [0.5, 91.0], Err(20)),
];

/// A text, and where whole valid sequences stop in it.
pub type Text = (&'static [u8], usize);

/// RFC 3629, section 7, and what section 10 forbids.
pub const RFC_3629: [Text; 7] = [
    (b"\x41\xE2\x89\xA2\xCE\x91\x2E", 7),
    (b"\xED\x95\x9C\xEA\xB5\xAD\xEC\x96\xB4", 9),
    (b"\xE6\x97\xA5\xE6\x9C\xAC\xE8\xAA\x9E", 9),
    (b"\xEF\xBB\xBF\xF0\xA3\x8E\xB4", 7),
    (b"\xC0\x80", 0),
    (b"\x2F\xC0\xAE\x2E\x2F", 1),
    (b"\xED\xA1\x8C\xED\xBE\xB4", 0),
];

/// The Unicode Standard, section 3.9: the sequence of D92's examples, ill-formed ones of its text, and tables 3-8 to 3-11.
pub const UNICODE: [Text; 9] = [
    (b"\x4D\xD0\xB0\xE4\xBA\x8C\xF0\x90\x8C\x82", 10),
    (b"\xC0\xAF", 0),
    (b"\xE0\x9F\x80", 0),
    (b"\xF4\x80\x83\x92", 4),
    (b"\xC2\x41\x42", 0),
    (b"\xC0\xAF\xE0\x80\xBF\xF0\x81\x82\x41", 0),
    (b"\xED\xA0\x80\xED\xBF\xBF\xED\xAF\x41", 0),
    (b"\xF4\x91\x92\x93\xFF\x41\x80\xBF\x42", 0),
    (b"\xE1\x80\xE2\xF0\x91\x92\xF1\xBF\x41", 0),
];

/// A column type, as physical, type length, kind, p1, p2.
pub type Column = [u32; 5];

/// What reading a value gives, as in the C interface: the case and two numbers, or the number of the refusal.
pub type Read = Result<(u32, [u64; 2]), u32>;

const BYTE_DECIMAL_2: Column = [6, 0, 5, 2, 0];
const BYTE_DECIMAL_3: Column = [6, 0, 5, 3, 0];
const UINT_8: Column = [1, 0, 10, 8, 0];
const INT_8: Column = [1, 0, 10, 8, 1];
const UINT_64: Column = [2, 0, 10, 64, 0];

/// Document 01, fixed points of single values and "errors to shut out"; document 000, UUID. What the slip of 000 would
/// have on INT64 is read as 002 and 003 have it.
const READS: [(Column, &[u8], Read); 16] = [
    (BYTE_DECIMAL_2, b"\x63", Ok((5, [0, 1]))),
    (BYTE_DECIMAL_2, b"\x64", Err(16)),
    (BYTE_DECIMAL_2, b"\x00\x63", Ok((5, [0, 2]))),
    (UINT_8, b"\xFF\0\0\0", Ok((2, [255, 0]))),
    (UINT_8, b"\x00\x01\0\0", Err(16)),
    (UINT_8, b"\xFF\xFF\xFF\xFF", Err(16)),
    (INT_8, b"\xFF\0\0\0", Err(16)),
    (INT_8, b"\xFF\xFF\xFF\xFF", Ok((1, [u64::MAX, 0]))),
    (UINT_64, b"\xFF\xFF\xFF\xFF\xFF\xFF\xFF\xFF", Ok((2, [u64::MAX, 0]))),
    ([1, 0, 5, 9, 0], b"\0\0\0\0", Ok((1, [0, 0]))),
    ([1, 0, 5, 10, 0], b"\0\0\0\0", Err(20)),
    ([7, 1, 5, 2, 0], b"\x63", Ok((5, [0, 1]))),
    ([7, 1, 5, 3, 0], b"\x63", Err(20)),
    ([7, 16, 14, 0, 0], b"\x00\x11\x22\x33\x44\x55\x66\x77\x88\x99\xaa\xbb\xcc\xdd\xee\xff", Ok((5, [0, 16]))),
    ([7, 15, 14, 0, 0], b"\x00\x11\x22\x33\x44\x55\x66\x77\x88\x99\xaa\xbb\xcc\xdd\xee", Err(20)),
    ([6, 0, 11, 0, 0], b"", Err(16)),
];

/// Document 02, R-4: scale equal to precision on each physical type, at its greatest precision; and no precision. R-10: INT96, also under
/// UNKNOWN, which no value is. R-11: GEOMETRY and GEOGRAPHY, of any bytes, with their edge rules and one that is none.
const READS_BY_EDITION: [(Column, &[u8], ByEdition<Read>); 16] = [
    ([6, 0, 5, 3, 3], b"\x01", since_second(Err(20), Ok((5, [0, 1])))),
    ([1, 0, 5, 9, 9], b"\xFF\xFF\xFF\xFF", since_second(Err(20), Ok((1, [u64::MAX, 0])))),
    ([2, 0, 5, 18, 18], b"\x01\0\0\0\0\0\0\0", since_second(Err(20), Ok((1, [1, 0])))),
    ([7, 1, 5, 2, 2], b"\x63", since_second(Err(20), Ok((5, [0, 1])))),
    ([7, 1, 5, 2, 2], b"\x64", since_second(Err(20), Err(16))),
    ([6, 0, 5, 0, 0], b"\0", [Err(20); 3]),
    ([3, 0, 0, 0, 0], &[0xFF; 12], until_third(Ok((5, [0, 12])), Err(20))),
    ([3, 0, 0, 0, 0], &[0; 11], until_third(Err(15), Err(20))),
    ([3, 0, 11, 0, 0], &[0; 12], until_third(Err(16), Err(20))),
    ([3, 0, 8, 3, 0], &[0; 12], [Err(20); 3]),
    ([6, 0, 17, 0, 0], b"\xFF", until_third(Err(20), Ok((5, [0, 1])))),
    ([6, 0, 18, 0, 0], b"", until_third(Err(20), Ok((5, [0, 0])))),
    ([6, 0, 18, 4, 0], b"\x80", until_third(Err(20), Ok((5, [0, 1])))),
    ([6, 0, 18, 5, 0], b"", [Err(20); 3]),
    ([6, 0, 17, 1, 0], b"", [Err(20); 3]),
    ([6, 0, 16, 0, 0], b"", [Err(20); 3]),
];

/// Every value that is read, with what an edition answers.
pub fn reads(edition: u32) -> impl Iterator<Item = (Column, &'static [u8], Read)> {
    let in_all = READS.into_iter().map(|(column, value, read)| (column, value, [read; KNOWN_EDITIONS.len()]));
    let all = in_all.chain(READS_BY_EDITION);
    all.map(move |(column, value, read)| (column, value, answer_in(edition, read, Err(21))))
}

/// How one value stands to another: 0 less, 1 equal, 2 greater, 3 unordered; or a refusal's number.
pub type Order = Result<u32, u32>;

/// Two values and how the first stands to the second.
pub type Ordered<T> = (Column, &'static [u8], &'static [u8], T);

/// Document 01, fixed points of decimals; zeros and NaN of its order; what has no order.
const ORDERS: [Ordered<Order>; 10] = [
    (BYTE_DECIMAL_3, b"\xFF", b"\xFF\xFF", Ok(1)),
    (BYTE_DECIMAL_3, b"\x80", b"\x7F", Ok(0)),
    (BYTE_DECIMAL_3, b"\x00\xFF", b"\x7F", Ok(2)),
    (UINT_8, b"\x80\0\0\0", b"\x7F\0\0\0", Ok(2)),
    ([4, 0, 0, 0, 0], b"\0\0\0\0", b"\0\0\0\x80", Ok(1)),
    ([5, 0, 0, 0, 0], b"\0\0\0\0\0\0\0\0", b"\0\0\0\0\0\0\0\x80", Ok(1)),
    ([4, 0, 0, 0, 0], b"\0\0\xC0\x7F", b"\0\0\0\0", Ok(3)),
    ([6, 0, 1, 0, 0], b"ab", b"abc", Ok(0)),
    ([6, 0, 0, 0, 0], b"\x80", b"\x7F", Ok(2)),
    ([7, 12, 21, 0, 0], b"", b"", Err(17)),
];

/// Document 02, R-4: decimals whose scale equals their precision. R-10: INT96, which has no order and then no column.
/// R-11: GEOMETRY and GEOGRAPHY, which have no column and then no order.
const ORDERS_BY_EDITION: [Ordered<ByEdition<Order>>; 6] = [
    ([6, 0, 5, 3, 3], b"\x80", b"\x7F", since_second(Err(20), Ok(0))),
    ([1, 0, 5, 1, 1], b"\x09\0\0\0", b"\xF7\xFF\xFF\xFF", since_second(Err(20), Ok(2))),
    ([3, 0, 0, 0, 0], &[0; 12], &[0; 12], until_third(Err(17), Err(20))),
    ([3, 0, 11, 0, 0], b"", b"", until_third(Err(17), Err(20))),
    ([6, 0, 17, 0, 0], b"a", b"b", until_third(Err(20), Err(17))),
    ([6, 0, 18, 4, 0], b"a", b"a", until_third(Err(20), Err(17))),
];

/// Every two values that are ordered, with what an edition answers.
pub fn orders(edition: u32) -> impl Iterator<Item = Ordered<Order>> {
    let in_all = ORDERS.into_iter().map(|(column, a, b, order)| (column, a, b, [order; KNOWN_EDITIONS.len()]));
    let all = in_all.chain(ORDERS_BY_EDITION);
    all.map(move |(column, a, b, order)| (column, a, b, answer_in(edition, order, Err(21))))
}

/// Document 01, rule 11: the greatest precision of so many bytes.
pub const PRECISIONS: [(u32, u32); 5] = [(1, 2), (2, 4), (4, 9), (8, 18), (16, 38)];

/// A node as its slot has it: physical, repetition, converted, logical, a, b, children, type length, scale, precision.
pub type Slot = ([i64; 10], &'static str);

/// The rows of an accepted sheet, or the number and place of its refusal.
pub type Rows = Result<&'static [[u32; 11]], (u32, u32)>;

/// A title, the slots of a sheet, and its rows.
pub type Sheet = (&'static str, &'static [Slot], Rows);

const ROOT_OF_ONE: Slot = ([255, 255, 255, 0, 0, 0, 1, 0, 0, 0], "r");
const ROW_OF_ONE: [u32; 11] = [255, 0, 255, 30, 0, 0, 0, 2, 0, 0, 0];

/// Document 01: its example, its fixed points of sheets and "errors to shut out"; document 000, the examples of LIST and MAP; document 02,
/// the layer of R-2; the schema whose levels the paper on Dremel gives, for R-8.
const SHEETS: [Sheet; 19] = [
    ("one root alone", &[([255, 255, 255, 0, 0, 0, 0, 0, 0, 0], "r")], Ok(&[[255, 0, 255, 30, 0, 0, 0, 1, 0, 0, 0]])),
    (
        "the example of document 01",
        &[
            ROOT_OF_ONE,
            ([255, 0, 3, 0, 0, 0, 1, 0, 0, 0], "parts"),
            ([255, 2, 255, 0, 0, 0, 1, 0, 0, 0], "list"),
            ([6, 1, 0, 0, 0, 0, 0, 0, 0, 0], "element"),
        ],
        Ok(&[
            [255, 0, 255, 30, 0, 0, 0, 4, 0, 0, 0],
            [255, 0, 0, 3, 0, 0, 0, 4, 0, 0, 0],
            [255, 0, 2, 30, 0, 0, 1, 4, 1, 1, 1],
            [6, 0, 1, 1, 0, 0, 2, 4, 2, 2, 1],
        ]),
    ),
    ("FIXED 1 precision 3", &[ROOT_OF_ONE, ([7, 0, 5, 0, 0, 0, 0, 1, 0, 3], "d")], Err((11, 1))),
    (
        "FIXED 1 precision 2",
        &[ROOT_OF_ONE, ([7, 0, 5, 0, 0, 0, 0, 1, 0, 2], "d")],
        Ok(&[ROW_OF_ONE, [7, 1, 0, 5, 2, 0, 0, 2, 0, 0, 0]]),
    ),
    ("precision 10 on INT32", &[ROOT_OF_ONE, ([1, 0, 255, 5, 0, 0, 0, 0, 0, 10], "d")], Err((11, 1))),
    ("TIME_MILLIS with TIME(NANOS)", &[ROOT_OF_ONE, ([2, 0, 7, 7, 3, 1, 0, 0, 0, 0], "t")], Err((9, 1))),
    (
        "UINT_64 by the forward image, with INT(64, false) on INT64",
        &[ROOT_OF_ONE, ([2, 0, 14, 10, 64, 0, 0, 0, 0, 0], "u")],
        Ok(&[ROW_OF_ONE, [2, 0, 0, 10, 64, 0, 0, 2, 0, 0, 0]]),
    ),
    ("UINT_64 with INT(64, true)", &[ROOT_OF_ONE, ([2, 0, 14, 10, 64, 1, 0, 0, 0, 0], "u")], Err((9, 1))),
    (
        "a list of integers, rule 1",
        &[ROOT_OF_ONE, ([255, 1, 3, 0, 0, 0, 1, 0, 0, 0], "my_list"), ([1, 2, 255, 0, 0, 0, 0, 0, 0, 0], "element")],
        Ok(&[
            [255, 0, 255, 30, 0, 0, 0, 3, 0, 0, 0],
            [255, 0, 1, 3, 0, 0, 0, 3, 0, 1, 0],
            [1, 0, 2, 0, 0, 0, 1, 3, 2, 2, 1],
        ]),
    ),
    (
        "a list of tuples, rule 2",
        &[
            ROOT_OF_ONE,
            ([255, 1, 3, 0, 0, 0, 1, 0, 0, 0], "my_list"),
            ([255, 2, 255, 0, 0, 0, 2, 0, 0, 0], "element"),
            ([6, 0, 0, 0, 0, 0, 0, 0, 0, 0], "str"),
            ([1, 0, 255, 0, 0, 0, 0, 0, 0, 0], "num"),
        ],
        Ok(&[
            [255, 0, 255, 30, 0, 0, 0, 5, 0, 0, 0],
            [255, 0, 1, 3, 0, 0, 0, 5, 0, 1, 0],
            [255, 0, 2, 30, 0, 0, 1, 5, 3, 2, 1],
            [6, 0, 0, 1, 0, 0, 2, 4, 0, 2, 1],
            [1, 0, 0, 0, 0, 0, 2, 5, 0, 2, 1],
        ]),
    ),
    (
        "a list of one-tuples named array, rule 3",
        &[
            ROOT_OF_ONE,
            ([255, 1, 3, 0, 0, 0, 1, 0, 0, 0], "my_list"),
            ([255, 2, 255, 0, 0, 0, 1, 0, 0, 0], "array"),
            ([6, 0, 0, 0, 0, 0, 0, 0, 0, 0], "str"),
        ],
        Ok(&[
            [255, 0, 255, 30, 0, 0, 0, 4, 0, 0, 0],
            [255, 0, 1, 3, 0, 0, 0, 4, 0, 1, 0],
            [255, 0, 2, 30, 0, 0, 1, 4, 3, 2, 1],
            [6, 0, 0, 1, 0, 0, 2, 4, 0, 2, 1],
        ]),
    ),
    (
        "a list of one-tuples named my_list_tuple, rule 3",
        &[
            ROOT_OF_ONE,
            ([255, 1, 3, 0, 0, 0, 1, 0, 0, 0], "my_list"),
            ([255, 2, 255, 0, 0, 0, 1, 0, 0, 0], "my_list_tuple"),
            ([6, 0, 0, 0, 0, 0, 0, 0, 0, 0], "str"),
        ],
        Ok(&[
            [255, 0, 255, 30, 0, 0, 0, 4, 0, 0, 0],
            [255, 0, 1, 3, 0, 0, 0, 4, 0, 1, 0],
            [255, 0, 2, 30, 0, 0, 1, 4, 3, 2, 1],
            [6, 0, 0, 1, 0, 0, 2, 4, 0, 2, 1],
        ]),
    ),
    (
        "x_tuple without the list's own name, rule 4",
        &[
            ROOT_OF_ONE,
            ([255, 1, 3, 0, 0, 0, 1, 0, 0, 0], "my_list"),
            ([255, 2, 255, 0, 0, 0, 1, 0, 0, 0], "x_tuple"),
            ([6, 0, 0, 0, 0, 0, 0, 0, 0, 0], "str"),
        ],
        Ok(&[
            [255, 0, 255, 30, 0, 0, 0, 4, 0, 0, 0],
            [255, 0, 1, 3, 0, 0, 0, 4, 0, 1, 0],
            [255, 0, 2, 30, 0, 0, 1, 4, 1, 2, 1],
            [6, 0, 0, 1, 0, 0, 2, 4, 2, 2, 1],
        ]),
    ),
    (
        "a layer of one repeated field, R-2",
        &[
            ROOT_OF_ONE,
            ([255, 1, 3, 0, 0, 0, 1, 0, 0, 0], "my_list"),
            ([255, 2, 255, 0, 0, 0, 1, 0, 0, 0], "list"),
            ([6, 2, 0, 0, 0, 0, 0, 0, 0, 0], "str"),
        ],
        Ok(&[
            [255, 0, 255, 30, 0, 0, 0, 4, 0, 0, 0],
            [255, 0, 1, 3, 0, 0, 0, 4, 0, 1, 0],
            [255, 0, 2, 30, 0, 0, 1, 4, 3, 2, 1],
            [6, 0, 2, 1, 0, 0, 2, 4, 7, 3, 2],
        ]),
    ),
    (
        "a repeated list with such a layer, R-2",
        &[
            ROOT_OF_ONE,
            ([255, 2, 3, 0, 0, 0, 1, 0, 0, 0], "my_list"),
            ([255, 2, 255, 0, 0, 0, 1, 0, 0, 0], "list"),
            ([6, 2, 0, 0, 0, 0, 0, 0, 0, 0], "str"),
        ],
        Err((12, 1)),
    ),
    (
        "a map of strings to integers",
        &[
            ROOT_OF_ONE,
            ([255, 0, 1, 0, 0, 0, 1, 0, 0, 0], "my_map"),
            ([255, 2, 255, 0, 0, 0, 2, 0, 0, 0], "key_value"),
            ([6, 0, 0, 0, 0, 0, 0, 0, 0, 0], "key"),
            ([1, 1, 255, 0, 0, 0, 0, 0, 0, 0], "value"),
        ],
        Ok(&[
            [255, 0, 255, 30, 0, 0, 0, 5, 0, 0, 0],
            [255, 0, 0, 2, 0, 0, 0, 5, 0, 0, 0],
            [255, 0, 2, 30, 0, 0, 1, 5, 4, 1, 1],
            [6, 0, 0, 1, 0, 0, 2, 4, 5, 1, 1],
            [1, 0, 1, 0, 0, 0, 2, 5, 6, 2, 1],
        ]),
    ),
    (
        "MAP_KEY_VALUE in place of MAP",
        &[
            ROOT_OF_ONE,
            ([255, 1, 2, 0, 0, 0, 1, 0, 0, 0], "my_map"),
            ([255, 2, 255, 0, 0, 0, 2, 0, 0, 0], "map"),
            ([6, 0, 0, 0, 0, 0, 0, 0, 0, 0], "key"),
            ([1, 1, 255, 0, 0, 0, 0, 0, 0, 0], "value"),
        ],
        Ok(&[
            [255, 0, 255, 30, 0, 0, 0, 5, 0, 0, 0],
            [255, 0, 1, 2, 0, 0, 0, 5, 0, 1, 0],
            [255, 0, 2, 30, 0, 0, 1, 5, 4, 2, 1],
            [6, 0, 0, 1, 0, 0, 2, 4, 5, 2, 1],
            [1, 0, 1, 0, 0, 0, 2, 5, 6, 3, 1],
        ]),
    ),
    (
        "a layer without fields",
        &[ROOT_OF_ONE, ([255, 1, 3, 0, 0, 0, 1, 0, 0, 0], "l"), ([255, 2, 255, 0, 0, 0, 0, 0, 0, 0], "list")],
        Err((12, 1)),
    ),
    (
        "the levels of Dremel's Document, R-8",
        &[
            ([255, 255, 255, 0, 0, 0, 3, 0, 0, 0], "Document"),
            ([2, 0, 255, 0, 0, 0, 0, 0, 0, 0], "DocId"),
            ([255, 1, 255, 0, 0, 0, 2, 0, 0, 0], "Links"),
            ([2, 2, 255, 0, 0, 0, 0, 0, 0, 0], "Backward"),
            ([2, 2, 255, 0, 0, 0, 0, 0, 0, 0], "Forward"),
            ([255, 2, 255, 0, 0, 0, 2, 0, 0, 0], "Name"),
            ([255, 2, 255, 0, 0, 0, 2, 0, 0, 0], "Language"),
            ([6, 0, 0, 0, 0, 0, 0, 0, 0, 0], "Code"),
            ([6, 1, 0, 0, 0, 0, 0, 0, 0, 0], "Country"),
            ([6, 1, 0, 0, 0, 0, 0, 0, 0, 0], "Url"),
        ],
        Ok(&[
            [255, 0, 255, 30, 0, 0, 0, 10, 0, 0, 0],
            [2, 0, 0, 0, 0, 0, 0, 2, 0, 0, 0],
            [255, 0, 1, 30, 0, 0, 0, 5, 0, 1, 0],
            [2, 0, 2, 0, 0, 0, 2, 4, 7, 2, 1],
            [2, 0, 2, 0, 0, 0, 2, 5, 7, 2, 1],
            [255, 0, 2, 30, 0, 0, 0, 10, 7, 1, 1],
            [255, 0, 2, 30, 0, 0, 5, 9, 7, 2, 2],
            [6, 0, 0, 1, 0, 0, 6, 8, 0, 2, 2],
            [6, 0, 1, 1, 0, 0, 6, 9, 0, 3, 2],
            [6, 0, 1, 1, 0, 0, 5, 10, 0, 2, 1],
        ]),
    ),
];

/// Document 01's point "scale = precision", and document 02, R-4: the same on each physical type, at its greatest
/// precision, by one annotation and by both; no precision; a scale above the precision. R-10: an INT96 leaf, plain,
/// under UNKNOWN, behind a scale that equals its precision, and with a fault that comes before. R-11: GEOMETRY and
/// GEOGRAPHY, with parameters that they have not, on another physical type, and beside a converted type.
const SHEETS_BY_EDITION: [(&str, &[Slot], ByEdition<Rows>); 18] = [
    (
        "scale = precision",
        &[ROOT_OF_ONE, ([1, 0, 255, 5, 0, 0, 0, 0, 3, 3], "d")],
        since_second(Err((11, 1)), Ok(&[ROW_OF_ONE, [1, 0, 0, 5, 3, 3, 0, 2, 0, 0, 0]])),
    ),
    (
        "scale = precision on INT64, by converted",
        &[ROOT_OF_ONE, ([2, 1, 5, 0, 0, 0, 0, 0, 18, 18], "d")],
        since_second(Err((11, 1)), Ok(&[ROW_OF_ONE, [2, 0, 1, 5, 18, 18, 0, 2, 0, 1, 0]])),
    ),
    (
        "scale = precision on BYTE_ARRAY, by both",
        &[ROOT_OF_ONE, ([6, 0, 5, 5, 0, 0, 0, 0, 2_147_483_647, 2_147_483_647], "d")],
        since_second(Err((11, 1)), Ok(&[ROW_OF_ONE, [6, 0, 0, 5, 2_147_483_647, 2_147_483_647, 0, 2, 0, 0, 0]])),
    ),
    (
        "scale = precision on FIXED, by both",
        &[ROOT_OF_ONE, ([7, 0, 5, 5, 0, 0, 0, 16, 38, 38], "d")],
        since_second(Err((11, 1)), Ok(&[ROW_OF_ONE, [7, 16, 0, 5, 38, 38, 0, 2, 0, 0, 0]])),
    ),
    ("no precision", &[ROOT_OF_ONE, ([1, 0, 255, 5, 0, 0, 0, 0, 0, 0], "d")], [Err((11, 1)); 3]),
    ("scale above precision", &[ROOT_OF_ONE, ([1, 0, 255, 5, 0, 0, 0, 0, 4, 3], "d")], [Err((11, 1)); 3]),
    (
        "precision 10 and scale 10 on INT32",
        &[ROOT_OF_ONE, ([1, 0, 255, 5, 0, 0, 0, 0, 10, 10], "d")],
        [Err((11, 1)); 3],
    ),
    (
        "INT96",
        &[ROOT_OF_ONE, ([3, 0, 255, 0, 0, 0, 0, 0, 0, 0], "t")],
        until_third(Ok(&[ROW_OF_ONE, [3, 0, 0, 0, 0, 0, 0, 2, 0, 0, 0]]), Err((10, 1))),
    ),
    (
        "UNKNOWN on INT96",
        &[ROOT_OF_ONE, ([3, 1, 255, 11, 0, 0, 0, 0, 0, 0], "t")],
        until_third(Ok(&[ROW_OF_ONE, [3, 0, 1, 11, 0, 0, 0, 2, 0, 1, 0]]), Err((10, 1))),
    ),
    (
        "scale = precision, then INT96",
        &[
            ([255, 255, 255, 0, 0, 0, 2, 0, 0, 0], "r"),
            ([1, 0, 255, 5, 0, 0, 0, 0, 3, 3], "d"),
            ([3, 0, 255, 0, 0, 0, 0, 0, 0, 0], "t"),
        ],
        [
            Err((11, 1)),
            Ok(&[
                [255, 0, 255, 30, 0, 0, 0, 3, 0, 0, 0],
                [1, 0, 0, 5, 3, 3, 0, 2, 0, 0, 0],
                [3, 0, 0, 0, 0, 0, 0, 3, 0, 0, 0],
            ]),
            Err((10, 2)),
        ],
    ),
    ("a type length on INT96", &[ROOT_OF_ONE, ([3, 0, 255, 0, 0, 0, 0, 12, 0, 0], "t")], [Err((8, 1)); 3]),
    ("UTF8 beside ENUM on INT96", &[ROOT_OF_ONE, ([3, 0, 0, 4, 0, 0, 0, 0, 0, 0], "t")], [Err((9, 1)); 3]),
    (
        "GEOMETRY",
        &[ROOT_OF_ONE, ([6, 0, 255, 17, 0, 0, 0, 0, 0, 0], "p")],
        until_third(Err((4, 1)), Ok(&[ROW_OF_ONE, [6, 0, 0, 17, 0, 0, 0, 2, 0, 0, 0]])),
    ),
    (
        "GEOGRAPHY(KARNEY)",
        &[ROOT_OF_ONE, ([6, 1, 255, 18, 4, 0, 0, 0, 0, 0], "p")],
        until_third(Err((4, 1)), Ok(&[ROW_OF_ONE, [6, 0, 1, 18, 4, 0, 0, 2, 0, 1, 0]])),
    ),
    (
        "GEOGRAPHY of a sixth edge rule",
        &[ROOT_OF_ONE, ([6, 0, 255, 18, 5, 0, 0, 0, 0, 0], "p")],
        until_third(Err((4, 1)), Err((10, 1))),
    ),
    (
        "GEOMETRY on FIXED",
        &[ROOT_OF_ONE, ([7, 0, 255, 17, 0, 0, 0, 21, 0, 0], "p")],
        until_third(Err((4, 1)), Err((10, 1))),
    ),
    (
        "UTF8 beside GEOMETRY",
        &[ROOT_OF_ONE, ([6, 0, 0, 17, 0, 0, 0, 0, 0, 0], "p")],
        until_third(Err((4, 1)), Err((9, 1))),
    ),
    ("logical 16", &[ROOT_OF_ONE, ([6, 0, 255, 16, 0, 0, 0, 0, 0, 0], "p")], [Err((4, 1)); 3]),
];

/// Every sheet, with what an edition answers.
pub fn sheets(edition: u32) -> impl Iterator<Item = Sheet> {
    let in_all = SHEETS.into_iter().map(|(title, slots, rows)| (title, slots, [rows; KNOWN_EDITIONS.len()]));
    let all = in_all.chain(SHEETS_BY_EDITION);
    all.map(move |(title, slots, rows)| (title, slots, answer_in(edition, rows, Err((21, 0)))))
}

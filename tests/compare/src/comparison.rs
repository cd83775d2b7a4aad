//! One input given to both sides, and all that they answer and leave compared.

use std::fmt;
use std::hint::black_box;

use independent::boxes::WIDTH;
use independent::compare::{ENTRY, ONLY_IN_FIRST, ONLY_IN_SECOND, PLACES};
use independent::int96::SIZE;
use independent::refusal::{is_of_a_sheet, OUTPUT, UNKNOWN_EDITION};
use independent::sheet::FIELDS;
use independent::ROW_WIDTH;

use crate::columns::Column;
use crate::lent::Lent;
use crate::side::{fault_of, refusal_of, refused, shown, value_of, Side};

/// Two sides, the buffers lent to them, and what was counted.
pub struct Comparison<'a> {
    left: &'a dyn Side,
    right: &'a dyn Side,
    rows: Lent<u32>,
    bytes: Lent<u8>,
    words: Lent<u64>,
    numbers: Lent<i64>,
    bounds: Lent<f64>,
    /// What was counted.
    pub tally: Tally,
}

/// How many refusals there are.
const REFUSALS: usize = 21;
/// One past the greatest code of an entry of a list.
const CODES: usize = ONLY_IN_SECOND as usize + 1;

/// How often each thing was met.
pub struct Tally {
    /// Comparisons made.
    pub comparisons: u64,
    /// Refusals, by number.
    pub refusals: [u64; REFUSALS + 1],
    /// Rows of accepted sheets, by kind.
    pub kinds: [u64; 31],
    /// Rows of accepted sheets, by role.
    pub roles: [u64; 8],
    /// Values read, by case.
    pub cases: [u64; 6],
    /// Values ordered, by answer.
    pub orders: [u64; 4],
    /// Orders refused, by the value at fault.
    pub faults: [u64; 3],
    /// Entries of lists, by code.
    pub codes: [u64; CODES],
    /// Comparisons of sheets refused, by the sheet at fault.
    pub sheet_faults: [u64; 3],
    /// Boxes asked for: there is none, there is one.
    pub boxes: [u64; 2],
    /// Points tested: outside, inside.
    pub tested: [u64; 2],
}

/// Where the sides differ, or a promise is broken by both.
pub struct Difference {
    entry: &'static str,
    input: String,
    what: String,
}

impl Difference {
    /// The entry and how it differs, without the input.
    pub fn in_short(&self) -> String {
        format!("{}: {}", self.entry, self.what)
    }
}

impl fmt::Display for Difference {
    fn fmt(&self, f: &mut fmt::Formatter<'_>) -> fmt::Result {
        write!(f, "{}: {}\n  given {}", self.entry, self.what, self.input)
    }
}

fn hex(bytes: &[u8]) -> String {
    bytes.iter().map(|byte| format!("{byte:02x}")).collect()
}

/// What an entry was given and what both sides answered.
struct Answers {
    entry: &'static str,
    left: u64,
    right: u64,
}

impl Answers {
    /// Holds the answers, and a lent buffer with the stretch that a result fills, to one another and to the promises: a
    /// refusal leaves all as it was, a result all but its stretch.
    fn check<T: Copy + PartialEq>(
        &self,
        lent: Option<(&Lent<T>, usize, usize)>,
        input: impl FnOnce() -> String,
    ) -> Result<(), Difference> {
        let fault = if self.left != self.right {
            format!("{} against {}", shown(self.left), shown(self.right))
        } else {
            match lent {
                Some((lent, ..)) if !lent.is_alike() => format!("{}, but the lent buffers differ", shown(self.left)),
                Some((lent, ..)) if refusal_of(self.left) != 0 && !lent.is_kept() => {
                    format!("{}, but a lent buffer was written to", shown(self.left))
                }
                Some((lent, start, length)) if refusal_of(self.left) == 0 && !lent.is_kept_but(start, length) => {
                    format!("{}, but more was written than the result", shown(self.left))
                }
                _ => return Ok(()),
            }
        };
        Err(Difference { entry: self.entry, input: input(), what: fault })
    }
}

impl<'a> Comparison<'a> {
    /// A comparison of two sides.
    pub fn new(left: &'a dyn Side, right: &'a dyn Side) -> Self {
        let (rows, bytes, words, numbers, bounds) = Default::default();
        Comparison { left, right, rows, bytes, words, numbers, bounds, tally: Tally::new() }
    }

    fn count(&mut self, answer: u64) {
        self.tally.comparisons += 1;
        self.tally.refusals[refusal_of(answer) as usize % (REFUSALS + 1)] += 1;
    }

    /// Resolves a sheet into so many lent numbers, by an edition.
    pub fn resolve(&mut self, edition: u32, sheet: &[u8], lent: usize) -> Result<u64, Difference> {
        let salt = sheet.len() as u32;
        self.rows.prepare(lent, |at| (at as u32).wrapping_mul(0x9E37_79B9) ^ salt);
        let left = on_copies([sheet], |[sheet]| self.left.resolve(edition, sheet, self.rows.left()))?;
        let right = self.right.resolve(edition, sheet, self.rows.right());
        let written = if refusal_of(left) == 0 { ROW_WIDTH * value_of(left) as usize } else { 0 };
        let answers = Answers { entry: "resolve", left, right };
        let input = || format!("edition {edition}, {lent} lent, sheet {}", hex(sheet));
        answers.check(Some((&self.rows, 0, written)), input)?;
        self.count(left);
        for row in self.rows.held()[..written].chunks_exact(ROW_WIDTH) {
            self.tally.kinds[row[3] as usize % 31] += 1;
            self.tally.roles[row[8] as usize % 8] += 1;
        }
        Ok(left)
    }

    /// Rewrites a sheet into so many lent bytes, from a start on, by an edition.
    pub fn rewrite(&mut self, edition: u32, sheet: &[u8], lent: usize, start: usize) -> Result<u64, Difference> {
        self.bytes.prepare(lent, byte_marks(sheet.len()));
        let left = on_copies([sheet], |[sheet]| self.left.rewrite(edition, sheet, self.bytes.left(), start))?;
        let right = self.right.rewrite(edition, sheet, self.bytes.right(), start);
        let answers = Answers { entry: "rewrite", left, right };
        let input = || format!("edition {edition}, {lent} lent from {start}, sheet {}", hex(sheet));
        answers.check(Some((&self.bytes, start, value_of(left) as usize)), input)?;
        self.count(left);
        Ok(left)
    }

    /// What the last rewriting wrote, which answered this; a refusal writes nothing.
    pub fn rewritten(&self, start: usize, answer: u64) -> Vec<u8> {
        match refusal_of(answer) {
            0 => self.bytes.held()[start..][..value_of(answer) as usize].to_vec(),
            _ => Vec::new(),
        }
    }

    /// Compares two sheets into so many lent bytes, by an edition, and holds each refusal to what rewriting answers.
    pub fn compare(&mut self, edition: u32, first: &[u8], second: &[u8], lent: usize) -> Result<u64, Difference> {
        self.bytes.prepare(lent, byte_marks(first.len() ^ second.len()));
        let left =
            on_copies([first, second], |[first, second]| self.left.compare(edition, first, second, self.bytes.left()))?;
        let right = self.right.compare(edition, first, second, self.bytes.right());
        let answers = Answers { entry: "compare", left, right };
        let input = || format!("edition {edition}, {lent} lent, sheets {} and {}", hex(first), hex(second));
        answers.check(Some((&self.bytes, 0, ENTRY * value_of(left) as usize)), input)?;
        self.count(left);
        let judged = [first, second].map(|sheet| self.left.rewrite(edition, sheet, &mut [], 0));
        if !is_of_sheets(left, judged) {
            let what = format!("{}, but the sheets are judged {:?}", shown(left), judged.map(shown));
            return Err(Difference { entry: "compare", input: input(), what });
        }
        if refusal_of(left) != 0 {
            self.tally.sheet_faults[fault_of(left) as usize % 3] += 1;
            return Ok(left);
        }
        for entry in self.bytes.held()[..ENTRY * value_of(left) as usize].chunks_exact(ENTRY) {
            self.tally.codes[usize::from(entry[0]) % CODES] += 1;
        }
        Ok(left)
    }

    /// The list that the last comparison of sheets wrote, which answered this; a refusal writes none.
    pub fn list(&self, answer: u64) -> Vec<u8> {
        match refusal_of(answer) {
            0 => self.bytes.held()[..ENTRY * value_of(answer) as usize].to_vec(),
            _ => Vec::new(),
        }
    }

    /// The rows that the last resolving wrote, which answered this; a refusal writes none.
    pub fn resolved(&self, answer: u64) -> Vec<u32> {
        match refusal_of(answer) {
            0 => self.rows.held()[..ROW_WIDTH * value_of(answer) as usize].to_vec(),
            _ => Vec::new(),
        }
    }

    /// What the numbers hold that were lent to the last reading.
    pub fn read_words(&self) -> &[u64] {
        self.words.held()
    }

    /// Reads a value, with so many numbers lent, by an edition.
    pub fn read(&mut self, edition: u32, column: Column, value: &[u8], lent: usize) -> Result<u64, Difference> {
        let salt = value.len() as u64;
        self.words.prepare(lent, |at| (at as u64).wrapping_mul(0x9E37_79B9_7F4A_7C15) ^ salt);
        let left = on_copies([value], |[value]| self.left.read(edition, column, value, self.words.left()))?;
        let right = self.right.read(edition, column, value, self.words.right());
        let answers = Answers { entry: "read", left, right };
        let input = || format!("edition {edition}, column {column:?}, value {}, {lent} lent", hex(value));
        answers.check(Some((&self.words, 0, 2)), input)?;
        self.count(left);
        if refusal_of(left) == 0 {
            self.tally.cases[value_of(left) as usize % 6] += 1;
        }
        Ok(left)
    }

    /// Orders two values, both ways, by an edition, and holds each refusal to what reading answers.
    pub fn order(&mut self, edition: u32, column: Column, a: &[u8], b: &[u8]) -> Result<u64, Difference> {
        let answer = self.order_once(edition, column, a, b)?;
        let turned = self.order_once(edition, column, b, a)?;
        let expected = match (refusal_of(answer), value_of(answer)) {
            (0, value @ (0 | 2)) => u64::from(2 - value),
            (0, value) => u64::from(value),
            // Which value is at fault may differ; that it is, reading tells.
            _ => turned,
        };
        if turned != expected {
            let what = format!("{} one way, {} the other", shown(answer), shown(turned));
            let input = format!("edition {edition}, {column:?} {} {}", hex(a), hex(b));
            return Err(Difference { entry: "order", input, what });
        }
        Ok(answer)
    }

    fn order_once(&mut self, edition: u32, column: Column, a: &[u8], b: &[u8]) -> Result<u64, Difference> {
        let left = on_copies([a, b], |[a, b]| self.left.order(edition, column, a, b))?;
        let right = self.right.order(edition, column, a, b);
        let answers = Answers { entry: "order", left, right };
        let input = || format!("edition {edition}, column {column:?}, values {} and {}", hex(a), hex(b));
        answers.check::<u8>(None, input)?;
        self.count(left);
        if refusal_of(left) == 0 {
            self.tally.orders[value_of(left) as usize % 4] += 1;
        } else {
            self.tally.faults[fault_of(left) as usize % 3] += 1;
        }
        let read = |value: &[u8]| self.left.read(edition, column, value, &mut [0; 2]);
        if !agrees(left, [a, b].map(read)) {
            let what = format!("{}, but the values are read as {:?}", shown(left), [a, b].map(read).map(shown));
            return Err(Difference { entry: "order", input: input(), what });
        }
        Ok(left)
    }

    /// Decodes a count, with so many numbers lent.
    pub fn decode(&mut self, unit: u32, count: i64, lent: usize) -> Result<u64, Difference> {
        self.numbers.prepare(lent, |at| (at as i64).wrapping_mul(0x1E37_79B9_7F4A_7C15) ^ count);
        let left = self.left.decode(unit, count, self.numbers.left());
        let right = self.right.decode(unit, count, self.numbers.right());
        let answers = Answers { entry: "decode", left, right };
        answers.check(Some((&self.numbers, 0, 7)), || format!("unit {unit}, count {count}, {lent} lent"))?;
        self.count(left);
        Ok(left)
    }

    /// The fields that the last decoding wrote.
    pub fn decoded(&self) -> [i64; 7] {
        *self.numbers.held().first_chunk().expect("seven fields were written")
    }

    /// Encodes fields, of which there may be any number, with so many numbers lent.
    pub fn encode(&mut self, unit: u32, fields: &[i64], lent: usize) -> Result<u64, Difference> {
        self.numbers.prepare(lent, |at| (at as i64).wrapping_mul(0x1E37_79B9_7F4A_7C15));
        let mut copy = fields.to_vec();
        let left = self.left.encode(unit, &copy, self.numbers.left());
        let right = self.right.encode(unit, fields, self.numbers.right());
        let answers = Answers { entry: "encode", left, right };
        let input = || format!("unit {unit}, fields {fields:?}, {lent} lent");
        answers.check(Some((&self.numbers, 0, 1)), input)?;
        // The compiler may not take it that the copy is as it was.
        if *black_box(&mut copy) != fields {
            return Err(written_to("encode"));
        }
        self.count(left);
        Ok(left)
    }

    /// Turns an INT96 into its count, with so many numbers lent.
    pub fn from_int96(&mut self, value: &[u8], lent: usize) -> Result<u64, Difference> {
        self.numbers.prepare(lent, |at| (at as i64).wrapping_mul(0x1E37_79B9_7F4A_7C15) ^ value.len() as i64);
        let left = on_copies([value], |[value]| self.left.from_int96(value, self.numbers.left()))?;
        let right = self.right.from_int96(value, self.numbers.right());
        let answers = Answers { entry: "from_int96", left, right };
        answers.check(Some((&self.numbers, 0, 1)), || format!("value {}, {lent} lent", hex(value)))?;
        self.count(left);
        Ok(left)
    }

    /// The count that the last encoding, or the last turning of an INT96, wrote.
    pub fn encoded(&self) -> i64 {
        self.numbers.held()[0]
    }

    /// Turns a count into its INT96, with so many bytes lent.
    pub fn to_int96(&mut self, count: i64, lent: usize) -> Result<u64, Difference> {
        self.bytes.prepare(lent, byte_marks(count as usize));
        let left = self.left.to_int96(count, self.bytes.left());
        let right = self.right.to_int96(count, self.bytes.right());
        let answers = Answers { entry: "to_int96", left, right };
        answers.check(Some((&self.bytes, 0, SIZE)), || format!("count {count}, {lent} lent"))?;
        self.count(left);
        Ok(left)
    }

    /// The INT96 that the last turning of a count wrote.
    pub fn int96(&self) -> [u8; SIZE] {
        *self.bytes.held().first_chunk().expect("twelve bytes were written")
    }

    /// Finds the box of points, with so many numbers lent. Bounds are compared as numbers: zeros are equal.
    pub fn box_of(&mut self, kind: u32, points: &[f64], lent: usize) -> Result<u64, Difference> {
        // No mark is a NaN or a zero, so equal marks have the same bits.
        self.bounds.prepare(lent, |at| f64::from_bits(0x5A5A_5A5A_0000_0001 ^ (at as u64) << 8));
        let mut copy = points.to_vec();
        let left = self.left.box_of(kind, &copy, self.bounds.left());
        let right = self.right.box_of(kind, points, self.bounds.right());
        let written = if left == WIDTH as u64 { WIDTH } else { 0 };
        let answers = Answers { entry: "box_of", left, right };
        answers.check(Some((&self.bounds, 0, written)), || format!("kind {kind}, {lent} lent, points {points:?}"))?;
        // The compiler may not take it that the copy is as it was.
        if !black_box(&mut copy).iter().map(|number| number.to_bits()).eq(points.iter().map(|number| number.to_bits()))
        {
            return Err(written_to("box_of"));
        }
        self.count(left);
        if refusal_of(left) == 0 {
            self.tally.boxes[usize::from(written > 0)] += 1;
        }
        Ok(left)
    }

    /// The box that the last finding of one wrote.
    pub fn bounds(&self) -> [f64; WIDTH] {
        *self.bounds.held().first_chunk().expect("four bounds were written")
    }

    /// Tests whether a point is inside a box.
    pub fn inside(&mut self, kind: u32, bounds: [f64; WIDTH], x: f64, y: f64) -> Result<u64, Difference> {
        let left = self.left.inside(kind, bounds, x, y);
        let right = self.right.inside(kind, bounds, x, y);
        let answers = Answers { entry: "inside", left, right };
        answers.check::<u8>(None, || format!("kind {kind}, box {bounds:?}, point {x:?} {y:?}"))?;
        self.count(left);
        if refusal_of(left) == 0 {
            self.tally.tested[value_of(left) as usize % 2] += 1;
        }
        Ok(left)
    }
}

/// Whether an order is answered by what reading answers for its two values: the refusal of the first that is refused, with its number and
/// place. A refusal of neither value is 17, or 20 or 21, which reading gives too.
fn agrees(order: u64, [first, second]: [u64; 2]) -> bool {
    let is_read = |answer| refusal_of(answer) == 0;
    let is_refusal_of = |answer| !is_read(answer) && refused(refusal_of(order), value_of(order)) == answer;
    match (refusal_of(order), fault_of(order)) {
        (0, 0) => is_read(first) && is_read(second),
        (17, 0) => true,
        (20 | 21, 0) => is_refusal_of(first) && is_refusal_of(second),
        (15 | 16, 1) => is_refusal_of(first),
        (15 | 16, 2) => is_read(first) && is_refusal_of(second),
        _ => false,
    }
}

/// Whether a comparison is answered by what rewriting into nothing answers for its two sheets: the refusal of the first that is refused,
/// with its number and place. An accepted sheet is answered 14 there.
fn is_of_sheets(compared: u64, [first, second]: [u64; 2]) -> bool {
    let is_accepted = |answer| answer == refused(OUTPUT, 0);
    let is_refusal_of = |answer| refused(refusal_of(compared), value_of(compared)) == answer;
    match (refusal_of(compared), fault_of(compared)) {
        (0 | OUTPUT, 0) => is_accepted(first) && is_accepted(second),
        (UNKNOWN_EDITION, 0) => is_refusal_of(first) && is_refusal_of(second),
        (number, 1) if is_of_a_sheet(number) => is_refusal_of(first),
        (number, 2) if is_of_a_sheet(number) => is_accepted(first) && is_refusal_of(second),
        _ => false,
    }
}

/// Calls a side on copies of inputs, with known bytes around them, and looks whether they are as they were.
fn on_copies<const N: usize>(inputs: [&[u8]; N], call: impl FnOnce([&[u8]; N]) -> u64) -> Result<u64, Difference> {
    const AROUND: [u8; 16] = [0x5A; 16];
    let mut copies = inputs.map(|input| [&AROUND, input, &AROUND].concat());
    let answer = call(std::array::from_fn(|i| &copies[i][AROUND.len()..copies[i].len() - AROUND.len()]));
    // The compiler may not take it that the copies are as they were.
    for (input, copy) in inputs.iter().zip(black_box(&mut copies)) {
        let (before, rest) = copy.split_at(AROUND.len());
        let (held, after) = rest.split_at(input.len());
        if before != AROUND || held != *input || after != AROUND {
            return Err(written_to("an entry"));
        }
    }
    Ok(answer)
}

fn written_to(entry: &'static str) -> Difference {
    Difference { entry, input: "-".to_string(), what: "an input was written to".to_string() }
}

/// What lent bytes hold before, by their places.
fn byte_marks(salt: usize) -> impl Fn(usize) -> u8 {
    move |at| ((at as u32).wrapping_mul(0x9E37_79B9) >> 24) as u8 ^ salt as u8
}

impl Tally {
    fn new() -> Self {
        Tally {
            comparisons: 0,
            refusals: [0; REFUSALS + 1],
            kinds: [0; 31],
            roles: [0; 8],
            cases: [0; 6],
            orders: [0; 4],
            faults: [0; 3],
            codes: [0; CODES],
            sheet_faults: [0; 3],
            boxes: [0; 2],
            tested: [0; 2],
        }
    }

    /// How often each code of an entry was met: those of fields, then the others.
    fn codes(&self) -> Vec<(usize, u64)> {
        let fields = FIELDS.into_iter().map(|field| field.start);
        let others = [PLACES, ONLY_IN_FIRST, ONLY_IN_SECOND].map(usize::from);
        fields.chain(others).map(|code| (code, self.codes[code])).collect()
    }

    /// What was met less often than it must be.
    pub fn missing(&self, least: u64) -> Vec<String> {
        /// The kinds that rows have: plain leaf, logical types, INTERVAL, plain group.
        const KINDS: [usize; 18] = [0, 1, 2, 3, 4, 5, 6, 7, 8, 10, 11, 12, 13, 14, 17, 18, 21, 30];
        let all = [
            ("refusal", (1..=REFUSALS).map(|n| (n, self.refusals[n])).collect::<Vec<_>>()),
            ("kind", KINDS.iter().map(|&n| (n, self.kinds[n])).collect()),
            ("role", self.roles.iter().copied().enumerate().collect()),
            ("case of a value", self.cases.iter().copied().enumerate().collect()),
            ("order", self.orders.iter().copied().enumerate().collect()),
            ("value at fault", self.faults.iter().copied().enumerate().collect()),
            ("code of an entry", self.codes()),
            ("sheet at fault", self.sheet_faults.iter().copied().enumerate().collect()),
            ("answer of a box", self.boxes.iter().copied().enumerate().collect()),
            ("answer of a point", self.tested.iter().copied().enumerate().collect()),
        ];
        let mut missing = Vec::new();
        for (what, counts) in all {
            let few = counts.into_iter().filter(|&(_, count)| count < least);
            missing.extend(few.map(|(n, count)| format!("{what} {n}: {count} times, not {least}")));
        }
        missing
    }
}

impl fmt::Display for Tally {
    fn fmt(&self, f: &mut fmt::Formatter<'_>) -> fmt::Result {
        write!(f, "refusals")?;
        (1..=REFUSALS).try_for_each(|n| write!(f, " {n}:{}", self.refusals[n]))?;
        write!(f, "\nresults {}; roles", self.refusals[0])?;
        self.roles.iter().enumerate().try_for_each(|(n, count)| write!(f, " {n}:{count}"))?;
        write!(f, "\nkinds")?;
        let kinds = self.kinds.iter().enumerate().filter(|(_, &count)| count > 0);
        kinds.into_iter().try_for_each(|(n, count)| write!(f, " {n}:{count}"))?;
        write!(f, "\ncases of values")?;
        self.cases.iter().enumerate().try_for_each(|(n, count)| write!(f, " {n}:{count}"))?;
        write!(f, "\norders")?;
        self.orders.iter().enumerate().try_for_each(|(n, count)| write!(f, " {n}:{count}"))?;
        write!(f, "; values at fault")?;
        self.faults.iter().enumerate().try_for_each(|(n, count)| write!(f, " {n}:{count}"))?;
        write!(f, "\ncodes of entries")?;
        self.codes().iter().try_for_each(|(n, count)| write!(f, " {n}:{count}"))?;
        write!(f, "; sheets at fault")?;
        self.sheet_faults.iter().enumerate().try_for_each(|(n, count)| write!(f, " {n}:{count}"))?;
        let ([no_box, boxes], [outside, inside]) = (self.boxes, self.tested);
        write!(f, "\nboxes {boxes}, no box {no_box}; points inside {inside}, outside {outside}")
    }
}

/// A difference found by a promise of the whole and not of one entry.
pub fn broken(entry: &'static str, what: String, input: &[u8]) -> Difference {
    Difference { entry, what, input: hex(input) }
}

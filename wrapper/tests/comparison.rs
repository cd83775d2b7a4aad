//! Every kind of difference through the safe functions, and what a refused comparison leaves unchanged.

mod sheets;

use griffeljol::codes::{converted, difference, kind, logical, physical, repetition, unit};
use griffeljol::{compare, differences, rows};
use griffeljol::{
    CompareRefusal, Difference, Edition, Field, Refusal, Sides, Slot, ENTRY_WIDTH, MAX_ENTRIES, MAX_NAME,
};
use sheets::{leaf, root, sheet};

/// A required group of so many children.
fn group(name: &str, child_count: u32) -> Slot {
    Slot { child_count, ..leaf(name, physical::GROUP) }
}

/// What stands in each of two sheets.
fn sides<T>(first: T, second: T) -> Sides<T> {
    Sides { first, second }
}

/// The differences of two accepted sheets of these slots.
fn found(first: &[Slot], second: &[Slot]) -> Vec<Difference> {
    differences(Edition::FIRST, &sheet(first), &sheet(second)).expect("both are accepted")
}

/// The fields in which a leaf of one name differs from another.
fn fields(first: Slot, second: Slot) -> Vec<Field> {
    let field = |difference: Difference| match difference {
        Difference::Field { node: 1, field } => field,
        other => panic!("a field of node 1, and not {other:?}"),
    };
    found(&[root("r", 1), first], &[root("r", 1), second]).into_iter().map(field).collect()
}

fn refused<T>(sheet: u8, number: u8, place: u32) -> Result<T, CompareRefusal> {
    Err(CompareRefusal { refusal: Refusal { number, place }, sheet })
}

#[test]
fn a_sheet_does_not_differ_from_itself() {
    let slots =
        [root("r", 3), group("g", 1)].into_iter().chain(["x", "x", "x"].map(|name| leaf(name, physical::INT32)));
    let slots: Vec<Slot> = slots.collect();
    assert_eq!(found(&slots, &slots), []);
    let mut out = [7; 3];
    assert_eq!(compare(Edition::SECOND, &sheet(&slots), &sheet(&slots), &mut out), Ok(0));
    assert_eq!(out, [7; 3]);
}

#[test]
fn each_field() {
    let decimal = |physical, scale, precision| {
        let annotated = Slot { converted: converted::DECIMAL, logical: logical::DECIMAL, ..leaf("x", physical) };
        Slot { scale, precision, ..annotated }
    };
    let fixed =
        Slot { repetition: repetition::OPTIONAL, type_length: 300, ..leaf("x", physical::FIXED_LEN_BYTE_ARRAY) };
    assert_eq!(
        fields(decimal(physical::INT32, 1, 9), fixed),
        [
            Field::Physical(sides(physical::INT32, physical::FIXED_LEN_BYTE_ARRAY)),
            Field::Repetition(sides(repetition::REQUIRED, repetition::OPTIONAL)),
            Field::Converted(sides(converted::DECIMAL, converted::NONE)),
            Field::Logical(sides(logical::DECIMAL, logical::NONE)),
            Field::TypeLength(sides(0, 300)),
            Field::Scale(sides(1, 0)),
            Field::Precision(sides(9, 0)),
        ]
    );
    let precise = |precision| decimal(physical::BYTE_ARRAY, 0, precision);
    assert_eq!(fields(precise(1), precise(i32::MAX)), [Field::Precision(sides(1, i32::MAX))]);
    let integer = Slot { logical: logical::INTEGER, a: 64, b: 1, ..leaf("x", physical::INT64) };
    let timestamp = Slot { logical: logical::TIMESTAMP, a: unit::NANOS, b: 0, ..leaf("x", physical::INT64) };
    assert_eq!(
        fields(integer, timestamp),
        [
            Field::Logical(sides(logical::INTEGER, logical::TIMESTAMP)),
            Field::A(sides(64, unit::NANOS)),
            Field::B(sides(1, 0)),
        ]
    );
}

#[test]
fn names_of_roots() {
    let name = |name: &[u8]| {
        let mut bytes = [0; MAX_NAME];
        bytes[..name.len()].copy_from_slice(name);
        bytes
    };
    let field = |field| Difference::Field { node: 0, field };
    let longest = "s".repeat(MAX_NAME);
    assert_eq!(
        found(&[root("r", 0)], &[root(&longest, 0)]),
        [field(Field::NameLength(sides(1, 48))), field(Field::Name(sides(name(b"r"), name(longest.as_bytes()))))]
    );
    // Names that differ by a zero at the end differ in their length alone.
    assert_eq!(found(&[root("r", 0)], &[root("r\0", 0)]), [field(Field::NameLength(sides(1, 2)))]);
}

#[test]
fn nodes_of_one_sheet_and_places() {
    let kept = || leaf("kept", physical::BOOLEAN);
    let first = [root("r", 2), kept(), group("gone", 1), leaf("below", physical::FLOAT)];
    let came = Slot { logical: kind::STRING, name: b"\xFFcame".to_vec(), ..leaf("", physical::BYTE_ARRAY) };
    let second = [root("r", 3), came.clone(), leaf("new", physical::INT96), kept()];
    let found = found(&first, &second);
    assert_eq!(
        found,
        [
            Difference::Field { node: 0, field: Field::ChildCount(sides(2, 3)) },
            Difference::Place { node: 1, places: sides(0, 2) },
            Difference::OnlyFirst { node: 2, slot: first[2].clone() },
            Difference::OnlyFirst { node: 3, slot: first[3].clone() },
            Difference::OnlySecond { node: 1, slot: came },
            Difference::OnlySecond { node: 2, slot: second[2].clone() },
        ]
    );
    assert_eq!(found.iter().map(Difference::node).collect::<Vec<_>>(), [0, 1, 2, 3, 1, 2]);
    let codes = [
        difference::CHILD_COUNT,
        difference::PLACE,
        difference::ONLY_FIRST,
        difference::ONLY_FIRST,
        difference::ONLY_SECOND,
        difference::ONLY_SECOND,
    ];
    assert_eq!(found.iter().map(Difference::code).collect::<Vec<_>>(), codes);
}

#[test]
fn the_longest_sheets() {
    let many = |name: &str| {
        let mut slots = vec![root("r", 895)];
        slots.resize(896, leaf(name, physical::INT32));
        slots
    };
    let found = found(&many("x"), &many("y"));
    assert_eq!(found.len(), 2 * 895);
    assert_eq!(found[894], Difference::OnlyFirst { node: 895, slot: leaf("x", physical::INT32) });
    assert_eq!(found[895], Difference::OnlySecond { node: 1, slot: leaf("y", physical::INT32) });
    assert!(found.len() <= MAX_ENTRIES);
}

#[test]
fn refused_comparisons_write_nothing() {
    let (one, two) = (sheet(&[root("r", 0)]), sheet(&[root("s", 0)]));
    let mut wrong = one.clone();
    wrong[100] = 1;
    let shapeless = sheet(&[root("r", 1), Slot { type_length: 1, ..leaf("x", physical::INT32) }]);
    let mut out = [7; ENTRY_WIDTH + 1];
    assert_eq!(compare(Edition::FIRST, &wrong, &shapeless, &mut out), refused(1, 2, 0));
    assert_eq!(compare(Edition::FIRST, &shapeless, &wrong, &mut out), refused(1, 8, 1));
    assert_eq!(compare(Edition::FIRST, &one, &shapeless, &mut []), refused(2, 8, 1));
    assert_eq!(compare(Edition::FIRST, &one, &[], &mut out), refused(2, 1, 0));
    assert_eq!(differences(Edition::FIRST, &[], &[]), refused(1, 1, 0));
    assert_eq!(compare(Edition::FIRST, &one, &two, &mut out[..ENTRY_WIDTH - 1]), refused(0, 14, 0));
    for edition in [0, 4, u32::MAX].map(Edition::from) {
        assert_eq!(compare(edition, &[], &[], &mut out), refused(0, 21, 0));
        assert_eq!(differences(edition, &one, &wrong), refused(0, 21, 0));
    }
    assert_eq!(out, [7; ENTRY_WIDTH + 1]);
    assert_eq!(compare(Edition::FIRST, &one, &two, &mut out), Ok(1));
    assert_eq!((out[0], out[ENTRY_WIDTH]), (24, 7));
}

#[test]
fn a_refusal_says_which_sheet() {
    let (one, shapeless) = (sheet(&[root("r", 0)]), sheet(&[root("r", 1), group("g", 0)]));
    let refused = |first: &[u8], second: &[u8]| differences(Edition::FIRST, first, second).unwrap_err();
    assert_eq!(refused(&shapeless, &one).to_string(), "refused 8 at 1 in sheet 1");
    assert_eq!(refused(&one, &shapeless).to_string(), "refused 8 at 1 in sheet 2");
    assert_eq!(Err(refused(&one, &shapeless).refusal), rows(Edition::FIRST, &shapeless));
    assert_eq!(differences(Edition::from(4), &one, &one).unwrap_err().to_string(), "refused 21 at 0");
}

#[test]
fn one_edition_judges_both() {
    let decimal = |scale| {
        let leaf = Slot { logical: logical::DECIMAL, scale, precision: 3, ..leaf("fee", physical::INT32) };
        sheet(&[root("r", 1), leaf])
    };
    assert_eq!(differences(Edition::FIRST, &decimal(2), &decimal(3)), refused(2, 11, 1));
    let scale = Difference::Field { node: 1, field: Field::Scale(sides(2, 3)) };
    assert_eq!(differences(Edition::SECOND, &decimal(2), &decimal(3)), Ok(vec![scale]));
    let int96 = sheet(&[root("r", 1), leaf("fee", physical::INT96)]);
    assert_eq!(differences(Edition::SECOND, &int96, &int96), Ok(Vec::new()));
    assert_eq!(differences(Edition::THIRD, &int96, &decimal(2)), refused(1, 10, 1));
    assert_eq!(differences(Edition::THIRD, &decimal(2), &int96), refused(2, 10, 1));
}

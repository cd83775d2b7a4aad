//! The order of refusals, their places, and that a refused call leaves what it was lent.

use independent::edition::{FIRST, SECOND, THIRD};
use independent::sheet::{assemble, renew_checks, slot_start, Slot, BLOCK};
use independent::{encode, order, read, resolve, rewrite, ColumnType, Fields, PairRefusal, Refusal, ROW_WIDTH};

fn refused(number: u32, place: u32) -> Refusal {
    Refusal { number, place }
}

const ROOT: Slot = Slot { physical: 255, repetition: 255, converted: 255, name_length: 1, name: b"r", ..Slot::UNUSED };
const LEAF: Slot = Slot { physical: 1, repetition: 0, name: b"v", ..ROOT };

/// A root with so many leaves.
fn flat(leaves: u16) -> Vec<u8> {
    let mut slots = vec![LEAF; usize::from(leaves) + 1];
    slots[0] = Slot { children: leaves, ..ROOT };
    assemble(&slots)
}

/// Resolving and rewriting a sheet, which both refuse it alike in each edition and leave their outputs; an unknown edition comes first.
fn refusal_of(sheet: &[u8]) -> Refusal {
    let refusal = refusal_in(FIRST, sheet);
    assert_eq!([SECOND, THIRD].map(|edition| refusal_in(edition, sheet)), [refusal; 2]);
    for unknown in UNKNOWN {
        assert_eq!(refusal_in(unknown, sheet), refused(21, 0));
    }
    refusal
}

/// The known editions.
const EDITIONS: [u32; 3] = [FIRST, SECOND, THIRD];

/// Numbers of no edition.
const UNKNOWN: [u32; 5] = [0, 4, 5, 257, u32::MAX];

fn refusal_in(edition: u32, sheet: &[u8]) -> Refusal {
    let (mut rows, mut out) = ([7; 20_000], vec![9; 140_000]);
    let refusal = resolve(edition, sheet, &mut rows).unwrap_err();
    assert_eq!(rewrite(edition, sheet, &mut out, 3), Err(refusal));
    assert!(rows.iter().all(|&number| number == 7) && out.iter().all(|&byte| byte == 9));
    refusal
}

fn changed(sheet: &[u8], changes: &[(usize, u8)]) -> Vec<u8> {
    let mut sheet = sheet.to_vec();
    changes.iter().for_each(|&(at, byte)| sheet[at] = byte);
    renew_checks(&mut sheet);
    sheet
}

#[test]
fn one_number_at_a_time_over_the_whole_sheet() {
    let sheet = flat(16);
    // A slot of block 0, a header of block 1, a check of block 2: the check comes first, then the header, then the slot.
    let both = changed(&sheet, &[(slot_start(2), 9), (BLOCK + 3, 2)]);
    let mut all = both.clone();
    all[2 * BLOCK + 511] ^= 1;
    assert_eq!(refusal_of(&all), refused(2, 2));
    assert_eq!(refusal_of(&both), refused(3, 1));
    assert_eq!(refusal_of(&changed(&sheet, &[(slot_start(2), 9)])), refused(4, 2));
    // An unused slot has the number that a node there would have.
    assert_eq!(refusal_of(&changed(&sheet, &[(slot_start(20) + 40, 1)])), refused(4, 20));
    for length in [0, 1, 511, 513, 65_537, 66_048] {
        assert_eq!(refusal_of(&vec![0; length]), refused(1, 0));
    }
}

#[test]
fn open_places() {
    let claims = |claims: &[u16]| {
        let slots: Vec<Slot> = claims.iter().map(|&children| Slot { children, ..LEAF }).collect();
        refusal_of(&assemble(&slots))
    };
    assert_eq!(claims(&[1]), refused(5, 1));
    assert_eq!(claims(&[2, 0, 1]), refused(5, 3));
    assert_eq!(claims(&[0, 65_535]), refused(6, 1));
    assert_eq!(claims(&[2, 1, 0, 0, 1, 0]), refused(6, 4));
    // Claims of leaves count: node 33 of a chain is too deep, before the chain's shape is judged.
    let chain: Vec<u16> = (0..40).map(|node| u16::from(node < 39)).collect();
    assert_eq!(claims(&chain), refused(7, 33));
    assert_eq!(claims(&chain[7..]), refused(8, 0));
}

#[test]
fn output_too_short_comes_last() {
    let sheet = flat(3);
    let needed = ROW_WIDTH * 4;
    let mut rows = vec![7; needed - 1];
    assert_eq!(resolve(FIRST, &sheet, &mut rows), Err(refused(14, 0)));
    assert!(rows.iter().all(|&number| number == 7));
    let mut rows = vec![7; needed + 1];
    assert_eq!(resolve(FIRST, &sheet, &mut rows), Ok(4));
    assert_eq!(rows[needed], 7);
    for (lent, start) in [(511, 0), (512, 1), (512, 513), (0, 0), (1_000, usize::MAX)] {
        let mut out = vec![9; lent];
        assert_eq!(rewrite(FIRST, &sheet, &mut out, start), Err(refused(14, 0)));
        assert!(out.iter().all(|&byte| byte == 9));
    }
    let mut out = vec![9; 520];
    assert_eq!(rewrite(FIRST, &sheet, &mut out, 5), Ok(512));
    assert_eq!((&out[..5], &out[517..]), (&[9; 5][..], &[9; 3][..]));
    assert_eq!(resolve(FIRST, &changed(&sheet, &[(slot_start(3) + 8, 1)]), &mut []), Err(refused(8, 3)));
}

#[test]
fn fields_are_taken_as_they_come() {
    let good = Fields { year: 1970, month: 1, day: 1, hour: 0, minute: 0, second: 0, fraction: 0 };
    assert_eq!(encode(1, &good), Ok(0));
    for wrong in [-5, -1, 1 << 40, i64::MIN, i64::MAX] {
        for fields in [
            Fields { month: wrong, ..good },
            Fields { day: wrong, ..good },
            Fields { hour: wrong, ..good },
            Fields { minute: wrong, ..good },
            Fields { second: wrong, ..good },
            Fields { fraction: wrong, ..good },
        ] {
            for unit in 1..=3 {
                assert_eq!(encode(unit, &fields), Err(refused(18, 0)));
                assert_eq!(encode(unit, &Fields { year: wrong, ..fields }), Err(refused(18, 0)));
            }
            assert_eq!(encode(4, &fields), Err(refused(20, 0)));
        }
    }
    for year in [i64::MIN, -292_275_056, 292_278_995, i64::MAX] {
        for unit in 1..=3 {
            assert_eq!(encode(unit, &Fields { year, ..good }), Err(refused(19, 0)));
        }
    }
}

#[test]
fn a_value_by_20_15_16_and_an_order_by_20_17_and_its_values() {
    let column = |physical, type_length, kind, p1, p2| ColumnType { physical, type_length, kind, p1, p2 };
    let unknown = column(1, 0, 11, 0, 0);
    assert_eq!(read(FIRST, unknown, b""), Err(refused(15, 0)));
    assert_eq!(read(FIRST, unknown, b"\0\0\0\0"), Err(refused(16, 0)));
    assert_eq!(read(FIRST, column(1, 0, 11, 1, 0), b""), Err(refused(20, 0)));
    assert_eq!(read(FIRST, column(6, 0, 0, 0, 0), &[0; 65_537]), Err(refused(15, 0)));
    assert!(read(FIRST, column(6, 0, 0, 0, 0), &[0; 65_536]).is_ok());
    assert_eq!(read(FIRST, column(7, 65_537, 0, 0, 0), &[0; 65_537]), Err(refused(15, 0)));
    let order_refused = |number, place, at_fault| Err(PairRefusal { refusal: refused(number, place), at_fault });
    assert_eq!(order(FIRST, column(3, 1, 0, 0, 0), b"", b""), order_refused(20, 0, 0));
    assert_eq!(order(FIRST, column(3, 0, 0, 0, 0), b"", b""), order_refused(17, 0, 0));
    let text = column(6, 0, 1, 0, 0);
    assert_eq!(order(FIRST, text, b"\xFF", &[0; 65_537]), order_refused(16, 0, 1));
    assert_eq!(order(FIRST, text, &[0; 65_537], b"\xFF"), order_refused(15, 0, 1));
    assert_eq!(order(FIRST, text, b"", &[0; 65_537]), order_refused(15, 0, 2));
}

#[test]
fn text_is_refused_at_its_byte_and_all_else_at_none() {
    let column = |physical, kind, p1| ColumnType { physical, type_length: 0, kind, p1, p2: 0 };
    for kind in [1, 4, 12] {
        let text = column(6, kind, 0);
        // A sequence that is cut off is refused where it begins.
        for (bytes, place) in
            [(&b"\x80"[..], 0), (b"ab\xFF", 2), (b"ab\xFFcd", 2), (b"a\xE2\x82", 1), (b"\xC3\xA9\xC3", 2)]
        {
            assert_eq!(read(FIRST, text, bytes), Err(refused(16, place)), "{bytes:02X?}");
            let of_value = |at_fault| Err(PairRefusal { refusal: refused(16, place), at_fault });
            assert_eq!(order(FIRST, text, bytes, b"a"), of_value(1));
            assert_eq!(order(FIRST, text, b"a", bytes), of_value(2));
            // Both: the first is at fault, at its own byte.
            assert_eq!(order(FIRST, text, bytes, b"abc\xFF"), of_value(1));
        }
    }
    assert_eq!(read(FIRST, column(6, 5, 2), b"\x64"), Err(refused(16, 0)));
    assert_eq!(read(FIRST, column(6, 11, 0), b"ab\xFF"), Err(refused(16, 0)));
    assert_eq!(read(FIRST, column(0, 0, 0), b"\xFF"), Err(refused(16, 0)));
    let second = Err(PairRefusal::of_second(refused(16, 0)));
    assert_eq!(order(FIRST, column(6, 5, 2), b"\x63", b"\x00\x64"), second);
}

#[test]
fn an_unknown_edition_comes_first() {
    let (lawful, unlawful) = (flat(3), vec![0; 511]);
    let none = ColumnType { physical: 8, type_length: 0, kind: 0, p1: 0, p2: 0 };
    let int32 = ColumnType { physical: 1, ..none };
    for unknown in UNKNOWN {
        for sheet in [&lawful, &unlawful] {
            assert_eq!(refusal_in(unknown, sheet), refused(21, 0));
            // Nothing lent, and nowhere to start.
            assert_eq!(resolve(unknown, sheet, &mut []), Err(refused(21, 0)));
            assert_eq!(rewrite(unknown, sheet, &mut [], 1), Err(refused(21, 0)));
        }
        for (column, value) in [(int32, &[0; 4][..]), (int32, b""), (none, b"")] {
            assert_eq!(read(unknown, column, value), Err(refused(21, 0)));
            assert_eq!(order(unknown, column, value, value), Err(PairRefusal::of_neither(refused(21, 0))));
        }
    }
}

#[test]
fn the_later_editions_let_the_scale_equal_the_precision_and_nothing_else() {
    let decimal = |physical, type_length, precision, scale| {
        let leaf = Slot { physical, logical: 5, type_length, precision, scale, ..LEAF };
        let sheet = assemble(&[Slot { children: 1, ..ROOT }, leaf]);
        EDITIONS.map(|edition| resolve(edition, &sheet, &mut [0; 2 * ROW_WIDTH]))
    };
    for (physical, type_length, most) in [(1, 0, 9), (2, 0, 18), (6, 0, i32::MAX), (7, 1, 2), (7, 256, 616)] {
        for precision in [1, 2, most] {
            assert_eq!(decimal(physical, type_length, precision, precision - 1), [Ok(2); 3]);
            assert_eq!(decimal(physical, type_length, precision, precision), [Err(refused(11, 1)), Ok(2), Ok(2)]);
        }
        for (precision, scale) in [(0, 0), (-1, -1), (1, 2), (2, -1), (i32::MIN, i32::MIN)] {
            assert_eq!(decimal(physical, type_length, precision, scale), [Err(refused(11, 1)); 3]);
        }
    }
    assert_eq!(decimal(1, 0, 10, 10), [Err(refused(11, 1)); 3]);
    assert_eq!(decimal(7, 257, 1, 1), [Err(refused(11, 1)); 3]);
}

const INT96: Slot = Slot { physical: 3, ..LEAF };

/// What the known editions answer to a root with leaves.
fn in_editions(leaves: &[Slot]) -> [Result<u32, Refusal>; 3] {
    let root = Slot { children: leaves.len() as u16, ..ROOT };
    let sheet = assemble(&[&[root], leaves].concat());
    EDITIONS.map(|edition| resolve(edition, &sheet, &mut [0; 20 * ROW_WIDTH]))
}

#[test]
fn the_third_edition_refuses_an_int96_leaf_whatever_its_annotation() {
    for leaf in [INT96, Slot { logical: 11, ..INT96 }, Slot { repetition: 2, ..INT96 }] {
        assert_eq!(in_editions(&[LEAF, leaf, leaf]), [Ok(4), Ok(4), Err(refused(10, 2))]);
    }
    // An annotation that INT96 never had.
    for logical in [1, 4, 5, 6, 12, 13, 14] {
        assert_eq!(in_editions(&[Slot { logical, ..INT96 }]), [Err(refused(10, 1)); 3]);
    }
    assert_eq!(in_editions(&[Slot { a: 1, ..INT96 }]), [Err(refused(10, 1)); 3]);
    assert_eq!(in_editions(&[Slot { converted: 21, ..INT96 }]), [Err(refused(10, 1)); 3]);
}

#[test]
fn at_an_int96_leaf_8_and_9_come_first_and_at_other_nodes_the_first_does() {
    let shapes = [Slot { type_length: 12, ..INT96 }, Slot { scale: 1, ..INT96 }, Slot { repetition: 255, ..INT96 }];
    for shape in shapes {
        assert_eq!(in_editions(&[shape]), [Err(refused(8, 1)); 3]);
        assert_eq!(in_editions(&[Slot { converted: 0, logical: 4, ..shape }]), [Err(refused(8, 1)); 3]);
        assert_eq!(in_editions(&[INT96, shape]), [Err(refused(8, 2)), Err(refused(8, 2)), Err(refused(10, 1))]);
        assert_eq!(in_editions(&[shape, INT96]), [Err(refused(8, 1)); 3]);
    }
    for disagreement in [Slot { converted: 0, logical: 4, ..INT96 }, Slot { converted: 0, logical: 11, ..INT96 }] {
        assert_eq!(in_editions(&[disagreement]), [Err(refused(9, 1)); 3]);
        assert_eq!(in_editions(&[disagreement, INT96]), [Err(refused(9, 1)); 3]);
    }
    // Under 21, 1 to 7 and before 14.
    let sheet = assemble(&[Slot { children: 1, ..ROOT }, INT96]);
    assert_eq!(resolve(THIRD, &sheet, &mut []), Err(refused(10, 1)));
    assert_eq!(rewrite(THIRD, &sheet, &mut [], 1), Err(refused(10, 1)));
    assert_eq!(refusal_in(THIRD, &changed(&sheet, &[(slot_start(0) + 6, 2)])), refused(5, 2));
}

#[test]
fn a_column_of_int96_is_none_of_the_third_edition() {
    let column = |kind| ColumnType { physical: 3, type_length: 0, kind, p1: 0, p2: 0 };
    for (kind, of_twelve) in [(0, Ok(())), (11, Err(refused(16, 0)))] {
        for edition in [FIRST, SECOND] {
            assert_eq!(read(edition, column(kind), &[0; 12]).map(drop), of_twelve);
            assert_eq!(read(edition, column(kind), b""), Err(refused(15, 0)));
            assert_eq!(order(edition, column(kind), b"", b""), Err(PairRefusal::of_neither(refused(17, 0))));
        }
        for value in [&[0; 12][..], b""] {
            assert_eq!(read(THIRD, column(kind), value), Err(refused(20, 0)));
            assert_eq!(order(THIRD, column(kind), value, b""), Err(PairRefusal::of_neither(refused(20, 0))));
        }
    }
}

const POINTS: Slot = Slot { physical: 6, logical: 18, ..LEAF };

#[test]
fn geospatial_leaves_are_of_the_third_edition() {
    let earlier = Err(refused(4, 1));
    for (logical, edge_rules) in [(17, 0..=0), (18, 0..=4)] {
        for a in 0..=6 {
            let third = if edge_rules.contains(&a) { Ok(2) } else { Err(refused(10, 1)) };
            assert_eq!(in_editions(&[Slot { logical, a, ..POINTS }]), [earlier, earlier, third]);
            assert_eq!(in_editions(&[Slot { logical, a, b: 1, ..POINTS }]), [earlier, earlier, Err(refused(10, 1))]);
            // No converted type is their image, and invalid parameters have none.
            for converted in 0..=21 {
                let slot = Slot { logical, a, converted, ..POINTS };
                assert_eq!(in_editions(&[slot]), [earlier, earlier, Err(refused(9, 1))]);
            }
        }
        for physical in [0, 1, 2, 3, 4, 5, 7] {
            let type_length = if physical == 7 { 21 } else { 0 };
            let slot = Slot { logical, physical, type_length, ..POINTS };
            assert_eq!(in_editions(&[slot]), [earlier, earlier, Err(refused(10, 1))]);
        }
    }
    for logical in [9, 15, 16, 19, 255] {
        assert_eq!(in_editions(&[Slot { logical, ..POINTS }]), [earlier; 3]);
    }
}

#[test]
fn a_geospatial_leaf_is_written_back_without_a_converted_type() {
    for (logical, a) in [(17, 0), (18, 0), (18, 4)] {
        let sheet = assemble(&[Slot { children: 1, ..ROOT }, Slot { logical, a, ..POINTS }]);
        let mut rows = [7; 2 * ROW_WIDTH];
        assert_eq!(resolve(THIRD, &sheet, &mut rows), Ok(2));
        assert_eq!(rows[ROW_WIDTH..][..6], [6, 0, 0, u32::from(logical), u32::from(a), 0]);
        let mut out = vec![9; sheet.len()];
        assert_eq!(rewrite(THIRD, &sheet, &mut out, 0), Ok(512));
        assert_eq!(out, sheet);
    }
}

#[test]
fn a_geospatial_column_is_read_as_any_bytes_and_has_no_order() {
    let column = |kind, p1| ColumnType { physical: 6, type_length: 0, kind, p1, p2: 0 };
    for (kind, p1) in [(17, 0), (18, 0), (18, 4)] {
        for (value, read_as) in [(&b"\xFF\x80"[..], Ok(())), (b"", Ok(())), (&[0; 65_537], Err(refused(15, 0)))] {
            assert_eq!(read(THIRD, column(kind, p1), value).map(drop), read_as);
            assert_eq!(order(THIRD, column(kind, p1), value, b""), Err(PairRefusal::of_neither(refused(17, 0))));
        }
        for edition in [FIRST, SECOND] {
            assert_eq!(read(edition, column(kind, p1), b""), Err(refused(20, 0)));
            assert_eq!(order(edition, column(kind, p1), b"", b""), Err(PairRefusal::of_neither(refused(20, 0))));
        }
    }
    let unlawful =
        [column(17, 1), column(18, 5), column(18, 256), column(15, 0), column(16, 0), column(19, 0), column(273, 0)];
    let elsewhere =
        [0, 1, 3, 5, 7].map(|physical| ColumnType { physical, type_length: u32::from(physical == 7), ..column(17, 0) });
    let marked = ColumnType { p2: 1, ..column(18, 0) };
    for column in unlawful.into_iter().chain(elsewhere).chain([marked]) {
        for edition in EDITIONS {
            assert_eq!(read(edition, column, b"0"), Err(refused(20, 0)));
        }
    }
}

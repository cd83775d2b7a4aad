//! What each part of the command prints.

use crate::sheet::{sheet, Node, BYTE_ARRAY, FIXED, INT32, OPTIONAL, REPEATED, REQUIRED};
use crate::{prints, run, run_on, sample, text, SAMPLE, SAMPLE_ROWS};

#[test]
fn rows_of_the_sample_are_the_stored_ones() {
    prints(&format!("rows {SAMPLE}"), b"", SAMPLE_ROWS);
    prints("rows -", &sample(), SAMPLE_ROWS);
    prints("rows -- -", &sample(), SAMPLE_ROWS);
}

#[test]
fn rows_of_the_longest_sheet() {
    let mut nodes = vec![Node::root(895)];
    nodes.resize(896, Node::leaf("x", INT32, OPTIONAL));
    let sheet = sheet(&nodes);
    assert_eq!(sheet.len(), 65_536);
    let expected = "nodes 896\n255 0 255 30 0 0 0 896 0 0 0\n".to_owned()
        + &(1..896).map(|node| format!("1 0 1 0 0 0 0 {} 0 1 0\n", node + 1)).collect::<String>();
    prints("rows -", &sheet, &expected);
}

#[test]
fn rows_of_a_list_whose_one_field_repeats() {
    let nodes = [
        Node::root(1),
        Node::group("parts", REQUIRED, 1).logical(3, 0, 0),
        Node::group("list", REPEATED, 1),
        Node::leaf("x", INT32, REPEATED),
    ];
    let expected = "nodes 4\n255 0 255 30 0 0 0 4 0 0 0\n255 0 0 3 0 0 0 4 0 0 0\n255 0 2 30 0 0 1 4 3 1 1\n1 0 2 0 0 0 2 4 7 2 2\n";
    prints("rows -", &sheet(&nodes), expected);
}

/// A schema with each kind and each role.
fn every_kind() -> Vec<Node> {
    let leaf = |name, physical| Node::leaf(name, physical, OPTIONAL);
    vec![
        Node::root(22),
        Node::leaf("plain", 0, REQUIRED),
        leaf("int96", 3),
        leaf("float", 4),
        leaf("double", 5),
        leaf("fixed", FIXED).sized(7),
        leaf("text", BYTE_ARRAY).logical(1, 0, 0),
        leaf("enum", BYTE_ARRAY).logical(4, 0, 0),
        leaf("fee", FIXED).sized(16).decimal(38, 2),
        leaf("date", INT32).logical(6, 0, 0),
        leaf("time", INT32).logical(7, 1, 1),
        leaf("at", 2).logical(8, 3, 0),
        leaf("kvn", INT32).logical(10, 8, 0),
        leaf("delta", 2).logical(10, 64, 1),
        leaf("unknown", INT32).logical(11, 0, 0),
        leaf("json", BYTE_ARRAY).logical(12, 0, 0),
        leaf("bson", BYTE_ARRAY).logical(13, 0, 0),
        leaf("uuid", FIXED).sized(16).logical(14, 0, 0),
        Node { converted: 21, ..leaf("span", FIXED).sized(12) },
        Node::leaf("bare", INT32, REPEATED),
        Node::group("parts", REQUIRED, 1).logical(3, 0, 0),
        Node::group("list", REPEATED, 1),
        Node::group("element", OPTIONAL, 2),
        leaf("low", INT32),
        leaf("high", INT32),
        Node::group("pairs", OPTIONAL, 1).logical(3, 0, 0),
        Node::group("pairs_tuple", REPEATED, 1),
        leaf("only", INT32),
        Node::group("keys", OPTIONAL, 1).logical(2, 0, 0),
        Node::group("key_value", REPEATED, 2),
        Node::leaf("key", BYTE_ARRAY, REQUIRED).logical(1, 0, 0),
        leaf("value", INT32),
    ]
}

/// A schema with GEOMETRY and each edge rule of GEOGRAPHY.
fn every_place() -> Vec<Node> {
    let leaf = |name, logical, a| Node::leaf(name, BYTE_ARRAY, OPTIONAL).logical(logical, a, 0);
    let mut nodes = vec![Node::root(6), leaf("shape", 17, 0)];
    nodes.extend(["s", "v", "t", "a", "k"].into_iter().zip(0..).map(|(name, edge_rule)| leaf(name, 18, edge_rule)));
    nodes
}

#[test]
fn tree_of_every_edge_rule_in_the_third_edition() {
    let sheet = sheet(&every_place());
    let expected = "\
node  level  name      type        annotation            repetition  role
   0      0  r         group
   1      1  ├─ shape  BYTE_ARRAY  GEOMETRY              optional    field
   2      1  ├─ s      BYTE_ARRAY  GEOGRAPHY(SPHERICAL)  optional    field
   3      1  ├─ v      BYTE_ARRAY  GEOGRAPHY(VINCENTY)   optional    field
   4      1  ├─ t      BYTE_ARRAY  GEOGRAPHY(THOMAS)     optional    field
   5      1  ├─ a      BYTE_ARRAY  GEOGRAPHY(ANDOYER)    optional    field
   6      1  └─ k      BYTE_ARRAY  GEOGRAPHY(KARNEY)     optional    field
";
    prints("tree - --edition 3", &sheet, expected);
    let output = run_on(&["tree", "-", "--edition", "3", "--json"], &sheet);
    assert!(text(&output.stdout).contains("\"annotation\": \"GEOGRAPHY(KARNEY)\""));
    for edition in ["1", "2"] {
        let output = run_on(&["tree", "-", "--edition", edition], &sheet);
        assert!(text(&output.stderr).starts_with("refused 4 at 1\n"));
        assert_eq!(output.status.code(), Some(1));
    }
}

#[test]
fn values_of_geospatial_columns() {
    prints("value 6 0 17 0 0 --edition 3 --hex FF80", b"", "bytes 0 2\n");
    prints("value 6 0 18 4 0 --edition 3 -", b"", "bytes 0 0\n");
    for line in [
        "value 6 0 17 0 0 --edition 2 --hex FF",
        "value 6 0 18 5 0 --edition 3 --hex FF",
        "value 7 1 17 0 0 --edition 3 --hex FF",
    ] {
        let output = run(line.split(' '));
        assert!(text(&output.stderr).starts_with("refused 20 at 0\n"), "{line}");
        assert_eq!(output.status.code(), Some(1), "{line}");
    }
}

#[test]
fn tree_of_every_kind_and_role() {
    prints("tree -", &sheet(&every_kind()), include_str!("every_kind.txt"));
}

#[test]
fn tree_of_a_root_alone() {
    prints(
        "tree -",
        &sheet(&[Node::root(0)]),
        "node  level  name  type   annotation  repetition  role\n   0      0  r     group\n",
    );
}

#[test]
fn names_that_do_not_print_are_escaped() {
    let shown = |name: &[u8]| {
        let leaf = Node { name: name.to_vec(), ..Node::leaf("", INT32, REQUIRED) };
        let output = run_on(&["tree", "-"], &sheet(&[Node::root(1), leaf]));
        let line = text(&output.stdout).lines().nth(2).expect("a line for the leaf").to_owned();
        let (_, name) = line.split_once("└─ ").expect("a branch");
        name.split_once("  INT32").expect("a type").0.trim_end().to_owned()
    };
    assert_eq!(shown(b"kvn"), "kvn");
    assert_eq!(shown("schl\u{fc}ssel".as_bytes()), "schl\u{fc}ssel");
    assert_eq!(shown(b"it's"), "it's");
    assert_eq!(shown(b"a b"), r#""a b""#);
    assert_eq!(shown(b" "), r#"" ""#);
    assert_eq!(shown(b"\n\0\x1b[31m"), r#""\n\0\u{1b}[31m""#);
    assert_eq!(shown(b"\xFFa\xC3"), r#""\xFFa\xC3""#);
    assert_eq!(shown("\u{202E}x\u{200B}\u{A0}".as_bytes()), r#""\u{202e}x\u{200b}\u{a0}""#);
    assert_eq!(shown(br#"quote"\"#), r#""quote\"\\""#);
}

#[test]
fn values() {
    prints("value 0 0 0 0 0 --hex 01", b"", "true\n");
    prints("value 0 0 0 0 0 -", b"\0", "false\n");
    prints("value 1 0 0 0 0 --hex FFFFFFFF", b"", "-1\n");
    prints("value 1 0 10 8 0 --hex fF000000", b"", "255\n");
    prints("value 2 0 10 64 0 --hex FFFFFFFFFFFFFFFF", b"", "18446744073709551615\n");
    prints("value 4 0 0 0 0 -", &1.5f32.to_le_bytes(), "float 1.5\n");
    prints("value 5 0 0 0 0 -", &(-0.0f64).to_le_bytes(), "double -0.0\n");
    prints("value 5 0 0 0 0 -", &f64::NAN.to_le_bytes(), "double NaN\n");
    prints("value 6 0 1 0 0 -", "\u{e4}".as_bytes(), "bytes 0 2\n");
    prints("value 6 0 1 0 0 -", b"", "bytes 0 0\n");
    prints("value 7 16 14 0 0 --hex 00112233445566778899aabbccddeeff", b"", "bytes 0 16\n");
    assert_eq!(text(&run(["value", "6", "0", "0", "0", "0", "--hex", ""]).stdout), "bytes 0 0\n");
    let line = format!("value 6 0 0 0 0 {SAMPLE}");
    prints(&line, b"", "bytes 0 512\n");
    prints("value --json 1 0 0 0 0 --hex FFFFFFFF", b"", "{\"case\": \"signed\", \"value\": -1}\n");
    prints(
        "value 4 0 0 0 0 --hex 0000C0FF --json",
        b"",
        "{\"case\": \"float\", \"value\": null, \"bits\": \"7fc00000\"}\n",
    );
}

#[test]
fn editions() {
    for edition in ["1", "2", "3"] {
        prints(&format!("rows - --edition {edition}"), &sample(), SAMPLE_ROWS);
        prints(&format!("value --edition {edition} 1 0 5 2 1 --hex 63000000"), b"", "99\n");
    }
    let fraction = sheet(&[Node::root(1), Node::leaf("fee", INT32, REQUIRED).decimal(3, 3)]);
    for edition in ["2", "3"] {
        let rows = "nodes 2\n255 0 255 30 0 0 0 2 0 0 0\n1 0 0 5 3 3 0 2 0 0 0\n";
        prints(&format!("rows --edition {edition} -"), &fraction, rows);
    }
    let tree = run_on(&["tree", "-", "--edition", "2"], &fraction);
    assert!(text(&tree.stdout).ends_with("└─ fee  INT32  DECIMAL(precision 3, scale 3)  required    field\n"));
    let rewritten = run_on(&["rewrite", "-", "-o", "-", "--edition", "2"], &fraction);
    assert_eq!((rewritten.stdout.len(), rewritten.status.code()), (512, Some(0)));
    prints("rows - --edition 2", &rewritten.stdout, "nodes 2\n255 0 255 30 0 0 0 2 0 0 0\n1 0 0 5 3 3 0 2 0 0 0\n");
    prints("value 6 0 5 2 2 --hex 63 --edition 2", b"", "bytes 0 1\n");
    prints("value 1 0 5 2 2 --hex 63000000 --edition 2 --json", b"", "{\"case\": \"signed\", \"value\": 99}\n");
}

#[test]
fn timestamps() {
    prints("timestamp decode millis 172800000", b"", "1970-01-03 00:00:00.000\n");
    prints("timestamp decode millis -1", b"", "1969-12-31 23:59:59.999\n");
    prints("timestamp decode micros -1", b"", "1969-12-31 23:59:59.999999\n");
    prints("timestamp decode 3 -9223372036854775808", b"", "1677-09-21 00:12:43.145224192\n");
    prints("timestamp decode millis -62198755200000", b"", "-0001-01-01 00:00:00.000\n");
    prints("timestamp encode millis -0001-01-01 00:00:00", b"", "-62198755200000\n");
    prints("timestamp encode nanos 1677-09-21 00:12:43.145224192", b"", "-9223372036854775808\n");
    prints("timestamp encode millis 1970-1-1 0:0:0.5", b"", "500\n");
    prints("timestamp encode micros 1970-01-01 00:00:00.05", b"", "50000\n");
    prints(
        "timestamp decode --json millis -1",
        b"",
        "{\"unit\": 1, \"count\": -1, \"year\": 1969, \"month\": 12, \"day\": 31, \"hour\": 23, \"minute\": 59, \
         \"second\": 59, \"fraction\": 999}\n",
    );
}

#[test]
fn help_of_each_part() {
    let all = run(["--help"]);
    assert_eq!(all.status.code(), Some(0));
    for part in ["rows", "rewrite", "tree", "compare", "value", "timestamp", "int96"] {
        let output = run([part, "--help"]);
        assert!(text(&output.stdout).starts_with(&format!("griffeljol {part} ")), "{part}");
        assert_eq!(text(&output.stderr), "");
        assert_eq!(output.status.code(), Some(0));
        assert_eq!(run([part, "wrong", "-h", "words"]).stdout, output.stdout);
        assert!(text(&all.stdout).contains(&format!("  griffeljol {part} ")), "{part}");
        let takes_edition = !["timestamp", "int96"].contains(&part);
        assert_eq!(text(&output.stdout).contains("\n  --edition N "), takes_edition, "{part}");
    }
    assert_eq!(run(["-h"]).stdout, all.stdout);
}

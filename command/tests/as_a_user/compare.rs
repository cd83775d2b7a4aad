//! What comparing two sheets prints, and its exit status.

use std::fs::{self, File};
use std::path::{Path, PathBuf};
use std::process::Output;

use crate::sheet::{renew_checks, sheet, Node, BYTE_ARRAY, FIXED, INT32, OPTIONAL, REPEATED, REQUIRED};
use crate::{failed, folder, griffeljol, prints, refused, run, run_on, sample, text, SAMPLE};

const DIFFERENT: i32 = 3;
const INT64: u8 = 2;

/// A folder with two sheets, in the files `a` and `b`.
fn files(name: &str, a: &[u8], b: &[u8]) -> PathBuf {
    let folder = folder(name);
    fs::write(folder.join("a"), a).expect("a file");
    fs::write(folder.join("b"), b).expect("a file");
    folder
}

/// Compares the files `a` and `b` of a folder.
fn compare(folder: &Path, options: &[&str]) -> Output {
    griffeljol().args(["compare", "a", "b"]).args(options).current_dir(folder).output().expect("the command runs")
}

/// Holds an output to a text, to no word on standard error, and to the status of sheets that differ.
#[track_caller]
fn told(output: &Output, expected: &str) {
    assert_eq!(text(&output.stderr), "");
    assert_eq!(text(&output.stdout), expected);
    assert_eq!(output.status.code(), Some(DIFFERENT));
}

/// Compares the sheets of these nodes, and holds what is printed to these lines.
#[track_caller]
fn differ(name: &str, a: &[Node], b: &[Node], lines: &[&str]) {
    let expected: String = lines.iter().map(|line| format!("{line}\n")).collect();
    told(&compare(&files(name, &sheet(a), &sheet(b)), &[]), &expected);
}

/// A root with these children, all leaves.
fn root_of(leaves: &[Node]) -> Vec<Node> {
    [&[Node::root(leaves.len() as u16)], leaves].concat()
}

/// The sample sheet with a required element.
fn changed_sample() -> Vec<u8> {
    const REPETITION_OF_ELEMENT: usize = 6 + 3 * 72 + 1;
    let mut sheet = sample();
    sheet[REPETITION_OF_ELEMENT] = REQUIRED;
    renew_checks(&mut sheet);
    sheet
}

/// Two schemas that differ in every way.
fn every_difference() -> [Vec<Node>; 2] {
    let list = |repetition| {
        [
            Node { converted: 3, ..Node::group("parts", REQUIRED, 1) },
            Node::group("list", REPEATED, 1),
            Node { converted: 0, ..Node::leaf("element", BYTE_ARRAY, repetition) },
        ]
    };
    let leaf = |name, physical| Node::leaf(name, physical, OPTIONAL);
    let a = [
        &[Node::root(5), leaf("kvn", INT32).logical(10, 8, 0), leaf("fee", FIXED).sized(8).decimal(18, 2)][..],
        &[Node { converted: 9, ..leaf("at", INT64).logical(8, 1, 1) }],
        &list(REQUIRED),
        &[Node::group("keys", OPTIONAL, 1).logical(2, 0, 0), Node::group("key_value", REPEATED, 1)],
        &[Node::leaf("key", BYTE_ARRAY, REQUIRED).logical(1, 0, 0)],
    ];
    let b = [
        &[Node { name: b"vault".to_vec(), ..Node::root(6) }, leaf("fee", FIXED).sized(16).decimal(38, 4)][..],
        &[Node { converted: 14, ..leaf("at", INT64).logical(10, 64, 0) }],
        &[Node::leaf("kvn", BYTE_ARRAY, REQUIRED)],
        &list(OPTIONAL),
        &[leaf("kcv", BYTE_ARRAY).logical(1, 0, 0), leaf("kcv", FIXED).sized(3)],
    ];
    [a.concat(), b.concat()]
}

#[test]
fn sheets_that_do_not_differ() {
    prints(&format!("compare {SAMPLE} {SAMPLE}"), b"", "no differences\n");
    prints(&format!("compare - {SAMPLE}"), &sample(), "no differences\n");
    prints(&format!("compare --edition 2 {SAMPLE} -"), &sample(), "no differences\n");
    prints(&format!("compare --json {SAMPLE} -"), &sample(), "{\"count\": 0, \"differences\": []}\n");
}

#[test]
fn one_difference() {
    let line = "parts.list.element: repetition optional, was required\n1 difference\n";
    told(&compare(&files("one_difference", &changed_sample(), &sample()), &[]), line);
    told(&run_on(&["compare", "-", SAMPLE], &changed_sample()), line);
    let line = "parts.list.element: repetition required, was optional\n1 difference\n";
    told(&run_on(&["compare", SAMPLE, "-"], &changed_sample()), line);
}

#[test]
fn every_kind_of_difference() {
    let [a, b] = every_difference();
    let lines = [
        "the root: child count 6, was 5",
        "the root: name length 5, was 1",
        "the root: name vault, was r",
        "kvn: physical BYTE_ARRAY, was INT32",
        "kvn: repetition required, was optional",
        "kvn: logical none, was INTEGER",
        "kvn: parameter a none, was 8 bits",
        "kvn: place 2, was 0",
        "fee: type length 16, was 8",
        "fee: scale 4, was 2",
        "fee: precision 38, was 18",
        "fee: place 0, was 1",
        "at: converted UINT_64, was TIMESTAMP_MILLIS",
        "at: logical INTEGER, was TIMESTAMP",
        "at: parameter a 64 bits, was MILLIS",
        "at: parameter b unsigned, was UTC",
        "at: place 1, was 2",
        "parts.list.element: repetition optional, was required",
        "keys: only in A, optional group MAP",
        "keys.key_value: only in A, repeated group",
        "keys.key_value.key: only in A, required BYTE_ARRAY STRING",
        "kcv: only in B, optional BYTE_ARRAY STRING",
        "kcv[1]: only in B, optional FIXED_LEN_BYTE_ARRAY(3)",
        "23 differences",
    ];
    differ("every_kind_of_difference", &a, &b, &lines);
}

#[test]
fn parameters_go_by_the_logical_type_of_their_own_sheet() {
    let times = |name: &str, a, b| Node::leaf(name, INT64, REQUIRED).logical(8, a, b);
    let plain = |name: &str| Node::leaf(name, INT64, REQUIRED);
    let a = [times("at", 1, 1), plain("bare"), plain("delta").logical(10, 64, 1), plain("sum").logical(10, 64, 1)];
    let b = [times("at", 3, 0), times("bare", 2, 1), plain("delta").logical(10, 64, 0), times("sum", 2, 0)];
    let lines = [
        "at: parameter a NANOS, was MILLIS",
        "at: parameter b local, was UTC",
        "bare: logical TIMESTAMP, was none",
        "bare: parameter a MICROS, was none",
        "bare: parameter b UTC, was none",
        "delta: parameter b unsigned, was signed",
        "sum: logical TIMESTAMP, was INTEGER",
        "sum: parameter a MICROS, was 64 bits",
        "sum: parameter b local, was signed",
        "9 differences",
    ];
    differ("parameters_go_by_the_logical_type_of_their_own_sheet", &root_of(&a), &root_of(&b), &lines);
}

#[test]
fn each_annotation_has_its_word() {
    let bytes = || Node::leaf("x", BYTE_ARRAY, REQUIRED);
    let fixed = |length| Node::leaf("x", FIXED, REQUIRED).sized(length);
    let whole = || Node::leaf("x", INT32, REQUIRED);
    let long = || Node::leaf("x", INT64, REQUIRED);
    let cases = [
        (bytes(), 0, "UTF8"),
        (bytes(), 4, "ENUM"),
        (Node { precision: 1, ..bytes() }, 5, "DECIMAL"),
        (whole(), 6, "DATE"),
        (whole(), 7, "TIME_MILLIS"),
        (long(), 8, "TIME_MICROS"),
        (long(), 9, "TIMESTAMP_MILLIS"),
        (long(), 10, "TIMESTAMP_MICROS"),
        (whole(), 11, "UINT_8"),
        (whole(), 12, "UINT_16"),
        (whole(), 13, "UINT_32"),
        (long(), 14, "UINT_64"),
        (whole(), 15, "INT_8"),
        (whole(), 16, "INT_16"),
        (whole(), 17, "INT_32"),
        (long(), 18, "INT_64"),
        (bytes(), 19, "JSON"),
        (bytes(), 20, "BSON"),
        (fixed(12), 21, "INTERVAL"),
    ];
    for (node, converted, word) in cases {
        let annotated = sheet(&root_of(&[Node { converted, ..node.clone() }]));
        let plain = sheet(&root_of(&[Node { precision: 0, ..node }]));
        let output = compare(&files("each_annotation_has_its_word", &plain, &annotated), &[]);
        let line = format!("x: converted {word}, was none");
        assert_eq!(text(&output.stdout).lines().next(), Some(line.as_str()));
    }
    let cases = [
        (bytes(), 1, "STRING"),
        (bytes(), 4, "ENUM"),
        (Node { precision: 1, ..bytes() }, 5, "DECIMAL"),
        (whole(), 6, "DATE"),
        (bytes(), 12, "JSON"),
        (bytes(), 13, "BSON"),
        (fixed(16), 14, "UUID"),
        (whole(), 11, "UNKNOWN"),
    ];
    for (node, logical, word) in cases {
        let annotated = sheet(&root_of(&[Node { logical, ..node.clone() }]));
        let plain = sheet(&root_of(&[Node { precision: 0, ..node }]));
        let output = compare(&files("each_annotation_has_its_word", &annotated, &plain), &[]);
        let line = format!("x: logical none, was {word}");
        assert_eq!(text(&output.stdout).lines().next(), Some(line.as_str()));
    }
    let group = |converted| {
        let fields = [Node::group("layer", REPEATED, 1), Node::leaf("key", INT32, REQUIRED)];
        sheet(&[&[Node::root(1), Node { converted, ..Node::group("x", REQUIRED, 1) }][..], &fields].concat())
    };
    for (converted, word) in [(1, "MAP"), (2, "MAP_KEY_VALUE"), (3, "LIST")] {
        let output = compare(&files("each_annotation_has_its_word", &group(converted), &group(255)), &[]);
        told(&output, &format!("x: converted none, was {word}\n1 difference\n"));
    }
}

#[test]
fn paths_of_siblings_and_of_odd_names() {
    let leaf = |name: &[u8]| Node { name: name.to_vec(), ..Node::leaf("", INT32, REQUIRED) };
    let optional = |name: &[u8]| Node { repetition: OPTIONAL, ..leaf(name) };
    // The first of a name matches the first, the second the second, wherever they stand.
    differ(
        "paths_of_siblings",
        &root_of(&[leaf(b"x"), leaf(b"y"), leaf(b"x")]),
        &root_of(&[leaf(b"x"), optional(b"x"), leaf(b"y"), optional(b"x")]),
        &[
            "the root: child count 4, was 3",
            "y: place 2, was 1",
            "x[1]: repetition optional, was required",
            "x[1]: place 1, was 2",
            "x[2]: only in B, optional INT32",
            "5 differences",
        ],
    );
    let names: [&[u8]; 8] = [b"a.b", b"x[1]", b"a b", b"a:b", b"\"", b"\n", b"\xFF", "\u{e4}".as_bytes()];
    let below = |leaves: &[Node]| {
        let group = Node { name: b"p.q".to_vec(), ..Node::group("", REQUIRED, leaves.len() as u16) };
        [&[Node::root(1), group][..], leaves].concat()
    };
    differ(
        "paths_of_odd_names",
        &below(&names.map(leaf)),
        &below(&names.map(optional)),
        &[
            "\"p.q\".\"a.b\": repetition optional, was required",
            "\"p.q\".\"x[1]\": repetition optional, was required",
            "\"p.q\".\"a b\": repetition optional, was required",
            "\"p.q\".a:b: repetition optional, was required",
            "\"p.q\".\"\\\"\": repetition optional, was required",
            "\"p.q\".\"\\n\": repetition optional, was required",
            "\"p.q\".\"\\xFF\": repetition optional, was required",
            "\"p.q\".\u{e4}: repetition optional, was required",
            "8 differences",
        ],
    );
    // A child of the words that stand for the root, and roots whose names differ by a zero.
    let root = |name: &[u8]| Node { name: name.to_vec(), ..Node::root(1) };
    differ(
        "paths_of_roots",
        &[root(b"r"), leaf(b"the root")],
        &[root(b"r\0"), optional(b"the root")],
        &["the root: name length 2, was 1", "\"the root\": repetition optional, was required", "2 differences"],
    );
    differ(
        "names_of_roots",
        &[root(b"\xFF"), leaf(b"x")],
        &[root(b"two words"), leaf(b"x")],
        &["the root: name length 9, was 1", "the root: name \"two words\", was \"\\xFF\"", "2 differences"],
    );
}

#[test]
fn differences_as_json() {
    let leaf = |name: &[u8], repetition| Node { name: name.to_vec(), ..Node::leaf("", INT32, repetition) };
    let a = root_of(&[leaf(b"kept", REQUIRED), leaf(b"\xFF", OPTIONAL)]);
    let mut b = root_of(&[Node::leaf("new", FIXED, REQUIRED).sized(5).decimal(3, 1), leaf(b"kept", REQUIRED)]);
    b[0].name = b"s".to_vec();
    let expected = [
        r#"{"count": 4, "differences": ["#,
        r#"{"node": 0, "path": "the root", "code": 24, "field": "name", "#,
        r#""A": {"name": "r", "name_hex": "72"}, "B": {"name": "s", "name_hex": "73"}}, "#,
        r#"{"node": 1, "path": "kept", "code": 72, "field": "place", "A": 0, "B": 1}, "#,
        r#"{"node": 2, "path": "\"\\xFF\"", "code": 73, "field": "node", "A": {"physical": 1, "repetition": 1, "#,
        r#""converted": 255, "logical": 0, "parameter_a": 0, "parameter_b": 0, "child_count": 0, "type_length": 0, "#,
        r#""scale": 0, "precision": 0, "name_length": 1, "name": null, "name_hex": "ff"}, "B": null}, "#,
        r#"{"node": 1, "path": "new", "code": 74, "field": "node", "A": null, "B": {"physical": 7, "repetition": 0, "#,
        r#""converted": 255, "logical": 5, "parameter_a": 0, "parameter_b": 0, "child_count": 0, "type_length": 5, "#,
        r#""scale": 1, "precision": 3, "name_length": 3, "name": "new", "name_hex": "6e6577"}}]}"#,
        "\n",
    ];
    told(&compare(&files("differences_as_json", &sheet(&a), &sheet(&b)), &["--json"]), &expected.concat());
}

#[test]
fn the_file_that_is_refused() {
    let (sound, empty) = (sample(), Vec::new());
    let shapeless = sheet(&[Node::root(1), Node { type_length: 1, ..Node::leaf("x", INT32, REQUIRED) }]);
    let length = "sheet length 0, not a multiple of 512, or over 65,536";
    let shape = "shape; place 1 is the node";
    for options in [&[][..], &["--report"], &["--edition", "2"]] {
        let tried = |a: &[u8], b: &[u8]| compare(&files("the_file_that_is_refused", a, b), options);
        refused(&tried(&shapeless, &sound), "refused 8 at 1", &format!("A, \"a\": {shape}"));
        refused(&tried(&sound, &shapeless), "refused 8 at 1", &format!("B, \"b\": {shape}"));
        // Where both are, it is the first sheet's, whatever its number.
        refused(&tried(&shapeless, &empty), "refused 8 at 1", &format!("A, \"a\": {shape}"));
        refused(&tried(&empty, &shapeless), "refused 1 at 0", &format!("A, \"a\": {length}"));
    }
    refused(&run_on(&["compare", SAMPLE, "-"], b"x"), "refused 1 at 0", &format!("B, standard input: {length}"));
    refused(&run(["compare", "/dev/zero", SAMPLE]), "refused 1 at 0", &format!("A, \"/dev/zero\": {length}"));
    let output = compare(&files("the_file_that_is_refused", &sound, &shapeless), &["--json"]);
    assert_eq!(text(&output.stderr), format!("refused 8 at 1\nB, \"b\": {shape}\n"));
    let object = "{\"refused\": 8, \"at\": 1, \"meaning\": \"shape\", \"place\": \"the node\", \"sheet\": \"B\", \"file\": \"b\"}\n";
    assert_eq!(text(&output.stdout), object);
    assert_eq!(output.status.code(), Some(1));
}

#[test]
fn editions_of_both_sheets() {
    let decimal = |scale| sheet(&root_of(&[Node::leaf("fee", INT32, REQUIRED).decimal(3, scale)]));
    let folder = files("editions_of_both_sheets", &decimal(2), &decimal(3));
    refused(&compare(&folder, &[]), "refused 11 at 1", "B, \"b\": DECIMAL scale or precision; place 1 is the node");
    for edition in ["2", "3"] {
        told(&compare(&folder, &["--edition", edition]), "fee: scale 3, was 2\n1 difference\n");
    }
    for edition in ["0", "4", "4294967295"] {
        refused(&compare(&folder, &["--edition", edition]), "refused 21 at 0", "edition unknown");
    }
    refused(&run(["compare", "/dev/null", "/dev/null", "--edition", "4"]), "refused 21 at 0", "edition unknown");
    let output = compare(&folder, &["--edition", "4", "--json"]);
    let object = "{\"refused\": 21, \"at\": 0, \"meaning\": \"edition unknown\", \"place\": null}\n";
    assert_eq!(text(&output.stdout), object);
    assert_eq!(output.status.code(), Some(1));
}

#[test]
fn edge_rules_in_the_third_edition() {
    let leaf = |name: &str, logical, a| Node::leaf(name, BYTE_ARRAY, REQUIRED).logical(logical, a, 0);
    let a = root_of(&[leaf("at", 18, 0), leaf("shape", 17, 0), leaf("note", 1, 0)]);
    let b = root_of(&[leaf("at", 18, 4), leaf("shape", 18, 2), leaf("note", 17, 0), leaf("new", 18, 3)]);
    let folder = files("edge_rules_in_the_third_edition", &sheet(&a), &sheet(&b));
    let lines = "\
the root: child count 4, was 3
at: parameter a KARNEY, was SPHERICAL
shape: logical GEOGRAPHY, was GEOMETRY
shape: parameter a THOMAS, was none
note: logical GEOMETRY, was STRING
new: only in B, required BYTE_ARRAY GEOGRAPHY(ANDOYER)
6 differences
";
    told(&compare(&folder, &["--edition", "3"]), lines);
    let meaning = "slot code outside the lists, name length or zero bytes wrong, unused slot not zero";
    let words = format!("A, \"a\": {meaning}; place 1 is the first such node");
    refused(&compare(&folder, &["--edition", "2"]), "refused 4 at 1", &words);
}

#[test]
fn files_that_cannot_be_read_or_written() {
    failed(&run(["compare", "missing", SAMPLE]), "cannot read \"missing\"");
    failed(&run(["compare", SAMPLE, "missing"]), "cannot read \"missing\"");
    failed(&run(["compare", SAMPLE, "/"]), "Is a directory");
    let folder = files("files_that_cannot_be_read_or_written", &sample(), &changed_sample());
    let full = || File::options().write(true).open("/dev/full").expect("a full device");
    for options in [&[][..], &["--json"], &["--report"]] {
        let output =
            griffeljol().args(["compare", "a", "b"]).args(options).current_dir(&folder).stdout(full()).output();
        failed(&output.expect("the command runs"), "cannot write standard output");
    }
}

#[test]
fn the_page_of_sheets_that_differ() {
    let [a, b] = every_difference();
    let folder = files("the_page_of_sheets_that_differ", &sheet(&a), &sheet(&b));
    told(&compare(&folder, &["--report"]), include_str!("page_of_differences.txt"));
}

#[test]
fn the_page_of_sheets_that_do_not_differ() {
    let folder = files("the_page_of_sheets_that_do_not_differ", &sample(), &sample());
    let output = compare(&folder, &["--report", "--edition", "2"]);
    assert_eq!(text(&output.stdout), include_str!("page_of_equals.txt"));
    assert_eq!((text(&output.stderr), output.status.code()), ("", Some(0)));
}

#[test]
fn columns_that_are_the_same_have_one_table() {
    // Rewriting adds logical types, and no column changes.
    let rewritten = run(["rewrite", SAMPLE, "-o", "-"]).stdout;
    let output = run_on(&["compare", SAMPLE, "-", "--report"], &rewritten);
    let page = text(&output.stdout);
    assert_eq!(page.matches("\nColumns, the same in A and B\n").count(), 1);
    assert!(page.contains("\nSheet B: standard input\n"));
    assert!(page.contains("  parts: logical LIST, was none\n  parts.list.element: logical STRING, was none\n"));
    assert!(page.contains("\n  2 differences\n"));
    assert_eq!(output.status.code(), Some(DIFFERENT));
    // A root alone has none.
    let root = sheet(&[Node::root(0)]);
    let page = compare(&files("columns_that_are_the_same_have_one_table", &root, &root), &["--report"]).stdout;
    assert!(
        text(&page).contains("\nColumns, the same in A and B\n  none\n\nDifferences from A to B\n  no differences\n")
    );
}

#[test]
fn a_page_is_as_wide_as_its_names_allow() {
    let leaf = |name: &str| Node::leaf(name, FIXED, REQUIRED).sized(16).decimal(38, 2);
    let mut nodes = vec![Node::root(2), leaf("short")];
    nodes.extend(["p", "q", "r"].map(|name| Node::group(&name.repeat(48), REQUIRED, 1)));
    nodes.push(leaf("long"));
    let long_path = ["p", "q", "r"].map(|name| name.repeat(48)).join(".") + ".long";
    let sheet = sheet(&nodes);
    let page = compare(&files("a_page_is_as_wide_as_its_names_allow", &sheet, &sheet), &["--report"]).stdout;
    let lines: Vec<&str> = text(&page).lines().collect();
    let wide: Vec<&&str> = lines.iter().filter(|line| line.chars().count() > 120).collect();
    assert_eq!(wide, [&format!("  {long_path}").as_str()]);
    let rest = |start: &str| {
        let line = lines.iter().find(|line| line.trim_start().starts_with(start)).expect("a line");
        line.split_at(line.find("FIXED").expect("a type"))
    };
    // What belongs to the long path stands under it, in the same columns.
    assert_eq!(rest("short").1, rest("FIXED").1);
    assert_eq!(rest("short").0.len(), rest("FIXED").0.len());
}

#[test]
fn the_longest_sheets() {
    let many = |name: &str| {
        let mut nodes = vec![Node::root(895)];
        nodes.resize(896, Node::leaf(name, INT32, OPTIONAL));
        sheet(&nodes)
    };
    let folder = files("the_longest_sheets", &many("x"), &many("y"));
    let output = compare(&folder, &[]);
    let lines: Vec<&str> = text(&output.stdout).lines().collect();
    assert_eq!((lines[0], lines[894]), ("x: only in A, optional INT32", "x[894]: only in A, optional INT32"));
    assert_eq!((lines[1789], lines[1790]), ("y[894]: only in B, optional INT32", "1790 differences"));
    let page = compare(&folder, &["--report"]).stdout;
    // The checks of 128 blocks, eight on a line.
    assert!(text(&page).contains("\n                   120: "));
    assert!(text(&page).lines().all(|line| line.chars().count() <= 120));
}

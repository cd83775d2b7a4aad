//! What the library refuses, in words.

use crate::sheet::{renew_checks, sheet, Node, BYTE_ARRAY, INT32, REQUIRED};
use crate::{refused, run, run_on, sample, text};

#[test]
fn input_without_end_is_refused() {
    let meaning = "sheet length 0, not a multiple of 512, or over 65,536";
    refused(&run(["rows", "/dev/zero"]), "refused 1 at 0", meaning);
    refused(&run(["tree", "/dev/zero"]), "refused 1 at 0", meaning);
    refused(&run(["rewrite", "/dev/zero", "-o", "-"]), "refused 1 at 0", meaning);
    let meaning = "value of wrong length, or over 65,536 bytes";
    refused(&run(["value", "6", "0", "0", "0", "0", "/dev/zero"]), "refused 15 at 0", meaning);
}

#[test]
fn each_refusal_of_a_sheet_has_its_words() {
    let two_fields =
        |node: Node| sheet(&[Node::root(1), node, Node::leaf("a", INT32, REQUIRED), Node::leaf("b", INT32, REQUIRED)]);
    let one_field = |node: Node| sheet(&[Node::root(1), node]);
    let leaf = || Node::leaf("x", INT32, REQUIRED);

    let mut wrong_check = sample();
    wrong_check[510] ^= 1;
    let mut wrong_header = sample();
    wrong_header[3] = 2;
    renew_checks(&mut wrong_header);
    let mut chain: Vec<Node> = vec![Node::root(1)];
    chain.resize(33, Node::group("g", REQUIRED, 1));
    chain.push(leaf());

    let cases: [(Vec<u8>, &str, &str); 13] = [
        (Vec::new(), "refused 1 at 0", "sheet length 0, not a multiple of 512, or over 65,536"),
        (wrong_check, "refused 2 at 0", "block check differs; place 0 is the first such block"),
        (wrong_header, "refused 3 at 0", "block header wrong; place 0 is the first such block"),
        (
            one_field(Node { physical: 8, ..leaf() }),
            "refused 4 at 1",
            "slot code outside the lists, name length or zero bytes wrong, unused slot not zero; \
             place 1 is the first such node",
        ),
        (
            sheet(&[Node::root(2), leaf()]),
            "refused 5 at 2",
            "more children are claimed than nodes exist; place 2 is T, the number of nodes",
        ),
        (
            sheet(&[Node::root(0), leaf()]),
            "refused 6 at 1",
            "nodes remain after the root's tree; place 1 is the first node left over",
        ),
        (sheet(&chain), "refused 7 at 33", "a node deeper than 32; place 33 is the first such node"),
        (one_field(Node { type_length: 1, ..leaf() }), "refused 8 at 1", "shape; place 1 is the node"),
        (
            one_field(Node { converted: 0, ..Node::leaf("x", BYTE_ARRAY, REQUIRED).logical(4, 0, 0) }),
            "refused 9 at 1",
            "converted and logical disagree; place 1 is the node",
        ),
        (
            one_field(leaf().logical(1, 0, 0)),
            "refused 10 at 1",
            "annotation on the wrong physical type, length or parameters, or INT96 in edition 3; place 1 is the node",
        ),
        (one_field(leaf().decimal(3, 3)), "refused 11 at 1", "DECIMAL scale or precision; place 1 is the node"),
        (
            two_fields(Node::group("l", REQUIRED, 2).logical(3, 0, 0)),
            "refused 12 at 1",
            "LIST structure; place 1 is the LIST",
        ),
        (
            two_fields(Node::group("m", REQUIRED, 2).logical(2, 0, 0)),
            "refused 13 at 1",
            "MAP structure; place 1 is the MAP",
        ),
    ];
    for (sheet, refusal, meaning) in cases {
        refused(&run_on(&["rows", "-"], &sheet), refusal, meaning);
        refused(&run_on(&["tree", "-"], &sheet), refusal, meaning);
        refused(&run_on(&["rewrite", "-", "-o", "-"], &sheet), refusal, meaning);
        // As JSON it is told on standard output too.
        let output = run_on(&["rows", "--json", "-"], &sheet);
        assert_eq!(text(&output.stderr), format!("{refusal}\n{meaning}\n"));
        let [_, number, _, place] = refusal.split(' ').collect::<Vec<_>>()[..] else { unreachable!() };
        let start = format!("{{\"refused\": {number}, \"at\": {place}, \"meaning\": \"");
        assert!(text(&output.stdout).starts_with(&start), "{}", text(&output.stdout));
        assert_eq!(output.status.code(), Some(1));
    }
}

#[test]
fn each_refusal_of_a_value_or_a_timestamp_has_its_words() {
    let cases = [
        ("value 1 0 0 0 0 --hex 00", "refused 15 at 0", "value of wrong length, or over 65,536 bytes"),
        (
            "value 0 0 0 0 0 --hex 02",
            "refused 16 at 0",
            "value breaks its annotation; place 0 is the byte where UTF-8 stops in a STRING, ENUM or JSON, else 0",
        ),
        (
            "value 6 0 1 0 0 --hex 6B6579E282",
            "refused 16 at 3",
            "value breaks its annotation; place 3 is the byte where UTF-8 stops in a STRING, ENUM or JSON, else 0",
        ),
        ("timestamp encode millis 1900-02-29 00:00:00", "refused 18 at 0", "fields form no date or time"),
        (
            "timestamp encode nanos 1677-09-21 00:12:43.145224191",
            "refused 19 at 0",
            "fields not representable in a signed 64-bit count",
        ),
        (
            "value 1 0 1 0 0 --hex 00000000",
            "refused 20 at 0",
            "no accepted sheet has a leaf of this column type, or a time unit is not 1 to 3",
        ),
        (
            "timestamp decode 4 0",
            "refused 20 at 0",
            "no accepted sheet has a leaf of this column type, or a time unit is not 1 to 3",
        ),
    ];
    for (line, refusal, meaning) in cases {
        refused(&run(line.split(' ')), refusal, meaning);
    }
}

#[test]
fn an_unknown_edition_is_refused_before_all_else() {
    let meaning = "edition unknown";
    for edition in ["0", "4", "5", "4294967295"] {
        for sheet in [sample(), Vec::new()] {
            refused(&run_on(&["rows", "-", "--edition", edition], &sheet), "refused 21 at 0", meaning);
            refused(&run_on(&["tree", "--edition", edition, "-"], &sheet), "refused 21 at 0", meaning);
            let words = ["rewrite", "-", "--edition", edition, "-o", "-"];
            refused(&run_on(&words, &sheet), "refused 21 at 0", meaning);
        }
        for line in ["value 1 0 0 0 0 --hex 00000000", "value 1 0 1 0 0 --hex 00", "value 8 0 0 0 0 --hex 00"] {
            let words = line.split(' ').chain(["--edition", edition]);
            refused(&run(words), "refused 21 at 0", meaning);
        }
    }
    let output = run_on(&["rows", "-", "--json", "--edition", "4"], &sample());
    let object = "{\"refused\": 21, \"at\": 0, \"meaning\": \"edition unknown\", \"place\": null}\n";
    assert_eq!(text(&output.stdout), object);
    assert_eq!(output.status.code(), Some(1));
}

#[test]
fn what_no_edition_accepts() {
    for edition in ["1", "2", "3"] {
        for (precision, scale) in [(0, 0), (3, 4), (10, 10)] {
            let sheet = sheet(&[Node::root(1), Node::leaf("x", INT32, REQUIRED).decimal(precision, scale)]);
            let output = run_on(&["rows", "-", "--edition", edition], &sheet);
            refused(&output, "refused 11 at 1", "DECIMAL scale or precision; place 1 is the node");
        }
    }
}

#[test]
fn what_the_third_edition_does_not_have() {
    let meaning =
        "annotation on the wrong physical type, length or parameters, or INT96 in edition 3; place 2 is the node";
    for logical in [0, 11] {
        let leaf = Node::leaf("t", 3, REQUIRED).logical(logical, 0, 0);
        let sheet = sheet(&[Node::root(2), Node::leaf("x", INT32, REQUIRED), leaf]);
        assert_eq!(run_on(&["rows", "-", "--edition", "2"], &sheet).status.code(), Some(0));
        refused(&run_on(&["rows", "-", "--edition", "3"], &sheet), "refused 10 at 2", meaning);
        refused(&run_on(&["tree", "-", "--edition", "3"], &sheet), "refused 10 at 2", meaning);
        refused(&run_on(&["rewrite", "-", "-o", "-", "--edition", "3"], &sheet), "refused 10 at 2", meaning);
    }
    let meaning = "no accepted sheet has a leaf of this column type, or a time unit is not 1 to 3";
    let words = ["value", "3", "0", "0", "0", "0", "-", "--edition", "3"];
    refused(&run_on(&words, &[0; 12]), "refused 20 at 0", meaning);
}

//! Boxes of points, as text and as doubles, and points inside boxes.

use std::fs;

use crate::{failed, folder, prints, refused, run, run_on, text};

const ODD: &str = "an odd number of coordinates";
const FAR: &str = "a coordinate of GEOGRAPHY is outside [-180, 180] in x or [-90, 90] in y";
const NO_BOX: &str = "a bound is NaN, ymin is above ymax, or a bound or coordinate of GEOGRAPHY is outside [-180, 180] in x or [-90, 90] in y";
const NO_KIND: &str = "only GEOMETRY, 17, and GEOGRAPHY, 18, have boxes";

fn doubles(numbers: &[f64]) -> Vec<u8> {
    numbers.iter().flat_map(|number| number.to_le_bytes()).collect()
}

#[test]
fn the_box_of_a_file_and_of_standard_input() {
    let points = "174.76 -36.85\n178.44,-18.14\n\nnan -13.83\n";
    let line = "xmin 174.76 xmax 178.44 ymin -36.85 ymax -13.83\n";
    let file = folder("the_box_of_a_file").join("points");
    fs::write(&file, points).expect("a file");
    for kind in ["GEOMETRY", "GEOGRAPHY", "17", "18"] {
        prints(&format!("box {kind} {}", file.display()), b"", line);
        prints(&format!("box {kind} -"), points.as_bytes(), line);
        let numbers = doubles(&[174.76, -36.85, 178.44, -18.14, f64::NAN, -13.83]);
        prints(&format!("box {kind} - --binary"), &numbers, line);
        prints(&format!("box --binary {kind} -"), &numbers, line);
    }
    prints(
        "box 18 - --json",
        points.as_bytes(),
        "{\"box\": {\"xmin\": 174.76, \"xmax\": 178.44, \"ymin\": -36.85, \"ymax\": -13.83}}\n",
    );
}

#[test]
fn how_points_are_spelled() {
    for points in [
        "1 2",
        "1 2\n",
        "1\t2\r\n",
        "  1 \t  2  \n",
        "1,2\n",
        "1 , 2\n",
        "1.0,\t2e0\n",
        "\n\n \t\n1 2\n\n",
        "+1 .2E1\n",
        "NaN 2\n1 nan\n",
        "1 2\nNAN,NAN\n",
    ] {
        prints("box GEOMETRY -", points.as_bytes(), "xmin 1.0 xmax 1.0 ymin 2.0 ymax 2.0\n");
    }
    prints("box GEOMETRY -", b"inf -inf\n-INF Inf\n", "xmin -inf xmax inf ymin -inf ymax inf\n");
    prints(
        "box GEOMETRY - --json",
        b"inf -inf\n1 2\n",
        "{\"box\": {\"xmin\": 1.0, \"xmax\": \"inf\", \"ymin\": \"-inf\", \"ymax\": 2.0}}\n",
    );
    // The shortest decimals that read back as the same double.
    prints(
        "box 17 -",
        b"0.1 5e-324\n0.30000000000000004 1e23\n",
        "xmin 0.1 xmax 0.30000000000000004 ymin 5e-324 ymax 1e23\n",
    );
}

#[test]
fn no_box_is_an_answer() {
    for points in ["", "\n", "nan 1\n", "1 nan\n2 nan\n"] {
        prints("box GEOGRAPHY -", points.as_bytes(), "no box\n");
        prints("box GEOGRAPHY - --json", points.as_bytes(), "{\"box\": null}\n");
    }
    prints("box GEOMETRY - --binary", b"", "no box\n");
}

#[test]
fn lines_that_are_no_pair_are_told_with_their_number() {
    let long = "1 ".to_owned() + &"0".repeat(5_000) + "2";
    let blank = " ".repeat(5_000);
    for (points, line) in [
        ("1\n", 1),
        ("1 2\n\n3\n", 3),
        ("1 2 3\n", 1),
        ("1,2,3\n", 1),
        ("1,,2\n", 1),
        ("1,\n", 1),
        (",1\n", 1),
        ("1;2\n", 1),
        ("1 x\n", 1),
        ("1 0x2\n", 1),
        ("1 2\n1e999 2\n", 2),
        ("1 2\n# a word\n", 2),
        ("1 2\n\u{a0}1 2\n", 2),
        ("1 \02\n", 1),
        (&long, 1),
        (&blank, 1),
    ] {
        let said = format!("line {line} of standard input is no pair of numbers");
        failed(&run_on(&["box", "GEOMETRY", "-"], points.as_bytes()), &said);
        // The file comes before the kind, which the library judges.
        failed(&run_on(&["box", "1", "-", "--json"], points.as_bytes()), &said);
    }
    failed(&run_on(&["box", "GEOMETRY", "-"], b"1 2\n\xFF 2\n"), "line 2 of standard input");
}

#[test]
fn doubles_that_are_cut_off_and_odd_ones() {
    let numbers = doubles(&[1.0, 2.0, 3.0]);
    for rest in 1..8 {
        let output = run_on(&["box", "GEOMETRY", "-", "--binary"], &numbers[..16 + rest]);
        failed(&output, &format!("standard input ends within a double, behind {rest} of its bytes"));
    }
    refused(&run_on(&["box", "GEOMETRY", "-", "--binary"], &numbers), "refused 15 at 0", ODD);
    refused(&run_on(&["box", "GEOGRAPHY", "-", "--binary"], &doubles(&[200.0])), "refused 15 at 0", ODD);
    refused(&run_on(&["box", "14", "-", "--binary"], &numbers), "refused 20 at 0", NO_KIND);
}

#[test]
fn refused_points() {
    for points in ["180.5 0\n", "0 -90.5\n", "nan 91\n", "inf 0\n", "1 2\n3 4\n-181 0\n"] {
        refused(&run_on(&["box", "GEOGRAPHY", "-"], points.as_bytes()), "refused 16 at 0", FAR);
    }
    prints("box GEOMETRY -", b"180.5 -90.5\n", "xmin 180.5 xmax 180.5 ymin -90.5 ymax -90.5\n");
    prints("box GEOGRAPHY -", b"180 -90\n-180 90", "xmin -180.0 xmax 180.0 ymin -90.0 ymax 90.0\n");
    for kind in ["0", "16", "19", "273", "4294967295"] {
        refused(&run_on(&["box", kind, "-"], b"500 1\n"), "refused 20 at 0", NO_KIND);
    }
    let output = run_on(&["box", "18", "-", "--json"], b"180.5 0\n");
    let object = format!("{{\"refused\": 16, \"at\": 0, \"meaning\": \"{FAR}\", \"place\": null}}\n");
    assert_eq!((text(&output.stdout), output.status.code()), (&*object, Some(1)));
}

#[test]
fn files_of_points_that_cannot_be_read() {
    failed(&run(["box", "17", "missing"]), "cannot read \"missing\"");
    let folder = folder("files_of_points");
    for words in [&["box", "17"][..], &["box", "17", "--binary"]] {
        failed(&run(words.iter().copied().chain([folder.to_str().expect("text")])), "Is a directory");
    }
}

/// More points than any buffer holds.
#[test]
fn a_long_file_of_points() {
    const COUNT: i32 = 200_000;
    let numbers: Vec<f64> = (0..COUNT).flat_map(|at| [f64::from(at), f64::from(-at) / 2.0]).collect();
    let lines: String = numbers.chunks(2).map(|point| format!("{} {}\n", point[0], point[1])).collect();
    let expected = "xmin 0.0 xmax 199999.0 ymin -99999.5 ymax ";
    for (words, input) in
        [(&["box", "17", "-"][..], lines.into_bytes()), (&["box", "17", "-", "--binary"], doubles(&numbers))]
    {
        let output = run_on(words, &input);
        // Either zero may be the greatest y.
        assert!(text(&output.stdout).starts_with(expected), "{}", text(&output.stdout));
        assert_eq!((text(&output.stderr), output.status.code()), ("", Some(0)));
    }
}

/// Holds an output to `outside`, which has its own status.
#[track_caller]
fn outside(words: &[&str], expected: &str) {
    let output = run(words);
    assert_eq!((text(&output.stdout), text(&output.stderr)), (expected, ""));
    assert_eq!(output.status.code(), Some(3));
}

#[test]
fn points_inside_and_outside() {
    for kind in ["GEOMETRY", "GEOGRAPHY", "17", "18"] {
        for point in ["0,0", "-10,40", "20,-30", "-0,+4e1"] {
            prints(&format!("inside {kind} -10,20,-30,40 {point}"), b"", "inside\n");
            prints(&format!("inside {kind} -10,20,-30,40 {point} --json"), b"", "{\"inside\": true}\n");
        }
        for point in ["-10.5,0", "0,40.5", "nan,0", "0,NaN", "-nan,0"] {
            outside(&["inside", kind, "-10,20,-30,40", point], "outside\n");
            outside(&["inside", kind, "-10,20,-30,40", point, "--json"], "{\"inside\": false}\n");
        }
        prints(&format!("inside {kind} 170,-170,-10,10 180,10"), b"", "inside\n");
        prints(&format!("inside {kind} 170,-170,-10,10 -170,0"), b"", "inside\n");
        outside(&["inside", kind, "170,-170,-10,10", "0,0"], "outside\n");
    }
    prints("inside GEOMETRY -inf,inf,-inf,inf -inf,inf", b"", "inside\n");
    prints("inside GEOMETRY -.5,.5,-.5,.5 -.5,.5", b"", "inside\n");
    outside(&["inside", "GEOMETRY", "0,1,0,1", "200,0"], "outside\n");
}

#[test]
fn refused_boxes_and_points() {
    for (kind, bounds, point) in [
        ("17", "nan,1,0,1", "0,0"),
        ("17", "0,1,0,-NAN", "0,0"),
        ("17", "0,1,1,0", "nan,0"),
        ("18", "0,181,0,1", "0,0"),
        ("18", "0,1,-91,1", "0,0"),
        ("18", "0,1,0,1", "200,0"),
        ("18", "0,1,0,1", "nan,91"),
    ] {
        refused(&run(["inside", kind, bounds, point]), "refused 16 at 0", NO_BOX);
    }
    for kind in ["0", "16", "19", "273", "4294967295"] {
        refused(&run(["inside", kind, "nan,1,1,0", "500,0"]), "refused 20 at 0", NO_KIND);
    }
    let output = run(["inside", "18", "0,1,0,1", "200,0", "--json"]);
    let object = format!("{{\"refused\": 16, \"at\": 0, \"meaning\": \"{NO_BOX}\", \"place\": null}}\n");
    assert_eq!((text(&output.stdout), output.status.code()), (&*object, Some(1)));
}

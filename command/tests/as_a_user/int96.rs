//! INT96 times: one, a file of many, and back.

use std::fs;

use crate::{failed, folder, prints, refused, run, run_on, text};

const DAY: u64 = 86_400_000_000_000;
/// The Julian day of 1 January 1970.
const EPOCH: u32 = 2_440_588;
const TOO_LONG: &str = "a full day of nanoseconds or more";
const TOO_FAR: &str = "no signed 64-bit count of nanoseconds reaches this day and time";
const CUT_OFF: &str = "an INT96 has 12 bytes";

/// The bytes of so many nanoseconds in a Julian day.
fn int96(nanos: u64, day: u32) -> Vec<u8> {
    [&nanos.to_le_bytes()[..], &day.to_le_bytes()].concat()
}

fn hex(bytes: &[u8]) -> String {
    bytes.iter().map(|byte| format!("{byte:02x}")).collect()
}

#[test]
fn one_time_there_and_back() {
    for (value, count, shown) in [
        (int96(0, EPOCH), 0, "1970-01-01 00:00:00.000000000"),
        (int96(DAY - 1, EPOCH - 1), -1, "1969-12-31 23:59:59.999999999"),
        (int96(DAY / 2, 2_451_545), 946_728_000_000_000_000, "2000-01-01 12:00:00.000000000"),
        (int96(763_145_224_192, 2_333_836), i64::MIN, "1677-09-21 00:12:43.145224192"),
        (int96(85_636_854_775_807, 2_547_339), i64::MAX, "2262-04-11 23:47:16.854775807"),
    ] {
        let digits = hex(&value);
        prints(&format!("int96 decode {digits}"), b"", &format!("{count} {shown}\n"));
        prints(&format!("int96 decode {}", digits.to_uppercase()), b"", &format!("{count} {shown}\n"));
        prints(&format!("int96 encode {count}"), b"", &format!("{digits}\n"));
    }
    let object =
        "{\"int96\": \"ffff4e91944e00008b3d2500\", \"unit\": 3, \"count\": -1, \"year\": 1969, \"month\": 12, \
                  \"day\": 31, \"hour\": 23, \"minute\": 59, \"second\": 59, \"fraction\": 999999999}\n";
    prints("int96 encode -1 --json", b"", object);
    prints("int96 --json decode ffff4e91944e00008b3d2500", b"", object);
}

#[test]
fn one_time_that_is_refused() {
    let decode = |value: &[u8]| run(["int96", "decode", &hex(value)]);
    refused(&decode(b""), "refused 15 at 0", CUT_OFF);
    refused(&decode(&[0; 11]), "refused 15 at 0", CUT_OFF);
    refused(&decode(&[0xFF; 13]), "refused 15 at 0", CUT_OFF);
    refused(&decode(&int96(DAY, EPOCH)), "refused 16 at 0", TOO_LONG);
    refused(&decode(&int96(DAY, 0)), "refused 16 at 0", TOO_LONG);
    refused(&decode(&int96(0, 0)), "refused 19 at 0", TOO_FAR);
    refused(&decode(&int96(763_145_224_191, 2_333_836)), "refused 19 at 0", TOO_FAR);
    let output = run(["int96", "decode", "--json", "00"]);
    let object = format!("{{\"refused\": 15, \"at\": 0, \"meaning\": \"{CUT_OFF}\", \"place\": null}}\n");
    assert_eq!((text(&output.stdout), output.status.code()), (&*object, Some(1)));
    let output = run(["int96", "decode", "--json", &hex(&int96(DAY, EPOCH))]);
    let object = format!("{{\"refused\": 16, \"at\": 0, \"meaning\": \"{TOO_LONG}\", \"place\": null}}\n");
    assert_eq!((text(&output.stdout), output.status.code()), (&*object, Some(1)));
}

#[test]
fn many_times_of_a_file() {
    let folder = folder("many_times_of_a_file");
    let file = folder.join("times");
    let times: Vec<u8> = (0..3).flat_map(|at| int96(u64::from(at), EPOCH + at)).collect();
    let lines = "0 0 1970-01-01 00:00:00.000000000\n\
                 1 86400000000001 1970-01-02 00:00:00.000000001\n\
                 2 172800000000002 1970-01-03 00:00:00.000000002\n";
    fs::write(&file, &times).expect("a file");
    prints(&format!("int96 decode --file {}", file.display()), b"", lines);
    prints("int96 decode --file -", &times, lines);
    prints("int96 --file - decode", &times, lines);
    prints("int96 decode --file -", b"", "");
    prints("int96 decode --file - --json", b"", "");
    prints(
        "int96 decode --file - --json",
        &times[..12],
        "{\"index\": 0, \"int96\": \"00000000000000008c3d2500\", \"unit\": 3, \"count\": 0, \"year\": 1970, \"month\": 1, \
         \"day\": 1, \"hour\": 0, \"minute\": 0, \"second\": 0, \"fraction\": 0}\n",
    );
    failed(&run(["int96", "decode", "--file", folder.to_str().expect("text")]), "Is a directory");
    failed(&run(["int96", "decode", "--file", "missing"]), "cannot read \"missing\"");
}

#[test]
fn some_times_of_a_file_refused() {
    let times = [int96(1, EPOCH), int96(DAY, EPOCH), int96(0, 0), int96(2, EPOCH), vec![7; 11]].concat();
    let lines = format!(
        "0 1 1970-01-01 00:00:00.000000001\n1 refused 16 at 0, {TOO_LONG}\n2 refused 19 at 0, {TOO_FAR}\n\
         3 2 1970-01-01 00:00:00.000000002\n4 refused 15 at 0, {CUT_OFF}\n"
    );
    let output = run_on(&["int96", "decode", "--file", "-"], &times);
    assert_eq!((text(&output.stdout), text(&output.stderr)), (&*lines, "refused 3 of 5 values\n"));
    assert_eq!(output.status.code(), Some(1));
    let output = run_on(&["int96", "decode", "--file", "-", "--json"], &times);
    let last = format!(
        "{{\"index\": 4, \"int96\": \"{}\", \"refused\": 15, \"at\": 0, \"meaning\": \"{CUT_OFF}\", \"place\": null}}",
        "07".repeat(11)
    );
    assert_eq!(text(&output.stdout).lines().last(), Some(&*last));
    assert_eq!((text(&output.stderr), output.status.code()), ("refused 3 of 5 values\n", Some(1)));
}

/// More values than any buffer holds, of which each has its own line.
#[test]
fn a_long_file() {
    const COUNT: u64 = 50_000;
    let times: Vec<u8> = (0..COUNT).flat_map(|nanos| int96(nanos, EPOCH)).collect();
    let file = folder("a_long_file").join("times");
    fs::write(&file, &times).expect("a file");
    let output = run(["int96", "decode", "--file", file.to_str().expect("text")]);
    let mut lines = text(&output.stdout).lines();
    for nanos in 0..COUNT {
        assert_eq!(lines.next(), Some(&*format!("{nanos} {nanos} 1970-01-01 00:00:00.{nanos:09}")));
    }
    assert_eq!((lines.next(), text(&output.stderr), output.status.code()), (None, "", Some(0)));
}

#[test]
fn a_value_of_an_int96_column_with_its_time() {
    let noon = hex(&int96(DAY / 2, 2_451_545));
    prints(&format!("value 3 0 0 0 0 --hex {noon}"), b"", "bytes 0 12 2000-01-01 12:00:00.000000000\n");
    prints("value 3 0 0 0 0 -", &[0xFF; 12], "bytes 0 12\n");
    prints("value 3 0 0 0 0 -", &[0; 12], "bytes 0 12\n");
    let object = |time: &str| format!("{{\"case\": \"bytes\", \"start\": 0, \"length\": 12, \"time\": {time}}}\n");
    prints(&format!("value 3 0 0 0 0 --json --hex {noon}"), b"", &object("\"2000-01-01 12:00:00.000000000\""));
    prints("value 3 0 0 0 0 --json -", &[0xFF; 12], &object("null"));
    // Other columns of 12 bytes have no time.
    prints("value 7 12 0 0 0 --json -", &[0; 12], "{\"case\": \"bytes\", \"start\": 0, \"length\": 12}\n");
    let short = run_on(&["value", "3", "0", "0", "0", "0", "-"], &[0; 11]);
    refused(&short, "refused 15 at 0", "value of wrong length, or over 65,536 bytes");
}

//! Instructions, which do not depend on the machine's mood: callgrind runs this program once more, which has every contender work N
//! times and 2N times between marks. Callgrind writes what it counted at each mark, and the difference is that of N times.

use std::hint::black_box;
use std::path::{Path, PathBuf};
use std::process::{Command, Stdio};
use std::{env, fs, io, process};

use crate::case::Case;

/// What callgrind knows the mark by.
const MARK: &str = "griffeljol_bench_mark";

/// The word that has this program work between marks.
pub const WORD: &str = "--between-marks";

/// Items that a contender works on at least, once.
const ITEMS: usize = 512;

/// Where callgrind writes what it counted so far.
#[no_mangle]
#[inline(never)]
extern "C" fn griffeljol_bench_mark() {
    black_box(());
}

/// How many times a contender of a case works.
fn times(case: &Case) -> usize {
    ITEMS.div_ceil(case.items)
}

/// Works between marks, three for each contender.
pub fn work_between_marks(cases: &mut [Case]) {
    for case in cases {
        let times = times(case);
        for contender in case.contenders.iter_mut().filter(|contender| !contender.is_slow) {
            // Once before, so that whatever is done at a first call is done.
            (contender.run)(black_box(1));
            griffeljol_bench_mark();
            (contender.run)(black_box(times));
            griffeljol_bench_mark();
            (contender.run)(black_box(2 * times));
            griffeljol_bench_mark();
        }
    }
}

/// The instructions for an item of each contender of the cases that have a word; none of a slow one.
pub fn count(cases: &[Case], word: &str) -> io::Result<Vec<Vec<f64>>> {
    let folder = env::temp_dir().join(format!("griffeljol-bench-{}", process::id()));
    fs::create_dir(&folder)?;
    let counted = count_in(&folder, cases, word);
    fs::remove_dir_all(&folder)?;
    counted
}

fn count_in(folder: &Path, cases: &[Case], word: &str) -> io::Result<Vec<Vec<f64>>> {
    let out = folder.join("counts");
    let status = Command::new("valgrind")
        .args(["--tool=callgrind", "--quiet", &format!("--dump-before={MARK}")])
        .arg(format!("--callgrind-out-file={}", out.display()))
        .arg(env::current_exe()?)
        .arg(WORD)
        .args(Some(word).filter(|word| !word.is_empty()))
        .stdin(Stdio::null())
        .status()?;
    if !status.success() {
        return Err(io::Error::other("valgrind failed"));
    }
    let mut marks = 0;
    let mut counts = Vec::new();
    for case in cases {
        let mut of_case = Vec::new();
        for contender in &case.contenders {
            if contender.is_slow {
                of_case.push(f64::NAN);
                continue;
            }
            // What is written at the second mark is counted from the first on.
            let once = total(&part(&out, marks + 2))?;
            let twice = total(&part(&out, marks + 3))?;
            marks += 3;
            of_case.push((twice - once) as f64 / (times(case) * case.items) as f64);
        }
        counts.push(of_case);
    }
    Ok(counts)
}

/// The file that is written at a mark.
fn part(out: &Path, mark: usize) -> PathBuf {
    PathBuf::from(format!("{}.{mark}", out.display()))
}

/// The instructions that a file tells.
fn total(file: &Path) -> io::Result<u64> {
    let text = fs::read_to_string(file)?;
    let number =
        text.lines().find_map(|line| line.strip_prefix("totals: ")).and_then(|number| number.trim().parse().ok());
    number.ok_or_else(|| io::Error::other(format!("{} has no total", file.display())))
}

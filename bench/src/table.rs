//! The table, in lines that are Markdown too.

use crate::measured::{Cost, Measured};
use crate::timing::Spread;

const HEADS: [&str; 12] = [
    "entry",
    "input",
    "for each",
    "griffeljol ns",
    "instructions",
    "independent ns",
    "instructions",
    "times ours",
    "peer",
    "ns",
    "instructions",
    "times ours",
];

/// How many cells stand before the peers.
const OWN: usize = 8;

/// Prints each case: the library and the independent reader, and beside them the others, a line for each.
pub fn print(measured: &[Measured]) {
    let mut lines = Vec::new();
    for one in measured {
        let library = one.library();
        let mut own = vec![one.case.entry.into(), one.case.input.clone(), one.case.item.into()];
        own.extend(cost(library));
        own.extend(cost(&one.costs[1]));
        own.push(ratio(&one.costs[1], library));
        let peers = one.case.contenders.iter().zip(&one.costs).skip(2);
        let mut peers: Vec<Vec<String>> = peers
            .map(|(peer, of_peer)| [vec![peer.name.into()], cost(of_peer), vec![ratio(of_peer, library)]].concat())
            .collect();
        if peers.is_empty() {
            peers.push(vec![String::new(); HEADS.len() - OWN]);
        }
        for peer in peers {
            lines.push([std::mem::replace(&mut own, vec![String::new(); OWN]), peer].concat());
        }
    }
    print_lines(&HEADS, &lines);
}

/// Prints lines under heads, each column as wide as it must be.
pub fn print_lines(heads: &[&str], lines: &[Vec<String>]) {
    let width = |at: usize| {
        let cells = lines.iter().map(|line| line[at].chars().count());
        cells.chain([heads[at].chars().count()]).max().unwrap_or(0)
    };
    let widths: Vec<usize> = (0..heads.len()).map(width).collect();
    let print_line = |cells: Vec<&str>| {
        let padded: Vec<String> = cells.iter().zip(&widths).map(|(cell, &width)| format!("{cell:width$}")).collect();
        println!("| {} |", padded.join(" | "));
    };
    print_line(heads.to_vec());
    println!("|{}|", widths.iter().map(|&width| "-".repeat(width + 2)).collect::<Vec<_>>().join("|"));
    for line in lines {
        print_line(line.iter().map(String::as_str).collect());
    }
}

fn cost(cost: &Cost) -> Vec<String> {
    let Spread { low, median, high } = cost.times.spread();
    vec![format!("{} ({} to {})", number(median), number(low), number(high)), number(cost.instructions)]
}

/// A contender's time as a multiple of the library's.
fn ratio(cost: &Cost, library: &Cost) -> String {
    number(cost.times.over(&library.times))
}

/// A number with about three digits.
pub fn number(x: f64) -> String {
    match x {
        _ if x.is_nan() => String::new(),
        _ if x >= 100.0 => format!("{x:.0}"),
        _ if x >= 10.0 => format!("{x:.1}"),
        _ if x >= 1.0 => format!("{x:.2}"),
        _ => format!("{x:.3}"),
    }
}

//! What is to be reached, and what is.

use crate::case::{Goal, INDEPENDENT};
use crate::measured::{Cost, Measured};
use crate::sheet_cases::{RESOLVE, REWRITE};
use crate::table::{number, print_lines};

/// How much faster than the independent reader a sheet is to be read.
const SPEED: f64 = 2.0;
/// How often the time of resolving one of two equal sheets may go into that of comparing them.
const RESOLVINGS: f64 = 3.0;
/// The nanoseconds of a millisecond.
const MILLISECOND: f64 = 1e6;
/// The most instructions for a node.
const INSTRUCTIONS: f64 = 400.0;
/// How much dearer a node may be in one sheet than in another.
const SPAN: f64 = 1.5;
/// Nanoseconds for a decimal of 16 bytes.
const DECIMAL: f64 = 30.0;
/// How much dearer a decimal may be at one precision than at another, where its length is the same.
const PRECISION_SPAN: f64 = 1.1;
/// How far a time may be above another and still count as that.
const TOLERANCE: f64 = 1.05;
/// How much dearer a box may be than by a plain loop.
const FIFTH_ABOVE: f64 = 1.2;
/// The greatest sheet.
const MOST_NODES: usize = 896;

type Line = Vec<String>;

/// Prints what is to be reached beside what was measured.
pub fn print(measured: &[Measured]) {
    let mut lines = Vec::new();
    for one in measured {
        match one.case.goal {
            Goal::Sheet { nodes: MOST_NODES, .. } => lines.extend(sheet(one)),
            Goal::EqualSheets { shape } => {
                lines.extend(beside_resolving(one, shape, measured));
                lines.extend(independent_speed(one));
            }
            Goal::IndependentSpeed => lines.extend(independent_speed(one)),
            Goal::Millisecond => lines.push(millisecond(one)),
            Goal::TimeOf(names) => lines.extend(names.iter().filter_map(|name| time_of(one, name))),
            Goal::FifthAbove(name) => lines.extend(fifth_above(one, name)),
            Goal::EighthOf(name, names) => {
                lines.extend(eighth_of(one, name));
                lines.extend(names.iter().filter_map(|name| time_of(one, name)));
            }
            Goal::Decimal => lines.push(decimal(one)),
            Goal::Sheet { .. } | Goal::Precision(_) | Goal::None => {}
        }
    }
    lines.extend(["INT32", "INT64"].iter().filter_map(|physical| precisions(measured, physical)));
    lines.extend(spans(measured));
    print_lines(&["work", "to reach", "measured", "reached"], &lines);
}

fn line(one: &Measured, to_reach: &str, measured: String, reached: bool) -> Line {
    vec![format!("{}: {}", one.case.entry, one.case.input), to_reach.into(), measured, yes_or_no(reached)]
}

fn yes_or_no(reached: bool) -> String {
    if reached { "yes" } else { "no" }.into()
}

/// The greatest sheets beside the independent reader.
fn sheet(one: &Measured) -> Vec<Line> {
    let Some(independent) = one.of(INDEPENDENT) else { return Vec::new() };
    let library = one.library();
    let times = independent.times.over(&library.times);
    let said = format!("{} a node", number(library.instructions));
    vec![
        line(one, "twice the independent's speed", format!("{times:.2} times"), times >= SPEED),
        line(one, "at most 400 instructions a node", said, library.instructions <= INSTRUCTIONS),
    ]
}

/// Two equal sheets compared beside one of them resolved.
fn beside_resolving(one: &Measured, shape: &str, measured: &[Measured]) -> Option<Line> {
    let is_resolving = |other: &&Measured| match other.case.goal {
        Goal::Sheet { shape: resolved, nodes } => {
            other.case.entry == RESOLVE && resolved == shape && nodes == MOST_NODES
        }
        _ => false,
    };
    let resolving = measured.iter().find(is_resolving)?;
    let times = one.library().times.over(&resolving.library().times);
    let to_reach = "at most three times the time of resolving one";
    Some(line(one, to_reach, format!("{times:.2} times"), times <= RESOLVINGS))
}

fn independent_speed(one: &Measured) -> Option<Line> {
    let times = one.of(INDEPENDENT)?.times.over(&one.library().times);
    Some(line(one, "the independent's speed", format!("{times:.2} times"), times >= 1.0))
}

fn millisecond(one: &Measured) -> Line {
    let time = one.library().times.spread().median * one.case.items as f64;
    line(one, "below a millisecond", format!("{} ms", number(time / MILLISECOND)), time < MILLISECOND)
}

fn time_of(one: &Measured, name: &str) -> Option<Line> {
    let times = one.library().times.over(&one.of(name)?.times);
    let to_reach = format!("the time of {name}, or less");
    Some(line(one, &to_reach, format!("{times:.2} times"), times <= TOLERANCE))
}

fn fifth_above(one: &Measured, name: &str) -> Option<Line> {
    let times = one.library().times.over(&one.of(name)?.times);
    let to_reach = format!("at most 1.2 times the time of {name}");
    Some(line(one, &to_reach, format!("{times:.2} times"), times <= FIFTH_ABOVE))
}

fn eighth_of(one: &Measured, name: &str) -> Option<Line> {
    let times = one.library().times.over(&one.of(name)?.times);
    let to_reach = format!("an eighth of the time of {name}, or less");
    Some(line(one, &to_reach, format!("{times:.3} times"), times <= TOLERANCE / 8.0))
}

fn decimal(one: &Measured) -> Line {
    let time = one.library().times.spread().median;
    line(one, "below 30 ns", format!("{} ns", number(time)), time < DECIMAL)
}

/// The dearest precision of a physical type beside the cheapest.
fn precisions(measured: &[Measured], physical: &str) -> Option<Line> {
    let is_of = |one: &&Measured| matches!(one.case.goal, Goal::Precision(name) if name == physical);
    let costs: Vec<&Cost> = measured.iter().filter(is_of).map(Measured::library).collect();
    let first = costs.first()?;
    let times = dearest_over_cheapest(costs.iter().map(|cost| cost.times.over(&first.times)));
    let instructions = dearest_over_cheapest(costs.iter().map(|cost| cost.instructions));
    Some(vec![
        format!("read: DECIMAL {physical}, every precision"),
        "the same cost".into(),
        format!("{times:.2} times in ns, {} in instructions", number(instructions)),
        yes_or_no(times <= PRECISION_SPAN && (instructions.is_nan() || instructions <= PRECISION_SPAN)),
    ])
}

/// The dearest node beside the cheapest: in a shape by the number of nodes, and over all shapes.
fn spans(measured: &[Measured]) -> Vec<Line> {
    let mut lines = Vec::new();
    for entry in [RESOLVE, REWRITE] {
        let sheets = measured.iter().filter_map(|one| match one.case.goal {
            Goal::Sheet { shape, .. } if one.case.entry == entry => Some((shape, one.library())),
            _ => None,
        });
        let sheets: Vec<(&str, &Cost)> = sheets.collect();
        let mut shapes: Vec<&str> = sheets.iter().map(|&(shape, _)| shape).collect();
        shapes.dedup();
        for &shape in &shapes {
            let costs: Vec<&Cost> = sheets.iter().filter(|sheet| sheet.0 == shape).map(|sheet| sheet.1).collect();
            lines.push(span(entry, shape, &costs));
        }
        let costs: Vec<&Cost> = sheets.iter().map(|sheet| sheet.1).collect();
        if shapes.len() > 1 {
            lines.push(span(entry, "every shape", &costs));
        }
    }
    lines
}

fn span(entry: &str, shape: &str, costs: &[&Cost]) -> Line {
    let times = dearest_over_cheapest(costs.iter().map(|cost| cost.times.over(&costs[0].times)));
    let instructions = dearest_over_cheapest(costs.iter().map(|cost| cost.instructions));
    vec![
        format!("{entry}: {shape}, 7 to 896 nodes"),
        "a node's cost within 1.5 times".into(),
        format!("{times:.2} times in ns, {} in instructions", number(instructions)),
        yes_or_no(times <= SPAN),
    ]
}

fn dearest_over_cheapest(costs: impl Iterator<Item = f64> + Clone) -> f64 {
    costs.clone().fold(f64::NAN, f64::max) / costs.fold(f64::NAN, f64::min)
}

//! What is measured: the same work by several contenders.

use std::hint::black_box;

/// The name of the library's contender, which is the first of each case.
pub const LIBRARY: &str = "griffeljol";
/// The name of the independent reader's.
pub const INDEPENDENT: &str = "independent";

/// One input of an entry, and who works on it.
pub struct Case<'a> {
    /// The entry of the C interface.
    pub entry: &'static str,
    /// The input, in words.
    pub input: String,
    /// What a cost is told for: a node, a call or a byte.
    pub item: &'static str,
    /// How many of those one run has.
    pub items: usize,
    /// What is to be reached.
    pub goal: Goal,
    /// The library first, then the independent reader, then the others.
    pub contenders: Vec<Contender<'a>>,
}

/// What is to be reached by the library in a case.
#[derive(Clone, Copy)]
pub enum Goal {
    /// Beside the independent reader, and beside sheets of other sizes.
    Sheet { shape: &'static str, nodes: usize },
    /// Two equal sheets of a shape compared: the independent reader's speed, and three times the time of resolving one of them.
    EqualSheets { shape: &'static str },
    /// The independent reader's speed.
    IndependentSpeed,
    /// Less than a millisecond.
    Millisecond,
    /// The time of each of some contenders.
    TimeOf(&'static [&'static str]),
    /// The time of one of the contenders and a fifth more.
    FifthAbove(&'static str),
    /// The time of each of some contenders, and an eighth of the time of one more.
    EighthOf(&'static str, &'static [&'static str]),
    /// A decimal of 16 bytes.
    Decimal,
    /// The same cost at every precision of a physical type.
    Precision(&'static str),
    /// None.
    None,
}

/// Somebody who does the work.
pub struct Contender<'a> {
    pub name: &'static str,
    /// Does it so many times.
    pub run: Box<dyn FnMut(usize) + 'a>,
    /// Whether it is so slow that it is timed in a few rounds alone, and its instructions are not counted.
    pub is_slow: bool,
}

impl<'a> Contender<'a> {
    /// Somebody who does the work once by a function.
    pub fn new(name: &'static str, mut once: impl FnMut() + 'a) -> Self {
        let run = move |times| {
            for _ in 0..times {
                once();
            }
        };
        Contender { name, run: Box::new(run), is_slow: false }
    }

    /// The same as one that is slow.
    pub fn slow(self) -> Self {
        Contender { is_slow: true, ..self }
    }
}

/// Somebody who works through the inputs one after the other.
pub fn contender<T: Clone + 'static, R>(
    name: &'static str,
    inputs: &[T],
    work: impl Fn(&T) -> R + 'static,
) -> Contender<'static> {
    let inputs = inputs.to_vec();
    Contender::new(name, move || {
        for input in black_box(&inputs) {
            black_box(work(input));
        }
    })
}

//! Time: many rounds, in each of which every contender of every case has a turn, those of one case one after the other. So what slows
//! the machine for a while slows all of them.

use std::time::{Duration, Instant};

use crate::case::Case;

/// In how many rounds a slow contender has a turn, the first ones.
const SLOW_ROUNDS: usize = 5;

/// How long it is measured.
pub struct Plan {
    pub rounds: usize,
    /// What one turn takes at least.
    pub turn: Duration,
}

/// Nanoseconds for an item, one number for each round, from the first on.
#[derive(Clone)]
pub struct Times(Vec<f64>);

/// A quarter of the rounds were below `low`, a quarter above `high`.
pub struct Spread {
    pub low: f64,
    pub median: f64,
    pub high: f64,
}

impl Times {
    pub fn spread(&self) -> Spread {
        spread(self.0.clone())
    }

    /// How often other times go into these: the median of what it is in each round that has both.
    pub fn over(&self, other: &Times) -> f64 {
        spread(self.0.iter().zip(&other.0).map(|(one, other)| one / other).collect()).median
    }
}

/// The times of the contenders of each case.
pub fn time(cases: &mut [Case], plan: &Plan) -> Vec<Vec<Times>> {
    let repeats: Vec<Vec<usize>> = cases.iter_mut().map(|case| repeats_of(case, plan.turn)).collect();
    let mut times: Vec<Vec<Times>> = cases.iter().map(|case| vec![Times(Vec::new()); case.contenders.len()]).collect();
    for round in 0..plan.rounds {
        for (at, case) in cases.iter_mut().enumerate() {
            let count = case.contenders.len();
            for turn in 0..count {
                // Everyone comes first equally often.
                let who = (round + turn) % count;
                if case.contenders[who].is_slow && round >= SLOW_ROUNDS {
                    continue;
                }
                // Once before it counts, so that nobody pays for what others left in the caches.
                (case.contenders[who].run)(1);
                let nanos = measure(case, who, repeats[at][who]).as_nanos() as f64;
                times[at][who].0.push(nanos / (repeats[at][who] * case.items) as f64);
            }
        }
    }
    times
}

fn measure(case: &mut Case, who: usize, repeats: usize) -> Duration {
    let start = Instant::now();
    (case.contenders[who].run)(repeats);
    start.elapsed()
}

/// How often each contender of a case works in a turn. The least of three tries counts, since others use the machine too.
fn repeats_of(case: &mut Case, turn: Duration) -> Vec<usize> {
    let mut repeats = vec![1; case.contenders.len()];
    for (who, repeats) in repeats.iter_mut().enumerate() {
        while (0..3).map(|_| measure(case, who, *repeats)).min() < Some(turn) {
            *repeats *= 2;
        }
    }
    repeats
}

fn spread(mut numbers: Vec<f64>) -> Spread {
    numbers.sort_by(f64::total_cmp);
    let at = |quarters: usize| numbers[(numbers.len() - 1) * quarters / 4];
    Spread { low: at(1), median: at(2), high: at(3) }
}

//! Times: several rounds of each, and what stands in their middle.

use std::time::{Duration, Instant};

/// Over how many sheets or texts everything is measured.
pub const COUNTS: [usize; 4] = [1, 10, 100, 1000];

/// How long it takes to go over so many sheets or texts.
pub struct Growth {
    /// How many.
    pub count: usize,
    /// Of each round: the proved one, the second program, and `wc -l`; or
    /// whatever three were run in turn.
    pub rounds: Vec<[Duration; 3]>,
}

/// The least, the middle and the greatest of several figures.
fn spread(mut figures: Vec<f64>) -> [f64; 3] {
    figures.sort_unstable_by(f64::total_cmp);
    let last = figures.len() - 1;
    [figures[0], figures[last / 2], figures[last]]
}

impl Growth {
    /// The median seconds of each.
    pub fn seconds(&self) -> [f64; 3] {
        let of = |i: usize| self.rounds.iter().map(move |round| round[i].as_secs_f64());
        [0, 1, 2].map(|i| spread(of(i).collect())[1])
    }

    /// How many times as fast one is as another, round by round: the least,
    /// the median and the greatest.
    pub fn ratio(&self, one: usize, other: usize) -> [f64; 3] {
        let ratio = |round: &[Duration; 3]| round[other].as_secs_f64() / round[one].as_secs_f64();
        spread(self.rounds.iter().map(ratio).collect())
    }
}

/// How many rounds are run: fewer where one takes long.
fn rounds(count: usize) -> usize {
    match count {
        0..=1 => 31,
        2..=10 => 15,
        11..=100 => 9,
        _ => 7,
    }
}

/// Runs each of these over so many sheets or texts once in every round, so that
/// all of them meet the same moments of the machine.
pub fn alternate(count: usize, things: [&mut dyn FnMut(); 3]) -> Growth {
    let rounds = in_turn(rounds(count), things);
    Growth { count, rounds }
}

/// So many rounds of these, after one that is not counted.
pub fn in_turn(rounds: usize, mut things: [&mut dyn FnMut(); 3]) -> Vec<[Duration; 3]> {
    let mut round = || {
        let timed = |thing: &mut &mut dyn FnMut()| {
            let start = Instant::now();
            thing();
            start.elapsed()
        };
        things.each_mut().map(timed)
    };
    round();
    (0..rounds).map(|_| round()).collect()
}

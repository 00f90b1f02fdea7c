//! Pairs of texts, and how the answer to one follows from that to the other.

use crate::random::Rng;

/// How the second answer follows from the first.
#[derive(Clone, Debug, PartialEq, Eq)]
pub enum Bond {
    /// It is the same.
    Same,
    /// This interval, counted from 0, has become two: their contributions sum
    /// to the old one, and all else is as before.
    Cut(usize),
    /// The interval at each place is the old one of this number, from 0.
    Order(Vec<usize>),
    /// Only the hour is another one.
    Hour(i64),
    /// It is this one.
    Becomes(String),
    /// It is another one.
    Differs,
}

/// Two texts and how their answers are bound.
#[derive(Clone, Debug, PartialEq, Eq)]
pub struct Pair {
    /// What was changed.
    pub name: &'static str,
    /// The text before.
    pub before: Vec<u8>,
    /// The text after.
    pub after: Vec<u8>,
    /// How the answers are bound.
    pub bond: Bond,
}

impl Pair {
    /// These two in this order; or, since sameness goes both ways, in the other.
    pub fn either_way(
        rng: &mut Rng,
        name: &'static str,
        before: Vec<u8>,
        after: Vec<u8>,
        bond: Bond,
    ) -> Self {
        let back = bond == Bond::Same && rng.once_in(2);
        let (before, after) = if back {
            (after, before)
        } else {
            (before, after)
        };
        Pair {
            name,
            before,
            after,
            bond,
        }
    }
}

impl Bond {
    /// Whether these two answers are bound so.
    pub fn holds(&self, before: &str, after: &str) -> bool {
        match self {
            Bond::Same => before == after,
            Bond::Becomes(text) => after == text,
            Bond::Differs => before != after,
            Bond::Hour(hour) => is_other_hour(before, after, *hour),
            Bond::Cut(at) => match (Paid::of(before), Paid::of(after)) {
                (Some(before), Some(after)) => is_cut(&before, &after, *at),
                (None, None) => is_moved(before, after, *at),
                _ => false,
            },
            Bond::Order(order) => match (Paid::of(before), Paid::of(after)) {
                (Some(before), Some(after)) => is_order(&before, &after, order),
                _ => false,
            },
        }
    }
}

/// A paid hour as it is printed.
struct Paid<'a> {
    grains: Vec<i128>,
    last: &'a str,
}

impl<'a> Paid<'a> {
    fn of(answer: &'a str) -> Option<Self> {
        let mut lines: Vec<&str> = answer.strip_suffix('\n')?.split('\n').collect();
        let last = lines.pop().filter(|line| line.starts_with("hour="))?;
        let mut grains = Vec::new();
        for (i, line) in lines.into_iter().enumerate() {
            let value = line.strip_prefix(&format!("i={} grains=", i + 1))?;
            grains.push(value.parse().ok()?);
        }
        Some(Paid { grains, last })
    }
}

fn is_cut(before: &Paid<'_>, after: &Paid<'_>, at: usize) -> bool {
    let mut joined = after.grains.clone();
    if at + 1 >= joined.len() {
        return false;
    }
    let second = joined.remove(at + 1);
    joined[at] += second;
    joined == before.grains && before.last == after.last
}

/// A refused interval behind the cut one has moved by one place.
fn is_moved(before: &str, after: &str, at: usize) -> bool {
    let place = |answer: &str| -> Option<(String, usize)> {
        let (what, place) = answer.strip_suffix('\n')?.split_once(" at=")?;
        Some((what.to_string(), place.parse().ok()?))
    };
    let (Some((what, old)), Some(new)) = (place(before), place(after)) else {
        return false;
    };
    let moved = old + usize::from(old > at + 1);
    new == (what, moved)
}

fn is_order(before: &Paid<'_>, after: &Paid<'_>, order: &[usize]) -> bool {
    let expected: Option<Vec<i128>> = order
        .iter()
        .map(|old| before.grains.get(*old).copied())
        .collect();
    expected.as_ref() == Some(&after.grains) && before.last == after.last
}

fn is_other_hour(before: &str, after: &str, hour: i64) -> bool {
    let (Some(before), Some(after)) = (Paid::of(before), Paid::of(after)) else {
        return before == after;
    };
    let pay = before.last.split_once(' ').map(|(_, pay)| pay);
    let expected = pay.map(|pay| format!("hour={hour} {pay}"));
    before.grains == after.grains && expected.as_deref() == Some(after.last)
}

#[cfg(test)]
mod tests {
    use super::*;

    const BEFORE: &str = "i=1 grains=5\ni=2 grains=-7\nhour=3 pay=0\n";

    #[test]
    fn a_cut_sums_to_the_old() {
        let after = "i=1 grains=5\ni=2 grains=-3\ni=3 grains=-4\nhour=3 pay=0\n";
        assert!(Bond::Cut(1).holds(BEFORE, after));
        assert!(!Bond::Cut(0).holds(BEFORE, after));
        assert!(!Bond::Cut(2).holds(BEFORE, after));
        assert!(!Bond::Cut(1).holds(BEFORE, BEFORE));
        assert!(!Bond::Cut(1).holds(BEFORE, &after.replace("pay=0", "pay=1")));
        assert!(Bond::Cut(1).holds("refused=6 at=2\n", "refused=6 at=2\n"));
        assert!(Bond::Cut(1).holds("refused=6 at=3\n", "refused=6 at=4\n"));
        assert!(!Bond::Cut(1).holds("refused=6 at=3\n", "refused=6 at=3\n"));
        assert!(!Bond::Cut(1).holds("refused=6 at=3\n", "refused=7 at=4\n"));
        assert!(!Bond::Cut(1).holds("refused=6 at=3\n", after));
    }

    #[test]
    fn an_order_moves_the_contributions() {
        let after = "i=1 grains=-7\ni=2 grains=5\nhour=3 pay=0\n";
        assert!(Bond::Order(vec![1, 0]).holds(BEFORE, after));
        assert!(!Bond::Order(vec![0, 1]).holds(BEFORE, after));
        assert!(!Bond::Order(vec![1, 0]).holds(BEFORE, &after.replace("hour=3", "hour=4")));
    }

    #[test]
    fn another_hour_is_printed() {
        assert!(Bond::Hour(9).holds(BEFORE, &BEFORE.replace("hour=3", "hour=9")));
        assert!(!Bond::Hour(9).holds(BEFORE, BEFORE));
        assert!(Bond::Hour(9).holds("refused=6 at=3\n", "refused=6 at=3\n"));
    }
}

//! What the calls have to reach: every answer with every kind of row, hour
//! and exclusion that can have it, and the last hours of a day with every
//! count of its hours.

use std::collections::{BTreeMap, BTreeSet};

/// The row that is lent, against the intervals of the block.
#[derive(Clone, Copy, Debug, PartialEq, Eq, PartialOrd, Ord)]
pub enum Room {
    /// No entry, for a block with intervals.
    Empty,
    /// One entry too few.
    OneShort,
    /// As many as there are intervals.
    Exact,
    /// One more.
    OneLong,
    /// Several more.
    MuchLonger,
}

impl Room {
    /// Every kind.
    pub const ALL: [Room; 5] = [
        Room::Empty,
        Room::OneShort,
        Room::Exact,
        Room::OneLong,
        Room::MuchLonger,
    ];

    /// The kind of a row of this length.
    pub fn of(length: usize, intervals: usize) -> Self {
        match length {
            _ if length == intervals => Room::Exact,
            0 => Room::Empty,
            _ if length + 1 == intervals => Room::OneShort,
            _ if length == intervals + 1 => Room::OneLong,
            _ => Room::MuchLonger,
        }
    }

    /// Whether the intervals find room.
    pub fn is_enough(self) -> bool {
        self >= Room::Exact
    }
}

/// The hour that is expected, against the one that the block says.
#[derive(Clone, Copy, Debug, PartialEq, Eq, PartialOrd, Ord)]
pub enum Hour {
    /// Any hour.
    Any,
    /// The block's.
    Own,
    /// Another.
    Other,
}

/// An answer, and what it was asked with.
#[derive(Clone, Copy, Debug, PartialEq, Eq, PartialOrd, Ord)]
pub struct Answered {
    /// 0 where the block is paid, else the number of the check.
    pub number: u64,
    /// The row.
    pub room: Room,
    /// The expected hour.
    pub hour: Hour,
    /// Whether the hour is excluded.
    pub excluded: bool,
}

impl Answered {
    /// Everything that calls can reach.
    pub fn all() -> Vec<Self> {
        let mut all = Vec::new();
        for number in (0..=10).filter(|number| *number != 9) {
            for room in Room::ALL {
                for hour in [Hour::Any, Hour::Own, Hour::Other] {
                    for excluded in [false, true] {
                        all.push(Answered {
                            number,
                            room,
                            hour,
                            excluded,
                        });
                    }
                }
            }
        }
        all.retain(Answered::can_be);
        all
    }

    /// The same for a controllable line's blocks, which neither a derate nor an
    /// operating point can refuse.
    pub fn of_a_line() -> Vec<Self> {
        let mut all = Answered::all();
        all.retain(|answered| !matches!(answered.number, 6 | 10));
        all
    }

    /// FORM and RANGE come before the hour is looked at, and another hour goes
    /// no further than ORDER. An excluded hour asks for neither POINT, DERATE
    /// nor REACH; room is asked for last, and no block is a sheet that moves.
    fn can_be(&self) -> bool {
        let hour = match self.number {
            1 | 2 => true,
            3 => self.hour == Hour::Other,
            _ => self.hour != Hour::Other,
        };
        let rest = match self.number {
            0 => self.room.is_enough(),
            6 | 7 | 10 => !self.excluded,
            8 => !self.room.is_enough(),
            _ => true,
        };
        hour && rest
    }
}

/// The counts of a day's hours that are handed over: the three that days
/// have, and others, among them one that is 25 in its lower half.
pub const COUNTS: [u64; 9] = [
    23,
    24,
    LONGEST_DAY,
    0,
    22,
    26,
    1 << 40,
    (1 << 32) + LONGEST_DAY,
    u64::MAX,
];

/// The hours of the longest day, which alone has an hour 24.
const LONGEST_DAY: u64 = 25;

/// The hours at the end of a day: one of every day or, of 23 hours, just past
/// it; and one of the longest day alone.
pub const LAST_HOURS: [i64; 2] = [23, 24];

/// A last hour that a block says, and what becomes of it.
#[derive(Clone, Copy, Debug, PartialEq, Eq, PartialOrd, Ord)]
pub struct AtEnd {
    /// 0 where the block is paid, else the number of the check.
    pub number: u64,
    /// The hour that the block says.
    pub says: i64,
    /// The expected hour.
    pub hour: Hour,
    /// The count of the day's hours.
    pub hours: u64,
}

impl AtEnd {
    /// Each hour with each count. The hour is judged by the count where one is
    /// expected; a block that stands in no day may say any of the longest.
    pub fn all() -> Vec<Self> {
        let mut all = Vec::new();
        for says in LAST_HOURS {
            for hour in [Hour::Any, Hour::Own, Hour::Other] {
                for hours in COUNTS {
                    let in_range = says == 23 || hour == Hour::Any || hours == LONGEST_DAY;
                    let number = match hour {
                        _ if !in_range => 2,
                        Hour::Other => 3,
                        Hour::Any | Hour::Own => 0,
                    };
                    all.push(AtEnd {
                        number,
                        says,
                        hour,
                        hours,
                    });
                }
            }
        }
        all
    }
}

/// How often each answer was reached.
#[derive(Default)]
pub struct Reached {
    answers: BTreeMap<Answered, u64>,
    at_end: BTreeSet<AtEnd>,
}

impl Reached {
    /// Counts an answer.
    pub fn note(&mut self, answered: Answered, at_end: AtEnd) {
        *self.answers.entry(answered).or_insert(0) += 1;
        self.at_end.insert(at_end);
    }

    /// Those of these answers that were never reached.
    pub fn missing(&self, wanted: &[Answered]) -> Vec<Answered> {
        let mut missing = wanted.to_vec();
        missing.retain(|answered| !self.answers.contains_key(answered));
        missing
    }

    /// The last hours that were never reached.
    pub fn missing_at_end(&self) -> Vec<AtEnd> {
        let mut all = AtEnd::all();
        all.retain(|at_end| !self.at_end.contains(at_end));
        all
    }

    /// Prints how often each number came with each kind of row.
    pub fn report(&self) {
        for number in 0..=8 {
            let count = |room: Room| -> String {
                let of = |(a, _): &(&Answered, &u64)| a.number == number && a.room == room;
                let sum: u64 = self.answers.iter().filter(of).map(|(_, count)| count).sum();
                format!("{room:?} {sum}")
            };
            println!("answer {number}: {}", Room::ALL.map(count).join(", "));
        }
    }
}

#[cfg(test)]
mod tests {
    use super::*;

    #[test]
    fn a_row_has_one_kind() {
        assert_eq!(Room::of(0, 0), Room::Exact);
        assert_eq!(Room::of(0, 4), Room::Empty);
        assert_eq!(Room::of(3, 4), Room::OneShort);
        assert_eq!(Room::of(4, 4), Room::Exact);
        assert_eq!(Room::of(5, 4), Room::OneLong);
        assert_eq!(Room::of(9, 4), Room::MuchLonger);
    }

    #[test]
    fn room_is_asked_for_with_every_short_row() {
        let room = |answered: &Answered| answered.number == 8;
        assert_eq!(Answered::all().iter().filter(|a| room(a)).count(), 8);
    }

    #[test]
    fn derate_and_point_refuse_hours_that_are_not_excluded() {
        let (all, rest) = (Answered::all(), Answered::of_a_line());
        let generators = all.iter().filter(|answered| !rest.contains(answered));
        // Either of them, any hour or the block's own, with a row of each kind.
        assert_eq!(generators.clone().count(), 2 * 2 * Room::ALL.len());
        assert_eq!(all.len() - rest.len(), generators.clone().count());
        for own in generators {
            assert!(matches!(own.number, 6 | 10) && !own.excluded, "{own:?}");
        }
    }

    #[test]
    fn only_25_hours_let_an_expected_block_say_hour_24() {
        let expected = |at: &&AtEnd| at.says == 24 && at.hour != Hour::Any;
        for at_end in AtEnd::all().iter().filter(expected) {
            assert_eq!(at_end.number != 2, at_end.hours == 25, "{at_end:?}");
        }
    }
}

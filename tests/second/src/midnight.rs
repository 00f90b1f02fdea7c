//! What a day reached with its neighbours: which marks came over midnight and
//! which did not, and what was refused of the three headers.

use crate::refusal::Check;
use crate::text::DAY_HOURS;
use crate::trace::{Reason, Spot};

/// A neighbour of a day.
#[derive(Clone, Copy, Debug, PartialEq, Eq, PartialOrd, Ord, Hash)]
pub enum Neighbour {
    /// The day before.
    Before,
    /// The day after.
    After,
}

impl Neighbour {
    /// Both of them.
    pub const ALL: [Neighbour; 2] = [Neighbour::Before, Neighbour::After];
}

/// The other neighbour of a day that is refused for the unit of one.
#[derive(Clone, Copy, Debug, PartialEq, Eq, PartialOrd, Ord, Hash)]
pub enum Beside {
    /// It lacks.
    Lacks,
    /// It says the day's own unit.
    SameUnit,
    /// It says another unit, too.
    OtherUnit,
}

/// The form and the hours that a header says.
pub type Says = (i64, i64);

/// One thing that a day reached with its neighbours.
#[derive(Clone, Copy, Debug, PartialEq, Eq, PartialOrd, Ord, Hash)]
pub enum MidnightEvent {
    /// Which neighbours stand beside a day whose headers are good.
    Stand {
        /// Whether the day before does.
        before: bool,
        /// Whether the day after does.
        after: bool,
    },
    /// One mark of a neighbour alone excludes an hour, in days of these forms
    /// and hours.
    Alone {
        /// The neighbour.
        from: Neighbour,
        /// What its header says.
        theirs: Says,
        /// What the day's own header says.
        own: Says,
    },
    /// And the neighbour's hour with that mark is in no category.
    FromNoCategory(Neighbour),
    /// x5 or x6 of a neighbour is set within reach of an hour that nothing else
    /// excludes.
    Rtc {
        /// The exception.
        mark: usize,
        /// The neighbour.
        from: Neighbour,
        /// Its `rtc`, which decides.
        theirs: i64,
        /// The day's own, which does not.
        own: i64,
    },
    /// x5 or x6 of the own day is set in an hour that nothing else excludes.
    OwnRtc {
        /// The exception.
        mark: usize,
        /// The day's own `rtc`, which decides.
        own: i64,
        /// A neighbour.
        beside: Neighbour,
        /// Its `rtc`, which does not.
        theirs: i64,
    },
    /// An hour is eligible, and an exception 4 to 6 acts in a neighbour's hour
    /// just out of reach, so many hours later (earlier, below 0).
    TooFar(usize, isize),
    /// An hour is eligible, and a neighbour's hour within reach is excluded by
    /// itself for this reason, which does not come over midnight.
    Stays(Neighbour, Reason),
    /// A header, 0 to 2, is refused.
    Refused(usize, Check, Spot),
    /// The text ended where this header should stand.
    Ended(usize),
    /// An empty line stands where the own header should.
    OwnLacks,
    /// One line of blanks stands where this header should, and then an empty one.
    Blank(usize),
    /// A header is refused, and a later one would be, too.
    FaultBehind {
        /// The refused header and its check.
        first: (usize, Check),
        /// The later one and its own.
        later: (usize, Check),
    },
    /// The day after is refused by itself, and the day before says another unit.
    UnitBehind,
    /// A neighbour is refused for its unit.
    OtherUnit {
        /// The neighbour.
        of: Neighbour,
        /// The line that says the unit.
        at: Spot,
        /// What the other neighbour is.
        other: Beside,
    },
}

impl MidnightEvent {
    /// Everything that a day can reach with its neighbours.
    pub fn all() -> Vec<MidnightEvent> {
        let mut events = vec![MidnightEvent::OwnLacks, MidnightEvent::UnitBehind];
        for before in [false, true] {
            let stand = |after| MidnightEvent::Stand { before, after };
            events.extend([false, true].map(stand));
        }
        events.extend(Neighbour::ALL.into_iter().flat_map(of_marks));
        for mark in 4..=6 {
            events.extend([-3, 3].map(|hours| MidnightEvent::TooFar(mark, hours)));
        }
        events.extend((0..=2).flat_map(of_header));
        events.extend(of_units());
        events
    }
}

/// What the marks of a neighbour can do.
fn of_marks(from: Neighbour) -> Vec<MidnightEvent> {
    let mut says: Vec<Says> = vec![(1, 24)];
    says.extend((DAY_HOURS.low..=DAY_HOURS.high).map(|hours| (2, hours)));
    let mut events = vec![MidnightEvent::FromNoCategory(from)];
    for theirs in says.clone() {
        let beside = |own: &Says| MidnightEvent::Alone {
            from,
            theirs,
            own: *own,
        };
        events.extend(says.iter().map(beside));
    }
    for (theirs, own) in [(0, 0), (0, 1), (1, 0), (1, 1)] {
        events.extend([5, 6].map(|mark| MidnightEvent::Rtc {
            mark,
            from,
            theirs,
            own,
        }));
        events.extend([5, 6].map(|mark| MidnightEvent::OwnRtc {
            mark,
            own,
            beside: from,
            theirs,
        }));
    }
    events.push(MidnightEvent::Stays(from, Reason::NoCategory));
    events.extend((1..=3).map(|mark| MidnightEvent::Stays(from, Reason::Own(mark))));
    events
}

/// How one of the three headers can be refused: FORM at each line, RANGE at all
/// but the empty one. Where line 1 is not in form it counts as form 1's.
fn of_header(header: usize) -> Vec<MidnightEvent> {
    let refused = |check, spot| MidnightEvent::Refused(header, check, spot);
    let mut events = vec![MidnightEvent::Ended(header), MidnightEvent::Blank(header)];
    events.extend((1..=11).map(|line| refused(Check::Form, Spot::Header(line))));
    events.extend((2..=12).map(|line| refused(Check::Form, Spot::CountedHeader(line))));
    events.extend((1..=10).map(|line| refused(Check::Range, Spot::Header(line))));
    events.extend((2..=11).map(|line| refused(Check::Range, Spot::CountedHeader(line))));
    let checks = [Check::Form, Check::Range];
    for later in header + 1..=2 {
        for first in checks {
            events.extend(checks.map(|check| MidnightEvent::FaultBehind {
                first: (header, first),
                later: (later, check),
            }));
        }
    }
    events
}

/// How a neighbour's unit can be refused. The day before comes first, so the day
/// after is refused only beside one that lacks or has the own unit.
fn of_units() -> Vec<MidnightEvent> {
    let mut events = Vec::new();
    for at in [Spot::Header(2), Spot::CountedHeader(3)] {
        let unit = |of, other| MidnightEvent::OtherUnit { of, at, other };
        for other in [Beside::Lacks, Beside::SameUnit] {
            events.extend(Neighbour::ALL.map(|of| unit(of, other)));
        }
        events.push(unit(Neighbour::Before, Beside::OtherUnit));
    }
    events
}

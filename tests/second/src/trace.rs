//! What an input reached, collected on the side: which limit of LL and UL,
//! which refusal at which kind of place, which exclusion. A caller that makes
//! inputs can so learn what they have not reached yet.

use std::cmp::Ordering;
use std::collections::BTreeMap;
use std::fmt;

use crate::curve::CurveFault;
use crate::line_event::{self, LineEvent};
use crate::midnight::MidnightEvent;
use crate::point::PointKind;
use crate::refusal::{Check, Refusal};
use crate::text::{Fault, Side, DAY_HOURS};

/// Where an interval stands among the thirty that an hour can have.
#[derive(Clone, Copy, Debug, PartialEq, Eq, PartialOrd, Ord, Hash)]
pub enum Nth {
    /// The first.
    First,
    /// One between.
    Inner,
    /// The thirtieth.
    Last,
}

impl Nth {
    /// All of them.
    pub const ALL: [Nth; 3] = [Nth::First, Nth::Inner, Nth::Last];

    /// The kind of the interval with this number, counted from 1.
    pub fn of(interval: usize) -> Self {
        match interval {
            0 | 1 => Nth::First,
            2..=29 => Nth::Inner,
            _ => Nth::Last,
        }
    }
}

/// The kinds of places that a refusal can name.
#[derive(Clone, Copy, Debug, PartialEq, Eq, PartialOrd, Ord, Hash)]
pub enum Spot {
    /// A line of a day's header, counted from 1; 11 is the empty one. Where
    /// line 1 is not in form there is no telling which layout was meant, and
    /// it counts here.
    Header(usize),
    /// A line of a header that says its hours, which is line 2; 12 is the
    /// empty one. Line 1 counts here where the form is known and not allowed.
    CountedHeader(usize),
    /// Line 1 of an hour block: the day-ahead schedules and bids.
    DayAheadLine,
    /// Line 2 of an hour block.
    DayAheadCurve,
    /// Line 3 of an hour block.
    RealTimeCurve,
    /// An interval line of an hour block.
    IntervalLine(Nth),
    /// The line behind the thirtieth interval.
    ExtraLine,
    /// An hour block as a whole.
    WholeHour,
    /// An interval of an hour, counted as an interval.
    Interval(Nth),
    /// The first line of an import.
    ImportLine,
    /// The empty second line of an import.
    ImportGap,
    /// Line 1 of an import's block.
    ImportHourLine,
    /// An interval line of an import's block.
    ImportIntervalLine(Nth),
    /// The line behind the thirtieth interval of an import's block.
    ImportExtraLine,
    /// An import's block as a whole.
    ImportWholeHour,
    /// Behind the last block of an import.
    ImportSurplus,
    /// A line of the head of a line's day, counted from 1; 4 is the empty one.
    LineHead(usize),
}

impl Spot {
    /// The kind of place that a refused hour names.
    pub fn in_hour(refusal: Refusal) -> Self {
        match (refusal.check, refusal.place) {
            (Check::Point | Check::Derate | Check::Reach, interval) => {
                Spot::Interval(Nth::of(interval))
            }
            (_, 0) => Spot::WholeHour,
            (_, 1) => Spot::DayAheadLine,
            (_, 2) => Spot::DayAheadCurve,
            (_, 3) => Spot::RealTimeCurve,
            (_, line @ 4..=33) => Spot::IntervalLine(Nth::of(line - 3)),
            _ => Spot::ExtraLine,
        }
    }

    /// The kind of place that a refused import names in one of its blocks.
    pub fn in_import_hour(refusal: Refusal) -> Self {
        match refusal.place {
            0 => Spot::ImportWholeHour,
            1 => Spot::ImportHourLine,
            line @ 2..=31 => Spot::ImportIntervalLine(Nth::of(line - 1)),
            _ => Spot::ImportExtraLine,
        }
    }

    /// The kind of place that a refused import names outside its blocks.
    pub fn around_import(refusal: Refusal) -> Self {
        match refusal.place {
            0 => Spot::ImportSurplus,
            1 => Spot::ImportLine,
            _ => Spot::ImportGap,
        }
    }
}

/// The rule that gave an interval its lower or upper limit.
#[derive(Clone, Copy, Debug, PartialEq, Eq, PartialOrd, Ord, Hash)]
pub enum Branch {
    /// LL of an injection that real time schedules below its economic point.
    LowerInjectBelowEop,
    /// LL of an injection that real time schedules at or above that point.
    LowerInjectFromEop,
    /// LL of a withdrawal.
    LowerWithdraw,
    /// UL of an injection whose economic point lies from D to R.
    UpperInjectEopBetween,
    /// UL of any other injection.
    UpperInjectOther,
    /// UL of a withdrawal.
    UpperWithdraw,
    /// UL of a unit scheduled for nothing on both sides.
    UpperNothing,
}

impl Branch {
    /// All of them.
    pub const ALL: [Branch; 7] = [
        Branch::LowerInjectBelowEop,
        Branch::LowerInjectFromEop,
        Branch::LowerWithdraw,
        Branch::UpperInjectEopBetween,
        Branch::UpperInjectOther,
        Branch::UpperWithdraw,
        Branch::UpperNothing,
    ];

    /// Whether the day-ahead margin on a reduction is computed, not the gain
    /// or loss on an increase.
    pub fn is_lower(self) -> bool {
        matches!(
            self,
            Branch::LowerInjectBelowEop | Branch::LowerInjectFromEop | Branch::LowerWithdraw
        )
    }
}

/// The amounts that a limit can come to lie on.
#[derive(Clone, Copy, Debug, PartialEq, Eq, PartialOrd, Ord, Hash)]
pub enum Term {
    /// D, the day-ahead schedule.
    DayAhead,
    /// R, the real-time schedule.
    RealTime,
    /// A, the actual energy, capped.
    Actual,
    /// E, the economic operating point.
    Economic,
    /// Nothing at all.
    Zero,
}

/// What a derate did.
#[derive(Clone, Copy, Debug, PartialEq, Eq, PartialOrd, Ord, Hash)]
pub enum DerateKind {
    /// `uol` is missing.
    None,
    /// The schedules fit below the limit.
    Fits,
    /// The schedules were reduced; so many kW were left over by the rounding.
    Shared {
        /// 0 to 4.
        left_over: usize,
    },
    /// Two schedules had the same remainder and only one got a kW more.
    Tie,
    /// The reduced energy schedule is at the other side of zero, or on it.
    SignChanged,
    /// The reduction exceeds the room.
    TooMuch,
}

/// Why an hour is excluded.
#[derive(Clone, Copy, Debug, PartialEq, Eq, PartialOrd, Ord, Hash)]
pub enum Reason {
    /// Its category is 0.
    NoCategory,
    /// The exception of this number, 1 to 3, is set in the hour itself.
    Own(usize),
    /// The exception of this number, 4 to 6, is set so many hours later (or
    /// earlier, below 0) in the same day; 0 is the hour itself.
    Spread(usize, isize),
    /// It is set so many hours later in the day after, or earlier, below 0, in
    /// the day before.
    Over(usize, isize),
}

/// What decides whether an interval of an import counts.
#[derive(Clone, Copy, Debug, PartialEq, Eq, PartialOrd, Ord, Hash)]
pub enum ImportTest {
    /// It counts.
    Counts,
    /// The proxy bus is enabled for coordinated scheduling.
    Cts,
    /// It was not curtailed.
    NotCut,
    /// The profile is below the day-ahead schedule.
    ProfileBelow,
    /// The bid is above the default.
    BidAbove,
}

impl ImportTest {
    /// All of them.
    pub const ALL: [ImportTest; 5] = [
        ImportTest::Counts,
        ImportTest::Cts,
        ImportTest::NotCut,
        ImportTest::ProfileBelow,
        ImportTest::BidAbove,
    ];
}

/// One thing that an input reached.
#[derive(Clone, Copy, Debug, PartialEq, Eq, PartialOrd, Ord, Hash)]
pub enum Event {
    /// A refusal by a check at a kind of place.
    Refused(Check, Spot),
    /// What was wrong with the form of the line of a FORM refusal.
    Malformed(Spot, Fault),
    /// The kind of line, the key and the side of a RANGE refusal.
    OutOfRange(&'static str, &'static str, Side),
    /// The rule that a refused curve broke.
    CurveBroken(Spot, CurveFault),
    /// An hour of a day was excluded; one event for each reason.
    Excluded(Reason),
    /// x5 or x6 was set in an hour of a unit that RTC cannot commit.
    MarkWithoutRtc(usize),
    /// An interval lagged: its actual energy was below its limit, or on it.
    Lagging(Ordering),
    /// The actual energy was capped at the schedule and the overgeneration.
    Capped,
    /// Where the economic operating point came from, or why there is none.
    Point(PointKind),
    /// What the derate did.
    Derate(DerateKind),
    /// The rule that gave the limit.
    Limit(Branch),
    /// The limit lay on this amount and on no other one.
    Lands(Branch, Term),
    /// The priced stretch ran upward, downward, or was empty.
    Stretch(Branch, Ordering),
    /// An upper contribution before the minimum with 0.
    Upper(Ordering),
    /// Real-time against day-ahead of reserve 1 to 3.
    Reserve(usize, Ordering),
    /// Real-time against day-ahead regulation.
    Regulation(Ordering),
    /// Higher regulation whose price lies at or below the bid.
    RegulationFloor,
    /// Movement was charged.
    Movement,
    /// A paid hour's sum against 0.
    HourSum(Ordering),
    /// The hours of a day whose header is good.
    DayHours(i64),
    /// Bytes follow a day's last block.
    DaySurplus,
    /// The hours of an import whose first two lines are good.
    ImportHours(i64),
    /// Why an import's interval counts, or one reason why it does not.
    Import(ImportTest),
    /// An import hour's sum against 0.
    ImportSum(Ordering),
    /// What the day of an internal controllable line reached.
    Line(LineEvent),
    /// What a day reached with its neighbours.
    Midnight(MidnightEvent),
}

impl Event {
    /// Every refusal at every kind of place that an input can reach.
    pub fn refusals() -> Vec<Event> {
        let mut spots: Vec<(Check, Spot)> = vec![
            (Check::Form, Spot::ExtraLine),
            (Check::Order, Spot::DayAheadLine),
            (Check::Curve, Spot::DayAheadCurve),
            (Check::Curve, Spot::RealTimeCurve),
            (Check::Seconds, Spot::WholeHour),
            (Check::Room, Spot::WholeHour),
            (Check::Form, Spot::Header(11)),
            (Check::Form, Spot::CountedHeader(12)),
            (Check::Range, Spot::CountedHeader(1)),
            (Check::Back, Spot::CountedHeader(2)),
            (Check::Form, Spot::ImportGap),
            (Check::Form, Spot::ImportExtraLine),
            (Check::Order, Spot::ImportHourLine),
            (Check::Order, Spot::ImportSurplus),
            (Check::Seconds, Spot::ImportWholeHour),
        ];
        for check in [Check::Form, Check::Range] {
            spots.push((check, Spot::DayAheadLine));
            spots.push((check, Spot::DayAheadCurve));
            spots.push((check, Spot::RealTimeCurve));
            spots.push((check, Spot::ImportLine));
            spots.push((check, Spot::ImportHourLine));
            spots.extend((1..=10).map(|line| (check, Spot::Header(line))));
            spots.extend((2..=11).map(|line| (check, Spot::CountedHeader(line))));
            for nth in Nth::ALL {
                spots.push((check, Spot::IntervalLine(nth)));
                spots.push((check, Spot::ImportIntervalLine(nth)));
            }
        }
        for check in [Check::Point, Check::Derate, Check::Reach] {
            spots.extend(Nth::ALL.map(|nth| (check, Spot::Interval(nth))));
        }
        spots.extend(line_event::of_head());
        let refused = |(check, spot)| Event::Refused(check, spot);
        spots.into_iter().map(refused).collect()
    }

    /// Every exclusion that a day can hold.
    pub fn exclusions() -> Vec<Event> {
        let mut reasons = vec![Reason::NoCategory];
        reasons.extend((1..=3).map(Reason::Own));
        for mark in 4..=6 {
            reasons.extend((-2..=2).map(|hours| Reason::Spread(mark, hours)));
            reasons.extend([-2, -1, 1, 2].map(|hours| Reason::Over(mark, hours)));
        }
        reasons.into_iter().map(Event::Excluded).collect()
    }

    /// Every count of hours that a day or an import can have.
    pub fn counts() -> Vec<Event> {
        let counts = DAY_HOURS.low..=DAY_HOURS.high;
        let events = |hours| [Event::DayHours(hours), Event::ImportHours(hours)];
        counts.flat_map(events).collect()
    }

    /// Everything that an economic operating point can come from.
    pub fn points() -> Vec<Event> {
        PointKind::ALL.into_iter().map(Event::Point).collect()
    }

    /// Every rule for LL and UL.
    pub fn limits() -> Vec<Event> {
        Branch::ALL.into_iter().map(Event::Limit).collect()
    }
}

/// How often each event was reached.
#[derive(Clone, Debug, PartialEq, Eq)]
pub struct Trace {
    on: bool,
    counts: BTreeMap<Event, u64>,
}

impl Default for Trace {
    fn default() -> Self {
        Trace::new()
    }
}

impl Trace {
    /// An empty trace.
    pub fn new() -> Self {
        Trace {
            on: true,
            counts: BTreeMap::new(),
        }
    }

    /// A trace that keeps nothing.
    pub fn off() -> Self {
        Trace {
            on: false,
            counts: BTreeMap::new(),
        }
    }

    /// Counts an event.
    pub fn note(&mut self, event: Event) {
        if self.on {
            *self.counts.entry(event).or_insert(0) += 1;
        }
    }

    /// How often the event was reached.
    pub fn count(&self, event: Event) -> u64 {
        self.counts.get(&event).copied().unwrap_or(0)
    }

    /// Whether the event was reached.
    pub fn saw(&self, event: Event) -> bool {
        self.count(event) > 0
    }

    /// Every event that was reached, with its count.
    pub fn events(&self) -> impl Iterator<Item = (Event, u64)> + '_ {
        self.counts.iter().map(|(event, count)| (*event, *count))
    }

    /// Those of the wanted events that were not reached.
    pub fn missing(&self, wanted: impl IntoIterator<Item = Event>) -> Vec<Event> {
        let unseen = |event: &Event| !self.saw(*event);
        wanted.into_iter().filter(unseen).collect()
    }

    /// Adds the counts of another trace.
    pub fn add(&mut self, other: &Trace) {
        for (event, count) in other.events() {
            *self.counts.entry(event).or_insert(0) += count;
        }
    }

    /// Forgets everything counted so far.
    pub fn clear(&mut self) {
        self.counts.clear();
    }
}

/// One line for each event: its count and its name.
impl fmt::Display for Trace {
    fn fmt(&self, out: &mut fmt::Formatter<'_>) -> fmt::Result {
        for (event, count) in self.events() {
            writeln!(out, "{count} {event:?}")?;
        }
        Ok(())
    }
}

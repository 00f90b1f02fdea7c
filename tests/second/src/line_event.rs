//! What a line's day reached: which branch an interval took, how its stretch lay
//! on the curves, what the cap did, and where its head can be refused.

use std::cmp::Ordering;
use std::ops::RangeInclusive;

use crate::curve::Curve;
use crate::line::{LineInterval, LineRecord};
use crate::line_head::LINE_MARK;
use crate::refusal::Check;
use crate::trace::{Event, Spot, Trace};

/// The two rules of 25.3.5.
#[derive(Clone, Copy, Debug, PartialEq, Eq, PartialOrd, Ord, Hash)]
pub enum LineBranch {
    /// Real time schedules less than the day-ahead injection.
    Lower,
    /// It schedules as much, or more.
    Other,
}

impl LineBranch {
    /// Both of them.
    pub const ALL: [LineBranch; 2] = [LineBranch::Lower, LineBranch::Other];

    /// The curve that prices the kW of the branch.
    pub fn curve(self, record: &LineRecord) -> &Curve {
        match self {
            LineBranch::Lower => &record.da,
            LineBranch::Other => &record.rt,
        }
    }

    /// The branch that is not taken.
    fn not_taken(self) -> Self {
        match self {
            LineBranch::Lower => LineBranch::Other,
            LineBranch::Other => LineBranch::Lower,
        }
    }
}

/// An end of a stretch of kilowatts, and of a curve.
#[derive(Clone, Copy, Debug, PartialEq, Eq, PartialOrd, Ord, Hash)]
pub enum End {
    /// The start.
    Low,
    /// The last end.
    High,
}

/// Where an end of the stretch lies against the same end of the curve.
#[derive(Clone, Copy, Debug, PartialEq, Eq, PartialOrd, Ord, Hash)]
pub enum Edge {
    /// Within the curve.
    Inside,
    /// On its end.
    On,
    /// One kilowatt outside.
    OneOut,
    /// Further outside.
    FarOut,
}

impl Edge {
    /// All of them.
    const ALL: [Edge; 4] = [Edge::Inside, Edge::On, Edge::OneOut, Edge::FarOut];

    /// The edge that lies so many kilowatts outside.
    fn of(outside: i64) -> Self {
        match outside {
            ..=-1 => Edge::Inside,
            0 => Edge::On,
            1 => Edge::OneOut,
            _ => Edge::FarOut,
        }
    }
}

/// One thing that a line's day reached.
#[derive(Clone, Copy, Debug, PartialEq, Eq, PartialOrd, Ord, Hash)]
pub enum LineEvent {
    /// The mark of an hour below a good head.
    Mark(u8),
    /// What the sum of an excluded hour would be against 0; none if REACH would
    /// refuse it.
    Excluded(Option<Ordering>),
    /// The real-time schedule against the day-ahead injection.
    Schedule(Ordering),
    /// The actual injection against the day-ahead one: the stretch to be priced
    /// runs down from there, up, or is empty.
    Stretch(LineBranch, Ordering),
    /// The actual withdrawal against the day-ahead one.
    Withdrawal(LineBranch, Ordering),
    /// Where an end of the stretch lay against the curve of the branch.
    Ends(LineBranch, End, Edge),
    /// There was a stretch to be priced, and its curve had no steps.
    NoSteps(LineBranch),
    /// The branch's curve priced the stretch, and the other could not have.
    OtherCurveShort(LineBranch),
    /// A contribution of the lower branch.
    Lower(Ordering),
    /// A contribution of the other branch before the cap: what the injection
    /// makes with its bid, and what the whole makes. The cap is on the whole.
    Cap {
        /// The injection and its bid.
        injection: Ordering,
        /// The withdrawal, too.
        whole: Ordering,
    },
}

impl LineEvent {
    /// Everything that a line's day can reach.
    pub fn all() -> Vec<LineEvent> {
        const ORDERS: [Ordering; 3] = [Ordering::Less, Ordering::Equal, Ordering::Greater];
        let digits = (LINE_MARK.low..=LINE_MARK.high).map(|digit| digit as u8);
        let mut events: Vec<LineEvent> = digits.map(LineEvent::Mark).collect();
        events.push(LineEvent::Excluded(None));
        for order in ORDERS {
            events.push(LineEvent::Excluded(Some(order)));
            events.push(LineEvent::Schedule(order));
            events.push(LineEvent::Lower(order));
            events.extend(ORDERS.map(|whole| LineEvent::Cap {
                injection: order,
                whole,
            }));
        }
        for branch in LineBranch::ALL {
            events.push(LineEvent::NoSteps(branch));
            events.push(LineEvent::OtherCurveShort(branch));
            events.extend(ORDERS.map(|order| LineEvent::Stretch(branch, order)));
            events.extend(ORDERS.map(|order| LineEvent::Withdrawal(branch, order)));
            for end in [End::Low, End::High] {
                events.extend(Edge::ALL.map(|edge| LineEvent::Ends(branch, end, edge)));
            }
        }
        events
    }

    /// Notes what an interval asks of its curves.
    pub(crate) fn note_interval(
        record: &LineRecord,
        interval: &LineInterval,
        branch: LineBranch,
        trace: &mut Trace,
    ) {
        let ahead = &record.day_ahead;
        let mut note = |event| trace.note(Event::Line(event));
        note(LineEvent::Schedule(interval.en.cmp(&ahead.dasi)));
        let way = interval.aei.cmp(&ahead.dasi);
        note(LineEvent::Stretch(branch, way));
        let withdrawn = interval.aew.cmp(&ahead.dasw);
        note(LineEvent::Withdrawal(branch, withdrawn));
        let low = ahead.dasi.min(interval.aei);
        let high = ahead.dasi.max(interval.aei);
        if low == high {
            return;
        }
        match sticks_out(branch.curve(record), low, high) {
            None => note(LineEvent::NoSteps(branch)),
            Some((below, above)) => {
                note(LineEvent::Ends(branch, End::Low, Edge::of(below)));
                note(LineEvent::Ends(branch, End::High, Edge::of(above)));
            }
        }
        let prices = |branch: LineBranch| {
            let out = sticks_out(branch.curve(record), low, high);
            out.is_some_and(|(below, above)| below <= 0 && above <= 0)
        };
        if prices(branch) && !prices(branch.not_taken()) {
            note(LineEvent::OtherCurveShort(branch));
        }
    }
}

/// Every refusal of the head: FORM at each of its four lines, and RANGE at all
/// but the empty one.
pub(crate) fn of_head() -> Vec<(Check, Spot)> {
    let of =
        |check, lines: RangeInclusive<usize>| lines.map(move |line| (check, Spot::LineHead(line)));
    of(Check::Form, 1..=4)
        .chain(of(Check::Range, 1..=3))
        .collect()
}

/// How far a stretch lies outside a curve at its two ends; below 0 where it
/// lies inside. None for a curve without steps.
fn sticks_out(curve: &Curve, low: i64, high: i64) -> Option<(i64, i64)> {
    let end = curve.used().last()?.to;
    Some((curve.start - low, high - end))
}

//! The kinds of hours whose blocks are made here. What can be wrong with a block
//! is the same for all of them, and is made from what a kind says of itself.

use second::line::Controllable;
use second::record::{Kind, Record, Unit};
use second::text::ENERGY;
use second::{DayAhead, HourRecord, Interval, LineAhead, LineInterval, LineRecord};

use crate::points;
use crate::random::Rng;
use crate::stretches::{self, Priced};
use crate::{hour, hours, lines};

/// A kind of hour, and how its hours are made.
pub trait Made: Kind {
    /// An hour of any sort, with curves that reach for the most part.
    fn any(rng: &mut Rng) -> Record<Self>;

    /// An hour that is not refused: its curves reach everywhere. Its points do
    /// not go by them, so that they can be cut down.
    fn reaching(rng: &mut Rng) -> Record<Self>;

    /// What the real-time curve gives to each interval that is asked for its
    /// point and leaves that to the curve. Only generators have points.
    fn points(_: &Record<Self>) -> Vec<Option<i64>> {
        Vec::new()
    }

    /// An interval that asks for no curve and contributes 0.
    fn still(line: &Self::Ahead, s: i64) -> Self::Interval;

    /// What each interval needs a price for, as far as the checks get.
    fn priced(record: &Record<Self>) -> Vec<Priced>;

    /// Puts something into an interval that only the checks which go interval
    /// by interval can find.
    fn hinder(interval: &mut Self::Interval);

    /// An interval as two, which contribute what it did; it has two seconds at
    /// the least.
    fn cut(rng: &mut Rng, interval: Self::Interval) -> [Self::Interval; 2];

    /// The hour that line 1 says.
    fn hour_mut(line: &mut Self::Ahead) -> &mut i64;

    /// The seconds of an interval.
    fn seconds_mut(interval: &mut Self::Interval) -> &mut i64;
}

impl Made for Unit {
    fn any(rng: &mut Rng) -> HourRecord {
        hours::any(rng)
    }

    fn reaching(rng: &mut Rng) -> HourRecord {
        points::said(&hour::reaching(rng))
    }

    fn points(record: &HourRecord) -> Vec<Option<i64>> {
        points::of_hour(record)
    }

    fn still(line: &DayAhead, s: i64) -> Interval {
        hours::still(line, s)
    }

    fn priced(record: &HourRecord) -> Vec<Priced> {
        stretches::priced(record)
    }

    fn hinder(interval: &mut Interval) {
        interval.uol = Some(0);
    }

    fn cut(rng: &mut Rng, whole: Interval) -> [Interval; 2] {
        let s = rng.between(1, whole.s - 1);
        let mv = rng.between(0, whole.mv);
        let rest = Interval {
            s: whole.s - s,
            mv: whole.mv - mv,
            ..whole
        };
        [Interval { s, mv, ..whole }, rest]
    }

    fn hour_mut(line: &mut DayAhead) -> &mut i64 {
        &mut line.hour
    }

    fn seconds_mut(interval: &mut Interval) -> &mut i64 {
        &mut interval.s
    }
}

impl Made for Controllable {
    fn any(rng: &mut Rng) -> LineRecord {
        lines::any(rng)
    }

    fn reaching(rng: &mut Rng) -> LineRecord {
        lines::reaching(rng)
    }

    fn still(ahead: &LineAhead, s: i64) -> LineInterval {
        lines::still(ahead, s)
    }

    fn priced(record: &LineRecord) -> Vec<Priced> {
        lines::priced(record)
    }

    fn hinder(interval: &mut LineInterval) {
        interval.aei = ENERGY.high;
    }

    fn cut(rng: &mut Rng, whole: LineInterval) -> [LineInterval; 2] {
        let s = rng.between(1, whole.s - 1);
        let rest = LineInterval {
            s: whole.s - s,
            ..whole
        };
        [LineInterval { s, ..whole }, rest]
    }

    fn hour_mut(ahead: &mut LineAhead) -> &mut i64 {
        &mut ahead.hour
    }

    fn seconds_mut(interval: &mut LineInterval) -> &mut i64 {
        &mut interval.s
    }
}

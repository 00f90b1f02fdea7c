//! An hour as a record: the numbers of its block, as they stand.

use std::fmt::Debug;

use crate::curve::{Curve, MOST_STEPS};
use crate::interval;
use crate::point::{self, PointKind};
use crate::refusal::Check;
use crate::text::{
    read_at, sheet_line, Fault, Line, LineFault, Number, SheetLine, BID, ENERGY, HOUR, POWER,
    PRICE, SECONDS,
};
use crate::Run;

/// The most intervals an hour can have.
pub const MOST_INTERVALS: usize = 30;

/// Lines of a block in front of its intervals.
pub const LINES_BEFORE: usize = 3;

sheet_line! {
    /// Line 1: the day-ahead schedules and the bids behind them.
    DayAhead {
        /// Hour of the day.
        hour: i64 => HOUR,
        /// Energy schedule.
        en: i64 => ENERGY,
        /// Regulation schedule.
        reg: i64 => POWER,
        /// Schedule of reserve 1.
        r1: i64 => POWER,
        /// Schedule of reserve 2.
        r2: i64 => POWER,
        /// Schedule of reserve 3.
        r3: i64 => POWER,
        /// Regulation bid.
        breg: i64 => BID,
        /// Bid of reserve 1.
        b1: i64 => BID,
        /// Bid of reserve 2.
        b2: i64 => BID,
        /// Bid of reserve 3.
        b3: i64 => BID,
    }
}

sheet_line! {
    /// Lines 4 to 33: one interval of real time.
    Interval {
        /// Seconds.
        s: i64 => SECONDS,
        /// Energy schedule.
        en: i64 => ENERGY,
        /// Actual energy.
        ae: i64 => ENERGY,
        /// Compensable overgeneration.
        co: i64 => POWER,
        /// Economic operating point; missing where the real-time curve gives it.
        eop: Option<i64> => ENERGY,
        /// Price of energy.
        pen: i64 => PRICE,
        /// Limit of 25.4, at or below which a unit lags.
        lim: i64 => ENERGY,
        /// Upper operating limit of a derate; missing without one.
        uol: Option<i64> => POWER,
        /// Schedule of reserve 1.
        r1: i64 => POWER,
        /// Schedule of reserve 2.
        r2: i64 => POWER,
        /// Schedule of reserve 3.
        r3: i64 => POWER,
        /// Price of reserve 1.
        p1: i64 => PRICE,
        /// Price of reserve 2.
        p2: i64 => PRICE,
        /// Price of reserve 3.
        p3: i64 => PRICE,
        /// Regulation schedule.
        reg: i64 => POWER,
        /// Price of regulation.
        preg: i64 => PRICE,
        /// Real-time regulation bid.
        breg: i64 => BID,
        /// Movement.
        mv: i64 => POWER,
        /// Price of movement.
        pmv: i64 => BID,
        /// Bid of movement.
        bmv: i64 => BID,
    }
}

/// A kind of hour: what its line 1 and its interval lines say, and what one of
/// its intervals contributes. All else is the same for every kind.
pub trait Kind: Clone + Copy + Debug + Default + PartialEq + Eq {
    /// Line 1.
    type Ahead: SheetLine;
    /// Lines 4 to 33.
    type Interval: SheetLine;

    /// The hour that line 1 says.
    fn hour(line: &Self::Ahead) -> i64;

    /// The seconds of an interval.
    fn seconds(interval: &Self::Interval) -> i64;

    /// The grains of one interval of an eligible hour, or the check that
    /// refuses it.
    fn contribution(
        record: &Record<Self>,
        interval: &Self::Interval,
        run: &mut Run,
    ) -> Result<i128, Check>;

    /// Notes what an excluded hour was spared, if the trace has a word for it.
    fn note_excluded(_: &Record<Self>, _: &mut Run) {}
}

/// The hours of a generator.
#[derive(Clone, Copy, Debug, Default, PartialEq, Eq)]
pub struct Unit;

impl Kind for Unit {
    type Ahead = DayAhead;
    type Interval = Interval;

    fn hour(line: &DayAhead) -> i64 {
        line.hour
    }

    fn seconds(interval: &Interval) -> i64 {
        interval.s
    }

    fn contribution(
        record: &HourRecord,
        interval: &Interval,
        run: &mut Run,
    ) -> Result<i128, Check> {
        interval::contribution(record, interval, run)
    }

    fn note_excluded(record: &HourRecord, run: &mut Run) {
        for interval in record.used() {
            let spared = PointKind::NowhereExcluded;
            point::note_spared(record, interval, spared, &mut run.trace);
        }
    }
}

/// One hour of a generator.
pub type HourRecord = Record<Unit>;

/// One hour. It stands for the block that prints these numbers, so every check
/// names the line on which a number would stand. Any number can be in any
/// field; what lies behind a count is not looked at.
#[derive(Clone, Debug, Default, PartialEq, Eq)]
pub struct Record<K: Kind> {
    /// Line 1.
    pub day_ahead: K::Ahead,
    /// Line 2.
    pub da: Curve,
    /// Line 3.
    pub rt: Curve,
    /// How many intervals there are; more than 30 stand in no sheet.
    pub count: usize,
    /// Lines 4 and on.
    pub intervals: [K::Interval; MOST_INTERVALS],
}

impl<K: Kind> Record<K> {
    /// Reads the lines of a block; the first line at fault is named.
    pub fn read(lines: &[Line<'_>]) -> Result<Self, LineFault> {
        let mut record = Record {
            day_ahead: read_at(lines, 1, K::Ahead::read)?,
            da: read_at(lines, 2, |line| Curve::read(line, "da"))?,
            rt: read_at(lines, 3, |line| Curve::read(line, "rt"))?,
            count: lines.len() - LINES_BEFORE,
            ..Record::default()
        };
        let places = LINES_BEFORE + 1..=lines.len();
        for (interval, place) in record.intervals.iter_mut().zip(places) {
            *interval = read_at(lines, place, K::Interval::read)?;
        }
        record.form()?;
        Ok(record)
    }

    /// The first line that no sheet can have: a curve of too many steps, or
    /// the line behind the thirtieth interval.
    pub fn form(&self) -> Result<(), LineFault> {
        if self.da.count > MOST_STEPS {
            return Err((2, Fault::Count));
        }
        if self.rt.count > MOST_STEPS {
            return Err((3, Fault::Count));
        }
        if self.count > MOST_INTERVALS {
            return Err((LINES_BEFORE + MOST_INTERVALS + 1, Fault::Extra));
        }
        Ok(())
    }

    /// The intervals that the count says.
    pub fn used(&self) -> &[K::Interval] {
        &self.intervals[..self.count.min(MOST_INTERVALS)]
    }

    /// Takes these intervals and their count. More than 30 are counted, but
    /// only the first 30 are held.
    pub fn set_intervals(&mut self, intervals: &[K::Interval]) {
        self.count = intervals.len();
        for (held, given) in self.intervals.iter_mut().zip(intervals) {
            *held = *given;
        }
    }

    /// The numbers of the block, line by line.
    pub fn lines_of_numbers(&self) -> Vec<Vec<Number>> {
        let mut lines = vec![
            self.day_ahead.numbers(),
            self.da.numbers("da"),
            self.rt.numbers("rt"),
        ];
        lines.extend(self.used().iter().map(SheetLine::numbers));
        lines
    }

    /// The block that the record stands for, without its closing empty line.
    /// Numbers of more than seven digits are printed as they are, and a sheet
    /// with them is FORM where the record is RANGE.
    pub fn to_text(&self) -> String {
        let mut text = String::new();
        self.day_ahead.write(&mut text);
        self.da.write("da", &mut text);
        self.rt.write("rt", &mut text);
        for interval in self.used() {
            interval.write(&mut text);
        }
        text
    }
}

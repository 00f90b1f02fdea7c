//! Internal controllable lines (25.3.5): a line's day, its blocks, and what an
//! interval contributes. The blocks have two curves and the checks of a
//! generator's, and no derate, no lagging and no exceptions of 25.2.2: an hour
//! is eligible if its mark says so.

use crate::day::{judge_below, DayAnswer, Head};
use crate::hour::{judge_kind, Answer, Ask};
use crate::line_event::{LineBranch, LineEvent};
use crate::record::{Kind, Record};
use crate::refusal::{Check, Refusal};
use crate::text::{cut_block, sheet_line, Line, ENERGY, HOUR, PRICE, SECONDS};
use crate::trace::{Event, Trace};
use crate::Run;

pub use crate::line_head::LineHead;

sheet_line! {
    /// Line 1 of a line's block: what it was scheduled for day-ahead.
    LineAhead {
        /// Hour of the day.
        hour: i64 => HOUR,
        /// Energy scheduled for injection.
        dasi: i64 => ENERGY,
        /// Energy scheduled for withdrawal.
        dasw: i64 => ENERGY,
    }
}

sheet_line! {
    /// Lines 4 to 33 of a line's block: one interval of real time.
    LineInterval {
        /// Seconds.
        s: i64 => SECONDS,
        /// Energy schedule.
        en: i64 => ENERGY,
        /// Actual energy injected.
        aei: i64 => ENERGY,
        /// Actual energy withdrawn.
        aew: i64 => ENERGY,
        /// Price at the bus of injection.
        pin: i64 => PRICE,
        /// Price at the bus of withdrawal.
        pout: i64 => PRICE,
    }
}

/// The hours of an internal controllable line.
#[derive(Clone, Copy, Debug, Default, PartialEq, Eq)]
pub struct Controllable;

/// One hour of an internal controllable line.
pub type LineRecord = Record<Controllable>;

impl Kind for Controllable {
    type Ahead = LineAhead;
    type Interval = LineInterval;

    fn hour(line: &LineAhead) -> i64 {
        line.hour
    }

    fn seconds(interval: &LineInterval) -> i64 {
        interval.s
    }

    fn contribution(
        record: &LineRecord,
        interval: &LineInterval,
        run: &mut Run,
    ) -> Result<i128, Check> {
        contribution(record, interval, run)
    }

    fn note_excluded(record: &LineRecord, run: &mut Run) {
        let quiet = &mut Run::quiet(run.way);
        let grains = |interval| contribution(record, interval, quiet).ok();
        let sum: Option<i128> = record.used().iter().map(grains).sum();
        let spared = LineEvent::Excluded(sum.map(|sum| sum.cmp(&0)));
        run.trace.note(Event::Line(spared));
    }
}

impl Head for LineHead {
    type Kind = Controllable;

    fn hours(&self) -> i64 {
        self.hours
    }

    fn excluded(&self) -> Vec<bool> {
        LineHead::excluded(self)
    }

    fn note(&self, hour: usize, trace: &mut Trace) {
        if let Some(mark) = self.mark.get(hour) {
            trace.note(Event::Line(LineEvent::Mark(*mark)));
        }
    }
}

/// Judges a line's day.
pub fn judge(text: &[u8], run: &mut Run) -> DayAnswer<LineHead, Refusal> {
    let head = cut_block(text);
    let read = LineHead::judged(&head, &mut run.trace);
    judge_below(read, head.rest, run)
}

/// What the program `line` prints for its input.
pub fn program(text: &[u8], run: &mut Run) -> String {
    judge(text, run).to_string()
}

/// Judges the first block of the lent bytes, as [`crate::hour::judge_block`]
/// does for a generator's.
pub fn judge_block(block: &[u8], ask: Ask, row: &mut [i64], run: &mut Run) -> Answer {
    judge_lines(&cut_block(block).lines, ask, row, run)
}

/// Judges a line's block that is cut into its lines.
pub fn judge_lines(lines: &[Line<'_>], ask: Ask, row: &mut [i64], run: &mut Run) -> Answer {
    judge_kind::<Controllable>(lines, ask, row, run)
}

/// The branch that an interval takes: its schedule alone decides, whatever the
/// line did.
pub fn branch(ahead: &LineAhead, interval: &LineInterval) -> LineBranch {
    if interval.en < ahead.dasi {
        LineBranch::Lower
    } else {
        LineBranch::Other
    }
}

/// The grains of one interval of an eligible hour, or REACH.
///
/// What is not injected is bought back at the one bus, and what is not
/// withdrawn is not paid for at the other. Scheduled below day-ahead, the line
/// saved its day-ahead bid for the kW between; else its real-time bid counts for
/// them, and only a gain of all this is set against the hour, as a negative
/// amount.
fn contribution(
    record: &LineRecord,
    interval: &LineInterval,
    run: &mut Run,
) -> Result<i128, Check> {
    let ahead = &record.day_ahead;
    let (dasi, aei) = (i128::from(ahead.dasi), i128::from(interval.aei));
    let (dasw, aew) = (i128::from(ahead.dasw), i128::from(interval.aew));
    let injection = (dasi - aei) * i128::from(interval.pin);
    let withdrawal = (dasw - aew) * i128::from(interval.pout);
    let seconds = i128::from(interval.s);
    let branch = branch(ahead, interval);
    LineEvent::note_interval(record, interval, branch, &mut run.trace);
    match branch {
        LineBranch::Lower => {
            let saved = record.da.cost(aei, dasi, run.way).ok_or(Check::Reach)?;
            let grains = (injection - withdrawal - saved) * seconds;
            run.trace
                .note(Event::Line(LineEvent::Lower(grains.cmp(&0))));
            Ok(grains)
        }
        LineBranch::Other => {
            let cost = record.rt.cost(dasi, aei, run.way).ok_or(Check::Reach)?;
            let grains = (injection - withdrawal + cost) * seconds;
            run.trace.note(Event::Line(LineEvent::Cap {
                injection: (injection + cost).cmp(&0),
                whole: grains.cmp(&0),
            }));
            Ok(grains.min(0))
        }
    }
}

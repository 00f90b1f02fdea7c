//! The second program: it answers every text of document 01 (an hour block,
//! a day, a curtailed import) and a line's day, for days of 23, 24 and 25
//! hours, with every check, and moves stored sheets from one form to the other,
//! so that its answers can be laid beside those of the engine.
//!
//! The short way in is [`hour_text`], [`day_text`], [`import_text`] and
//! [`line_text`]: bytes in, the printed answer out; and [`up_text`] and
//! [`down_text`]: bytes in, the moved sheet or the refusal out. Behind them
//! stand
//!
//! - [`hour`]: one hour, from a lent block or from an [`HourRecord`], with the
//!   lent row of contributions;
//! - [`header`]: the header of a day and its marks;
//! - [`joined`]: the headers of three days, and who is excluded by their marks;
//! - [`day`]: the three headers, the day's hours and their total;
//! - [`import`]: the curtailed import of one day;
//! - [`mod@line`]: the day of an internal controllable line, and one of its blocks
//!   with a lent row;
//! - [`archive`]: a stored sheet in the other form;
//! - [`trace`]: what an input reached, collected on the side; [`line_event`] and
//!   [`midnight`]: what lines and days with their neighbours add to that.
//!
//! ```
//! use second::{hour, Answer, Ask, Check, Event, HourRecord, Refusal, Run};
//! use second::trace::Spot;
//!
//! // Bytes in, the printed answer out.
//! assert_eq!(second::hour_text(b""), "refused=1 at=1\n");
//!
//! // A record, what is known of its hour, the lent row, and the trace.
//! let mut run = Run::default();
//! let mut row = [0; 30];
//! let ask = Ask { excluded: false, expected: Some(0), hours: 24 };
//! let answer = hour::judge_record(&HourRecord::default(), ask, &mut row, &mut run);
//! assert_eq!(answer, Answer::Refused(Refusal::new(Check::Seconds, 0)));
//! assert!(run.trace.saw(Event::Refused(Check::Seconds, Spot::WholeHour)));
//! ```
//!
//! The programs and everything that judges bytes, lines or records give an
//! answer on every input, and none of them panics. Power is whole kW, price
//! whole cents per MWh, time whole seconds, and amounts are in grains
//! (1/3,600,000 cent), held in 128 bits so that no sum can overflow.

pub mod archive;
pub mod console;
pub mod curve;
pub mod day;
pub mod derate;
pub mod energy;
mod head;
pub mod header;
pub mod hour;
pub mod import;
pub mod interval;
pub mod joined;
pub mod keys;
pub mod line;
pub mod line_event;
mod line_head;
pub mod midnight;
mod midnight_note;
pub mod point;
pub mod record;
pub mod refusal;
pub mod text;
pub mod trace;

pub use archive::Moved;
pub use curve::{Curve, Step, Way};
pub use day::{Day, DayAnswer, Header};
pub use hour::{Answer, Ask, Paid};
pub use import::ImportAnswer;
pub use joined::Headers;
pub use line::{LineAhead, LineHead, LineInterval, LineRecord};
pub use line_event::{LineBranch, LineEvent};
pub use midnight::{MidnightEvent, Neighbour};
pub use point::PointKind;
pub use record::{DayAhead, HourRecord, Interval};
pub use refusal::{Check, HeaderRefusal, Refusal};
pub use trace::{Event, Trace};

/// How a call works and what it noted on the way.
#[derive(Clone, Debug, Default)]
pub struct Run {
    /// How the curves are read.
    pub way: Way,
    /// What the inputs of this run reached so far.
    pub trace: Trace,
}

impl Run {
    /// A run that reads curves in the given way and keeps a trace.
    pub fn new(way: Way) -> Self {
        Run {
            way,
            trace: Trace::new(),
        }
    }

    /// A run without a trace, for long comparisons.
    pub fn quiet(way: Way) -> Self {
        Run {
            way,
            trace: Trace::off(),
        }
    }
}

/// What the program `hour` prints for this input.
pub fn hour_text(input: &[u8]) -> String {
    hour::program(input, &mut Run::quiet(Way::Steps))
}

/// What the program `day` prints for this input.
pub fn day_text(input: &[u8]) -> String {
    day::program(input, &mut Run::quiet(Way::Steps))
}

/// What the program `import` prints for this input.
pub fn import_text(input: &[u8]) -> String {
    import::program(input, &mut Run::quiet(Way::Steps))
}

/// What the program `line` prints for this input.
pub fn line_text(input: &[u8]) -> String {
    line::program(input, &mut Run::quiet(Way::Steps))
}

/// What the program `up` makes of this input.
pub fn up_text(input: &[u8]) -> Moved {
    archive::up(input, &mut Run::quiet(Way::Steps))
}

/// What the program `down` makes of this input.
pub fn down_text(input: &[u8]) -> Moved {
    archive::down(input, &mut Run::quiet(Way::Steps))
}

/// Grains in a cent: 1000 kW in a MW times 3600 seconds in an hour.
pub const GRAINS_PER_CENT: i128 = 3_600_000;

/// The cents of a sum. Below zero nothing is paid. Else each whole cent is, and
/// one more if half a cent or more is left over: 1,800,000 grains pay 1, and
/// 1,799,999 pay 0.
pub fn cents(grains: i128) -> i128 {
    let sum = grains.max(0);
    let (whole, rest) = (sum / GRAINS_PER_CENT, sum % GRAINS_PER_CENT);
    whole + i128::from(2 * rest >= GRAINS_PER_CENT)
}

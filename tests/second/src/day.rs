//! The day: the headers of three days, the hours of the one between and their
//! total. A line's day has one header of its own and blocks of another kind, and
//! all else in common.

use std::fmt;

use crate::hour::{judge_kind, Answer, Ask};
use crate::joined::{self, Headers};
use crate::record::{Kind, MOST_INTERVALS};
use crate::refusal::HeaderRefusal;
use crate::text::cut_block;
use crate::trace::{Event, Trace};
use crate::Run;

pub use crate::header::{Header, Marks, HOURS};

/// A day whose header is good, or whose three headers are.
#[derive(Clone, Debug, PartialEq, Eq)]
pub struct Day<H = Headers> {
    /// What stands above the blocks.
    pub header: H,
    /// The answer for each block place of the day.
    pub hours: Vec<Answer>,
    /// Whether bytes follow the last of them.
    pub surplus: bool,
}

impl<H> Day<H> {
    /// The sum of the hours' cents, each of them rounded before; none if an hour
    /// was refused or bytes follow.
    pub fn total(&self) -> Option<i128> {
        let sum: Option<i128> = self.hours.iter().map(Answer::cents).sum();
        sum.filter(|_| !self.surplus)
    }
}

/// The answer to a day.
#[derive(Clone, Debug, PartialEq, Eq)]
pub enum DayAnswer<H = Headers, R = HeaderRefusal> {
    /// The header is good; each hour has its own answer.
    Judged(Box<Day<H>>),
    /// The header is refused.
    Refused(R),
}

/// Prints the answer as the programs `day` and `line` do.
impl<H, R: fmt::Display> fmt::Display for DayAnswer<H, R> {
    fn fmt(&self, out: &mut fmt::Formatter<'_>) -> fmt::Result {
        match self {
            DayAnswer::Refused(refusal) => writeln!(out, "{refusal}"),
            DayAnswer::Judged(day) => print_day(day, out),
        }
    }
}

fn print_day<H>(day: &Day<H>, out: &mut fmt::Formatter<'_>) -> fmt::Result {
    for (place, answer) in day.hours.iter().enumerate() {
        match answer {
            Answer::Paid(paid) => writeln!(out, "hour={place} pay={}", paid.cents)?,
            Answer::Refused(refusal) => writeln!(out, "hour={place} {refusal}")?,
        }
    }
    match day.total() {
        Some(cents) => writeln!(out, "total={cents}"),
        None => writeln!(out, "total=-"),
    }
}

/// What a good header says of the hours below it.
pub(crate) trait Head {
    /// The kind of these hours.
    type Kind: Kind;

    /// How many there are.
    fn hours(&self) -> i64;

    /// Whether each of them is excluded.
    fn excluded(&self) -> Vec<bool>;

    /// Notes what the marks say of one of them.
    fn note(&self, hour: usize, trace: &mut Trace);
}

/// Judges a day with the headers of its neighbours.
pub fn judge(text: &[u8], run: &mut Run) -> DayAnswer {
    let (headers, blocks) = joined::read_headers(text, &mut run.trace);
    judge_below(headers, blocks, run)
}

/// What the program `day` prints for its input.
pub fn program(text: &[u8], run: &mut Run) -> String {
    judge(text, run).to_string()
}

/// The answer to a day whose header has been judged, and whose blocks are the
/// given text.
pub(crate) fn judge_below<H: Head, R>(
    header: Result<H, R>,
    text: &[u8],
    run: &mut Run,
) -> DayAnswer<H, R> {
    match header {
        Ok(header) => DayAnswer::Judged(Box::new(judge_hours(header, text, run))),
        Err(refusal) => DayAnswer::Refused(refusal),
    }
}

/// One answer for each block place. A fault in one block does not touch the
/// next: the text is cut at its empty lines whatever stands between them.
fn judge_hours<H: Head>(header: H, text: &[u8], run: &mut Run) -> Day<H> {
    run.trace.note(Event::DayHours(header.hours()));
    let mut rest = text;
    let mut hours = Vec::new();
    for (place, excluded) in header.excluded().into_iter().enumerate() {
        header.note(place, &mut run.trace);
        let ask = Ask {
            excluded,
            expected: i64::try_from(place).ok(),
            hours: header.hours(),
        };
        let block = cut_block(rest);
        let mut row = [0; MOST_INTERVALS];
        hours.push(judge_kind::<H::Kind>(&block.lines, ask, &mut row, run));
        rest = block.rest;
    }
    let surplus = !rest.is_empty();
    if surplus {
        run.trace.note(Event::DaySurplus);
    }
    Day {
        header,
        hours,
        surplus,
    }
}

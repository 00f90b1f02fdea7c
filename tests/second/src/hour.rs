//! One hour: its checks in their order, its contributions, its cents.

use std::fmt::Write;

use crate::record::{Kind, Record, Unit, MOST_INTERVALS};
use crate::refusal::{Check, Refusal};
use crate::text::{cut_block, hour_in_day, Line, LineFault, Number, DAY_HOURS};
use crate::trace::{Event, Spot, Trace};
use crate::{cents, Run};

/// What the caller knows of an hour.
#[derive(Clone, Copy, Debug, PartialEq, Eq)]
pub struct Ask {
    /// Whether the hour is excluded: it is still checked, and pays nothing.
    pub excluded: bool,
    /// The hour that the block has to say, if one is expected.
    pub expected: Option<i64>,
    /// How many hours the block's day has. Only 25 of them let it say hour 24;
    /// all other numbers are alike.
    pub hours: i64,
}

/// What the program `hour` takes: an eligible hour, any one of the longest day.
impl Default for Ask {
    fn default() -> Self {
        Ask {
            excluded: false,
            expected: None,
            hours: DAY_HOURS.high,
        }
    }
}

/// A paid hour.
#[derive(Clone, Copy, Debug, PartialEq, Eq)]
pub struct Paid {
    /// The hour that the block says.
    pub hour: i64,
    /// The number of intervals, which is the number of entries written.
    pub intervals: usize,
    /// The sum of the contributions in grains; it may be negative.
    pub grains: i128,
    /// What is paid.
    pub cents: i128,
}

/// The answer to an hour.
#[derive(Clone, Copy, Debug, PartialEq, Eq)]
pub enum Answer {
    /// All checks passed and the row is written.
    Paid(Paid),
    /// A check failed and the row is as it was.
    Refused(Refusal),
}

impl Answer {
    /// The cents of a paid hour.
    pub fn cents(&self) -> Option<i128> {
        match self {
            Answer::Paid(paid) => Some(paid.cents),
            Answer::Refused(_) => None,
        }
    }
}

/// Judges the first block of the lent bytes; what stands behind its closing
/// empty line is not looked at. The row takes the contributions, one for each
/// interval, if the hour is paid.
pub fn judge_block(block: &[u8], ask: Ask, row: &mut [i64], run: &mut Run) -> Answer {
    judge_lines(&cut_block(block).lines, ask, row, run)
}

/// Judges a block that is cut into its lines.
pub fn judge_lines(lines: &[Line<'_>], ask: Ask, row: &mut [i64], run: &mut Run) -> Answer {
    judge_kind::<Unit>(lines, ask, row, run)
}

/// Judges the lines of a block of some kind.
pub(crate) fn judge_kind<K: Kind>(
    lines: &[Line<'_>],
    ask: Ask,
    row: &mut [i64],
    run: &mut Run,
) -> Answer {
    let answer = match Record::<K>::read(lines) {
        Ok(record) => settle(&record, ask, row, run),
        Err(fault) => Err(malformed(fault, &mut run.trace)),
    };
    report(answer, &mut run.trace)
}

/// Judges a record, of whatever kind, as the block that it stands for.
pub fn judge_record<K: Kind>(
    record: &Record<K>,
    ask: Ask,
    row: &mut [i64],
    run: &mut Run,
) -> Answer {
    let answer = match record.form() {
        Ok(()) => settle(record, ask, row, run),
        Err(fault) => Err(malformed(fault, &mut run.trace)),
    };
    report(answer, &mut run.trace)
}

/// What the program `hour` prints for its input.
pub fn program(input: &[u8], run: &mut Run) -> String {
    let mut row = [0; MOST_INTERVALS];
    match judge_block(input, Ask::default(), &mut row, run) {
        Answer::Refused(refusal) => format!("{refusal}\n"),
        Answer::Paid(paid) => print_paid(&paid, &row[..paid.intervals]),
    }
}

fn print_paid(paid: &Paid, contributions: &[i64]) -> String {
    let mut out = String::new();
    for (i, grains) in contributions.iter().enumerate() {
        // Appending to a string cannot fail.
        let _ = writeln!(out, "i={} grains={grains}", i + 1);
    }
    let _ = writeln!(out, "hour={} pay={}", paid.hour, paid.cents);
    out
}

fn report(answer: Result<Paid, Refusal>, trace: &mut Trace) -> Answer {
    match answer {
        Ok(paid) => {
            trace.note(Event::HourSum(paid.grains.cmp(&0)));
            Answer::Paid(paid)
        }
        Err(refusal) => {
            trace.note(Event::Refused(refusal.check, Spot::in_hour(refusal)));
            Answer::Refused(refusal)
        }
    }
}

fn malformed((line, fault): LineFault, trace: &mut Trace) -> Refusal {
    let refusal = Refusal::new(Check::Form, line);
    trace.note(Event::Malformed(Spot::in_hour(refusal), fault));
    refusal
}

/// Every check but FORM, and the payment of an hour in good form.
fn settle<K: Kind>(
    record: &Record<K>,
    ask: Ask,
    row: &mut [i64],
    run: &mut Run,
) -> Result<Paid, Refusal> {
    let hour = K::hour(&record.day_ahead);
    ranges_in_day(record.lines_of_numbers(), ask.hours, &mut run.trace)?;
    order(hour, ask.expected)?;
    curves(record, &mut run.trace)?;
    whole_hour(record.used().iter().map(K::seconds))?;
    let contributions = contributions(record, ask.excluded, run)?;
    let entries = row.get_mut(..contributions.len());
    let entries = entries.ok_or(Refusal::new(Check::Room, 0))?;
    for (entry, grains) in entries.iter_mut().zip(&contributions) {
        *entry = entry_of(*grains);
    }
    let grains = contributions.iter().sum();
    Ok(Paid {
        hour,
        intervals: contributions.len(),
        grains,
        cents: cents(grains),
    })
}

/// RANGE in a block of a day of so many hours. The hour is the first number of
/// every block.
pub(crate) fn ranges_in_day(
    mut lines: Vec<Vec<Number>>,
    hours: i64,
    trace: &mut Trace,
) -> Result<(), Refusal> {
    if let Some(hour) = lines.iter_mut().flatten().next() {
        hour.range = hour_in_day(hours);
    }
    ranges(&lines, trace)
}

/// RANGE, if a number lies outside: the first line with one. Lines count
/// from 1.
pub(crate) fn ranges(lines: &[Vec<Number>], trace: &mut Trace) -> Result<(), Refusal> {
    for (i, line) in lines.iter().enumerate() {
        for number in line {
            if let Some(side) = number.missed() {
                trace.note(Event::OutOfRange(number.line, number.key, side));
                return Err(Refusal::new(Check::Range, i + 1));
            }
        }
    }
    Ok(())
}

/// ORDER, if the block says another hour than the expected one.
pub(crate) fn order(says: i64, expected: Option<i64>) -> Result<(), Refusal> {
    match expected {
        Some(hour) if hour != says => Err(Refusal::new(Check::Order, 1)),
        _ => Ok(()),
    }
}

fn curves<K: Kind>(record: &Record<K>, trace: &mut Trace) -> Result<(), Refusal> {
    for (line, curve) in [(2, &record.da), (3, &record.rt)] {
        if let Some(fault) = curve.fault() {
            let refusal = Refusal::new(Check::Curve, line);
            trace.note(Event::CurveBroken(Spot::in_hour(refusal), fault));
            return Err(refusal);
        }
    }
    Ok(())
}

/// SECONDS, unless the intervals make an hour.
pub(crate) fn whole_hour(seconds: impl Iterator<Item = i64>) -> Result<(), Refusal> {
    let sum: i128 = seconds.map(i128::from).sum();
    if sum == 3600 {
        Ok(())
    } else {
        Err(Refusal::new(Check::Seconds, 0))
    }
}

/// The contributions of all intervals, up to the first that is refused for what
/// it asks of a derate or a curve. An excluded hour asks nothing.
fn contributions<K: Kind>(
    record: &Record<K>,
    excluded: bool,
    run: &mut Run,
) -> Result<Vec<i128>, Refusal> {
    if excluded {
        K::note_excluded(record, run);
        return Ok(vec![0; record.used().len()]);
    }
    let mut contributions = Vec::new();
    for (i, interval) in record.used().iter().enumerate() {
        let grains = K::contribution(record, interval, run);
        contributions.push(grains.map_err(|check| Refusal::new(check, i + 1))?);
    }
    Ok(contributions)
}

/// A contribution as an entry of the row. Within the ranges it stays below
/// 3e16 grains on either side, so nothing is ever cut off here.
fn entry_of(grains: i128) -> i64 {
    grains.clamp(i64::MIN.into(), i64::MAX.into()) as i64
}

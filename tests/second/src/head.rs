//! The head of a day, be it a generator's or a line's: lines of one number or
//! one row of marks each, and an empty line behind them.

use std::fmt::Write;

use crate::refusal::{Check, Refusal};
use crate::text::{write_pair, Cut, Fault, Line, LineFault, Pairs, DAY_HOURS};
use crate::trace::{Event, Spot, Trace};

/// A row of marks: the digit of each hour, hour 0 first.
pub type Marks = Vec<u8>;

/// The digits that a row of marks must have; any number of them where no day
/// has so many hours, as the count alone is then to blame.
pub(crate) fn row_length(hours: i64) -> Option<usize> {
    let is_day = DAY_HOURS.missed(hours).is_none();
    usize::try_from(hours).ok().filter(|_| is_day)
}

/// The number of a line that has this key alone.
pub(crate) fn one_number(line: Line<'_>, key: &str) -> Result<i64, Fault> {
    let mut pairs = Pairs::of(line)?;
    let value = pairs.value(key)?;
    pairs.end()?;
    Ok(value)
}

/// The row of a line that has this key alone.
pub(crate) fn one_row(line: Line<'_>, key: &str, length: Option<usize>) -> Result<Marks, Fault> {
    let mut pairs = Pairs::of(line)?;
    let row = pairs.bytes(key)?;
    pairs.end()?;
    let fits = length.is_none_or(|length| row.len() == length);
    if !fits || !row.iter().all(u8::is_ascii_digit) {
        return Err(Fault::Marks);
    }
    Ok(row.iter().map(|digit| digit - b'0').collect())
}

/// The line of this number has to be there, and has to be empty.
pub(crate) fn ends_at(head: &Cut<'_>, last: usize) -> Result<(), LineFault> {
    if head.lines.len() >= last {
        return Err((last, Fault::Extra));
    }
    if !head.closed {
        return Err((last, Fault::Absent));
    }
    Ok(())
}

/// RANGE at the first line that is not good.
pub(crate) fn all_good(lines: &[bool]) -> Result<(), Refusal> {
    match lines.iter().position(|good| !good) {
        Some(i) => Err(Refusal::new(Check::Range, i + 1)),
        None => Ok(()),
    }
}

/// The head that was read, unless its form or a range refuses it; the trace
/// learns why.
pub(crate) fn judged<H>(
    read: Result<H, LineFault>,
    in_range: impl FnOnce(&H) -> Result<(), Refusal>,
    spot: impl Fn(usize) -> Spot,
    trace: &mut Trace,
) -> Result<H, Refusal> {
    let formed = read.map_err(|(line, fault)| {
        trace.note(Event::Malformed(spot(line), fault));
        Refusal::new(Check::Form, line)
    });
    let judged = formed.and_then(|head| in_range(&head).map(|()| head));
    if let Err(refusal) = &judged {
        trace.note(Event::Refused(refusal.check, spot(refusal.place)));
    }
    judged
}

/// Appends a line of one number.
pub(crate) fn write_number(text: &mut String, key: &str, value: i64) {
    write_pair(text, key, &value);
    text.push('\n');
}

/// Appends a line of one row of marks.
pub(crate) fn write_row(text: &mut String, key: &str, marks: &Marks) {
    text.push_str(key);
    text.push('=');
    for mark in marks {
        // Appending to a string cannot fail.
        let _ = write!(text, "{mark}");
    }
    text.push('\n');
}

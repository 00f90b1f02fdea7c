//! The head of a line's day: the line, the hours of the day, and which of them
//! are eligible.

use crate::head::{
    all_good, ends_at, judged, one_number, one_row, row_length, write_number, write_row, Marks,
};
use crate::refusal::Refusal;
use crate::text::{read_at, Cut, LineFault, Range, DAY_HOURS, NAME};
use crate::trace::{Spot, Trace};

/// The mark of an hour: not eligible, or (i) or (ii) of 25.3.5.
pub(crate) const LINE_MARK: Range = Range::new(0, 2);

/// The head of a line's day as it stands: its row can have any digits, and any
/// number of them.
#[derive(Clone, Debug, PartialEq, Eq)]
pub struct LineHead {
    /// The line.
    pub line: i64,
    /// The hours of the day.
    pub hours: i64,
    /// The mark of each hour.
    pub mark: Marks,
}

impl LineHead {
    /// A line with mark (i) in each of so many hours.
    pub fn new(hours: usize) -> Self {
        LineHead {
            line: 1,
            hours: hours as i64,
            mark: vec![1; hours],
        }
    }

    /// Reads a head; the first line at fault is named.
    fn read(cut: &Cut<'_>) -> Result<Self, LineFault> {
        let number = |place, key| read_at(&cut.lines, place, |line| one_number(line, key));
        let (line, hours) = (number(1, "line")?, number(2, "hours")?);
        let digits = row_length(hours);
        let mark = read_at(&cut.lines, 3, |line| one_row(line, "mark", digits))?;
        ends_at(cut, 4)?;
        Ok(LineHead { line, hours, mark })
    }

    /// RANGE at the first line with a number or digit that it does not allow.
    fn check_ranges(&self) -> Result<(), Refusal> {
        let is_mark = |digit: &u8| LINE_MARK.missed(i64::from(*digit)).is_none();
        all_good(&[
            NAME.missed(self.line).is_none(),
            DAY_HOURS.missed(self.hours).is_none(),
            self.mark.iter().all(is_mark),
        ])
    }

    /// Reads a head and refuses one that no line's day can have.
    pub(crate) fn judged(cut: &Cut<'_>, trace: &mut Trace) -> Result<Self, Refusal> {
        let read = LineHead::read(cut);
        judged(read, LineHead::check_ranges, Spot::LineHead, trace)
    }

    /// Whether each hour is excluded: none but its own mark decides.
    pub fn excluded(&self) -> Vec<bool> {
        self.mark.iter().map(|mark| *mark == 0).collect()
    }

    /// The head's lines with the closing empty one.
    pub fn to_text(&self) -> String {
        let mut text = String::new();
        write_number(&mut text, "line", self.line);
        write_number(&mut text, "hours", self.hours);
        write_row(&mut text, "mark", &self.mark);
        text.push('\n');
        text
    }
}

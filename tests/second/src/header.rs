//! The header of a day sheet: the unit, its hours and their marks, and what the
//! marks of an hour say by themselves.

use crate::head::{
    all_good, ends_at, judged, one_number, one_row, row_length, write_number, write_row,
};
use crate::refusal::Refusal;
use crate::text::{read_at, Cut, LineFault, DAY_HOURS, MARK, NAME};
use crate::trace::{Reason, Spot, Trace};

pub use crate::head::Marks;

/// Hours of a day whose sheet does not say them.
pub const HOURS: usize = 24;

/// The forms of a sheet.
pub(crate) const FORMS: [i64; 2] = [PLAIN_FORM, COUNTED_FORM];

/// The form of a day of 24 hours, whose header does not say them.
pub(crate) const PLAIN_FORM: i64 = 1;

/// The form whose header says the hours of its day, on line 2. Every other
/// number on line 1 has the layout without them.
pub(crate) const COUNTED_FORM: i64 = 2;

/// No category, and categories (i), (iii), (iv) and (v) of 25.2.1. Category
/// (ii), demand side resources, is not among what is paid yet.
const CATEGORIES: [u8; 5] = [0, 1, 3, 4, 5];

/// The exceptions 25.2.2.1 to 25.2.2.6.
const EXCEPTIONS: [&str; 6] = ["x1", "x2", "x3", "x4", "x5", "x6"];

/// A day's header as it stands: a row of marks can have any digits, and any
/// number of them.
#[derive(Clone, Debug, PartialEq, Eq)]
pub struct Header {
    /// The form of the sheet.
    pub form: i64,
    /// The hours of the day; 24 in a form that does not say them.
    pub hours: i64,
    /// The unit.
    pub unit: i64,
    /// Whether RTC can commit the unit.
    pub rtc: i64,
    /// The category of each hour, 0 for none.
    pub cat: Marks,
    /// The six exceptions, x1 first.
    pub x: [Marks; 6],
}

/// A unit in category (i) all day, without exceptions.
impl Default for Header {
    fn default() -> Self {
        Header {
            form: PLAIN_FORM,
            ..Header::counted(HOURS)
        }
    }
}

impl Header {
    /// The same for a sheet that says its hours, so many of them.
    pub fn counted(hours: usize) -> Self {
        Header {
            form: COUNTED_FORM,
            hours: hours as i64,
            unit: 1,
            rtc: 0,
            cat: vec![1; hours],
            x: std::array::from_fn(|_| vec![0; hours]),
        }
    }

    /// Reads a header; the first line at fault is named.
    fn read(cut: &Cut<'_>) -> Result<Self, LineFault> {
        let lines = &cut.lines;
        let form = form_of(cut)?;
        let (hours, above) = match form {
            COUNTED_FORM => (read_at(lines, 2, |line| one_number(line, "hours"))?, 2),
            _ => (HOURS as i64, 1),
        };
        let digits = row_length(hours);
        let mut header = Header {
            form,
            hours,
            unit: read_at(lines, above + 1, |line| one_number(line, "unit"))?,
            rtc: read_at(lines, above + 2, |line| one_number(line, "rtc"))?,
            cat: read_at(lines, above + 3, |line| one_row(line, "cat", digits))?,
            x: Default::default(),
        };
        for (i, key) in EXCEPTIONS.into_iter().enumerate() {
            header.x[i] = read_at(lines, above + 4 + i, |line| one_row(line, key, digits))?;
        }
        // The line behind x6.
        ends_at(cut, above + 10)?;
        Ok(header)
    }

    /// RANGE at the first line with a number or digit that it does not allow;
    /// line 1 allows the given forms.
    fn check_ranges(&self, forms: &[i64]) -> Result<(), Refusal> {
        let mut good = vec![forms.contains(&self.form)];
        if self.form == COUNTED_FORM {
            good.push(DAY_HOURS.missed(self.hours).is_none());
        }
        good.push(NAME.missed(self.unit).is_none());
        good.push(MARK.missed(self.rtc).is_none());
        good.push(self.cat.iter().all(|digit| CATEGORIES.contains(digit)));
        let is_mark = |digit: &u8| MARK.missed(i64::from(*digit)).is_none();
        good.extend(self.x.iter().map(|marks| marks.iter().all(is_mark)));
        all_good(&good)
    }

    /// Every reason for which an hour is excluded by itself: its category, and
    /// the exceptions that reach no other hour. An hour that the day does not
    /// have is in no category.
    pub fn own_reasons(&self, hour: usize) -> Vec<Reason> {
        let mut reasons = Vec::new();
        if self.has_no_category(hour) {
            reasons.push(Reason::NoCategory);
        }
        let set = (1..=3).filter(|mark| self.is_set(*mark, hour));
        reasons.extend(set.map(Reason::Own));
        reasons
    }

    /// Whether exception `mark`, 4 to 6, acts in an hour and around it: x5 and
    /// x6 do so for a unit only that RTC can commit on this day.
    pub fn acts(&self, mark: usize, hour: usize) -> bool {
        self.is_set(mark, hour) && (mark == 4 || self.rtc == 1)
    }

    /// Whether an hour is in no category.
    pub fn has_no_category(&self, hour: usize) -> bool {
        matches!(self.cat.get(hour), None | Some(0))
    }

    /// Whether exception `mark`, 1 to 6, is set in an hour of this day.
    pub fn is_set(&self, mark: usize, hour: usize) -> bool {
        let row = mark.checked_sub(1).and_then(|i| self.x.get(i));
        let digit = row.and_then(|row| row.get(hour));
        digit == Some(&1)
    }

    /// The line that says the unit.
    pub fn unit_line(&self) -> usize {
        match self.form {
            COUNTED_FORM => 3,
            _ => 2,
        }
    }

    /// The header's lines with the closing empty one.
    pub fn to_text(&self) -> String {
        let mut text = String::new();
        write_number(&mut text, "form", self.form);
        if self.form == COUNTED_FORM {
            write_number(&mut text, "hours", self.hours);
        }
        write_number(&mut text, "unit", self.unit);
        write_number(&mut text, "rtc", self.rtc);
        write_row(&mut text, "cat", &self.cat);
        for (key, marks) in EXCEPTIONS.into_iter().zip(&self.x) {
            write_row(&mut text, key, marks);
        }
        text.push('\n');
        text
    }
}

/// Reads a header and refuses one that no day can have, or that is of none of
/// the given forms.
pub(crate) fn read_header(
    head: &Cut<'_>,
    forms: &[i64],
    trace: &mut Trace,
) -> Result<Header, Refusal> {
    let in_range = |header: &Header| header.check_ranges(forms);
    judged(
        Header::read(head),
        in_range,
        |line| spot_of(head, line),
        trace,
    )
}

/// The number that decides the layout.
fn form_of(head: &Cut<'_>) -> Result<i64, LineFault> {
    read_at(&head.lines, 1, |line| one_number(line, "form"))
}

/// A line of the header in the layout that it has.
pub(crate) fn spot_of(head: &Cut<'_>, line: usize) -> Spot {
    match form_of(head) {
        Ok(COUNTED_FORM) => Spot::CountedHeader(line),
        _ => Spot::Header(line),
    }
}

//! Why a text is not paid, or not moved: the number of the check and the place.

use std::fmt;

/// The checks, by their numbers. They run in this order, but POINT runs just
/// before DERATE in each interval.
#[derive(Clone, Copy, Debug, PartialEq, Eq, PartialOrd, Ord, Hash)]
pub enum Check {
    /// A line is absent, extra, or not in the sheet's form.
    Form = 1,
    /// A number or mark lies outside its range.
    Range = 2,
    /// The block says another hour than its place; bytes behind an import.
    Order = 3,
    /// A curve breaks a rule.
    Curve = 4,
    /// The seconds of the intervals do not make an hour.
    Seconds = 5,
    /// The derate takes more than the schedules can give up.
    Derate = 6,
    /// A kilowatt that has to be priced has no price.
    Reach = 7,
    /// The lent row is too short for the contributions.
    Room = 8,
    /// A day of another count than 24 cannot be stored in form 1.
    Back = 9,
    /// The economic operating point is left to a curve without steps.
    Point = 10,
}

impl Check {
    /// The number that is printed for this check.
    pub fn number(self) -> u8 {
        self as u8
    }
}

/// A refused hour, header or import block.
#[derive(Clone, Copy, Debug, PartialEq, Eq, PartialOrd, Ord, Hash)]
pub struct Refusal {
    /// The first check that failed.
    pub check: Check,
    /// The line or interval, counted from 1; 0 for the block as a whole.
    pub place: usize,
}

impl Refusal {
    /// The refusal by this check at this place.
    pub fn new(check: Check, place: usize) -> Self {
        Refusal { check, place }
    }
}

impl fmt::Display for Refusal {
    fn fmt(&self, out: &mut fmt::Formatter<'_>) -> fmt::Result {
        write!(out, "refused={} at={}", self.check.number(), self.place)
    }
}

/// A refused header of a day.
#[derive(Clone, Copy, Debug, PartialEq, Eq, PartialOrd, Ord, Hash)]
pub struct HeaderRefusal {
    /// The check and the line of that header.
    pub refusal: Refusal,
    /// The header: 0 is the day before's, 1 the day's own, 2 the day after's.
    pub header: usize,
}

impl fmt::Display for HeaderRefusal {
    fn fmt(&self, out: &mut fmt::Formatter<'_>) -> fmt::Result {
        write!(out, "{} header={}", self.refusal, self.header)
    }
}

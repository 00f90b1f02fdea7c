//! Three days side by side: the day before, a day's own and the day after, each
//! with its own count of hours; and who of the own hours is excluded by the
//! marks of all three.

use crate::day::Head;
use crate::header::{read_header, Header, FORMS};
use crate::midnight::Neighbour;
use crate::midnight_note as note;
use crate::record::Unit;
use crate::refusal::{Check, HeaderRefusal, Refusal};
use crate::text::{cut_block, Cut};
use crate::trace::{Event, Reason, Trace};

/// How far the exceptions 4 to 6 reach, in hours before and after.
pub(crate) const REACH: isize = 2;

/// The headers of three days, in the order in which they follow each other. A
/// neighbour that lacks has no marks.
#[derive(Clone, Debug, PartialEq, Eq)]
pub struct Headers {
    /// The day before.
    pub before: Option<Header>,
    /// The day itself.
    pub own: Header,
    /// The day after.
    pub after: Option<Header>,
}

/// An hour of one of the joined days.
#[derive(Clone, Copy, Debug)]
pub(crate) struct JoinedHour<'a> {
    /// The header of its day.
    pub day: &'a Header,
    /// The neighbour that this day is; none for the own day.
    pub of: Option<Neighbour>,
    /// The hour of its day.
    pub hour: usize,
}

impl JoinedHour<'_> {
    /// Whether exception `mark`, 4 to 6, acts in the hour: its own day says so.
    pub fn acts(&self, mark: usize) -> bool {
        self.day.acts(mark, self.hour)
    }
}

/// The hours of the joined days in one row.
pub(crate) struct Row<'a> {
    hours: Vec<JoinedHour<'a>>,
    /// The place of the own day's first hour.
    own: usize,
}

impl<'a> Row<'a> {
    /// What stands so many hours behind an hour of the own day (in front of it,
    /// below 0), unless that lies outside the joined days.
    pub fn beside(&self, hour: usize, hours: isize) -> Option<JoinedHour<'a>> {
        let place = (self.own + hour).checked_add_signed(hours)?;
        self.hours.get(place).copied()
    }
}

impl Headers {
    /// A day both of whose neighbours lack.
    pub fn alone(own: Header) -> Self {
        Headers {
            before: None,
            own,
            after: None,
        }
    }

    /// The joined days.
    pub(crate) fn row(&self) -> Row<'_> {
        let days = [
            (Some(Neighbour::Before), self.before.as_ref()),
            (None, Some(&self.own)),
            (Some(Neighbour::After), self.after.as_ref()),
        ];
        let mut hours = Vec::new();
        for (of, day) in days {
            let Some(day) = day else { continue };
            let all = 0..day.cat.len();
            hours.extend(all.map(|hour| JoinedHour { day, of, hour }));
        }
        Row {
            hours,
            own: self.before.as_ref().map_or(0, |day| day.cat.len()),
        }
    }

    /// Every reason for which an hour of the own day is excluded; none if it is
    /// eligible.
    pub fn reasons(&self, hour: usize) -> Vec<Reason> {
        let row = self.row();
        let mut reasons = self.own.own_reasons(hour);
        for mark in 4..=6 {
            for hours in -REACH..=REACH {
                match row.beside(hour, hours) {
                    Some(other) if !other.acts(mark) => {}
                    Some(JoinedHour { of: None, .. }) => reasons.push(Reason::Spread(mark, hours)),
                    Some(_) => reasons.push(Reason::Over(mark, hours)),
                    None => {}
                }
            }
        }
        reasons
    }

    /// Whether each hour of the own day is excluded. Every hour has its digit of
    /// `cat`.
    pub fn excluded(&self) -> Vec<bool> {
        let hours = 0..self.own.cat.len();
        hours.map(|hour| !self.reasons(hour).is_empty()).collect()
    }

    /// The three headers as `day` reads them: an empty line for one that lacks.
    pub fn to_text(&self) -> String {
        let of = |day: &Option<Header>| day.as_ref().map_or("\n".to_string(), Header::to_text);
        of(&self.before) + &self.own.to_text() + &of(&self.after)
    }

    /// RANGE at the line of a neighbour that says another unit, the day before
    /// first.
    fn check_units(&self) -> Result<(), HeaderRefusal> {
        for (header, neighbour) in [(0, &self.before), (2, &self.after)] {
            if let Some(other) = neighbour.as_ref().filter(|day| day.unit != self.own.unit) {
                let refusal = Refusal::new(Check::Range, other.unit_line());
                return Err(HeaderRefusal { refusal, header });
            }
        }
        Ok(())
    }
}

impl Head for Headers {
    type Kind = Unit;

    fn hours(&self) -> i64 {
        self.own.hours
    }

    fn excluded(&self) -> Vec<bool> {
        Headers::excluded(self)
    }

    fn note(&self, hour: usize, trace: &mut Trace) {
        for reason in self.reasons(hour) {
            trace.note(Event::Excluded(reason));
        }
        for mark in 5..=6 {
            if self.own.rtc == 0 && self.own.is_set(mark, hour) {
                trace.note(Event::MarkWithoutRtc(mark));
            }
        }
        note::hour(self, hour, trace);
    }
}

/// The headers that a text begins with, unless one of them or a unit refuses
/// the day, and what stands behind them. The text is cut at its empty lines
/// first: into three headers, whatever they say, and the blocks.
pub(crate) fn read_headers<'a>(
    text: &'a [u8],
    trace: &mut Trace,
) -> (Result<Headers, HeaderRefusal>, &'a [u8]) {
    let before = cut_block(text);
    let own = cut_block(before.rest);
    let after = cut_block(own.rest);
    let read = judge_all([&before, &own, &after], trace);
    (read, after.rest)
}

/// Each header by itself, in the order read, then the neighbours' units.
fn judge_all(cuts: [&Cut<'_>; 3], trace: &mut Trace) -> Result<Headers, HeaderRefusal> {
    let headers = each_good(cuts, trace)?;
    let units = headers.check_units();
    match &units {
        Ok(()) => note::stand(&headers, trace),
        Err(refused) => note::unit(&headers, refused.header, trace),
    }
    units.map(|()| headers)
}

/// The three headers, if each of them is good by itself. The own one may not
/// lack: an empty line in its place is refused.
fn each_good(cuts: [&Cut<'_>; 3], trace: &mut Trace) -> Result<Headers, HeaderRefusal> {
    Ok(Headers {
        before: neighbour(cuts, 0, trace)?,
        own: good(cuts, 1, trace)?,
        after: neighbour(cuts, 2, trace)?,
    })
}

/// A neighbour's header, unless it lacks.
fn neighbour(
    cuts: [&Cut<'_>; 3],
    header: usize,
    trace: &mut Trace,
) -> Result<Option<Header>, HeaderRefusal> {
    match lacks(cuts[header]) {
        true => Ok(None),
        false => good(cuts, header, trace).map(Some),
    }
}

/// One of the headers, which has to stand.
fn good(cuts: [&Cut<'_>; 3], header: usize, trace: &mut Trace) -> Result<Header, HeaderRefusal> {
    let read = read_header(cuts[header], &FORMS, trace);
    read.map_err(|refusal| {
        note::refused(cuts, header, refusal, trace);
        HeaderRefusal { refusal, header }
    })
}

/// Whether one empty line stands where a header should. The end of the text is
/// none.
fn lacks(cut: &Cut<'_>) -> bool {
    cut.lines.is_empty() && cut.closed
}

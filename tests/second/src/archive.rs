//! The archive: a stored day sheet in the other form. Going up it comes to say
//! its 24 hours, and going down it says them no more.

use crate::header::{read_header, Header, COUNTED_FORM, HOURS, PLAIN_FORM};
use crate::refusal::{Check, Refusal};
use crate::text::cut_block;
use crate::trace::{Event, Spot};
use crate::Run;

/// The line of a header that says the hours.
const HOURS_LINE: usize = 2;

/// What becomes of a stored sheet.
#[derive(Clone, Debug, PartialEq, Eq)]
pub enum Moved {
    /// The sheet in the other form.
    Sheet(Vec<u8>),
    /// The sheet does not go this way, and nothing is written.
    Refused(Refusal),
}

/// Moves a sheet of form 1 up to form 2.
pub fn up(text: &[u8], run: &mut Run) -> Moved {
    rewrite(text, PLAIN_FORM, COUNTED_FORM, run)
}

/// Moves a sheet of form 2 down to form 1.
pub fn down(text: &[u8], run: &mut Run) -> Moved {
    rewrite(text, COUNTED_FORM, PLAIN_FORM, run)
}

/// Prints the header anew in the form `to`. What stands behind it is not looked
/// at, and stays as it is.
fn rewrite(text: &[u8], from: i64, to: i64, run: &mut Run) -> Moved {
    let head = cut_block(text);
    let read = read_header(&head, &[from], &mut run.trace);
    match read.and_then(|header| of_24_hours(header, run)) {
        Ok(header) => {
            let header = Header { form: to, ..header }.to_text();
            Moved::Sheet([header.as_bytes(), head.rest].concat())
        }
        Err(refusal) => Moved::Refused(refusal),
    }
}

/// BACK for a header that says another count: only one that says its hours can.
fn of_24_hours(header: Header, run: &mut Run) -> Result<Header, Refusal> {
    if header.hours == HOURS as i64 {
        return Ok(header);
    }
    let spot = Spot::CountedHeader(HOURS_LINE);
    run.trace.note(Event::Refused(Check::Back, spot));
    Err(Refusal::new(Check::Back, HOURS_LINE))
}

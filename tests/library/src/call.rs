//! One call: the block of an index, what is lent beside it, and the answers of
//! the library and of the second program.

use std::fmt;

use compare::damage::SHEET_BYTES;
use compare::plan::case;
use compare::random::Rng;
use second::{Answer, Ask, Run};

use crate::archive::Numbers;
use crate::export::Export;
use crate::reached::{Answered, AtEnd, Hour, Room, COUNTS, LAST_HOURS};

/// Entries on either side of a lent row that nobody may touch.
const BESIDE: usize = 3;

/// What is lent, and what is asked.
pub struct Call {
    /// Whose call it is.
    pub export: &'static Export,
    /// The way the block was made.
    pub recipe: &'static str,
    /// The block, with bytes around it that belong to nobody.
    bytes: Vec<u8>,
    block: std::ops::Range<usize>,
    excluded: bool,
    expected: i64,
    /// The count of the day's hours.
    hours: u64,
    /// The row, with [`BESIDE`] entries on either side.
    entries: Vec<i64>,
    numbers: Numbers,
    room: Room,
    hour: Hour,
    /// The hour that the block says.
    said: i64,
}

/// What a call gave back, and everything that was lent as it then was.
#[derive(Debug, PartialEq, Eq)]
pub struct Outcome {
    /// 0 where the block is paid, else the number of the check.
    pub number: u64,
    /// The three numbers.
    pub numbers: Numbers,
    /// The row, with what stands on either side of it.
    pub entries: Vec<i64>,
}

impl Call {
    /// The call of this index under this seed, to this function.
    pub fn new(export: &'static Export, seed: u64, index: usize) -> Self {
        let mut case = case(export.recipes, seed, index);
        // Another seed than the text's.
        let mut rng = Rng::new(seed ^ 0xca11, index as u64);
        if rng.once_in(3) {
            say(&mut case.text, rng.pick(&LAST_HOURS));
        }
        let (said, intervals) = (export.said)(&case.text);
        let expected = match rng.below(5) {
            0 | 1 => rng.pick(&[-1, -1, -1, -24, i64::MIN]),
            2 | 3 => said,
            _ => another_hour(&mut rng, said),
        };
        let length = match rng.pick(&Room::ALL) {
            Room::Empty => 0,
            Room::OneShort => intervals.saturating_sub(1),
            Room::Exact => intervals,
            Room::OneLong => intervals + 1,
            Room::MuchLonger => intervals + 2 + rng.below(60),
        };
        // What stands behind the block would go on with its last number.
        let mut bytes = rng.bytes_of(SHEET_BYTES, 5);
        let block = bytes.len()..bytes.len() + case.text.len();
        bytes.extend(case.text);
        bytes.extend(rng.bytes_of(SHEET_BYTES, 40));
        let mut sentinel = || rng.bits() as i64;
        let entries = (0..length + 2 * BESIDE).map(|_| sentinel()).collect();
        let numbers = Numbers {
            place: sentinel() as u64,
            grains: sentinel(),
            cents: sentinel(),
        };
        let excluded = rng.once_in(3);
        Call {
            export,
            recipe: case.recipe,
            bytes,
            block,
            excluded,
            expected,
            hours: rng.pick(&COUNTS),
            entries,
            numbers,
            room: Room::of(length, intervals),
            hour: match expected {
                ..=-1 => Hour::Any,
                _ if expected == said => Hour::Own,
                _ => Hour::Other,
            },
            said,
        }
    }

    /// The lent block.
    pub fn text(&self) -> &[u8] {
        &self.bytes[self.block.clone()]
    }

    /// This answer, with what it was asked with.
    pub fn answered(&self, number: u64) -> Answered {
        Answered {
            number,
            room: self.room,
            hour: self.hour,
            excluded: self.excluded,
        }
    }

    /// The same, with the hour that the block says and the count of its day.
    pub fn at_end(&self, number: u64) -> AtEnd {
        AtEnd {
            number,
            says: self.said,
            hour: self.hour,
            hours: self.hours,
        }
    }

    /// What is lent, before the call: nothing is written where nothing says so.
    fn before(&self) -> Outcome {
        Outcome {
            number: 0,
            numbers: self.numbers,
            entries: self.entries.clone(),
        }
    }

    /// The answer of the proved library.
    pub fn of_archive(&self) -> Outcome {
        let mut outcome = self.before();
        let Outcome {
            number,
            numbers,
            entries,
        } = &mut outcome;
        let row = row_in(entries);
        let (excluded, expected, hours) = (self.excluded, self.expected, self.hours);
        *number = (self.export.archive)(self.text(), excluded, expected, hours, row, numbers);
        outcome
    }

    /// What the second program is asked. Where no hour is expected the count
    /// is not read; one that it cannot hold is as any other that no day has.
    fn ask(&self) -> Ask {
        let any = Ask {
            excluded: self.excluded,
            ..Ask::default()
        };
        match self.expected {
            ..=-1 => any,
            hour => Ask {
                expected: Some(hour),
                hours: self.hours.try_into().unwrap_or(i64::MAX),
                ..any
            },
        }
    }

    /// The answer of the second program.
    pub fn of_second(&self, run: &mut Run) -> Outcome {
        let mut outcome = self.before();
        let row = row_in(&mut outcome.entries);
        match (self.export.second)(self.text(), self.ask(), row, run) {
            Answer::Refused(refusal) => {
                outcome.number = refusal.check.number().into();
                outcome.numbers.place = refusal.place as u64;
            }
            Answer::Paid(paid) => {
                let held = |sum: i128| i64::try_from(sum).expect("an hour's sum has 64 bits");
                outcome.numbers.grains = held(paid.grains);
                outcome.numbers.cents = held(paid.cents);
            }
        }
        outcome
    }
}

/// What is lent, as a failure's file shows it.
impl fmt::Display for Call {
    fn fmt(&self, out: &mut fmt::Formatter<'_>) -> fmt::Result {
        let (excluded, expected, hours) = (self.excluded, self.expected, self.hours);
        let length = self.entries.len() - 2 * BESIDE;
        writeln!(out, "call: {}", self.export.name)?;
        writeln!(out, "excluded: {excluded}, expected hour: {expected}")?;
        writeln!(out, "a day of {hours} hours")?;
        writeln!(out, "{:?}", self.numbers)?;
        writeln!(out, "a row of {length} entries ({:?}),", self.room)?;
        writeln!(out, "shown with {BESIDE} more on either side:")?;
        writeln!(out, "{:?}", self.entries)
    }
}

fn row_in(entries: &mut [i64]) -> &mut [i64] {
    let end = entries.len() - BESIDE;
    &mut entries[BESIDE..end]
}

/// Lets a block say this hour, if it says one.
fn say(text: &mut Vec<u8>, hour: i64) {
    const KEY: &[u8] = b"hour=";
    if text.starts_with(KEY) {
        let digits = text[KEY.len()..].iter().take_while(|b| b.is_ascii_digit());
        let end = KEY.len() + digits.count();
        text.splice(KEY.len()..end, hour.to_string().into_bytes());
    }
}

fn another_hour(rng: &mut Rng, said: i64) -> i64 {
    let hour = rng.between(0, 24);
    let near = [said + 1, (said - 1).max(0), hour, hour, 24, i64::MAX];
    match rng.pick(&near) {
        hour if hour == said => said + 1,
        hour => hour,
    }
}

//! Headers of day sheets in both forms: lines that are wrong, layouts that were
//! not meant, counts that no day has and rows of any length. They stand in front
//! of a stored sheet, or in one of the three places that `day` reads.

use second::Header;

use crate::damage::{set_value, Sheet, NO_NUMBERS};
use crate::day::paying_blocks;
use crate::pieces::{self, count, Said, COUNTS_OUT_OF_FORM, NO_COUNTS};
use crate::random::Rng;
use crate::rows::{self, Rows};

/// The rows of marks, and the number of form 1's lines in front of them.
pub const ROWS: usize = 7;
const NUMBERS: usize = 3;

/// Units that headers say.
const UNITS: &[i64] = &[1, 9_999_999, 23_512];

/// A unit in category (i) all day, without exceptions.
pub fn plain(said: Said) -> Header {
    said.map_or_else(Header::default, Header::counted)
}

/// A header without exceptions.
pub fn any(rng: &mut Rng, said: Said) -> Header {
    let mut header = Header {
        unit: rng.pick(UNITS),
        rtc: rng.between(0, 1),
        ..plain(said)
    };
    let none = rng.pick(&[2, 8, 40]);
    for category in &mut header.cat {
        *category = match rng.below(none) {
            0 => 0,
            _ => rng.pick(&[1, 3, 4, 5]),
        };
    }
    header
}

/// What is known of a header before it is made.
#[derive(Clone, Copy, Debug)]
pub struct Slot {
    /// The unit that it says, unless that goes wrong.
    pub unit: i64,
    /// How many bytes stand in front of it.
    pub in_front: usize,
}

/// A header that was made: its lines, right or wrong, and the hours of the day
/// that it was made for. One whose last line has no LF ends the text.
pub struct Headed {
    /// The lines, the empty one among them.
    pub sheet: Sheet,
    /// The hours.
    pub hours: usize,
}

/// A way to make headers, turn by turn.
pub type Make = fn(&mut Rng, usize, Slot) -> Headed;

/// A stored sheet with the header of this turn, over hours that are all paid.
pub fn stored(rng: &mut Rng, turn: usize, make: Make) -> Vec<u8> {
    let unit = rng.pick(UNITS);
    let slot = Slot { unit, in_front: 0 };
    let made = make(rng, turn, slot);
    let mut text = made.sheet.text();
    if made.sheet.ended {
        text.extend(paying_blocks(made.hours));
    }
    text
}

/// The lines of a good header for this slot.
fn lines(rng: &mut Rng, said: Said, slot: Slot) -> Sheet {
    let header = Header {
        unit: slot.unit,
        ..any(rng, said)
    };
    Sheet::of(header.to_text().as_bytes())
}

/// What a header's lines say, apart from the hours: the form, the unit, `rtc`,
/// `cat` and the six exceptions.
pub const FIELDS: usize = NUMBERS + ROWS;

/// Puts one of them, counted from 0, out of range: in turn by each of these
/// values or digits that it does not allow.
pub fn spoil(rng: &mut Rng, header: &mut Header, field: usize, turn: usize) {
    let number = |values: &[i64]| values[turn % values.len()];
    let digit = |digits: &[u8]| digits[turn % digits.len()];
    let hour = rng.below(header.cat.len());
    match field {
        0 => header.form = number(&[3, 0, -1, 9_999_999, -2]),
        1 => header.unit = number(&[0, -1, -9_999_999]),
        2 => header.rtc = number(&[2, -1, 17]),
        3 => header.cat[hour] = digit(&[2, 6, 7, 9, 8]),
        _ => header.x[field - 4][hour] = digit(&[2, 9, 3, 8, 4, 7, 5, 6]),
    }
}

/// A header, one of its lines, and how often every line of both forms had its
/// turn before.
struct Place {
    sheet: Sheet,
    said: Said,
    /// Counted from 0, as the first row is.
    line: usize,
    first_row: usize,
    round: usize,
}

/// After so many turns every line of both forms had its own, the empty one, too.
pub const ALL_LINES: usize = 2 * (NUMBERS + ROWS) + 3;

/// The same without the empty line.
pub const ALL_NOT_EMPTY: usize = ALL_LINES - 2;

/// The line of this turn; the empty one has none where it is left out.
fn place(rng: &mut Rng, turn: usize, slot: Slot, with_empty: bool) -> Place {
    let count = |said: Said| NUMBERS + usize::from(said.is_some()) + ROWS + usize::from(with_empty);
    let [few, more] = [None, Some(0)].map(count);
    let round = turn / (few + more);
    let (said, line) = match turn % (few + more) {
        line if line < few => (None, line),
        line => (pieces::SAID[1 + round % 3], line - few),
    };
    Place {
        sheet: lines(rng, said, slot),
        said,
        line,
        first_row: count(said) - ROWS - usize::from(with_empty),
        round,
    }
}

fn headed(sheet: Sheet, said: Said) -> Headed {
    let hours = count(said);
    Headed { sheet, hours }
}

/// Header lines that are absent, extra or not in form.
pub fn wrong(rng: &mut Rng, turn: usize, slot: Slot) -> Headed {
    let place = place(rng, turn, slot, true);
    let (mut sheet, line) = (place.sheet, place.line);
    let is_row = line >= place.first_row;
    let row = is_row.then_some(count(place.said));
    wrong_line(rng, &mut sheet, line, row, place.round % 7);
    headed(sheet, place.said)
}

/// A header's line that is absent, extra or not in form; if it is a row, it has
/// so many digits.
pub fn wrong_line(rng: &mut Rng, sheet: &mut Sheet, line: usize, row: Option<usize>, kind: usize) {
    let text = &mut sheet.lines[line];
    match (kind, row) {
        (0, _) => drop(sheet.lines.remove(line)),
        (1, _) => {
            let again = text.clone();
            sheet.lines.insert(line, again);
        }
        (2, _) => sheet.lines.insert(line, b"x=1".to_vec()),
        (3, None) => {
            let value = rng.pick(NO_NUMBERS);
            set_value(text, 0, value.as_bytes());
        }
        (3 | 4, Some(digits)) => wrong_row(rng, text, digits),
        (4, None) => text.insert(0, b'X'),
        (5, _) => text.push(rng.pick(b" \r0x")),
        _ => sheet.lines.insert(line, Vec::new()),
    }
}

/// A row of marks of another length, or with a byte that is no digit.
fn wrong_row(rng: &mut Rng, row: &mut Vec<u8>, hours: usize) {
    let at = row.len().saturating_sub(1 + rng.below(hours));
    match rng.below(4) {
        0 => drop(row.pop()),
        1 => row.push(b'1'),
        2 => row.truncate(at),
        _ => {
            if let Some(byte) = row.get_mut(at) {
                *byte = rng.pick(b" -+=ax/:\0\xff");
            }
        }
    }
}

/// Header lines whose number or digit is not allowed.
pub fn out_of_range(rng: &mut Rng, turn: usize, slot: Slot) -> Headed {
    let place = place(rng, turn, slot, false);
    let (mut sheet, line) = (place.sheet, place.line);
    let text = &mut sheet.lines[line];
    let mut numbers: Vec<&[&str]> = vec![
        &["0", "3", "-1", "-2", "9999999"],
        &["0", "-1", "-9999999"],
        &["2", "-1", "17"],
    ];
    if place.said.is_some() {
        numbers.insert(1, NO_COUNTS);
    }
    match numbers.get(line) {
        Some(values) => {
            let value = rng.pick(values);
            set_value(text, 0, value.as_bytes());
        }
        None => {
            let at = text.len() - 1 - rng.below(count(place.said));
            let digits: &[u8] = if line == place.first_row {
                b"26789"
            } else {
                b"23456789"
            };
            text[at] = rng.pick(digits);
        }
    }
    if place.round % 4 == 3 {
        // A fault of form comes first, wherever it stands.
        let other = rng.below(place.first_row + ROWS + 1);
        sheet.lines[other].push(b' ');
    }
    headed(sheet, place.said)
}

/// Texts that end within the header.
pub fn ends(rng: &mut Rng, turn: usize, slot: Slot) -> Headed {
    let mut place = place(rng, turn, slot, true);
    pieces::end_within(rng, &mut place.sheet, place.line, place.round);
    headed(place.sheet, place.said)
}

/// The layout of one form under the number of another, and a line of hours
/// where none belongs, or none where one does.
pub fn other_layout(rng: &mut Rng, turn: usize, slot: Slot) -> Headed {
    let said = pieces::said(turn / 6);
    let mut sheet = lines(rng, said, slot);
    let hours = format!("hours={}", rng.pick(&[23, 24, 25, 22]));
    let hours = hours.into_bytes();
    match turn % 6 {
        0 => set_value(&mut sheet.lines[0], 0, b"3"),
        1 => {
            let value = if said.is_some() { "1" } else { "2" };
            set_value(&mut sheet.lines[0], 0, value.as_bytes());
        }
        2 => {
            let value = rng.pick(&["0", "-2", "4", "22", "258", "02", "2 ", "9999999"]);
            set_value(&mut sheet.lines[0], 0, value.as_bytes());
        }
        3 => sheet.lines.insert(1, hours),
        4 if said.is_some() => drop(sheet.lines.remove(1)),
        _ => {
            let at = rng.below(NUMBERS + ROWS + 2);
            sheet.lines.insert(at, hours);
        }
    }
    headed(sheet, said)
}

/// Counts that no day has, over the rows of one that there is.
pub fn wrong_count(rng: &mut Rng, turn: usize, slot: Slot) -> Headed {
    let said = pieces::SAID[1 + turn % 3];
    let mut sheet = lines(rng, said, slot);
    let all = NO_COUNTS.len() + COUNTS_OUT_OF_FORM.len();
    let value = [NO_COUNTS, COUNTS_OUT_OF_FORM].concat()[turn % all];
    set_value(&mut sheet.lines[1], 0, value.as_bytes());
    let last = NUMBERS + 1 + ROWS;
    match turn % 4 {
        // All faults of form come first.
        1 => drop(sheet.lines.remove(last)),
        2 => sheet.lines[rng.below(last + 1)].push(b' '),
        // The first line out of range is named.
        3 => set_value(&mut sheet.lines[rng.pick(&[2, 3])], 0, b"-1"),
        _ => {}
    }
    headed(sheet, said)
}

/// A header that is good once in so many times, and else has a wrong count; and
/// its rows.
fn counted(rng: &mut Rng, slot: Slot, good_once_in: usize) -> (Headed, Rows) {
    let good = rng.once_in(good_once_in);
    let said = match good {
        true => rng.pick(&pieces::SAID),
        false => rng.pick(&pieces::SAID[1..]),
    };
    let mut sheet = lines(rng, said, slot);
    if !good {
        let value = rng.pick(NO_COUNTS);
        set_value(&mut sheet.lines[1], 0, value.as_bytes());
    }
    let first = NUMBERS + usize::from(said.is_some());
    // The number before them is one that no header has.
    let rows = Rows {
        lines: first..first + ROWS,
        spoilt: (first - 1, "2"),
    };
    (headed(sheet, said), rows)
}

/// Rows of other lengths, one or all of them, and what else can be wrong with
/// such a row or behind it.
pub fn other_rows(rng: &mut Rng, turn: usize, slot: Slot) -> Headed {
    let (mut made, rows) = counted(rng, slot, 2);
    rows::other_lengths(rng, turn, &mut made.sheet, &rows);
    made
}

/// Rows so long that their LF, or a letter at their far end, stands around the
/// end of a read, of several or of what is kept.
pub fn long_rows(rng: &mut Rng, turn: usize, slot: Slot) -> Headed {
    let (mut made, rows) = counted(rng, slot, 6);
    rows::long(rng, turn, &mut made.sheet, &rows, slot.in_front);
    made
}

#[cfg(test)]
mod tests {
    use super::*;
    use crate::rows::assert_reach_ends;
    use second::{down_text, Moved};

    #[test]
    fn every_line_of_both_forms_has_its_turn() {
        let slot = Slot {
            unit: 1,
            in_front: 0,
        };
        for (with_empty, period) in [(true, ALL_LINES), (false, ALL_NOT_EMPTY)] {
            let mut places = std::collections::BTreeSet::new();
            for turn in 0..3 * period {
                let place = place(&mut Rng::new(1, 1), turn, slot, with_empty);
                assert!(place.sheet.lines[place.first_row].starts_with(b"cat="));
                assert_eq!(place.round, turn / period);
                places.insert((place.said, place.line));
            }
            let empty = usize::from(with_empty);
            assert_eq!(places.len(), 10 + empty + 3 * (11 + empty));
        }
    }

    #[test]
    fn rows_of_any_length_are_met_under_right_and_wrong_counts() {
        let mut refused = std::collections::BTreeSet::new();
        for turn in 0..400 {
            let rng = &mut Rng::new(2, turn as u64);
            if let Moved::Refused(refusal) = down_text(&stored(rng, turn, other_rows)) {
                refused.insert(refusal.to_string());
            }
        }
        // The count, each row and the empty line, in form 2 and in form 1.
        let mut refusals = vec!["refused=2 at=2".to_string()];
        refusals.extend((4..=12).map(|line| format!("refused=1 at={line}")));
        for refusal in refusals {
            assert!(refused.contains(&refusal), "{refusal}");
        }
    }

    #[test]
    fn long_rows_go_over_the_ends_of_reads() {
        assert_reach_ends(|rng, turn| stored(rng, turn, long_rows), 400);
    }
}

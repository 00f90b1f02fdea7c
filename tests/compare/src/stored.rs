//! Stored sheets that are to go up or down: good ones with any bytes behind
//! their header, and headers that go neither way.

use second::Header;

use crate::damage::{set_value, Sheet};
use crate::day;
use crate::headers::{self, spoil, FIELDS, ROWS};
use crate::pieces::{self, Said, COUNTS_OUT_OF_FORM, NO_COUNTS};
use crate::random::Rng;
use crate::rows::ENDS;
use crate::three::parts;

/// Numbers of forms that there are not, some of them with a byte of one that
/// there is, and values that are no numbers in the sheet's form.
const NO_FORMS: &[&str] = &[
    "3", "0", "-1", "-2", "12", "21", "11", "22", "257", "258", "65537", "9999999", "-9999999",
    "01", "02", "+1", "2 ", "-0", "", "1\r", "00000001",
];

/// What the header of this turn says: mostly what can go one of the two ways.
fn said(turn: usize) -> Said {
    [None, Some(24), None, Some(24), Some(23), Some(25)][turn % 6]
}

/// A good header with marks.
pub fn marked(rng: &mut Rng, said: Said) -> Header {
    let mut header = headers::any(rng, said);
    let once_in = rng.pick(&[2, 8, 60]);
    for mark in header.x.iter_mut().flatten() {
        *mark = u8::from(rng.once_in(once_in));
    }
    header
}

/// A day as `day` is tried with, stored: its own header and its blocks.
pub fn of_day(rng: &mut Rng, turn: usize) -> Vec<u8> {
    let text = day::PROGRAM.case(rng.bits(), turn).text;
    let [_, own, _, blocks] = parts(&text);
    [own, blocks].concat()
}

/// All that `day` is tried with behind the three headers.
fn blocks(rng: &mut Rng, turn: usize) -> Vec<u8> {
    let text = day::PROGRAM.case(rng.bits(), turn).text;
    parts(&text)[3].to_vec()
}

/// Bytes to stand behind a header, in most turns few.
fn few_behind(rng: &mut Rng, turn: usize) -> Vec<u8> {
    match rng.below(4) {
        0 => blocks(rng, turn),
        kind => pieces::surplus(rng, kind - 1),
    }
}

/// Sheets with the blocks of their hours.
pub fn good(rng: &mut Rng, turn: usize) -> Vec<u8> {
    let header = marked(rng, said(turn));
    pieces::closed(rng, day::paying_sheet(&header))
}

/// Blocks that are absent, faulty, surplus or cut, and bytes that are none.
pub fn other_behind(rng: &mut Rng, turn: usize) -> Vec<u8> {
    let header = marked(rng, said(turn)).to_text().into_bytes();
    let length = rng.pick(&[1, 2, 30, 3000]);
    let behind = match turn / 6 % 9 {
        0 => Vec::new(),
        1 => vec![b'\n'; 1 + rng.below(4)],
        2 => rng.bytes(length),
        3 => rng.bytes(length).iter().map(|byte| byte | 0x80).collect(),
        4 => header.clone(),
        5 => b"hours=24\n\nform=1\n".to_vec(),
        6 => Sheet::of(&blocks(rng, turn)).lines.join(&b"\r\n"[..]),
        7 => {
            let mut cut = blocks(rng, turn);
            cut.truncate(rng.below(cut.len() + 1));
            cut
        }
        _ => {
            let surplus = pieces::surplus(rng, turn % 3);
            [blocks(rng, turn), surplus].concat()
        }
    };
    [header, behind].concat()
}

/// Sheets that end around the end of a read, of several or of what is kept, or
/// do so once they are moved; in lines of any length or in none.
pub fn long(rng: &mut Rng, turn: usize) -> Vec<u8> {
    let mut text = marked(rng, said(turn)).to_text().into_bytes();
    let added = b"hours=24\n".len();
    let around = rng.pick(&[0, added, 2 * added]) + rng.below(3);
    let end = ENDS[turn / 6 % ENDS.len()] + around - added - 1;
    let bytes: &[u8] = rng.pick(&[b"01\n" as &[u8], b"\n", b"0", b"\x80\xff\0"]);
    let more = rng.bytes_of(bytes, end.saturating_sub(text.len()));
    text.extend(more);
    text
}

/// Each of them out of range under each count; now and then with another one,
/// or with a fault of form, which comes first.
pub fn out_of_range(rng: &mut Rng, turn: usize) -> Vec<u8> {
    let round = turn / 4 / FIELDS;
    let mut header = marked(rng, pieces::SAID[turn % 4]);
    spoil(rng, &mut header, turn / 4 % FIELDS, round);
    if round % 5 == 2 {
        let other = 1 + rng.below(FIELDS - 1);
        spoil(rng, &mut header, other, turn);
    }
    let mut sheet = Sheet::of(header.to_text().as_bytes());
    if round % 5 == 4 {
        let other = rng.below(sheet.lines.len());
        sheet.lines[other].push(rng.pick(b" \rx"));
    }
    [sheet.text(), few_behind(rng, turn)].concat()
}

/// Headers that end at any of their bytes.
pub fn cut(rng: &mut Rng, turn: usize) -> Vec<u8> {
    let mut text = marked(rng, pieces::SAID[turn % 4]).to_text().into_bytes();
    // Byte by byte, but far apart from one turn to the next.
    text.truncate(turn / 4 * 37 % text.len());
    text
}

/// Other forms over the lines of both, alone or with a fault of range or form.
pub fn other_form(rng: &mut Rng, turn: usize) -> Vec<u8> {
    let value = NO_FORMS[turn / 2 % NO_FORMS.len()];
    let kind = turn / 2 / NO_FORMS.len() % 3;
    let mut header = marked(rng, pieces::said(turn));
    if kind == 1 {
        let field = 1 + rng.below(FIELDS - 1);
        spoil(rng, &mut header, field, turn);
    }
    let mut sheet = Sheet::of(header.to_text().as_bytes());
    set_value(&mut sheet.lines[0], 0, value.as_bytes());
    if kind == 2 {
        let other = 1 + rng.below(sheet.lines.len() - 1);
        sheet.lines[other].push(rng.pick(b" \rx"));
    }
    [sheet.text(), few_behind(rng, turn)].concat()
}

/// The count of a sheet that goes down, good or not, alone and with one of the
/// faults that come before it or behind.
pub fn counts(rng: &mut Rng, turn: usize) -> Vec<u8> {
    let other = rng.pick(&[NO_COUNTS, COUNTS_OUT_OF_FORM]);
    let value = match turn % 7 {
        6 => rng.pick(other),
        near => ["23", "25", "24", "22", "26", "024"][near],
    };
    let said = pieces::SAID.into_iter().find(|said| {
        let hours = said.map(|hours| hours.to_string());
        hours.as_deref() == Some(value)
    });
    let mut header = marked(rng, said.unwrap_or(Some(24)));
    let kind = turn / 7 % 7;
    match kind {
        1 => header.unit = 0,
        2 => spoil(rng, &mut header, 2, turn),
        3 => {
            let field = 3 + rng.below(ROWS);
            spoil(rng, &mut header, field, turn / 49);
        }
        _ => {}
    }
    let mut sheet = Sheet::of(header.to_text().as_bytes());
    set_value(&mut sheet.lines[1], 0, value.as_bytes());
    let row = 4 + rng.below(ROWS);
    match kind {
        4 => sheet.lines[row].push(rng.pick(b"0x ")),
        5 => drop(sheet.lines[row].pop()),
        6 => drop(sheet.lines.pop()),
        _ => {}
    }
    [sheet.text(), few_behind(rng, turn)].concat()
}

/// A line of a header, any of them, that goes over the end of a read, of several
/// or of what is kept.
pub fn long_lines(rng: &mut Rng, turn: usize) -> Vec<u8> {
    let said = pieces::said(turn);
    let mut sheet = Sheet::of(marked(rng, said).to_text().as_bytes());
    if said.is_some() && rng.once_in(2) {
        let value = rng.pick(NO_COUNTS);
        set_value(&mut sheet.lines[1], 0, value.as_bytes());
    }
    let line = turn / 2 % sheet.lines.len();
    let before: usize = sheet.lines[..=line].iter().map(|line| line.len() + 1).sum();
    let end = rng.pick(ENDS) - 1 + rng.below(3);
    let bytes: &[u8] = rng.pick(&[b"0" as &[u8], b"01", b"7", b" ", b"=", b"-", b"x\xff\0"]);
    let more = rng.bytes_of(bytes, end - before);
    sheet.lines[line].extend(more);
    if rng.once_in(4) {
        sheet.end_in(line, |length| length);
        return sheet.text();
    }
    [sheet.text(), few_behind(rng, turn)].concat()
}

/// Headers that are damaged, once to three times, over bytes that are not.
pub fn damaged(rng: &mut Rng, turn: usize) -> Vec<u8> {
    let header = marked(rng, said(turn)).to_text();
    let header = pieces::damaged(rng, header.into_bytes());
    [header, few_behind(rng, turn)].concat()
}

#[cfg(test)]
mod tests {
    use super::*;
    use second::{down_text, up_text, Moved};
    use std::collections::BTreeSet;

    /// What is said of so many turns by one of the two programs.
    fn said_of(
        make: fn(&mut Rng, usize) -> Vec<u8>,
        turns: usize,
        by: fn(&[u8]) -> Moved,
    ) -> BTreeSet<String> {
        let said = |turn| match by(&make(&mut Rng::new(1, turn as u64), turn)) {
            Moved::Sheet(_) => "moved".to_string(),
            Moved::Refused(refusal) => refusal.to_string(),
        };
        (0..turns).map(said).collect()
    }

    #[test]
    fn good_headers_are_moved_or_go_the_other_way() {
        for make in [good, other_behind, long] {
            let up = ["moved", "refused=2 at=1"].map(String::from);
            assert_eq!(said_of(make, 72, up_text), up.into());
            let down = ["moved", "refused=2 at=1", "refused=9 at=2"].map(String::from);
            assert_eq!(said_of(make, 72, down_text), down.into());
        }
    }

    #[test]
    fn counts_meet_their_neighbours() {
        let down = said_of(counts, 98, down_text);
        for refusal in ["9 at=2", "2 at=2", "2 at=3", "2 at=4", "1 at=2", "1 at=12"] {
            assert!(down.contains(&format!("refused={refusal}")), "{refusal}");
        }
    }

    #[test]
    fn headers_that_end_are_refused() {
        for by in [up_text, down_text] {
            let refused = said_of(cut, 4000, by);
            assert_eq!(refused.len(), 12);
            assert!(refused.iter().all(|said| said.starts_with("refused=1 ")));
        }
    }

    #[test]
    fn long_lines_go_over_the_ends_of_reads() {
        for turn in 0..48 {
            let text = long_lines(&mut Rng::new(3, turn as u64), turn);
            let lines = text.split(|byte| *byte == b'\n').take(12);
            let longest = lines.map(<[u8]>::len).max();
            assert!(longest.is_some_and(|length| length > 10_000), "{turn}");
        }
    }
}

//! Rows of marks of any length, and what can be wrong with one or behind it, in
//! whatever header they stand.

use std::ops::Range;

use crate::damage::{set_value, Sheet};
use crate::random::Rng;

/// Lengths of rows: those of all days, those beside, and those around what is
/// kept of a long run of digits.
const ROW_LENGTHS: &[usize] = &[0, 1, 22, 23, 24, 25, 26, 31, 32, 33, 34, 40, 20_000];

/// Where a read or what is kept of a piece can end.
pub const ENDS: &[usize] = &[65_536, 10_640, 131_072, 16_384, 32_768, 196_608];

/// The rows of a header.
pub struct Rows {
    /// Their lines, counted from 0; the empty line is behind them.
    pub lines: Range<usize>,
    /// A line of a number, and one that is out of its range.
    pub spoilt: (usize, &'static str),
}

impl Rows {
    /// One of them.
    fn any(&self, rng: &mut Rng) -> usize {
        self.lines.start + rng.below(self.lines.len())
    }
}

/// Digits for a row: marks, or any.
fn digits(rng: &mut Rng, length: usize) -> Vec<u8> {
    let from: &[u8] = rng.pick(&[b"01" as &[u8], b"0", b"0123456789"]);
    rng.bytes_of(from, length)
}

/// Rows of other lengths, one or all of them.
pub fn other_lengths(rng: &mut Rng, turn: usize, sheet: &mut Sheet, rows: &Rows) {
    let length = ROW_LENGTHS[turn % ROW_LENGTHS.len()];
    let row = rows.any(rng);
    let all = rng.once_in(3);
    for line in rows.lines.clone() {
        if all || line == row {
            let value = digits(rng, length);
            set_value(&mut sheet.lines[line], 0, &value);
        }
    }
    damage(rng, sheet, row, rows, turn % 7);
}

/// A byte that is no digit in a row, at its far end or behind it; no LF; a fault
/// of form or of range in another line; no empty line; or nothing.
fn damage(rng: &mut Rng, sheet: &mut Sheet, row: usize, rows: &Rows, kind: usize) {
    let line = &mut sheet.lines[row];
    let empty = rows.lines.end;
    match kind {
        0 => {
            let start = line.iter().position(|byte| *byte == b'=').unwrap_or(0) + 1;
            let at = start + rng.below(line.len() - start + 1);
            line.insert(at, rng.pick(b"x -=\r\0"));
        }
        1 => line.push(rng.pick(b"x -=\r/:")),
        2 => sheet.end_in(row, |length| length),
        3 => sheet.lines[rng.pick(&[row + 1, empty - 1, empty])].push(b'x'),
        4 => {
            let (line, value) = rows.spoilt;
            set_value(&mut sheet.lines[line], 0, value.as_bytes());
        }
        5 => drop(sheet.lines.remove(empty)),
        _ => {}
    }
}

/// Rows that end around the end of a read, of several or of what is kept, where
/// so many bytes stand in front of the header.
pub fn long(rng: &mut Rng, turn: usize, sheet: &mut Sheet, rows: &Rows, in_front: usize) {
    let row = rows.any(rng);
    let end = ENDS[turn % ENDS.len()] - 1 + rng.below(3);
    let above: usize = sheet.lines[..row].iter().map(|line| line.len() + 1).sum();
    let before = in_front + above;
    let key = sheet.lines[row].iter().position(|byte| *byte == b'=');
    let length = end.saturating_sub(before + key.map_or(0, |at| at + 1));
    let value = digits(rng, length);
    set_value(&mut sheet.lines[row], 0, &value);
    if rng.once_in(3) {
        let other = rows.any(rng);
        let length = rng.pick(ENDS);
        let more = digits(rng, length);
        sheet.lines[other].extend(more);
    }
    damage(rng, sheet, row, rows, turn % 7);
}

/// Each of these ends has its turns, and the longest line made in them lacks less
/// than `short` bytes of it.
#[cfg(test)]
pub fn assert_reach_ends(make: fn(&mut Rng, usize) -> Vec<u8>, short: usize) {
    for turn in 0..2 * ENDS.len() {
        let text = make(&mut Rng::new(3, turn as u64), turn);
        let longest = text.split(|byte| *byte == b'\n').map(<[u8]>::len).max();
        let end = ENDS[turn % ENDS.len()];
        assert!(longest.is_some_and(|length| length + short > end), "{turn}");
    }
}

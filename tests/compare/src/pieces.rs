//! Texts of a head and the blocks of a day, as `day` and `import` read them:
//! what is the same in how they are made and in what goes wrong with them.

use second::day::HOURS;
use second::import::ImportHour;
use second::record::Record;
use second::text::HOUR;

use crate::damage::{self, Sheet};
use crate::kinds::Made;
use crate::random::Rng;

/// The hours that a head says; none where it says none, and has 24.
pub type Said = Option<usize>;

/// All that a good head can say.
pub const SAID: [Said; 4] = [None, Some(23), Some(24), Some(25)];

/// Counts that no day has: beside the good ones, and such that a byte or two
/// of them, or all but their sign, are good.
pub const NO_COUNTS: &[&str] = &[
    "22", "26", "0", "1", "-24", "9999999", "2", "32", "-23", "-25", "230", "279", "280", "281",
    "65560", "-1", "-9999999",
];

/// Counts that are no numbers in the sheet's form.
pub const COUNTS_OUT_OF_FORM: &[&str] = &["024", "+24", "24 ", "2 4", "", "-", "00000024", "-0"];

/// How many hours that are.
pub fn count(said: Said) -> usize {
    said.unwrap_or(HOURS)
}

/// No hours in every other turn, and each count in the turns between.
pub fn said(turn: usize) -> Said {
    match turn % 2 {
        0 => None,
        _ => SAID[1 + turn / 2 % 3],
    }
}

/// The same, drawn.
pub fn any_said(rng: &mut Rng) -> Said {
    said(rng.below(6))
}

/// What a good head's day can come to by its count: all is paid, bytes follow
/// the last block, or that one is refused for its first line.
const OUTCOMES: &[&str] = &[
    "paid",
    "surplus",
    "last hour refused=1 at=1",
    "last hour refused=2 at=1",
    "last hour refused=3 at=1",
];

/// Each of these under each of these counts, as a head says it.
pub fn outcomes(counts: &[Said], says: fn(Said) -> String) -> Vec<String> {
    let under = |said| {
        let says = says(said);
        OUTCOMES
            .iter()
            .map(move |outcome| format!("{says}: {outcome}"))
    };
    counts.iter().copied().flat_map(under).collect()
}

/// A block that says its hour.
pub trait Block: Clone {
    /// The hour that it says.
    fn hour(&mut self) -> &mut i64;
    /// Its lines.
    fn lines(&self) -> String;
}

impl<K: Made> Block for Record<K> {
    fn hour(&mut self) -> &mut i64 {
        K::hour_mut(&mut self.day_ahead)
    }

    fn lines(&self) -> String {
        self.to_text()
    }
}

impl Block for ImportHour {
    fn hour(&mut self) -> &mut i64 {
        &mut self.line.hour
    }

    fn lines(&self) -> String {
        self.to_text()
    }
}

/// A block for each of so many hours, made for its place.
pub fn each_hour<B: Block>(hours: usize, mut make: impl FnMut(usize) -> B) -> Vec<B> {
    let placed = |place| {
        let mut block = make(place);
        *block.hour() = place as i64;
        block
    };
    (0..hours).map(placed).collect()
}

/// The text of a head, which its own empty line closes, and of blocks, each
/// closed by one.
pub fn text<B: Block>(head: &str, blocks: &[B]) -> Vec<u8> {
    let mut text = head.to_string();
    for block in blocks {
        text += &block.lines();
        text.push('\n');
    }
    text.into_bytes()
}

/// The text as it is, or closed by its end: that closes the last block, too.
pub fn closed(rng: &mut Rng, mut text: Vec<u8>) -> Vec<u8> {
    if rng.once_in(2) {
        text.pop();
    }
    text
}

/// The kinds of [`misplace`].
pub const MISPLACED: usize = 5;

/// Blocks at other places than their hours say, absent and doubled.
pub fn misplace<B: Block>(rng: &mut Rng, blocks: &mut Vec<B>, kind: usize) {
    let one = rng.below(blocks.len());
    let other = rng.below(blocks.len());
    match kind {
        0 => blocks.swap(one, other),
        1 => drop(blocks.remove(one)),
        2 => blocks.insert(one, blocks[one].clone()),
        3 => *blocks[one].hour() = rng.within(HOUR),
        _ => blocks.truncate(one),
    }
}

/// The kinds of [`by_count`].
pub const BY_COUNT: usize = 9;

/// Blocks fewer than the count and more; exactly as many, of which the last
/// says the hour behind the day's, the next one, or the one before its own, or
/// any of which says hour 24; or none is wrong.
pub fn by_count<B: Block>(rng: &mut Rng, blocks: &mut Vec<B>, kind: usize) {
    let count = blocks.len();
    let any = rng.below(count);
    let mut say = |place: usize, hour: usize| *blocks[place].hour() = hour as i64;
    match kind {
        0 | 1 => blocks.truncate(count - 1 - kind),
        2 | 3 => {
            for hour in count..count + kind - 1 {
                let mut more = blocks[0].clone();
                *more.hour() = hour as i64;
                blocks.push(more);
            }
        }
        4 => say(count - 1, count),
        5 => say(count - 1, count + 1),
        6 => say(count - 1, count - 2),
        7 => say(any, 24),
        _ => {}
    }
}

/// Bytes to stand behind the last block: an empty line, a letter or any.
pub fn surplus(rng: &mut Rng, kind: usize) -> Vec<u8> {
    match kind {
        0 => b"\n".to_vec(),
        1 => b"x".to_vec(),
        _ => {
            let count = 1 + rng.below(30);
            rng.bytes(count)
        }
    }
}

/// The text up to a line's last byte, to its first, or to any of it.
pub fn end_in_line(rng: &mut Rng, mut sheet: Sheet, line: usize, kind: usize) -> Vec<u8> {
    end_within(rng, &mut sheet, line, kind);
    sheet.text()
}

/// Ends a sheet so.
pub fn end_within(rng: &mut Rng, sheet: &mut Sheet, line: usize, kind: usize) {
    sheet.end_in(line, |length| match kind % 3 {
        0 => length,
        1 => 0,
        _ => rng.below(length + 1),
    });
}

/// The text, damaged once to three times.
pub fn damaged(rng: &mut Rng, mut text: Vec<u8>) -> Vec<u8> {
    for _ in 0..1 + rng.below(3) {
        text = damage::any(rng, text);
    }
    text
}

/// Bytes that were never blocks, some of them behind a head.
pub fn noise(rng: &mut Rng, head: fn(&mut Rng) -> String) -> Vec<u8> {
    let length = rng.pick(&[0, 1, 2, 10, 100, 3000]);
    match rng.below(3) {
        0 => rng.bytes(length),
        1 => rng.bytes_of(damage::SHEET_BYTES, length),
        _ => {
            let mut text = head(rng).into_bytes();
            text.extend(rng.bytes_of(b"\n\na", length));
            text
        }
    }
}

#[cfg(test)]
mod tests {
    use super::*;
    use second::text::{number, DAY_HOURS};
    use second::HourRecord;

    #[test]
    fn counts_are_what_they_are_called() {
        for said in SAID {
            assert_eq!(DAY_HOURS.missed(count(said) as i64), None);
            assert!((0..6).any(|turn| self::said(turn) == said));
        }
        for value in NO_COUNTS {
            let value = number(value.as_bytes()).expect("a number");
            assert!(DAY_HOURS.missed(value).is_some(), "{value}");
        }
        for value in COUNTS_OUT_OF_FORM {
            assert_eq!(number(value.as_bytes()), None, "{value:?}");
        }
    }

    #[test]
    fn blocks_go_by_the_count() {
        let mut rng = Rng::new(1, 1);
        let made: [(usize, i64); BY_COUNT - 1] = [
            (22, 21),
            (21, 20),
            (24, 23),
            (25, 24),
            (23, 23),
            (23, 24),
            (23, 21),
            (23, 22),
        ];
        for (kind, (blocks, last)) in made.into_iter().enumerate() {
            let mut hours = each_hour(23, |_| HourRecord::default());
            by_count(&mut rng, &mut hours, kind);
            assert_eq!(hours.len(), blocks);
            assert!(*hours[blocks - 1].hour() == last || kind == 7);
        }
    }
}

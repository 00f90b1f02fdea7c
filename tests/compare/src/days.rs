//! Days of hour blocks, a generator's or a line's: what is the same in how they
//! are made, and in what came of them.

use second::record::Record;
use second::text::{number, SheetLine, HOUR};

use crate::damage::{self, set_value, Sheet};
use crate::hours;
use crate::kinds::Made;
use crate::pieces::{self, Block};
use crate::plan::{case, Recipe};
use crate::random::Rng;

/// What came of a day's count, if the answer goes by it.
pub fn outcome(says: &str, answer: &str) -> Option<String> {
    let mut lines = answer.lines().rev();
    let total = lines.next()?.strip_prefix("total=")?;
    let last = lines.next()?.split_once(" refused=");
    let outcome = match last.map(|(_, refusal)| refusal) {
        Some(refusal @ ("1 at=1" | "2 at=1" | "3 at=1")) => format!("last hour refused={refusal}"),
        None if total != "-" => "paid".to_string(),
        None if !answer.contains("refused=") => "surplus".to_string(),
        _ => return None,
    };
    Some(format!("{says}: {outcome}"))
}

/// A head over blocks by all of these recipes.
pub fn any_blocks(
    rng: &mut Rng,
    turn: usize,
    head: &str,
    hours: usize,
    recipes: &[Recipe],
) -> Vec<u8> {
    let mut text = head.as_bytes().to_vec();
    let seed = rng.bits();
    for place in 0..hours {
        let block = case(recipes, seed, turn * hours + place).text;
        text.extend(for_place(rng, block, place));
    }
    text
}

/// The block with the hour of its place, for the most part, up to its first
/// empty line, which closes it.
fn for_place(rng: &mut Rng, block: Vec<u8>, place: usize) -> Vec<u8> {
    let mut sheet = Sheet::of(&block);
    let closed = sheet.lines.iter().position(Vec::is_empty);
    sheet.lines.truncate(closed.unwrap_or(sheet.lines.len()));
    // Long blocks have their own runs.
    sheet.lines.truncate(40);
    let is_one = |line: &Vec<u8>| line.len() < 2000 && line.starts_with(b"hour=");
    if let Some(first) = sheet.lines.first_mut().filter(|line| is_one(line)) {
        let said = number(&damage::pairs(first)[0][5..]);
        if said.is_some_and(|hour| HOUR.missed(hour).is_none()) && !rng.once_in(40) {
            set_value(first, 0, place.to_string().as_bytes());
        }
    }
    sheet.lines.push(Vec::new());
    sheet.ended = true;
    sheet.text()
}

/// A text, and behind it the block of this place, which ends with a line or
/// within one.
pub fn block_ends<K: Made>(rng: &mut Rng, turn: usize, mut text: Vec<u8>, place: usize) -> Vec<u8> {
    let count = if turn % 3 == 2 { 30 } else { 4 + rng.below(4) };
    let mut record: Record<K> = hours::any_of(rng, count);
    *record.hour() = place as i64;
    let block = Sheet::of(record.to_text().as_bytes());
    let line = match turn % 6 {
        0 => 0,
        1 => 1,
        2 => block.lines.len() - 1,
        3 => 2,
        4 => 3,
        _ => 4 + rng.below(block.lines.len() - 4),
    };
    text.extend(pieces::end_in_line(rng, block, line, turn / 6));
    text
}

/// Blocks at other places than their hours say, absent, doubled and apart.
pub fn out_of_order<B: Block>(
    rng: &mut Rng,
    turn: usize,
    head: &str,
    mut hours: Vec<B>,
) -> Vec<u8> {
    let kind = turn % (pieces::MISPLACED + 1);
    if kind < pieces::MISPLACED {
        pieces::misplace(rng, &mut hours, kind);
        return pieces::text(head, &hours);
    }
    // One more empty line is an empty block.
    let before = &hours[..rng.below(hours.len())];
    let mut text = pieces::text(head, &hours);
    text.insert(pieces::text(head, before).len(), b'\n');
    text
}

/// A day with bytes behind its last block, among them this block; or just with
/// none.
pub fn surplus<K: Made>(
    rng: &mut Rng,
    turn: usize,
    mut text: Vec<u8>,
    block: &Record<K>,
) -> Vec<u8> {
    match turn % 6 {
        2 => text.extend(block.to_text().into_bytes()),
        kind @ (0 | 1 | 3) => text.extend(pieces::surplus(rng, kind)),
        4 => {
            // Without the empty line between it is one more interval.
            text.pop();
            let mut line = String::new();
            K::still(&K::Ahead::default(), 1).write(&mut line);
            text.extend(line.into_bytes());
        }
        _ => {}
    }
    text
}

#[cfg(test)]
mod tests {
    use super::*;

    #[test]
    fn what_came_of_the_hours() {
        let outcome = |answer: &str| outcome("hours=23", answer);
        let came = |what: &str| Some(format!("hours=23: {what}"));
        assert_eq!(outcome("hour=22 pay=1\ntotal=1\n"), came("paid"));
        assert_eq!(outcome("hour=22 pay=1\ntotal=-\n"), came("surplus"));
        let refused = "hour=22 refused=3 at=1\ntotal=-\n";
        assert_eq!(outcome(refused), came("last hour refused=3 at=1"));
        assert_eq!(outcome("hour=22 refused=5 at=0\ntotal=-\n"), None);
        assert_eq!(outcome("refused=1 at=1\n"), None);
    }
}

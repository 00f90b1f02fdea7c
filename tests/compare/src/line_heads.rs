//! Heads of a line's day, over hours that are all paid but for their marks: lines
//! that are wrong, heads of other texts, counts that no day has and rows of any
//! length.

use second::text::NAME;
use second::{Header, LineHead};

use crate::damage::{set_value, Sheet};
use crate::headers::wrong_line;
use crate::line::paying_day;
use crate::pieces::{self, COUNTS_OUT_OF_FORM, NO_COUNTS};
use crate::random::Rng;
use crate::rows::{self, Rows};

/// The lines of a head, counted from 0: the line, the hours, the marks and the
/// empty one.
const LINE: usize = 0;
const HOURS: usize = 1;
const MARK: usize = 2;
const EMPTY: usize = 3;

/// The hours of this turn's day.
pub fn hours(turn: usize) -> usize {
    [24, 23, 25][turn % 3]
}

/// A good head with any marks.
pub fn any(rng: &mut Rng, hours: usize) -> LineHead {
    let none = rng.pick(&[2, 8, 40]);
    let mut head = LineHead {
        line: rng.pick(&[NAME.low, NAME.high, 23_512]),
        ..LineHead::new(hours)
    };
    for mark in &mut head.mark {
        *mark = match rng.below(none) {
            0 => 0,
            _ => rng.pick(&[1, 2]),
        };
    }
    head
}

/// A day's sheet with one of its lines, counted from 0, and how often all four
/// had their turn under each count.
fn place(rng: &mut Rng, turn: usize) -> (Sheet, usize, usize) {
    let head = any(rng, hours(turn / 4));
    (Sheet::of(&paying_day(&head)), turn % 4, turn / 12)
}

/// Lines that are absent, extra or not in form.
pub fn wrong(rng: &mut Rng, turn: usize) -> Vec<u8> {
    let (mut sheet, line, round) = place(rng, turn);
    let row = (line == MARK).then_some(hours(turn / 4));
    wrong_line(rng, &mut sheet, line, row, round % 7);
    sheet.text()
}

/// Lines whose number or digit is not allowed.
pub fn out_of_range(rng: &mut Rng, turn: usize) -> Vec<u8> {
    let hours = hours(turn / 3);
    let mut sheet = Sheet::of(&paying_day(&any(rng, hours)));
    spoil(rng, &mut sheet, turn % 3, hours);
    match turn / 9 % 4 {
        // The first line out of range is named.
        2 => {
            let other = rng.below(EMPTY);
            spoil(rng, &mut sheet, other, hours);
        }
        // A fault of form comes first, wherever it stands.
        3 => sheet.lines[rng.below(EMPTY + 1)].push(rng.pick(b" \rx")),
        _ => {}
    }
    sheet.text()
}

/// Puts a line's number, or a digit, out of its range.
fn spoil(rng: &mut Rng, sheet: &mut Sheet, line: usize, hours: usize) {
    let text = &mut sheet.lines[line];
    let value = match line {
        LINE => rng.pick(&["0", "-1", "-9999999", "-4711"]),
        HOURS => rng.pick(NO_COUNTS),
        _ => {
            let at = text.len() - 1 - rng.below(hours);
            text[at] = rng.pick(b"3334567899");
            return;
        }
    };
    set_value(text, 0, value.as_bytes());
}

/// Texts that end within the head.
pub fn ends(rng: &mut Rng, turn: usize) -> Vec<u8> {
    let (sheet, line, round) = place(rng, turn);
    pieces::end_in_line(rng, sheet, line, round)
}

/// Heads of other texts, and lines in another order, joined, or with a key that
/// another text has.
pub fn other_head(rng: &mut Rng, turn: usize) -> Vec<u8> {
    let hours = hours(turn / 10);
    let mut sheet = Sheet::of(&paying_day(&any(rng, hours)));
    let header = |text: String| Sheet::of(text.as_bytes()).lines;
    let lines = &mut sheet.lines;
    match turn % 10 {
        0 => drop(lines.splice(..EMPTY + 1, header(Header::counted(hours).to_text()))),
        1 => drop(lines.splice(..EMPTY + 1, header(Header::default().to_text()))),
        2 => lines[LINE] = format!("import=1 cts=0 hours={hours}").into_bytes(),
        3 => lines.swap(LINE, HOURS),
        4 => lines.swap(HOURS, MARK),
        5 => lines[LINE] = rng.pick(&["unit=1", "form=2", "lines=1"]).into(),
        6 => drop(lines[MARK].splice(..4, *b"cat")),
        7 => lines.insert(0, b"form=2".to_vec()),
        8 => {
            let hours = lines.remove(HOURS);
            lines[LINE].push(b' ');
            lines[LINE].extend(hours);
        }
        _ => drop(lines.remove(EMPTY)),
    }
    sheet.text()
}

/// Counts that no day has, alone and with other faults of the head.
pub fn wrong_count(rng: &mut Rng, turn: usize) -> Vec<u8> {
    let all = [NO_COUNTS, COUNTS_OUT_OF_FORM].concat();
    let hours = hours(turn / all.len());
    let mut sheet = Sheet::of(&paying_day(&any(rng, hours)));
    set_value(&mut sheet.lines[HOURS], 0, all[turn % all.len()].as_bytes());
    match turn / all.len() % 5 {
        // All faults of form come first.
        1 => drop(sheet.lines.remove(EMPTY)),
        2 => sheet.lines[rng.below(EMPTY + 1)].push(b' '),
        // The first line out of range is named.
        3 => spoil(rng, &mut sheet, LINE, hours),
        // The marks are not judged.
        4 => spoil(rng, &mut sheet, MARK, hours),
        _ => {}
    }
    sheet.text()
}

/// A head that is good once in so many times, and else has a wrong count; and
/// its row of marks.
fn counted(rng: &mut Rng, good_once_in: usize) -> (Sheet, Rows) {
    let hours = rng.pick(&[23, 24, 25]);
    let mut sheet = Sheet::of(&paying_day(&any(rng, hours)));
    if !rng.once_in(good_once_in) {
        spoil(rng, &mut sheet, HOURS, hours);
    }
    let rows = Rows {
        lines: MARK..EMPTY,
        spoilt: (LINE, "0"),
    };
    (sheet, rows)
}

/// A row of another length, and what else can be wrong with it or behind it.
pub fn other_rows(rng: &mut Rng, turn: usize) -> Vec<u8> {
    let (mut sheet, rows) = counted(rng, 2);
    rows::other_lengths(rng, turn, &mut sheet, &rows);
    sheet.text()
}

/// A row so long that its LF, or a letter at its far end, stands around the end
/// of a read, of several or of what is kept.
pub fn long_rows(rng: &mut Rng, turn: usize) -> Vec<u8> {
    let (mut sheet, rows) = counted(rng, 6);
    rows::long(rng, turn, &mut sheet, &rows, 0);
    sheet.text()
}

#[cfg(test)]
mod tests {
    use super::*;
    use crate::rows::assert_reach_ends;
    use second::line_text;
    use std::collections::BTreeSet;

    /// What is printed of so many turns.
    fn answers(make: fn(&mut Rng, usize) -> Vec<u8>, turns: usize) -> BTreeSet<String> {
        let answer = |turn| line_text(&make(&mut Rng::new(2, turn as u64), turn));
        (0..turns).map(answer).collect()
    }

    fn refusals(of: &[(u8, usize)]) -> Vec<String> {
        let line = |(check, line): &(u8, usize)| format!("refused={check} at={line}\n");
        of.iter().map(line).collect()
    }

    #[test]
    fn every_line_of_each_count_has_its_turn() {
        let mut places = BTreeSet::new();
        for turn in 0..12 {
            let (sheet, line, round) = place(&mut Rng::new(1, 1), turn);
            assert!(sheet.lines[MARK].starts_with(b"mark=") && round == 0);
            places.insert((sheet.lines[HOURS].clone(), line));
        }
        assert_eq!(places.len(), 12);
    }

    #[test]
    fn faults_are_met_at_every_line() {
        let form = refusals(&[(1, 1), (1, 2), (1, 3), (1, 4)]);
        let range = refusals(&[(2, 1), (2, 2), (2, 3)]);
        for (make, met) in [
            (wrong as fn(&mut Rng, usize) -> Vec<u8>, &form),
            (ends, &form),
            (out_of_range, &range),
            (out_of_range, &form),
        ] {
            let answers = answers(make, 400);
            for refusal in met {
                assert!(answers.contains(refusal), "{refusal}");
            }
        }
    }

    #[test]
    fn counts_and_rows_meet_their_neighbours() {
        for make in [wrong_count, other_rows, long_rows] {
            let answers = answers(make, 400);
            for refusal in refusals(&[(2, 1), (2, 2), (1, 3), (1, 4)]) {
                assert!(answers.contains(&refusal), "{refusal}");
            }
        }
        // No head of another text is taken for one of a line's.
        let refused = answers(other_head, 60);
        assert!(refused.iter().all(|said| said.starts_with("refused=1 ")));
    }

    #[test]
    fn long_rows_go_over_the_ends_of_reads() {
        assert_reach_ends(long_rows, 60);
    }
}

//! Days of internal controllable lines: how they are made.

use second::line::{self, Controllable};
use second::{Curve, LineHead, LineRecord};

use crate::days;
use crate::hours::{self, is_paid};
use crate::line_block;
use crate::line_events;
use crate::line_heads::{self, hours};
use crate::line_hours::{lifted, paying};
use crate::line_same;
use crate::pieces::{self, count, each_hour, Said};
use crate::plan::{recipe, Program, Recipe};
use crate::random::Rng;
use crate::stretches::curve_of;
use crate::written::Written;

/// The program `line`.
pub const PROGRAM: Program = Program {
    name: "line",
    recipes: RECIPES,
    answer: |text, run| Written::Answer(line::program(text, run)),
    wanted: line_events::of_line,
    outcome,
    outcomes: || pieces::outcomes(&pieces::SAID[1..], says),
    ends_at_empty_line: false,
    pair: Some(line_same::pair),
    back: None,
};

const RECIPES: &[Recipe] = &[
    recipe("days", 10, good),
    recipe("days of any hours", 5, any_hours),
    recipe("one mark", 4, one_mark),
    recipe("many marks", 2, many_marks),
    recipe("hours without a mark", 4, unmarked),
    recipe("wrong heads", 5, line_heads::wrong),
    recipe("heads out of range", 3, line_heads::out_of_range),
    recipe("heads that end", 2, line_heads::ends),
    recipe("other heads", 2, line_heads::other_head),
    recipe("wrong counts", 2, line_heads::wrong_count),
    recipe("rows of other lengths", 3, line_heads::other_rows),
    recipe("long rows", 2, line_heads::long_rows),
    recipe("any blocks", 12, any_blocks),
    recipe("blocks that end", 2, block_ends),
    recipe("blocks out of order", 3, out_of_order),
    recipe("blocks by the count", 3, by_count),
    recipe("surplus", 2, surplus),
    recipe("damage", 5, |rng, _| damaged(rng)),
    recipe("noise", 1, |rng, _| {
        pieces::noise(rng, |rng| any_head(rng).to_text())
    }),
];

/// The hours that a head says.
fn says(said: Said) -> String {
    format!("hours={}", count(said))
}

fn outcome(text: &[u8], answer: &str) -> Option<String> {
    let hours = text.split(|byte| *byte == b'\n').nth(1)?;
    days::outcome(&String::from_utf8_lossy(hours), answer)
}

/// An hour of any kind, short as a day has many; in most turns it pays.
fn short(rng: &mut Rng) -> LineRecord {
    let count = 4 + rng.below(3);
    let record = hours::any_of(rng, count);
    match rng.below(4) {
        0 => record,
        _ => lifted(rng, record),
    }
}

/// Such an hour that is not refused.
fn short_and_paid(rng: &mut Rng) -> LineRecord {
    loop {
        let record = short(rng);
        if is_paid(&record) {
            return record;
        }
    }
}

/// The day of a head and these hours.
pub fn sheet(head: &LineHead, hours: &[LineRecord]) -> Vec<u8> {
    pieces::text(&head.to_text(), hours)
}

/// So many hours that all pay.
pub fn all_paying(hours: usize) -> Vec<LineRecord> {
    each_hour(hours, paying)
}

/// The head over as many hours as it has, all paid but for its marks.
pub fn paying_day(head: &LineHead) -> Vec<u8> {
    sheet(head, &all_paying(head.mark.len()))
}

/// Days that have a total.
fn good(rng: &mut Rng, turn: usize) -> Vec<u8> {
    let head = line_heads::any(rng, hours(turn));
    let hours = each_hour(head.mark.len(), |_| short_and_paid(rng));
    pieces::closed(rng, sheet(&head, &hours))
}

/// Days with some hours that need a price which their curves do not have.
fn any_hours(rng: &mut Rng, turn: usize) -> Vec<u8> {
    let head = line_heads::any(rng, hours(turn));
    let hours = each_hour(head.mark.len(), |_| short(rng));
    pieces::closed(rng, sheet(&head, &hours))
}

/// Every mark in every hour of each count, among hours that have another.
fn one_mark(_: &mut Rng, turn: usize) -> Vec<u8> {
    let mut head = LineHead::new(hours(turn));
    let mark = turn / 3 % 3;
    let others = match mark {
        0 => 1 + turn / 9 % 2,
        _ => 0,
    };
    head.mark.fill(others as u8);
    // Hour by hour, but far apart from one turn to the next.
    let hour = turn / 9 * 7 % head.mark.len();
    head.mark[hour] = mark as u8;
    paying_day(&head)
}

fn many_marks(rng: &mut Rng, turn: usize) -> Vec<u8> {
    let head = line_heads::any(rng, hours(turn));
    paying_day(&head)
}

/// Hours that would pay or be refused for a price, were they marked; some are.
fn unmarked(rng: &mut Rng, turn: usize) -> Vec<u8> {
    let mut head = LineHead::new(hours(turn));
    for mark in &mut head.mark {
        *mark = rng.pick(&[0, 0, 0, 1, 2]);
    }
    let hours = each_hour(head.mark.len(), |place| {
        let mut record = match rng.below(3) {
            0 => paying(place),
            _ => short(rng),
        };
        if rng.once_in(4) {
            *curve_of(&mut record, rng.once_in(2)) = Curve::default();
        }
        record
    });
    sheet(&head, &hours)
}

/// Days of all the blocks that a line's can be.
fn any_blocks(rng: &mut Rng, turn: usize) -> Vec<u8> {
    let hours = hours(turn);
    let head = line_heads::any(rng, hours).to_text();
    days::any_blocks(rng, turn, &head, hours, line_block::RECIPES)
}

/// Texts that end within a block, or behind one.
fn block_ends(rng: &mut Rng, turn: usize) -> Vec<u8> {
    let head = line_heads::any(rng, hours(turn / 6));
    let last = rng.below(head.mark.len());
    let text = sheet(&head, &all_paying(last));
    days::block_ends::<Controllable>(rng, turn, text, last)
}

/// Blocks at other places than their hours say, absent, doubled and apart.
fn out_of_order(rng: &mut Rng, turn: usize) -> Vec<u8> {
    let head = line_heads::any(rng, hours(turn / 6));
    let hours = all_paying(head.mark.len());
    days::out_of_order(rng, turn, &head.to_text(), hours)
}

/// More blocks than the head's count, fewer, or just as many.
fn by_count(rng: &mut Rng, turn: usize) -> Vec<u8> {
    let head = line_heads::any(rng, hours(turn));
    let mut hours = all_paying(head.mark.len());
    pieces::by_count(rng, &mut hours, turn / 3 % pieces::BY_COUNT);
    pieces::closed(rng, sheet(&head, &hours))
}

/// Bytes behind the last block, or just none.
fn surplus(rng: &mut Rng, turn: usize) -> Vec<u8> {
    let text = paying_day(&line_heads::any(rng, hours(turn / 6)));
    days::surplus(rng, turn, text, &paying(0))
}

/// A good head of any count.
fn any_head(rng: &mut Rng) -> LineHead {
    let hours = rng.pick(&[23, 24, 25]);
    line_heads::any(rng, hours)
}

fn damaged(rng: &mut Rng) -> Vec<u8> {
    let head = any_head(rng);
    let hours = match rng.once_in(2) {
        true => all_paying(head.mark.len()),
        false => each_hour(head.mark.len(), |_| short(rng)),
    };
    pieces::damaged(rng, sheet(&head, &hours))
}

#[cfg(test)]
mod tests {
    use super::*;
    use second::line_text;
    use std::collections::BTreeSet;

    #[test]
    fn hours_pay_by_their_number() {
        for (hours, total) in [(23, 276), (24, 300), (25, 325)] {
            let lines: String = (0..hours)
                .map(|h| format!("hour={h} pay={}\n", h + 1))
                .collect();
            let answer = line_text(&paying_day(&LineHead::new(hours)));
            assert_eq!(answer, format!("{lines}total={total}\n"));
        }
    }

    #[test]
    fn days_have_a_total_unless_they_are_meant_not_to() {
        for turn in 0..30 {
            let answer = line_text(&good(&mut Rng::new(4, turn as u64), turn));
            assert!(!answer.contains("refused="), "{answer}");
        }
        let refused = |turn| line_text(&any_hours(&mut Rng::new(4, turn as u64), turn));
        assert!((0..30).any(|turn| refused(turn).contains("refused=7 at=")));
    }

    #[test]
    fn every_mark_stands_alone_in_every_hour() {
        let mut paid = BTreeSet::new();
        for turn in 0..9 * 25 * 2 {
            let answer = line_text(&one_mark(&mut Rng::new(1, 1), turn));
            let lines: Vec<&str> = answer.lines().collect();
            let pays = |line: &&str| !line.ends_with(" pay=0");
            let hours = lines.len() - 1;
            let which: Vec<usize> = (0..hours).filter(|h| pays(&lines[*h])).collect();
            paid.insert((hours, turn / 3 % 3, which));
        }
        for hours in 23..=25 {
            for hour in 0..hours {
                let others = (0..hours).filter(|other| *other != hour).collect();
                assert!(paid.contains(&(hours, 0, others)), "0 at {hour} of {hours}");
                for mark in [1, 2] {
                    let alone = (hours, mark, vec![hour]);
                    assert!(paid.contains(&alone), "{mark} at {hour} of {hours}");
                }
            }
        }
    }

    #[test]
    fn hours_without_a_mark_would_come_to_something() {
        let mut spared = BTreeSet::new();
        for turn in 0..30 {
            let text = unmarked(&mut Rng::new(2, turn as u64), turn);
            let text = String::from_utf8_lossy(&text).into_owned();
            let row = text.lines().nth(2).unwrap_or_default().to_string();
            let marked = text.replacen(&row, &row.replace('0', "1"), 1);
            let (answer, were) = (line_text(text.as_bytes()), line_text(marked.as_bytes()));
            for (mark, (now, then)) in row[5..].chars().zip(answer.lines().zip(were.lines())) {
                assert!(mark != '0' || now.ends_with(" pay=0"), "{now}");
                let what = |line: &str| {
                    line.split([' ', '='])
                        .nth(2)
                        .unwrap_or_default()
                        .to_string()
                };
                spared.insert((mark, now == then, what(then)));
            }
        }
        // They would pay, or be refused; and marked hours are as they were.
        assert!(spared.contains(&('0', false, "pay".to_string())));
        assert!(spared.contains(&('0', false, "refused".to_string())));
        assert!(!spared.iter().any(|(mark, same, _)| *mark != '0' && !same));
    }
}

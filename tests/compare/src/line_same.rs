//! Pairs of a line's days: one hour changed, so that its answer stays or becomes
//! a known one; or what a head may say otherwise.

use second::line::{branch, Controllable};
use second::text::{ENERGY, NAME};
use second::{LineBranch, LineHead, LineRecord};

use crate::bonds::{Bond, Pair};
use crate::hours::{any_of, is_paid};
use crate::line::{all_paying, sheet};
use crate::line_heads;
use crate::lines;
use crate::pieces::{each_hour, Block};
use crate::random::Rng;
use crate::same::{self, changed, Change, Changes};

/// Every change of a line's hour.
const CHANGES: &Changes<Controllable> = &[
    same::cut_da_step,
    same::cut_rt_step,
    same::add_behind,
    same::add_in_front,
    same::cut_interval,
    same::other_order,
    same::cut_dear_first_step,
    same::just_reaching,
    same::just_missing,
    same::curve_not_asked,
    other_schedule,
    other_withdrawal,
];

/// Pairs by a head, and the turns in which they come.
const HEADS: &[fn(&mut Rng) -> Pair] = &[other_marks, other_line, other_hour_without_mark];

/// Two days of a line.
pub fn pair(rng: &mut Rng, turn: usize) -> Pair {
    let kinds = CHANGES.len() + HEADS.len();
    match (turn % kinds).checked_sub(CHANGES.len()) {
        Some(head) => HEADS[head](rng),
        None => changed_hour(rng, turn % kinds),
    }
}

/// A marked head of any count.
fn marked(rng: &mut Rng) -> LineHead {
    let mut head = line_heads::any(rng, 24);
    let hours = rng.pick(&[23, 24, 25]);
    head.hours = hours as i64;
    head.mark = (0..hours).map(|_| rng.pick(&[1, 2])).collect();
    head
}

/// A paid hour, changed, among hours that pay by their number.
fn changed_hour(rng: &mut Rng, turn: usize) -> Pair {
    let head = marked(rng);
    let mut hours = all_paying(head.mark.len());
    let place = rng.below(hours.len());
    let (mut record, mut change) = changed(rng, turn, CHANGES, true);
    for block in [&mut record, &mut change.after] {
        *block.hour() = place as i64;
    }
    let bond = match change.bond {
        Bond::Becomes(refusal) => Bond::Becomes(answer_with(hours.len(), place, &refusal)),
        // Contributions are not printed, and their sum is the same.
        _ => Bond::Same,
    };
    hours[place] = record;
    let before = sheet(&head, &hours);
    hours[place] = change.after;
    let after = sheet(&head, &hours);
    Pair::either_way(rng, change.name, before, after, bond)
}

/// What is printed of hours that pay by their number, but for a refused one.
fn answer_with(hours: usize, place: usize, refusal: &str) -> String {
    let line = |hour| match hour == place {
        true => format!("hour={hour} {refusal}"),
        false => format!("hour={hour} pay={}\n", hour + 1),
    };
    let lines: String = (0..hours).map(line).collect();
    lines + "total=-\n"
}

/// Other schedules on the same side of the day-ahead injection.
fn other_schedule(rng: &mut Rng, record: &LineRecord) -> Option<Change<Controllable>> {
    let mut after = record.clone();
    let ahead = record.day_ahead;
    for interval in &mut after.intervals[..record.count] {
        let (low, high, near) = match branch(&ahead, interval) {
            LineBranch::Lower => (ENERGY.low, ahead.dasi - 1, ahead.dasi - 1),
            LineBranch::Other => (ahead.dasi, ENERGY.high, ahead.dasi),
        };
        let any = rng.between(low, high);
        interval.en = rng.pick(&[near, any, low, high]);
    }
    Some(Change {
        name: "other schedules of the same branch",
        after,
        bond: Bond::Same,
    })
}

/// As much more or less of the withdrawal, day-ahead and in every interval.
fn other_withdrawal(rng: &mut Rng, record: &LineRecord) -> Option<Change<Controllable>> {
    let intervals = record.used().iter().map(|interval| interval.aew);
    let all: Vec<i64> = intervals.chain([record.day_ahead.dasw]).collect();
    let down = ENERGY.low - all.iter().min()?;
    let up = ENERGY.high - all.iter().max()?;
    let any = rng.between(down, up);
    let more = rng.pick(&[down, up, any, any.clamp(-9, 9)]);
    let mut after = record.clone();
    after.day_ahead.dasw += more;
    for interval in &mut after.intervals[..record.count] {
        interval.aew += more;
    }
    Some(Change {
        name: "withdrawals moved alike",
        after,
        bond: Bond::Same,
    })
}

/// Hours of any kind, each at its place.
fn any_hours(rng: &mut Rng, hours: usize) -> Vec<LineRecord> {
    each_hour(hours, |_| any_of(rng, 4))
}

/// The same hours under two heads.
fn under(name: &'static str, heads: [&LineHead; 2], hours: &[LineRecord]) -> Pair {
    let [before, after] = heads.map(|head| sheet(head, hours));
    Pair {
        name,
        before,
        after,
        bond: Bond::Same,
    }
}

/// (i) and (ii) are alike.
fn other_marks(rng: &mut Rng) -> Pair {
    let head = marked(rng);
    let mut other = head.clone();
    for mark in &mut other.mark {
        *mark = rng.pick(&[1, 2]);
    }
    let hours = any_hours(rng, head.mark.len());
    under("(i) or (ii)", [&head, &other], &hours)
}

/// The line's number is not printed.
fn other_line(rng: &mut Rng) -> Pair {
    let head = marked(rng);
    let other = LineHead {
        line: rng.within(NAME),
        ..head.clone()
    };
    let hours = any_hours(rng, head.mark.len());
    under("other line", [&head, &other], &hours)
}

/// An hour without a mark pays nothing, whatever its block says in form, in
/// range and in seconds.
fn other_hour_without_mark(rng: &mut Rng) -> Pair {
    let mut head = marked(rng);
    let place = rng.below(head.mark.len());
    head.mark[place] = 0;
    let mut hours = all_paying(head.mark.len());
    let before = sheet(&head, &hours);
    let mut other = lines::any(rng);
    // One that would be refused is as good as one that would pay.
    while rng.once_in(2) && is_paid(&other) {
        other = lines::any(rng);
    }
    *other.hour() = place as i64;
    hours[place] = other;
    Pair {
        name: "other hour without a mark",
        before,
        after: sheet(&head, &hours),
        bond: Bond::Same,
    }
}

#[cfg(test)]
mod tests {
    use super::*;
    use second::line_text;
    use std::collections::BTreeMap;

    #[test]
    fn every_change_comes_up_and_holds_for_the_second_program() {
        let mut names = BTreeMap::new();
        for turn in 0..300 {
            let pair = pair(&mut Rng::new(11, turn as u64), turn);
            let (before, after) = (line_text(&pair.before), line_text(&pair.after));
            assert!(pair.bond.holds(&before, &after), "{} {turn}", pair.name);
            // A change may find that all is as it would leave it.
            let differ = usize::from(pair.before != pair.after);
            *names.entry(pair.name).or_insert(0) += differ;
        }
        assert_eq!(names.len(), CHANGES.len() + HEADS.len(), "{names:?}");
        assert!(names.values().all(|differ| *differ > 9), "{names:?}");
    }

    #[test]
    fn a_refused_hour_is_printed_among_the_others() {
        let answer = answer_with(24, 23, "refused=7 at=2\n");
        assert!(answer.starts_with("hour=0 pay=1\nhour=1 pay=2\n"));
        assert!(answer.ends_with("hour=22 pay=23\nhour=23 refused=7 at=2\ntotal=-\n"));
    }
}

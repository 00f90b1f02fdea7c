//! Pairs of days that pay the same: headers of the other form, neighbours that do
//! nothing, one paid hour changed, or the curves of an excluded one.

use crate::bonds::{Bond, Pair};
use crate::day::{all_paying, any_blocks, any_headers, by_count, good, many_marks, text};
use crate::day_points;
use crate::midnight;
use crate::random::Rng;
use crate::same;
use crate::three::parts;

/// A pair of each kind in its turn.
pub fn pair(rng: &mut Rng, turn: usize) -> Pair {
    match turn % 8 {
        3 | 7 => other_form(rng, turn),
        5 => midnight::other_neighbours(rng),
        1 if turn % 3 == 0 => day_points::excluded_curves(rng),
        _ => other_hour(rng, turn),
    }
}

/// One paid hour changed, between any neighbours.
fn other_hour(rng: &mut Rng, turn: usize) -> Pair {
    let headers = any_headers(rng);
    let count = headers.own.cat.len();
    let place = rng.below(count);
    let mut hours = all_paying(count);
    let (mut record, mut change) = same::changed(rng, turn, same::CHANGES, true);
    while !matches!(change.bond, Bond::Same | Bond::Cut(_) | Bond::Order(_)) {
        let other = rng.below(99);
        (record, change) = same::changed(rng, other, same::CHANGES, true);
    }
    record.day_ahead.hour = place as i64;
    change.after.day_ahead.hour = place as i64;
    hours[place] = record;
    let before = text(&headers, &hours);
    hours[place] = change.after;
    Pair {
        name: change.name,
        before,
        after: text(&headers, &hours),
        bond: Bond::Same,
    }
}

/// What line 1 of a sheet becomes that goes up, and the line behind it.
const FIRST_1: &[u8] = b"form=1\n";
const FIRST_2: &[u8] = b"form=2\nhours=24\n";

/// A day whose own header has form 1, and the same bytes with that one, or with
/// a neighbour's, saying 24 hours: a moved sheet pays the same, and its neighbours
/// do.
fn other_form(rng: &mut Rng, turn: usize) -> Pair {
    let turn = turn / 4 * 2;
    let before = match turn % 10 {
        0 => good(rng, turn),
        2 => many_marks(rng, turn),
        4 => by_count(rng, turn / 10 * 4),
        6 => any_blocks(rng, turn),
        _ => midnight::marked_days(rng, [None; 3]),
    };
    let mut moved: Vec<Vec<u8>> = parts(&before).map(<[u8]>::to_vec).to_vec();
    let plain = |place: &usize| moved[*place].starts_with(FIRST_1);
    let plain: Vec<usize> = (0..3).filter(plain).collect();
    // One of them for sure, and each other one now and then.
    let sure = rng.pick(&plain);
    for place in plain {
        if place == sure || rng.once_in(2) {
            moved[place].splice(..FIRST_1.len(), FIRST_2.iter().copied());
        }
    }
    Pair {
        name: "other form",
        before,
        after: moved.concat(),
        bond: Bond::Same,
    }
}

#[cfg(test)]
mod tests {
    use super::*;
    use second::day_text;

    #[test]
    fn moved_headers_are_met_in_each_place() {
        let mut moved = [0; 3];
        for turn in (3..400).step_by(4) {
            let pair = other_form(&mut Rng::new(12, turn as u64), turn);
            assert_eq!(day_text(&pair.before), day_text(&pair.after), "{turn}");
            let (before, after) = (parts(&pair.before), parts(&pair.after));
            for place in 0..3 {
                moved[place] += usize::from(before[place] != after[place]);
            }
        }
        assert!(moved.iter().all(|times| *times > 20), "{moved:?}");
    }
}

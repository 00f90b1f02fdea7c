//! Hours in which intervals have no point, exceed the room of their derate or
//! need a price that is not there. The first such interval is named, and of it
//! the first of these checks.

use second::text::HOUR;
use second::{Curve, DayAhead, HourRecord, Interval};

use crate::hour::{block, nth};
use crate::hours::{self, still};
use crate::random::Rng;

/// What is wrong with an interval, added up; or all of it is, but the unit lags
/// and is not asked.
const POINT: usize = 1;
const DERATE: usize = 2;
const REACH: usize = 4;
const LAGGING: usize = 8;

/// All of these, and nothing.
const KINDS: usize = 9;

/// The reserve that is sold and kept in each of these hours, so that a limit that
/// exceeds a derate's room is not below zero.
const RESERVE: i64 = 200;

/// Every two of these kinds in two intervals of an hour.
pub fn among_faults(rng: &mut Rng, turn: usize) -> Vec<u8> {
    let (record, _) = two_faulty(rng, turn);
    block(rng, &record)
}

/// Such an hour, and the places and kinds of the two intervals: the first and
/// another, two between, or another and the thirtieth. The hours of one round have
/// no real-time curve, and those of the next have one that gives points, but not
/// the price that is needed.
fn two_faulty(rng: &mut Rng, turn: usize) -> (HourRecord, [(usize, usize); 2]) {
    let kinds = turn / 3 % (KINDS * KINDS);
    let has_curve = turn / (3 * KINDS * KINDS) % 2 == 1;
    let mut record = as_scheduled(rng, has_curve);
    let (count, one) = nth(rng, turn);
    hours::resize(rng, &mut record, count);
    let behind = count - 1 - one;
    let other = match turn % 3 {
        0 | 1 if behind > 0 => one + 1 + rng.below(behind),
        _ => rng.below(one),
    };
    let places = [one.min(other), one.max(other)];
    let faults = [(places[0], kinds % KINDS), (places[1], kinds / KINDS)];
    for (place, kind) in faults {
        let interval = &mut record.intervals[place];
        *interval = faulty(rng, interval.s, &record.day_ahead, kind);
    }
    (record, faults)
}

/// An hour that runs as it was scheduled and needs no price. If it has a curve,
/// that one ends, or starts, where the schedule lies.
fn as_scheduled(rng: &mut Rng, has_curve: bool) -> HourRecord {
    let line = DayAhead {
        hour: rng.within(HOUR),
        en: rng.pick(&[0, 0, 1, 100, -50]),
        r1: RESERVE,
        ..DayAhead::default()
    };
    let mut record = HourRecord {
        day_ahead: line,
        ..HourRecord::default()
    };
    if has_curve {
        let start = if line.en < 0 { line.en } else { line.en - 5 };
        let mut price = || rng.between(-2, 2);
        record.rt = Curve::new(start, &[(start + 2, price()), (start + 5, price())]);
    }
    record.set_intervals(&[900; 4].map(|s| still(&line, s)));
    record
}

/// An interval of that hour with these faults. One that needs a price is scheduled
/// for a kilowatt more than day-ahead.
fn faulty(rng: &mut Rng, s: i64, line: &DayAhead, kind: usize) -> Interval {
    let lags = kind == LAGGING;
    let has = |fault| lags || kind & fault != 0;
    let more = if line.en < 0 { -1 } else { 1 };
    let en = line.en + more * i64::from(has(REACH));
    let room = (line.en - en).max(0);
    Interval {
        en,
        ae: en,
        eop: Some(en).filter(|_| !has(POINT)),
        pen: rng.between(-3, 3),
        lim: en - i64::from(!lags),
        uol: Some(line.en + RESERVE - room - 1).filter(|_| has(DERATE)),
        ..still(line, s)
    }
}

#[cfg(test)]
mod tests {
    use super::*;
    use second::{hour, Answer, Ask, Check, Refusal, Run};
    use std::collections::BTreeSet;

    /// What refuses the hour: in the order of the intervals, and in each one a
    /// point that lacks before the derate, and that before a price.
    fn expected(record: &HourRecord, faults: [(usize, usize); 2]) -> Option<Refusal> {
        let lacks_points = record.rt.count == 0;
        let checks = [
            (POINT, Check::Point),
            (DERATE, Check::Derate),
            (REACH, Check::Reach),
        ];
        let asked = faults.into_iter().filter(|(_, kind)| *kind != LAGGING);
        let mut refusals = asked.flat_map(|(place, kind)| {
            let is = move |(fault, _): &(usize, Check)| kind & fault != 0;
            let has = checks.into_iter().filter(is);
            has.map(move |(_, check)| Refusal::new(check, place + 1))
        });
        refusals.find(|refusal| lacks_points || refusal.check != Check::Point)
    }

    #[test]
    fn the_first_fault_of_the_first_interval_is_named() {
        let (mut seen, mut unused) = (BTreeSet::new(), 0);
        for turn in 0..6 * KINDS * KINDS {
            let (record, faults) = two_faulty(&mut Rng::new(3, turn as u64), turn);
            let row = &mut [0; 30];
            let answer = hour::judge_record(&record, Ask::default(), row, &mut Run::default());
            let refused = match answer {
                Answer::Paid(_) => None,
                Answer::Refused(refusal) => Some(refusal),
            };
            let text = record.to_text();
            assert_eq!(refused, expected(&record, faults), "{text}");
            let kinds = faults.map(|(_, kind)| kind);
            let check = refused.map(|refusal| refusal.check);
            seen.insert((kinds, check));
            let idle = record.day_ahead.en == 0 && record.used().iter().all(|line| line.en == 0);
            unused += usize::from(idle && check == Some(Check::Point));
        }
        // No limit looks at the point of a unit that is scheduled for nothing.
        assert!(unused > 4, "{unused}");
        // With a curve and without one, where that makes another answer.
        let [after, before] = [[DERATE, POINT], [POINT, DERATE]];
        for (kinds, check) in [
            ([0, 0], None),
            ([LAGGING, LAGGING], None),
            ([LAGGING, POINT], Some(Check::Point)),
            ([LAGGING, POINT], None),
            (after, Some(Check::Derate)),
            (before, Some(Check::Point)),
            (before, Some(Check::Derate)),
            ([REACH, POINT], Some(Check::Reach)),
            ([POINT, REACH], Some(Check::Point)),
            ([POINT + DERATE + REACH, 0], Some(Check::Point)),
            ([POINT + DERATE + REACH, 0], Some(Check::Derate)),
            ([POINT + REACH, 0], Some(Check::Reach)),
        ] {
            assert!(seen.contains(&(kinds, check)), "{kinds:?} {check:?}");
        }
    }
}

//! Two texts whose answers are bound to each other: a curve cut otherwise, an
//! interval cut in two, another order of the intervals.

use second::curve::MOST_STEPS;
use second::record::{Record, Unit, MOST_INTERVALS};
use second::text::{BID, ENERGY, HOUR, POWER, PRICE};
use second::{Curve, HourRecord, Interval};

use crate::bonds::{Bond, Pair};
use crate::damage::with_surplus;
use crate::hours::{self, is_paid, sum_and_room};
use crate::kinds::Made;
use crate::point_pairs;
use crate::random::Rng;
use crate::stretches::{curve_of, hull, trim, with_points, Priced};

/// An hour, changed, and how its answer is bound to the old one.
pub struct Change<K: Made> {
    /// What was changed.
    pub name: &'static str,
    /// The hour after.
    pub after: Record<K>,
    /// How the answers are bound.
    pub bond: Bond,
}

/// Ways to change an hour of a kind; none if the hour does not allow it.
pub type Changes<K> = [fn(&mut Rng, &Record<K>) -> Option<Change<K>>];

/// Every change of a generator's hour.
pub const CHANGES: &Changes<Unit> = &[
    cut_da_step,
    cut_rt_step,
    add_behind,
    add_in_front,
    cut_interval,
    other_order,
    cut_dear_first_step,
    just_reaching,
    just_missing,
    curve_not_asked,
    fits_or_none,
    while_lagging,
    other_hour,
    point_pairs::cut_otherwise,
    point_pairs::point_said,
    point_pairs::price_not_asked,
    point_pairs::behind_a_missing_point,
    point_pairs::no_curve,
    point_pairs::step_behind,
    point_pairs::dear_step_in_front,
    point_pairs::other_price,
];

/// Hours tried before a change is given up for the next one.
const TRIES: usize = 200;

/// An hour and one of these changes, that it allows. Paid hours only, if so
/// asked.
pub fn changed<K: Made>(
    rng: &mut Rng,
    turn: usize,
    changes: &Changes<K>,
    paid: bool,
) -> (Record<K>, Change<K>) {
    for change in changes.iter().cycle().skip(turn % changes.len()) {
        for _ in 0..TRIES {
            let record = K::any(rng);
            if paid && !is_paid(&record) {
                continue;
            }
            if let Some(change) = change(rng, &record) {
                return (record, change);
            }
        }
    }
    unreachable!("the changes go round and some hour allows one of them")
}

/// Two hour blocks.
pub fn of_hours(rng: &mut Rng, turn: usize) -> Pair {
    if turn % (CHANGES.len() + 1) == CHANGES.len() {
        return surplus(rng);
    }
    let turn = turn % (CHANGES.len() + 1);
    let (record, change) = changed(rng, turn, CHANGES, false);
    let before = record.to_text().into_bytes();
    let after = change.after.to_text().into_bytes();
    Pair::either_way(rng, change.name, before, after, change.bond)
}

/// Bytes behind the block's empty line change nothing.
fn surplus(rng: &mut Rng) -> Pair {
    let before = hours::any(rng).to_text().into_bytes();
    let count = rng.below(300);
    let behind = rng.bytes(count);
    Pair {
        name: "surplus",
        after: with_surplus(before.clone(), &behind),
        before,
        bond: Bond::Same,
    }
}

/// The curve with one step cut in two of the same price, if one can be cut.
pub fn cut_step(rng: &mut Rng, curve: &Curve) -> Option<Curve> {
    let mut steps = steps_of(curve);
    let at = rng.below(steps.len());
    let (to, price) = *steps.get(at)?;
    let start = if at == 0 {
        curve.start
    } else {
        steps[at - 1].0
    };
    if to - start < 2 || steps.len() == MOST_STEPS {
        return None;
    }
    steps.insert(at, (rng.between(start + 1, to - 1), price));
    Some(Curve::new(curve.start, &steps))
}

/// The ends and prices of a curve's steps.
pub fn steps_of(curve: &Curve) -> Vec<(i64, i64)> {
    curve.used().iter().map(|step| (step.to, step.at)).collect()
}

/// A step of the day-ahead curve as two.
pub fn cut_da_step<K: Made>(rng: &mut Rng, record: &Record<K>) -> Option<Change<K>> {
    let da = cut_step(rng, &record.da).filter(|curve| curve.fault().is_none())?;
    same(
        "day-ahead step cut",
        Record {
            da,
            ..record.clone()
        },
    )
}

/// A step of the real-time curve as two.
pub fn cut_rt_step<K: Made>(rng: &mut Rng, record: &Record<K>) -> Option<Change<K>> {
    let rt = cut_step(rng, &record.rt).filter(|curve| curve.fault().is_none())?;
    same(
        "real-time step cut",
        Record {
            rt,
            ..record.clone()
        },
    )
}

/// A change that the answer does not show.
pub fn same<K: Made>(name: &'static str, after: Record<K>) -> Option<Change<K>> {
    let bond = Bond::Same;
    Some(Change { name, after, bond })
}

/// A change of curves where no price is needed, which the answer does not show if
/// the curves give the same points, or both lack them. An hour whose lines say all
/// of their points asks no curve for one.
pub fn alike<K: Made>(
    name: &'static str,
    record: &Record<K>,
    after: Record<K>,
) -> Option<Change<K>> {
    (K::points(record) == K::points(&after)).then(|| same(name, after))?
}

/// The first step may be dearer than the second, but the half of one may not.
pub fn cut_dear_first_step<K: Made>(rng: &mut Rng, record: &Record<K>) -> Option<Change<K>> {
    let mut after = record.clone();
    let (line, curve) = match rng.below(2) {
        0 => (2, &mut after.da),
        _ => (3, &mut after.rt),
    };
    let mut steps = steps_of(curve);
    let (to, price) = *steps.first()?;
    let dear = steps.get(1).is_some_and(|(_, second)| *second < price);
    if !dear || to - curve.start < 2 || steps.len() == MOST_STEPS {
        return None;
    }
    steps.insert(0, (rng.between(curve.start + 1, to - 1), price));
    *curve = Curve::new(curve.start, &steps);
    Some(Change {
        name: "dear first step cut",
        after,
        bond: Bond::Becomes(format!("refused=4 at={line}\n")),
    })
}

/// A paid hour has all the prices it needs: more curve behind changes nothing.
pub fn add_behind<K: Made>(rng: &mut Rng, record: &Record<K>) -> Option<Change<K>> {
    let mut after = record.clone();
    let curve = curve_of(&mut after, rng.once_in(2));
    let mut steps = steps_of(curve);
    let start = if steps.is_empty() {
        rng.within(ENERGY)
    } else {
        curve.start
    };
    let end = steps.last().map_or(start, |(to, _)| *to);
    let lowest = match steps.len() {
        0 | 1 => PRICE.low,
        n => steps[n - 1].1,
    };
    let far = rng.between(end + 1, ENERGY.high);
    let to = rng.pick(&[end + 1, far]);
    steps.push((to, rng.between(lowest, PRICE.high)));
    *curve = Curve::new(start, &steps);
    if to > ENERGY.high || steps.len() > MOST_STEPS || !is_paid(record) {
        return None;
    }
    alike("curve added behind", record, after)
}

/// So does more curve in front: a longer first step, or a step more.
pub fn add_in_front<K: Made>(rng: &mut Rng, record: &Record<K>) -> Option<Change<K>> {
    let mut after = record.clone();
    let curve = curve_of(&mut after, rng.once_in(2));
    let mut steps = steps_of(curve);
    if steps.is_empty() || curve.start == ENERGY.low || !is_paid(record) {
        return None;
    }
    let far = rng.between(ENERGY.low, curve.start - 1);
    let start = rng.pick(&[curve.start - 1, far]);
    if rng.once_in(2) {
        steps.insert(0, (curve.start, rng.within(PRICE)));
    }
    let longer = Curve::new(start, &steps);
    if longer.fault().is_some() || steps.len() > MOST_STEPS {
        return None;
    }
    *curve = longer;
    alike("curve added in front", record, after)
}

/// Curves cut down to the kilowatts that are priced, and to the points.
pub fn just_reaching<K: Made>(_: &mut Rng, record: &Record<K>) -> Option<Change<K>> {
    if !is_paid(record) {
        return None;
    }
    let mut after = record.clone();
    let parts = K::priced(record);
    let (low, high) = hull(&parts, true).unwrap_or((0, 0));
    after.da = trim(&record.da, low, high);
    let (low, high) = with_points(&record.rt, hull(&parts, false), &K::points(record));
    after.rt = trim(&record.rt, low, high);
    alike("curves that just reach", record, after)
}

/// And one kilowatt further: the first interval that asks for it is refused.
pub fn just_missing<K: Made>(rng: &mut Rng, record: &Record<K>) -> Option<Change<K>> {
    if !is_paid(record) {
        return None;
    }
    let parts = K::priced(record);
    let day_ahead = rng.once_in(2);
    let (low, high) = hull(&parts, day_ahead)?;
    let mut after = record.clone();
    let curve = curve_of(&mut after, day_ahead);
    let behind = rng.once_in(2);
    *curve = match behind {
        true => trim(curve, low, high - 1),
        false => trim(curve, low + 1, high),
    };
    let asks = |part: &&Priced| {
        let meets = if behind {
            part.high == high
        } else {
            part.low == low
        };
        part.day_ahead == day_ahead && meets
    };
    let first = parts.iter().find(asks)?.interval + 1;
    if K::points(record) != K::points(&after) {
        return None;
    }
    Some(Change {
        name: "curve one kilowatt short",
        after,
        bond: Bond::Becomes(format!("refused=7 at={first}\n")),
    })
}

/// A curve that no interval asks can be any other.
pub fn curve_not_asked<K: Made>(rng: &mut Rng, record: &Record<K>) -> Option<Change<K>> {
    let day_ahead = rng.once_in(2);
    if !is_paid(record) || hull(&K::priced(record), day_ahead).is_some() {
        return None;
    }
    let mut after = record.clone();
    let curve = curve_of(&mut after, day_ahead);
    *curve = match rng.below(4) {
        0 => Curve::default(),
        _ => hours::curve(rng, -40, 40, |rng| rng.within(PRICE)),
    };
    alike("curve that is not asked", record, after)
}

/// An interval as two lines: seconds and movement sum to the old ones.
pub fn cut_interval<K: Made>(rng: &mut Rng, record: &Record<K>) -> Option<Change<K>> {
    let mut row = record.used().to_vec();
    if row.len() == MOST_INTERVALS {
        return None;
    }
    let at = rng.below(row.len());
    if K::seconds(&row[at]) < 2 {
        return None;
    }
    let parts = K::cut(rng, row[at]);
    row.splice(at..=at, parts);
    let mut after = record.clone();
    after.set_intervals(&row);
    Some(Change {
        name: "interval cut",
        after,
        bond: Bond::Cut(at),
    })
}

/// Another order of the intervals.
pub fn other_order<K: Made>(rng: &mut Rng, record: &Record<K>) -> Option<Change<K>> {
    if !is_paid(record) {
        return None;
    }
    let mut order: Vec<usize> = (0..record.count).collect();
    rng.shuffle(&mut order);
    let row: Vec<K::Interval> = order.iter().map(|old| record.intervals[*old]).collect();
    let mut after = record.clone();
    after.set_intervals(&row);
    Some(Change {
        name: "other order",
        after,
        bond: Bond::Order(order),
    })
}

/// A limit that the schedules fit below does what no limit does.
fn fits_or_none(rng: &mut Rng, record: &HourRecord) -> Option<Change<Unit>> {
    let mut after = record.clone();
    let mut any = false;
    for interval in &mut after.intervals[..record.count] {
        let (sum, _) = sum_and_room(&record.day_ahead, interval);
        if interval.uol.is_none() && sum <= POWER.high && rng.once_in(2) {
            let exact = sum.max(0);
            let above = rng.between(exact, POWER.high);
            interval.uol = Some(rng.pick(&[exact, above]));
            any = true;
        }
    }
    any.then(|| same("limit that all fits below", after))?
}

/// Whatever stands in a lagging interval, it contributes 0.
fn while_lagging(rng: &mut Rng, record: &HourRecord) -> Option<Change<Unit>> {
    let mut after = record.clone();
    let mut any = false;
    for interval in &mut after.intervals[..record.count] {
        if interval.ae <= interval.lim {
            *interval = Interval {
                s: interval.s,
                en: rng.edge(ENERGY),
                ae: interval.ae,
                co: rng.edge(POWER),
                eop: Some(rng.edge(ENERGY)).filter(|_| rng.once_in(2)),
                pen: rng.edge(PRICE),
                lim: interval.lim,
                uol: Some(rng.edge(POWER)).filter(|_| rng.once_in(2)),
                r1: rng.edge(POWER),
                r2: rng.edge(POWER),
                r3: rng.edge(POWER),
                p1: rng.edge(PRICE),
                p2: rng.edge(PRICE),
                p3: rng.edge(PRICE),
                reg: rng.edge(POWER),
                preg: rng.edge(PRICE),
                breg: rng.edge(BID),
                mv: rng.edge(POWER),
                pmv: rng.edge(BID),
                bmv: rng.edge(BID),
            };
            any = true;
        }
    }
    any.then(|| same("other numbers while lagging", after))?
}

/// Another hour, which is all that the answer has otherwise.
pub fn other_hour<K: Made>(rng: &mut Rng, record: &Record<K>) -> Option<Change<K>> {
    let mut after = record.clone();
    let hour = rng.within(HOUR);
    *K::hour_mut(&mut after.day_ahead) = hour;
    let bond = Bond::Hour(hour);
    Some(Change {
        name: "other hour",
        after,
        bond,
    })
}

#[cfg(test)]
mod tests {
    use super::*;

    #[test]
    fn every_change_comes_up_and_holds_for_the_second_program() {
        let mut names = std::collections::BTreeSet::new();
        for turn in 0..400 {
            let pair = of_hours(&mut Rng::new(11, turn as u64), turn);
            let before = second::hour_text(&pair.before);
            let after = second::hour_text(&pair.after);
            assert!(pair.bond.holds(&before, &after), "{pair:?}");
            names.insert(pair.name);
        }
        assert_eq!(names.len(), CHANGES.len() + 1, "{names:?}");
    }
}

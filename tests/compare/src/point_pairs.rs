//! Pairs of hours that leave points to the curve. Since a point reads the whole
//! curve, a change where no price is needed leaves the answer as it is if it
//! leaves the points as they are; and where it moves them, the answer can move.

use second::curve::MOST_STEPS;
use second::hour::judge_record;
use second::record::{Unit, MOST_INTERVALS};
use second::text::{ENERGY, PRICE};
use second::{Answer, Ask, Check, Curve, HourRecord, Run, Way};

use crate::bonds::Bond;
use crate::hours::is_paid;
use crate::points;
use crate::random::Rng;
use crate::same::{alike, cut_step, same, steps_of, Change};
use crate::stretches::{end_of, hull, priced, trim, Priced};

/// Whether a line of the hour asks the curve for its point.
fn asks(record: &HourRecord) -> bool {
    !points::of_hour(record).is_empty()
}

/// Both curves cut otherwise: steps of one price joined, and steps cut in two.
/// Any cutting gives the same points.
pub fn cut_otherwise(rng: &mut Rng, record: &HourRecord) -> Option<Change<Unit>> {
    let after = HourRecord {
        da: other_cutting(rng, &record.da),
        rt: other_cutting(rng, &record.rt),
        ..record.clone()
    };
    let other = asks(record) && after.rt != record.rt;
    other.then(|| same("curves cut otherwise", after))?
}

fn other_cutting(rng: &mut Rng, curve: &Curve) -> Curve {
    let mut steps = steps_of(curve);
    for at in (1..steps.len()).rev() {
        if steps[at - 1].1 == steps[at].1 && rng.once_in(2) {
            steps.remove(at - 1);
        }
    }
    let mut cut = Curve::new(curve.start, &steps);
    for _ in 0..rng.below(5) {
        // A dear first step cannot be cut: its half would be the second.
        let more = cut_step(rng, &cut).filter(|more| more.fault().is_none());
        cut = more.unwrap_or(cut);
    }
    cut
}

/// Lines that say the point which the curve gives.
pub fn point_said(rng: &mut Rng, record: &HourRecord) -> Option<Change<Unit>> {
    let mut after = points::said(record);
    for (line, left) in after.intervals.iter_mut().zip(record.used()) {
        if rng.once_in(3) {
            line.eop = left.eop;
        }
    }
    (after != *record).then(|| same("points said", after))?
}

/// The hour on another real-time curve, if that keeps the rules.
fn on_curve(record: &HourRecord, start: i64, steps: &[(i64, i64)]) -> Option<HourRecord> {
    let rt = Curve::new(start, steps);
    let good = start >= ENERGY.low && steps.len() <= MOST_STEPS && rt.fault().is_none();
    good.then(|| HourRecord {
        rt,
        ..record.clone()
    })
}

/// The hour with another price of a step in which no kilowatt is priced.
fn unasked_price(rng: &mut Rng, record: &HourRecord) -> Option<HourRecord> {
    let mut steps = steps_of(&record.rt);
    let at = rng.below(steps.len());
    let (end, old) = *steps.get(at)?;
    let start = if at > 0 {
        steps[at - 1].0
    } else {
        record.rt.start
    };
    let parts = priced(record);
    let of_step = |part: &Priced| !part.day_ahead && part.low < end && start < part.high;
    if parts.iter().any(of_step) {
        return None;
    }
    // The first step may be dearer than the second, and so the second be any.
    let low = if at > 1 { steps[at - 1].1 } else { PRICE.low };
    let next = steps.get(at + 1).filter(|_| at > 0);
    let high = next.map_or(PRICE.high, |(_, price)| *price);
    let pen = record.intervals[rng.below(record.count)].pen;
    let near = (pen + rng.between(-1, 1)).clamp(low, high);
    let far = rng.between(low, high);
    steps[at].1 = rng.pick(&[near, far]);
    on_curve(record, record.rt.start, &steps).filter(|_| steps[at].1 != old)
}

/// Another price where none is needed, which moves no point.
pub fn price_not_asked(rng: &mut Rng, record: &HourRecord) -> Option<Change<Unit>> {
    let after = unasked_price(rng, record).filter(|_| asks(record))?;
    alike("price that is not asked", record, after)
}

/// The answer to an hour and its contributions.
fn answer(record: &HourRecord) -> (Answer, [i64; MOST_INTERVALS]) {
    let mut row = [0; MOST_INTERVALS];
    let run = &mut Run::quiet(Way::Steps);
    (judge_record(record, Ask::default(), &mut row, run), row)
}

/// From an interval without a point on, no price is needed: the day-ahead curve
/// can end there.
pub fn behind_a_missing_point(_: &mut Rng, record: &HourRecord) -> Option<Change<Unit>> {
    let lacks = match answer(record).0 {
        Answer::Refused(refusal) => refusal.check == Check::Point,
        Answer::Paid(_) => false,
    };
    let (low, high) = hull(&priced(record), true).unwrap_or((0, 0));
    let da = trim(&record.da, low, high);
    let after = HourRecord {
        da,
        ..record.clone()
    };
    (lacks && da != record.da).then(|| same("prices behind a missing point", after))?
}

/// Without a real-time curve that nothing else asks, the first line that leaves
/// its point to it is refused.
pub fn no_curve(_: &mut Rng, record: &HourRecord) -> Option<Change<Unit>> {
    let needed = hull(&priced(record), false).is_some();
    if needed || !asks(record) || !is_paid(record) {
        return None;
    }
    let first = record.used().iter().position(points::asks)? + 1;
    let after = HourRecord {
        rt: Curve::default(),
        ..record.clone()
    };
    Some(Change {
        name: "no curve to give a point",
        after,
        bond: Bond::Becomes(format!("refused=10 at={first}\n")),
    })
}

/// A change of a paid hour where no price is needed, which moves a point and so
/// what is paid.
fn moved(name: &'static str, record: &HourRecord, after: HourRecord) -> Option<Change<Unit>> {
    let points = points::of_hour(record) != points::of_hour(&after);
    let other = points && is_paid(record) && answer(record) != answer(&after);
    let bond = Bond::Differs;
    other.then_some(Change { name, after, bond })
}

/// A step behind that is worth its price, and prices nothing, holds the point up:
/// without it the curve ends lower.
pub fn step_behind(_: &mut Rng, record: &HourRecord) -> Option<Change<Unit>> {
    let steps = steps_of(&record.rt);
    let (_, shorter) = steps.split_last().filter(|(_, rest)| !rest.is_empty())?;
    let after = on_curve(record, record.rt.start, shorter)?;
    let needed = hull(&priced(record), false);
    let reaches = needed.is_none_or(|(_, high)| high <= end_of(&after.rt));
    reaches.then(|| moved("step behind that moves a point", record, after))?
}

/// A dear step in front leaves nothing worth running: the point falls to its start.
pub fn dear_step_in_front(rng: &mut Rng, record: &HourRecord) -> Option<Change<Unit>> {
    let mut steps = steps_of(&record.rt);
    let pen = record.intervals[rng.below(record.count)].pen;
    if steps.is_empty() || pen == PRICE.high {
        return None;
    }
    let far = rng.between(pen + 1, PRICE.high);
    steps.insert(0, (record.rt.start, rng.pick(&[pen + 1, far])));
    let after = on_curve(record, record.rt.start - rng.between(1, 9), &steps)?;
    moved("dear step in front that moves a point", record, after)
}

/// Another price of a step that prices nothing.
pub fn other_price(rng: &mut Rng, record: &HourRecord) -> Option<Change<Unit>> {
    let after = unasked_price(rng, record)?;
    moved("other price that moves a point", record, after)
}

#[cfg(test)]
mod tests {
    use super::*;
    use crate::same::{changed, CHANGES};
    use second::hour_text;
    use std::collections::BTreeMap;

    /// What pairs of a name came with: hours whose lines all say their points, and
    /// hours in which a line asks the curve.
    type Seen = BTreeMap<&'static str, [usize; 2]>;

    #[test]
    fn pairs_keep_the_points_unless_the_answers_differ() {
        let mut seen = Seen::new();
        for index in 0..60 * CHANGES.len() {
            let rng = &mut Rng::new(12, index as u64);
            let (record, change) = changed(rng, index, CHANGES, false);
            seen.entry(change.name).or_default()[usize::from(asks(&record))] += 1;
            let lines_stay = record.used() == change.after.used();
            let shared = points::of_hour(&record) == points::of_hour(&change.after);
            match change.bond {
                Bond::Same if lines_stay => assert!(shared, "{}", change.name),
                Bond::Differs => assert!(lines_stay && !shared, "{}", change.name),
                _ => {}
            }
            let [before, after] = [&record, &change.after].map(|hour| hour.to_text());
            let answers = [before, after].map(|text| hour_text(text.as_bytes()));
            assert!(change.bond.holds(&answers[0], &answers[1]), "{answers:?}");
        }
        assert_eq!(seen.len(), CHANGES.len(), "{seen:?}");
        // The last eight are of hours that leave points to the curve, and the
        // others of hours of either kind.
        for (name, [say, ask]) in &seen {
            assert!(*ask > 5, "{name}: {ask} hours ask");
            let of_points = name.contains("point") || NEW.contains(name);
            assert!(of_points || *say > 5, "{name}: {say} hours say");
        }
    }

    /// Those of them that do not say so in their names.
    const NEW: [&str; 2] = ["curves cut otherwise", "price that is not asked"];
}

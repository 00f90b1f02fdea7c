//! Operating points that the lines of an hour leave to its real-time curve: what
//! the curve gives for them, and how hours come to have such lines.

use second::text::PRICE;
use second::{point, Curve, HourRecord, Interval, Way};

use crate::random::Rng;

/// The point of a curve at a price of energy; none without steps.
pub fn found(curve: &Curve, price: i64) -> Option<i64> {
    point::of_curve(curve, price, Way::Steps).map(|kw| kw as i64)
}

/// Whether a line leaves its point to the curve and is asked for it: the unit
/// does not lag. Of an excluded hour no line is.
pub fn asks(interval: &Interval) -> bool {
    interval.eop.is_none() && interval.ae > interval.lim
}

/// What the curve gives to each line that asks it for its point, in their order.
/// Two hours that differ in their curves alone share their points, or both lack
/// them, just where this is the same for both.
pub fn of_hour(record: &HourRecord) -> Vec<Option<i64>> {
    let asking = record.used().iter().filter(|interval| asks(interval));
    let of = |interval: &Interval| found(&record.rt, interval.pen);
    asking.map(of).collect()
}

/// The hour with its points on its lines. Where there is no curve they stay left
/// to it.
pub fn said(record: &HourRecord) -> HourRecord {
    said_by(record, |record, pen| found(&record.rt, pen))
}

/// The same by any rule that gives an hour's point at a price of energy.
pub fn said_by(record: &HourRecord, rule: fn(&HourRecord, i64) -> Option<i64>) -> HourRecord {
    let mut said = record.clone();
    for interval in &mut said.intervals[..record.count] {
        interval.eop = interval.eop.or_else(|| rule(record, interval.pen));
    }
    said
}

/// How many of an hour's lines leave their points to the curve.
#[derive(Clone, Copy, Debug, PartialEq, Eq)]
pub enum Left {
    /// None of them: the loader has every point.
    None,
    /// Some, drawn one by one.
    Some,
    /// All of them.
    All,
}

/// Leaves points to the curve in half of the hours, for a loader has all of them,
/// some or none.
pub fn leave(rng: &mut Rng, record: &mut HourRecord) {
    let left = rng.pick(&[Left::None, Left::None, Left::Some, Left::All]);
    leave_so(rng, record, left);
}

/// Leaves so many points of an hour to its curve. Their prices of energy often
/// come to lie on the price of a step, or one beside it.
pub fn leave_so(rng: &mut Rng, record: &mut HourRecord, left: Left) {
    let rt = record.rt;
    for interval in &mut record.intervals[..record.count] {
        let leaves = match left {
            Left::None => false,
            Left::Some => rng.once_in(2),
            Left::All => true,
        };
        if leaves {
            interval.eop = None;
            if rng.once_in(2) {
                interval.pen = beside_a_step(rng, &rt).unwrap_or(interval.pen);
            }
        }
    }
}

/// The price of one of the steps, or one beside it.
fn beside_a_step(rng: &mut Rng, curve: &Curve) -> Option<i64> {
    let step = curve.used().get(rng.below(curve.used().len()))?;
    let price = step.at + rng.between(-1, 1);
    Some(price.clamp(PRICE.low, PRICE.high))
}

#[cfg(test)]
mod tests {
    use super::*;
    use crate::hours;

    #[test]
    fn hours_of_every_kind_leave_points_to_the_curve_and_do_not() {
        for make in [hours::plant, hours::storage, hours::small, hours::extreme] {
            let mut seen = [0; 3];
            for index in 0..400 {
                let record = make(&mut Rng::new(6, index));
                let left = record.used().iter().filter(|line| line.eop.is_none());
                let kind = match left.count() {
                    0 => 0,
                    n if n < record.count => 1,
                    _ => 2,
                };
                seen[kind] += 1;
            }
            assert!(seen.iter().all(|hours| *hours > 60), "{seen:?}");
        }
    }

    #[test]
    fn only_lines_that_do_not_lag_ask() {
        let mut record = HourRecord {
            rt: Curve::new(-5, &[(3, 10), (9, 20)]),
            ..HourRecord::default()
        };
        let line = |eop, ae, pen| Interval {
            eop,
            ae,
            pen,
            ..Interval::default()
        };
        record.set_intervals(&[
            line(None, 1, 9),
            line(Some(4), 1, 9),
            line(None, 0, 9),
            line(None, 1, 20),
        ]);
        assert_eq!(of_hour(&record), [Some(-5), Some(9)]);
        let points = said(&record).intervals.map(|interval| interval.eop);
        assert_eq!(points[..4], [Some(-5), Some(4), Some(-5), Some(9)]);
        record.rt = Curve::default();
        assert_eq!(of_hour(&record), [None, None]);
        assert_eq!(said(&record), record);
    }
}

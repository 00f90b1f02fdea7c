//! Stretches of kilowatts that need a price, and the part of a curve that prices
//! them.

use second::derate::{day_ahead_schedules, real_time_schedules, reduced};
use second::energy::{limit, Amounts};
use second::record::{Kind, Record};
use second::{point, Curve, HourRecord, Run, Trace, Way};

/// The kilowatts of a curve that an interval needs a price for.
#[derive(Clone, Copy, Debug, PartialEq, Eq)]
pub struct Priced {
    /// The interval, counted from 0.
    pub interval: usize,
    /// Whether the day-ahead curve prices them, not the real-time curve.
    pub day_ahead: bool,
    /// The first of them.
    pub low: i64,
    /// Where they end; above the first.
    pub high: i64,
}

/// What each interval needs a price for, up to one that is refused for its point
/// or its derate.
pub fn priced(record: &HourRecord) -> Vec<Priced> {
    let mut priced = Vec::new();
    let day_ahead = day_ahead_schedules(&record.day_ahead);
    for (interval, line) in record.used().iter().enumerate() {
        if line.ae <= line.lim {
            continue;
        }
        let real_time = real_time_schedules(line);
        let Ok(e) = point::of_interval(record, line, &mut Run::quiet(Way::Steps)) else {
            break;
        };
        let Ok(left) = reduced(day_ahead, real_time, line.uol, &mut Trace::off()) else {
            break;
        };
        let (branch, kw) = limit(Amounts::of(left[0], line, e));
        if kw != left[0] {
            priced.push(Priced {
                interval,
                day_ahead: branch.is_lower(),
                low: kw.min(left[0]) as i64,
                high: kw.max(left[0]) as i64,
            });
        }
    }
    priced
}

/// All that one of the curves has to price, from its first kilowatt to its
/// last, if there is any.
pub fn hull(priced: &[Priced], day_ahead: bool) -> Option<(i64, i64)> {
    let of_curve = || priced.iter().filter(|part| part.day_ahead == day_ahead);
    let low = of_curve().map(|part| part.low).min()?;
    let high = of_curve().map(|part| part.high).max()?;
    Some((low, high))
}

/// The part of a real-time curve that has to price this, if anything, and that
/// gives these points as the whole curve does. A point alone takes the kilowatt
/// below it, which is worth its price, or the dear one above the curve's start.
pub fn with_points(
    curve: &Curve,
    priced: Option<(i64, i64)>,
    points: &[Option<i64>],
) -> (i64, i64) {
    let ends = priced.into_iter().flat_map(|(low, high)| [low, high]);
    let mut all: Vec<i64> = ends.chain(points.iter().flatten().copied()).collect();
    all.sort_unstable();
    match (all.first(), all.last()) {
        (Some(low), Some(high)) if low < high => (*low, *high),
        (Some(point), _) if *point > curve.start => (point - 1, *point),
        (Some(point), _) => (*point, point + 1),
        _ => (0, 0),
    }
}

/// One of an hour's two curves.
pub fn curve_of<K: Kind>(record: &mut Record<K>, day_ahead: bool) -> &mut Curve {
    if day_ahead {
        &mut record.da
    } else {
        &mut record.rt
    }
}

/// The last end of a curve.
pub fn end_of(curve: &Curve) -> i64 {
    curve.used().last().map_or(curve.start, |step| step.to)
}

/// The part of a curve from `low` to `high`; an empty curve if there is none.
pub fn trim(curve: &Curve, low: i64, high: i64) -> Curve {
    let low = low.max(curve.start);
    let mut steps: Vec<(i64, i64)> = Vec::new();
    let mut start = curve.start;
    for step in curve.used() {
        if step.to > low && start < high {
            steps.push((step.to.min(high), step.at));
        }
        start = step.to;
    }
    if steps.is_empty() || low >= high {
        return Curve::default();
    }
    Curve::new(low, &steps)
}

#[cfg(test)]
mod tests {
    use super::*;
    use crate::points;

    #[test]
    fn a_trimmed_curve_prices_the_same_kilowatts() {
        let whole = Curve::new(-5, &[(-3, 9), (0, 1), (4, 2), (5, 7)]);
        for low in -7..7 {
            for high in low..7 {
                let part = trim(&whole, low, high);
                assert_eq!(part.fault(), None, "{low} {high} {part:?}");
                for kw in -9..9 {
                    let inside = (low..high).contains(&kw);
                    let price = whole.price(kw.into()).filter(|_| inside);
                    assert_eq!(part.price(kw.into()), price, "{low} {high} {kw}");
                }
            }
        }
    }

    #[test]
    fn a_curve_cut_down_to_its_points_gives_them() {
        for rt in [
            Curve::new(-5, &[(-3, 9), (0, 1), (4, 2), (5, 7)]),
            Curve::new(-5, &[(-3, 1), (0, 2), (4, 7), (5, 9)]),
            Curve::new(2, &[(3, 5)]),
        ] {
            for (one, other) in (0..11).flat_map(|one| (0..11).map(move |other| (one, other))) {
                for priced in [None, Some((-1, 2)), Some((2, 3))] {
                    let points = [one, other].map(|pen| points::found(&rt, pen));
                    // An hour that is paid has all the prices it needs.
                    let priced = priced.filter(|(low, _)| rt.price((*low).into()).is_some());
                    let (low, high) = with_points(&rt, priced, &points);
                    let part = trim(&rt, low, high);
                    let kept = [one, other].map(|pen| points::found(&part, pen));
                    assert_eq!(kept, points, "{part:?} at {one} and {other}");
                }
            }
        }
        assert_eq!(with_points(&Curve::default(), None, &[]), (0, 0));
    }
}

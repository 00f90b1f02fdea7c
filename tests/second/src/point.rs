//! The economic operating point of an interval: what its line says, or else how
//! far the real-time curve is worth running at the price of energy.

use crate::curve::{Curve, Step, Way};
use crate::derate::{day_ahead_schedules, real_time_schedules, reduced};
use crate::record::{HourRecord, Interval};
use crate::refusal::Check;
use crate::trace::{Event, Trace};
use crate::Run;

/// Where an interval's point came from, and how close the price was.
#[derive(Clone, Copy, Debug, PartialEq, Eq, PartialOrd, Ord, Hash)]
pub enum PointKind {
    /// The line says it.
    Said,
    /// The curve's start: its first step is dearer than the price.
    Start,
    /// The end of a step that is not the last.
    Between,
    /// The last end: no step is dearer.
    End,
    /// A step below the point costs just the price.
    AtPrice,
    /// The step above the point costs one more than the price.
    OneAbove,
    /// Above a step that is too dear lies one that is not.
    CheapAbove,
    /// There is no curve to give it: POINT.
    Nowhere,
    /// The same where DERATE would refuse the interval as well.
    NowhereNorDerate,
    /// There is no curve, but the unit lagged and is not asked.
    NowhereLagging,
    /// There is no curve, but the hour is excluded and is not asked.
    NowhereExcluded,
}

impl PointKind {
    /// All of them.
    pub const ALL: [PointKind; 11] = [
        PointKind::Said,
        PointKind::Start,
        PointKind::Between,
        PointKind::End,
        PointKind::AtPrice,
        PointKind::OneAbove,
        PointKind::CheapAbove,
        PointKind::Nowhere,
        PointKind::NowhereNorDerate,
        PointKind::NowhereLagging,
        PointKind::NowhereExcluded,
    ];
}

/// The point of a curve at a price; none without steps. Both ways ask where the
/// first kilowatt lies that costs more than the price: the unit runs up to
/// there, and not through it to cheaper ones above. A kilowatt that costs just
/// the price is still worth running.
pub fn of_curve(curve: &Curve, price: i64, way: Way) -> Option<i128> {
    let end = i128::from(curve.used().last()?.to);
    let dear = match way {
        Way::Steps => lowest_dear_start(curve, price),
        Way::Kilowatts => first_dear_kilowatt(curve, price, end),
    };
    Some(dear.unwrap_or(end))
}

/// The lowest start of all the steps that are dearer than the price.
fn lowest_dear_start(curve: &Curve, price: i64) -> Option<i128> {
    let ends = curve.used().iter().map(|step| step.to);
    let starts = std::iter::once(curve.start).chain(ends);
    let dear = starts.zip(curve.used()).filter(|(_, step)| step.at > price);
    dear.map(|(start, _)| i128::from(start)).min()
}

/// The first kilowatt below the curve's end that is dearer than the price.
fn first_dear_kilowatt(curve: &Curve, price: i64, end: i128) -> Option<i128> {
    let price = i128::from(price);
    let is_dear = |kw: &i128| curve.price(*kw).is_some_and(|at| at > price);
    (i128::from(curve.start)..end).find(is_dear)
}

/// E of an eligible interval that does not lag, or POINT. It is asked whether
/// or not a limit will look at it.
pub fn of_interval(record: &HourRecord, interval: &Interval, run: &mut Run) -> Result<i128, Check> {
    if let Some(said) = interval.eop {
        run.trace.note(Event::Point(PointKind::Said));
        return Ok(i128::from(said));
    }
    let found = of_curve(&record.rt, interval.pen, run.way);
    match found {
        Some(point) => note_found(&record.rt, interval.pen, point, &mut run.trace),
        None => note_nowhere(record, interval, &mut run.trace),
    }
    found.ok_or(Check::Point)
}

fn note_found(curve: &Curve, price: i64, point: i128, trace: &mut Trace) {
    let steps = curve.used().iter();
    let (below, above): (Vec<&Step>, Vec<&Step>) =
        steps.partition(|step| i128::from(step.to) <= point);
    let kind = match (below.is_empty(), above.is_empty()) {
        (true, _) => PointKind::Start,
        (false, false) => PointKind::Between,
        (false, true) => PointKind::End,
    };
    trace.note(Event::Point(kind));
    if below.iter().any(|step| step.at == price) {
        trace.note(Event::Point(PointKind::AtPrice));
    }
    let next = above.first().and_then(|step| step.at.checked_sub(price));
    if next == Some(1) {
        trace.note(Event::Point(PointKind::OneAbove));
    }
    if above.iter().any(|step| step.at <= price) {
        trace.note(Event::Point(PointKind::CheapAbove));
    }
}

fn note_nowhere(record: &HourRecord, interval: &Interval, trace: &mut Trace) {
    trace.note(Event::Point(PointKind::Nowhere));
    let day_ahead = day_ahead_schedules(&record.day_ahead);
    let real_time = real_time_schedules(interval);
    if reduced(day_ahead, real_time, interval.uol, &mut Trace::off()).is_err() {
        trace.note(Event::Point(PointKind::NowhereNorDerate));
    }
}

/// Notes that an interval was not asked for its point, if it could have given
/// none.
pub(crate) fn note_spared(
    record: &HourRecord,
    interval: &Interval,
    kind: PointKind,
    trace: &mut Trace,
) {
    if interval.eop.is_none() && record.rt.used().is_empty() {
        trace.note(Event::Point(kind));
    }
}

#[cfg(test)]
mod tests {
    use super::*;

    /// The point, which both ways have to give alike.
    fn point(start: i64, steps: &[(i64, i64)], price: i64) -> Option<i128> {
        let curve = Curve::new(start, steps);
        let by_steps = of_curve(&curve, price, Way::Steps);
        let by_kilowatts = of_curve(&curve, price, Way::Kilowatts);
        assert_eq!(by_steps, by_kilowatts, "{curve:?} at {price}");
        by_steps
    }

    /// The words of the rule: the largest end of a step such that it and every
    /// step before it cost no more than the price, or the start.
    fn by_the_words(start: i64, steps: &[(i64, i64)], price: i64) -> Option<i128> {
        let fits = |n: &usize| steps[..*n].iter().all(|(_, at)| *at <= price);
        let ends = (1..=steps.len()).filter(fits).map(|n| steps[n - 1].0);
        let point = ends.max().unwrap_or(start);
        (!steps.is_empty()).then_some(point.into())
    }

    /// Every curve of up to so many steps of 1 or 3 kW from the last of these
    /// on, at prices from -1 to 1, dear first steps and falling prices too.
    fn with_more_steps(steps: &[(i64, i64)], from: i64, more: usize) -> Vec<Vec<(i64, i64)>> {
        let mut all = vec![steps.to_vec()];
        if more > 0 {
            for (width, at) in [1, 3]
                .into_iter()
                .flat_map(|w| (-1..=1).map(move |p| (w, p)))
            {
                let longer = [steps, &[(from + width, at)]].concat();
                all.extend(with_more_steps(&longer, from + width, more - 1));
            }
        }
        all
    }

    #[test]
    fn both_ways_give_what_the_words_say() {
        for start in [-4, 0, 5] {
            for steps in with_more_steps(&[], start, 4) {
                for price in -2..=2 {
                    let words = by_the_words(start, &steps, price);
                    assert_eq!(point(start, &steps, price), words, "{steps:?} {price}");
                }
            }
        }
    }

    #[test]
    fn a_curve_without_steps_has_no_point() {
        assert_eq!(point(0, &[], 1_000_000), None);
        assert_eq!(point(7, &[], 0), None);
    }

    #[test]
    fn one_step_is_taken_whole_or_not() {
        assert_eq!(point(10, &[(60, 2000)], 1999), Some(10));
        assert_eq!(point(10, &[(60, 2000)], 2000), Some(60));
        assert_eq!(point(10, &[(60, 2000)], 2001), Some(60));
    }

    #[test]
    fn a_step_at_the_price_is_taken() {
        let steps = [(60, 2000), (90, 3000), (120, 4000)];
        assert_eq!(point(0, &steps, 1999), Some(0));
        assert_eq!(point(0, &steps, 2000), Some(60));
        assert_eq!(point(0, &steps, 2999), Some(60));
        assert_eq!(point(0, &steps, 3000), Some(90));
        assert_eq!(point(0, &steps, 3999), Some(90));
        assert_eq!(point(0, &steps, 4000), Some(120));
        assert_eq!(point(0, &steps, 1_000_000), Some(120));
    }

    #[test]
    fn nothing_is_taken_above_a_dear_first_step() {
        let steps = [(60, 5000), (90, 1000), (120, 6000)];
        for price in [-1_000_000, 999, 1000, 1001, 4999] {
            assert_eq!(point(30, &steps, price), Some(30));
        }
        // Once the first step is worth its price, the second is as well.
        assert_eq!(point(30, &steps, 5000), Some(90));
        assert_eq!(point(30, &steps, 6000), Some(120));
    }

    #[test]
    fn curves_and_prices_may_lie_below_zero() {
        let steps = [(-20, -50), (0, -10), (40, 30)];
        assert_eq!(point(-70, &steps, -51), Some(-70));
        assert_eq!(point(-70, &steps, -50), Some(-20));
        assert_eq!(point(-70, &steps, -10), Some(0));
        assert_eq!(point(-70, &steps, 29), Some(0));
        assert_eq!(point(-70, &steps, 30), Some(40));
    }

    #[test]
    fn steps_behind_the_count_are_no_part_of_it() {
        let mut curve = Curve::new(0, &[(60, 2000), (90, 3000)]);
        curve.count = 1;
        for way in [Way::Steps, Way::Kilowatts] {
            assert_eq!(of_curve(&curve, 3000, way), Some(60));
        }
        curve.count = 0;
        for way in [Way::Steps, Way::Kilowatts] {
            assert_eq!(of_curve(&curve, 3000, way), None);
        }
    }

    #[test]
    fn the_widest_curve() {
        let steps = [(-1_999_999, -1_000_000), (2_000_000, 1_000_000)];
        assert_eq!(point(-2_000_000, &steps, -1_000_000), Some(-1_999_999));
        assert_eq!(point(-2_000_000, &steps, 999_999), Some(-1_999_999));
        assert_eq!(point(-2_000_000, &steps, 1_000_000), Some(2_000_000));
    }
}

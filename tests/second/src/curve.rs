//! Bid curves: what a stretch of kilowatts costs.

use crate::text::{write_pair, Fault, Line, Number, Pairs, ENERGY, PRICE};

/// The most steps a curve can have.
pub const MOST_STEPS: usize = 12;

/// One step of a curve.
#[derive(Clone, Copy, Debug, Default, PartialEq, Eq)]
pub struct Step {
    /// The kW at which the step ends.
    pub to: i64,
    /// Its price.
    pub at: i64,
}

/// A curve as its line says it. Steps behind the count are not part of it.
#[derive(Clone, Copy, Debug, Default, PartialEq, Eq)]
pub struct Curve {
    /// Where the first step starts.
    pub start: i64,
    /// How many steps there are; more than 12 stand in no sheet.
    pub count: usize,
    /// The steps, in their order.
    pub steps: [Step; MOST_STEPS],
}

/// How the cost of a stretch is summed, and the operating point found. Both ways
/// give the same.
#[derive(Clone, Copy, Debug, Default, PartialEq, Eq)]
pub enum Way {
    /// By steps: the kW of the stretch in each step times its price.
    #[default]
    Steps,
    /// Kilowatt by kilowatt: the price of each kW.
    Kilowatts,
}

/// The rules that a curve can break.
#[derive(Clone, Copy, Debug, PartialEq, Eq, PartialOrd, Ord, Hash)]
pub enum CurveFault {
    /// No steps, and yet a start other than 0.
    StartWithoutSteps,
    /// An end that is not above the one before, or above the start.
    Ends,
    /// A price below the one before, from the third step on.
    Prices,
}

impl Curve {
    /// The curve from `start` with these steps as (`to`, `at`). More than 12
    /// are counted, but only the first 12 are held.
    pub fn new(start: i64, steps: &[(i64, i64)]) -> Self {
        let mut curve = Curve {
            start,
            count: steps.len(),
            ..Curve::default()
        };
        for (step, (to, at)) in curve.steps.iter_mut().zip(steps) {
            *step = Step { to: *to, at: *at };
        }
        curve
    }

    /// The steps that the count says.
    pub fn used(&self) -> &[Step] {
        &self.steps[..self.count.min(MOST_STEPS)]
    }

    /// Reads a curve line whose first key is `da` or `rt`.
    pub fn read(line: Line<'_>, key: &str) -> Result<Self, Fault> {
        let mut pairs = Pairs::of(line)?;
        let mut curve = Curve {
            start: pairs.value(key)?,
            ..Curve::default()
        };
        let count = pairs.value::<i64>("n")?;
        let within = usize::try_from(count).ok().filter(|n| *n <= MOST_STEPS);
        curve.count = within.ok_or(Fault::Count)?;
        for step in curve.steps.iter_mut().take(curve.count) {
            step.to = pairs.value("to")?;
            step.at = pairs.value("at")?;
        }
        pairs.end()?;
        Ok(curve)
    }

    /// Appends the curve's line with its LF.
    pub fn write(&self, key: &str, out: &mut String) {
        write_pair(out, key, &self.start);
        out.push_str(&format!(" n={}", self.count));
        for step in self.used() {
            write_pair(out, "to", &step.to);
            write_pair(out, "at", &step.at);
        }
        out.push('\n');
    }

    /// The curve's numbers in their order, each with what it may be.
    pub fn numbers(&self, key: &'static str) -> Vec<Number> {
        let number = |name, value, range| Number {
            line: key,
            key: name,
            value: Some(value),
            range,
        };
        let mut numbers = vec![number(key, self.start, ENERGY)];
        for step in self.used() {
            numbers.push(number("to", step.to, ENERGY));
            numbers.push(number("at", step.at, PRICE));
        }
        numbers
    }

    /// The rule that the curve breaks, if it breaks one.
    pub fn fault(&self) -> Option<CurveFault> {
        let steps = self.used();
        if steps.is_empty() {
            return (self.start != 0).then_some(CurveFault::StartWithoutSteps);
        }
        let starts = std::iter::once(self.start).chain(steps.iter().map(|step| step.to));
        if !starts.zip(steps).all(|(start, step)| start < step.to) {
            return Some(CurveFault::Ends);
        }
        // The first step is the minimum generation block: it may be dearer
        // than the second, so prices are compared from the third on.
        let rising = |pair: &[Step]| pair[0].at <= pair[1].at;
        (!steps.windows(2).skip(1).all(rising)).then_some(CurveFault::Prices)
    }

    /// The price of kilowatt `kw`, the stretch from `kw` to `kw` + 1. None
    /// below the start and none from the last end on: the last price is never
    /// carried past the curve.
    pub fn price(&self, kw: i128) -> Option<i128> {
        if kw < i128::from(self.start) {
            return None;
        }
        let step = self.used().iter().find(|step| kw < i128::from(step.to));
        step.map(|step| i128::from(step.at))
    }

    /// The cost of going from one point to another, or none if a kilowatt
    /// between has no price. Going down, the cost is given back.
    pub fn cost(&self, from: i128, to: i128, way: Way) -> Option<i128> {
        if to < from {
            return Some(-self.cost_up(to, from, way)?);
        }
        self.cost_up(from, to, way)
    }

    fn cost_up(&self, low: i128, high: i128, way: Way) -> Option<i128> {
        match way {
            Way::Steps => self.cost_by_steps(low, high),
            Way::Kilowatts => self.cost_by_kilowatts(low, high),
        }
    }

    fn cost_by_kilowatts(&self, low: i128, high: i128) -> Option<i128> {
        (low..high).map(|kw| self.price(kw)).sum()
    }

    fn cost_by_steps(&self, low: i128, high: i128) -> Option<i128> {
        let mut priced = 0;
        let mut cost = 0;
        let mut start = i128::from(self.start);
        for step in self.used() {
            let end = i128::from(step.to);
            let kilowatts = (high.min(end) - low.max(start)).max(0);
            priced += kilowatts;
            cost += kilowatts * i128::from(step.at);
            start = end;
        }
        // Every kW of the stretch fell into a step, or one had no price.
        (priced == high - low).then_some(cost)
    }
}

#[cfg(test)]
mod tests {
    use super::*;

    fn both(curve: &Curve, from: i128, to: i128) -> Option<i128> {
        let by_steps = curve.cost(from, to, Way::Steps);
        let by_kilowatts = curve.cost(from, to, Way::Kilowatts);
        assert_eq!(by_steps, by_kilowatts, "{curve:?} from {from} to {to}");
        by_steps
    }

    #[test]
    fn a_kilowatt_has_a_price_from_the_start_to_below_the_last_end() {
        let curve = Curve::new(-2, &[(1, 50), (4, -7)]);
        let prices: Vec<_> = (-4..6).map(|kw| curve.price(kw)).collect();
        let (mingen, second) = (Some(50), Some(-7));
        assert_eq!(
            prices,
            [None, None, mingen, mingen, mingen, second, second, second, None, None]
        );
        assert_eq!(Curve::new(0, &[]).price(0), None);
    }

    #[test]
    fn both_ways_agree_on_every_stretch_of_many_curves() {
        for curve in [
            Curve::new(0, &[]),
            Curve::new(0, &[(1, 5)]),
            Curve::new(-9, &[(9, -3)]),
            Curve::new(-12, &[(-3, 900), (0, -20), (1, -20), (12, 30)]),
            Curve::new(5, &[(6, 1), (7, 0), (8, 1), (9, 2), (10, 3), (14, 5)]),
        ] {
            for from in -15..=15 {
                for to in -15..=15 {
                    let up = both(&curve, from, to);
                    let down = both(&curve, to, from);
                    assert_eq!(up, down.map(|cost| -cost));
                }
            }
        }
    }

    #[test]
    fn both_ways_agree_on_a_long_stretch() {
        let curve = Curve::new(-200_000, &[(-150_000, 9), (1, -1_000_000), (200_000, 77)]);
        assert!(both(&curve, -200_000, 200_000).is_some());
        assert_eq!(both(&curve, -200_001, 200_000), None);
        assert_eq!(both(&curve, -200_000, 200_001), None);
    }

    #[test]
    fn an_empty_stretch_needs_no_curve() {
        let none = Curve::new(0, &[]);
        assert_eq!(both(&none, 7, 7), Some(0));
        assert_eq!(both(&none, 0, 1), None);
        assert_eq!(both(&none, -1, 0), None);
    }

    #[test]
    fn a_downward_cost_is_given_back() {
        let curve = Curve::new(0, &[(10, 4)]);
        assert_eq!(both(&curve, 2, 5), Some(12));
        assert_eq!(both(&curve, 5, 2), Some(-12));
    }

    #[test]
    fn the_rules_of_a_curve() {
        let fault = |start, steps: &[(i64, i64)]| Curve::new(start, steps).fault();
        assert_eq!(fault(0, &[]), None);
        assert_eq!(fault(1, &[]), Some(CurveFault::StartWithoutSteps));
        assert_eq!(fault(-1, &[]), Some(CurveFault::StartWithoutSteps));
        assert_eq!(fault(0, &[(0, 5)]), Some(CurveFault::Ends));
        assert_eq!(fault(5, &[(4, 5)]), Some(CurveFault::Ends));
        assert_eq!(fault(5, &[(6, 5)]), None);
        assert_eq!(fault(0, &[(6, 5), (6, 5)]), Some(CurveFault::Ends));
        assert_eq!(fault(0, &[(6, 5), (5, 5)]), Some(CurveFault::Ends));
        assert_eq!(fault(0, &[(6, 5), (7, 4)]), None);
        assert_eq!(fault(0, &[(6, 5), (7, 4), (8, 4)]), None);
        let falling = [(6, 5), (7, 4), (8, 3)];
        assert_eq!(fault(0, &falling), Some(CurveFault::Prices));
        let falling_later = [(6, 5), (7, 4), (8, 6), (9, 5)];
        assert_eq!(fault(0, &falling_later), Some(CurveFault::Prices));
    }
}

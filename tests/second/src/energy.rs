//! The energy contribution of one interval (25.3.1.1 and the limits of 25.3.4).

use crate::curve::Curve;
use crate::record::Interval;
use crate::refusal::Check;
use crate::trace::{Branch, Event, Term, Trace};
use crate::Run;

/// The four amounts that decide an interval's limit, in kW.
#[derive(Clone, Copy, Debug, PartialEq, Eq)]
pub struct Amounts {
    /// D: the day-ahead schedule, as the derate left it.
    pub d: i128,
    /// R: the real-time schedule.
    pub r: i128,
    /// A: the actual energy, capped.
    pub a: i128,
    /// E: the economic operating point.
    pub e: i128,
}

impl Amounts {
    /// The amounts of an interval with the day-ahead schedule `d` and the
    /// economic operating point `e`.
    pub fn of(d: i128, interval: &Interval, e: i128) -> Self {
        Amounts {
            d,
            r: i128::from(interval.en),
            a: actual(interval),
            e,
        }
    }
}

/// The actual energy of a unit that injects counts only up to its schedule
/// and the overgeneration it is compensated for.
fn actual(interval: &Interval) -> i128 {
    let actual = i128::from(interval.ae);
    let scheduled = i128::from(interval.en);
    if scheduled > 0 {
        actual.min(scheduled + i128::from(interval.co))
    } else {
        actual
    }
}

/// The limit LL or UL of an interval and the rule that gave it.
pub fn limit(amounts: Amounts) -> (Branch, i128) {
    let Amounts { d, r, .. } = amounts;
    let reduced = (d > 0 && r < d) || (d < 0 && r > d);
    if reduced {
        lower(amounts)
    } else {
        upper(amounts)
    }
}

fn lower(Amounts { d, r, a, e }: Amounts) -> (Branch, i128) {
    if d < 0 {
        (Branch::LowerWithdraw, d.max(a).max(e).min(r).min(0))
    } else if r < e {
        let met = r.max(a.min(e));
        (Branch::LowerInjectBelowEop, met.min(d).max(0))
    } else {
        let met = r.min(a.max(e));
        (Branch::LowerInjectFromEop, met.min(d).max(0))
    }
}

fn upper(Amounts { d, r, a, e }: Amounts) -> (Branch, i128) {
    let injects = d > 0 || (d == 0 && r > 0);
    let withdraws = d < 0 || (d == 0 && r < 0);
    if injects && r >= e && e >= d {
        (Branch::UpperInjectEopBetween, r.min(a.max(e)))
    } else if injects {
        (Branch::UpperInjectOther, r.max(a.min(e)))
    } else if withdraws {
        (Branch::UpperWithdraw, r.min(a.max(e)))
    } else {
        (Branch::UpperNothing, 0)
    }
}

/// The grains of one interval's energy, or REACH.
///
/// A reduction is bought back at the real-time price while the day-ahead bid
/// cost of the same kW is saved; an increase is sold at the real-time price
/// and costs the real-time bid, and only its gain is set against the rest, as
/// a negative amount.
pub fn contribution(
    amounts: Amounts,
    interval: &Interval,
    da: &Curve,
    rt: &Curve,
    run: &mut Run,
) -> Result<i128, Check> {
    let d = amounts.d;
    let (branch, limit) = limit(amounts);
    note(amounts, interval, branch, limit, &mut run.trace);
    let bought_back = (d - limit) * i128::from(interval.pen);
    let seconds = i128::from(interval.s);
    if branch.is_lower() {
        let saved = da.cost(limit, d, run.way).ok_or(Check::Reach)?;
        return Ok((bought_back - saved) * seconds);
    }
    let cost = rt.cost(d, limit, run.way).ok_or(Check::Reach)?;
    let grains = (bought_back + cost) * seconds;
    run.trace.note(Event::Upper(grains.cmp(&0)));
    Ok(grains.min(0))
}

fn note(amounts: Amounts, interval: &Interval, branch: Branch, limit: i128, trace: &mut Trace) {
    if amounts.a != i128::from(interval.ae) {
        trace.note(Event::Capped);
    }
    trace.note(Event::Limit(branch));
    trace.note(Event::Stretch(branch, limit.cmp(&amounts.d)));
    let terms = [
        (Term::DayAhead, amounts.d),
        (Term::RealTime, amounts.r),
        (Term::Actual, amounts.a),
        (Term::Economic, amounts.e),
        (Term::Zero, 0),
    ];
    let mut met = terms.iter().filter(|(_, kw)| *kw == limit);
    if let (Some((term, _)), None) = (met.next(), met.next()) {
        trace.note(Event::Lands(branch, *term));
    }
}

#[cfg(test)]
mod tests {
    use super::*;

    /// Another way to the same limits. Where the economic point bounds the
    /// schedule, a limit is the actual energy held between R and E; a lower
    /// one also stays between nothing and D.
    fn limit_by_medians(Amounts { d, r, a, e }: Amounts) -> i128 {
        let held = a.clamp(r.min(e), r.max(e));
        if d > 0 && r < d {
            return held.clamp(0, d);
        }
        if d < 0 && r > d {
            return d.max(a.max(e).min(r).min(0));
        }
        let injects = d > 0 || r > 0;
        match (injects, d == 0 && r == 0) {
            (_, true) => 0,
            (true, _) if e < d => r,
            (true, _) => held,
            (false, _) => {
                if a <= r && e <= r {
                    a.max(e)
                } else {
                    r
                }
            }
        }
    }

    #[test]
    fn limits_agree_with_another_way_to_them() {
        let mut seen = std::collections::BTreeSet::new();
        for d in -5..=5 {
            for r in -5..=5 {
                for a in -6..=6 {
                    for e in -6..=6 {
                        let amounts = Amounts { d, r, a, e };
                        let (branch, kw) = limit(amounts);
                        assert_eq!(kw, limit_by_medians(amounts), "{amounts:?}");
                        seen.insert(branch);
                    }
                }
            }
        }
        assert_eq!(seen.len(), Branch::ALL.len());
    }

    #[test]
    fn rules_at_their_edges() {
        let branch = |d, r, e| limit(Amounts { d, r, a: 3, e }).0;
        assert_eq!(branch(9, 5, 6), Branch::LowerInjectBelowEop);
        assert_eq!(branch(9, 5, 5), Branch::LowerInjectFromEop);
        assert_eq!(branch(9, 9, 9), Branch::UpperInjectEopBetween);
        assert_eq!(branch(9, 12, 9), Branch::UpperInjectEopBetween);
        assert_eq!(branch(9, 12, 8), Branch::UpperInjectOther);
        assert_eq!(branch(9, 12, 12), Branch::UpperInjectEopBetween);
        assert_eq!(branch(9, 12, 13), Branch::UpperInjectOther);
        assert_eq!(branch(0, 1, 0), Branch::UpperInjectEopBetween);
        assert_eq!(branch(0, 0, 7), Branch::UpperNothing);
        assert_eq!(branch(0, -1, 7), Branch::UpperWithdraw);
        assert_eq!(branch(-9, -9, 7), Branch::UpperWithdraw);
        assert_eq!(branch(-9, -8, 7), Branch::LowerWithdraw);
        assert_eq!(branch(-9, 8, 7), Branch::LowerWithdraw);
    }

    /// A limit never lies behind the day-ahead schedule: a reduction goes
    /// toward nothing, an increase away from it.
    #[test]
    fn limits_lie_on_their_side_of_the_schedule() {
        for d in -5..=5_i128 {
            for r in -5..=5 {
                for a in -6..=6 {
                    for e in -6..=6 {
                        let (branch, kw) = limit(Amounts { d, r, a, e });
                        let in_place = match (branch.is_lower(), d.signum()) {
                            (true, 1) => 0 <= kw && kw <= d,
                            (true, _) => d <= kw && kw <= 0,
                            (false, 1) => d <= kw,
                            (false, 0) => kw * r >= 0,
                            (false, _) => kw <= d,
                        };
                        assert!(in_place, "D {d} R {r} A {a} E {e}: {branch:?} {kw}");
                    }
                }
            }
        }
    }

    #[test]
    fn actual_energy_is_capped_only_for_an_injection() {
        let actual_of = |en, ae, co| {
            actual(&Interval {
                en,
                ae,
                co,
                ..Interval::default()
            })
        };
        assert_eq!(actual_of(50, 70, 3), 53);
        assert_eq!(actual_of(50, 53, 3), 53);
        assert_eq!(actual_of(50, 20, 3), 20);
        assert_eq!(actual_of(0, 70, 3), 70);
        assert_eq!(actual_of(-5, 70, 3), 70);
    }
}

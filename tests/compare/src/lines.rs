//! Hours of internal controllable lines as records: cables that inject, cables
//! that go both ways, hours of few kilowatts and hours at the ends of every
//! range.

use second::line::branch;
use second::text::{ENERGY, HOUR, PRICE};
use second::{LineAhead, LineBranch, LineInterval, LineRecord};

use crate::hours::{self, bids, market_price, point, Draw};
use crate::random::Rng;
use crate::stretches::Priced;

/// An hour of any kind, with curves that reach for the most part.
pub fn any(rng: &mut Rng) -> LineRecord {
    match rng.below(4) {
        0 => cable(rng),
        1 => two_way(rng),
        2 => small(rng),
        _ => extreme(rng),
    }
}

/// An hour of a cable that only injects at its one end.
pub fn cable(rng: &mut Rng) -> LineRecord {
    let capacity = 1000 * rng.between(5, 900);
    market(rng, 0, capacity)
}

/// An hour of a cable that goes both ways: its curves start below 0.
pub fn two_way(rng: &mut Rng) -> LineRecord {
    let capacity = 1000 * rng.between(1, 300);
    market(rng, -capacity, capacity)
}

/// An hour of a few kilowatts, where amounts often meet. Its prices are few, too,
/// but in most hours so large that a kilowatt can be seen in the cents.
pub fn small(rng: &mut Rng) -> LineRecord {
    let draw = Draw::few(rng);
    let mut record = loose(rng, draw);
    let times = rng.pick(&[1, 4_000, 60_000, 300_000]);
    for curve in [&mut record.da, &mut record.rt] {
        curve.steps.iter_mut().for_each(|step| step.at *= times);
    }
    for interval in &mut record.intervals {
        interval.pin *= times;
        interval.pout *= times;
    }
    record
}

/// An hour whose numbers lie at the ends of their ranges.
pub fn extreme(rng: &mut Rng) -> LineRecord {
    loose(rng, Draw::ENDS)
}

/// The record with these intervals.
pub fn with_intervals(mut record: LineRecord, row: &[LineInterval]) -> LineRecord {
    record.set_intervals(row);
    record
}

/// A cable that is bid from `low` to `high` and scheduled between.
fn market(rng: &mut Rng, low: i64, high: i64) -> LineRecord {
    let (da, rt, points) = bids(rng, low, high);
    let dasi = point(rng, low, high, &points);
    let record = LineRecord {
        day_ahead: LineAhead {
            hour: rng.within(HOUR),
            dasi,
            dasw: with_losses(rng, dasi),
        },
        da,
        rt,
        ..LineRecord::default()
    };
    let count = hours::count(rng);
    let row: Vec<LineInterval> = hours::seconds(rng, count)
        .into_iter()
        .map(|s| market_interval(rng, s, &record.day_ahead, &points))
        .collect();
    with_intervals(record, &row)
}

/// What is withdrawn where so much is injected: some more of it.
fn with_losses(rng: &mut Rng, injected: i64) -> i64 {
    let losses = injected.abs() * rng.between(0, 40) / 1000;
    (injected + losses).clamp(ENERGY.low, ENERGY.high)
}

/// An interval of a cable whose prices change at these points, of which the
/// first two are its ends.
fn market_interval(rng: &mut Rng, s: i64, ahead: &LineAhead, points: &[i64]) -> LineInterval {
    let (low, high) = (points[0], points[1]);
    let ramp = high / 10;
    let near = |rng: &mut Rng, kw: i64| (kw + rng.between(-ramp, ramp)).clamp(low, high);
    let en = match rng.below(6) {
        0 | 1 => ahead.dasi,
        2 => 0,
        3 | 4 => near(rng, ahead.dasi),
        _ => point(rng, low, high, points),
    };
    let aei = match rng.below(5) {
        0 | 1 => en,
        2 => ahead.dasi,
        3 => near(rng, en),
        _ => point(rng, low, high, points),
    };
    let aew = match rng.below(4) {
        0 => ahead.dasw,
        1 => near(rng, aei),
        _ => with_losses(rng, aei),
    };
    let pin = market_price(rng);
    let pout = match rng.below(3) {
        0 => market_price(rng),
        _ => (pin + rng.between(-3_000, 3_000)).clamp(PRICE.low, PRICE.high),
    };
    LineInterval {
        s,
        en,
        aei,
        aew,
        pin,
        pout,
    }
}

/// An hour whose numbers have nothing to do with each other, apart from those
/// that are as day-ahead.
fn loose(rng: &mut Rng, draw: Draw) -> LineRecord {
    let ahead = LineAhead {
        hour: rng.edge(HOUR),
        dasi: draw.of(rng, draw.energy),
        dasw: draw.of(rng, draw.energy),
    };
    let record = LineRecord {
        day_ahead: ahead,
        da: draw.curve(rng),
        rt: draw.curve(rng),
        ..LineRecord::default()
    };
    let energy = |rng: &mut Rng, as_ahead: i64| match rng.below(5) {
        0 => as_ahead,
        _ => draw.of(rng, draw.energy),
    };
    let count = hours::count(rng);
    let row: Vec<LineInterval> = hours::seconds(rng, count)
        .into_iter()
        .map(|s| LineInterval {
            s,
            en: energy(rng, ahead.dasi),
            aei: energy(rng, ahead.dasi),
            aew: energy(rng, ahead.dasw),
            pin: draw.of(rng, draw.price),
            pout: draw.of(rng, draw.price),
        })
        .collect();
    with_intervals(record, &row)
}

/// An hour whose curves reach everywhere.
pub fn reaching(rng: &mut Rng) -> LineRecord {
    let draw = |rng: &mut Rng| rng.between(-20_000, 20_000);
    LineRecord {
        da: hours::curve(rng, ENERGY.low, ENERGY.high, draw),
        rt: hours::curve(rng, ENERGY.low, ENERGY.high, draw),
        ..any(rng)
    }
}

/// An interval of this hour that is as day-ahead: it asks for no curve and
/// contributes 0.
pub fn still(ahead: &LineAhead, s: i64) -> LineInterval {
    LineInterval {
        s,
        en: ahead.dasi,
        aei: ahead.dasi,
        aew: ahead.dasw,
        ..LineInterval::default()
    }
}

/// What each interval needs a price for.
pub fn priced(record: &LineRecord) -> Vec<Priced> {
    let ahead = &record.day_ahead;
    let intervals = record.used().iter().enumerate();
    let moved = intervals.filter(|(_, line)| line.aei != ahead.dasi);
    let priced = moved.map(|(interval, line)| Priced {
        interval,
        day_ahead: branch(ahead, line) == LineBranch::Lower,
        low: line.aei.min(ahead.dasi),
        high: line.aei.max(ahead.dasi),
    });
    priced.collect()
}

#[cfg(test)]
mod tests {
    use super::*;
    use crate::stretches::{curve_of, trim};
    use second::record::MOST_INTERVALS;
    use second::{hour, Answer, Ask, Check, Curve, Run};

    fn answer(record: &LineRecord) -> Answer {
        let row = &mut [0; MOST_INTERVALS];
        hour::judge_record(record, Ask::default(), row, &mut Run::default())
    }

    #[test]
    fn many_hours_are_paid_and_none_is_refused_before_its_intervals() {
        for make in [cable, two_way, small, extreme] {
            let (mut paid, mut cents) = (0, 0);
            for index in 0..300 {
                match answer(&make(&mut Rng::new(5, index))) {
                    Answer::Paid(hour) => {
                        paid += 1;
                        cents += usize::from(hour.grains > 0);
                    }
                    Answer::Refused(refusal) => assert_eq!(refusal.check, Check::Reach),
                }
            }
            assert!(paid > 100, "{paid} of 300");
            assert!(cents > 30, "{cents} of 300 make something");
        }
    }

    #[test]
    fn hours_that_reach_are_paid() {
        for index in 0..300 {
            let record = reaching(&mut Rng::new(6, index));
            assert!(hours::is_paid(&record), "{record:?}");
        }
    }

    #[test]
    fn first_steps_are_dear_and_curves_start_below_zero() {
        let (mut dear, mut below) = (0, 0);
        for index in 0..400 {
            let record = any(&mut Rng::new(7, index));
            for curve in [record.da, record.rt] {
                let dearer = |steps: &[second::Step]| steps[0].at > steps[1].at;
                dear += usize::from(curve.used().get(..2).is_some_and(dearer));
                below += usize::from(curve.start < 0);
            }
        }
        assert!(dear > 200, "{dear} of 800");
        assert!(below > 300, "{below} of 800");
    }

    #[test]
    fn still_intervals_contribute_nothing_and_ask_for_nothing() {
        for index in 0..200 {
            let mut record = any(&mut Rng::new(9, index));
            let row = [900; 4].map(|s| still(&record.day_ahead, s));
            record.set_intervals(&row);
            record.da = Curve::default();
            record.rt = Curve::default();
            assert_eq!(priced(&record), []);
            assert_eq!(answer(&record).cents(), Some(0), "{record:?}");
        }
    }

    #[test]
    fn what_is_priced_is_what_is_asked_for() {
        // Curves that are cut down to it reach, and none that is one shorter.
        for index in 0..200 {
            let rng = &mut Rng::new(10, index);
            let record = reaching(rng);
            for part in priced(&record) {
                let mut one = record.clone();
                let mut row = [900; 4].map(|s| still(&record.day_ahead, s));
                row[2] = LineInterval {
                    s: 900,
                    ..record.intervals[part.interval]
                };
                one.set_intervals(&row);
                for (low, high, paid) in [(0, 0, true), (1, 0, false), (0, 1, false)] {
                    let mut cut = one.clone();
                    let curve = curve_of(&mut cut, part.day_ahead);
                    *curve = trim(curve, part.low + low, part.high - high);
                    *curve_of(&mut cut, !part.day_ahead) = Curve::default();
                    assert_eq!(hours::is_paid(&cut), paid, "{cut:?}");
                }
            }
        }
    }
}

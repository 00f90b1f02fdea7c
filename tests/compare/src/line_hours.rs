//! Hours of internal controllable lines that are made to show something: what
//! they pay, the largest amounts, the rounding and the cap.

use second::hour::judge_record;
use second::line::branch;
use second::record::MOST_INTERVALS;
use second::text::{ENERGY, HOUR, PRICE};
use second::{Answer, Ask, Curve, Run, Way, GRAINS_PER_CENT};
use second::{LineAhead, LineInterval, LineRecord};

use crate::hours;
use crate::lines::{still, with_intervals};
use crate::random::Rng;

/// An hour of 100 kW day-ahead that is neither scheduled nor run in its first
/// quarter: it pays as many cents as its number, and one.
pub fn paying(hour: usize) -> LineRecord {
    let ahead = LineAhead {
        hour: hour as i64,
        dasi: 100,
        dasw: 0,
    };
    let record = LineRecord {
        day_ahead: ahead,
        da: Curve::new(0, &[(100, 10)]),
        ..LineRecord::default()
    };
    let on = still(&ahead, 900);
    let off = LineInterval {
        en: 0,
        aei: 0,
        pin: 10 + 40 * (hour as i64 + 1),
        ..on
    };
    with_intervals(record, &[off, on, on, on])
}

/// Every part at the ends of its ranges that give, or take, the most.
pub fn largest(rng: &mut Rng) -> LineRecord {
    let gives = rng.once_in(2);
    let (low, high) = (ENERGY.low, ENERGY.high);
    let (most, least) = if gives { (high, low) } else { (low, high) };
    let price = rng.pick(&[PRICE.high, PRICE.low]);
    let curve = Curve::new(low, &[(high, -price)]);
    let ahead = LineAhead {
        hour: rng.within(HOUR),
        dasi: most,
        dasw: least,
    };
    let record = LineRecord {
        day_ahead: ahead,
        da: curve,
        rt: curve,
        ..LineRecord::default()
    };
    let count = rng.pick(&[4, MOST_INTERVALS]);
    let row: Vec<LineInterval> = hours::seconds(rng, count)
        .into_iter()
        .map(|s| LineInterval {
            s,
            en: rng.pick(&[low, high, 0]),
            aei: least,
            aew: most,
            pin: price,
            pout: price,
        })
        .collect();
    with_intervals(record, &row)
}

/// An interval that brings what one kilowatt more of its withdrawal costs, as
/// less was scheduled than day-ahead; no curve is asked.
fn brings(ahead: &LineAhead, s: i64, pout: i64) -> LineInterval {
    LineInterval {
        en: ahead.dasi - 1,
        aew: ahead.dasw + 1,
        pout,
        ..still(ahead, s)
    }
}

/// Day-ahead schedules of a few kilowatts.
fn few(rng: &mut Rng) -> LineAhead {
    LineAhead {
        hour: rng.within(HOUR),
        dasi: rng.between(-50, 50),
        dasw: rng.between(-50, 50),
    }
}

/// An hour of so many halves of a cent and no grain, or one grain more or less;
/// its intervals hold parts of cents.
pub fn around_a_cent(rng: &mut Rng) -> LineRecord {
    let halves = hours::halves(rng);
    let grain = rng.between(-1, 1);
    let ahead = few(rng);
    // One kilowatt at 2000 cents for 900 seconds is half a cent; three quarters
    // of each come from another interval than the rest.
    let mut row = vec![
        brings(&ahead, 900, 1500 * halves),
        brings(&ahead, 900, 500 * halves),
        brings(&ahead, 1, grain),
        still(&ahead, 899),
        still(&ahead, 900),
    ];
    rng.shuffle(&mut row);
    let record = LineRecord {
        day_ahead: ahead,
        ..LineRecord::default()
    };
    with_intervals(record, &row)
}

/// An hour of so many cents and a half, or a grain less, and intervals that make
/// little or nothing before there is a cap. If that were not there, or not on the
/// whole, another cent would be the nearest.
pub fn around_the_cap(rng: &mut Rng) -> LineRecord {
    let ahead = few(rng);
    let price = |rng: &mut Rng| rng.between(-20_000, 20_000);
    let record = LineRecord {
        day_ahead: ahead,
        da: hours::curve(rng, -90, 90, price),
        rt: hours::curve(rng, -90, 90, price),
        ..LineRecord::default()
    };
    let mut row = vec![
        brings(&ahead, 900, 2000 * rng.pick(&[1, 3, 491])),
        brings(&ahead, 1, rng.between(-1, 0)),
    ];
    for s in [900, 900, 899] {
        row.push(at_cap(rng, &record, s));
    }
    rng.shuffle(&mut row);
    with_intervals(record, &row)
}

/// An interval whose withdrawal takes what its injection makes, apart from a
/// grain a second or somewhat more.
fn at_cap(rng: &mut Rng, record: &LineRecord, s: i64) -> LineInterval {
    let ahead = record.day_ahead;
    let mut interval = LineInterval {
        en: ahead.dasi - rng.pick(&[0, 0, 0, -1, 1]),
        aei: ahead.dasi + rng.between(-9, 9),
        pin: rng.between(-20_000, 20_000),
        ..still(&ahead, s)
    };
    let curve = branch(&ahead, &interval).curve(record);
    let (from, to) = (ahead.dasi.into(), interval.aei.into());
    let cost = curve.cost(from, to, Way::Steps).unwrap_or(0) as i64;
    let made = (ahead.dasi - interval.aei) * interval.pin + cost;
    let left = rng.pick(&[-1, 0, 1, 1, -30_000, 30_000]);
    let more = rng.pick(&[-1, 1]);
    interval.aew = ahead.dasw + more;
    interval.pout = more * (left - made);
    interval
}

/// The hour with one interval that brings so much that it pays, if that can be:
/// an hour pays nothing for a loss, so that only then is it seen what the others
/// take away.
pub fn lifted(rng: &mut Rng, mut record: LineRecord) -> LineRecord {
    let (ahead, count) = (record.day_ahead, record.count);
    let longest = |at: &usize| record.intervals[*at].s;
    let at = (0..count).max_by_key(longest).unwrap_or(0);
    let s = record.intervals[at].s;
    let mut rest = record.clone();
    rest.intervals[at] = still(&ahead, s);
    let row = &mut [0; MOST_INTERVALS];
    let run = &mut Run::quiet(Way::Steps);
    let Answer::Paid(paid) = judge_record(&rest, Ask::default(), row, run) else {
        return record;
    };
    let cents = rng.pick(&[1, 20, 1_000]) * GRAINS_PER_CENT;
    let each_second = (cents - paid.grains.min(0)) / i128::from(s) + 1;
    let price = i128::from(rng.pick(&[PRICE.high, PRICE.high, 40_000]));
    let kilowatts = (each_second / price + 1) as i64;
    if kilowatts > ENERGY.high - ahead.dasw || ahead.dasi == ENERGY.low {
        return record;
    }
    record.intervals[at] = LineInterval {
        aew: ahead.dasw + kilowatts,
        ..brings(&ahead, s, (each_second / i128::from(kilowatts) + 1) as i64)
    };
    record
}

#[cfg(test)]
mod tests {
    use super::*;
    use crate::lines;
    use second::{Event, LineEvent};
    use std::cmp::Ordering;

    /// The answers to so many hours, and what they reached.
    fn answers(make: fn(&mut Rng) -> LineRecord, hours: u64) -> (Vec<Answer>, Run) {
        let mut run = Run::new(Way::Steps);
        let mut judge = |index| {
            let record = make(&mut Rng::new(8, index));
            let row = &mut [0; MOST_INTERVALS];
            judge_record(&record, Ask::default(), row, &mut run)
        };
        ((0..hours).map(&mut judge).collect(), run)
    }

    fn sums(answers: &[Answer]) -> Vec<i128> {
        let sum = |answer: &Answer| match answer {
            Answer::Paid(paid) => paid.grains,
            Answer::Refused(refusal) => panic!("{refusal}"),
        };
        answers.iter().map(sum).collect()
    }

    #[test]
    fn lifted_hours_pay_for_the_most_part() {
        let of = |make: fn(&mut Rng) -> LineRecord| {
            let (answers, run) = answers(make, 300);
            let paid = answers.iter().filter(|a| a.cents() > Some(0)).count();
            (
                paid,
                run.trace
                    .count(Event::Line(LineEvent::Schedule(Ordering::Greater))),
            )
        };
        let (plain, _) = of(lines::any);
        let (paid, others) = of(|rng| {
            let record = lines::any(rng);
            lifted(rng, record)
        });
        assert!(paid > 180 && paid > plain + 60, "{paid} and {plain} of 300");
        assert!(others > 300, "{others} intervals above day-ahead");
    }

    #[test]
    fn hours_hold_the_largest_amounts() {
        let sums = sums(&answers(largest, 60).0);
        let most = 12_000_000_000_000 * 3600;
        assert_eq!(sums.iter().max(), Some(&most));
        assert_eq!(sums.iter().min(), Some(&-most));
    }

    #[test]
    fn hours_lie_around_the_cap() {
        let (answers, run) = answers(around_the_cap, 100);
        // Nothing but the cap may keep a sum at half a cent, or just below it.
        let sums = sums(&answers);
        for sum in [1_800_000, 1_799_999, 1_800_000 - 900] {
            assert!(sums.contains(&sum), "{sum}");
        }
        for (injection, whole) in [
            (Ordering::Greater, Ordering::Less),
            (Ordering::Less, Ordering::Greater),
            (Ordering::Less, Ordering::Equal),
            (Ordering::Greater, Ordering::Equal),
        ] {
            let event = Event::Line(LineEvent::Cap { injection, whole });
            assert!(run.trace.saw(event), "{event:?}");
        }
        assert!(run
            .trace
            .saw(Event::Line(LineEvent::Lower(Ordering::Greater))));
    }
}

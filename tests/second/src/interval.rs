//! The contribution of one interval: energy, reserves, regulation, movement.

use std::cmp::Ordering;

use crate::derate::{day_ahead_schedules, real_time_schedules, reduced};
use crate::energy::{self, Amounts};
use crate::point::{self, PointKind};
use crate::record::{HourRecord, Interval};
use crate::refusal::Check;
use crate::trace::{Event, Trace};
use crate::Run;

/// One kW of movement at one cent per MW is 3,600 grains, whatever the seconds.
const GRAINS_OF_MOVEMENT: i128 = 3600;

/// The grains of one interval of an eligible hour, or POINT, DERATE or REACH, of
/// which the first stands.
pub fn contribution(
    record: &HourRecord,
    interval: &Interval,
    run: &mut Run,
) -> Result<i128, Check> {
    if lags(interval, &mut run.trace) {
        let spared = PointKind::NowhereLagging;
        point::note_spared(record, interval, spared, &mut run.trace);
        return Ok(0);
    }
    let e = point::of_interval(record, interval, run)?;
    let day_ahead = day_ahead_schedules(&record.day_ahead);
    let real_time = real_time_schedules(interval);
    let left = reduced(day_ahead, real_time, interval.uol, &mut run.trace)?;
    let [en, reg, r1, r2, r3] = left;
    let amounts = Amounts::of(en, interval, e);
    let energy = energy::contribution(amounts, interval, &record.da, &record.rt, run)?;
    let reserves = reserves(record, interval, [r1, r2, r3], &mut run.trace);
    let regulation = regulation(record, interval, reg, &mut run.trace);
    Ok(energy + reserves + regulation - movement(interval, &mut run.trace))
}

/// A unit whose actual energy is at or below its limit lags behind its base
/// points: the interval is eligible for nothing, be it gain or loss. The raw
/// actual energy counts, without a cap.
fn lags(interval: &Interval, trace: &mut Trace) -> bool {
    let against_limit = interval.ae.cmp(&interval.lim);
    let lags = against_limit != Ordering::Greater;
    if lags {
        trace.note(Event::Lagging(against_limit));
    }
    lags
}

/// All three reserves: a reduction is made good at the price less the bid, an
/// increase is set against it at the full price.
fn reserves(
    record: &HourRecord,
    interval: &Interval,
    day_ahead: [i128; 3],
    trace: &mut Trace,
) -> i128 {
    let line = &record.day_ahead;
    let products = [
        (interval.r1, interval.p1, line.b1),
        (interval.r2, interval.p2, line.b2),
        (interval.r3, interval.p3, line.b3),
    ];
    let mut grains = 0;
    for (i, (real_time, price, bid)) in products.into_iter().enumerate() {
        let real_time = i128::from(real_time);
        let side = real_time.cmp(&day_ahead[i]);
        let margin = match side {
            Ordering::Less => i128::from(price) - i128::from(bid),
            _ => i128::from(price),
        };
        grains += (day_ahead[i] - real_time) * margin * i128::from(interval.s);
        trace.note(Event::Reserve(i + 1, side));
    }
    grains
}

/// Regulation capacity: a reduction at the price less the day-ahead bid, an
/// increase at what the price leaves above the real-time bid, if anything.
fn regulation(
    record: &HourRecord,
    interval: &Interval,
    day_ahead: i128,
    trace: &mut Trace,
) -> i128 {
    let real_time = i128::from(interval.reg);
    let price = i128::from(interval.preg);
    let side = real_time.cmp(&day_ahead);
    trace.note(Event::Regulation(side));
    let margin = if side == Ordering::Less {
        price - i128::from(record.day_ahead.breg)
    } else {
        let above_bid = price - i128::from(interval.breg);
        if side == Ordering::Greater && above_bid <= 0 {
            trace.note(Event::RegulationFloor);
        }
        above_bid.max(0)
    };
    (day_ahead - real_time) * margin * i128::from(interval.s)
}

/// What regulation movement earned above its bid: set against the payment.
fn movement(interval: &Interval, trace: &mut Trace) -> i128 {
    let above_bid = i128::from(interval.pmv) - i128::from(interval.bmv);
    let grains = i128::from(interval.mv) * above_bid.max(0) * GRAINS_OF_MOVEMENT;
    if grains > 0 {
        trace.note(Event::Movement);
    }
    grains
}

//! Hours that show the points which they leave to their curves: at every step of
//! a curve, beside derates, and where a curve just reaches.

use second::record::MOST_INTERVALS;
use second::text::{ENERGY, HOUR, PRICE};
use second::{Curve, DayAhead, HourRecord, Interval};

use crate::hour::block;
use crate::hours::{self, is_paid, uol_with_room};
use crate::points::{self, leave_so, Left};
use crate::random::Rng;
use crate::stretches::{end_of, hull, priced, trim, with_points};

/// Where a curve lies: below zero, up to it, over it with a step that ends there,
/// from it on, or above it.
#[derive(Clone, Copy, Debug, PartialEq, Eq)]
enum Place {
    Below,
    ToZero,
    OverZero,
    FromZero,
    Above,
}

/// How an hour shows its points: what is bought back, or what is run more, goes
/// to the point and no further. An injection shows points above zero, a
/// withdrawal those below.
#[derive(Clone, Copy, Debug, PartialEq, Eq)]
enum Shown {
    LessInjected,
    LessWithdrawn,
    MoreInjected,
    MoreWithdrawn,
}

/// Every place, and what shows the points there.
const SHOWN: [(Place, Shown); 12] = [
    (Place::FromZero, Shown::LessInjected),
    (Place::Below, Shown::LessWithdrawn),
    (Place::OverZero, Shown::LessInjected),
    (Place::OverZero, Shown::LessWithdrawn),
    (Place::Above, Shown::LessInjected),
    (Place::ToZero, Shown::LessWithdrawn),
    (Place::FromZero, Shown::MoreInjected),
    (Place::Below, Shown::MoreWithdrawn),
    (Place::OverZero, Shown::MoreInjected),
    (Place::OverZero, Shown::MoreWithdrawn),
    (Place::Above, Shown::MoreInjected),
    (Place::ToZero, Shown::MoreWithdrawn),
];

/// So many of them, the first, buy back and are paid for it.
const PAYING: usize = 6;

/// How many steps the curves have.
const STEPS: [usize; 6] = [2, 1, 3, 12, 5, 9];

/// Points at every step of a curve, at its price and one beside it.
pub fn at_steps(rng: &mut Rng, turn: usize) -> Vec<u8> {
    let (place, shown) = SHOWN[turn % SHOWN.len()];
    let size = (rng.pick(&[1, 9, 9_000]), rng.pick(&[1, 1, 800]));
    let rt = steps(rng, turn / SHOWN.len(), place, size);
    let record = step_by_step(rng, rt, shown);
    block(rng, &record)
}

/// Such an hour that pays, of so many kilowatts that its cents show its points.
pub fn paying_at_steps(rng: &mut Rng, turn: usize) -> HourRecord {
    let (place, shown) = SHOWN[turn % PAYING];
    let size = (9_000, rng.pick(&[1, 800]));
    let rt = steps(rng, turn / PAYING, place, size);
    step_by_step(rng, rt, shown)
}

/// An hour on this curve whose intervals have the price of every step, and the
/// prices beside it, as their price of energy.
fn step_by_step(rng: &mut Rng, rt: Curve, shown: Shown) -> HourRecord {
    let prices = rt.used().iter().map(|step| step.at);
    let mut pens: Vec<i64> = prices.flat_map(|at| [at - 1, at, at + 1]).collect();
    // Of the longest curve not all have room in one hour.
    let first = rng.below(pens.len());
    pens.rotate_left(first);
    let count = pens.len().clamp(4, MOST_INTERVALS);
    let (low, high) = (rt.start.min(0) - 5, end_of(&rt).max(0) + 5);
    let [d, r, a] = schedules(&rt, shown, low, high);
    let mut record = HourRecord {
        day_ahead: DayAhead {
            hour: rng.within(HOUR),
            en: d,
            ..DayAhead::default()
        },
        da: day_ahead_bid(rng, shown, low, high, &pens),
        rt,
        ..HourRecord::default()
    };
    let line = |(s, pen): (i64, &i64)| Interval {
        s,
        en: r,
        ae: a,
        pen: *pen,
        lim: ENERGY.low,
        ..Interval::default()
    };
    let seconds = hours::seconds(rng, count).into_iter();
    let row: Vec<Interval> = seconds.zip(pens.iter().cycle()).map(line).collect();
    record.set_intervals(&row);
    record
}

/// A day-ahead curve that makes a loss of what is bought back at each of these
/// prices, so that it pays: an injection was bid cheaper, a withdrawal dearer. Its
/// own point would lie at one of its ends.
fn day_ahead_bid(rng: &mut Rng, shown: Shown, low: i64, high: i64, pens: &[i64]) -> Curve {
    let prices = match shown {
        Shown::LessWithdrawn => pens.iter().max().map(|most| [most + 1, most + 3]),
        _ => pens.iter().min().map(|least| [least - 3, least - 1]),
    };
    let [first, second] = prices.unwrap_or_default();
    let between = rng.between(low + 1, high - 1);
    Curve::new(low, &[(between, first), (high, second)])
}

/// D, R and A of an hour that shows points of this curve, which lies between
/// these two.
fn schedules(rt: &Curve, shown: Shown, low: i64, high: i64) -> [i64; 3] {
    match shown {
        Shown::LessInjected => [high, low, high],
        Shown::LessWithdrawn => [low, high, low],
        Shown::MoreInjected => [rt.start.max(0), end_of(rt), low],
        Shown::MoreWithdrawn => {
            let d = end_of(rt).min(0);
            [d, d.min(-1), low]
        }
    }
}

/// A curve in this place, with steps of up to so many kilowatts and prices of this
/// scale, which rise or stay. In every other turn the first step is dearer than the
/// second.
fn steps(rng: &mut Rng, turn: usize, place: Place, (wide, scale): (i64, i64)) -> Curve {
    let count = STEPS[turn / 2 % STEPS.len()];
    let mut end = 0;
    let mut price = scale * rng.between(-4, 4);
    let mut steps = Vec::new();
    for _ in 0..count {
        // One step alone has to lie on both sides of zero.
        end += rng.between(1, wide) + i64::from(count == 1);
        steps.push((end, price));
        price += scale * rng.pick(&[0, 1, 1, 2, 3]);
    }
    if turn % 2 == 1 && count > 1 {
        steps[0].1 = steps[1].1 + scale * rng.pick(&[1, 1, 2, 5, 30]);
    }
    let apart = rng.between(1, wide);
    let start = match place {
        Place::Below => -end - apart,
        Place::ToZero => -end,
        Place::OverZero => -steps[(count - 1) / 2].0 + i64::from(count == 1),
        Place::FromZero => 0,
        Place::Above => apart,
    };
    steps.iter_mut().for_each(|(to, _)| *to += start);
    Curve::new(start, &steps)
}

/// Hours of few kilowatts in which no line says its point: it meets the schedules
/// and the actual energy, and often decides the limit.
pub fn few(rng: &mut Rng, _: usize) -> Vec<u8> {
    let mut record = hours::small(rng);
    leave_so(rng, &mut record, Left::All);
    block(rng, &record)
}

/// The same in hours that are derated: the limits go from what the derate left of
/// the day-ahead schedule to the point, which it does not move.
pub fn derated(rng: &mut Rng, _: usize) -> Vec<u8> {
    let record = derated_hour(rng);
    block(rng, &record)
}

fn derated_hour(rng: &mut Rng) -> HourRecord {
    let mut record = hours::small(rng);
    leave_so(rng, &mut record, Left::All);
    let line = &mut record.day_ahead;
    line.en = line.en.abs().max(1);
    if !rng.once_in(3) {
        // Without other products the derate takes energy alone, and points lie
        // above its limit, too.
        [line.reg, line.r1, line.r2, line.r3] = [0; 4];
    }
    let line = *line;
    for interval in &mut record.intervals[..record.count] {
        interval.en = interval.en.min(line.en);
        interval.uol = uol_with_room(rng, &line, interval);
    }
    if rng.once_in(6) {
        record.intervals[rng.below(record.count)].uol = Some(rng.between(0, line.en));
    }
    record
}

/// Paid hours whose curves are cut down: to what has to be priced and the points,
/// to what has to be priced alone, and to one kilowatt less.
pub fn at_reach(rng: &mut Rng, turn: usize) -> Vec<u8> {
    let mut record = loop {
        let mut record = hours::any(rng);
        leave_so(rng, &mut record, Left::All);
        if is_paid(&record) {
            break record;
        }
    };
    let parts = priced(&record);
    let [da, rt] = [true, false].map(|day_ahead| hull(&parts, day_ahead));
    let (first, last) = with_points(&record.rt, rt, &points::of_hour(&record));
    let (low, high) = rt.unwrap_or((0, 0));
    record.rt = match turn % 6 {
        0 => trim(&record.rt, first, last),
        1 => trim(&record.rt, low, high),
        2 => trim(&record.rt, low, high - 1),
        3 => trim(&record.rt, low + 1, high),
        4 => trim(&record.rt, first, last - 1),
        _ => trim(&record.rt, first + 1, last),
    };
    if let Some((low, high)) = da.filter(|_| turn / 6 % 2 == 0) {
        record.da = trim(&record.da, low, high - rng.between(0, 1));
    }
    block(rng, &record)
}

/// Hours on a curve over all energies, with the lowest and the highest price: its
/// points lie at the ends of their range.
pub fn widest(rng: &mut Rng) -> HourRecord {
    let mut record = hours::extreme(rng);
    let inner = rng.between(ENERGY.low + 2, ENERGY.high - 1);
    let price = rng.within(PRICE);
    let mut steps = vec![
        (ENERGY.low + 1, PRICE.low),
        (inner, price),
        (ENERGY.high, PRICE.high),
    ];
    if rng.once_in(3) {
        steps[0].1 = PRICE.high;
    }
    record.rt = Curve::new(ENERGY.low, &steps);
    leave_so(rng, &mut record, Left::All);
    record
}

//! Hours as records: plants, storage, hours of few kilowatts and hours at the
//! ends of every range.

use second::curve::MOST_STEPS;
use second::record::{Kind, Record, MOST_INTERVALS};
use second::text::{Range, BID, ENERGY, HOUR, POWER, PRICE};
use second::{hour, Answer, Ask, Curve, DayAhead, HourRecord, Interval, Run, Way};

use crate::kinds::Made;
use crate::points;
use crate::random::Rng;

/// Seconds of an hour.
pub const WHOLE: i64 = 3600;

/// Most seconds of an interval.
pub const LONGEST: i64 = 900;

/// An hour of any kind, with curves that reach for the most part.
pub fn any(rng: &mut Rng) -> HourRecord {
    match rng.below(4) {
        0 => plant(rng),
        1 => storage(rng),
        2 => small(rng),
        _ => extreme(rng),
    }
}

/// An hour of a kind with this many intervals, 4 to 30.
pub fn any_of<K: Made>(rng: &mut Rng, count: usize) -> Record<K> {
    let mut record = K::any(rng);
    resize(rng, &mut record, count);
    record
}

/// An hour of a plant: it only injects.
pub fn plant(rng: &mut Rng) -> HourRecord {
    let capacity = 1000 * rng.between(5, 900);
    unit(rng, 0, capacity)
}

/// An hour of a storage unit: it withdraws, too.
pub fn storage(rng: &mut Rng) -> HourRecord {
    let power = 1000 * rng.between(1, 300);
    unit(rng, -power, power)
}

/// An hour of a few kilowatts and cents, where amounts often meet.
pub fn small(rng: &mut Rng) -> HourRecord {
    let draw = Draw::few(rng);
    loose(rng, draw)
}

/// An hour whose numbers lie at the ends of their ranges.
pub fn extreme(rng: &mut Rng) -> HourRecord {
    loose(rng, Draw::ENDS)
}

/// How many intervals an hour gets.
pub fn count(rng: &mut Rng) -> usize {
    match rng.below(6) {
        0 | 1 => 4,
        2 => 12,
        3 => MOST_INTERVALS,
        _ => 4 + rng.below(MOST_INTERVALS - 3),
    }
}

/// The seconds of this many intervals, 4 to 3600: they make an hour.
pub fn seconds(rng: &mut Rng, count: usize) -> Vec<i64> {
    let style = rng.below(3);
    let mut rest = WHOLE;
    let mut row = Vec::new();
    for left in (0..count as i64).rev() {
        let low = (rest - LONGEST * left).max(1);
        let high = (rest - left).min(LONGEST);
        let even = rest / (left + 1);
        let s = match style {
            0 => even.clamp(low, high),
            1 => rng.between(low, high),
            _ => rng.pick(&[low, high]),
        };
        rest -= s;
        row.push(s);
    }
    rng.shuffle(&mut row);
    row
}

/// Gives an hour this many intervals, 4 to 30, of those that it has.
pub fn resize<K: Made>(rng: &mut Rng, record: &mut Record<K>, count: usize) {
    let old = record.used().to_vec();
    let row = seconds(rng, count).into_iter().enumerate();
    let lasting = |(i, s)| {
        let mut interval = old[i % old.len()];
        *K::seconds_mut(&mut interval) = s;
        interval
    };
    let new: Vec<K::Interval> = row.map(lasting).collect();
    record.set_intervals(&new);
}

/// A curve over these kilowatts, of 1 to 12 steps.
pub fn curve(rng: &mut Rng, low: i64, high: i64, price: impl Fn(&mut Rng) -> i64) -> Curve {
    let most = rng.pick(&[1, 2, 3, 5, MOST_STEPS - 1, MOST_STEPS, MOST_STEPS]);
    let mut ends: Vec<i64> = (1..most).map(|_| rng.between(low + 1, high)).collect();
    ends.push(high);
    ends.sort_unstable();
    ends.dedup();
    let mut prices: Vec<i64> = ends.iter().map(|_| price(rng)).collect();
    // The first step may be dearer than the second.
    prices[1..].sort_unstable();
    if rng.once_in(2) {
        prices.sort_unstable();
    }
    let steps: Vec<(i64, i64)> = ends.into_iter().zip(prices).collect();
    Curve::new(low, &steps)
}

/// A price as the market has it: now and then one below 0, or any.
pub fn market_price(rng: &mut Rng) -> i64 {
    match rng.below(20) {
        0 => rng.within(PRICE),
        1 | 2 => rng.between(-5_000, 0),
        _ => rng.between(500, 15_000),
    }
}

/// Day-ahead and real-time curves over these kilowatts, the same in every other
/// hour; and the points at which their prices change.
pub fn bids(rng: &mut Rng, low: i64, high: i64) -> (Curve, Curve, Vec<i64>) {
    let da = curve(rng, low, high, market_price);
    let rt = match rng.below(2) {
        0 => da,
        _ => curve(rng, low, high, market_price),
    };
    let mut points = vec![low, high, 0];
    points.extend(da.used().iter().map(|step| step.to));
    points.extend(rt.used().iter().map(|step| step.to));
    (da, rt, points)
}

/// A unit that is bid from `low` to `high` and scheduled between.
fn unit(rng: &mut Rng, low: i64, high: i64) -> HourRecord {
    let (da, rt, points) = bids(rng, low, high);
    let mut record = HourRecord {
        da,
        rt,
        ..HourRecord::default()
    };
    let spare = Range::new(0, high / 10);
    record.day_ahead = DayAhead {
        hour: rng.within(HOUR),
        en: point(rng, low, high, &points),
        reg: product(rng, spare),
        r1: product(rng, spare),
        r2: product(rng, spare),
        r3: product(rng, spare),
        breg: rng.between(0, 3_000),
        b1: rng.between(0, 900),
        b2: rng.between(0, 500),
        b3: rng.between(0, 200),
    };
    let count = count(rng);
    let row = seconds(rng, count);
    let derated = rng.once_in(4);
    let place = Unit {
        low,
        high,
        points,
        spare,
        derated,
    };
    let intervals: Vec<Interval> = row
        .into_iter()
        .map(|s| unit_interval(rng, s, &record.day_ahead, &place))
        .collect();
    record.set_intervals(&intervals);
    points::leave(rng, &mut record);
    record
}

/// What a unit's intervals are drawn from.
struct Unit {
    low: i64,
    high: i64,
    points: Vec<i64>,
    spare: Range,
    derated: bool,
}

/// One of these points, or any between the two.
pub fn point(rng: &mut Rng, low: i64, high: i64, points: &[i64]) -> i64 {
    match rng.below(3) {
        0 => rng.pick(points),
        _ => rng.between(low, high),
    }
}

fn product(rng: &mut Rng, spare: Range) -> i64 {
    match rng.below(2) {
        0 => 0,
        _ => rng.within(spare),
    }
}

fn unit_interval(rng: &mut Rng, s: i64, line: &DayAhead, unit: &Unit) -> Interval {
    let Unit { low, high, .. } = *unit;
    let ramp = unit.spare.high;
    let near = |rng: &mut Rng, kw: i64| (kw + rng.between(-ramp, ramp)).clamp(low, high);
    let en = match rng.below(6) {
        0 | 1 => line.en,
        2 => 0,
        3 | 4 => near(rng, line.en),
        _ => point(rng, low, high, &unit.points),
    };
    let eop = match rng.below(4) {
        0 => en,
        1 => line.en,
        2 => near(rng, en),
        _ => point(rng, low, high, &unit.points),
    };
    let ae = match rng.below(4) {
        0 => en,
        1 => eop,
        2 => near(rng, en),
        _ => point(rng, low, high, &unit.points),
    };
    let lim = match rng.below(8) {
        0 => en - en.abs() * 3 / 100,
        _ => (ae - 1 - rng.within(unit.spare)).max(ENERGY.low),
    };
    let of = |rng: &mut Rng, day_ahead: i64| match rng.below(3) {
        0 => 0,
        1 => day_ahead,
        _ => rng.within(unit.spare),
    };
    let mut interval = Interval {
        s,
        en,
        ae,
        co: product(rng, unit.spare),
        eop: Some(eop),
        pen: market_price(rng),
        lim,
        uol: None,
        r1: of(rng, line.r1),
        r2: of(rng, line.r2),
        r3: of(rng, line.r3),
        p1: rng.between(0, 3_000),
        p2: rng.between(0, 2_000),
        p3: rng.between(-10, 1_000),
        reg: of(rng, line.reg),
        preg: rng.between(0, 6_000),
        breg: rng.between(0, 3_000),
        mv: product(rng, unit.spare),
        pmv: rng.between(0, 100),
        bmv: rng.between(0, 100),
    };
    if unit.derated && rng.once_in(2) {
        interval.uol = uol_with_room(rng, line, &interval);
    }
    interval
}

/// What an hour's numbers are drawn from, one by one.
#[derive(Clone, Copy)]
pub struct Draw {
    /// Energy, and the points of curves.
    pub energy: Range,
    /// Power that cannot be negative.
    pub power: Range,
    /// Prices.
    pub price: Range,
    /// Bids that cannot be negative.
    pub bid: Range,
    /// Whether the ends of a range are liked.
    edges: bool,
}

impl Draw {
    /// Numbers at the ends of their ranges.
    pub const ENDS: Draw = Draw {
        energy: ENERGY,
        power: POWER,
        price: PRICE,
        bid: BID,
        edges: true,
    };

    /// A few kilowatts and cents.
    pub fn few(rng: &mut Rng) -> Self {
        let most = rng.between(1, 6);
        Draw {
            energy: Range::new(-most, most),
            power: Range::new(0, most),
            price: Range::new(-3, 3),
            bid: Range::new(0, 3),
            edges: false,
        }
    }

    /// A number of one of the ranges.
    pub fn of(&self, rng: &mut Rng, range: Range) -> i64 {
        if self.edges {
            rng.edge(range)
        } else {
            rng.within(range)
        }
    }

    /// A curve over all the energy, for the most part.
    pub fn curve(&self, rng: &mut Rng) -> Curve {
        let Range { low, high } = self.energy;
        if rng.once_in(12) {
            return Curve::default();
        }
        let short = rng.once_in(12);
        let (low, high) = match short {
            true => (low + rng.between(0, 1), high - rng.between(0, 1)),
            false => (low, high),
        };
        if low >= high {
            return Curve::default();
        }
        curve(rng, low, high, |rng| self.of(rng, self.price))
    }
}

/// What the derates and limits of an hour are like, so that not every hour is
/// refused for one interval of thirty.
#[derive(Clone, Copy)]
struct Habits {
    /// No derate, one with room, or any.
    derate: usize,
    /// No lagging, or any limit.
    lags: bool,
}

/// An hour whose numbers have nothing to do with each other.
fn loose(rng: &mut Rng, draw: Draw) -> HourRecord {
    let mut record = HourRecord {
        day_ahead: DayAhead {
            hour: rng.edge(HOUR),
            en: draw.of(rng, draw.energy),
            reg: draw.of(rng, draw.power),
            r1: draw.of(rng, draw.power),
            r2: draw.of(rng, draw.power),
            r3: draw.of(rng, draw.power),
            breg: draw.of(rng, draw.bid),
            b1: draw.of(rng, draw.bid),
            b2: draw.of(rng, draw.bid),
            b3: draw.of(rng, draw.bid),
        },
        da: draw.curve(rng),
        rt: draw.curve(rng),
        ..HourRecord::default()
    };
    let habits = Habits {
        derate: rng.pick(&[0, 0, 0, 0, 1, 1, 1, 2]),
        lags: rng.once_in(3),
    };
    let count = count(rng);
    let row = seconds(rng, count);
    let intervals: Vec<Interval> = row
        .into_iter()
        .map(|s| loose_interval(rng, s, &record.day_ahead, draw, habits))
        .collect();
    record.set_intervals(&intervals);
    points::leave(rng, &mut record);
    record
}

fn loose_interval(rng: &mut Rng, s: i64, line: &DayAhead, draw: Draw, habits: Habits) -> Interval {
    let en = match rng.below(5) {
        0 => line.en,
        _ => draw.of(rng, draw.energy),
    };
    let ae = draw.of(rng, draw.energy);
    let lim = match habits.lags {
        true => draw.of(rng, draw.energy),
        false => (ae - rng.between(1, 2)).max(ENERGY.low),
    };
    let mut interval = Interval {
        s,
        en,
        ae,
        co: draw.of(rng, draw.power),
        eop: Some(draw.of(rng, draw.energy)),
        pen: draw.of(rng, draw.price),
        lim,
        uol: None,
        r1: draw.of(rng, draw.power),
        r2: draw.of(rng, draw.power),
        r3: draw.of(rng, draw.power),
        p1: draw.of(rng, draw.price),
        p2: draw.of(rng, draw.price),
        p3: draw.of(rng, draw.price),
        reg: draw.of(rng, draw.power),
        preg: draw.of(rng, draw.price),
        breg: draw.of(rng, draw.bid),
        mv: draw.of(rng, draw.power),
        pmv: draw.of(rng, draw.bid),
        bmv: draw.of(rng, draw.bid),
    };
    interval.uol = match habits.derate {
        0 => None,
        1 => uol_with_room(rng, line, &interval),
        _ if rng.once_in(8) => Some(draw.of(rng, draw.power)),
        _ => uol_with_room(rng, line, &interval),
    };
    interval
}

/// The sum of the day-ahead schedules, and the room for a derate.
pub fn sum_and_room(line: &DayAhead, interval: &Interval) -> (i64, i64) {
    let pairs = [
        (line.en, interval.en),
        (line.reg, interval.reg),
        (line.r1, interval.r1),
        (line.r2, interval.r2),
        (line.r3, interval.r3),
    ];
    let sum = pairs.iter().map(|(day_ahead, _)| day_ahead).sum();
    let potential = |(day_ahead, real_time): &(i64, i64)| (day_ahead - real_time).max(0);
    (sum, pairs.iter().map(potential).sum())
}

/// A limit whose derate has room, if there is one.
pub fn uol_with_room(rng: &mut Rng, line: &DayAhead, interval: &Interval) -> Option<i64> {
    let (sum, room) = sum_and_room(line, interval);
    let low = (sum - room).max(POWER.low);
    let high = (sum + 1).clamp(POWER.low, POWER.high);
    if low > high {
        return None;
    }
    let between = rng.between(low, high);
    Some(rng.pick(&[low, high, between, between]))
}

/// The halves of a cent that an hour around a cent makes. Most are odd: there one
/// grain decides which cent is the nearest.
pub fn halves(rng: &mut Rng) -> i64 {
    rng.pick(&[-2, -1, 0, 1, 1, 1, 2, 3, 3, 4, 5, 199, 491])
}

/// An interval of this hour that is scheduled as in the day-ahead market: it
/// asks for no curve, has no derate, does not lag and contributes 0.
pub fn still(line: &DayAhead, s: i64) -> Interval {
    Interval {
        s,
        en: line.en,
        ae: 0,
        eop: Some(line.en),
        lim: -1,
        reg: line.reg,
        r1: line.r1,
        r2: line.r2,
        r3: line.r3,
        ..Interval::default()
    }
}

/// Whether an eligible hour is paid, by the second program.
pub fn is_paid<K: Kind>(record: &Record<K>) -> bool {
    let row = &mut [0; MOST_INTERVALS];
    let answer = hour::judge_record(record, Ask::default(), row, &mut Run::quiet(Way::Steps));
    matches!(answer, Answer::Paid(_))
}

#[cfg(test)]
mod tests {
    use super::*;
    use crate::stretches::priced;
    use second::{hour, Answer, Ask, Check, Run};

    fn answer(record: &HourRecord) -> Answer {
        let row = &mut [0; MOST_INTERVALS];
        hour::judge_record(record, Ask::default(), row, &mut Run::default())
    }

    #[test]
    fn seconds_make_an_hour() {
        let mut rng = Rng::new(3, 3);
        for _ in 0..500 {
            let count = 4 + rng.below(27);
            let row = seconds(&mut rng, count);
            assert_eq!(row.len(), count);
            assert_eq!(row.iter().sum::<i64>(), WHOLE);
            assert!(row.iter().all(|s| (1..=LONGEST).contains(s)));
        }
    }

    #[test]
    fn many_hours_are_paid_and_none_is_refused_before_its_intervals() {
        for make in [plant, storage, small, extreme] {
            let mut paid = 0;
            for index in 0..300 {
                match answer(&make(&mut Rng::new(5, index))) {
                    Answer::Paid(_) => paid += 1,
                    Answer::Refused(refusal) => assert!(refusal.check >= Check::Derate),
                }
            }
            assert!(paid > 100, "{paid} of 300");
        }
    }

    #[test]
    fn still_intervals_contribute_nothing_and_ask_for_nothing() {
        for index in 0..200 {
            let mut record = any(&mut Rng::new(9, index));
            let row = [900; 4].map(|s| still(&record.day_ahead, s));
            record.set_intervals(&row);
            record.da = Curve::default();
            record.rt = Curve::default();
            assert_eq!(priced(&record), []);
            assert_eq!(answer(&record).cents(), Some(0), "{record:?}");
        }
    }
}

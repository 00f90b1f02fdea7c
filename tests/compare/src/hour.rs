//! Hour blocks: how they are made and what they can reach. What is said of no
//! kind of hour is made for blocks of every kind.

use second::curve::MOST_STEPS;
use second::record::{Kind, Record, Unit, LINES_BEFORE, MOST_INTERVALS};
use second::text::{Range, SheetLine, Side, ENERGY, HOUR, POWER, PRICE};
use second::{hour, Curve, DayAhead, HourRecord, Interval};

use crate::damage::{self, set_value, with_surplus, Sheet, BROKEN_PAIRS, NO_NUMBERS};
use crate::events;
use crate::hours::{self, still, sum_and_room};
use crate::kinds::Made;
use crate::missing;
use crate::plan::{recipe, Program, Recipe};
use crate::point_faults;
use crate::point_hours;
use crate::random::Rng;
use crate::same;
use crate::stretches::{curve_of, hull, trim};
use crate::written::Written;

/// The program `hour`.
pub const PROGRAM: Program = Program {
    name: "hour",
    recipes: RECIPES,
    answer: |text, run| Written::Answer(hour::program(text, run)),
    wanted: events::of_hour,
    outcome,
    outcomes: || {
        (HOUR.low..=HOUR.high)
            .map(|hour| format!("hour={hour}"))
            .collect()
    },
    ends_at_empty_line: true,
    pair: Some(same::of_hours),
    back: None,
};

const RECIPES: &[Recipe] = &[
    recipe("plants", 5, |rng, _| good(rng, hours::plant)),
    recipe("storage", 3, |rng, _| good(rng, hours::storage)),
    recipe("few kilowatts", 7, |rng, _| good(rng, hours::small)),
    recipe("ends of ranges", 5, |rng, _| good(rng, hours::extreme)),
    recipe("largest amounts", 1, |rng, _| good(rng, largest)),
    recipe("around a cent", 2, |rng, _| good(rng, around_a_cent)),
    recipe("just reached", 4, reach::<Unit>),
    recipe("derates", 4, derate),
    recipe("lagging", 2, lagging),
    recipe("points at steps", 4, point_hours::at_steps),
    recipe("points of few kilowatts", 3, point_hours::few),
    recipe("points of derated hours", 1, point_hours::derated),
    recipe("points at the reach", 2, point_hours::at_reach),
    recipe("points of the widest curve", 1, |rng, _| {
        good(rng, point_hours::widest)
    }),
    recipe("points among faults", 2, point_faults::among_faults),
    recipe("lone minuses", 1, missing::lone_minus),
    recipe("seconds", 2, seconds::<Unit>),
    recipe("just out of range", 4, out_of_range::<Unit>),
    recipe("no numbers", 3, no_number::<Unit>),
    recipe("wrong pairs", 2, wrong_pairs::<Unit>),
    recipe("broken curves", 2, broken_curve::<Unit>),
    recipe("wrong counts", 1, wrong_count::<Unit>),
    recipe("hours", 1, other_hour::<Unit>),
    recipe("extra lines", 1, extra_lines::<Unit>),
    recipe("surplus", 1, surplus::<Unit>),
    recipe("damaged bytes", 4, |rng, turn| {
        damaged::<Unit>(rng, turn, damage::BYTES)
    }),
    recipe("damaged lines", 2, |rng, turn| {
        damaged::<Unit>(rng, turn, damage::LINES)
    }),
    recipe("damaged pairs", 2, |rng, turn| {
        damaged::<Unit>(rng, turn, damage::PAIRS)
    }),
    recipe("damaged ends", 1, |rng, turn| {
        damaged::<Unit>(rng, turn, damage::ENDS)
    }),
    recipe("ends within lines", 1, end_in_line::<Unit>),
    recipe("noise", 1, noise::<Unit>),
    recipe("long lines", 1, long::<Unit>),
    recipe("several faults", 3, several::<Unit>),
];

/// The hour that a paid block says.
fn outcome(_: &[u8], answer: &str) -> Option<String> {
    let (hour, _) = answer.lines().next_back()?.split_once(" pay=")?;
    Some(hour.to_string())
}

/// The block of a record, closed by an empty line or by the end of the text.
pub fn block<K: Kind>(rng: &mut Rng, record: &Record<K>) -> Vec<u8> {
    let mut text = record.to_text().into_bytes();
    if rng.once_in(2) {
        text.push(b'\n');
    }
    text
}

/// The block of an hour that is made so.
pub fn good<K: Kind>(rng: &mut Rng, make: fn(&mut Rng) -> Record<K>) -> Vec<u8> {
    let record = make(rng);
    block(rng, &record)
}

/// Where the turn's interval stands: first, between, or thirtieth. The count
/// of the hour's intervals, and the interval, counted from 0.
pub fn nth(rng: &mut Rng, turn: usize) -> (usize, usize) {
    let count = 4 + rng.below(MOST_INTERVALS - 3);
    match turn % 3 {
        0 => (count, 0),
        1 => (count, 1 + rng.below(count - 1)),
        _ => (MOST_INTERVALS, MOST_INTERVALS - 1),
    }
}

/// The lines of an hour that differ in kind, in turn: 1, 2, 3, the first
/// interval, one between, the thirtieth. A sheet and its line, from 0.
pub fn nth_line<K: Made>(rng: &mut Rng, turn: usize) -> (Sheet, usize) {
    let mut record = with_curves::<K>(rng);
    let (count, line) = match turn % 6 {
        line @ 0..=2 => (hours::count(rng), line),
        n => {
            let (count, interval) = nth(rng, n);
            (count, LINES_BEFORE + interval)
        }
    };
    hours::resize(rng, &mut record, count);
    (Sheet::of(record.to_text().as_bytes()), line)
}

/// An hour both of whose curves have steps.
fn with_curves<K: Made>(rng: &mut Rng) -> Record<K> {
    let mut record = K::any(rng);
    for curve in [&mut record.da, &mut record.rt] {
        if curve.count == 0 {
            *curve = hours::curve(rng, 0, 60, |rng| rng.between(-9, 9));
        }
    }
    record
}

/// Every product at the end of its range that gives, or takes, the most.
fn largest(rng: &mut Rng) -> HourRecord {
    let gives = rng.once_in(2);
    let (low, high) = (ENERGY.low, ENERGY.high);
    let power = POWER.high;
    let price = if gives { PRICE.high } else { PRICE.low };
    let sold = if gives { power } else { 0 };
    let curve = Curve::new(low, &[(high, -price)]);
    let mut record = HourRecord {
        day_ahead: DayAhead {
            hour: rng.within(HOUR),
            en: rng.pick(&[low, high, 0, 0]),
            reg: sold,
            r1: sold,
            r2: sold,
            r3: sold,
            ..DayAhead::default()
        },
        da: curve,
        rt: curve,
        ..HourRecord::default()
    };
    let count = rng.pick(&[4, MOST_INTERVALS]);
    let row: Vec<Interval> = hours::seconds(rng, count)
        .into_iter()
        .map(|s| Interval {
            s,
            en: rng.pick(&[low, high, 0]),
            ae: rng.pick(&[high, low + 1]),
            co: power,
            eop: rng.pick(&[Some(low), Some(high), Some(0), None]),
            pen: price,
            lim: low,
            uol: None,
            r1: power - sold,
            r2: power - sold,
            r3: power - sold,
            p1: PRICE.high,
            p2: PRICE.high,
            p3: PRICE.high,
            reg: power - sold,
            preg: PRICE.high,
            breg: 0,
            mv: power - sold,
            pmv: PRICE.high,
            bmv: 0,
        })
        .collect();
    record.set_intervals(&row);
    record
}

/// An hour of so many halves of a cent and no grain, or one grain more or less;
/// its intervals hold parts of cents.
pub fn around_a_cent(rng: &mut Rng) -> HourRecord {
    let halves = hours::halves(rng);
    let grain = rng.between(-1, 1);
    let bid = rng.between(0, 9);
    let mut record = HourRecord {
        day_ahead: DayAhead {
            hour: rng.within(HOUR),
            r2: 1,
            b2: bid,
            ..DayAhead::default()
        },
        ..HourRecord::default()
    };
    let line = record.day_ahead;
    // Half a cent is one kW at 2000 cents for 900 seconds; three quarters of
    // each come from another interval than the rest.
    let part = |s, price| Interval {
        r2: 0,
        p2: bid + price,
        ..still(&line, s)
    };
    let mut row = vec![
        part(900, 1500 * halves),
        part(900, 500 * halves),
        part(1, grain),
        still(&line, 899),
        still(&line, 900),
    ];
    if rng.once_in(2) {
        row[1].s = 450;
        row[1].p2 = bid + 1000 * halves;
        row.push(still(&line, 450));
    }
    rng.shuffle(&mut row);
    record.set_intervals(&row);
    record
}

/// Curves that just reach, or just miss, at one end.
pub fn reach<K: Made>(rng: &mut Rng, turn: usize) -> Vec<u8> {
    let mut record = K::reaching(rng);
    let (count, target) = nth(rng, turn);
    hours::resize(rng, &mut record, count);
    if rng.once_in(2) {
        // Only the target asks for a price.
        for (i, interval) in record.intervals[..count].iter_mut().enumerate() {
            if i != target {
                *interval = K::still(&record.day_ahead, K::seconds(interval));
            }
        }
    }
    let parts = K::priced(&record);
    let alone: Vec<_> = parts.iter().filter(|p| p.interval == target).collect();
    let miss = turn / 3 % 3;
    for day_ahead in [true, false] {
        let all = hull(&parts, day_ahead);
        let own = alone.iter().find(|p| p.day_ahead == day_ahead);
        let Some((low, high)) = own.map(|p| (p.low, p.high)).or(all) else {
            continue;
        };
        let curve = curve_of(&mut record, day_ahead);
        *curve = match miss {
            0 => trim(curve, low, high),
            1 => trim(curve, low, high - 1),
            _ => trim(curve, low + 1, high),
        };
    }
    block(rng, &record)
}

/// An hour whose curves reach everywhere, without lagging, with derates that
/// have room.
pub fn reaching(rng: &mut Rng) -> HourRecord {
    let mut record = hours::any(rng);
    let draw = |rng: &mut Rng| rng.between(-20_000, 20_000);
    record.da = hours::curve(rng, ENERGY.low, ENERGY.high, draw);
    record.rt = hours::curve(rng, ENERGY.low, ENERGY.high, draw);
    let line = record.day_ahead;
    let count = record.count;
    for interval in &mut record.intervals[..count] {
        interval.ae = interval.ae.max(ENERGY.low + 1);
        interval.lim = interval.lim.min(interval.ae - 1);
        if interval.uol.is_some() {
            interval.uol = hours::uol_with_room(rng, &line, interval);
        }
    }
    record
}

/// Derates: with just enough room and one kilowatt too little, shares with
/// remainders and with ties, reductions through zero, and none at all.
fn derate(rng: &mut Rng, turn: usize) -> Vec<u8> {
    let mut record = reaching(rng);
    let (count, target) = nth(rng, turn);
    hours::resize(rng, &mut record, count);
    let (day_ahead, real_time) = schedules(rng, turn / 3 % 6);
    let line = &mut record.day_ahead;
    [line.en, line.reg, line.r1, line.r2, line.r3] = day_ahead;
    let line = *line;
    for (i, interval) in record.intervals[..count].iter_mut().enumerate() {
        if i != target && rng.once_in(2) {
            *interval = still(&line, interval.s);
            continue;
        }
        let [en, reg, r1, r2, r3] = real_time;
        [interval.en, interval.reg] = [en, reg];
        [interval.r1, interval.r2, interval.r3] = [r1, r2, r3];
        interval.uol = hours::uol_with_room(rng, &line, interval);
    }
    let target = &mut record.intervals[target];
    let (sum, room) = sum_and_room(&line, target);
    let reduction = match turn / 18 % 8 {
        0 => room,
        1 => room + 1,
        2 => 0,
        3 => -1,
        4 => 1,
        5 => room - 1,
        _ => rng.between(0, room),
    };
    target.uol = Some(sum - reduction).filter(|uol| POWER.missed(*uol).is_none());
    block(rng, &record)
}

/// Day-ahead and real-time schedules of a kind: energy, regulation, reserves.
fn schedules(rng: &mut Rng, kind: usize) -> ([i64; 5], [i64; 5]) {
    let mut day_ahead = [0; 5];
    let mut real_time = [0; 5];
    let same = rng.between(1, 7);
    for (i, (before, now)) in day_ahead.iter_mut().zip(&mut real_time).enumerate() {
        let energy = i == 0;
        (*before, *now) = match kind {
            // All give up the same: ties.
            0 => (same, 0),
            // Each gives up a few kilowatts: remainders.
            1 => (rng.between(0, 9), rng.between(0, 5)),
            // The most that can be given up.
            2 if energy => (ENERGY.high, rng.edge(ENERGY)),
            2 => (rng.edge(POWER), rng.edge(POWER)),
            // Nothing is given up.
            3 => (same, same + rng.between(0, 2)),
            // Energy alone is given up, through zero.
            4 if energy => (rng.between(1, 40), rng.between(-200, 0)),
            4 => (rng.between(0, 30), POWER.high),
            // A withdrawal that grows.
            _ if energy => (rng.between(-30, 0), rng.between(-90, 5)),
            _ => (rng.between(0, 30), rng.between(0, 30)),
        };
    }
    (day_ahead, real_time)
}

/// Limits at, above and below the actual energy, also of intervals that would
/// be refused if they did not lag.
fn lagging(rng: &mut Rng, turn: usize) -> Vec<u8> {
    let mut record = hours::any(rng);
    let count = record.count;
    let beside = [0, 0, 1, -1];
    for interval in &mut record.intervals[..count] {
        let lim = interval.ae + rng.pick(&beside);
        interval.lim = lim.clamp(ENERGY.low, ENERGY.high);
        if turn % 2 == 1 {
            interval.uol = Some(0).filter(|_| rng.once_in(3));
        }
    }
    if turn % 4 >= 2 {
        record.da = Curve::default();
        record.rt = Curve::default();
    }
    block(rng, &record)
}

/// Seconds that make an hour and seconds that miss it by one; no intervals,
/// too few and many.
pub fn seconds<K: Made>(rng: &mut Rng, turn: usize) -> Vec<u8> {
    let mut record = K::any(rng);
    match turn % 6 {
        0 => record.count = 0,
        1 => record.set_intervals(&vec![record.intervals[0]; 1 + rng.below(3)]),
        2 => {
            record.set_intervals(&[record.intervals[0]; MOST_INTERVALS]);
            let s = rng.pick(&[1, 900, 120, 120]);
            for interval in &mut record.intervals {
                *K::seconds_mut(interval) = s;
            }
        }
        3 => hours::resize(rng, &mut record, 4),
        n => {
            let count = rng.pick(&[5, 12, MOST_INTERVALS]);
            hours::resize(rng, &mut record, count);
            let far = rng.pick(&[-900, -256, 256, 512, 1024, 3600]);
            let off = if n == 4 { rng.pick(&[-1, 1]) } else { far };
            shift_seconds::<K>(&mut record.intervals[..count], off);
        }
    }
    block(rng, &record)
}

/// Moves the sum of the seconds by so many, as far as the intervals allow.
fn shift_seconds<K: Made>(intervals: &mut [K::Interval], mut off: i64) {
    for interval in intervals {
        let old = K::seconds_mut(interval);
        let s = (*old + off).clamp(1, hours::LONGEST);
        off -= s - *old;
        *old = s;
    }
}

/// Every key of every kind of line, just below its range and just above.
pub fn out_of_range<K: Made>(rng: &mut Rng, turn: usize) -> Vec<u8> {
    let kinds = keys_and_sides::<K>();
    let (line, key, range, side) = kinds[turn % kinds.len()];
    let kind = line + rng.below(3) * usize::from(line == LINES_BEFORE);
    let (mut sheet, line) = nth_line::<K>(rng, kind);
    // Just outside for the most part, and sometimes as far as can be.
    let out = |rng: &mut Rng, near, far| if rng.once_in(8) { far } else { near };
    let value = match side {
        Side::Below => out(rng, range.low - 1, -9_999_999),
        Side::Above => out(rng, range.high + 1, 9_999_999),
    };
    set_key(rng, &mut sheet.lines[line], key, &value.to_string());
    sheet.text()
}

/// Line (from 0), key, range and side of every number of a block.
fn keys_and_sides<K: Kind>() -> Vec<(usize, &'static str, Range, Side)> {
    let curve = Curve::new(0, &[(1, 0)]);
    let lines = [
        K::Ahead::default().numbers(),
        curve.numbers("da"),
        curve.numbers("rt"),
        K::Interval::default().numbers(),
    ];
    let mut kinds = Vec::new();
    for (line, numbers) in lines.iter().enumerate() {
        for number in numbers {
            for side in [Side::Below, Side::Above] {
                kinds.push((line, number.key, number.range, side));
            }
        }
    }
    kinds
}

/// Another value behind one of the places of a key.
fn set_key(rng: &mut Rng, line: &mut Vec<u8>, key: &str, value: &str) {
    let named = |pair: &[u8]| pair.split(|b| *b == b'=').next() == Some(key.as_bytes());
    let all = damage::pairs(line).into_iter().enumerate();
    let places: Vec<usize> = all.filter(|(_, p)| named(p)).map(|(i, _)| i).collect();
    if !places.is_empty() {
        let pair = rng.pick(&places);
        set_value(line, pair, value.as_bytes());
    }
}

/// Values that are no numbers, in every kind of line.
pub fn no_number<K: Made>(rng: &mut Rng, turn: usize) -> Vec<u8> {
    let (mut sheet, line) = nth_line::<K>(rng, turn);
    let line = &mut sheet.lines[line];
    let pair = rng.below(damage::pairs(line).len());
    let value = NO_NUMBERS[turn / 6 % NO_NUMBERS.len()];
    set_value(line, pair, value.as_bytes());
    block_of_sheet(rng, &sheet)
}

/// Pairs that are absent, extra or named otherwise, in every kind of line.
pub fn wrong_pairs<K: Made>(rng: &mut Rng, turn: usize) -> Vec<u8> {
    let (mut sheet, line) = nth_line::<K>(rng, turn);
    let kind = BROKEN_PAIRS[turn / 6 % BROKEN_PAIRS.len()];
    damage::damage_pairs(rng, &mut sheet.lines[line], kind);
    block_of_sheet(rng, &sheet)
}

/// The text of a sheet, closed by an empty line or by its end.
pub fn block_of_sheet(rng: &mut Rng, sheet: &Sheet) -> Vec<u8> {
    let mut text = sheet.text();
    if rng.once_in(2) {
        text.push(b'\n');
    }
    text
}

/// Curves that break a rule, or are just good.
pub fn broken_curve<K: Made>(rng: &mut Rng, turn: usize) -> Vec<u8> {
    let mut record = with_curves::<K>(rng);
    let kind = turn / 2 % 8;
    break_curve(rng, curve_of(&mut record, turn % 2 == 0), kind);
    if rng.once_in(6) {
        break_curve(rng, &mut record.rt, kind);
    }
    block(rng, &record)
}

fn break_curve(rng: &mut Rng, curve: &mut Curve, kind: usize) {
    let count = 2 + rng.below(MOST_STEPS - 1);
    let start = rng.between(-20, 20);
    let mut prices: Vec<i64> = (0..count).map(|_| rng.between(0, 9)).collect();
    prices[1..].sort_unstable();
    let ends = (1..).map(|i| start + 3 * i);
    let mut steps: Vec<(i64, i64)> = ends.zip(prices).collect();
    let at = rng.below(count);
    match kind {
        // No steps, and a start that is not 0.
        0 => {
            *curve = Curve::new(rng.pick(&[1, -1, start, ENERGY.low, ENERGY.high]), &[]);
            return;
        }
        // An end on the one before, or below it.
        1 => {
            let before = if at == 0 { start } else { steps[at - 1].0 };
            steps[at].0 = before - rng.pick(&[0, 0, 1, 5]);
        }
        // A price below the one before, from the third step on.
        2 | 3 => {
            let at = if kind == 2 { count - 1 } else { at };
            let before = if at == 0 { 0 } else { steps[at - 1].1 };
            steps[at].1 = before - rng.pick(&[1, 1, 9]);
        }
        // A first step dearer than the second: good.
        4 => steps[0].1 = steps[1].1 + rng.pick(&[1, 5, 1000]),
        // Steps of one kilowatt: good.
        5 => {
            for (i, step) in steps.iter_mut().enumerate() {
                step.0 = start + 1 + i as i64;
            }
        }
        // One price for all steps: good.
        6 => steps.iter_mut().for_each(|step| step.1 = 7),
        // Steps that fall from end to end.
        _ => steps.reverse(),
    }
    *curve = Curve::new(start, &steps);
}

/// Counts of steps that are one off, or no count at all.
pub fn wrong_count<K: Made>(rng: &mut Rng, turn: usize) -> Vec<u8> {
    let mut record = with_curves::<K>(rng);
    let line = 1 + turn % 2;
    let longest = hours::curve(rng, -90, 90, |rng| rng.between(0, 9));
    let steps = |n: i64| -> Vec<(i64, i64)> { (1..=n).map(|i| (i, i)).collect() };
    let curve = match rng.below(3) {
        0 => Curve::new(0, &steps(MOST_STEPS as i64)),
        1 => longest,
        _ => record.da,
    };
    record.da = curve;
    record.rt = curve;
    let mut sheet = Sheet::of(record.to_text().as_bytes());
    let n = curve.count as i64;
    let value = match turn / 2 % 6 {
        0 => n + 1,
        1 => n - 1,
        2 => 0,
        3 => 13,
        4 => rng.pick(&[-1, -12, 14, 100, 9_999_999, -9_999_999]),
        _ => {
            // Thirteen pairs, and the count that they have.
            let all: Vec<String> = steps(13)
                .iter()
                .map(|(to, at)| format!(" to={to} at={at}"))
                .collect();
            let key = ["da", "rt"][turn % 2];
            sheet.lines[line] = format!("{key}=0 n=13{}", all.concat()).into_bytes();
            13
        }
    };
    set_value(&mut sheet.lines[line], 1, value.to_string().as_bytes());
    block_of_sheet(rng, &sheet)
}

/// Hours of the day and hours that are none.
pub fn other_hour<K: Made>(rng: &mut Rng, turn: usize) -> Vec<u8> {
    let record = K::any(rng);
    let mut sheet = Sheet::of(record.to_text().as_bytes());
    let hours = [
        "0", "23", "24", "-1", "25", "99", "00", "024", "-0", "9999999", "12", "-", "-24", "26",
    ];
    set_value(&mut sheet.lines[0], 0, hours[turn % hours.len()].as_bytes());
    block_of_sheet(rng, &sheet)
}

/// One interval line too many, good or not, or very many.
pub fn extra_lines<K: Made>(rng: &mut Rng, turn: usize) -> Vec<u8> {
    let count = rng.pick(&[MOST_INTERVALS, MOST_INTERVALS, MOST_INTERVALS - 1]);
    let record = hours::any_of::<K>(rng, count);
    let mut sheet = Sheet::of(record.to_text().as_bytes());
    let more = sheet.lines[LINES_BEFORE].clone();
    match turn % 7 {
        0 => sheet.lines.push(more),
        1 => sheet.lines.push(b"x".to_vec()),
        2 => sheet.lines.push(b" ".to_vec()),
        3 => sheet.lines.extend(vec![more; 3000]),
        4 => {
            sheet.lines.push(more);
            sheet.ended = false;
        }
        5 => {
            // A fault before the extra line comes first.
            let line = rng.below(sheet.lines.len());
            sheet.lines[line].push(b' ');
            sheet.lines.push(more);
        }
        _ => {
            // A number out of range before the extra line comes later.
            set_value(&mut sheet.lines[0], 0, b"25");
            sheet.lines.push(more);
        }
    }
    block_of_sheet(rng, &sheet)
}

/// Bytes behind the closing empty line, which are not read.
pub fn surplus<K: Made>(rng: &mut Rng, turn: usize) -> Vec<u8> {
    let record = K::any(rng);
    let text = record.to_text().into_bytes();
    let behind = match turn % 7 {
        0 => b"\n".to_vec(),
        1 => b"x".to_vec(),
        2 => K::any(rng).to_text().into_bytes(),
        3 => text.clone(),
        4 => {
            let count = rng.below(200);
            rng.bytes(count)
        }
        5 => vec![b'a'; 100_000],
        _ => record.to_text().into_bytes()[..10].to_vec(),
    };
    with_surplus(text, &behind)
}

/// A block with a damage of these kinds.
pub fn damaged<K: Made>(rng: &mut Rng, turn: usize, kinds: &[damage::Damage]) -> Vec<u8> {
    let record = K::any(rng);
    let text = block(rng, &record);
    kinds[turn % kinds.len()](rng, text)
}

/// A text that ends within one of its lines, or in front of it.
pub fn end_in_line<K: Made>(rng: &mut Rng, turn: usize) -> Vec<u8> {
    let (mut sheet, line) = nth_line::<K>(rng, turn);
    sheet.end_in(line, |length| match turn / 6 % 4 {
        0 => length,
        1 => 0,
        2 => 1 + rng.below(length),
        _ => length - 1,
    });
    sheet.text()
}

/// Bytes that were never a sheet.
pub fn noise<K: Made>(rng: &mut Rng, turn: usize) -> Vec<u8> {
    let length = rng.pick(&[0, 1, 2, 3, 10, 100, 3000]);
    match turn % 5 {
        0 => rng.bytes(length),
        1 => rng.bytes_of(damage::SHEET_BYTES, length),
        2 => rng.bytes_of(damage::ODD_BYTES, length),
        3 => rng.bytes_of(b"\n", length.min(10)),
        _ => {
            let record = K::any(rng);
            let mut sheet = Sheet::of(record.to_text().as_bytes());
            rng.shuffle(&mut sheet.lines);
            sheet.text()
        }
    }
}

/// Lines of many bytes: digits, letters, blanks, pairs.
pub fn long<K: Made>(rng: &mut Rng, turn: usize) -> Vec<u8> {
    let (mut sheet, line) = nth_line::<K>(rng, turn);
    let length = rng.pick(&[70, 300, 5_000, 66_000, 140_000]);
    let line = &mut sheet.lines[line];
    let pair = rng.below(damage::pairs(line).len());
    match turn / 6 % 6 {
        0 => set_value(line, pair, &vec![b'0'; length]),
        1 => set_value(line, pair, &vec![b'7'; length]),
        2 => line.extend(vec![b' '; length]),
        3 => *line = vec![b'a'; length],
        4 => *line = b"to=1 at=1 ".repeat(length / 10),
        _ => drop(line.splice(..0, vec![0; length])),
    }
    block_of_sheet(rng, &sheet)
}

/// Several faults of different checks in one block: the order of the checks
/// decides between them.
pub fn several<K: Made>(rng: &mut Rng, turn: usize) -> Vec<u8> {
    let mut record = with_curves::<K>(rng);
    let faults = 1 + turn % 63;
    let count = record.count;
    if faults & 1 != 0 {
        let off = rng.pick(&[-1, 1]);
        shift_seconds::<K>(&mut record.intervals[..count], off);
    }
    if faults & 2 != 0 {
        let kind = rng.below(4);
        break_curve(rng, curve_of(&mut record, turn % 2 == 0), kind);
    }
    if faults & 4 != 0 {
        K::hinder(&mut record.intervals[rng.below(count)]);
    }
    if faults & 8 != 0 {
        *curve_of(&mut record, rng.once_in(2)) = Curve::default();
    }
    let mut sheet = Sheet::of(record.to_text().as_bytes());
    if faults & 16 != 0 {
        some_number_out::<K>(rng, &mut sheet);
    }
    if faults & 32 != 0 {
        return damage::any(rng, sheet.text());
    }
    block_of_sheet(rng, &sheet)
}

/// A number just outside its range in one of the lines.
fn some_number_out<K: Kind>(rng: &mut Rng, sheet: &mut Sheet) {
    let line = sheet.any_line(rng);
    let mut kinds = keys_and_sides::<K>();
    kinds.retain(|(kind, ..)| *kind == line.min(LINES_BEFORE));
    let (_, key, range, side) = rng.pick(&kinds);
    let value = match side {
        Side::Below => range.low - 1,
        Side::Above => range.high + 1,
    };
    set_key(rng, &mut sheet.lines[line], key, &value.to_string());
}

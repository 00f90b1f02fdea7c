//! Hours that leave their economic operating point to the curve, shared by the
//! tests.

use second::{Curve, HourRecord, Interval};

use super::{still_hour, with_line, with_value, Numbers};

/// An hour of 100 kW day-ahead at 2000. In each quarter real time schedules 50,
/// the unit runs at 80, all of it compensable, and the price is 5000. No line
/// says its point.
pub const OPEN: &str = "\
hour=0 en=100 reg=0 r1=0 r2=0 r3=0 breg=0 b1=0 b2=0 b3=0
da=0 n=1 to=100 at=2000
rt=0 n=1 to=60 at=2000
s=900 en=50 ae=80 co=50 eop=- pen=5000 lim=0 uol=- r1=0 r2=0 r3=0 p1=0 p2=0 p3=0 reg=0 preg=0 breg=0 mv=0 pmv=0 bmv=0
s=900 en=50 ae=80 co=50 eop=- pen=5000 lim=0 uol=- r1=0 r2=0 r3=0 p1=0 p2=0 p3=0 reg=0 preg=0 breg=0 mv=0 pmv=0 bmv=0
s=900 en=50 ae=80 co=50 eop=- pen=5000 lim=0 uol=- r1=0 r2=0 r3=0 p1=0 p2=0 p3=0 reg=0 preg=0 breg=0 mv=0 pmv=0 bmv=0
s=900 en=50 ae=80 co=50 eop=- pen=5000 lim=0 uol=- r1=0 r2=0 r3=0 p1=0 p2=0 p3=0 reg=0 preg=0 breg=0 mv=0 pmv=0 bmv=0
";

/// That hour with another real-time curve.
pub fn open_on(rt: &str) -> String {
    with_line(OPEN, 3, rt)
}

/// The block with this value behind a key of its four interval lines.
pub fn in_each(text: &str, key: &str, value: &str) -> String {
    let change = |text: String, line| with_value(&text, line, key, value);
    (4..=7).fold(text.to_string(), change)
}

/// A good curve of up to five steps that starts below zero.
pub fn any_curve(numbers: &mut Numbers) -> Curve {
    let steps = numbers.below(6);
    if steps == 0 {
        return Curve::new(0, &[]);
    }
    curve_of(steps, numbers)
}

/// A good curve of so many steps that starts below zero.
pub fn curve_of(steps: u64, numbers: &mut Numbers) -> Curve {
    let start = numbers.between(-20, -5);
    let first = (start + numbers.between(1, 9), numbers.between(-3, 6));
    let mut all = vec![first];
    let (mut end, mut price) = (first.0, numbers.between(-3, 3));
    for _ in 1..steps {
        end += numbers.between(1, 9);
        all.push((end, price));
        price += numbers.between(0, 2);
    }
    Curve::new(start, &all)
}

/// An hour of small amounts around zero, most of whose lines say no point. Any
/// of its intervals may lag or be refused.
pub fn any_hour(numbers: &mut Numbers) -> HourRecord {
    let mut record = still_hour(numbers.between(0, 23));
    record.day_ahead.en = numbers.between(-9, 9);
    record.day_ahead.r1 = numbers.between(0, 4);
    record.da = curve_of(5, numbers);
    record.rt = any_curve(numbers);
    for interval in record.intervals.iter_mut().take(4) {
        *interval = Interval {
            en: numbers.between(-9, 9),
            ae: numbers.between(-9, 12),
            co: numbers.between(0, 9),
            eop: Some(numbers.between(-12, 9)).filter(|eop| *eop > 3),
            pen: numbers.between(-4, 7),
            lim: numbers.between(-12, -4),
            uol: Some(numbers.between(0, 40)).filter(|uol| *uol < 6),
            r1: numbers.between(0, 4),
            p1: numbers.between(-2, 5),
            ..*interval
        };
    }
    record
}

//! Hours and days that leave points to the curve: they lie where the point
//! decides, and show who finds it by another rule.

use second::record::{Record, Unit};
use second::text::cut_block;
use second::{HourRecord, Step};

use crate::plan::Recipe;
use crate::point_hours::paying_at_steps;
use crate::points::{found, said_by};
use crate::random::Rng;
use crate::three::parts;
use crate::{day_points, hour};

/// A rule for the point of an hour at a price of energy.
type Rule = fn(&HourRecord, i64) -> Option<i64>;

/// Rules that come near the sheet's.
const RULES: [(&str, Rule); 6] = [
    ("the start", |hour, _| steps(hour).map(|_| hour.rt.start)),
    ("the last end", |hour, _| Some(steps(hour)?.last()?.to)),
    ("no step at the price", |hour, pen| {
        prefix(hour, |step| step.at < pen)
    }),
    ("cheap steps behind a dear one", |hour, pen| {
        let cheap = steps(hour)?.iter().filter(|step| step.at <= pen);
        Some(cheap.map(|step| step.to).max().unwrap_or(hour.rt.start))
    }),
    ("the first end at the least", |hour, pen| {
        let first = steps(hour)?[0].to;
        prefix(hour, |step| step.at <= pen).map(|point| point.max(first))
    }),
    ("the day-ahead curve", |hour, pen| {
        let asked = HourRecord {
            rt: hour.da,
            ..hour.clone()
        };
        prefix(&asked, |step| step.at <= pen)
    }),
];

/// The steps of the real-time curve, if it has some.
fn steps(hour: &HourRecord) -> Option<&[Step]> {
    Some(hour.rt.used()).filter(|steps| !steps.is_empty())
}

/// The end of the first steps that are all taken.
fn prefix(hour: &HourRecord, taken: impl Fn(&Step) -> bool) -> Option<i64> {
    let first = steps(hour)?.iter().take_while(|step| taken(step));
    Some(first.last().map_or(hour.rt.start, |step| step.to))
}

/// The hours of so many turns of a recipe, if they are in form.
fn hours_of(name: &str, turns: usize) -> Vec<HourRecord> {
    let mut recipes = hour::PROGRAM.recipes.iter();
    let recipe: &Recipe = recipes.find(|recipe| recipe.name == name).expect(name);
    let read = |turn| {
        let text = (recipe.make)(&mut Rng::new(4, turn as u64), turn);
        Record::<Unit>::read(&cut_block(&text).lines).ok()
    };
    (0..turns).filter_map(read).collect()
}

/// How many of these hours each rule answers otherwise.
fn shown(hours: &[HourRecord]) -> [usize; 6] {
    let answer = |record: &HourRecord| second::hour_text(record.to_text().as_bytes());
    RULES.map(|(_, rule)| {
        let other = |hour: &&HourRecord| answer(hour) != answer(&said_by(hour, rule));
        hours.iter().filter(other).count()
    })
}

#[test]
fn the_first_steps_up_to_the_price_are_the_rule() {
    for name in ["points at steps", "few kilowatts", "broken curves"] {
        for hour in hours_of(name, 200) {
            for pen in hour.used().iter().map(|line| line.pen) {
                let point = prefix(&hour, |step| step.at <= pen);
                // Of curves that break a rule the steps may fall from end to end.
                let good = hour.rt.fault().is_none();
                assert!(!good || point == found(&hour.rt, pen), "{hour:?} {pen}");
            }
        }
    }
}

#[test]
fn hours_show_who_finds_points_otherwise() {
    for (name, least) in [
        ("points at steps", 75),
        ("points of few kilowatts", 12),
        ("points of derated hours", 8),
        ("points at the reach", 12),
        ("plants", 5),
        ("storage", 5),
        ("few kilowatts", 5),
        ("ends of ranges", 5),
    ] {
        let shown = shown(&hours_of(name, 300));
        for ((rule, _), hours) in RULES.iter().zip(shown) {
            assert!(hours >= least, "{name}: {rule} in {hours} of 300");
        }
    }
}

/// The hours that lie at steps are all paid, and the point can be seen in the
/// cents of a day.
#[test]
fn cents_show_who_finds_points_otherwise() {
    let cents = |record: &HourRecord| {
        let answer = second::hour_text(record.to_text().as_bytes());
        answer
            .rsplit_once(" pay=")
            .map(|(_, cents)| cents.to_string())
    };
    let make = |turn| paying_at_steps(&mut Rng::new(4, turn as u64), turn);
    let hours: Vec<HourRecord> = (0..300).map(make).collect();
    for (name, rule) in RULES {
        let other = |hour: &&HourRecord| cents(hour) != cents(&said_by(hour, rule));
        let shown = hours.iter().filter(other).count();
        assert!(shown > 30, "{name} in {shown} of 300");
    }
    for turn in 0..20 {
        let text = day_points::by_points(&mut Rng::new(4, turn as u64), turn);
        let answer = second::day_text(&text);
        assert!(!answer.contains("refused="), "{answer}");
        let paid = answer.lines().filter(|line| !line.ends_with("=0"));
        assert!(paid.count() > 12, "{answer}");
    }
}

/// Every kind of mark spares hours that would be refused for their point.
#[test]
fn excluded_hours_are_not_asked_for_points() {
    let mut spared = [0; 8];
    for turn in 0..140 {
        let text = day_points::excluded(&mut Rng::new(4, turn as u64), turn);
        let [_, own, _, blocks] = parts(&text);
        let marked = String::from_utf8_lossy(own).into_owned();
        let unmarked: String = marked.lines().map(without_marks).collect();
        let plain = ["\n", &unmarked, "\n"].concat();
        let then = second::day_text(&[plain.as_bytes(), blocks].concat());
        let now = second::day_text(&text);
        let kind = if turn % 2 == 0 { turn / 2 % 7 } else { 7 };
        for (now, then) in now.lines().zip(then.lines()) {
            let was = then.contains(" refused=10 at=");
            spared[kind] += usize::from(was && now.ends_with(" pay=0"));
        }
    }
    assert!(spared.iter().all(|hours| *hours > 10), "{spared:?}");
}

/// The line of a header in which no hour is excluded.
fn without_marks(line: &str) -> String {
    let line = match line.split_once('=') {
        Some(("cat", row)) => format!("cat={}", row.replace('0', "1")),
        Some((key, row)) if key.starts_with('x') => format!("{key}={}", row.replace('1', "0")),
        _ => line.to_string(),
    };
    line + "\n"
}

//! The economic operating point that the real-time curve gives, and what an
//! hour pays by it.

mod common;

use std::collections::BTreeMap;

use common::point::*;
use common::*;
use second::{hour, hour_text, Answer, Ask, Check, Curve, Event, HourRecord, Interval, Run};

/// The point that an interval is measured by, as its payment shows it.
///
/// An injection of 1000 kW day-ahead, for which real time schedules a
/// withdrawal of 1000 and which runs in full, is measured from the point if
/// that is above 0, else from 0. A withdrawal the other way round is measured
/// from the point if that is below 0, else from 0. So the two make the point
/// together. The price lies 1 above the day-ahead bid: each kW from the limit
/// to the schedule makes a grain in a second.
fn shown(rt: Curve, pen: i64) -> i64 {
    let limit = |d: i64| {
        let mut record = still_hour(0);
        record.day_ahead.en = d;
        record.da = Curve::new(-1000, &[(1000, pen - 1)]);
        record.rt = rt;
        let quarter = Interval {
            en: -d,
            ae: d,
            eop: None,
            pen,
            lim: -2000,
            ..still(900)
        };
        record.set_intervals(&[quarter; 4]);
        d - contributions(&record)[0] / 900
    };
    limit(1000) + limit(-1000)
}

#[test]
fn the_point_is_the_last_end_that_the_price_pays_for() {
    let rt = Curve::new(0, &[(60, 2000), (90, 3000), (120, 4000)]);
    // A step that costs just the price is taken, and one that costs 1 more is
    // not.
    assert_eq!(shown(rt, 2000), 60);
    assert_eq!(shown(rt, 2001), 60);
    assert_eq!(shown(rt, 2999), 60);
    assert_eq!(shown(rt, 3000), 90);
    assert_eq!(shown(rt, 3999), 90);
    // All steps.
    assert_eq!(shown(rt, 4000), 120);
    assert_eq!(shown(rt, 1_000_000), 120);
}

#[test]
fn a_dear_first_step_leaves_the_start() {
    let rt = Curve::new(20, &[(60, 2000), (90, 3000)]);
    assert_eq!(shown(rt, 1999), 20);
    assert_eq!(shown(rt, -999_999), 20);
    assert_eq!(shown(rt, 2000), 60);
    // However cheap the second step is: the unit cannot run it alone.
    let rt = Curve::new(20, &[(60, 5000), (90, 1000), (120, 6000)]);
    assert_eq!(shown(rt, 1000), 20);
    assert_eq!(shown(rt, 4999), 20);
    // At the price of the first, both are taken; the third is dearer.
    assert_eq!(shown(rt, 5000), 90);
    assert_eq!(shown(rt, 5999), 90);
    assert_eq!(shown(rt, 6000), 120);
}

#[test]
fn one_step() {
    let rt = Curve::new(0, &[(60, 2000)]);
    assert_eq!(shown(rt, 1999), 0);
    assert_eq!(shown(rt, 2000), 60);
    let rt = Curve::new(-60, &[(-59, -2000)]);
    assert_eq!(shown(rt, -2001), -60);
    assert_eq!(shown(rt, -2000), -59);
}

#[test]
fn a_curve_from_below_zero() {
    let rt = Curve::new(-70, &[(-20, -50), (0, -10), (40, 0), (41, 30)]);
    assert_eq!(shown(rt, -51), -70);
    assert_eq!(shown(rt, -50), -20);
    assert_eq!(shown(rt, -11), -20);
    assert_eq!(shown(rt, -10), 0);
    assert_eq!(shown(rt, -1), 0);
    assert_eq!(shown(rt, 0), 40);
    assert_eq!(shown(rt, 30), 41);
}

#[test]
fn twelve_steps() {
    let steps: Vec<(i64, i64)> = (1..=12).map(|k| (10 * k, 100 * k)).collect();
    let rt = Curve::new(0, &steps);
    for k in 0..=12 {
        assert_eq!(shown(rt, 100 * k), 10 * k);
        assert_eq!(shown(rt, 100 * k + 99), 10 * k);
    }
}

/// By document 01, in each quarter: D is 100, R is 50, and A, 80, lies below
/// its cap of 50 + 50. The only step costs 2000, no more than 5000, so E is 60.
/// R < E: LL = max(min(max(50, min(80, 60)), 100), 0) = 60, and the quarter
/// makes (40 x 5000 - 40 x 2000) x 900 = 108,000,000 grains. Four of them make
/// 432,000,000 grains, which are 120 cents.
///
/// With a further step to 90 at 3000 E is 90, LL = max(50, min(80, 90)) = 80,
/// and the quarter makes 20 x 3000 x 900 = 54,000,000 grains. Four of them make
/// 216,000,000 grains, which are 60 cents.
#[test]
fn a_further_step_can_move_the_payment() {
    let printed = |grains: &str, cents: &str| {
        let quarters = (1..=4).map(|i| format!("i={i} grains={grains}\n"));
        format!("{}hour=0 pay={cents}\n", quarters.collect::<String>())
    };
    let (short, long) = (printed("108000000", "120"), printed("54000000", "60"));
    assert_eq!(hour_text(OPEN.as_bytes()), short);
    let further = open_on("rt=0 n=2 to=60 at=2000 to=90 at=3000");
    assert_eq!(hour_text(further.as_bytes()), long);
    // The step counts up to the price, and one that costs more does not.
    let at_price = open_on("rt=0 n=2 to=60 at=2000 to=90 at=5000");
    assert_eq!(hour_text(at_price.as_bytes()), long);
    let dearer = open_on("rt=0 n=2 to=60 at=2000 to=90 at=5001");
    assert_eq!(hour_text(dearer.as_bytes()), short);
    // Lines that say their point do not ask the curve for it.
    for said in [OPEN, &further, &dearer] {
        assert_eq!(hour_text(in_each(said, "eop", "60").as_bytes()), short);
        assert_eq!(hour_text(in_each(said, "eop", "90").as_bytes()), long);
    }
}

#[test]
fn each_interval_has_its_own_price_and_its_own_say() {
    let text = open_on("rt=0 n=2 to=60 at=2000 to=70 at=3000");
    let text = with_value(&text, 5, "pen", "2500");
    let text = with_value(&text, 6, "eop", "75");
    let text = with_value(&text, 7, "pen", "1999");
    // LL is 70, 60, 75, and 50: where the point is 0, real time's schedule.
    let quarter = |d_less_ll: i64, pen: i64| d_less_ll * (pen - 2000) * 900;
    let grains = [
        quarter(30, 5000),
        quarter(40, 2500),
        quarter(25, 5000),
        quarter(50, 1999),
    ];
    let lines: Vec<String> = grains.map(|grains| format!("grains={grains}")).into();
    let printed = hour_text(text.as_bytes());
    for (line, grains) in printed.lines().zip(&lines) {
        assert!(line.ends_with(grains), "{printed}");
    }
}

#[test]
fn only_the_real_time_curve_gives_the_point() {
    // The day-ahead curve, cheap to its end, does not: E is 60 and LL as well.
    let text = with_line(OPEN, 2, "da=0 n=2 to=70 at=1000 to=100 at=2000");
    let quarter = (40 * 5000 - (10 * 1000 + 30 * 2000)) * 900;
    assert!(hour_text(text.as_bytes()).starts_with(&format!("i=1 grains={quarter}\n")));
    // And it need not be there.
    let mut record = still_hour(0);
    record.rt = Curve::new(0, &[(60, 2000)]);
    record.intervals[0].eop = None;
    assert_eq!(contributions(&record), [0; 4]);
}

/// The curve with some of its steps cut in two where this is still a good
/// curve, and with some of the steps of one price made one.
fn recut(curve: &Curve, numbers: &mut Numbers) -> Curve {
    let mut steps: Vec<(i64, i64)> = Vec::new();
    let mut start = curve.start;
    for (i, step) in curve.used().iter().enumerate() {
        let next = curve.used().get(i + 1);
        // Behind two pieces of a dear first step the second one would be third.
        let dear_first = i == 0 && next.is_some_and(|next| next.at < step.at);
        let middle = numbers.between(start, step.to - 1);
        if middle > start && !dear_first {
            steps.push((middle, step.at));
        }
        if steps.last().is_some_and(|last| last.1 == step.at) && numbers.below(2) == 0 {
            steps.pop();
        }
        steps.push((step.to, step.at));
        start = step.to;
    }
    Curve::new(curve.start, &steps)
}

#[test]
fn any_cutting_of_the_curve_gives_the_same_answer() {
    let mut numbers = Numbers(5);
    let mut other = 0;
    for _ in 0..4000 {
        let record = any_hour(&mut numbers);
        let mut cut = record.clone();
        cut.rt = recut(&record.rt, &mut numbers);
        assert_eq!(cut.rt.fault(), None);
        other += u32::from(cut.rt != record.rt);
        let answer = judged(&record, Ask::default());
        let text = record.to_text() + &cut.to_text();
        assert_eq!(judged(&cut, Ask::default()), answer, "{text}");
    }
    assert!(other > 2000, "{other}");
    let few = Curve::new(-10, &[(60, 2000), (90, 3000)]);
    let many = [(20, 2000), (60, 2000), (61, 3000), (89, 3000), (90, 3000)];
    let many = Curve::new(-10, &many);
    for (pen, point) in [(1999, -10), (2000, 60), (2999, 60), (3000, 90), (3001, 90)] {
        assert_eq!([shown(few, pen), shown(many, pen)], [point; 2]);
    }
}

/// The words of the rule: the largest end of a step such that it and every step
/// before it cost no more than the price, or the start; none without steps.
fn by_the_words(rt: &Curve, pen: i64) -> Option<i64> {
    let steps = rt.used();
    let fits = |n: &usize| steps[..*n].iter().all(|step| step.at <= pen);
    let ends = (1..=steps.len()).filter(fits).map(|n| steps[n - 1].to);
    let point = ends.max().unwrap_or(rt.start);
    (!steps.is_empty()).then_some(point)
}

#[test]
fn an_hour_is_answered_as_if_its_lines_said_the_point() {
    let mut numbers = Numbers(6);
    let mut seen = BTreeMap::new();
    for _ in 0..6000 {
        let record = any_hour(&mut numbers);
        let mut said = record.clone();
        for interval in said.intervals.iter_mut().take(4) {
            let found = by_the_words(&record.rt, interval.pen);
            interval.eop = interval.eop.or(found).or(Some(0));
        }
        let answer = judged(&record, Ask::default());
        if record.rt.count > 0 {
            let of_said = judged(&said, Ask::default());
            assert_eq!(answer, of_said, "{}", record.to_text());
        }
        let check = match answer.0 {
            Answer::Paid(_) => None,
            Answer::Refused(refusal) => Some(refusal.check),
        };
        *seen.entry(check).or_insert(0) += 1;
    }
    for check in [
        None,
        Some(Check::Point),
        Some(Check::Derate),
        Some(Check::Reach),
    ] {
        assert!(
            seen.get(&check).is_some_and(|count| *count > 200),
            "{seen:?}"
        );
    }
    assert_eq!(seen.len(), 4, "{seen:?}");
}

#[test]
fn a_record_and_its_block_have_the_same_answer() {
    let mut numbers = Numbers(7);
    for _ in 0..3000 {
        let record = any_hour(&mut numbers);
        let mut row = vec![-7; 32];
        let text = record.to_text();
        let run = &mut Run::default();
        let answer = hour::judge_block(text.as_bytes(), Ask::default(), &mut row, run);
        assert_eq!((answer, row), judged(&record, Ask::default()), "{text}");
        let lines = second::text::cut_block(text.as_bytes()).lines;
        assert_eq!(HourRecord::read(&lines), Ok(record));
    }
}

#[test]
fn every_kind_of_point() {
    let mut numbers = Numbers(8);
    let mut run = Run::default();
    for i in 0..3000 {
        let ask = Ask {
            excluded: i % 5 == 0,
            ..Ask::default()
        };
        hour::judge_record(&any_hour(&mut numbers), ask, &mut [0; 4], &mut run);
    }
    assert_eq!(run.trace.missing(Event::points()), []);
}

//! REACH in a line's hour: which kilowatts need a price, and on which curve; and
//! what a line's intervals reach in all.

mod common;

use common::line::*;
use common::*;
use second::{line, Answer, Ask, Curve, Event, LineAhead, LineEvent, LineInterval, LineRecord};
use second::{Run, Way};

/// An hour of 100 kW day-ahead whose third quarter is scheduled and run so.
fn third_quarter(en: i64, aei: i64, da: &str, rt: &str) -> String {
    let still = "s=900 en=100 aei=100 aew=7 pin=20 pout=3\n";
    format!(
        "hour=3 dasi=100 dasw=7\nda={da}\nrt={rt}\n{still}{still}\
         s=900 en={en} aei={aei} aew=7 pin=20 pout=3\n{still}"
    )
}

/// The block with the curve of a branch, which alone has steps.
fn on(en: i64, aei: i64, curve: &str) -> String {
    match en < 100 {
        true => third_quarter(en, aei, curve, "0 n=0"),
        false => third_quarter(en, aei, "0 n=0", curve),
    }
}

#[track_caller]
fn misses(text: &str) {
    line_refused(text, Ask::default(), 7, 3);
}

#[track_caller]
fn makes(text: &str, each_second: i64) {
    assert_eq!(line_grains(text), [0, 0, 900 * each_second, 0], "{text}");
}

#[test]
fn a_stretch_is_asked_to_its_last_kilowatt() {
    // At a bid of 10 cents 40 kW below day-ahead make 40 x 20 - 40 x 10, which is
    // cut off unless less was scheduled, and 50 kW above -50 x 20 + 50 x 10.
    for en in [99, 100, 101] {
        makes(
            &on(en, 60, "60 n=1 to=100 at=10"),
            if en < 100 { 400 } else { 0 },
        );
        makes(&on(en, 150, "100 n=1 to=150 at=10"), -500);
        for aei_and_curve in [
            (60, "61 n=1 to=100 at=10"),
            (60, "60 n=1 to=99 at=10"),
            (60, "61 n=1 to=99 at=10"),
            (60, "100 n=1 to=200 at=10"),
            (60, "0 n=1 to=60 at=10"),
            (60, "0 n=0"),
            (150, "101 n=1 to=150 at=10"),
            (150, "100 n=1 to=149 at=10"),
            (150, "-5 n=2 to=0 at=9 to=100 at=10"),
            (150, "150 n=1 to=200 at=10"),
            (150, "0 n=0"),
            // One kilowatt below day-ahead, and one above.
            (99, "100 n=1 to=200 at=10"),
            (101, "0 n=1 to=100 at=10"),
        ] {
            let (aei, curve) = aei_and_curve;
            misses(&on(en, aei, curve));
        }
        makes(&on(en, 100, "0 n=0"), 0);
    }
}

#[test]
fn only_the_curve_of_the_branch_is_asked() {
    let (whole, none) = ("0 n=1 to=200 at=10", "0 n=0");
    makes(&third_quarter(99, 60, whole, none), 400);
    misses(&third_quarter(99, 60, none, whole));
    // Scheduled below day-ahead and run above it, it is the day-ahead curve
    // still, and the other way round.
    makes(&third_quarter(99, 150, whole, none), -500);
    misses(&third_quarter(99, 150, none, whole));
    makes(&third_quarter(100, 150, none, whole), -500);
    misses(&third_quarter(100, 150, whole, none));
    makes(&third_quarter(100, 60, none, whole), 0);
    misses(&third_quarter(100, 60, whole, none));
}

#[test]
fn a_price_is_asked_where_the_cap_gives_nothing() {
    // 40 kW less at 1,000,000 cents: no bid in range would bring it below 0.
    let dear = |text: &str| with_value(text, 6, "pin", "1000000");
    makes(&dear(&on(100, 60, "60 n=1 to=100 at=1000000")), 0);
    misses(&dear(&on(100, 60, "61 n=1 to=100 at=1000000")));
    misses(&dear(&on(100, 60, "0 n=0")));
}

#[test]
fn an_empty_stretch_needs_no_curve() {
    let mut text = third_quarter(99, 100, "0 n=0", "0 n=0");
    makes(&text, 0);
    // Its withdrawal counts all the same: 10 kW more at 3 cents.
    text = with_value(&text, 6, "aew", "17");
    makes(&text, 30);
}

#[test]
fn the_first_interval_that_misses_is_named() {
    let mut text = on(99, 60, "61 n=1 to=100 at=10");
    misses(&text);
    text = with_value(&text, 7, "aei", "60");
    misses(&text);
    text = with_value(&text, 5, "aei", "60");
    line_refused(&text, Ask::default(), 7, 2);
    // A refused interval takes the contributions of all others with it.
    assert_eq!(judged_line(&text, Ask::default()).1, [-7; 32]);
}

#[test]
fn an_excluded_hour_is_checked_and_pays_nothing() {
    let ask = Ask {
        excluded: true,
        expected: Some(3),
        hours: 24,
    };
    let reach = on(99, 60, "61 n=1 to=100 at=10");
    for text in [&reach, &on(99, 60, "60 n=1 to=100 at=10")] {
        let (answer, row) = judged_line(text, ask);
        let Answer::Paid(paid) = answer else {
            panic!("{answer:?}");
        };
        assert_eq!((paid.hour, paid.intervals), (3, 4));
        assert_eq!((paid.grains, paid.cents), (0, 0));
        assert_eq!(row[..5], [0, 0, 0, 0, -7]);
    }
    let seconds = with_value(&reach, 4, "s", "899");
    line_refused(&seconds, ask, 5, 0);
    let curve = with_line(&seconds, 3, "rt=1 n=0");
    line_refused(&curve, ask, 4, 3);
    let order = with_value(&curve, 1, "hour", "4");
    line_refused(&order, ask, 3, 1);
    let range = with_value(&order, 7, "pin", "1000001");
    line_refused(&range, ask, 2, 7);
    line_refused(&with_value(&range, 7, "aei", "07"), ask, 1, 7);
}

/// An hour of a few kilowatts all around zero, on curves that price most of
/// them.
fn hour_around_zero(numbers: &mut Numbers) -> LineRecord {
    let mut record = LineRecord {
        day_ahead: LineAhead {
            hour: 5,
            dasi: numbers.between(-4, 4),
            dasw: numbers.between(-4, 4),
        },
        ..LineRecord::default()
    };
    for curve in [&mut record.da, &mut record.rt] {
        let start = numbers.between(-7, 0);
        let end = start + numbers.between(2, 12);
        if numbers.below(8) > 0 {
            let (dear, price) = (numbers.between(-5, 9), numbers.between(-5, 5));
            *curve = Curve::new(start, &[(start + 1, dear), (end, price)]);
        }
    }
    let intervals = [(); 4].map(|()| LineInterval {
        s: 900,
        en: numbers.between(-5, 5),
        aei: numbers.between(-5, 5),
        aew: numbers.between(-5, 5),
        pin: numbers.between(-5, 9),
        pout: numbers.between(-5, 9),
    });
    record.set_intervals(&intervals);
    record
}

#[test]
fn every_event_of_a_line_and_both_ways_of_summing() {
    let mut numbers = Numbers(3);
    let mut run = Run::new(Way::Steps);
    for _ in 0..4000 {
        let text = hour_around_zero(&mut numbers).to_text();
        for excluded in [false, true] {
            let ask = Ask {
                excluded,
                ..Ask::default()
            };
            judged_line(&text, ask);
            line::judge_block(text.as_bytes(), ask, &mut [0; 4], &mut run);
        }
    }
    let of_interval = |event: &LineEvent| !matches!(event, LineEvent::Mark(_));
    let wanted = LineEvent::all().into_iter().filter(of_interval);
    assert_eq!(run.trace.missing(wanted.map(Event::Line)), []);
    // And there are no others.
    for (event, _) in run.trace.events() {
        if let Event::Line(event) = event {
            assert!(LineEvent::all().contains(&event), "{event:?}");
        }
    }
}

//! What the intervals of a line contribute, worked out by hand.

mod common;

use common::line::*;
use common::*;
use second::{Answer, Ask, LineInterval, LineRecord};

/// 100 kW day-ahead, on curves from 0 to 200 that cost 10 cents day-ahead and
/// 30 in real time; nothing is withdrawn. The price in is 20 cents.
const PLAIN: &str = "\
hour=3 dasi=100 dasw=0
da=0 n=1 to=200 at=10
rt=0 n=1 to=200 at=30
s=900 en=100 aei=100 aew=0 pin=20 pout=0
s=900 en=100 aei=100 aew=0 pin=20 pout=0
s=900 en=100 aei=100 aew=0 pin=20 pout=0
s=900 en=100 aei=100 aew=0 pin=20 pout=0
";

/// The block with its first interval scheduled and run so.
fn first(text: &str, en: i64, aei: i64) -> String {
    let text = with_value(text, 4, "en", &en.to_string());
    with_value(&text, 4, "aei", &aei.to_string())
}

/// The block with another withdrawal in its first interval, at 20 cents.
fn withdrawn(text: &str, dasw: i64, aew: i64) -> String {
    let mut text = with_value(text, 1, "dasw", &dasw.to_string());
    for line in 4..=7 {
        text = with_value(&text, line, "aew", &dasw.to_string());
    }
    let text = with_value(&text, 4, "aew", &aew.to_string());
    with_value(&text, 4, "pout", "20")
}

/// What a second of the first interval makes; the others make nothing.
#[track_caller]
fn makes(text: &str, each_second: i64) {
    assert_eq!(line_grains(text), [900 * each_second, 0, 0, 0], "{text}");
}

#[test]
fn the_worked_block() {
    assert_eq!(line_grains(LINE_BLOCK), LINE_GRAINS);
    let (answer, _) = judged_line(LINE_BLOCK, Ask::default());
    let Answer::Paid(paid) = answer else {
        panic!("{answer:?}");
    };
    assert_eq!((paid.hour, paid.intervals), (14, 4));
    assert_eq!((paid.grains, paid.cents), (25_650_000_000, LINE_CENTS));
}

#[test]
fn the_schedule_alone_decides_the_branch() {
    // Below day-ahead. 40 kW less: 40 x 20 - 40 x 10. 50 kW more: -50 x 20, and
    // the integral from 150 down to 100 is -50 x 10.
    makes(&first(PLAIN, 99, 60), 400);
    makes(&first(PLAIN, 99, 150), -500);
    makes(&first(PLAIN, -2_000_000, 150), -500);
    // At day-ahead, and above it. 40 kW less: 40 x 20 - 40 x 30. 50 kW more:
    // -50 x 20 + 50 x 30 = 500, which is cut off.
    for en in [100, 101, 2_000_000] {
        makes(&first(PLAIN, en, 60), -400);
        makes(&first(PLAIN, en, 150), 0);
    }
    // An empty stretch makes nothing on either branch.
    makes(&first(PLAIN, 99, 100), 0);
    makes(&first(PLAIN, 101, 100), 0);
}

#[test]
fn a_withdrawal_counts_on_both_branches() {
    // Below day-ahead 400 are made; 50 kW less withdrawn take 50 x 20 away, and
    // 50 kW more bring as much.
    let lower = first(PLAIN, 99, 60);
    makes(&withdrawn(&lower, 50, 0), 400 - 1000);
    makes(&withdrawn(&lower, 0, 50), 400 + 1000);
    makes(&withdrawn(&lower, -50, -100), 400 - 1000);
    // At day-ahead -400 are made.
    let other = first(PLAIN, 100, 60);
    makes(&withdrawn(&other, 50, 0), -400 - 1000);
    makes(&withdrawn(&other, 0, 10), -400 + 200);
    // Without a stretch it is all there is.
    makes(&withdrawn(&first(PLAIN, 99, 100), 0, 50), 1000);
    makes(&withdrawn(PLAIN, 50, 0), -1000);
}

#[test]
fn the_cap_covers_the_whole_interval() {
    // The injection makes 500 and the withdrawal takes 1000: the cap finds -500,
    // and would leave -1000 if it were on the injection alone.
    let gain = first(PLAIN, 100, 150);
    makes(&withdrawn(&gain, 50, 0), -500);
    // The injection makes -400 and the withdrawal brings 1000: the cap finds 600
    // and leaves nothing.
    let loss = first(PLAIN, 100, 60);
    makes(&withdrawn(&loss, 0, 50), 0);
    // Just nothing, and one less.
    makes(&withdrawn(&loss, 0, 20), 0);
    makes(&with_value(&withdrawn(&loss, 0, 21), 4, "pout", "19"), -1);
    // There is no cap below day-ahead.
    makes(&withdrawn(&first(PLAIN, 99, 60), 0, 50), 1400);
}

#[test]
fn the_cap_is_on_each_interval() {
    // 500 are cut off before -400 is added.
    let text = first(PLAIN, 100, 150);
    let text = with_value(&text, 5, "aei", "60");
    assert_eq!(line_grains(&text), [0, -360_000, 0, 0]);
}

#[test]
fn prices_may_be_below_zero() {
    // 40 kW less at -20, and a bid of -10 is not saved but lost.
    let text = with_value(&first(PLAIN, 99, 60), 4, "pin", "-20");
    makes(&text, -800 - 400);
    makes(&with_line(&text, 2, "da=0 n=1 to=200 at=-10"), -800 + 400);
    // 50 kW more at -20 make a gain of 1000, and cost -30 each.
    let text = with_value(&first(PLAIN, 100, 150), 4, "pin", "-20");
    makes(&text, 0);
    makes(&with_line(&text, 3, "rt=0 n=1 to=200 at=-30"), 1000 - 1500);
    // 50 kW less withdrawn at -20 bring 1000.
    let text = withdrawn(&first(PLAIN, 99, 100), 50, 0);
    makes(&with_value(&text, 4, "pout", "-20"), 1000);
}

/// Steps of 50, -5 and 7 cents that end at 0, 10 and 30 kW: the first is dearer.
const STEPS: &str = "-20 n=3 to=0 at=50 to=10 at=-5 to=30 at=7";

#[test]
fn integrals_run_both_ways_over_steps_below_zero() {
    let mut text = with_line(PLAIN, 2, &format!("da={STEPS}"));
    text = with_line(&text, 3, &format!("rt={STEPS}"));
    text = with_value(&text, 1, "dasi", "-10");
    for line in 4..=7 {
        text = with_value(&text, line, "en", "-10");
        text = with_value(&text, line, "aei", "-10");
        text = with_value(&text, line, "pin", "3");
    }
    // From -10 to 15 the steps cost 10 x 50 - 10 x 5 + 5 x 7 = 485. Down they
    // are given back: -25 x 3 + 485.
    makes(&first(&text, -11, 15), 410);
    // Up they are added: -75 + 485, which is cut off.
    makes(&first(&text, -10, 15), 0);
    makes(&with_value(&first(&text, -10, 15), 4, "pin", "20"), -15);
    // From -20 to -10 the first step costs 500: 30 - 500 and 30 - 500.
    makes(&first(&text, -11, -20), -470);
    makes(&first(&text, -10, -20), -470);
}

/// An hour in which nothing is injected, and one kW withdrawn in the first
/// intervals at these prices for these seconds: seconds times price in grains.
fn hour_of(parts: &[(i64, i64)]) -> LineRecord {
    let mut row: Vec<LineInterval> = Vec::new();
    for (s, pout) in parts {
        row.push(LineInterval {
            s: *s,
            en: -1,
            aew: 1,
            pout: *pout,
            ..LineInterval::default()
        });
    }
    let mut rest = 3600 - parts.iter().map(|(s, _)| s).sum::<i64>();
    while rest > 0 {
        row.push(LineInterval {
            s: rest.min(900),
            ..LineInterval::default()
        });
        rest -= 900;
    }
    let mut record = LineRecord::default();
    record.set_intervals(&row);
    record
}

#[test]
fn cents_are_the_nearest_of_the_sum() {
    for (parts, grains, pays) in [
        (&[(900, 4000)][..], 3_600_000, 1),
        (&[(900, 4000), (1, -1)], 3_599_999, 1),
        // A half goes up, and a grain less does not.
        (&[(900, 2000)], 1_800_000, 1),
        (&[(900, 2000), (1, -1)], 1_799_999, 0),
        (&[(900, 6000)], 5_400_000, 2),
        (&[(900, 4000), (900, 1999), (1, 899)], 5_399_999, 1),
        // 0.4 cents three times over, and none of them would pay alone.
        (&[(900, 1600); 3], 4_320_000, 1),
        // A half would pay a cent alone, and so would three quarters.
        (&[(900, 2000); 2], 3_600_000, 1),
        (&[(900, 2000); 3], 5_400_000, 2),
        (&[(900, 3000); 4], 10_800_000, 3),
        // A loss is set against the gains before: 2.6 less 0.4 make 2.2.
        (&[(900, 10_400), (900, -1600)], 7_920_000, 2),
        // The sum may be below 0, and then nothing is paid.
        (&[(1, -1)], -1, 0),
        (&[(900, -2000), (1, 1)], -1_799_999, 0),
        (&[(900, -2000)], -1_800_000, 0),
        (&[(900, -2000), (1, -1)], -1_800_001, 0),
        (&[(900, -1_000_000)], -900_000_000, 0),
        (&[], 0, 0),
    ] {
        let text = hour_of(parts).to_text();
        let (answer, _) = judged_line(&text, Ask::default());
        let Answer::Paid(paid) = answer else {
            panic!("{answer:?}");
        };
        assert_eq!((paid.grains, paid.cents), (grains, pays), "{parts:?}");
    }
}

#[test]
fn the_largest_amounts() {
    // 4,000,000 kW at 1,000,000 cents three times over: injection, withdrawal
    // and bid, for an hour.
    let text = "\
hour=3 dasi=2000000 dasw=-2000000
da=-2000000 n=1 to=2000000 at=-1000000
rt=-2000000 n=1 to=2000000 at=-1000000
";
    let interval = "s=900 en=0 aei=-2000000 aew=2000000 pin=1000000 pout=1000000\n";
    let most = 12_000_000_000_000 * 900;
    let gives = format!("{text}{}", interval.repeat(4));
    assert_eq!(line_grains(&gives), [most; 4]);
    let (answer, _) = judged_line(&gives, Ask::default());
    assert_eq!(answer.cents(), Some(12_000_000_000));
    // As much is taken away on the other branch.
    let takes = gives
        .replace("dasi=2000000 dasw=-2000000", "dasi=-2000000 dasw=2000000")
        .replace("aei=-2000000 aew=2000000", "aei=2000000 aew=-2000000");
    assert_eq!(line_grains(&takes), [-most; 4]);
    let (answer, _) = judged_line(&takes, Ask::default());
    assert_eq!(answer.cents(), Some(0));
}

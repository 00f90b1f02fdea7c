//! The worked example and the figures of document 01.

mod common;

use common::*;
use second::{cents, hour_text, Answer, Ask, Check, Curve, HourRecord, Interval, Refusal};

/// An hour whose first quarter is the given one and whose other three lag, so
/// that the first one's contribution is the hour's.
fn first_quarter(record: &mut HourRecord, first: Interval) -> Vec<i64> {
    let lagging = Interval {
        ae: -2_000_000,
        lim: 0,
        ..still(900)
    };
    record.set_intervals(&[first, lagging, lagging, lagging]);
    contributions(record)
}

#[test]
fn p1_to_p4_the_worked_example() {
    assert_eq!(hour_text(WORKED.as_bytes()), WORKED_ANSWER);
    let followed = format!("{WORKED}\nwhat follows is not read");
    assert_eq!(hour_text(followed.as_bytes()), WORKED_ANSWER);
}

#[test]
fn p5_a_reduced_withdrawal() {
    let mut record = still_hour(0);
    record.day_ahead.en = -50_000;
    record.da = Curve::new(-50_000, &[(0, 1500)]);
    let quarter = Interval {
        en: -20_000,
        ae: -20_000,
        eop: Some(-30_000),
        pen: 1000,
        lim: -20_001,
        ..still(900)
    };
    let grains = first_quarter(&mut record, quarter);
    assert_eq!(grains, [13_500_000_000, 0, 0, 0]);
}

#[test]
fn p6_an_increased_reserve() {
    let mut record = still_hour(0);
    record.day_ahead.r1 = 10_000;
    record.day_ahead.b1 = 500;
    let quarter = Interval {
        r1: 12_000,
        p1: 800,
        ..still(900)
    };
    let grains = first_quarter(&mut record, quarter);
    assert_eq!(grains, [-1_440_000_000, 0, 0, 0]);
}

#[test]
fn p7_movement() {
    let quarter = Interval {
        mv: 2000,
        pmv: 30,
        bmv: 10,
        ..still(900)
    };
    let grains = first_quarter(&mut still_hour(0), quarter);
    assert_eq!(grains, [-144_000_000, 0, 0, 0]);
    let below_bid = Interval { bmv: 31, ..quarter };
    assert_eq!(first_quarter(&mut still_hour(0), below_bid), [0; 4]);
}

/// An hour whose sum is given: two seconds of reserves and regulation, one kW
/// each, at prices that make it. The second one has what is too much for the
/// first.
fn hour_of_sum(grains: i64) -> HourRecord {
    let mut record = still_hour(0);
    let line = &mut record.day_ahead;
    (line.reg, line.r1, line.r2, line.r3) = (1, 1, 1, 1);
    let mut left = grains;
    let mut price = || {
        let part = left.clamp(-1_000_000, 1_000_000);
        left -= part;
        part
    };
    let mut second = || Interval {
        preg: price(),
        p1: price(),
        p2: price(),
        p3: price(),
        ..still(1)
    };
    let (first, next) = (second(), second());
    let kept = Interval {
        reg: 1,
        r1: 1,
        r2: 1,
        r3: 1,
        ..still(900)
    };
    let last = Interval { s: 898, ..kept };
    record.set_intervals(&[first, next, kept, kept, kept, last]);
    record
}

#[test]
fn p8_cents_are_the_nearest() {
    for (grains, pays) in [
        // P8 as document 02 amends it.
        (3_599_999, 1),
        (3_600_000, 1),
        (-1, 0),
        // Beside zero.
        (0, 0),
        (1, 0),
        // A half goes up, and a grain less does not.
        (1_799_999, 0),
        (1_800_000, 1),
        (1_800_001, 1),
        (5_399_999, 1),
        (5_400_000, 2),
        (7_199_999, 2),
        (7_200_000, 2),
        // Nothing is paid below zero, however far.
        (-1_799_999, 0),
        (-1_800_000, 0),
        (-1_800_001, 0),
        (-3_600_000, 0),
        (-7_999_999, 0),
    ] {
        assert_eq!(cents(grains.into()), pays, "{grains}");
        let (answer, _) = judged(&hour_of_sum(grains), Ask::default());
        let Answer::Paid(paid) = answer else {
            panic!("{answer:?}");
        };
        assert_eq!((paid.grains, paid.cents), (grains.into(), pays));
    }
    // The same far from zero: at the largest hour.
    let most = 12_000_000_000;
    assert_eq!(cents(most * 3_600_000), most);
    assert_eq!(cents(most * 3_600_000 + 1_799_999), most);
    assert_eq!(cents(most * 3_600_000 + 1_800_000), most + 1);
}

#[test]
fn intervals_are_not_rounded_one_by_one() {
    // Quarters of an hour of one kW, at prices of which 4000 make a cent.
    for (prices, pays) in [
        // 0.4 cents each make 1.2, and none of them would pay alone.
        ([1600, 1600, 1600, 0], 1),
        // A half would pay a cent alone: two make 1, and three make 1.5.
        ([2000, 2000, 0, 0], 1),
        ([2000, 2000, 2000, 0], 2),
        // Three quarters of a cent would, too: four make 3.
        ([3000, 3000, 3000, 3000], 3),
        // 2.6 less 0.4 make 2.2.
        ([10_400, -1600, 0, 0], 2),
    ] {
        let mut record = still_hour(0);
        record.day_ahead.r1 = 1;
        let quarter = |p1| Interval { p1, ..still(900) };
        record.set_intervals(&prices.map(quarter));
        assert_eq!(contributions(&record), prices.map(|price| 900 * price));
        let (answer, _) = judged(&record, Ask::default());
        assert_eq!(answer.cents(), Some(pays), "{prices:?}");
    }
}

/// P9 inside an hour: 120,000 kW of energy and 60,000 of regulation, 20,000
/// and 10,000 less in real time, and a limit that takes 10,000 or 30,001 off.
fn derated_hour(uol: i64) -> HourRecord {
    let mut record = still_hour(0);
    record.day_ahead.en = 120_000;
    record.day_ahead.reg = 60_000;
    record.da = Curve::new(0, &[(120_000, 100)]);
    let quarter = Interval {
        en: 100_000,
        ae: 100_000,
        eop: Some(100_000),
        pen: 300,
        reg: 50_000,
        preg: 7,
        uol: Some(uol),
        ..still(900)
    };
    record.set_intervals(&[quarter; 4]);
    record
}

#[test]
fn p9_a_derate_is_shared() {
    // 6,667 kW of energy and 3,333 kW of regulation are taken off.
    let energy = (120_000 - 6667 - 100_000) * (300 - 100) * 900;
    let regulation = (60_000 - 3333 - 50_000) * 7 * 900;
    let grains = contributions(&derated_hour(170_000));
    assert_eq!(grains, [energy + regulation; 4]);
    // The whole room is taken: nothing is left to make good.
    assert_eq!(contributions(&derated_hour(150_000)), [0; 4]);
    let (answer, _) = judged(&derated_hour(149_999), Ask::default());
    assert_eq!(answer, Answer::Refused(Refusal::new(Check::Derate, 1)));
}

/// The run beside the figures: D at 100000, LL 80000.
fn reduced_by_20000(curve_end: i64) -> HourRecord {
    let mut record = still_hour(0);
    record.day_ahead.en = 100_000;
    record.da = Curve::new(0, &[(curve_end, 3500)]);
    let quarter = Interval {
        en: 80_000,
        ae: 80_000,
        eop: Some(80_000),
        pen: 5000,
        ..still(900)
    };
    record.set_intervals(&[quarter; 4]);
    record
}

#[test]
fn the_last_price_is_not_carried_past_the_curve() {
    let paid = contributions(&reduced_by_20000(100_000));
    assert_eq!(paid, [20_000 * 1500 * 900; 4]);
    let (answer, row) = judged(&reduced_by_20000(99_999), Ask::default());
    assert_eq!(answer, Answer::Refused(Refusal::new(Check::Reach, 1)));
    assert_eq!(row, [-7; 32]);
}

#[test]
fn a_lagging_interval_offsets_nothing() {
    let mut record = one_cent_hour(0);
    record.rt = Curve::new(0, &[(200, 1)]);
    let loss = Interval {
        en: 200,
        ae: 200,
        eop: Some(200),
        pen: 1000,
        lim: 199,
        mv: 5,
        pmv: 9,
        ..record.intervals[1]
    };
    record.intervals[1] = loss;
    let with_loss = contributions(&record);
    assert_eq!(with_loss[1], -(100 * 999 * 900) - 5 * 9 * 3600);
    for lim in [200, 201] {
        record.intervals[1].lim = lim;
        assert_eq!(contributions(&record), [3_600_000, 0, 0, 0]);
    }
}

#[test]
fn lagging_asks_the_raw_actual_energy() {
    // Capped at 80, the actual energy would lie below the limit of 90.
    let mut record = one_cent_hour(0);
    record.intervals[0] = Interval {
        en: 80,
        ae: 95,
        eop: Some(70),
        lim: 90,
        ..record.intervals[0]
    };
    assert_eq!(contributions(&record)[0], 20 * 40 * 900);
}

#[test]
fn the_largest_contributions_fit_into_the_row() {
    let mut record = still_hour(0);
    record.day_ahead = second::DayAhead {
        hour: 0,
        en: 2_000_000,
        reg: 2_000_000,
        r1: 2_000_000,
        r2: 2_000_000,
        r3: 2_000_000,
        ..record.day_ahead
    };
    record.da = Curve::new(0, &[(2_000_000, -1_000_000)]);
    let gain = Interval {
        pen: 1_000_000,
        preg: 1_000_000,
        p1: 1_000_000,
        p2: 1_000_000,
        p3: 1_000_000,
        ..still(900)
    };
    record.set_intervals(&[gain; 4]);
    let mut row = [0; 4];
    let mut run = second::Run::default();
    let answer = second::hour::judge_record(&record, Ask::default(), &mut row, &mut run);
    // Twice the price for energy, whose bid is the lowest, and once for each
    // of the other four.
    let grains = 2_000_000_i64 * 1_000_000 * 900 * 6;
    assert_eq!(row, [grains; 4]);
    assert_eq!(answer.cents(), Some(i128::from(grains) * 4 / 3_600_000));
}

/// Energy contributions of an interval of one second, for hand-made amounts.
fn energy(en: i64, quarter: Interval, da: Curve, rt: Curve) -> i64 {
    let mut record = still_hour(0);
    record.day_ahead.en = en;
    record.da = da;
    record.rt = rt;
    let lagging = Interval {
        ae: -2_000_000,
        lim: 0,
        ..still(900)
    };
    let last = Interval { s: 899, ..lagging };
    record.set_intervals(&[quarter, lagging, lagging, lagging, last]);
    contributions(&record)[0]
}

#[test]
fn upper_limits_by_hand() {
    let none = Curve::new(0, &[]);
    let rt = Curve::new(-100, &[(100, 10)]);
    let unit = |en, ae, eop, pen| Interval {
        en,
        ae,
        eop: Some(eop),
        pen,
        co: 1000,
        lim: -2_000_000,
        ..still(1)
    };
    // D 10, R 30, E 20, A 25: UL = min(30, max(25, 20)) = 25.
    let gain = energy(10, unit(30, 25, 20, 50), none, rt);
    assert_eq!(gain, (10 - 25) * 50 + 15 * 10);
    // D 10, R 30, E 40, A 35: UL = max(30, min(35, 40)) = 35.
    let gain = energy(10, unit(30, 35, 40, 50), none, rt);
    assert_eq!(gain, (10 - 35) * 50 + 25 * 10);
    // D 10, R 30, E 5, A 50: UL = max(30, min(50, 5)) = 30.
    let gain = energy(10, unit(30, 50, 5, 50), none, rt);
    assert_eq!(gain, (10 - 30) * 50 + 20 * 10);
    // A loss on an increase is not made good.
    assert_eq!(energy(10, unit(30, 25, 20, 5), none, rt), 0);
    // D -10, R -30, E -40, A -35: UL = min(-30, max(-35, -40)) = -35. The
    // withdrawal is bought at 5 and was worth 10.
    let gain = energy(-10, unit(-30, -35, -40, 5), none, rt);
    assert_eq!(gain, (-10 + 35) * 5 - 25 * 10);
    // D 0, R -30: a withdrawal as well.
    let gain = energy(0, unit(-30, -20, -40, 5), none, rt);
    assert_eq!(gain, 30 * 5 - 30 * 10);
    // D 0, R 30: an injection.
    let gain = energy(0, unit(30, 30, 30, 50), none, rt);
    assert_eq!(gain, -30 * 50 + 30 * 10);
    // D = R = 0: nothing, whatever the actual energy and without a curve.
    assert_eq!(energy(0, unit(0, 50, 60, 70), none, none), 0);
}

#[test]
fn lower_limits_by_hand() {
    let none = Curve::new(0, &[]);
    let da = Curve::new(-100, &[(100, 10)]);
    let unit = |en, ae, eop| Interval {
        en,
        ae,
        eop: Some(eop),
        pen: 50,
        co: 1000,
        lim: -2_000_000,
        ..still(1)
    };
    let at = |d: i64, ll: i64| (d - ll) * 40;
    // R < E: between R and E, where the unit was.
    assert_eq!(energy(100, unit(20, 30, 40), da, none), at(100, 30));
    assert_eq!(energy(100, unit(20, 10, 40), da, none), at(100, 20));
    assert_eq!(energy(100, unit(20, 90, 40), da, none), at(100, 40));
    assert_eq!(energy(100, unit(20, 200, 150), da, none), 0);
    assert_eq!(energy(100, unit(-20, -10, 40), da, none), at(100, 0));
    // R >= E: between E and R.
    assert_eq!(energy(100, unit(40, 30, 20), da, none), at(100, 30));
    assert_eq!(energy(100, unit(40, 90, 20), da, none), at(100, 40));
    assert_eq!(energy(100, unit(40, 10, 20), da, none), at(100, 20));
    assert_eq!(energy(100, unit(-40, 10, -50), da, none), at(100, 0));
    // A withdrawal: the integral runs downward.
    assert_eq!(energy(-100, unit(-20, -60, -70), da, none), at(-100, -60));
    assert_eq!(energy(-100, unit(-20, -90, -70), da, none), at(-100, -70));
    assert_eq!(energy(-100, unit(-20, -10, -70), da, none), at(-100, -20));
    assert_eq!(energy(-100, unit(20, 10, -70), da, none), at(-100, 0));
    assert_eq!(energy(-100, unit(-20, -110, -120), da, none), 0);
}

#[test]
fn regulation_and_reserves_by_hand() {
    let mut record = still_hour(0);
    let line = &mut record.day_ahead;
    (line.reg, line.breg) = (100, 30);
    (line.r1, line.b1) = (100, 7);
    (line.r2, line.b2) = (100, 8);
    (line.r3, line.b3) = (100, 9);
    let kept = Interval {
        reg: 100,
        r1: 100,
        r2: 100,
        r3: 100,
        p1: 5,
        p2: 5,
        p3: 5,
        preg: 50,
        ..still(900)
    };
    let mut grains = |change: &dyn Fn(&mut Interval)| {
        let mut first = kept;
        change(&mut first);
        record.set_intervals(&[first, kept, kept, kept]);
        let all = contributions(&record);
        assert_eq!(all[1..], [0, 0, 0]);
        all[0] / 900
    };
    // Less: the price above the day-ahead bid, also below zero.
    assert_eq!(grains(&|i| i.reg = 90), 10 * (50 - 30));
    assert_eq!(grains(&|i| (i.reg, i.preg) = (90, 20)), 10 * (20 - 30));
    assert_eq!(grains(&|i| (i.reg, i.preg) = (90, -20)), 10 * (-20 - 30));
    assert_eq!(grains(&|i| i.r1 = 90), 10 * (5 - 7));
    assert_eq!(grains(&|i| i.r2 = 90), 10 * (5 - 8));
    assert_eq!(grains(&|i| i.r3 = 90), 10 * (5 - 9));
    // More: regulation above its real-time bid, reserves at the price.
    assert_eq!(grains(&|i| (i.reg, i.breg) = (110, 15)), -10 * (50 - 15));
    assert_eq!(grains(&|i| (i.reg, i.breg) = (110, 50)), 0);
    assert_eq!(grains(&|i| (i.reg, i.breg) = (110, 51)), 0);
    assert_eq!(grains(&|i| i.r1 = 110), -10 * 5);
    assert_eq!(grains(&|i| (i.r2, i.p2) = (110, -5)), 10 * 5);
    assert_eq!(grains(&|i| i.r3 = 110), -10 * 5);
}

#[test]
fn a_derate_starts_from_line_1_in_each_interval() {
    let mut record = derated_hour(170_000);
    record.intervals[1].uol = None;
    let grains = contributions(&record);
    let full = 20_000 * 200 * 900 + 10_000 * 7 * 900;
    assert_eq!(grains[1], full);
    assert_eq!(grains[0], grains[2]);
    assert!(grains[0] < full);
}

#[test]
fn a_derate_can_turn_an_injection_into_a_withdrawal() {
    // 10 kW to inject and 50 kW of reserve, both under a limit of 0, while
    // real time withdraws 90: energy gives up all 60 and stands at -50, so
    // real time's -90 is an increase of the withdrawal.
    let mut record = still_hour(0);
    record.day_ahead.en = 10;
    record.day_ahead.r1 = 50;
    record.rt = Curve::new(-90, &[(0, 20)]);
    let quarter = Interval {
        en: -90,
        ae: -90,
        eop: Some(-90),
        pen: 3,
        lim: -91,
        r1: 50,
        uol: Some(0),
        ..still(900)
    };
    record.set_intervals(&[quarter; 4]);
    let grains = (-50 + 90) * 3 - 40 * 20;
    assert_eq!(contributions(&record), [grains * 900; 4]);
}

#[test]
fn reach_is_asked_where_the_minimum_would_give_0() {
    // An increase at a loss contributes 0, and still needs its prices.
    let mut record = still_hour(0);
    record.day_ahead.en = 10;
    record.rt = Curve::new(0, &[(20, 500)]);
    let quarter = Interval {
        en: 20,
        ae: 20,
        eop: Some(20),
        pen: -500,
        ..still(900)
    };
    record.set_intervals(&[quarter; 4]);
    assert_eq!(contributions(&record), [0; 4]);
    record.rt = Curve::new(0, &[(19, 500)]);
    let (answer, _) = judged(&record, Ask::default());
    assert_eq!(answer, Answer::Refused(Refusal::new(Check::Reach, 1)));
}

#[test]
fn reach_asks_only_the_curve_of_the_branch() {
    // A reduction asks the day-ahead curve, and no real-time curve is there.
    assert_eq!(contributions(&one_cent_hour(3)), [3_600_000, 0, 0, 0]);
}

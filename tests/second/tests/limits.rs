//! Every rule for LL and UL, every derate and every product, as the trace of the
//! hours that reach them.

mod common;

use common::*;
use second::trace::{Branch, DerateKind, Term};
use second::{hour, Ask, Curve, Event, HourRecord, Interval, Run, Trace};

/// Hours with small amounts all around zero, on curves that price them all.
fn hour_around_zero(numbers: &mut Numbers) -> HourRecord {
    let mut record = still_hour(5);
    let line = &mut record.day_ahead;
    line.en = numbers.between(-9, 9);
    line.reg = numbers.between(0, 5);
    (line.r1, line.r2, line.r3) = (numbers.between(0, 5), numbers.between(0, 5), 3);
    record.da = Curve::new(-20, &[(-3, 9), (0, 1), (20, 4)]);
    record.rt = Curve::new(-20, &[(-2, 3), (3, 2), (20, 5)]);
    for interval in record.intervals.iter_mut().take(4) {
        *interval = Interval {
            en: numbers.between(-9, 9),
            ae: numbers.between(-9, 12),
            co: numbers.between(0, 3),
            eop: Some(numbers.between(-9, 9)),
            pen: numbers.between(-9, 9),
            lim: numbers.between(-12, -5),
            uol: Some(numbers.between(0, 40)).filter(|uol| *uol < 25),
            r1: numbers.between(0, 5),
            r2: numbers.between(0, 5),
            r3: numbers.between(0, 5),
            p1: numbers.between(-5, 9),
            reg: numbers.between(0, 5),
            preg: numbers.between(-5, 9),
            breg: numbers.between(0, 5),
            mv: numbers.between(0, 2),
            pmv: numbers.between(0, 3),
            ..*interval
        };
    }
    record
}

/// What many such hours reach.
fn reached() -> Trace {
    let mut numbers = Numbers(1);
    let mut run = Run::default();
    for _ in 0..4000 {
        let record = hour_around_zero(&mut numbers);
        hour::judge_record(&record, Ask::default(), &mut [0; 4], &mut run);
    }
    run.trace
}

#[test]
fn every_rule_for_ll_and_ul_and_what_it_lands_on() {
    let trace = reached();
    assert_eq!(trace.missing(Event::limits()), []);
    use Branch::*;
    use Term::*;
    let all = vec![DayAhead, RealTime, Actual, Economic, Zero];
    let lands = [
        (LowerInjectBelowEop, all.clone()),
        (LowerInjectFromEop, vec![RealTime, Actual, Economic, Zero]),
        (LowerWithdraw, all),
        (UpperInjectEopBetween, vec![RealTime, Actual, Economic]),
        (UpperInjectOther, vec![RealTime, Actual, Economic]),
        (UpperWithdraw, vec![RealTime, Actual, Economic]),
    ];
    for (branch, terms) in lands {
        let wanted = terms.into_iter().map(|term| Event::Lands(branch, term));
        assert_eq!(trace.missing(wanted), []);
    }
}

#[test]
fn every_derate() {
    let shared = (0..=3).map(|left_over| DerateKind::Shared { left_over });
    let kinds = [
        DerateKind::None,
        DerateKind::Fits,
        DerateKind::Tie,
        DerateKind::SignChanged,
        DerateKind::TooMuch,
    ];
    let derates = kinds.into_iter().chain(shared).map(Event::Derate);
    assert_eq!(reached().missing(derates), []);
}

#[test]
fn every_product_and_sum() {
    use std::cmp::Ordering::{Equal, Greater, Less};
    let sides = [Less, Equal, Greater].into_iter().flat_map(|side| {
        [
            Event::Upper(side),
            Event::Reserve(1, side),
            Event::Reserve(2, side),
            Event::Reserve(3, side),
            Event::Regulation(side),
            Event::HourSum(side),
        ]
    });
    let once = [
        Event::Capped,
        Event::RegulationFloor,
        Event::Movement,
        Event::Lagging(Less),
        Event::Lagging(Equal),
    ];
    assert_eq!(reached().missing(sides.chain(once)), []);
}

#[test]
fn both_ways_of_summing_agree_on_whole_hours() {
    let mut numbers = Numbers(2);
    for _ in 0..2000 {
        judged(&hour_around_zero(&mut numbers), Ask::default());
    }
}

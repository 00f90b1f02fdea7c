//! Hours as records: any number in any field, and the lent row.

mod common;

use common::*;
use second::record::{LINES_BEFORE, MOST_INTERVALS};
use second::{hour, Answer, Ask, Check, Curve, HourRecord, Interval, Refusal, Run};

fn refused(record: &HourRecord, ask: Ask) -> (u8, usize) {
    let (answer, row) = judged(record, ask);
    assert_eq!(row, [-7; 32], "a refusal leaves the row");
    match answer {
        Answer::Refused(refusal) => (refusal.check.number(), refusal.place),
        Answer::Paid(paid) => panic!("{paid:?}"),
    }
}

fn eligible() -> Ask {
    Ask::default()
}

#[test]
fn a_paid_hour_writes_the_first_entries_only() {
    let record = one_cent_hour(5);
    let mut row = [-7; 6];
    let answer = hour::judge_record(&record, eligible(), &mut row, &mut Run::default());
    assert_eq!(row, [3_600_000, 0, 0, 0, -7, -7]);
    let Answer::Paid(paid) = answer else {
        panic!("{answer:?}");
    };
    assert_eq!((paid.hour, paid.intervals), (5, 4));
    assert_eq!((paid.grains, paid.cents), (3_600_000, 1));
}

#[test]
fn room() {
    let record = one_cent_hour(5);
    for length in 0..4 {
        let mut row = vec![9; length];
        for excluded in [false, true] {
            let ask = Ask {
                excluded,
                ..eligible()
            };
            let answer = hour::judge_record(&record, ask, &mut row, &mut Run::default());
            assert_eq!(answer, Answer::Refused(Refusal::new(Check::Room, 0)));
            assert_eq!(row, vec![9; length]);
        }
    }
    let mut row = [9; 4];
    let answer = hour::judge_record(&record, eligible(), &mut row, &mut Run::default());
    assert_eq!(answer.cents(), Some(1));
    assert_eq!(row, [3_600_000, 0, 0, 0]);
}

#[test]
fn room_comes_last() {
    // A curve that cannot reach is refused before the short row is.
    let mut record = one_cent_hour(5);
    record.da = Curve::new(0, &[(99, 10)]);
    let answer = hour::judge_record(&record, eligible(), &mut [], &mut Run::default());
    assert_eq!(answer, Answer::Refused(Refusal::new(Check::Reach, 1)));
    // An excluded hour does not ask the curve, and has no room either.
    let ask = Ask {
        excluded: true,
        ..eligible()
    };
    let answer = hour::judge_record(&record, ask, &mut [], &mut Run::default());
    assert_eq!(answer, Answer::Refused(Refusal::new(Check::Room, 0)));
    // No intervals at all need no room, but are no hour.
    record.count = 0;
    assert_eq!(refused(&record, eligible()), (5, 0));
}

#[test]
fn an_excluded_hour_pays_nothing() {
    let ask = Ask {
        excluded: true,
        expected: Some(5),
        hours: 24,
    };
    let (answer, row) = judged(&one_cent_hour(5), ask);
    assert_eq!(answer.cents(), Some(0));
    assert_eq!(row[..5], [0, 0, 0, 0, -7]);
    let Answer::Paid(paid) = answer else {
        panic!("{answer:?}");
    };
    assert_eq!((paid.hour, paid.intervals, paid.grains), (5, 4, 0));
}

#[test]
fn an_excluded_hour_goes_through_checks_1_to_5() {
    let ask = Ask {
        excluded: true,
        expected: Some(5),
        hours: 24,
    };
    let mut form = one_cent_hour(5);
    form.count = 31;
    assert_eq!(refused(&form, ask), (1, 34));
    let mut range = one_cent_hour(5);
    range.intervals[2].p3 = 1_000_001;
    assert_eq!(refused(&range, ask), (2, 6));
    assert_eq!(refused(&one_cent_hour(6), ask), (3, 1));
    let mut curve = one_cent_hour(5);
    curve.rt.start = 1;
    assert_eq!(refused(&curve, ask), (4, 3));
    let mut seconds = one_cent_hour(5);
    seconds.count = 3;
    assert_eq!(refused(&seconds, ask), (5, 0));
    // POINT, DERATE and REACH are not asked.
    let mut derate = one_cent_hour(5);
    derate.intervals[1].uol = Some(0);
    assert_eq!(refused(&derate, eligible()), (6, 2));
    assert_eq!(judged(&derate, ask).0.cents(), Some(0));
    let mut reach = one_cent_hour(5);
    reach.da = Curve::new(0, &[(99, 10)]);
    assert_eq!(refused(&reach, eligible()), (7, 1));
    assert_eq!(judged(&reach, ask).0.cents(), Some(0));
}

#[test]
fn counts_as_they_stand() {
    for count in [13, 14, 1000, usize::MAX] {
        let mut record = one_cent_hour(5);
        record.rt.count = count;
        assert_eq!(refused(&record, eligible()), (1, 3));
        record.count = 31;
        assert_eq!(refused(&record, eligible()), (1, 3));
        record.da.count = count;
        assert_eq!(refused(&record, eligible()), (1, 2));
        record.day_ahead.hour = i64::MAX;
        assert_eq!(refused(&record, eligible()), (1, 2));
    }
    for count in [31, 32, 1000, usize::MAX] {
        let mut record = one_cent_hour(5);
        record.count = count;
        record.day_ahead.hour = i64::MAX;
        assert_eq!(refused(&record, eligible()), (1, 34));
    }
    let mut record = still_hour(5);
    record.set_intervals(&[still(120); MOST_INTERVALS]);
    assert_eq!(judged(&record, eligible()).0.cents(), Some(0));
    record.da = Curve::new(0, &[(1, 2); 12]);
    assert_eq!(refused(&record, eligible()), (4, 2));
    record.da = Curve::new(0, &std::array::from_fn::<_, 12, _>(|i| (i as i64 + 1, 2)));
    assert_eq!(judged(&record, eligible()).0.cents(), Some(0));
}

#[test]
fn what_lies_behind_a_count_is_not_looked_at() {
    let mut record = one_cent_hour(5);
    let wild = Interval {
        s: i64::MIN,
        en: i64::MAX,
        uol: Some(-1),
        ..Interval::default()
    };
    record.intervals[4..].fill(wild);
    record.da.steps[1..].fill(second::Step {
        to: i64::MIN,
        at: i64::MAX,
    });
    assert_eq!(judged(&record, eligible()).0.cents(), Some(1));
}

/// A number with a range, put into a record.
type Field = (usize, i64, i64, fn(&mut HourRecord, i64));

/// Every number of a block with two steps on each curve: its line and range.
fn fields() -> Vec<Field> {
    const E: i64 = 2_000_000;
    const P: i64 = 1_000_000;
    vec![
        (1, 0, 24, |r, v| r.day_ahead.hour = v),
        (1, -E, E, |r, v| r.day_ahead.en = v),
        (1, 0, E, |r, v| r.day_ahead.reg = v),
        (1, 0, E, |r, v| r.day_ahead.r1 = v),
        (1, 0, E, |r, v| r.day_ahead.r2 = v),
        (1, 0, E, |r, v| r.day_ahead.r3 = v),
        (1, 0, P, |r, v| r.day_ahead.breg = v),
        (1, 0, P, |r, v| r.day_ahead.b1 = v),
        (1, 0, P, |r, v| r.day_ahead.b2 = v),
        (1, 0, P, |r, v| r.day_ahead.b3 = v),
        (2, -E, E, |r, v| r.da.start = v),
        (2, -E, E, |r, v| r.da.steps[0].to = v),
        (2, -P, P, |r, v| r.da.steps[0].at = v),
        (2, -E, E, |r, v| r.da.steps[1].to = v),
        (2, -P, P, |r, v| r.da.steps[1].at = v),
        (3, -E, E, |r, v| r.rt.start = v),
        (3, -E, E, |r, v| r.rt.steps[0].to = v),
        (3, -P, P, |r, v| r.rt.steps[0].at = v),
        (3, -E, E, |r, v| r.rt.steps[1].to = v),
        (3, -P, P, |r, v| r.rt.steps[1].at = v),
        (5, 1, 900, |r, v| r.intervals[1].s = v),
        (5, -E, E, |r, v| r.intervals[1].en = v),
        (5, -E, E, |r, v| r.intervals[1].ae = v),
        (5, 0, E, |r, v| r.intervals[1].co = v),
        (5, -E, E, |r, v| r.intervals[1].eop = Some(v)),
        (5, -P, P, |r, v| r.intervals[1].pen = v),
        (5, -E, E, |r, v| r.intervals[1].lim = v),
        (5, 0, E, |r, v| r.intervals[1].uol = Some(v)),
        (5, 0, E, |r, v| r.intervals[1].r1 = v),
        (5, 0, E, |r, v| r.intervals[1].r2 = v),
        (5, 0, E, |r, v| r.intervals[1].r3 = v),
        (5, -P, P, |r, v| r.intervals[1].p1 = v),
        (5, -P, P, |r, v| r.intervals[1].p2 = v),
        (5, -P, P, |r, v| r.intervals[1].p3 = v),
        (5, 0, E, |r, v| r.intervals[1].reg = v),
        (5, -P, P, |r, v| r.intervals[1].preg = v),
        (5, 0, P, |r, v| r.intervals[1].breg = v),
        (5, 0, E, |r, v| r.intervals[1].mv = v),
        (5, 0, P, |r, v| r.intervals[1].pmv = v),
        (5, 0, P, |r, v| r.intervals[1].bmv = v),
    ]
}

fn two_steps(hour: i64) -> HourRecord {
    let mut record = one_cent_hour(hour);
    record.da = Curve::new(0, &[(50, 10), (100, 10)]);
    record.rt = Curve::new(0, &[(50, 10), (100, 10)]);
    record
}

#[test]
fn every_number_has_its_range() {
    for (line, low, high, set) in fields() {
        for outside in [low - 1, high + 1, i64::MIN, i64::MAX] {
            let mut record = two_steps(5);
            set(&mut record, outside);
            assert_eq!(refused(&record, eligible()), (2, line), "{outside}");
        }
        for inside in [low, high] {
            let mut record = two_steps(5);
            set(&mut record, inside);
            let answer = hour::judge_record(&record, eligible(), &mut [0; 30], &mut Run::default());
            let out_of_range = matches!(answer, Answer::Refused(r) if r.check == Check::Range);
            assert!(!out_of_range, "{inside} on line {line}");
        }
    }
}

#[test]
fn the_first_line_out_of_range_is_named() {
    let fields = fields();
    for (first_line, low, _, set_first) in &fields {
        for (second_line, _, high, set_second) in &fields {
            let mut record = two_steps(5);
            set_first(&mut record, low - 1);
            set_second(&mut record, high + 1);
            let line = *first_line.min(second_line);
            assert_eq!(refused(&record, eligible()), (2, line));
        }
    }
}

#[test]
fn any_number_in_any_field_has_an_answer() {
    for wild in [i64::MIN, i64::MIN + 1, i64::MAX] {
        let mut record = HourRecord {
            count: MOST_INTERVALS,
            ..HourRecord::default()
        };
        for (_, _, _, set) in fields() {
            set(&mut record, wild);
        }
        assert_eq!(refused(&record, eligible()), (2, 1));
        let ask = Ask {
            excluded: true,
            expected: Some(wild),
            hours: wild,
        };
        assert_eq!(refused(&record, ask), (2, 1));
    }
    assert_eq!(refused(&HourRecord::default(), eligible()), (5, 0));
}

#[test]
fn order_stands_between_range_and_curve() {
    let ask = Ask {
        excluded: false,
        expected: Some(5),
        hours: 24,
    };
    let mut record = one_cent_hour(6);
    record.da = Curve::new(7, &[]);
    assert_eq!(refused(&record, eligible()), (4, 2));
    assert_eq!(refused(&record, ask), (3, 1));
    record.intervals[3].s = 901;
    assert_eq!(refused(&record, ask), (2, 7));
}

#[test]
fn hour_24_is_in_range_with_25_hours_alone() {
    let ask = |expected, hours| Ask {
        excluded: false,
        expected,
        hours,
    };
    for hours in [i64::MIN, -25, 0, 22, 23, 24, 26, i64::MAX] {
        for expected in [None, Some(0), Some(24)] {
            assert_eq!(refused(&one_cent_hour(24), ask(expected, hours)), (2, 1));
        }
        assert_eq!(refused(&one_cent_hour(23), ask(Some(0), hours)), (3, 1));
        let (answer, _) = judged(&one_cent_hour(23), ask(Some(23), hours));
        assert_eq!(answer.cents(), Some(1));
    }
    let (answer, _) = judged(&one_cent_hour(24), ask(Some(24), 25));
    assert_eq!(answer.cents(), Some(1));
    assert_eq!(refused(&one_cent_hour(24), ask(Some(0), 25)), (3, 1));
    assert_eq!(refused(&one_cent_hour(25), ask(Some(25), 25)), (2, 1));
    assert_eq!(judged(&one_cent_hour(24), eligible()).0.cents(), Some(1));
    // It is the first number of the block, so its line is the one named.
    let mut record = one_cent_hour(24);
    record.intervals[0].s = 901;
    assert_eq!(refused(&record, ask(Some(24), 24)), (2, 1));
    assert_eq!(refused(&record, ask(Some(24), 25)), (2, 4));
}

#[test]
fn derate_comes_before_reach_in_each_interval() {
    let mut record = one_cent_hour(5);
    record.da = Curve::new(0, &[(99, 10)]);
    record.intervals[1].uol = Some(0);
    // Interval 1 cannot be priced, interval 2 cannot be derated.
    assert_eq!(refused(&record, eligible()), (7, 1));
    // Both in the first: energy gives up 100 at most.
    record.day_ahead.r1 = 1;
    record.intervals[0].r1 = 1;
    record.intervals[0].uol = Some(0);
    assert_eq!(refused(&record, eligible()), (6, 1));
    // A lagging interval asks neither.
    record.intervals[0].lim = 0;
    assert_eq!(refused(&record, eligible()), (6, 2));
}

#[test]
fn a_record_and_its_block_have_the_same_answer() {
    let mut numbers = Numbers(3);
    let fields = fields();
    for _ in 0..3000 {
        let mut record = two_steps(numbers.between(0, 24));
        for _ in 0..numbers.below(6) {
            let (_, low, high, set) = fields[numbers.below(fields.len() as u64) as usize];
            let (low, high) = (low.max(-300), high.min(300));
            set(&mut record, numbers.between(low - 1, high + 1));
        }
        let ask = Ask {
            excluded: numbers.below(4) == 0,
            expected: (numbers.below(4) == 0).then_some(record.day_ahead.hour % 20),
            hours: numbers.between(23, 25),
        };
        let by_record = judged(&record, ask);
        let mut row = vec![-7; 32];
        let text = record.to_text();
        let answer = hour::judge_block(text.as_bytes(), ask, &mut row, &mut Run::default());
        assert_eq!((answer, row), by_record, "{text}");
        let lines = second::text::cut_block(text.as_bytes()).lines;
        let read = HourRecord::read(&lines).expect("a block in form");
        assert_eq!(read.to_text(), text);
        assert_eq!(lines.len(), LINES_BEFORE + record.count);
    }
}

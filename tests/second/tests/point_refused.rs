//! Where an interval that leaves its point to the curve is refused, and where
//! it is not: the form of `eop`, its range, and POINT among the other checks.

mod common;

use std::collections::BTreeMap;

use common::line::*;
use common::point::*;
use common::*;
use second::{day_text, down_text, hour, hour_text, line_text, up_text};
use second::{Answer, Ask, Check, Curve, Header, HourRecord, Interval, Moved, Refusal, Run};

#[track_caller]
fn refuses(text: &str, check: u8, place: usize) {
    let printed = format!("refused={check} at={place}\n");
    assert_eq!(hour_text(text.as_bytes()), printed, "{text}");
}

fn refused(check: Check, place: usize) -> Answer {
    Answer::Refused(Refusal::new(check, place))
}

#[track_caller]
fn pays(text: &str, cents: i64) {
    let printed = hour_text(text.as_bytes());
    assert!(
        printed.ends_with(&format!("pay={cents}\n")),
        "{printed}{text}"
    );
}

/// The open hour on a real-time curve without steps.
fn nowhere() -> String {
    open_on("rt=0 n=0")
}

/// The same, but each line says its point: 60, which pays 120.
fn said() -> String {
    in_each(&nowhere(), "eop", "60")
}

/// The same, run as it was scheduled day-ahead: nothing is to be priced.
fn kept() -> String {
    in_each(&in_each(&said(), "en", "100"), "ae", "100")
}

/// The block with an interval whose point is left to the curve.
fn open_at(text: &str, interval: usize) -> String {
    with_value(text, 3 + interval, "eop", "-")
}

/// The block with an interval in which the unit is at its limit, and so lags.
fn lagging_at(text: &str, interval: usize) -> String {
    with_value(text, 3 + interval, "lim", "80")
}

/// The block with an interval whose derate takes 51 kW: 100 can give up 50.
fn derated_at(text: &str, interval: usize) -> String {
    with_value(text, 3 + interval, "uol", "49")
}

/// The block with an interval that rises by 1 kW, which no real-time curve of
/// these blocks prices.
fn rising_at(text: &str, interval: usize) -> String {
    let text = with_value(text, 3 + interval, "en", "101");
    with_value(&text, 3 + interval, "ae", "101")
}

#[test]
fn the_blocks_of_these_tests() {
    pays(OPEN, 120);
    pays(&said(), 120);
    for interval in 1..=4 {
        pays(&lagging_at(&said(), interval), 90);
        refuses(&derated_at(&said(), interval), 6, interval);
        refuses(&rising_at(&said(), interval), 7, interval);
    }
}

#[test]
fn only_a_lone_minus_leaves_the_point_to_the_curve() {
    for line in 4..=7 {
        for wrong in [
            "-0",
            "--",
            "",
            "- ",
            " -",
            "--5",
            "-05",
            "07",
            "+5",
            "-\r",
            "\u{2212}",
            "- 5",
            "x",
            "60-",
            "12345678",
            "-12345678",
        ] {
            refuses(&with_value(OPEN, line, "eop", wrong), 1, line);
            refuses(&with_value(&nowhere(), line, "eop", wrong), 1, line);
        }
        // Numbers as before: one minus, and one to seven digits.
        for right in ["0", "-5", "60", "-2000000", "2000000"] {
            let printed = hour_text(with_value(OPEN, line, "eop", right).as_bytes());
            assert!(printed.contains("pay="), "{printed}");
        }
    }
    // The first wrong line is named, and comes before all other checks.
    let two = with_value(&with_value(&nowhere(), 7, "eop", "-0"), 5, "eop", "--");
    refuses(&two, 1, 5);
    refuses(&with_value(&two, 1, "hour", "25"), 1, 5);
}

#[test]
fn a_point_that_is_said_keeps_its_range() {
    for line in 4..=7 {
        for outside in ["-2000001", "2000001", "-9999999", "9999999"] {
            refuses(&with_value(OPEN, line, "eop", outside), 2, line);
            refuses(&with_value(&nowhere(), line, "eop", outside), 2, line);
        }
    }
    // A missing one is in every range: the others' are asked as before.
    refuses(&with_value(OPEN, 5, "pen", "1000001"), 2, 5);
    refuses(&with_value(&nowhere(), 7, "co", "-1"), 2, 7);
}

#[test]
fn no_curve_is_no_point() {
    refuses(&nowhere(), 10, 1);
    for interval in 1..=4 {
        refuses(&open_at(&said(), interval), 10, interval);
        refuses(&open_at(&open_at(&said(), interval), 4), 10, interval);
    }
    // A curve of one step has a point, whether or not the step is taken.
    for rt in ["rt=0 n=1 to=1 at=5001", "rt=-5 n=1 to=-4 at=0"] {
        let printed = hour_text(open_on(rt).as_bytes());
        assert!(printed.contains("pay="), "{rt}: {printed}");
    }
    // An empty day-ahead curve prices nothing, but is not asked for the point.
    refuses(&with_line(OPEN, 2, "da=0 n=0"), 7, 1);
    refuses(&with_line(&nowhere(), 2, "da=0 n=0"), 10, 1);
}

#[test]
fn the_thirtieth_interval() {
    let mut record = still_hour(0);
    record.set_intervals(&[still(120); 30]);
    for interval in [0, 16, 29] {
        let mut open = record.clone();
        open.intervals[interval].eop = None;
        let (answer, row) = judged(&open, Ask::default());
        assert_eq!(answer, refused(Check::Point, interval + 1));
        assert_eq!(row, [-7; 32], "a refusal leaves the row");
    }
}

#[test]
fn a_point_is_asked_where_it_is_not_used() {
    // D = R = 0: nothing is priced, and no limit looks at the point.
    let mut record = still_hour(0);
    assert_eq!(contributions(&record), [0; 4]);
    record.intervals[2].eop = None;
    let (answer, _) = judged(&record, Ask::default());
    assert_eq!(answer, refused(Check::Point, 3));
    // D = R = A: every point gives the same limit.
    pays(&kept(), 0);
    refuses(&open_at(&kept(), 2), 10, 2);
}

#[test]
fn a_lagging_interval_is_asked_for_no_point() {
    for interval in 1..=4 {
        pays(&lagging_at(&open_at(&said(), interval), interval), 90);
        // Just above its limit a unit does not lag.
        let above = with_value(&open_at(&said(), interval), 3 + interval, "lim", "79");
        refuses(&above, 10, interval);
    }
    // The next that does not lag is asked.
    let lagging = lagging_at(&lagging_at(&nowhere(), 1), 2);
    refuses(&lagging, 10, 3);
    refuses(&derated_at(&lagging, 1), 10, 3);
    pays(&in_each(&nowhere(), "lim", "80"), 0);
    // Actual energy is meant as it stands, not as it is capped.
    let capped = in_each(&in_each(&nowhere(), "co", "0"), "lim", "79");
    refuses(&capped, 10, 1);
}

#[test]
fn point_comes_before_derate_and_reach_in_an_interval() {
    // The other intervals have nothing to be priced by the short day-ahead curve.
    let short = with_line(&kept(), 2, "da=0 n=1 to=99 at=2000");
    pays(&short, 0);
    for interval in 1..=4 {
        let open = open_at(&said(), interval);
        refuses(&derated_at(&open, interval), 10, interval);
        refuses(&rising_at(&open, interval), 10, interval);
        let reduced = with_value(&short, 3 + interval, "en", "50");
        refuses(&reduced, 7, interval);
        refuses(&open_at(&reduced, interval), 10, interval);
    }
    // With steps on the curve the others are asked.
    refuses(&derated_at(OPEN, 2), 6, 2);
    refuses(&rising_at(OPEN, 3), 7, 3);
}

#[test]
fn the_first_interval_at_fault_stands() {
    for early in 1..=3 {
        for late in early + 1..=4 {
            let open = open_at(&said(), late);
            refuses(&derated_at(&open, early), 6, early);
            refuses(&rising_at(&open, early), 7, early);
            let open = open_at(&said(), early);
            refuses(&derated_at(&open, late), 10, early);
            refuses(&rising_at(&open, late), 10, early);
            // A lagging one bars nothing.
            let lagging = lagging_at(&open, early);
            refuses(&derated_at(&lagging, late), 6, late);
            refuses(&rising_at(&lagging, late), 7, late);
        }
    }
}

#[test]
fn point_stands_behind_the_checks_of_the_block_and_before_room() {
    refuses(&with_value(&nowhere(), 7, "pen", "1000001"), 2, 7);
    refuses(&with_value(&nowhere(), 3, "rt", "5"), 4, 3);
    refuses(&with_line(&nowhere(), 2, "da=100 n=1 to=100 at=2000"), 4, 2);
    refuses(&with_value(&nowhere(), 7, "s", "899"), 5, 0);
    let judge = |ask, row: &mut [i64]| {
        hour::judge_block(nowhere().as_bytes(), ask, row, &mut Run::default())
    };
    let mut row = [5; 3];
    let other = Ask {
        expected: Some(1),
        ..Ask::default()
    };
    assert_eq!(judge(other, &mut row), refused(Check::Order, 1));
    assert_eq!(judge(Ask::default(), &mut row), refused(Check::Point, 1));
    let excluded = Ask {
        excluded: true,
        ..Ask::default()
    };
    assert_eq!(judge(excluded, &mut row), refused(Check::Room, 0));
    assert_eq!(row, [5; 3]);
}

#[test]
fn an_excluded_hour_is_asked_for_no_point() {
    let excluded = Ask {
        excluded: true,
        ..Ask::default()
    };
    for text in [nowhere(), OPEN.to_string(), open_at(&said(), 3)] {
        let mut row = [5; 6];
        let run = &mut Run::default();
        let answer = hour::judge_block(text.as_bytes(), excluded, &mut row, run);
        assert_eq!(answer.cents(), Some(0));
        assert_eq!(row, [0, 0, 0, 0, 5, 5]);
    }
    // Form and range are asked of it.
    for (eop, check) in [("-0", Check::Form), ("2000001", Check::Range)] {
        let text = with_value(&nowhere(), 6, "eop", eop);
        let run = &mut Run::default();
        let answer = hour::judge_block(text.as_bytes(), excluded, &mut [0; 4], run);
        assert_eq!(answer, refused(check, 6));
    }
}

/// A day of one-cent hours whose hours 5 and 9 leave a point to no curve.
fn open_day(header: &Header) -> String {
    let mut hours = one_cent_hours();
    hours[5].intervals[2].eop = None;
    hours[9].intervals[0].eop = None;
    day_of(header, &hours)
}

#[test]
fn a_day_with_points_left_to_the_curve() {
    let others = [(5, "refused=10 at=3"), (9, "refused=10 at=1")];
    let text = alone(&open_day(&Header::default()));
    assert_eq!(day_text(text.as_bytes()), printed(24, &others, "-"));
    // Excluded hours go through: hour 5 has no category, x1 is set in hour 9.
    let mut header = Header::default();
    header.cat[5] = 0;
    header.x[0][9] = 1;
    let text = alone(&open_day(&header));
    let others = [(5, "pay=0"), (9, "pay=0")];
    assert_eq!(day_text(text.as_bytes()), printed(24, &others, "22"));
}

#[test]
fn a_stored_sheet_passes_as_it_is() {
    let sheet = open_day(&Header::default()).into_bytes();
    let Moved::Sheet(up) = up_text(&sheet) else {
        panic!("the header is good");
    };
    assert_eq!(in_each_place(&up), in_each_place(&sheet));
    assert_eq!(down_text(&up), Moved::Sheet(sheet));
}

#[test]
fn lines_have_no_point() {
    let day = line_day(24);
    let block = LINE_BLOCK.replace(" aew=", " eop=- aew=");
    let run = &mut Run::default();
    let answer = second::line::judge_block(block.as_bytes(), Ask::default(), &mut [0; 4], run);
    assert_eq!(answer, refused(Check::Form, 4));
    // A line's hours need no real-time curve where nothing is priced by it.
    assert!(day.contains("rt=0 n=0\n"));
    assert!(line_text(day.as_bytes()).ends_with("total=24\n"));
}

/// On a curve without steps the first interval that does not lag and says no
/// point is refused, unless an earlier one is. What an earlier one is refused
/// for can be seen where the lines say their points.
#[test]
fn the_place_is_the_first_that_asks() {
    let mut numbers = Numbers(14);
    let mut seen = BTreeMap::new();
    for _ in 0..8000 {
        let mut record = any_hour(&mut numbers);
        record.rt = Curve::new(0, &[]);
        let mut said = record.clone();
        for interval in said.intervals.iter_mut().take(4) {
            interval.eop = interval.eop.or(Some(7));
        }
        let asks = |interval: &Interval| interval.eop.is_none() && interval.ae > interval.lim;
        let place = record.used().iter().position(asks).map(|i| i + 1);
        let (otherwise, _) = judged(&said, Ask::default());
        let other_place = match otherwise {
            Answer::Refused(refusal) => refusal.place,
            Answer::Paid(_) => usize::MAX,
        };
        let expected = match place.filter(|place| *place <= other_place) {
            Some(place) => refused(Check::Point, place),
            None => otherwise,
        };
        let (answer, _) = judged(&record, Ask::default());
        assert_eq!(answer, expected, "{}", record.to_text());
        let order = place.map(|place| place.cmp(&other_place));
        *seen.entry(order).or_insert(0) += 1;
    }
    // No one asked, or one did before the other fault, in its interval, behind.
    assert!(
        seen.len() == 4 && seen.values().all(|n| *n > 50),
        "{seen:?}"
    );
}

#[test]
fn a_default_record_says_no_point() {
    assert_eq!(Interval::default().eop, None);
    let mut record = HourRecord::default();
    record.set_intervals(
        &[Interval {
            s: 900,
            ..Interval::default()
        }; 4],
    );
    // It lags, at 0 and a limit of 0.
    assert_eq!(contributions(&record), [0; 4]);
    record.intervals[1].lim = -1;
    let (answer, _) = judged(&record, Ask::default());
    assert_eq!(answer, refused(Check::Point, 2));
}

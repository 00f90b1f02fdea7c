//! Day sheets of 23, 24 and 25 hours: their blocks and the total.

mod common;

use common::*;
use second::{day_text, Header};

fn print(sheet: &str) -> String {
    day_text(alone(sheet).as_bytes())
}

/// The blocks of one cent each, for so many hours from 0.
fn blocks(hours: usize) -> String {
    let records = (0..hours as i64).map(one_cent_hour);
    records.map(|record| closed(&record)).collect()
}

/// The day with another value of a key in the block of an hour. A block of one
/// cent has 7 lines and its empty one, behind a header of 12.
fn with_hour(text: &str, hour: usize, line: usize, key: &str, value: &str) -> String {
    with_value(text, 12 + 8 * hour + line, key, value)
}

#[test]
fn good_days() {
    for hours in 23..=25 {
        let text = counted_day(hours);
        let start = format!("form=2\nhours={hours}\nunit=1\nrtc=0\ncat=1111");
        assert!(text.starts_with(&start));
        let answer = printed(hours, &[], &hours.to_string());
        assert_eq!(print(&text), answer);
        assert_eq!(print(&text[..text.len() - 1]), answer);
    }
    // Without its hours the sheet of 24 is one of form 1.
    let text = with_value(&without_line(&counted_day(24), 2), 1, "form", "1");
    assert_eq!(text, day_of(&Header::default(), &one_cent_hours()));
    assert_eq!(print(&text), print(&counted_day(24)));
}

#[test]
fn bytes_behind_the_last_block() {
    for hours in 23..=25 {
        for surplus in ["\n", " ", "form=2\n", &closed(&one_cent_hour(hours as i64))] {
            let text = counted_day(hours) + surplus;
            assert_eq!(print(&text), printed(hours, &[], "-"), "{surplus:?}");
        }
    }
    // The sheet of form 1 has 24 hours, however many blocks follow.
    let text = Header::default().to_text() + &blocks(25);
    assert_eq!(print(&text), printed(24, &[], "-"));
    let text = Header::default().to_text() + &blocks(23);
    assert_eq!(print(&text), printed(24, &[(23, "refused=1 at=1")], "-"));
}

#[test]
fn hours_without_a_block() {
    for hours in 23..=25 {
        let missing: Vec<_> = (0..hours).map(|hour| (hour, "refused=1 at=1")).collect();
        assert_eq!(
            print(&Header::counted(hours).to_text()),
            printed(hours, &missing, "-")
        );
        let twenty = Header::counted(hours).to_text() + &blocks(20);
        assert_eq!(print(&twenty), printed(hours, &missing[20..], "-"));
    }
}

#[test]
fn what_a_block_says_as_its_hour() {
    let (range, order) = ("refused=2 at=1", "refused=3 at=1");
    for (hours, says, refusal) in [
        (23, "21", order),
        (23, "23", order),
        (23, "24", range),
        (24, "22", order),
        (24, "24", range),
        (25, "23", order),
        (25, "25", range),
        (25, "-1", range),
    ] {
        // In the last place as in an earlier one.
        for place in [5, hours - 1] {
            let text = with_hour(&counted_day(hours), place, 1, "hour", says);
            assert_eq!(print(&text), printed(hours, &[(place, refusal)], "-"));
        }
    }
    // The 25th hour in an earlier place.
    let text = with_hour(&counted_day(25), 5, 1, "hour", "24");
    assert_eq!(print(&text), printed(25, &[(5, order)], "-"));
    // Form 1 has no hour 24.
    let text = Header::default().to_text() + &blocks(23) + &closed(&one_cent_hour(24));
    assert_eq!(print(&text), printed(24, &[(23, range)], "-"));
}

#[test]
fn every_block_is_still_an_hour() {
    let text = with_hour(&counted_day(25), 24, 7, "s", "899");
    assert_eq!(print(&text), printed(25, &[(24, "refused=5 at=0")], "-"));
}

#[test]
fn the_two_hours_run_to_the_end_of_the_day() {
    for hours in 23..=25 {
        let mut header = Header::counted(hours);
        header.x[3][hours - 1] = 1;
        header.x[0][0] = 1;
        let text = header.to_text() + &blocks(hours);
        let excluded = [0, hours - 3, hours - 2, hours - 1].map(|hour| (hour, "pay=0"));
        let total = (hours - 4).to_string();
        assert_eq!(print(&text), printed(hours, &excluded, &total));
    }
}

//! Who is excluded by the marks of a day whose neighbours lack.

use second::day::HOURS;
use second::trace::Reason;
use second::{Header, Headers};

fn excluded_hours(header: &Header) -> Vec<usize> {
    let excluded = Headers::alone(header.clone()).excluded();
    (0..excluded.len()).filter(|hour| excluded[*hour]).collect()
}

/// The header with an exception, 1 to 6, set in these hours.
fn with(mut header: Header, mark: usize, hours: &[usize]) -> Header {
    for hour in hours {
        header.x[mark - 1][*hour] = 1;
    }
    header
}

fn committed_by_rtc() -> Header {
    Header {
        rtc: 1,
        ..Header::default()
    }
}

#[track_caller]
fn excludes(header: Header, mark: usize, hours: &[usize], excluded: &[usize]) {
    assert_eq!(excluded_hours(&with(header, mark, hours)), excluded);
}

#[test]
fn p10_x4_excludes_two_hours_before_and_after() {
    excludes(Header::default(), 4, &[5], &[3, 4, 5, 6, 7]);
}

#[test]
fn x5_and_x6_act_as_x4_only_for_a_unit_that_rtc_commits() {
    for mark in [5, 6] {
        excludes(committed_by_rtc(), mark, &[5], &[3, 4, 5, 6, 7]);
        excludes(Header::default(), mark, &[5], &[]);
    }
}

#[test]
fn marks_reach_to_the_ends_of_the_day() {
    for hours in 23..=25 {
        let day = || Header::counted(hours);
        let last = hours - 1;
        excludes(day(), 4, &[0], &[0, 1, 2]);
        excludes(day(), 4, &[1], &[0, 1, 2, 3]);
        excludes(day(), 4, &[last - 1], &[last - 3, last - 2, last - 1, last]);
        excludes(day(), 4, &[last], &[last - 2, last - 1, last]);
    }
}

#[test]
fn the_first_form_has_24_hours() {
    let plain = Headers::alone(Header::default());
    assert_eq!(plain.excluded(), [false; HOURS]);
    excludes(Header::default(), 4, &[23], &[21, 22, 23]);
}

#[test]
fn the_25th_hour_reaches_back_and_is_reached() {
    let long = || Header {
        rtc: 1,
        ..Header::counted(25)
    };
    for mark in [4, 5, 6] {
        excludes(long(), mark, &[24], &[22, 23, 24]);
        excludes(long(), mark, &[22], &[20, 21, 22, 23, 24]);
        excludes(long(), mark, &[21], &[19, 20, 21, 22, 23]);
    }
    for mark in 1..=3 {
        excludes(long(), mark, &[24], &[24]);
    }
}

#[test]
fn x1_to_x3_exclude_their_own_hour() {
    for mark in 1..=3 {
        excludes(committed_by_rtc(), mark, &[0, 9, 23], &[0, 9, 23]);
    }
}

#[test]
fn an_hour_without_category_is_excluded_and_still_spreads_its_marks() {
    let mut header = with(Header::default(), 4, &[10]);
    header.cat = vec![4; HOURS];
    header.cat[10] = 0;
    assert_eq!(excluded_hours(&header), [8, 9, 10, 11, 12]);
    let headers = Headers::alone(header);
    assert_eq!(
        headers.reasons(10),
        [Reason::NoCategory, Reason::Spread(4, 0)]
    );
    assert_eq!(headers.reasons(8), [Reason::Spread(4, 2)]);
    assert_eq!(headers.reasons(12), [Reason::Spread(4, -2)]);
}

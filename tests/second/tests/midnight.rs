//! Who is excluded by the marks of the days before and after.

use second::trace::Reason;
use second::{Header, Headers};

/// A day of each form and count.
fn each_day() -> [Header; 4] {
    let [short, even, long] = [23, 24, 25].map(Header::counted);
    [Header::default(), short, even, long]
}

fn hours_of(day: &Header) -> usize {
    day.cat.len()
}

fn excluded_hours(headers: &Headers) -> Vec<usize> {
    let excluded = headers.excluded();
    (0..excluded.len()).filter(|hour| excluded[*hour]).collect()
}

/// The day with an exception, 1 to 6, set in an hour.
fn with(day: &Header, mark: usize, hour: usize) -> Header {
    let mut day = day.clone();
    day.x[mark - 1][hour] = 1;
    day
}

fn with_rtc(day: &Header, rtc: i64) -> Header {
    Header { rtc, ..day.clone() }
}

fn between(before: Option<Header>, own: &Header, after: Option<Header>) -> Headers {
    Headers {
        before,
        own: own.clone(),
        after,
    }
}

/// Every pair of forms and counts.
fn each_two() -> Vec<(Header, Header)> {
    let beside = |one: Header| each_day().map(|other| (one.clone(), other));
    each_day().into_iter().flat_map(beside).collect()
}

/// The other neighbour: it lacks, or is of any form and count.
fn each_other() -> Vec<Option<Header>> {
    let days = each_day().into_iter().map(Some);
    [None].into_iter().chain(days).collect()
}

#[test]
fn the_last_two_hours_of_the_day_before() {
    for (before, own) in each_two() {
        let before = with_rtc(&before, 1);
        let last = hours_of(&before) - 1;
        for after in each_other() {
            for mark in 4..=6 {
                let of = |hour| {
                    let before = Some(with(&before, mark, hour));
                    excluded_hours(&between(before, &own, after.clone()))
                };
                assert_eq!(of(last), [0, 1]);
                assert_eq!(of(last - 1), [0]);
                // Every hour further back does not reach.
                for hour in 0..last - 1 {
                    assert_eq!(of(hour), [], "{hour}");
                }
            }
        }
    }
}

#[test]
fn the_first_two_hours_of_the_day_after() {
    for (own, after) in each_two() {
        let after = with_rtc(&after, 1);
        let last = hours_of(&own) - 1;
        for before in each_other() {
            for mark in 4..=6 {
                let of = |hour| {
                    let after = Some(with(&after, mark, hour));
                    excluded_hours(&between(before.clone(), &own, after))
                };
                assert_eq!(of(0), [last - 1, last]);
                assert_eq!(of(1), [last]);
                for hour in 2..hours_of(&after) {
                    assert_eq!(of(hour), [], "{hour}");
                }
            }
        }
    }
}

#[test]
fn the_own_marks_reach_as_in_a_day_by_itself() {
    for (before, own) in each_two() {
        for after in each_day() {
            for hour in 0..hours_of(&own) {
                let marked = with(&own, 4, hour);
                let joined = between(Some(before.clone()), &marked, Some(after.clone()));
                let alone = Headers::alone(marked);
                assert_eq!(joined.excluded(), alone.excluded());
                assert_eq!(joined.reasons(hour), alone.reasons(hour));
                let first = hour.saturating_sub(2);
                let last = (hour + 2).min(hours_of(&own) - 1);
                let reached: Vec<usize> = (first..=last).collect();
                assert_eq!(excluded_hours(&joined), reached);
            }
        }
    }
}

#[test]
fn each_day_has_its_own_rtc() {
    for (theirs, own) in [(0, 0), (0, 1), (1, 0), (1, 1)] {
        for (neighbour, day) in each_two() {
            let (neighbour, day) = (with_rtc(&neighbour, theirs), with_rtc(&day, own));
            let last = hours_of(&day) - 1;
            let end = hours_of(&neighbour) - 1;
            for mark in [5, 6] {
                // The neighbour's marks by its own rtc.
                let before = between(Some(with(&neighbour, mark, end)), &day, None);
                let after = between(None, &day, Some(with(&neighbour, mark, 0)));
                let reached = |hours: [usize; 2]| match theirs {
                    1 => hours.to_vec(),
                    _ => vec![],
                };
                assert_eq!(excluded_hours(&before), reached([0, 1]));
                assert_eq!(excluded_hours(&after), reached([last - 1, last]));
                // The day's own by its own, whatever the neighbours have.
                let beside = || Some(neighbour.clone());
                let marked = between(beside(), &with(&day, mark, 0), beside());
                let reached = [vec![], vec![0, 1, 2]];
                assert_eq!(excluded_hours(&marked), reached[own as usize]);
            }
            // x4 asks for no rtc.
            let before = between(Some(with(&neighbour, 4, end)), &day, None);
            assert_eq!(excluded_hours(&before), [0, 1]);
        }
    }
}

#[test]
fn two_neighbours_have_two_rtcs() {
    let own = Header::default();
    for (first, second) in [(0, 1), (1, 0)] {
        let before = with(&with_rtc(&own, first), 5, 23);
        let after = with(&with_rtc(&own, second), 6, 0);
        let reached = if first == 1 { [0, 1] } else { [22, 23] };
        let joined = between(Some(before), &own, Some(after));
        assert_eq!(excluded_hours(&joined), reached);
    }
}

#[test]
fn category_and_x1_to_x3_stay_in_their_day() {
    for (neighbour, own) in each_two() {
        let mut silent = with_rtc(&neighbour, 1);
        silent.cat.fill(0);
        for row in &mut silent.x[..3] {
            row.fill(1);
        }
        let beside = || Some(silent.clone());
        for joined in [
            between(beside(), &own, None),
            between(None, &own, beside()),
            between(beside(), &own, beside()),
        ] {
            assert_eq!(excluded_hours(&joined), []);
        }
        // Nor do they silence the marks of their hours.
        let marked = |hour| Some(with(&silent, 4, hour));
        let last = hours_of(&own) - 1;
        let joined = between(marked(hours_of(&silent) - 1), &own, marked(1));
        assert_eq!(excluded_hours(&joined), [0, 1, last]);
    }
}

#[test]
fn reasons_name_the_distance() {
    let own = with(&Header::default(), 4, 2);
    let before = with(&with(&Header::counted(23), 4, 22), 4, 21);
    let after = with(&with_rtc(&Header::counted(25), 1), 6, 0);
    let joined = between(Some(before), &own, Some(after));
    let (over, spread) = (Reason::Over, Reason::Spread);
    assert_eq!(joined.reasons(0), [over(4, -2), over(4, -1), spread(4, 2)]);
    assert_eq!(joined.reasons(1), [over(4, -2), spread(4, 1)]);
    assert_eq!(joined.reasons(2), [spread(4, 0)]);
    assert_eq!(joined.reasons(21), []);
    assert_eq!(joined.reasons(22), [over(6, 2)]);
    assert_eq!(joined.reasons(23), [over(6, 1)]);
}

/// Every hour of every day in turn, held against its distance along the days.
#[test]
fn distance_runs_along_the_joined_days() {
    for (before, own) in each_two() {
        for after in each_day() {
            let days = [&before, &own, &after];
            let first = hours_of(&before);
            let mut start = 0;
            for (at, day) in days.into_iter().enumerate() {
                for hour in 0..hours_of(day) {
                    let mut all = days.map(Header::clone);
                    all[at].x[3][hour] = 1;
                    let [before, own, after] = all;
                    let near = |own: &usize| (first + own).abs_diff(start + hour) <= 2;
                    let reached: Vec<usize> = (0..hours_of(&own)).filter(near).collect();
                    let joined = between(Some(before), &own, Some(after));
                    assert_eq!(excluded_hours(&joined), reached);
                }
                start += hours_of(day);
            }
        }
    }
}

//! Marks around midnight: of the day before and the day after, for the most part
//! over hours that are all paid.

use second::{Curve, Header, Headers};

use crate::bonds::{Bond, Pair};
use crate::day::{paying, paying_blocks, paying_day};
use crate::headers::{self, plain};
use crate::pieces::{self, any_said, each_hour, Said, SAID};
use crate::random::Rng;
use crate::three;

/// Which neighbour is the marked one.
#[derive(Clone, Copy)]
enum Side {
    Before,
    After,
}

impl Side {
    fn of(turn: usize) -> Self {
        match turn % 2 {
            0 => Side::Before,
            _ => Side::After,
        }
    }

    /// The hour of this neighbour so far from midnight; 0 is next to it.
    fn hour(self, day: &Header, far: usize) -> usize {
        match self {
            Side::Before => day.cat.len() - 1 - far,
            Side::After => far,
        }
    }

    /// A day with this neighbour and that one on the other side.
    fn beside(self, own: Header, marked: Header, other: Option<Header>) -> Headers {
        let (before, after) = match self {
            Side::Before => (Some(marked), other),
            Side::After => (other, Some(marked)),
        };
        Headers { before, own, after }
    }
}

/// A day of this count with any `rtc`.
fn day(rng: &mut Rng, said: Said) -> Header {
    Header {
        rtc: rng.between(0, 1),
        ..plain(said)
    }
}

/// Every exception that reaches over midnight, in the hour next to it, in the
/// next and in one too far, between days of every two forms and counts.
pub fn one_mark(rng: &mut Rng, turn: usize) -> Vec<u8> {
    let (side, two, round) = (Side::of(turn), turn / 2 % 16, turn / 32);
    let own = day(rng, SAID[two / 4]);
    let mut marked = day(rng, SAID[two % 4]);
    // Three rounds have each distance, and nine have it with each exception.
    let hour = side.hour(&marked, (two + round) % 3);
    let mark = 3 + (two / 3 + round + round / 3) % 3;
    marked.x[mark][hour] = 1;
    if round % 4 < 3 {
        marked.rtc = 1;
    }
    let other = three::any(rng, own.unit);
    paying_day(&side.beside(own, marked, other))
}

/// x5 and x6 of a neighbour, with and without RTC on its day and on the own.
pub fn rtc(rng: &mut Rng, turn: usize) -> Vec<u8> {
    let side = Side::of(turn);
    let said = [any_said(rng), any_said(rng)];
    let own = Header {
        rtc: (turn / 4 % 2) as i64,
        ..plain(said[0])
    };
    let mut marked = Header {
        rtc: (turn / 8 % 2) as i64,
        ..plain(said[1])
    };
    let hour = side.hour(&marked, turn / 16 % 2);
    marked.x[4 + turn / 2 % 2][hour] = 1;
    let other = three::quiet(rng, own.unit);
    paying_day(&side.beside(own, marked, other))
}

/// What stays in a neighbour's day: no category, or x1 to x3, in its hours at
/// midnight or in all of them; with and without a mark that does not.
pub fn stays(rng: &mut Rng, turn: usize) -> Vec<u8> {
    let side = Side::of(turn);
    let said = [any_said(rng), any_said(rng)];
    let own = day(rng, said[0]);
    let mut marked = day(rng, said[1]);
    let far = rng.pick(&[1, 2, 23]);
    for far in 0..far {
        let hour = side.hour(&marked, far);
        match turn / 2 % 4 {
            0 => marked.cat[hour] = 0,
            row => marked.x[row - 1][hour] = 1,
        }
    }
    if turn / 8 % 2 == 1 {
        let hour = side.hour(&marked, rng.below(2));
        marked.x[3][hour] = 1;
    }
    let other = three::quiet(rng, own.unit);
    paying_day(&side.beside(own, marked, other))
}

/// Three days with marks of all kinds.
pub fn many_marks(rng: &mut Rng, _: usize) -> Vec<u8> {
    let said = [any_said(rng), any_said(rng), any_said(rng)];
    marked_days(rng, said)
}

/// The same for days that say this.
pub fn marked_days(rng: &mut Rng, said: [Said; 3]) -> Vec<u8> {
    let once_in = rng.pick(&[3, 8, 24]);
    let unit = headers::any(rng, None).unit;
    let [before, own, after] = said.map(|said| {
        let mut header = Header {
            unit,
            ..headers::any(rng, said)
        };
        for mark in header.x.iter_mut().flatten() {
            *mark = u8::from(rng.once_in(once_in));
        }
        header
    });
    paying_day(&Headers {
        before: Some(before),
        own,
        after: Some(after),
    })
}

/// Hours of which many would be refused for a point, a derate or a price, were
/// they not excluded from over midnight: those next to it are, for the most part.
pub fn spared(rng: &mut Rng, _: usize) -> Vec<u8> {
    let said = [any_said(rng), any_said(rng), any_said(rng)];
    let own = plain(said[0]);
    let hours = each_hour(own.cat.len(), |place| {
        let mut record = paying(place);
        match rng.below(4) {
            0 => record.intervals[rng.below(4)].uol = Some(0),
            1 => record.da = Curve::default(),
            // These hours have no real-time curve.
            2 => record.intervals[rng.below(4)].eop = None,
            _ => {}
        }
        record
    });
    let mut neighbour = |side: Side, said| {
        let mut header = plain(said);
        let hour = side.hour(&header, rng.below(3));
        header.x[3][hour] = 1;
        Some(header).filter(|_| !rng.once_in(6))
    };
    let headers = Headers {
        before: neighbour(Side::Before, said[1]),
        own,
        after: neighbour(Side::After, said[2]),
    };
    pieces::text(&headers.to_text(), &hours)
}

/// A neighbour that does nothing: it lacks, or has any marks but those that
/// reach over midnight in the two hours next to it.
fn silent(rng: &mut Rng, unit: i64, side: Side) -> Option<Header> {
    let said = any_said(rng);
    let mut header = Header {
        unit,
        ..headers::any(rng, said)
    };
    for mark in header.x.iter_mut().flatten() {
        *mark = u8::from(rng.once_in(2));
    }
    for hour in [0, 1].map(|far| side.hour(&header, far)) {
        header.x[3][hour] = 0;
        // Without RTC x5 and x6 do nothing wherever they are.
        if header.rtc == 1 {
            (header.x[4][hour], header.x[5][hour]) = (0, 0);
        }
    }
    Some(header).filter(|_| !rng.once_in(4))
}

/// The same day between two pairs of neighbours that do nothing.
pub fn other_neighbours(rng: &mut Rng) -> Pair {
    let said = any_said(rng);
    let mut own = headers::any(rng, said);
    for mark in own.x.iter_mut().flatten() {
        *mark = u8::from(rng.once_in(24));
    }
    let mut text = || {
        let before = silent(rng, own.unit, Side::Before);
        let after = silent(rng, own.unit, Side::After);
        let own = own.clone();
        let headers = Headers { before, own, after };
        let blocks = paying_blocks(headers.own.cat.len());
        [headers.to_text().into_bytes(), blocks].concat()
    };
    Pair {
        name: "other neighbours",
        before: text(),
        after: text(),
        bond: Bond::Same,
    }
}

#[cfg(test)]
mod tests {
    use super::*;
    use second::day_text;
    use std::collections::BTreeSet;

    /// The hours that are not paid, from the first and from the last.
    fn unpaid(text: &[u8]) -> (Vec<usize>, Vec<usize>) {
        let answer = day_text(text);
        let hours: Vec<&str> = answer.lines().filter(|l| l.starts_with("hour=")).collect();
        let of = |row: Vec<&str>| -> Vec<usize> {
            let unpaid = |hour: &usize| row[*hour].ends_with(" pay=0");
            (0..3).filter(unpaid).collect()
        };
        (of(hours.clone()), of(hours.into_iter().rev().collect()))
    }

    #[test]
    fn marks_reach_two_hours_over_midnight() {
        let mut seen = BTreeSet::new();
        for turn in 0..96 {
            let (first, last) = unpaid(&one_mark(&mut Rng::new(1, turn as u64), turn));
            let reached = match Side::of(turn) {
                Side::Before => first,
                Side::After => last,
            };
            seen.insert((turn % 2, reached));
        }
        for side in [0, 1] {
            for reached in [vec![], vec![0], vec![0, 1]] {
                assert!(
                    seen.contains(&(side, reached.clone())),
                    "{side} {reached:?}"
                );
            }
        }
        assert_eq!(seen.len(), 6);
    }

    #[test]
    fn hours_at_midnight_are_spared() {
        let (mut spared_hours, mut refused) = (0, 0);
        for index in 0..60 {
            let (first, last) = unpaid(&spared(&mut Rng::new(4, index), 0));
            spared_hours += first.len() + last.len();
            let answer = day_text(&spared(&mut Rng::new(4, index), 0));
            refused += answer.matches("refused=").count();
        }
        assert!(
            spared_hours > 60 && refused > 600,
            "{spared_hours} {refused}"
        );
    }

    #[test]
    fn other_neighbours_differ_and_do_nothing() {
        let mut differ = 0;
        for index in 0..60 {
            let pair = other_neighbours(&mut Rng::new(5, index));
            assert_eq!(day_text(&pair.before), day_text(&pair.after), "{index}");
            differ += usize::from(pair.before != pair.after);
        }
        assert!(differ > 50, "{differ}");
    }
}

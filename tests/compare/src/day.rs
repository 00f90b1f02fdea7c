//! Days between their neighbours: how they are made.

use second::day::Marks;
use second::record::Unit;
use second::{day, Curve, DayAhead, Header, Headers, HourRecord, Interval};

use crate::day_points;
use crate::day_same;
use crate::days;
use crate::events;
use crate::headers::{self, plain};
use crate::hour;
use crate::hours::{self, still};
use crate::midnight;
use crate::pieces::{self, any_said, count, each_hour, said, Said};
use crate::plan::{recipe, Program, Recipe};
use crate::random::Rng;
use crate::three::{self, parts};
use crate::written::Written;

/// The program `day`.
pub const PROGRAM: Program = Program {
    name: "day",
    recipes: RECIPES,
    answer: |text, run| Written::Answer(day::program(text, run)),
    wanted: events::of_day,
    outcome,
    outcomes: || {
        pieces::outcomes(&pieces::SAID, |said| {
            says(Headers::alone(plain(said)).to_text().as_bytes())
        })
    },
    ends_at_empty_line: false,
    pair: Some(day_same::pair),
    back: None,
};

const RECIPES: &[Recipe] = &[
    recipe("days", 4, good),
    recipe("days around a cent", 2, around_a_cent),
    recipe("one mark", 4, one_mark),
    recipe("one mark in the last hours", 3, late_mark),
    recipe("many marks", 3, many_marks),
    recipe("marks at midnight", 8, midnight::one_mark),
    recipe("rtc of neighbours", 4, midnight::rtc),
    recipe("what stays in its day", 3, midnight::stays),
    recipe("three days of marks", 3, midnight::many_marks),
    recipe("hours spared at midnight", 2, midnight::spared),
    recipe("wrong headers", 9, |rng, turn| {
        three::made(rng, turn, headers::ALL_LINES, headers::wrong)
    }),
    recipe("headers out of range", 5, |rng, turn| {
        three::made(rng, turn, headers::ALL_NOT_EMPTY, headers::out_of_range)
    }),
    recipe("headers that end", 4, |rng, turn| {
        three::made(rng, turn, headers::ALL_LINES, headers::ends)
    }),
    recipe("other layouts", 2, |rng, turn| {
        three::made(rng, turn, 6, headers::other_layout)
    }),
    recipe("wrong counts", 2, |rng, turn| {
        three::made(rng, turn, 12, headers::wrong_count)
    }),
    recipe("rows of other lengths", 3, |rng, turn| {
        three::made(rng, turn, 13, headers::other_rows)
    }),
    recipe("long rows", 2, |rng, turn| {
        three::made(rng, turn, 6, headers::long_rows)
    }),
    recipe("two faults", 4, three::two_faults),
    recipe("other units", 3, three::other_units),
    recipe("lacking headers", 4, three::lacking),
    recipe("headers cut at a byte", 2, three::cut),
    recipe("damaged headers", 3, three::damaged),
    recipe("days by points", 2, day_points::by_points),
    recipe("points of excluded hours", 4, day_points::excluded),
    recipe("any blocks", 10, any_blocks),
    recipe("blocks that end", 2, block_ends),
    recipe("blocks out of order", 3, out_of_order),
    recipe("blocks by the count", 3, by_count),
    recipe("surplus", 2, surplus),
    recipe("damage", 5, |rng, _| damaged(rng)),
    recipe("noise", 1, |rng, _| {
        pieces::noise(rng, |rng| any_headers(rng).to_text())
    }),
];

/// The form and the hours that a day's own header says.
fn says(text: &[u8]) -> String {
    let text = String::from_utf8_lossy(parts(text)[1]);
    let lines = text.lines().take_while(|line| !line.starts_with("unit="));
    lines.collect::<Vec<_>>().join(" ")
}

fn outcome(text: &[u8], answer: &str) -> Option<String> {
    days::outcome(&says(text), answer)
}

/// A day of any form and count between any neighbours.
pub fn any_headers(rng: &mut Rng) -> Headers {
    let said = any_said(rng);
    let own = headers::any(rng, said);
    three::around(rng, own, three::any)
}

/// A day of a form and count between neighbours that exclude none of its hours.
pub fn quiet(rng: &mut Rng, said: Said) -> Headers {
    three::around(rng, plain(said), three::quiet)
}

/// Sets marks of a row, one in so many.
pub fn set_marks(rng: &mut Rng, marks: &mut Marks, once_in: usize) {
    for mark in marks {
        *mark = u8::from(rng.once_in(once_in));
    }
}

/// An hour of 100 kW day-ahead that is not run in its first quarter: it pays
/// as many cents as its number, and one.
pub fn paying(hour: usize) -> HourRecord {
    let line = DayAhead {
        hour: hour as i64,
        en: 100,
        ..DayAhead::default()
    };
    let mut record = HourRecord {
        day_ahead: line,
        da: Curve::new(0, &[(100, 10)]),
        ..HourRecord::default()
    };
    let off = Interval {
        en: 0,
        eop: Some(0),
        pen: 10 + 40 * (hour as i64 + 1),
        ..still(&line, 900)
    };
    let on = still(&line, 900);
    record.set_intervals(&[off, on, on, on]);
    record
}

/// An hour of any kind, short as a day has many.
fn short(rng: &mut Rng) -> HourRecord {
    let count = 4 + rng.below(3);
    hours::any_of(rng, count)
}

/// What `day` reads of these headers and hours.
pub fn text(headers: &Headers, hours: &[HourRecord]) -> Vec<u8> {
    pieces::text(&headers.to_text(), hours)
}

/// So many hours that pay by their number.
pub fn all_paying(hours: usize) -> Vec<HourRecord> {
    each_hour(hours, paying)
}

/// The blocks of so many hours, all paid but for the marks above them.
pub fn paying_blocks(hours: usize) -> Vec<u8> {
    pieces::text("", &all_paying(hours))
}

/// A stored sheet of this header and as many hours as it has.
pub fn paying_sheet(header: &Header) -> Vec<u8> {
    pieces::text(&header.to_text(), &all_paying(header.cat.len()))
}

/// The same for a day with its neighbours.
pub fn paying_day(headers: &Headers) -> Vec<u8> {
    text(headers, &all_paying(headers.own.cat.len()))
}

fn all_short(rng: &mut Rng, hours: usize) -> Vec<HourRecord> {
    each_hour(hours, |_| short(rng))
}

/// Days of any hours with few marks.
pub fn good(rng: &mut Rng, turn: usize) -> Vec<u8> {
    let mut own = headers::any(rng, said(turn));
    for row in &mut own.x {
        set_marks(rng, row, 60);
    }
    let hours = all_short(rng, own.cat.len());
    let headers = three::around(rng, own, three::any);
    pieces::closed(rng, text(&headers, &hours))
}

/// Days whose hours all lie around a cent: the total adds what each of them pays,
/// which is another sum than that of what they make.
pub fn around_a_cent(rng: &mut Rng, turn: usize) -> Vec<u8> {
    let headers = quiet(rng, said(turn));
    let hours = each_hour(headers.own.cat.len(), |_| hour::around_a_cent(rng));
    text(&headers, &hours)
}

/// The mark of a row, 0 to 6: x4 to x6, no category, x1 to x3. And another one
/// far away.
pub fn mark(header: &mut Header, row: usize, hour: usize, other: usize) {
    match row {
        0..=2 => header.x[3 + row][hour] = 1,
        3 => header.cat[hour] = 0,
        _ => header.x[row - 4][hour] = 1,
    }
    let hours = header.cat.len();
    header.x[other][(hour + 12) % hours] = 1;
}

/// Every mark in every hour, with and without RTC.
fn one_mark(rng: &mut Rng, turn: usize) -> Vec<u8> {
    let mut header = Header {
        rtc: (turn % 2) as i64,
        ..Header::default()
    };
    let hours = header.cat.len();
    // Hour by hour, but far apart from one turn to the next.
    let hour = turn / 2 * 7 % hours;
    mark(&mut header, turn / 2 / hours % 7, hour, turn % 5);
    paying_day(&three::around(rng, header, three::quiet))
}

/// Marks in the last four hours of each count: those that reach two hours, with
/// and without RTC, then all.
fn late_mark(rng: &mut Rng, turn: usize) -> Vec<u8> {
    let mut header = plain(pieces::SAID[1 + turn % 3]);
    let hour = header.cat.len() - 1 - turn / 9 % 4;
    header.rtc = i64::from(turn / 36 % 2 == 0);
    let row = match turn / 72 % 2 {
        0 => turn / 3 % 3,
        _ => 3 + turn / 3 % 4,
    };
    mark(&mut header, row, hour, turn % 5);
    paying_day(&three::around(rng, header, three::quiet))
}

/// Days that pay, with marks of all kinds.
pub fn many_marks(rng: &mut Rng, turn: usize) -> Vec<u8> {
    let mut header = headers::any(rng, said(turn));
    let once_in = rng.pick(&[2, 8, 24]);
    for row in &mut header.x {
        set_marks(rng, row, once_in);
    }
    paying_day(&three::around(rng, header, three::any))
}

/// Days of all the blocks that the program `hour` is tried with.
pub fn any_blocks(rng: &mut Rng, turn: usize) -> Vec<u8> {
    let said = said(turn);
    let head = quiet(rng, said).to_text();
    days::any_blocks(rng, turn, &head, count(said), hour::PROGRAM.recipes)
}

/// Texts that end within a block, or behind one.
fn block_ends(rng: &mut Rng, turn: usize) -> Vec<u8> {
    let said = any_said(rng);
    let last = rng.below(count(said));
    let text = text(&quiet(rng, said), &all_paying(last));
    days::block_ends::<Unit>(rng, turn, text, last)
}

/// Blocks at other places than their hours say, absent, doubled and apart.
fn out_of_order(rng: &mut Rng, turn: usize) -> Vec<u8> {
    let said = any_said(rng);
    let head = quiet(rng, said).to_text();
    days::out_of_order(rng, turn, &head, all_paying(count(said)))
}

/// More blocks than the own header's count, fewer, or just as many, whatever the
/// counts of the neighbours.
pub fn by_count(rng: &mut Rng, turn: usize) -> Vec<u8> {
    let headers = quiet(rng, pieces::SAID[turn % 4]);
    let mut hours = all_paying(headers.own.cat.len());
    pieces::by_count(rng, &mut hours, turn / 4 % pieces::BY_COUNT);
    pieces::closed(rng, text(&headers, &hours))
}

/// Bytes behind the last block, or just none.
fn surplus(rng: &mut Rng, turn: usize) -> Vec<u8> {
    let text = paying_day(&any_headers(rng));
    days::surplus(rng, turn, text, &paying(0))
}

fn damaged(rng: &mut Rng) -> Vec<u8> {
    let headers = any_headers(rng);
    let hours = headers.own.cat.len();
    let hours = if rng.once_in(2) {
        all_paying(hours)
    } else {
        all_short(rng, hours)
    };
    pieces::damaged(rng, text(&headers, &hours))
}

#[cfg(test)]
mod tests {
    use super::*;

    #[test]
    fn hours_pay_by_their_number() {
        for (said, total) in pieces::SAID.into_iter().zip([300, 276, 300, 325]) {
            let hours: String = (0..count(said))
                .map(|h| format!("hour={h} pay={}\n", h + 1))
                .collect();
            let day = Headers::alone(plain(said));
            let answer = second::day_text(&paying_day(&day));
            assert_eq!(answer, format!("{hours}total={total}\n"));
        }
    }

    #[test]
    fn late_marks_reach_every_last_hour_of_each_count() {
        let mut seen = std::collections::BTreeSet::new();
        for turn in 0..72 {
            let text = late_mark(&mut Rng::new(1, 1), turn);
            let answer = second::day_text(&text);
            let hours: Vec<&str> = answer.lines().collect();
            let unpaid = |back: &usize| hours[hours.len() - 1 - back].ends_with(" pay=0");
            let last: Vec<usize> = (1..=6).filter(unpaid).collect();
            seen.insert((hours.len() - 1, last));
        }
        for count in [23, 24, 25] {
            for last in [
                vec![1, 2, 3],
                vec![1, 2, 3, 4],
                vec![1, 2, 3, 4, 5],
                vec![2, 3, 4, 5, 6],
            ] {
                assert!(seen.contains(&(count, last.clone())), "{count} {last:?}");
            }
        }
    }

    #[test]
    fn what_came_of_the_hours() {
        let of = |own: Header, neighbour: Option<Header>| Headers {
            before: neighbour.clone(),
            own,
            after: neighbour,
        };
        let came = |headers: &Headers| {
            let answer = "hour=22 pay=1\ntotal=1\n";
            outcome(headers.to_text().as_bytes(), answer)
        };
        let paid = |says: &str| Some(format!("{says}: paid"));
        for neighbour in [None, Some(Header::counted(25)), Some(Header::default())] {
            let short = of(Header::counted(23), neighbour.clone());
            assert_eq!(came(&short), paid("form=2 hours=23"));
            let plain = of(Header::default(), neighbour);
            assert_eq!(came(&plain), paid("form=1"));
        }
        assert_eq!(outcome(b"", "refused=1 at=1 header=0\n"), None);
    }
}

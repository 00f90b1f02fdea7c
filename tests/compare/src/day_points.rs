//! Days whose hours leave points to their curves: hours that pay by them, and
//! hours that lack them but are excluded.

use second::{Curve, HourRecord};

use crate::bonds::{Bond, Pair};
use crate::day::{all_paying, any_headers, mark, paying, quiet, set_marks, text};
use crate::headers::plain;
use crate::hours;
use crate::pieces::{self, closed, each_hour, said};
use crate::point_hours::paying_at_steps;
use crate::points::{leave_so, Left};
use crate::random::Rng;
use crate::stretches::curve_of;
use crate::three;

/// Days whose hours all pay by points at the steps of their curves.
pub fn by_points(rng: &mut Rng, turn: usize) -> Vec<u8> {
    let headers = quiet(rng, said(turn));
    let hours = headers.own.cat.len();
    let hours = each_hour(hours, |place| paying_at_steps(rng, turn * hours + place));
    closed(rng, text(&headers, &hours))
}

/// Days of hours without a point: every mark in every hour, which excludes it and
/// those around it, or marks of all kinds; and any neighbours.
pub fn excluded(rng: &mut Rng, turn: usize) -> Vec<u8> {
    let round = turn / 2;
    let mut own = plain(pieces::SAID[round % 4]);
    own.rtc = i64::from(round / 4 % 3 > 0);
    if turn % 2 == 0 {
        let hour = round * 7 % own.cat.len();
        mark(&mut own, round % 7, hour, round % 5);
    } else {
        for row in &mut own.x {
            set_marks(rng, row, 20);
        }
    }
    let hours = each_hour(own.cat.len(), |place| without_point(rng, place));
    let headers = three::around(rng, own, three::any);
    closed(rng, text(&headers, &hours))
}

/// An hour that is excluded pays nothing, whatever its curves are and whether or
/// not they give points.
pub fn excluded_curves(rng: &mut Rng) -> Pair {
    let mut headers = any_headers(rng);
    let place = rng.below(headers.own.cat.len());
    headers.own.x[rng.below(3)][place] = 1;
    let mut hours = all_paying(headers.own.cat.len());
    let count = 4 + rng.below(3);
    hours[place] = hours::any_of(rng, count);
    hours[place].day_ahead.hour = place as i64;
    leave_so(rng, &mut hours[place], Left::All);
    let before = text(&headers, &hours);
    for day_ahead in [true, false] {
        *curve_of(&mut hours[place], day_ahead) = match rng.below(3) {
            0 => Curve::default(),
            _ => hours::curve(rng, -40, 40, hours::market_price),
        };
    }
    let after = text(&headers, &hours);
    Pair::either_way(rng, "curves of an excluded hour", before, after, Bond::Same)
}

/// An hour that pays by its number, but leaves points to a curve which it does not
/// have: in one interval, in all, or in lagging ones alone, which are not asked.
/// Now and then it has one, and pays less than its number by the point of that.
fn without_point(rng: &mut Rng, place: usize) -> HourRecord {
    let mut record = paying(place);
    let row = &mut record.intervals[..record.count];
    match rng.below(6) {
        0 | 1 => row[rng.below(row.len())].eop = None,
        2 | 3 => row.iter_mut().for_each(|line| line.eop = None),
        4 => row.iter_mut().skip(1).for_each(|line| {
            line.eop = None;
            line.lim = line.ae;
        }),
        _ => {
            row[0].eop = None;
            row[0].ae = 100;
            record.rt = Curve::new(0, &[(60, row[0].pen), (100, row[0].pen + 1)]);
        }
    }
    record
}

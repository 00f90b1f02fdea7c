//! What `day` reads: the headers of three days and the blocks of the one
//! between. Neighbours that are good, and headers that are wrong, lack or are of
//! another unit, in each of the three places.

use second::text::cut_block;
use second::{Header, Headers};

use crate::damage::Sheet;
use crate::day::{any_headers, paying_blocks};
use crate::headers::{self, plain, spoil, Make, Slot, FIELDS};
use crate::pieces::{self, any_said};
use crate::random::Rng;

/// The place of the own header among the three, counted from 0.
const OWN: usize = 1;

/// What stands where a neighbour lacks.
const LACKS: &str = "\n";

/// A neighbour of this unit without exceptions; or it lacks.
pub fn quiet(rng: &mut Rng, unit: i64) -> Option<Header> {
    let said = any_said(rng);
    let header = Header {
        unit,
        ..headers::any(rng, said)
    };
    Some(header).filter(|_| !rng.once_in(3))
}

/// The same, now and then with marks.
pub fn any(rng: &mut Rng, unit: i64) -> Option<Header> {
    let mut neighbour = quiet(rng, unit);
    if rng.once_in(3) {
        let rows = neighbour.iter_mut().flat_map(|header| &mut header.x);
        for mark in rows.flatten() {
            *mark = u8::from(rng.once_in(12));
        }
    }
    neighbour
}

/// A day between neighbours that are drawn so.
pub fn around(
    rng: &mut Rng,
    own: Header,
    neighbour: fn(&mut Rng, i64) -> Option<Header>,
) -> Headers {
    Headers {
        before: neighbour(rng, own.unit),
        after: neighbour(rng, own.unit),
        own,
    }
}

/// The texts of the three headers.
fn texts(headers: &Headers) -> [String; 3] {
    let of = |header: &Option<Header>| match header {
        Some(header) => header.to_text(),
        None => LACKS.to_string(),
    };
    [
        of(&headers.before),
        headers.own.to_text(),
        of(&headers.after),
    ]
}

/// The three headers and the blocks of a text, each header with its empty line.
pub fn parts(text: &[u8]) -> [&[u8]; 4] {
    let mut rest = text;
    let mut parts = [rest; 4];
    for part in &mut parts[..3] {
        let behind = cut_block(rest).rest;
        *part = &rest[..rest.len() - behind.len()];
        rest = behind;
    }
    parts[3] = rest;
    parts
}

/// The place of a header that has every turn of a period in each of them.
fn place_of(turn: usize, period: usize) -> usize {
    (turn % period + turn / period) % 3
}

/// Good headers but for one, which is made as in this turn, over hours that are
/// all paid. What has that many turns is made in each of the three places.
pub fn made(rng: &mut Rng, turn: usize, period: usize, make: Make) -> Vec<u8> {
    let place = place_of(turn, period);
    let headers = any_headers(rng);
    let good = texts(&headers);
    let mut text = good[..place].concat().into_bytes();
    let slot = Slot {
        unit: headers.own.unit,
        in_front: text.len(),
    };
    let made = make(rng, turn, slot);
    text.extend(made.sheet.text());
    if made.sheet.ended {
        let hours = match place {
            OWN => made.hours,
            _ => headers.own.cat.len(),
        };
        text.extend(good[place + 1..].concat().into_bytes());
        text.extend(paying_blocks(hours));
    }
    text
}

/// A header at fault: in form, or in range.
fn faulty(rng: &mut Rng, unit: i64, in_form: bool) -> String {
    let said = rng.pick(&pieces::SAID);
    let mut header = Header {
        unit,
        ..headers::any(rng, said)
    };
    if in_form {
        let field = 1 + rng.below(FIELDS - 1);
        let kind = rng.below(8);
        spoil(rng, &mut header, field, kind);
        return header.to_text();
    }
    let mut sheet = Sheet::of(header.to_text().as_bytes());
    // Not at the empty line, which ends it in front of the next one.
    let line = rng.below(sheet.lines.len() - 1);
    sheet.lines[line].push(rng.pick(b" \rx"));
    String::from_utf8_lossy(&sheet.text()).into_owned()
}

/// Two headers at fault, each in form or in range, and now and then all three;
/// or one behind a day before of another unit.
pub fn two_faults(rng: &mut Rng, turn: usize) -> Vec<u8> {
    let headers = any_headers(rng);
    let unit = headers.own.unit;
    let mut text = texts(&headers);
    let kind = turn / 4;
    if turn % 4 == 3 {
        text[0] = other_unit(rng, unit).to_text();
        text[1 + kind / 2 % 2] = faulty(rng, unit, kind % 2 == 0);
    } else {
        let [first, later] = [[0, 1], [0, 2], [1, 2]][turn % 4];
        text[later] = faulty(rng, unit, kind / 2 % 2 == 0);
        if later == 1 && rng.once_in(3) {
            text[2] = faulty(rng, unit, kind / 4 % 2 == 0);
        }
        text[first] = faulty(rng, unit, kind % 2 == 0);
    }
    let blocks = paying_blocks(headers.own.cat.len());
    [text.concat().into_bytes(), blocks].concat()
}

/// A header of another unit than this one: the next, one with a digit more or
/// less, or one of which some bytes are the same.
fn other_unit(rng: &mut Rng, unit: i64) -> Header {
    let others = [
        unit + 1,
        unit - 1,
        unit * 10,
        unit / 10,
        unit ^ 0x100,
        unit ^ 0x1_0000,
        1,
        9_999_999,
    ];
    let good = |other: &i64| (1..=9_999_999).contains(other) && *other != unit;
    let others: Vec<i64> = others.into_iter().filter(good).collect();
    let said = any_said(rng);
    Header {
        unit: rng.pick(&others),
        ..headers::any(rng, said)
    }
}

/// Neighbours of another unit: before, after or both, beside one that lacks or
/// has the own unit.
pub fn other_units(rng: &mut Rng, turn: usize) -> Vec<u8> {
    let said = any_said(rng);
    let own = headers::any(rng, said);
    let unit = own.unit;
    // Each form and count in each kind's turns.
    let theirs = pieces::SAID[turn / 5 % 4];
    let other = Header {
        unit: other_unit(rng, unit).unit,
        ..headers::any(rng, theirs)
    };
    let same = Header {
        unit,
        ..headers::any(rng, said)
    };
    let (before, after) = match turn % 5 {
        0 => (Some(other), None),
        1 => (Some(other), Some(same)),
        2 => (Some(other.clone()), Some(other)),
        3 => (None, Some(other)),
        _ => (Some(same), Some(other)),
    };
    let headers = Headers { before, own, after };
    let blocks = paying_blocks(headers.own.cat.len());
    [headers.to_text().into_bytes(), blocks].concat()
}

/// Headers that lack where they may and where they may not, lines that are
/// blank and not empty, and headers too few or too many.
pub fn lacking(rng: &mut Rng, turn: usize) -> Vec<u8> {
    let headers = any_headers(rng);
    let mut text = texts(&headers).to_vec();
    let (kind, round) = (turn % 9, turn / 9);
    let place = round % 3;
    match kind {
        0 => text[OWN] = LACKS.to_string(),
        // The text ends where a header should stand.
        1 => {
            text.truncate(place);
            return text.concat().into_bytes();
        }
        // A line that only seems to be empty, with and without one that is.
        2 | 8 => {
            let line = ["\r", " ", "\t", "\0", "-"][round % 5];
            text[place] = line.to_string() + if kind == 2 { "\n\n" } else { "\n" };
        }
        // An empty line more, in front of a header or of the blocks.
        3 => text.insert(round % 4, LACKS.to_string()),
        4 => drop(text.remove(place)),
        // A stored sheet, whose header is the only one.
        5 => text = vec![headers.own.to_text()],
        6 => text.insert(place, plain(any_said(rng)).to_text()),
        _ => (text[0], text[2]) = (LACKS.to_string(), LACKS.to_string()),
    }
    let blocks = paying_blocks(headers.own.cat.len());
    [text.concat().into_bytes(), blocks].concat()
}

/// Texts that end at any byte of the three headers.
pub fn cut(rng: &mut Rng, turn: usize) -> Vec<u8> {
    let mut text = any_headers(rng).to_text().into_bytes();
    // Byte by byte, but far apart from one turn to the next.
    text.truncate(turn * 37 % text.len());
    text
}

/// Headers that are damaged, once to three times, over blocks that are not.
pub fn damaged(rng: &mut Rng, _: usize) -> Vec<u8> {
    let headers = any_headers(rng);
    let text = pieces::damaged(rng, headers.to_text().into_bytes());
    [text, paying_blocks(headers.own.cat.len())].concat()
}

#[cfg(test)]
mod tests {
    use super::*;
    use crate::rows::assert_reach_ends;
    use second::day_text;
    use std::collections::BTreeSet;

    /// What is printed of so many turns.
    fn answers(make: fn(&mut Rng, usize) -> Vec<u8>, turns: usize) -> BTreeSet<String> {
        let answer = |turn| day_text(&make(&mut Rng::new(2, turn as u64), turn));
        (0..turns).map(answer).collect()
    }

    #[test]
    fn every_turn_of_a_period_comes_in_each_place() {
        for period in [6, 13, 21, 23] {
            let places = (0..3 * period).map(|turn| (turn % period, place_of(turn, period)));
            let places: BTreeSet<(usize, usize)> = places.collect();
            assert_eq!(places.len(), 3 * period);
        }
    }

    #[test]
    fn a_text_has_its_parts() {
        let mut rng = Rng::new(1, 1);
        for _ in 0..50 {
            let headers = any_headers(&mut rng);
            let text = headers.to_text() + "what\n\nfollows";
            let [before, own, after, blocks] = parts(text.as_bytes());
            let good = texts(&headers);
            assert_eq!([before, own, after], good.each_ref().map(|t| t.as_bytes()));
            assert_eq!(blocks, b"what\n\nfollows");
        }
        assert_eq!(parts(b""), [b"", b"", b"", b""]);
        assert_eq!(parts(b"\na"), [b"\n" as &[u8], b"a", b"", b""]);
    }

    #[test]
    fn wrong_headers_are_met_in_each_place() {
        let wrong = answers(
            |rng, turn| made(rng, turn, headers::ALL_LINES, headers::wrong),
            9 * headers::ALL_LINES,
        );
        for header in 0..3 {
            for line in 1..=12 {
                let refusal = format!("refused=1 at={line} header={header}\n");
                assert!(wrong.contains(&refusal), "{refusal}");
            }
        }
    }

    #[test]
    fn units_and_faults_are_refused_in_their_order() {
        let said = answers(other_units, 100);
        let refusals = [(2, 0), (3, 0), (2, 2), (3, 2)];
        let refusals = refusals.map(|(at, header)| format!("refused=2 at={at} header={header}\n"));
        assert_eq!(said, refusals.into());
        let said = answers(two_faults, 200);
        assert!(said.iter().all(|answer| answer.starts_with("refused=")));
    }

    #[test]
    fn long_rows_go_over_the_ends_of_reads() {
        let long = |rng: &mut Rng, turn| made(rng, turn, 6, headers::long_rows);
        assert_reach_ends(long, 1200);
    }
}

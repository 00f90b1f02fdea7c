//! Every byte string has an answer, in the printed form of document 01, or is
//! moved and comes back.

mod common;

use common::line::*;
use common::point::*;
use common::*;
use second::{archive, day, hour, import, line, Check, Header, Moved, Run, Way};
use second::{down_text, up_text};

/// Whether a printed line is `key=number` pairs with these keys; `-` may stand
/// for a number.
fn is_line(line: &str, keys: &[&str]) -> bool {
    let pairs: Vec<_> = line.split(' ').map(|pair| pair.split_once('=')).collect();
    let fits = |(pair, key): (&Option<(&str, &str)>, &&str)| {
        pair.is_some_and(|(name, value)| {
            name == *key && (value == "-" || value.parse::<i64>().is_ok())
        })
    };
    pairs.len() == keys.len() && pairs.iter().zip(keys).all(fits)
}

fn is_hour_answer(text: &str) -> bool {
    let lines: Vec<&str> = text.lines().collect();
    let Some((last, intervals)) = lines.split_last() else {
        return false;
    };
    let refused = intervals.is_empty() && is_line(last, &["refused", "at"]);
    let paid = is_line(last, &["hour", "pay"]) && (4..=30).contains(&intervals.len());
    let grains = |line: &&str| is_line(line, &["i", "grains"]);
    refused || (paid && intervals.iter().all(grains))
}

fn is_day_answer(text: &str) -> bool {
    let places = ["header=0\n", "header=1\n", "header=2\n"];
    let named = places.iter().any(|place| text.ends_with(place));
    is_day(text, &["refused", "at", "header"]) && named == text.contains("header=")
}

fn is_line_answer(text: &str) -> bool {
    is_day(text, &["refused", "at"])
}

/// Whether this is a printed day, a refused one with these keys.
fn is_day(text: &str, refused: &[&str]) -> bool {
    let lines: Vec<&str> = text.lines().collect();
    if let [only] = lines[..] {
        return is_line(only, refused);
    }
    let is_hour =
        |line: &&str| is_line(line, &["hour", "pay"]) || is_line(line, &["hour", "refused", "at"]);
    let total = lines.last().is_some_and(|line| is_line(line, &["total"]));
    let hours = lines.len() - 1;
    (23..=25).contains(&hours) && total && lines[..hours].iter().all(is_hour)
}

fn is_import_answer(text: &str) -> bool {
    let line = text.trim_end_matches('\n');
    is_line(line, &["import", "pay"]) || is_line(line, &["refused", "hour", "at"])
}

/// A moved sheet has the same answers, in whatever place `day` reads its header,
/// and goes back to the same bytes; a refusal names a line of the header.
fn is_moved_or_refused(text: &[u8], moved: Moved, back: fn(&[u8]) -> Moved, last: Check) -> bool {
    match moved {
        Moved::Sheet(other) => {
            let same = in_each_place(&other) == in_each_place(text);
            same && back(&other) == Moved::Sheet(text.to_vec())
        }
        Moved::Refused(refusal) => {
            let known = [Check::Form, Check::Range, last].contains(&refusal.check);
            known && (1..=12).contains(&refusal.place)
        }
    }
}

/// Asks all programs for one text.
fn ask_all(text: &[u8]) {
    let run = &mut Run::new(Way::Steps);
    let shown = || String::from_utf8_lossy(text).into_owned();
    for (answer, fits) in [
        (hour::program(text, run), is_hour_answer as fn(&str) -> bool),
        (day::program(text, run), is_day_answer),
        (import::program(text, run), is_import_answer),
        (line::program(text, run), is_line_answer),
    ] {
        assert!(
            answer.ends_with('\n') && fits(&answer),
            "{answer}{}",
            shown()
        );
    }
    let up = archive::up(text, run);
    let is_up = is_moved_or_refused(text, up, down_text, Check::Range);
    let down = archive::down(text, run);
    let is_down = is_moved_or_refused(text, down, up_text, Check::Back);
    assert!(is_up && is_down, "{}", shown());
}

/// Bytes that a change puts in: digits, signs, and such as stand in no sheet.
const OTHER_BYTES: &[u8] = b"0123456789-= \n\r\0\x80\xffabcnx";

/// A text with a few bytes changed, or with its end cut off.
fn changed(text: &[u8], numbers: &mut Numbers) -> Vec<u8> {
    let mut bytes = text.to_vec();
    for _ in 0..=numbers.below(3) {
        let at = numbers.below(bytes.len() as u64) as usize;
        let other = OTHER_BYTES[numbers.below(OTHER_BYTES.len() as u64) as usize];
        match numbers.below(5) {
            0 => bytes.insert(at.min(bytes.len()), other),
            1 if at < bytes.len() => drop(bytes.remove(at)),
            2 => bytes.truncate(at),
            _ => {
                if let Some(byte) = bytes.get_mut(at) {
                    *byte = other;
                }
            }
        }
    }
    bytes
}

#[test]
fn short_texts() {
    ask_all(b"");
    for first in 0..=255 {
        ask_all(&[first]);
        for second in [b'\n', b'=', 0, b'1'] {
            ask_all(&[first, second]);
            ask_all(&[second, first, b'\n']);
        }
    }
}

#[test]
fn texts_of_any_bytes() {
    let mut numbers = Numbers(9);
    for _ in 0..500 {
        let length = numbers.below(300);
        let text: Vec<u8> = (0..length).map(|_| numbers.below(256) as u8).collect();
        ask_all(&text);
    }
}

#[test]
fn changed_hours() {
    let mut numbers = Numbers(10);
    for _ in 0..3000 {
        ask_all(&changed(WORKED.as_bytes(), &mut numbers));
        ask_all(&changed(OPEN.as_bytes(), &mut numbers));
    }
}

#[test]
fn changed_lines() {
    let mut numbers = Numbers(12);
    for _ in 0..300 {
        for hours in 23..=25 {
            let day = line_day(hours);
            ask_all(&changed(day.as_bytes(), &mut numbers));
            // Near the start, so that heads are met as often as blocks.
            let (head, rest) = day.as_bytes().split_at(60);
            ask_all(&[&changed(head, &mut numbers), rest].concat());
        }
    }
}

/// Days with neighbours on both sides, on one, and on none.
fn neighboured_days() -> Vec<Vec<u8>> {
    let empty = "\n".to_string();
    let header = |hours| Header::counted(hours).to_text();
    let neighbours = [
        (empty.clone(), empty.clone()),
        (header(23), empty.clone()),
        (empty, Header::default().to_text()),
        (header(25), header(24)),
    ];
    let sheets = (23..=25).map(counted_day);
    let sheets = sheets.chain([day_of(&Header::default(), &one_cent_hours())]);
    let days = sheets.zip(neighbours).map(|(sheet, (before, after))| {
        between(before.as_bytes(), sheet.as_bytes(), after.as_bytes())
    });
    days.collect()
}

#[test]
fn changed_days() {
    let mut numbers = Numbers(11);
    for day in (0..200).flat_map(|_| neighboured_days()) {
        ask_all(&changed(&day, &mut numbers));
        // Near the start, so that headers are met as often as blocks.
        let (head, rest) = day.split_at(600);
        ask_all(&[&changed(head, &mut numbers), rest].concat());
    }
}

#[test]
fn changed_sheets_and_imports() {
    let mut numbers = Numbers(13);
    let mut sheets = vec![day_of(&Header::default(), &one_cent_hours())];
    let mut imports = vec![import_of(7, 0, &one_cent_imports())];
    for hours in 23..=25 {
        sheets.push(counted_day(hours));
        imports.push(counted_import(hours as i64));
    }
    for (sheet, import) in (0..200).flat_map(|_| sheets.iter().zip(&imports)) {
        ask_all(&changed(sheet.as_bytes(), &mut numbers));
        ask_all(&changed(import.as_bytes(), &mut numbers));
        // Near the start, so that headers are met as often as blocks.
        for (text, near) in [(sheet, 400), (import, 40)] {
            let (head, rest) = text.as_bytes().split_at(near);
            ask_all(&[&changed(head, &mut numbers), rest].concat());
        }
    }
}

//! The headers of three days as `day` reads them: which lack, which are refused,
//! and in what order; and the units of the neighbours.

mod common;

use common::*;
use second::{day_text, Header};

/// The rows of marks; `cat` is on line 4 of form 1 and on line 5 of form 2.
const ROWS: [&str; 7] = ["cat", "x1", "x2", "x3", "x4", "x5", "x6"];

const LACKS: &str = "\n";

/// A header of each form and count.
fn each_header() -> [Header; 4] {
    let [short, even, long] = [23, 24, 25].map(Header::counted);
    [Header::default(), short, even, long]
}

fn blocks(hours: usize) -> String {
    let records = (0..hours as i64).map(one_cent_hour);
    records.map(|record| closed(&record)).collect()
}

/// What `day` prints for these headers over 25 blocks.
fn print(headers: [&str; 3]) -> String {
    day_text((headers.concat() + &blocks(25)).as_bytes())
}

#[track_caller]
fn refused(headers: [&str; 3], check: u8, line: usize, header: usize) {
    let printed = format!("refused={check} at={line} header={header}\n");
    assert_eq!(print(headers), printed, "{:.900}", headers.concat());
}

/// Good headers of any forms, one of them replaced.
fn with_header<'a>(good: [&'a str; 3], place: usize, other: &'a str) -> [&'a str; 3] {
    let mut headers = good;
    headers[place] = other;
    headers
}

/// Where an empty line of a neighbour may stand, and where it may not.
fn each_company() -> Vec<[String; 3]> {
    let [plain, short, even, long] = each_header().map(|header| header.to_text());
    let lacks = || LACKS.to_string();
    vec![
        [lacks(), long.clone(), lacks()],
        [short.clone(), long.clone(), lacks()],
        [lacks(), long.clone(), even.clone()],
        [plain, long, even],
        [lacks(), short, lacks()],
    ]
}

#[test]
fn neighbours_without_marks_change_nothing() {
    for own in each_header() {
        let hours = own.cat.len();
        let own = own.to_text();
        let answer = printed(hours, &[], &hours.to_string());
        let mut neighbours = vec![LACKS.to_string()];
        neighbours.extend(each_header().map(|header| header.to_text()));
        for before in &neighbours {
            for after in &neighbours {
                let text = before.clone() + &own + after + &blocks(hours);
                assert_eq!(day_text(text.as_bytes()), answer);
                // A block more than the own count, whatever the others count.
                let more = text + &closed(&one_cent_hour(hours as i64));
                assert_eq!(day_text(more.as_bytes()), printed(hours, &[], "-"));
            }
        }
    }
}

#[test]
fn a_mark_at_midnight_is_felt_on_the_other_side() {
    let mut marked = Header::default();
    (marked.x[3][23], marked.x[3][1]) = (1, 1);
    let (marked, own) = (marked.to_text(), Header::counted(25).to_text());
    let unpaid = [0, 1, 24].map(|hour| (hour, "pay=0"));
    let answer = |of: &[(usize, &str)]| printed(25, of, &(25 - of.len()).to_string());
    assert_eq!(print([&marked, &own, &marked]), answer(&unpaid));
    assert_eq!(print([&marked, &own, LACKS]), answer(&unpaid[..2]));
    assert_eq!(print([LACKS, &own, &marked]), answer(&unpaid[2..]));
    assert_eq!(print([LACKS, &own, LACKS]), answer(&[]));
}

#[test]
fn every_line_of_each_header_has_its_form() {
    for company in each_company() {
        let good = company.each_ref().map(String::as_str);
        for place in 0..3 {
            for header in each_header() {
                let text = header.to_text();
                let last = text.lines().count();
                for line in 1..last {
                    for other in ["x", "\r", " ", "unit", "cat=2 "] {
                        let wrong = with_line(&text, line, other);
                        refused(with_header(good, place, &wrong), 1, line, place);
                    }
                    let short = without_line(&text, line);
                    refused(with_header(good, place, &short), 1, line, place);
                }
                let extra = with_line_before(&text, last, "x7=0");
                refused(with_header(good, place, &extra), 1, last, place);
            }
        }
    }
}

#[test]
fn every_range_of_each_header() {
    for company in each_company() {
        let good = company.each_ref().map(String::as_str);
        for place in 0..3 {
            for header in each_header() {
                let text = header.to_text();
                let above = text.lines().count() - 11;
                let mut values = vec![(2 + above, "unit", "0".to_string())];
                values.push((3 + above, "rtc", "2".to_string()));
                if above == 0 {
                    values.push((1, "form", "3".to_string()));
                }
                for count in OTHER_COUNTS.iter().take(9 * above) {
                    values.push((2, "hours", count.to_string()));
                }
                for (i, key) in ROWS.into_iter().enumerate() {
                    values.push((4 + above + i, key, "2".repeat(header.cat.len())));
                }
                for (line, key, value) in values {
                    let wrong = with_value(&text, line, key, &value);
                    refused(with_header(good, place, &wrong), 2, line, place);
                }
            }
        }
    }
}

#[test]
fn texts_that_end_within_the_headers() {
    for company in each_company() {
        let text = company.concat();
        let mut ends = 0;
        for (place, header) in company.iter().enumerate() {
            for cut in 0..header.len() {
                let line = 1 + header[..cut].matches('\n').count();
                let printed = format!("refused=1 at={line} header={place}\n");
                assert_eq!(day_text(&text.as_bytes()[..ends + cut]), printed);
            }
            ends += header.len();
        }
        assert!(day_text(text.as_bytes()).starts_with("hour=0 refused=1 at=1\n"));
    }
    assert_eq!(day_text(b""), "refused=1 at=1 header=0\n");
}

#[test]
fn the_own_header_may_not_lack() {
    let [plain, short, ..] = each_header().map(|header| header.to_text());
    for before in [LACKS, &plain, &short] {
        for after in [LACKS, &plain, &short] {
            refused([before, LACKS, after], 1, 1, 1);
            refused([before, LACKS, &(after.to_string() + "x\n")], 1, 1, 1);
        }
    }
    refused(["x\n\n", LACKS, &plain], 1, 1, 0);
    let far = with_value(&plain, 2, "unit", "0");
    refused([&far, LACKS, &plain], 2, 2, 0);
    // A stored sheet by itself: its first block stands where the header should.
    assert_eq!(
        day_text(counted_day(24).as_bytes()),
        "refused=1 at=1 header=1\n"
    );
}

#[test]
fn only_an_empty_line_lacks() {
    let own = Header::default().to_text();
    for line in ["\r\n", " \n", "\0\n", "-\n", "x\n", "\u{feff}\n"] {
        let header = line.to_string() + "\n";
        refused([&header, &own, LACKS], 1, 1, 0);
        refused([LACKS, &own, &header], 1, 1, 2);
    }
    // One more empty line is an empty header, or an empty block.
    refused(["\n\n", &own, LACKS], 1, 1, 1);
    let late = print([LACKS, &own, "\n\n"]);
    assert!(late.starts_with("hour=0 refused=1 at=1\nhour=1 refused=3 at=1\n"));
}

#[test]
fn headers_are_judged_one_after_the_other() {
    let [plain, short, ..] = each_header().map(|header| header.to_text());
    let form = |header: &str| with_value(header, 5, key_on(header, 5), "x");
    let range = |header: &str| with_value(header, 3, key_on(header, 3), "-1");
    for [one, other] in [[&plain, &short], [&short, &plain], [&short, &short]] {
        let good = one.as_str();
        let faults = [(1, 5, form(other)), (2, 3, range(other))];
        for (check, line, first) in &faults {
            for (_, _, later) in &faults {
                refused([first, later, good], *check, *line, 0);
                refused([first, good, later], *check, *line, 0);
                refused([first, later, later], *check, *line, 0);
                refused([good, first, later], *check, *line, 1);
                refused([LACKS, first, later], *check, *line, 1);
            }
            refused([good, good, first], *check, *line, 2);
        }
    }
    // Within a header FORM comes first, as ever.
    let both = with_value(&with_value(&plain, 2, "unit", "0"), 9, "x5", "");
    refused([&both, &plain, &plain], 1, 9, 0);
    refused([&plain, &plain, &both], 1, 9, 2);
}

/// The key on a line of a header.
fn key_on(header: &str, line: usize) -> &str {
    let line = header.lines().nth(line - 1).expect("the line is there");
    line.split_once('=').expect("a pair").0
}

/// The header with this unit.
fn of_unit(header: &Header, unit: i64) -> String {
    let header = Header {
        unit,
        ..header.clone()
    };
    header.to_text()
}

#[test]
fn neighbours_have_the_own_unit() {
    for own in each_header() {
        let same = own.to_text();
        for neighbour in each_header() {
            let line = if neighbour.form == 1 { 2 } else { 3 };
            for unit in [2, 9_999_999, 11] {
                let other = of_unit(&neighbour, unit);
                refused([&other, &same, LACKS], 2, line, 0);
                refused([&other, &same, &same], 2, line, 0);
                refused([&other, &same, &other], 2, line, 0);
                refused([LACKS, &same, &other], 2, line, 2);
                refused([&same, &same, &other], 2, line, 2);
                // All three the same are good, whatever the unit is.
                let own = of_unit(&own, unit);
                assert!(print([&other, &own, &other]).starts_with("hour=0 pay=1\n"));
                refused([&other, &own, &same], 2, unit_line(&same), 2);
            }
        }
    }
}

fn unit_line(header: &str) -> usize {
    let line = header.lines().position(|line| line.starts_with("unit="));
    line.expect("a unit") + 1
}

#[test]
fn units_are_compared_when_all_headers_stand() {
    let own = Header::default().to_text();
    let other = of_unit(&Header::counted(25), 7);
    refused([&other, "x\n\n", &own], 1, 1, 1);
    refused([&other, &own, "x\n\n"], 1, 1, 2);
    refused([&other, &own, &with_value(&own, 3, "rtc", "2")], 2, 3, 2);
    refused([&other, &own, &with_value(&own, 2, "unit", "0")], 2, 2, 2);
    refused([&other, LACKS, &other], 1, 1, 1);
    // A unit that no unit has is its own header's fault, and in its turn.
    let none = with_value(&own, 2, "unit", "0");
    refused([&none, &own, LACKS], 2, 2, 0);
    refused([&none, &none, &none], 2, 2, 0);
    refused([&other, &none, &none], 2, 2, 1);
    // Blocks are not looked at.
    let ended = day_text([other, own, "\n".to_string()].concat().as_bytes());
    assert_eq!(ended, "refused=2 at=3 header=0\n");
}

#[test]
fn rows_of_any_length_in_each_header() {
    for company in each_company() {
        let good = company.each_ref().map(String::as_str);
        for place in 0..3 {
            let no_day = Header::counted(22).to_text();
            let day = Header::counted(23).to_text();
            for (i, key) in ROWS.into_iter().enumerate() {
                for digits in [0, 1, 24, 70_000] {
                    let row = "1".repeat(digits);
                    let wrong = with_value(&no_day, 5 + i, key, &row);
                    refused(with_header(good, place, &wrong), 2, 2, place);
                    let wrong = with_value(&day, 5 + i, key, &row);
                    refused(with_header(good, place, &wrong), 1, 5 + i, place);
                    let wrong = with_value(&no_day, 5 + i, key, &(row + "x"));
                    refused(with_header(good, place, &wrong), 1, 5 + i, place);
                }
            }
        }
    }
}

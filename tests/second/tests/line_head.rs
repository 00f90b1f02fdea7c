//! The head of a line's day: FORM and RANGE of its four lines.

mod common;

use common::line::*;
use common::*;
use second::LineHead;

#[track_caller]
fn refused(text: &str, check: u8, line: usize) {
    let printed = format!("refused={check} at={line}\n");
    assert_eq!(print_line(text), printed, "{text:.300}");
}

#[track_caller]
fn accepted(text: &str) {
    assert!(
        print_line(text).starts_with("hour=0 pay=1\n"),
        "{text:.300}"
    );
}

#[test]
fn a_head_of_few_lines() {
    refused("", 1, 1);
    refused("\n", 1, 1);
    refused(&format!("\n{}", line_day(24)), 1, 1);
    let text = LineHead::new(24).to_text();
    let lines: Vec<&str> = text.split_inclusive('\n').collect();
    assert_eq!(lines.len(), 4);
    for count in 1..=3 {
        let few = lines[..count].concat();
        refused(&few, 1, count + 1);
        refused(&few[..few.len() - 1], 1, count);
        if count < 3 {
            refused(&(few + "\n" + LINE_BLOCK), 1, count + 1);
        }
    }
}

#[test]
fn the_fourth_line_is_empty() {
    for line in ["mark=1", "\r", " ", "x=1", "hour=0 dasi=100 dasw=0"] {
        refused(&with_line_before(&line_day(23), 4, line), 1, 4);
    }
    refused(&without_line(&line_day(23), 4), 1, 4);
    let open = LineHead::new(24).to_text();
    refused(&open[..open.len() - 1], 1, 4);
}

#[test]
fn lines_in_another_form() {
    let text = line_day(24);
    for (line, key) in [(1, "line"), (2, "hours")] {
        for value in [
            "024", "01", "", "-", "-0", "+1", "12345678", "x", "24 ", "2 4", "24\r", "24=",
        ] {
            refused(&with_value(&text, line, key, value), 1, line);
        }
    }
    for (line, bad) in [
        (1, "line"),
        (1, "unit=1"),
        (1, "Line=1"),
        (1, " line=1"),
        (1, "line=1 hours=24"),
        (1, "form=1"),
        (2, "hour=24"),
        (2, "hours=24 hours=24"),
        (2, "24"),
        (3, "mark"),
        (3, "cat=111111111111111111111111"),
        (3, "mark=11111111111111111111111 1"),
        (3, "mark=111111111111111111111111 "),
        (3, "mark=-11111111111111111111111"),
        (3, "mark=11111111111111111111111x"),
        (3, "mark=11111111111111111111111\u{b9}"),
        (3, "mark=11111111111111111111111\r"),
    ] {
        refused(&with_line(&text, line, bad), 1, line);
    }
    for line in 1..=3 {
        refused(&without_line(&text, line), 1, line);
        let twice = text.lines().nth(line - 1).unwrap_or_default();
        let twice = with_line_before(&text, line, twice);
        refused(&twice, 1, line + 1);
    }
    // The header of a day sheet is none of a line's.
    refused(&counted_day(24), 1, 1);
}

#[test]
fn the_row_has_a_digit_for_each_hour() {
    for hours in 23..=25 {
        for digits in [0, 1, 22, 23, 24, 25, 26, 20_000] {
            let text = with_value(&line_day(hours), 3, "mark", &"1".repeat(digits));
            if digits == hours {
                accepted(&text);
            } else {
                refused(&text, 1, 3);
            }
        }
    }
}

#[test]
fn ranges_of_a_head() {
    let text = line_day(24);
    for value in ["0", "-1", "-9999999"] {
        refused(&with_value(&text, 1, "line", value), 2, 1);
    }
    for value in ["1", "9999999", "4711"] {
        accepted(&with_value(&text, 1, "line", value));
    }
    for digit in 3..=9 {
        for at in [0, 11, 23] {
            let mut row = vec![b'1'; 24];
            row[at] = b'0' + digit;
            let row = String::from_utf8_lossy(&row).into_owned();
            refused(&with_value(&text, 3, "mark", &row), 2, 3);
        }
    }
    accepted(&with_value(&text, 3, "mark", "121200121212121212121212"));
}

#[test]
fn another_count_is_range_behind_all_form() {
    for count in OTHER_COUNTS {
        let text = with_value(&line_day(24), 2, "hours", count);
        refused(&text, 2, 2);
        // The first line out of range is named, and FORM comes before it.
        refused(&with_value(&text, 1, "line", "0"), 2, 1);
        refused(&with_value(&text, 1, "line", "00"), 1, 1);
        refused(&without_line(&text, 4), 1, 4);
        refused(&with_line_before(&text, 4, "x"), 1, 4);
        for digits in [0, 1, 22, 24, 25, 20_000] {
            for digit in ["0", "2", "9"] {
                let row = digit.repeat(digits);
                refused(&with_value(&text, 3, "mark", &row), 2, 2);
            }
        }
        for bad in ["x", "00x", "-1", " ", "0 0", "0\r", "0=0", "\u{b9}"] {
            refused(&with_value(&text, 3, "mark", bad), 1, 3);
        }
        let long = format!("{}x", "0".repeat(20_000));
        refused(&with_value(&text, 3, "mark", &long), 1, 3);
        refused(&with_line(&text, 3, "mark"), 1, 3);
        refused(&without_line(&text, 3), 1, 3);
    }
    // The head alone, and without its closing line or the LF before it.
    let open = LineHead::new(22).to_text();
    refused(&open, 2, 2);
    refused(&open[..open.len() - 1], 1, 4);
    refused(&open[..open.len() - 2], 1, 3);
}

#[test]
fn form_comes_before_range() {
    let range = with_value(&line_day(24), 1, "line", "0");
    refused(&range, 2, 1);
    refused(&with_value(&range, 3, "mark", "1"), 1, 3);
    refused(&without_line(&range, 4), 1, 4);
    let both = with_value(&range, 3, "mark", &"3".repeat(24));
    refused(&both, 2, 1);
    // A refused head is printed alone, whatever the blocks are.
    refused(&with_line(&both, 5, "what"), 2, 1);
}

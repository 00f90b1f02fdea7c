//! Headers that say the hours of their day: the layout, FORM and RANGE.

mod common;

use common::*;
use second::{day_text, Header};

/// The rows of marks; `cat` is on line 5.
const ROWS: [&str; 7] = ["cat", "x1", "x2", "x3", "x4", "x5", "x6"];

fn print(sheet: &str) -> String {
    day_text(alone(sheet).as_bytes())
}

#[track_caller]
fn refused(sheet: &str, check: u8, line: usize) {
    let printed = format!("refused={check} at={line} header=1\n");
    assert_eq!(print(sheet), printed, "{sheet:.600}");
}

#[track_caller]
fn accepted(sheet: &str) {
    assert!(print(sheet).starts_with("hour=0 "), "{sheet:.600}");
}

#[test]
fn the_number_on_line_1_decides_the_layout() {
    let (form_1, form_2) = (
        day_of(&Header::default(), &one_cent_hours()),
        counted_day(24),
    );
    for number in ["3", "0", "-2", "22", "9999999"] {
        refused(&with_value(&form_1, 1, "form", number), 2, 1);
        refused(&with_value(&form_2, 1, "form", number), 1, 2);
    }
    for value in ["02", "+2", "2 ", "2\r", ""] {
        refused(&with_value(&form_2, 1, "form", value), 1, 1);
    }
    // Form 1 with a line of hours, and form 2 without one.
    refused(&with_value(&form_2, 1, "form", "1"), 1, 2);
    refused(&with_line_before(&form_1, 2, "hours=24"), 1, 2);
    refused(&with_value(&form_1, 1, "form", "2"), 1, 2);
    refused(&without_line(&form_2, 2), 1, 2);
}

#[test]
fn the_line_of_hours_has_its_form() {
    for value in [
        "024", "", "-", "+24", "-0", "24 ", "2 4", "00000024", "12345678", "24\r", "x",
    ] {
        refused(&with_value(&counted_day(24), 2, "hours", value), 1, 2);
    }
    for line in [
        "hours",
        "hour=24",
        "Hours=24",
        "24",
        "hours=24 hours=24",
        " hours=24",
    ] {
        refused(&with_line(&counted_day(24), 2, line), 1, 2);
    }
    refused(&with_line_before(&counted_day(24), 3, "hours=24"), 1, 3);
    refused("form=2\n", 1, 2);
    refused("form=2\n\n", 1, 2);
    refused("form=2\nhours=24", 1, 2);
    refused("form=2\nhours=24\n", 1, 3);
}

#[test]
fn a_header_of_few_lines() {
    let text = Header::counted(25).to_text();
    let lines: Vec<&str> = text.split_inclusive('\n').collect();
    assert_eq!(lines.len(), 12);
    for count in 1..=11 {
        let few = lines[..count].concat();
        refused(&few, 1, count + 1);
        refused(&few[..few.len() - 1], 1, count);
        if count < 11 {
            refused(&(few + "\n" + WORKED), 1, count + 1);
        }
    }
}

#[test]
fn the_twelfth_line_is_empty() {
    for line in ["x7=0", "\r", " ", "hours=24"] {
        refused(&with_line_before(&counted_day(23), 12, line), 1, 12);
    }
    refused(&without_line(&counted_day(23), 12), 1, 12);
}

#[test]
fn rows_have_a_digit_for_each_hour() {
    for hours in 23..=25 {
        let text = counted_day(hours);
        for (i, key) in ROWS.into_iter().enumerate() {
            for digits in [0, 1, 22, 23, 24, 25, 26, 20_000] {
                let row = with_value(&text, 5 + i, key, &"0".repeat(digits));
                if digits == hours {
                    accepted(&row);
                } else {
                    refused(&row, 1, 5 + i);
                }
            }
            let no_digit = format!("{}x", "0".repeat(hours - 1));
            refused(&with_value(&text, 5 + i, key, &no_digit), 1, 5 + i);
        }
    }
    // Rows of another of the three lengths: the first of them is named.
    refused(&with_value(&counted_day(23), 2, "hours", "24"), 1, 5);
    refused(&with_value(&counted_day(25), 2, "hours", "24"), 1, 5);
}

#[test]
fn ranges_of_a_header() {
    let text = counted_day(25);
    refused(&with_value(&text, 3, "unit", "0"), 2, 3);
    refused(&with_value(&text, 4, "rtc", "2"), 2, 4);
    for (i, key) in ROWS.into_iter().enumerate() {
        let row = format!("{}2", "0".repeat(24));
        refused(&with_value(&text, 5 + i, key, &row), 2, 5 + i);
    }
    let row = format!("0134{}5", "1".repeat(20));
    accepted(&with_value(&text, 5, "cat", &row));
}

#[test]
fn another_count_is_range_behind_all_form() {
    for count in OTHER_COUNTS {
        let text = with_value(&counted_day(24), 2, "hours", count);
        refused(&text, 2, 2);
        // RANGE at a later line does not come first, FORM does.
        refused(&with_value(&text, 3, "unit", "0"), 2, 2);
        refused(&with_value(&text, 3, "unit", "00"), 1, 3);
        refused(&with_value(&text, 4, "rtc", ""), 1, 4);
        refused(&without_line(&text, 12), 1, 12);
        refused(&with_line_before(&text, 12, "x7=0"), 1, 12);
        for (i, key) in ROWS.into_iter().enumerate() {
            let line = 5 + i;
            for bad in ["x", "00x", "-1", " ", "0 0", "0\r", "0=0", "\u{b9}"] {
                refused(&with_value(&text, line, key, bad), 1, line);
            }
            refused(&with_line(&text, line, key), 1, line);
            refused(&with_line(&text, line, "x0=0"), 1, line);
            refused(&without_line(&text, line), 1, line);
        }
    }
    // The header alone, without its closing line.
    let open = Header::counted(22).to_text();
    refused(&open[..open.len() - 1], 1, 12);
    refused(&open[..open.len() - 2], 1, 11);
    refused(&open, 2, 2);
}

#[test]
fn with_another_count_rows_have_any_length() {
    for count in OTHER_COUNTS {
        let text = with_value(&counted_day(24), 2, "hours", count);
        for (i, key) in ROWS.into_iter().enumerate() {
            for digits in [0, 1, 22, 25, 20_000] {
                for digit in ["0", "9"] {
                    let row = digit.repeat(digits);
                    refused(&with_value(&text, 5 + i, key, &row), 2, 2);
                }
            }
            let long = format!("{}x", "0".repeat(20_000));
            refused(&with_value(&text, 5 + i, key, &long), 1, 5 + i);
        }
    }
    let rows = |digits: usize| {
        let row = "1".repeat(digits);
        let rows: String = ROWS.iter().map(|key| format!("{key}={row}\n")).collect();
        format!("form=2\nhours=22\nunit=1\nrtc=0\n{rows}\n")
    };
    for digits in [0, 22, 24, 20_000] {
        refused(&rows(digits), 2, 2);
    }
}

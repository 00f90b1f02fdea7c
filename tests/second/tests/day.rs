//! Days without neighbours: the header, the blocks' places, exclusions and the
//! total.

mod common;

use common::*;
use second::{day, day_text, DayAnswer, Header, Run};

fn print(sheet: &str) -> String {
    day_text(alone(sheet).as_bytes())
}

#[track_caller]
fn header_refused(sheet: &str, check: u8, line: usize) {
    assert_eq!(
        print(sheet),
        format!("refused={check} at={line} header=1\n"),
        "{sheet}"
    );
}

/// The printed hours, for the given ones with what they print.
fn printed(others: &[(usize, &str)], total: &str) -> String {
    common::printed(24, others, total)
}

fn good() -> String {
    day_of(&Header::default(), &one_cent_hours())
}

fn blocks() -> Vec<String> {
    one_cent_hours().iter().map(closed).collect()
}

fn day_of_blocks(blocks: &[String]) -> String {
    Header::default().to_text() + &blocks.concat()
}

#[test]
fn a_good_day() {
    assert_eq!(print(&good()), printed(&[], "24"));
    let text = Header::default().to_text();
    assert_eq!(text.lines().count(), 11);
    assert!(text.starts_with("form=1\nunit=1\nrtc=0\ncat=111111111111111111111111\nx1=0000"));
}

#[test]
fn the_last_block_may_end_with_the_text() {
    let text = good();
    assert_eq!(print(&text[..text.len() - 1]), printed(&[], "24"));
    let without_lf = &text[..text.len() - 2];
    assert_eq!(print(without_lf), printed(&[(23, "refused=1 at=7")], "-"));
}

#[test]
fn bytes_behind_the_24th_block() {
    for surplus in ["\n", " ", "x", "\0", "form=1\n", "\n\n"] {
        assert_eq!(print(&(good() + surplus)), printed(&[], "-"), "{surplus:?}");
    }
    // Without an empty line between, they belong to block 24.
    let text = good();
    let text = format!("{}x\n", &text[..text.len() - 1]);
    assert_eq!(print(&text), printed(&[(23, "refused=1 at=8")], "-"));
    let text = alone(&good()) + "\n";
    let DayAnswer::Judged(day) = day::judge(text.as_bytes(), &mut Run::default()) else {
        panic!("the header is good");
    };
    assert!(day.surplus && day.total().is_none());
}

#[test]
fn hours_without_a_block() {
    let none = print(&Header::default().to_text());
    let missing: Vec<_> = (0..24).map(|hour| (hour, "refused=1 at=1")).collect();
    assert_eq!(none, printed(&missing, "-"));
    let twenty = print(&day_of_blocks(&blocks()[..20]));
    assert_eq!(twenty, printed(&missing[20..], "-"));
}

#[test]
fn a_fault_does_not_touch_the_next_block() {
    let mut blocks = blocks();
    blocks[3] = "what\nis\nthis\n\n".to_string();
    blocks[5] = with_value(&blocks[5], 2, "at", "1000001");
    blocks[6] = with_value(&blocks[6], 2, "da", "100");
    blocks[7] = with_value(&blocks[7], 7, "s", "899");
    blocks[8] = with_value(&blocks[8], 5, "uol", "0");
    blocks[9] = with_value(&blocks[9], 2, "da", "1");
    blocks[10] = with_value(&blocks[10], 1, "hour", "11");
    let others = [
        (3, "refused=1 at=1"),
        (5, "refused=2 at=2"),
        (6, "refused=4 at=2"),
        (7, "refused=5 at=0"),
        (8, "refused=6 at=2"),
        (9, "refused=7 at=1"),
        (10, "refused=3 at=1"),
    ];
    assert_eq!(print(&day_of_blocks(&blocks)), printed(&others, "-"));
}

#[test]
fn a_second_empty_line_is_an_empty_block() {
    let mut blocks = blocks();
    blocks.insert(21, "\n".to_string());
    // Hours 21 and 22 come one place late; hour 23 is behind the 24th place.
    let others = [
        (21, "refused=1 at=1"),
        (22, "refused=3 at=1"),
        (23, "refused=3 at=1"),
    ];
    assert_eq!(print(&day_of_blocks(&blocks)), printed(&others, "-"));
    // In front of the first block it is the same.
    let text = Header::default().to_text() + "\n" + &self::blocks().concat();
    let late: Vec<_> = (1..24).map(|hour| (hour, "refused=3 at=1")).collect();
    let others = [vec![(0, "refused=1 at=1")], late].concat();
    assert_eq!(print(&text), printed(&others, "-"));
}

#[test]
fn order_is_refused_for_excluded_hours_too() {
    let mut blocks = blocks();
    blocks.swap(2, 3);
    let mut header = Header::default();
    header.cat[2] = 0;
    let text = header.to_text() + &blocks.concat();
    let others = [(2, "refused=3 at=1"), (3, "refused=3 at=1")];
    assert_eq!(print(&text), printed(&others, "-"));
}

#[test]
fn p10_excluded_hours_pay_nothing() {
    let mut header = Header::default();
    header.x[3][5] = 1;
    let others: Vec<_> = (3..=7).map(|hour| (hour, "pay=0")).collect();
    let text = day_of(&header, &one_cent_hours());
    assert_eq!(print(&text), printed(&others, "19"));
}

#[test]
fn excluded_hours_skip_derate_and_reach() {
    let mut header = Header::default();
    header.x[0][9] = 1;
    header.cat[8] = 0;
    let mut blocks = blocks();
    blocks[8] = with_value(&blocks[8], 5, "uol", "0");
    blocks[9] = with_value(&blocks[9], 2, "da", "1");
    let text = header.to_text() + &blocks.concat();
    let others = [(8, "pay=0"), (9, "pay=0")];
    assert_eq!(print(&text), printed(&others, "22"));
}

#[test]
fn marks_spread_from_hours_without_a_good_block() {
    let mut header = Header {
        rtc: 1,
        ..Header::default()
    };
    header.x[5][22] = 1;
    let mut blocks = blocks();
    blocks[22] = "what\n\n".to_string();
    let text = header.to_text() + &blocks.concat();
    let others = [
        (20, "pay=0"),
        (21, "pay=0"),
        (22, "refused=1 at=1"),
        (23, "pay=0"),
    ];
    assert_eq!(print(&text), printed(&others, "-"));
}

#[test]
fn the_first_digit_is_hour_0() {
    let text = with_value(&good(), 5, "x1", "100000000000000000000010");
    assert_eq!(print(&text), printed(&[(0, "pay=0"), (22, "pay=0")], "22"));
    let text = with_value(&good(), 4, "cat", "011345111111111111111110");
    assert_eq!(print(&text), printed(&[(0, "pay=0"), (23, "pay=0")], "22"));
}

#[test]
fn a_header_of_few_lines() {
    header_refused("", 1, 1);
    header_refused("\n", 1, 1);
    header_refused(&format!("\n{}", good()), 1, 1);
    let text = Header::default().to_text();
    let lines: Vec<&str> = text.split_inclusive('\n').collect();
    for count in 1..=10 {
        header_refused(&lines[..count].concat(), 1, count + 1);
        if count < 10 {
            header_refused(
                &(lines[..count].concat() + "\n" + &blocks().concat()),
                1,
                count + 1,
            );
        }
    }
    for line in 1..=10 {
        let unended = lines[..line].concat();
        header_refused(&unended[..unended.len() - 1], 1, line);
    }
}

#[test]
fn the_eleventh_line_is_empty() {
    let text = good();
    header_refused(
        &with_line_before(&text, 11, "x7=000000000000000000000000"),
        1,
        11,
    );
    header_refused(&with_line_before(&text, 11, "\r"), 1, 11);
    header_refused(&with_line_before(&text, 11, " "), 1, 11);
    header_refused(&without_line(&text, 11), 1, 11);
}

#[test]
fn lines_of_a_header_in_another_form() {
    let text = good();
    for (line, key) in [(1, "form"), (2, "unit"), (3, "rtc")] {
        for value in ["01", "", "-", "-0", "+1", "12345678", "x"] {
            header_refused(&with_value(&text, line, key, value), 1, line);
        }
    }
    let rows = ["cat", "x1", "x2", "x3", "x4", "x5", "x6"];
    for (i, key) in rows.into_iter().enumerate() {
        let line = 4 + i;
        let (digits, short) = ("0".repeat(25), "0".repeat(23));
        for value in [
            digits.as_str(),
            short.as_str(),
            "",
            "-00000000000000000000000",
            "00000000000000000000000x",
            "000000000000 00000000000",
            "00000000000000000000000\u{b9}",
            "00000000000000000000000\r",
        ] {
            header_refused(&with_value(&text, line, key, value), 1, line);
        }
        header_refused(&with_line(&text, line, key), 1, line);
        header_refused(&without_line(&text, line), 1, line);
        let other = format!("X{}", text.lines().nth(line - 1).unwrap_or_default());
        header_refused(&with_line(&text, line, &other), 1, line);
    }
}

#[test]
fn ranges_of_a_header() {
    let text = good();
    for value in ["0", "3", "-2", "-1", "11", "22", "9999999"] {
        header_refused(&with_value(&text, 1, "form", value), 2, 1);
    }
    for value in ["0", "-1", "-9999999"] {
        header_refused(&with_value(&text, 2, "unit", value), 2, 2);
    }
    assert_eq!(
        print(&with_value(&text, 2, "unit", "9999999")),
        printed(&[], "24")
    );
    for value in ["2", "-1", "10"] {
        header_refused(&with_value(&text, 3, "rtc", value), 2, 3);
    }
    for digit in ["2", "6", "7", "8", "9"] {
        let row = format!("{}{digit}", "1".repeat(23));
        header_refused(&with_value(&text, 4, "cat", &row), 2, 4);
    }
    for mark in 1..=6 {
        for digit in ["2", "9"] {
            let row = format!("{digit}{}", "0".repeat(23));
            header_refused(
                &with_value(&text, 4 + mark, &format!("x{mark}"), &row),
                2,
                4 + mark,
            );
        }
    }
}

#[test]
fn form_of_a_header_comes_before_its_range() {
    let text = with_value(&good(), 1, "form", "3");
    header_refused(&text, 2, 1);
    header_refused(&with_value(&text, 10, "x6", "0"), 1, 10);
    header_refused(&without_line(&text, 11), 1, 11);
    let text = with_value(&text, 4, "cat", &"2".repeat(24));
    header_refused(&text, 2, 1);
}

#[test]
fn rows_of_marks_as_numbers_are_form() {
    // 24 nines are digits outside the range; a number is another count.
    header_refused(&with_value(&good(), 5, "x1", &"9".repeat(24)), 2, 5);
    header_refused(&with_value(&good(), 5, "x1", "0"), 1, 5);
}

#[test]
fn each_hour_is_rounded_by_itself() {
    let day = |pen: &str| {
        let blocks = blocks();
        let changed = blocks.iter().map(|block| with_value(block, 4, "pen", pen));
        print(&day_of_blocks(&changed.collect::<Vec<_>>()))
    };
    // At 30 cents each makes half a cent and pays one; all make 12.
    assert_eq!(day("30"), printed(&[], "24"));
    // At 29 each makes 0.475 cents and pays nothing; all make 11.4.
    let none: Vec<_> = (0..24).map(|hour| (hour, "pay=0")).collect();
    assert_eq!(day("29"), printed(&none, "0"));
}

#[test]
fn totals_go_past_32_bits() {
    // The largest hour, 12,000,000,000 cents, in each of 24.
    let hours: Vec<_> = (0..24)
        .map(|hour| {
            let mut record = still_hour(hour);
            let line = &mut record.day_ahead;
            (line.en, line.reg) = (2_000_000, 2_000_000);
            (line.r1, line.r2, line.r3) = (2_000_000, 2_000_000, 2_000_000);
            record.da = second::Curve::new(0, &[(2_000_000, -1_000_000)]);
            for interval in record.intervals.iter_mut() {
                interval.pen = 1_000_000;
                interval.preg = 1_000_000;
                (interval.p1, interval.p2, interval.p3) = (1_000_000, 1_000_000, 1_000_000);
            }
            record
        })
        .collect();
    let text = print(&day_of(&Header::default(), &hours));
    let hour = 2_000_000_i128 * 1_000_000 * 6 * 3600 / 3_600_000;
    assert!(text.starts_with(&format!("hour=0 pay={hour}\n")));
    assert!(text.ends_with(&format!("total={}\n", hour * 24)));
}

//! Hour blocks as bytes: the form of lines and numbers, and the order of the
//! checks.

mod common;

use common::*;
use second::{hour, hour_text, Answer, Ask, Check, Refusal, Run};

/// What `hour` prints for a text.
fn print(text: &str) -> String {
    hour_text(text.as_bytes())
}

#[track_caller]
fn refuses(text: &str, check: u8, place: usize) {
    assert_eq!(
        print(text),
        format!("refused={check} at={place}\n"),
        "{text}"
    );
}

#[track_caller]
fn pays(text: &str) {
    assert_eq!(print(text), WORKED_ANSWER, "{text}");
}

/// A block of so many intervals, each with an equal part of the hour.
fn block_of(intervals: i64) -> String {
    let mut record = still_hour(7);
    let seconds = 3600 / intervals;
    record.set_intervals(&vec![still(seconds); intervals as usize]);
    record.to_text()
}

#[test]
fn every_line_ends_in_lf() {
    for (i, _) in WORKED.match_indices('\n') {
        let line = WORKED[..i].matches('\n').count() + 1;
        refuses(&WORKED[..i], 1, line);
    }
    pays(WORKED);
    pays(&format!("{WORKED}\n"));
}

#[test]
fn other_ends_of_lines_are_wrong_bytes() {
    refuses(&WORKED.replace('\n', "\r\n"), 1, 1);
    let line_4 = WORKED.lines().nth(3).unwrap_or_default();
    refuses(&with_line(WORKED, 4, &format!("{line_4}\r")), 1, 4);
    refuses(&with_line(WORKED, 5, "\r"), 1, 5);
    refuses(&with_line(WORKED, 5, " "), 1, 5);
    refuses(&with_line(WORKED, 5, "\t"), 1, 5);
    refuses(&format!("{WORKED}\r\n"), 1, 8);
    refuses(&format!("{WORKED} \n"), 1, 8);
    refuses(&format!("\u{feff}{WORKED}"), 1, 1);
}

#[test]
fn other_bytes_are_wrong_at_their_line() {
    for line in 1..=7 {
        let start: usize = WORKED.lines().take(line - 1).map(|l| l.len() + 1).sum();
        for byte in [0, 0x80, 0xff, b'\t', b'\r', b' ', b'='] {
            let mut bytes = WORKED.as_bytes().to_vec();
            bytes.insert(start + 3, byte);
            let refused = format!("refused=1 at={line}\n");
            assert_eq!(hour_text(&bytes), refused, "{byte} on line {line}");
        }
    }
}

#[test]
fn a_block_of_few_lines() {
    refuses("", 1, 1);
    refuses("\n", 1, 1);
    refuses(&format!("\n{WORKED}"), 1, 1);
    let lines: Vec<&str> = WORKED.split_inclusive('\n').collect();
    refuses(&lines[..1].concat(), 1, 2);
    refuses(&lines[..2].concat(), 1, 3);
    refuses(&lines[..3].concat(), 5, 0);
    refuses(&lines[..4].concat(), 5, 0);
    refuses(&format!("{}\n{}", lines[0], lines[1]), 1, 2);
    // Checks 1 to 4 come before the missing intervals.
    let three = lines[..3].concat();
    refuses(&with_value(&three, 1, "hour", "25"), 2, 1);
    refuses(&with_value(&three, 3, "rt", "60000"), 4, 3);
}

#[test]
fn an_extra_line_is_the_34th() {
    let thirty = block_of(30);
    assert!(print(&thirty).ends_with("i=30 grains=0\nhour=7 pay=0\n"));
    let last = thirty.lines().last().unwrap_or_default();
    refuses(&format!("{thirty}{last}\n"), 1, 34);
    refuses(&format!("{thirty}{last}\n{last}\n{last}\n"), 1, 34);
    refuses(&format!("{thirty}what\n"), 1, 34);
    refuses(&format!("{thirty}what"), 1, 34);
    refuses(&format!("{thirty}{}", "x\n".repeat(5000)), 1, 34);
    refuses(&format!("{}x\n", with_line(&thirty, 33, "what")), 1, 33);
    // A line behind the empty one is not read.
    assert!(print(&format!("{thirty}\nwhat")).ends_with("hour=7 pay=0\n"));
}

#[test]
fn keys_and_their_order_are_as_printed() {
    for (i, line) in WORKED.lines().enumerate() {
        let place = i + 1;
        let pairs: Vec<&str> = line.split(' ').collect();
        for k in 0..pairs.len() {
            let mut without = pairs.clone();
            without.remove(k);
            refuses(&with_line(WORKED, place, &without.join(" ")), 1, place);
            let mut twice = pairs.clone();
            twice.insert(k, pairs[k]);
            refuses(&with_line(WORKED, place, &twice.join(" ")), 1, place);
            let other = format!("q{}", pairs[k]);
            let mut renamed = pairs.clone();
            renamed[k] = &other;
            refuses(&with_line(WORKED, place, &renamed.join(" ")), 1, place);
            let upper = pairs[k].to_uppercase();
            renamed[k] = &upper;
            refuses(&with_line(WORKED, place, &renamed.join(" ")), 1, place);
            if k > 0 {
                let mut swapped = pairs.clone();
                swapped.swap(k - 1, k);
                refuses(&with_line(WORKED, place, &swapped.join(" ")), 1, place);
            }
        }
        for bad in [
            line.replacen(' ', "  ", 1),
            line.replacen(' ', "\t", 1),
            line.replacen('=', " = ", 1),
            line.replacen('=', "==", 1),
            line.replacen('=', ":", 1),
            format!(" {line}"),
            format!("{line} "),
            format!("{line} s=1"),
            format!("{line}x"),
        ] {
            refuses(&with_line(WORKED, place, &bad), 1, place);
        }
    }
}

#[test]
fn every_prefix_of_a_block_is_answered() {
    for length in 0..WORKED.len() {
        let place = WORKED[..length].matches('\n').count() + 1;
        let expected = match &WORKED[..length] {
            cut if cut.ends_with('\n') && place > 3 => "refused=5 at=0\n".to_string(),
            _ => format!("refused=1 at={place}\n"),
        };
        assert_eq!(print(&WORKED[..length]), expected);
    }
}

#[test]
fn numbers_in_another_form() {
    for (line, key) in [
        (1, "hour"),
        (1, "b3"),
        (2, "da"),
        (3, "at"),
        (4, "s"),
        (7, "bmv"),
    ] {
        for value in [
            "07",
            "-0",
            "+5",
            "-",
            "",
            "12345678",
            "-12345678",
            "00",
            "5a",
            "--5",
            "1.0",
        ] {
            refuses(&with_value(WORKED, line, key, value), 1, line);
        }
    }
    for value in ["07", "-0", "", "--", "12345678"] {
        refuses(&with_value(WORKED, 5, "uol", value), 1, 5);
    }
}

#[test]
fn a_minus_where_the_range_has_none_is_range() {
    for (line, key) in [
        (1, "hour"),
        (1, "reg"),
        (1, "breg"),
        (4, "s"),
        (4, "co"),
        (4, "mv"),
    ] {
        refuses(&with_value(WORKED, line, key, "-5"), 2, line);
        refuses(&with_value(WORKED, line, key, "9999999"), 2, line);
        refuses(&with_value(WORKED, line, key, "-9999999"), 2, line);
    }
    refuses(&with_value(WORKED, 6, "uol", "-5"), 2, 6);
    refuses(&with_value(WORKED, 4, "s", "0"), 2, 4);
    refuses(&with_value(WORKED, 4, "s", "901"), 2, 4);
}

#[test]
fn only_uol_and_eop_can_be_missing() {
    for key in ["s", "en", "ae", "co", "pen", "lim", "r1", "p1", "mv"] {
        refuses(&with_value(WORKED, 4, key, "-"), 1, 4);
    }
    // A derate to nothing is a derate: 100,000 kW cannot be taken off.
    refuses(&with_value(WORKED, 4, "uol", "0"), 6, 1);
    // With a limit above all schedules nothing is taken off.
    pays(&with_value(WORKED, 4, "uol", "100000"));
    // At 5000 the curve gives 120,000, and the unit was at its schedule below.
    pays(&with_value(WORKED, 4, "eop", "-"));
}

#[test]
fn the_count_of_a_curve() {
    let curve = |line: &str| with_line(WORKED, 3, line);
    refuses(&curve("rt=0 n=13"), 1, 3);
    refuses(
        &curve(&format!("rt=0 n=13{}", " to=1 at=1".repeat(13))),
        1,
        3,
    );
    refuses(&curve("rt=0 n=-1"), 1, 3);
    refuses(&curve("rt=0 n=100"), 1, 3);
    refuses(&curve("rt=0 n=02 to=1 at=1 to=2 at=2"), 1, 3);
    refuses(&curve("rt=0 n=1"), 1, 3);
    refuses(&curve("rt=0 n=1 to=1"), 1, 3);
    refuses(&curve("rt=0 n=0 to=1 at=1"), 1, 3);
    refuses(&curve("rt=0 n=1 to=1 at=1 to=2 at=2"), 1, 3);
    refuses(&curve("rt=0 n=1 at=1 to=1"), 1, 3);
    refuses(&curve("da=0 n=1 to=1 at=1"), 1, 3);
    refuses(&curve("rt=0 n="), 1, 3);
    refuses(&curve("rt=0"), 1, 3);
    // An empty curve is well, but prices nothing: interval 3 rises.
    refuses(&curve("rt=0 n=0"), 7, 3);
    refuses(&curve("rt=1 n=0"), 4, 3);
}

#[test]
fn twelve_steps() {
    let steps: Vec<String> = (1..=12).map(|k| format!(" to={k}0000 at={k}")).collect();
    let twelve = format!("rt=0 n=12{}", steps.concat());
    // The third interval rises by the 10,000 kW of the eleventh step.
    let rise = -10_000_i64 * (5000 - 11) * 900;
    let printed = print(&with_line(WORKED, 3, &twelve));
    assert!(printed.contains(&format!("i=3 grains={rise}\n")));
    // With the others it makes 54,999,000,000 grains: 15,277 cents and a half.
    assert_eq!(99_900_000_000 + rise, 15_277 * 3_600_000 + 1_800_000);
    assert!(printed.ends_with("hour=14 pay=15278\n"), "{printed}");
}

#[test]
fn form_comes_before_range_and_range_before_the_rest() {
    let range_first = with_value(WORKED, 1, "hour", "25");
    refuses(&range_first, 2, 1);
    refuses(&with_value(&range_first, 7, "bmv", "07"), 1, 7);
    let range_last = with_value(WORKED, 7, "bmv", "-1");
    let curve_too = with_value(&range_last, 2, "da", "60000");
    refuses(&curve_too, 2, 7);
    refuses(&with_value(WORKED, 2, "da", "60000"), 4, 2);
    let both_curves = with_value(WORKED, 3, "rt", "60000");
    refuses(&both_curves, 4, 3);
    refuses(&with_value(&both_curves, 2, "da", "60000"), 4, 2);
    refuses(&with_value(&both_curves, 7, "s", "899"), 4, 3);
}

#[test]
fn seconds_come_before_derate_and_reach() {
    let short = with_value(WORKED, 7, "s", "899");
    refuses(&short, 5, 0);
    refuses(&with_value(&short, 4, "uol", "0"), 5, 0);
    refuses(&without_line(WORKED, 7), 5, 0);
    let five = format!("{}{}\n", WORKED, WORKED.lines().last().unwrap_or_default());
    refuses(&five, 5, 0);
}

#[test]
fn derate_and_reach_go_interval_by_interval() {
    let reach = with_line(WORKED, 3, "rt=0 n=1 to=109999 at=5");
    refuses(&reach, 7, 3);
    refuses(&with_value(&reach, 5, "uol", "0"), 6, 2);
    refuses(&with_value(&reach, 6, "uol", "0"), 6, 3);
    // The fourth interval lags and is asked for nothing.
    pays(&with_value(WORKED, 7, "uol", "0"));
}

#[test]
fn a_stretch_is_asked_to_its_last_kilowatt() {
    pays(&with_line(WORKED, 3, "rt=100000 n=1 to=110000 at=4000"));
    refuses(
        &with_line(WORKED, 3, "rt=100001 n=1 to=110000 at=4000"),
        7,
        3,
    );
    refuses(
        &with_line(WORKED, 3, "rt=100000 n=1 to=109999 at=4000"),
        7,
        3,
    );
    pays(&with_line(
        WORKED,
        2,
        "da=53000 n=2 to=60000 at=2000 to=100000 at=3500",
    ));
    refuses(
        &with_line(WORKED, 2, "da=53001 n=2 to=60000 at=2000 to=100000 at=3500"),
        7,
        2,
    );
    refuses(
        &with_line(WORKED, 2, "da=0 n=2 to=60000 at=2000 to=99999 at=3500"),
        7,
        1,
    );
}

#[test]
fn the_hour_is_what_the_block_says() {
    for hour in [0, 9, 23, 24] {
        let text = with_value(WORKED, 1, "hour", &hour.to_string());
        assert!(print(&text).ends_with(&format!("hour={hour} pay=25250\n")));
    }
    refuses(&with_value(WORKED, 1, "hour", "25"), 2, 1);
}

#[test]
fn a_block_is_read_up_to_its_first_empty_line() {
    pays(&format!("{WORKED}\n{WORKED}"));
    pays(&format!("{WORKED}\n\n\n"));
    pays(&format!("{WORKED}\n\0\u{80}"));
    // The text is cut first: a block that an empty line splits is short.
    refuses(&with_line_before(WORKED, 2, ""), 1, 2);
    refuses(&with_line_before(WORKED, 5, ""), 5, 0);
}

#[test]
fn a_lent_block_with_a_lent_row() {
    let ask = |excluded, expected| Ask {
        excluded,
        expected,
        hours: 24,
    };
    let mut row = [5; 6];
    let judge = |text: &str, ask, row: &mut [i64]| {
        hour::judge_block(text.as_bytes(), ask, row, &mut Run::default())
    };
    let refused = |check, place| Answer::Refused(Refusal::new(check, place));
    let order = judge(WORKED, ask(false, Some(13)), &mut row);
    assert_eq!(order, refused(Check::Order, 1));
    assert_eq!(
        judge(WORKED, ask(false, None), &mut row[..3]),
        refused(Check::Room, 0)
    );
    assert_eq!(
        judge(WORKED, ask(true, Some(14)), &mut row[..3]),
        refused(Check::Room, 0)
    );
    assert_eq!(
        judge("x", ask(true, Some(14)), &mut row),
        refused(Check::Form, 1)
    );
    assert_eq!(row, [5; 6]);
    assert_eq!(
        judge(WORKED, ask(true, Some(14)), &mut row).cents(),
        Some(0)
    );
    assert_eq!(row, [0, 0, 0, 0, 5, 5]);
    assert_eq!(
        judge(WORKED, ask(false, Some(14)), &mut row).cents(),
        Some(25250)
    );
    assert_eq!(
        row,
        [27_000_000_000, 72_900_000_000, -9_000_000_000, 0, 5, 5]
    );
}

#[test]
fn a_sum_below_zero_pays_nothing() {
    let text = with_value(WORKED, 6, "mv", "2000000");
    let text = with_value(&text, 6, "pmv", "1000000");
    let grains = -9_000_000_000_i64 - 2_000_000 * 1_000_000 * 3600;
    let printed = print(&text);
    assert!(printed.contains(&format!("i=3 grains={grains}\n")));
    assert!(printed.ends_with("hour=14 pay=0\n"));
    let mut row = [0; 4];
    let answer = hour::judge_block(
        text.as_bytes(),
        Ask::default(),
        &mut row,
        &mut Run::default(),
    );
    let Answer::Paid(paid) = answer else {
        panic!("{answer:?}");
    };
    assert_eq!(paid.grains, i128::from(grains) + 99_900_000_000);
}

#[test]
fn long_lines_have_an_answer() {
    let digits = "9".repeat(1_000_000);
    refuses(&with_value(WORKED, 4, "pen", &digits), 1, 4);
    refuses(&format!("{WORKED}{digits}"), 1, 8);
    refuses(&with_line(WORKED, 2, &" ".repeat(1_000_000)), 1, 2);
}

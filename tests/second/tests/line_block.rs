//! Blocks of a line as bytes: the form of lines and numbers, the ranges, the
//! order of the checks, and the lent row.

mod common;

use common::line::*;
use common::*;
use second::{line, Answer, Ask, Check, Refusal, Run};

#[track_caller]
fn refuses(text: &str, check: u8, place: usize) {
    line_refused(text, Ask::default(), check, place);
}

#[track_caller]
fn pays(text: &str) {
    assert_eq!(line_grains(text), LINE_GRAINS, "{text}");
}

/// The hour in thirty intervals.
fn thirty() -> String {
    let lines: Vec<&str> = LINE_BLOCK.split_inclusive('\n').collect();
    let still = "s=120 en=100000 aei=100000 aew=102000 pin=7 pout=9\n";
    lines[..3].concat() + &still.repeat(30)
}

#[test]
fn every_line_ends_in_lf() {
    for (i, _) in LINE_BLOCK.match_indices('\n') {
        let line = LINE_BLOCK[..i].matches('\n').count() + 1;
        refuses(&LINE_BLOCK[..i], 1, line);
    }
    pays(LINE_BLOCK);
    pays(&format!("{LINE_BLOCK}\n"));
    pays(&format!("{LINE_BLOCK}\n{LINE_BLOCK}"));
    pays(&format!("{LINE_BLOCK}\n\n\0\u{80}"));
}

#[test]
fn a_block_of_few_lines() {
    refuses("", 1, 1);
    refuses("\n", 1, 1);
    refuses(&format!("\n{LINE_BLOCK}"), 1, 1);
    let lines: Vec<&str> = LINE_BLOCK.split_inclusive('\n').collect();
    refuses(&lines[..1].concat(), 1, 2);
    refuses(&lines[..2].concat(), 1, 3);
    refuses(&lines[..3].concat(), 5, 0);
    refuses(&lines[..4].concat(), 5, 0);
    refuses(&with_line_before(LINE_BLOCK, 2, ""), 1, 2);
    refuses(&with_line_before(LINE_BLOCK, 5, ""), 5, 0);
}

#[test]
fn an_extra_line_is_the_34th() {
    assert_eq!(line_grains(&thirty()), [0; 30]);
    let last = "s=120 en=100000 aei=100000 aew=102000 pin=7 pout=9\n";
    for extra in [last, "what\n", "what", " \n", &"x\n".repeat(5000)] {
        refuses(&(thirty() + extra), 1, 34);
    }
    refuses(&format!("{}x\n", with_line(&thirty(), 33, "what")), 1, 33);
    assert_eq!(line_grains(&(thirty() + "\nwhat")), [0; 30]);
}

/// A line with a pair left out, doubled, under another key, or before the one
/// in front of it; for every pair.
fn with_other_pairs(line: &str) -> Vec<String> {
    let pairs: Vec<&str> = line.split(' ').collect();
    let mut bad = Vec::new();
    for k in 0..pairs.len() {
        let mut without = pairs.clone();
        without.remove(k);
        bad.push(without.join(" "));
        let mut twice = pairs.clone();
        twice.insert(k, pairs[k]);
        bad.push(twice.join(" "));
        let renamed = format!("q{}", pairs[k]);
        let mut other = pairs.clone();
        other[k] = &renamed;
        bad.push(other.join(" "));
        if k > 0 {
            let mut swapped = pairs.clone();
            swapped.swap(k - 1, k);
            bad.push(swapped.join(" "));
        }
    }
    bad
}

#[test]
fn keys_and_their_order_are_as_printed() {
    for (i, line) in LINE_BLOCK.lines().enumerate() {
        let place = i + 1;
        let mut bad = with_other_pairs(line);
        bad.extend([
            line.replacen(' ', "  ", 1),
            line.replacen(' ', "\t", 1),
            line.replacen('=', "==", 1),
            line.replacen('=', ":", 1),
            line.to_uppercase(),
            format!(" {line}"),
            format!("{line} "),
            format!("{line}\r"),
            format!("{line} s=1"),
            format!("{line}x"),
            "\r".to_string(),
            " ".to_string(),
        ]);
        for bad in bad {
            refuses(&with_line(LINE_BLOCK, place, &bad), 1, place);
        }
    }
}

#[test]
fn lines_of_a_generator_are_not_those_of_a_line() {
    let unit = WORKED.lines().next().unwrap_or_default();
    refuses(&with_line(LINE_BLOCK, 1, unit), 1, 1);
    let unit = WORKED.lines().last().unwrap_or_default();
    refuses(&with_line(LINE_BLOCK, 4, unit), 1, 4);
    refuses(WORKED, 1, 1);
}

#[test]
fn numbers_have_one_form() {
    for (line, key) in [
        (1, "hour"),
        (1, "dasi"),
        (1, "dasw"),
        (2, "da"),
        (2, "n"),
        (3, "rt"),
        (3, "at"),
        (4, "s"),
        (5, "en"),
        (6, "aei"),
        (7, "aew"),
        (4, "pin"),
        (5, "pout"),
    ] {
        for value in ["07", "-0", "+5", "-", "", "12345678", "-12345678", "5a"] {
            refuses(&with_value(LINE_BLOCK, line, key, value), 1, line);
        }
    }
}

#[test]
fn ranges() {
    const ENERGY: (i64, i64) = (-2_000_000, 2_000_000);
    const PRICE: (i64, i64) = (-1_000_000, 1_000_000);
    for (line, key, (low, high)) in [
        (1, "hour", (0, 24)),
        (1, "dasi", ENERGY),
        (1, "dasw", ENERGY),
        (2, "da", ENERGY),
        (2, "to", ENERGY),
        (2, "at", PRICE),
        (3, "rt", ENERGY),
        (3, "to", ENERGY),
        (3, "at", PRICE),
        (4, "s", (1, 900)),
        (4, "en", ENERGY),
        (5, "aei", ENERGY),
        (6, "aew", ENERGY),
        (7, "pin", PRICE),
        (7, "pout", PRICE),
    ] {
        let with = |value: i64| with_value(LINE_BLOCK, line, key, &value.to_string());
        for outside in [low - 1, high + 1, -9_999_999, 9_999_999] {
            refuses(&with(outside), 2, line);
        }
        for inside in [low, high] {
            let (answer, _) = judged_line(&with(inside), Ask::default());
            if let Answer::Refused(refusal) = answer {
                assert_ne!(refusal.check, Check::Range, "{key}={inside}");
            }
        }
    }
}

#[test]
fn curves_have_their_rules() {
    for (line, key) in [(2, "da"), (3, "rt")] {
        let curve = |steps: &str| with_line(LINE_BLOCK, line, &format!("{key}={steps}"));
        for bad in [
            "0 n=13",
            "0 n=-1",
            "0 n=1",
            "0 n=1 to=1",
            "0 n=0 to=1 at=1",
            "0 n=02",
            "0",
        ] {
            refuses(&curve(bad), 1, line);
        }
        for bad in [
            "1 n=0",
            "-1 n=0",
            "0 n=1 to=0 at=5",
            "5 n=2 to=9 at=1 to=9 at=1",
            "0 n=3 to=5 at=5 to=6 at=4 to=7 at=3",
        ] {
            refuses(&curve(bad), 4, line);
        }
    }
    // A first step may be dearer than the second, below 0 too.
    let steps = "-5 n=3 to=60000 at=2000 to=100000 at=1000 to=120000 at=1000";
    let text = with_line(LINE_BLOCK, 2, &format!("da={steps}"));
    // 20,000 x 5,000 - 20,500 x 1,000 - 20,000 x 1,000.
    assert_eq!(line_grains(&text)[0], 59_500_000 * 900);
}

#[test]
fn checks_run_in_their_order() {
    let ask = Ask {
        expected: Some(13),
        ..Ask::default()
    };
    // REACH in interval 2 alone, then each earlier check before it.
    let reach = with_value(LINE_BLOCK, 2, "da", "50001");
    refuses(&reach, 7, 2);
    let seconds = with_value(&reach, 7, "s", "899");
    refuses(&seconds, 5, 0);
    let curve = with_line(&seconds, 3, "rt=1 n=0");
    refuses(&curve, 4, 3);
    refuses(&with_line(&curve, 2, "da=1 n=0"), 4, 2);
    line_refused(&curve, ask, 3, 1);
    let range = with_value(&curve, 7, "pout", "1000001");
    line_refused(&range, ask, 2, 7);
    let range = with_value(&range, 5, "aew", "2000001");
    line_refused(&range, ask, 2, 5);
    line_refused(&with_value(&range, 7, "en", "x"), ask, 1, 7);
}

#[test]
fn what_a_block_says_as_its_hour() {
    let in_day = |says: &str, expected, hours| {
        let text = with_value(LINE_BLOCK, 1, "hour", says);
        let ask = Ask {
            excluded: false,
            expected,
            hours,
        };
        match judged_line(&text, ask).0 {
            Answer::Paid(_) => 0,
            Answer::Refused(refusal) => refusal.check.number(),
        }
    };
    for (says, expected, hours, check) in [
        ("24", None, 25, 0),
        ("25", None, 25, 2),
        ("24", Some(24), 25, 0),
        ("24", Some(24), 24, 2),
        ("24", Some(23), 25, 3),
        ("23", Some(23), 24, 0),
        ("23", Some(22), 23, 3),
        ("24", Some(22), 23, 2),
        ("22", Some(22), 23, 0),
        ("-1", Some(0), 24, 2),
    ] {
        assert_eq!(in_day(says, expected, hours), check, "{says} of {hours}");
    }
}

#[test]
fn a_lent_row() {
    let judge = |excluded, row: &mut [i64]| {
        let ask = Ask {
            excluded,
            expected: Some(14),
            hours: 24,
        };
        line::judge_block(LINE_BLOCK.as_bytes(), ask, row, &mut Run::default())
    };
    let room = Answer::Refused(Refusal::new(Check::Room, 0));
    let mut row = [5; 6];
    for length in 0..4 {
        assert_eq!(judge(false, &mut row[..length]), room);
        assert_eq!(judge(true, &mut row[..length]), room);
    }
    assert_eq!(row, [5; 6]);
    assert_eq!(judge(false, &mut row).cents(), Some(LINE_CENTS));
    assert_eq!(row[..4], LINE_GRAINS);
    assert_eq!(row[4..], [5, 5]);
    assert_eq!(judge(true, &mut row[..4]).cents(), Some(0));
    assert_eq!(row, [0, 0, 0, 0, 5, 5]);
    // A curve that cannot reach is refused before a short row is.
    let reach = with_line(LINE_BLOCK, 2, "da=0 n=0");
    let mut run = Run::default();
    let answer = line::judge_block(reach.as_bytes(), Ask::default(), &mut [], &mut run);
    assert_eq!(answer, Answer::Refused(Refusal::new(Check::Reach, 1)));
}

//! Curtailed imports.

mod common;

use common::*;
use second::import::{ImportHour, ImportInterval};

#[track_caller]
fn pays(text: &str, cents: i64) {
    assert_eq!(print_import(text), format!("import=7 pay={cents}\n"));
}

fn good() -> String {
    import_of(7, 0, &one_cent_imports())
}

/// The blocks' first lines stand on lines 3, 9, 15 and so on of the text.
fn line_of(hour: usize, line: usize) -> usize {
    2 + hour * 6 + line
}

fn with_hour(hour: usize, change: impl Fn(&mut ImportHour)) -> String {
    let mut hours = one_cent_imports();
    change(&mut hours[hour]);
    import_of(7, 0, &hours)
}

#[test]
fn a_good_import() {
    let text = good();
    let start = "import=7 cts=0\n\nhour=0 den=100 dec=10\n\
                 s=900 cut=1 prof=100 rten=0 lbmp=50 bid=5 def=5\n";
    assert!(text.starts_with(start));
    pays(&text, 24);
    pays(&text[..text.len() - 1], 24);
}

#[test]
fn the_first_two_lines() {
    let text = good();
    refused_import("", 1, "-", 1);
    refused_import("\n", 1, "-", 1);
    refused_import("import=7 cts=0", 1, "-", 1);
    refused_import("import=7 cts=0\n", 1, "-", 2);
    refused_import("import=7 cts=0\n\n", 1, "0", 1);
    refused_import(&format!("\n{text}"), 1, "-", 1);
    refused_import(&without_line(&text, 2), 1, "-", 2);
    refused_import(&with_line(&text, 2, "\r"), 1, "-", 2);
    refused_import("import=7 cts=0\nx", 1, "-", 2);
    for line in [
        "import=7",
        "cts=0 import=7",
        "import=7 cts=0 ",
        "import=07 cts=0",
        "import=7 cts=",
    ] {
        refused_import(&with_line(&text, 1, line), 1, "-", 1);
    }
    for value in ["0", "-1", "-9999999"] {
        refused_import(&with_value(&text, 1, "import", value), 2, "-", 1);
    }
    for value in ["2", "-1", "17"] {
        refused_import(&with_value(&text, 1, "cts", value), 2, "-", 1);
    }
    refused_import(&with_value(&text, 1, "import", "12345678"), 1, "-", 1);
    let last = with_value(&text, 1, "import", "9999999");
    assert_eq!(print_import(&last), "import=9999999 pay=24\n");
    // The two lines are one header: FORM of the second before RANGE.
    let range = with_value(&text, 1, "cts", "2");
    refused_import(&without_line(&range, 2), 1, "-", 2);
}

#[test]
fn the_first_refused_block_refuses_the_day() {
    let seconds = with_value(&good(), line_of(3, 5), "s", "899");
    refused_import(&seconds, 5, "3", 0);
    let form_later = with_value(&seconds, line_of(5, 1), "den", "07");
    refused_import(&form_later, 5, "3", 0);
    refused_import(&with_value(&good(), line_of(5, 1), "den", "07"), 1, "5", 1);
    // Bytes behind the last block are asked for last.
    refused_import(&(seconds + "\n"), 5, "3", 0);
    refused_import(&(good() + "\n"), 3, "-", 0);
    refused_import(&(good() + "x"), 3, "-", 0);
    refused_import(&(good() + "\n\n"), 3, "-", 0);
}

#[test]
fn a_block_of_few_or_many_lines() {
    let hours = one_cent_imports();
    let two = import_of(7, 0, &hours[..2]);
    refused_import(&two, 1, "2", 1);
    refused_import(&(two.clone() + "\n"), 1, "2", 1);
    refused_import(&(two.clone() + "hour=2 den=5 dec=5\n"), 5, "2", 0);
    refused_import(&(two.clone() + "hour=2 den=5 dec=5"), 1, "2", 1);
    let quiet = "s=120 cut=0 prof=0 rten=0 lbmp=0 bid=0 def=0\n";
    let thirty = format!("{two}hour=2 den=5 dec=5\n{}", quiet.repeat(30));
    refused_import(&thirty, 1, "3", 1);
    refused_import(&(thirty.clone() + quiet), 1, "2", 32);
    refused_import(&(thirty.clone() + "what"), 1, "2", 32);
    refused_import(&(thirty.clone() + "x\nx\nx\nx\nx\nx\n"), 1, "2", 32);
    refused_import(&(thirty + "\nhour=3"), 1, "3", 1);
    let unended = good();
    refused_import(&unended[..unended.len() - 2], 1, "23", 5);
    let text = good();
    refused_import(&format!("{}x\n", &text[..text.len() - 1]), 1, "23", 6);
}

#[test]
fn empty_lines_move_blocks_down() {
    refused_import(&with_line_before(&good(), line_of(4, 1), ""), 1, "4", 1);
    refused_import(&with_line_before(&good(), 3, ""), 1, "0", 1);
}

#[test]
fn order_stands_between_range_and_seconds() {
    let other = with_value(&good(), line_of(4, 1), "hour", "5");
    refused_import(&other, 3, "4", 1);
    refused_import(&with_value(&other, line_of(4, 5), "s", "899"), 3, "4", 1);
    refused_import(&with_value(&other, line_of(4, 5), "s", "901"), 2, "4", 5);
    let both = with_value(&other, line_of(4, 5), "s", "901");
    refused_import(&with_value(&both, line_of(4, 3), "s", "x"), 1, "4", 3);
}

#[test]
fn keys_and_numbers() {
    let text = good();
    for (line, key) in [
        (1, "hour"),
        (1, "den"),
        (1, "dec"),
        (2, "s"),
        (3, "cut"),
        (4, "prof"),
        (5, "rten"),
        (2, "lbmp"),
        (3, "bid"),
        (4, "def"),
    ] {
        for value in ["07", "-0", "+5", "-", "", "12345678"] {
            refused_import(
                &with_value(&text, line_of(9, line), key, value),
                1,
                "9",
                line,
            );
        }
    }
    for (line, bad) in [
        (1, "hour=9 den=5"),
        (1, "hour=9 dec=5 den=5"),
        (1, "hour=9 den=5 dec=5 "),
        (1, "9 5 5"),
        (2, "s=900 cut=0 prof=0 rten=0 lbmp=0 bid=0"),
        (2, "s=900 cut=0 prof=0 rten=0 lbmp=0 bid=0 def=0 x=1"),
        (2, "s=900 cut=0  prof=0 rten=0 lbmp=0 bid=0 def=0"),
    ] {
        refused_import(&with_line(&text, line_of(9, line), bad), 1, "9", line);
    }
}

#[test]
fn ranges() {
    let text = good();
    for (line, key, low, high) in [
        (1, "hour", 0, 23),
        (1, "den", 0, 2_000_000),
        (1, "dec", -1_000_000, 1_000_000),
        (3, "s", 1, 900),
        (3, "cut", 0, 1),
        (3, "prof", 0, 2_000_000),
        (3, "rten", 0, 2_000_000),
        (3, "lbmp", -1_000_000, 1_000_000),
        (3, "bid", -1_000_000, 1_000_000),
        (3, "def", -1_000_000, 1_000_000),
    ] {
        for outside in [low - 1, high + 1] {
            let text = with_value(&text, line_of(9, line), key, &outside.to_string());
            refused_import(&text, 2, "9", line);
        }
        for inside in [low, high] {
            let text = with_value(&text, line_of(9, line), key, &inside.to_string());
            assert!(
                !print_import(&text).starts_with("refused=2"),
                "{key}={inside}"
            );
        }
    }
}

#[test]
fn which_intervals_count() {
    pays(&with_hour(9, |h| h.intervals[0].cut = 0), 23);
    pays(&with_hour(9, |h| h.intervals[0].prof = 99), 23);
    pays(&with_hour(9, |h| h.intervals[0].prof = 101), 24);
    pays(&with_hour(9, |h| h.intervals[0].bid = 6), 23);
    pays(&with_hour(9, |h| h.intervals[0].bid = 4), 24);
    pays(&import_of(7, 1, &one_cent_imports()), 0);
    let cts = import_of(7, 1, &one_cent_imports());
    refused_import(&with_value(&cts, line_of(2, 2), "s", "899"), 5, "2", 0);
}

#[test]
fn amounts() {
    // A bid below zero counts as zero: the margin is the price, 40 cents.
    let negative_bid = with_hour(9, |h| {
        h.line.dec = -1000;
        h.intervals[0].lbmp = 40;
    });
    pays(&negative_bid, 24);
    // An hour with a loss takes nothing from the others.
    pays(&with_hour(9, |h| h.intervals[0].lbmp = -50), 23);
    // Inside an hour a loss is offset.
    let offset = with_hour(9, |h| {
        h.intervals[0].lbmp = 90;
        h.intervals[1] = h.intervals[0];
        h.intervals[1].lbmp = -30;
    });
    pays(&offset, 24);
    // More energy in real time than day-ahead is a loss as well.
    let more = with_hour(9, |h| {
        h.intervals[0].lbmp = 90;
        h.intervals[1] = h.intervals[0];
        h.intervals[1].rten = 150;
    });
    pays(&more, 24);
    // An interval that is not curtailed offsets nothing.
    let free = with_hour(9, |h| h.intervals[1].rten = 2_000_000);
    pays(&free, 24);
}

/// An hour of one kW that is curtailed for these seconds at these prices: seconds
/// times price in grains.
fn hour_of(hour: i64, parts: &[(i64, i64)]) -> ImportHour {
    let mut block = one_cent_import(hour);
    (block.line.den, block.line.dec) = (1, 0);
    let [cut, free] = [block.intervals[0], block.intervals[1]];
    let part = |(s, lbmp): &(i64, i64)| ImportInterval {
        s: *s,
        lbmp: *lbmp,
        ..cut
    };
    block.intervals = parts.iter().map(part).collect();
    let mut rest = 3600 - parts.iter().map(|(s, _)| s).sum::<i64>();
    while rest > 0 {
        let s = rest.min(900);
        block.intervals.push(ImportInterval { s, ..free });
        rest -= s;
    }
    block
}

/// Makes sure what a day pays whose first hours are curtailed so.
#[track_caller]
fn day_pays(parts: &[&[(i64, i64)]], cents: i64) {
    let parts_of = |hour: i64| parts.get(hour as usize).copied().unwrap_or_default();
    let hours: Vec<ImportHour> = (0..24).map(|hour| hour_of(hour, parts_of(hour))).collect();
    pays(&import_of(7, 0, &hours), cents);
}

#[test]
fn cents_are_the_nearest_of_the_day() {
    // A half goes up, and a grain less does not, in one hour or in two.
    day_pays(&[&[(900, 2000)]], 1);
    day_pays(&[&[(900, 2000), (1, -1)]], 0);
    day_pays(&[&[(900, 4000), (1, -1)]], 1);
    day_pays(&[&[(900, 6000)]], 2);
    day_pays(&[&[(900, 6000), (1, -1)]], 1);
    day_pays(&[&[(900, 4000)], &[(900, 2000), (1, -1)]], 1);
    day_pays(&[&[(900, 2000), (1, -1)], &[(1, 1)]], 1);
    // An hour of a loss takes nothing, not even a grain; such hours pay nothing.
    day_pays(&[&[(900, 2000)], &[(1, -1)]], 1);
    day_pays(&[&[(900, -2000)]], 0);
    day_pays(&[&[(900, -4000)][..]; 24], 0);
}

#[test]
fn hours_and_intervals_are_not_rounded_one_by_one() {
    // A half would pay a cent alone: two make 1, and 23 make 11.5.
    day_pays(&[&[(900, 2000)][..]; 2], 1);
    day_pays(&[&[(900, 2000)][..]; 23], 12);
    // 0.4 cents would pay nothing alone: 24 make 9.6.
    day_pays(&[&[(900, 1600)][..]; 24], 10);
    // The same within an hour: 1.2, 1.5 and 3 cents.
    day_pays(&[&[(900, 1600); 3]], 1);
    day_pays(&[&[(900, 2000); 3]], 2);
    day_pays(&[&[(900, 3000); 4]], 3);
}

#[test]
fn the_largest_import() {
    let mut hours = one_cent_imports();
    for hour in hours.iter_mut() {
        hour.line.den = 2_000_000;
        hour.line.dec = 0;
        for interval in hour.intervals.iter_mut() {
            interval.cut = 1;
            interval.prof = 2_000_000;
            interval.rten = 0;
            interval.lbmp = 1_000_000;
        }
    }
    let cents = 2_000_000 * 1_000_000 * 3600 * 24 / 3_600_000;
    pays(&import_of(7, 0, &hours), cents);
}

//! Imports that say the hours of their day.

mod common;

use common::*;

#[test]
fn good_imports() {
    for hours in 23..=25 {
        let text = counted_import(hours);
        assert!(text.starts_with(&format!("import=7 cts=0 hours={hours}\n\nhour=0 ")));
        let answer = format!("import=7 pay={hours}\n");
        assert_eq!(print_import(&text), answer);
        assert_eq!(print_import(&text[..text.len() - 1]), answer);
    }
    let without = with_line(&counted_import(24), 1, "import=7 cts=0");
    assert_eq!(print_import(&without), "import=7 pay=24\n");
}

#[test]
fn the_hours_of_an_import_stand_at_the_end_of_line_1() {
    let text = counted_import(24);
    for line in [
        "hours=24 import=7 cts=0",
        "import=7 hours=24 cts=0",
        "import=7 hours=24",
        "hours=24",
        "import=7 cts=0 hours=24 hours=24",
        "hours=24 import=7 cts=0 hours=24",
        "import=7 hours=24 cts=0 hours=24",
        "import=7 cts=0 hours=24 ",
        "import=7 cts=0  hours=24",
        "import=7 cts=0 hours",
        "import=7 cts=0 hours=",
        "import=7 cts=0 hours=024",
        "import=7 cts=0 hours=+24",
        "import=7 cts=0 hours=-0",
        "import=7 cts=0 hours=-",
        "import=7 cts=0 hours=00000024",
        "import=7 cts=0 hours=24\r",
        "import=7 cts=0 hour=24",
        "import=7 cts=0 24",
    ] {
        refused_import(&with_line(&text, 1, line), 1, "-", 1);
    }
    refused_import("import=7 cts=0 hours=24", 1, "-", 1);
    refused_import("import=7 cts=0 hours=24\n", 1, "-", 2);
    refused_import("import=7 cts=0\nhours=24\n\n", 1, "-", 2);
    refused_import("import=7 cts=0 hours=24\n\n", 1, "0", 1);
}

#[test]
fn another_count_of_an_import_is_range() {
    for count in OTHER_COUNTS {
        let text = with_value(&counted_import(24), 1, "hours", count);
        refused_import(&text, 2, "-", 1);
        // FORM of the second line comes first; blocks are not looked at.
        refused_import(&without_line(&text, 2), 1, "-", 2);
        refused_import(&with_line(&text, 3, "x"), 2, "-", 1);
    }
}

#[test]
fn blocks_of_an_import_go_by_its_hours() {
    for hours in [23, 24, 25] {
        let text = counted_import(hours);
        refused_import(&(text.clone() + "\n"), 3, "-", 0);
        refused_import(&(text + "x"), 3, "-", 0);
        let more = with_value(&counted_import(hours + 1), 1, "hours", &hours.to_string());
        refused_import(&more, 3, "-", 0);
        let less = with_value(&counted_import(hours - 1), 1, "hours", &hours.to_string());
        refused_import(&less, 1, &(hours - 1).to_string(), 1);
    }
    let more = with_line(&counted_import(25), 1, "import=7 cts=0");
    refused_import(&more, 3, "-", 0);
    let less = with_line(&counted_import(23), 1, "import=7 cts=0");
    refused_import(&less, 1, "23", 1);
}

#[test]
fn what_an_import_block_says_as_its_hour() {
    for (hours, says, check) in [
        (23, "23", 3),
        (23, "24", 2),
        (24, "23", 3),
        (24, "24", 2),
        (25, "24", 3),
        (25, "25", 2),
    ] {
        // Block 5 starts on line 33: two lines, and six for each block.
        let text = with_value(&counted_import(hours), 33, "hour", says);
        refused_import(&text, check, "5", 1);
    }
    let plain = with_line(&counted_import(24), 1, "import=7 cts=0");
    refused_import(&with_value(&plain, 33, "hour", "24"), 2, "5", 1);
}

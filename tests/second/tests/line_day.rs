//! Days of a line: the head, the marks, the blocks' places and the total.

mod common;

use common::line::*;
use common::*;
use second::{line, DayAnswer, LineHead, Run};

#[track_caller]
fn refused(text: &str, check: u8, line: usize) {
    let printed = format!("refused={check} at={line}\n");
    assert_eq!(print_line(text), printed, "{text:.300}");
}

#[track_caller]
fn prints(text: &str, others: &[(usize, &str)], total: &str) {
    assert_eq!(print_line(text), printed(24, others, total), "{text:.300}");
}

/// The day of 24 hours with another value of a key in the block of an hour. A
/// block of one cent has 7 lines and its empty one, behind a head of 4.
fn with_hour(text: &str, hour: usize, line: usize, key: &str, value: &str) -> String {
    with_value(text, 4 + 8 * hour + line, key, value)
}

#[test]
fn good_days() {
    for hours in 23..=25 {
        let text = line_day(hours);
        let start = format!("line=1\nhours={hours}\nmark={}\n\n", "1".repeat(hours));
        let block = "hour=0 dasi=100 dasw=0\nda=0 n=1 to=100 at=10\nrt=0 n=0\n\
                     s=900 en=0 aei=0 aew=0 pin=50 pout=0\n";
        assert!(text.starts_with(&(start + block)), "{text:.300}");
        let answer = printed(hours, &[], &hours.to_string());
        assert_eq!(print_line(&text), answer);
        assert_eq!(print_line(&text[..text.len() - 1]), answer);
    }
    let worked = line_day(24).replacen(&line_blocks(15)[14], &(LINE_BLOCK.to_string() + "\n"), 1);
    prints(&worked, &[(14, "pay=7125")], "7148");
}

#[test]
fn marks() {
    for hours in 23..=25 {
        let mut head = LineHead::new(hours);
        assert_eq!(head.excluded(), vec![false; hours]);
        // (i) and (ii) pay alike; 0 pays nothing, and reaches no other hour.
        head.mark[0] = 0;
        head.mark[1] = 2;
        head.mark[5] = 0;
        head.mark[hours - 1] = 0;
        let unpaid = [0, 5, hours - 1].map(|hour| (hour, "pay=0"));
        let total = (hours - 3).to_string();
        let answer = printed(hours, &unpaid, &total);
        assert_eq!(print_line(&line_day_under(&head)), answer);
        head.mark = vec![2; hours];
        let answer = printed(hours, &[], &hours.to_string());
        assert_eq!(print_line(&line_day_under(&head)), answer);
    }
    // The first digit is hour 0.
    let text = with_value(&line_day(24), 3, "mark", "011111111111111111111202");
    prints(&text, &[(0, "pay=0"), (22, "pay=0")], "22");
}

#[test]
fn an_hour_without_mark_goes_through_checks_1_to_5() {
    let mut head = LineHead::new(24);
    head.mark[2..8].fill(0);
    let mut text = line_day_under(&head);
    text = with_hour(&text, 2, 2, "da", "1");
    text = with_hour(&text, 3, 7, "s", "899");
    text = with_hour(&text, 4, 2, "da", "100");
    text = with_hour(&text, 5, 1, "hour", "6");
    text = with_hour(&text, 6, 5, "pin", "1000001");
    text = with_hour(&text, 7, 6, "aei", "07");
    let same = [
        (3, "refused=5 at=0"),
        (4, "refused=4 at=2"),
        (5, "refused=3 at=1"),
        (6, "refused=2 at=5"),
        (7, "refused=1 at=6"),
    ];
    prints(&text, &[&[(2, "pay=0")], &same[..]].concat(), "-");
    // With their marks the hours are refused as before, and REACH is asked.
    let marked = with_value(&text, 3, "mark", &"2".repeat(24));
    prints(
        &marked,
        &[&[(2, "refused=7 at=1")], &same[..]].concat(),
        "-",
    );
}

#[test]
fn the_total_adds_what_is_paid() {
    // An hour of a loss pays nothing and takes nothing from the others.
    let loss = with_hour(&line_day(24), 9, 4, "pin", "-50");
    prints(&loss, &[(9, "pay=0")], "23");
    let more = with_hour(&line_day(24), 9, 4, "pin", "130");
    prints(&more, &[(9, "pay=3")], "26");
}

#[test]
fn each_hour_is_rounded_by_itself() {
    let day = |pin: &str| {
        let change = |text: String, hour| with_hour(&text, hour, 4, "pin", pin);
        (0..24).fold(line_day(24), change)
    };
    // At 30 cents each makes half a cent and pays one; all make 12.
    prints(&day("30"), &[], "24");
    // At 29 each makes 0.475 cents and pays nothing; all make 11.4.
    let none: Vec<_> = (0..24).map(|hour| (hour, "pay=0")).collect();
    prints(&day("29"), &none, "0");
}

#[test]
fn the_largest_total() {
    let block = "da=-2000000 n=1 to=2000000 at=-1000000\nrt=0 n=0\n".to_string()
        + &"s=900 en=0 aei=-2000000 aew=2000000 pin=1000000 pout=1000000\n".repeat(4);
    let mut text = LineHead::new(25).to_text();
    for hour in 0..25 {
        text += &format!("hour={hour} dasi=2000000 dasw=-2000000\n{block}\n");
    }
    let answer = print_line(&text);
    assert!(answer.starts_with("hour=0 pay=12000000000\n"), "{answer}");
    assert!(answer.ends_with("\ntotal=300000000000\n"), "{answer}");
}

#[test]
fn bytes_behind_the_last_block() {
    for hours in 23..=25 {
        let more = line_blocks(hours + 1)[hours].clone();
        for surplus in ["\n", " ", "x", "\0", "line=1\n", "\n\n", &more] {
            let text = line_day(hours) + surplus;
            assert_eq!(print_line(&text), printed(hours, &[], "-"), "{surplus:?}");
        }
    }
    // Without an empty line between, they belong to the last block.
    let text = line_day(24);
    let text = format!("{}x\n", &text[..text.len() - 1]);
    prints(&text, &[(23, "refused=1 at=8")], "-");
    let DayAnswer::Judged(day) = line::judge((line_day(24) + "\n").as_bytes(), &mut Run::default())
    else {
        panic!("the head is good");
    };
    assert!(day.surplus && day.total().is_none());
}

#[test]
fn hours_without_a_block() {
    for hours in 23..=25 {
        let missing: Vec<_> = (0..hours).map(|hour| (hour, "refused=1 at=1")).collect();
        let head = LineHead::new(hours).to_text();
        assert_eq!(print_line(&head), printed(hours, &missing, "-"));
        let twenty = head + &line_blocks(20).concat();
        let answer = printed(hours, &missing[20..], "-");
        assert_eq!(print_line(&twenty), answer);
    }
    // One block fewer than the count, and one more.
    let few = with_value(&line_day(24), 2, "hours", "25");
    let few = with_value(&few, 3, "mark", &"1".repeat(25));
    assert_eq!(
        print_line(&few),
        printed(25, &[(24, "refused=1 at=1")], "-")
    );
    let many = with_value(&line_day(24), 2, "hours", "23");
    let many = with_value(&many, 3, "mark", &"1".repeat(23));
    assert_eq!(print_line(&many), printed(23, &[], "-"));
}

#[test]
fn a_fault_does_not_touch_the_next_block() {
    let mut blocks = line_blocks(24);
    blocks[3] = "what\nis\nthis\n\n".to_string();
    blocks[5] = with_value(&blocks[5], 2, "at", "1000001");
    blocks[6] = with_value(&blocks[6], 2, "da", "100");
    blocks[7] = with_value(&blocks[7], 7, "s", "899");
    blocks[8] = with_value(&blocks[8], 2, "da", "1");
    blocks[9] = with_value(&blocks[9], 1, "hour", "10");
    blocks[10] = with_value(&blocks[10], 6, "aei", "99");
    let text = LineHead::new(24).to_text() + &blocks.concat();
    let others = [
        (3, "refused=1 at=1"),
        (5, "refused=2 at=2"),
        (6, "refused=4 at=2"),
        (7, "refused=5 at=0"),
        (8, "refused=7 at=1"),
        (9, "refused=3 at=1"),
        (10, "refused=7 at=3"),
    ];
    prints(&text, &others, "-");
}

#[test]
fn empty_lines_move_blocks_down() {
    let mut blocks = line_blocks(24);
    blocks.insert(21, "\n".to_string());
    let text = LineHead::new(24).to_text() + &blocks.concat();
    let others = [
        (21, "refused=1 at=1"),
        (22, "refused=3 at=1"),
        (23, "refused=3 at=1"),
    ];
    prints(&text, &others, "-");
}

#[test]
fn what_a_block_says_as_its_hour() {
    let (range, order) = ("refused=2 at=1", "refused=3 at=1");
    for (hours, says, refusal) in [
        (23, "23", order),
        (23, "24", range),
        (24, "24", range),
        (25, "25", range),
        (25, "-1", range),
    ] {
        for place in [5, hours - 1] {
            let text = with_hour(&line_day(hours), place, 1, "hour", says);
            assert_eq!(print_line(&text), printed(hours, &[(place, refusal)], "-"));
        }
    }
    let text = with_hour(&line_day(25), 5, 1, "hour", "24");
    assert_eq!(print_line(&text), printed(25, &[(5, order)], "-"));
    refused(&LineHead::new(26).to_text(), 2, 2);
}

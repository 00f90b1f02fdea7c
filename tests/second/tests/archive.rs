//! Stored sheets that go up to form 2 and down to form 1.

mod common;

use common::*;
use second::{down_text, up_text, Header, Moved};

/// What line 1 becomes going up, and the line behind it.
const FIRST_1: &str = "form=1\n";
const FIRST_2: &str = "form=2\nhours=24\n";

/// The rows of marks; `cat` is on line 4 of form 1 and on line 5 of form 2.
const ROWS: [&str; 7] = ["cat", "x1", "x2", "x3", "x4", "x5", "x6"];

fn form_1() -> String {
    day_of(&Header::default(), &one_cent_hours())
}

/// The text with the first lines of the other form.
fn exchanged(text: &[u8], old: &str, new: &str) -> Vec<u8> {
    let behind = text.strip_prefix(old.as_bytes()).expect("the first lines");
    [new.as_bytes(), behind].concat()
}

/// Both sheets of these bytes behind the first lines go over into each other,
/// and neither goes the wrong way.
#[track_caller]
fn both_ways(behind: &[u8]) {
    let plain = [FIRST_1.as_bytes(), behind].concat();
    let counted = exchanged(&plain, FIRST_1, FIRST_2);
    assert_eq!(up_text(&plain), Moved::Sheet(counted.clone()));
    assert_eq!(down_text(&counted), Moved::Sheet(plain.clone()));
    refused(up_text(&counted), 2, 1);
    refused(down_text(&plain), 2, 1);
}

#[track_caller]
fn refused(moved: Moved, check: u8, line: usize) {
    match moved {
        Moved::Sheet(text) => panic!("moved: {:.600}", String::from_utf8_lossy(&text)),
        Moved::Refused(refusal) => {
            assert_eq!((refusal.check.number(), refusal.place), (check, line));
        }
    }
}

#[track_caller]
fn both_refuse(text: &str, check: u8, line: usize) {
    refused(up_text(text.as_bytes()), check, line);
    refused(down_text(text.as_bytes()), check, line);
}

/// RANGE at line 1 going up, and this refusal going down.
#[track_caller]
fn down_refuses(text: &str, check: u8, line: usize) {
    refused(up_text(text.as_bytes()), 2, 1);
    refused(down_text(text.as_bytes()), check, line);
}

/// RANGE at line 1 going down, and this refusal going up.
#[track_caller]
fn up_refuses(text: &str, check: u8, line: usize) {
    refused(up_text(text.as_bytes()), check, line);
    refused(down_text(text.as_bytes()), 2, 1);
}

#[test]
fn good_sheets_go_up_and_down() {
    both_ways(&form_1().as_bytes()[FIRST_1.len()..]);
    assert_eq!(
        up_text(form_1().as_bytes()),
        Moved::Sheet(counted_day(24).into_bytes())
    );
    let mut header = Header {
        unit: 9_999_999,
        rtc: 1,
        ..Header::default()
    };
    header.cat = [0, 1, 3, 4, 5].repeat(5)[..24].to_vec();
    for (i, row) in header.x.iter_mut().enumerate() {
        row[i * 4] = 1;
        row[23 - i] = 1;
    }
    // At midnight, too, where neighbours feel it.
    (header.x[3][0], header.x[3][23]) = (1, 1);
    let text = day_of(&header, &one_cent_hours());
    both_ways(&text.as_bytes()[FIRST_1.len()..]);
    // The answers are the same, hour by hour, for the day itself and for its
    // neighbours.
    let moved = exchanged(text.as_bytes(), FIRST_1, FIRST_2);
    let answers = in_each_place(text.as_bytes());
    assert_eq!(answers, in_each_place(&moved));
    let [_, before, after, both] = answers.map(|answer| answer.matches("pay=0").count());
    assert_eq!([before, after, both], [2, 2, 4]);
}

#[test]
fn what_stands_behind_the_header_passes() {
    let header = Header::default().to_text();
    let header = &header.as_bytes()[FIRST_1.len()..];
    let blocks = &form_1().into_bytes()[FIRST_1.len() + header.len()..];
    let crlf = String::from_utf8_lossy(blocks).replace('\n', "\r\n");
    let any: Vec<u8> = (0..=255).collect();
    let behinds: Vec<&[u8]> = vec![
        b"",
        b"\n",
        b"\n\n\n\n",
        b"x",
        b"hour=0",
        b"hour=0\n",
        b"hours=24\n",
        b"form=1\nform=2\nhours=23\n",
        b"\r\n",
        b"\0",
        b"\x80",
        b"\xff\xfe\n\xc3\x28",
        b"\xef\xbb\xbf",
        &any,
        blocks,
        // Fewer blocks, half a block, and without the last empty line or LF.
        &blocks[..blocks.len() / 2],
        &blocks[..7],
        &blocks[..blocks.len() - 1],
        &blocks[..blocks.len() - 2],
        crlf.as_bytes(),
    ];
    for behind in &behinds {
        both_ways(&[header, behind].concat());
        // More than the day's blocks.
        both_ways(&[header, blocks, behind].concat());
    }
    // At any length, in lines and in none.
    both_ways(&[header, &vec![b'7'; 300_000]].concat());
    both_ways(&[header, &b"0\n".repeat(150_000)].concat());
}

#[test]
fn a_sheet_that_goes_one_way_comes_back() {
    type Way = fn(&[u8]) -> Moved;
    let mut numbers = Numbers(5);
    for (sheet, go, back) in [
        (form_1(), up_text as Way, down_text as Way),
        (counted_day(24), down_text, up_text),
    ] {
        let mut moved = 0;
        for turn in 0..2000 {
            // A byte of the header is another one, or of the whole sheet.
            let mut text = sheet.clone().into_bytes();
            let reach = if turn % 2 == 0 { 260 } else { text.len() };
            let at = numbers.below(reach as u64) as usize;
            text[at] = b"0123459\n\r= x\xff"[numbers.below(13) as usize];
            if let Moved::Sheet(other) = go(&text) {
                assert_eq!(back(&other), Moved::Sheet(text));
                moved += 1;
            }
        }
        assert!((1000..2000).contains(&moved), "{moved}");
    }
}

#[test]
fn headers_cut_at_each_byte() {
    for header in [
        Header::default(),
        Header::counted(23),
        Header::counted(24),
        Header::counted(25),
        Header::counted(22),
    ] {
        let text = header.to_text();
        for cut in 0..text.len() {
            // The line that the cut is in; behind its LF, the next one.
            let line = 1 + text[..cut].matches('\n').count();
            both_refuse(&text[..cut], 1, line);
        }
    }
    both_refuse("", 1, 1);
    both_refuse("\n", 1, 1);
    both_refuse("form=1\n\n", 1, 2);
    both_refuse("form=2\n\n", 1, 2);
}

#[test]
fn other_forms_go_neither_way() {
    for number in ["3", "0", "-1", "-2", "12", "21", "9999999", "-9999999"] {
        both_refuse(&with_value(&form_1(), 1, "form", number), 2, 1);
        // Line 1 comes before the other ranges, and all FORM before it.
        let unit = with_value(&form_1(), 2, "unit", "0");
        both_refuse(&with_value(&unit, 1, "form", number), 2, 1);
        let row = with_value(&form_1(), 10, "x6", "0");
        both_refuse(&with_value(&row, 1, "form", number), 1, 10);
        // They have form 1's lines, where `unit` is the second.
        both_refuse(&with_value(&counted_day(24), 1, "form", number), 1, 2);
    }
    for value in [
        "", "-", "01", "02", "+1", "1 ", "2\r", "-0", "00000001", "x",
    ] {
        both_refuse(&with_value(&form_1(), 1, "form", value), 1, 1);
        both_refuse(&with_value(&counted_day(24), 1, "form", value), 1, 1);
    }
    // The lines of one form under the number of the other.
    both_refuse(&with_value(&form_1(), 1, "form", "2"), 1, 2);
    both_refuse(&with_value(&counted_day(24), 1, "form", "1"), 1, 2);
    both_refuse(&with_line_before(&form_1(), 2, "hours=24"), 1, 2);
    both_refuse(&without_line(&counted_day(24), 2), 1, 2);
}

#[test]
fn the_wrong_way_comes_before_the_other_ranges() {
    for hours in 23..=25 {
        for (line, key) in [(2, "hours"), (3, "unit"), (4, "rtc")] {
            let text = with_value(&counted_day(hours), line, key, "-1");
            down_refuses(&text, 2, line);
        }
        for (i, key) in ROWS.into_iter().enumerate() {
            let row = format!("{}2", "0".repeat(hours - 1));
            let text = with_value(&counted_day(hours), 5 + i, key, &row);
            down_refuses(&text, 2, 5 + i);
        }
    }
    for (line, key) in [(2, "unit"), (3, "rtc")] {
        up_refuses(&with_value(&form_1(), line, key, "-1"), 2, line);
    }
    for (i, key) in ROWS.into_iter().enumerate() {
        let row = format!("2{}", "0".repeat(23));
        up_refuses(&with_value(&form_1(), 4 + i, key, &row), 2, 4 + i);
    }
}

#[test]
fn back_is_for_23_and_25_hours_and_comes_last() {
    assert!(matches!(
        down_text(counted_day(24).as_bytes()),
        Moved::Sheet(_)
    ));
    for hours in [23, 25] {
        let text = counted_day(hours);
        down_refuses(&text, 9, 2);
        down_refuses(&Header::counted(hours).to_text(), 9, 2);
        down_refuses(&(Header::counted(hours).to_text() + "\u{e9}"), 9, 2);
        down_refuses(&with_value(&text, 3, "unit", "0"), 2, 3);
        let row = format!("{}2", "0".repeat(hours - 1));
        down_refuses(&with_value(&text, 11, "x6", &row), 2, 11);
        both_refuse(&with_value(&text, 11, "x6", "0"), 1, 11);
        both_refuse(&without_line(&text, 12), 1, 12);
    }
    for count in OTHER_COUNTS {
        down_refuses(&with_value(&counted_day(24), 2, "hours", count), 2, 2);
    }
    for value in ["024", "", "-", "+24", "24 ", "24\r", "00000024", "x"] {
        both_refuse(&with_value(&counted_day(24), 2, "hours", value), 1, 2);
    }
}

#[test]
fn rows_by_the_count() {
    for hours in 22..=26 {
        let text = Header::counted(hours).to_text();
        for (i, key) in ROWS.into_iter().enumerate() {
            for digits in [0, 1, hours - 1, hours + 1, 20_000] {
                let text = with_value(&text, 5 + i, key, &"0".repeat(digits));
                match hours {
                    23..=25 => both_refuse(&text, 1, 5 + i),
                    _ => down_refuses(&text, 2, 2),
                }
            }
            let letter = "0".repeat(20_000) + "x";
            both_refuse(&with_value(&text, 5 + i, key, &letter), 1, 5 + i);
        }
    }
    for (i, key) in ROWS.into_iter().enumerate() {
        for digits in [0, 23, 25, 20_000] {
            let row = "0".repeat(digits);
            both_refuse(&with_value(&form_1(), 4 + i, key, &row), 1, 4 + i);
        }
    }
}

#[test]
fn every_line_has_its_form() {
    for (text, last) in [(form_1(), 11), (counted_day(24), 12), (counted_day(25), 12)] {
        for line in 1..=last {
            let old = text.lines().nth(line - 1).expect("the line is there");
            for new in [
                format!("{old}\r"),
                format!("{old} "),
                format!(" {old}"),
                format!("{old}\u{e9}"),
                "x7=0".to_string(),
            ] {
                both_refuse(&with_line(&text, line, &new), 1, line);
            }
            both_refuse(&with_line_before(&text, line, "\r"), 1, line);
        }
        both_refuse(&text.replace('\n', "\r\n"), 1, 1);
        both_refuse(&format!("\u{feff}{text}"), 1, 1);
        both_refuse(&without_line(&text, last), 1, last);
    }
}

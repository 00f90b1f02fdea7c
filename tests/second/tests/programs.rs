//! The programs as they are run.

mod common;

use std::fs::File;
use std::io::{Read, Write};
use std::process::{Command, Output, Stdio};

use common::line::*;
use common::point::*;
use common::*;
use second::{Header, LineHead};

const HOUR: &str = env!("CARGO_BIN_EXE_hour2");
const DAY: &str = env!("CARGO_BIN_EXE_day2");
const IMPORT: &str = env!("CARGO_BIN_EXE_import2");
const LINE: &str = env!("CARGO_BIN_EXE_line2");
const UP: &str = env!("CARGO_BIN_EXE_up2");
const DOWN: &str = env!("CARGO_BIN_EXE_down2");

fn start(program: &str, arguments: &[&str]) -> std::process::Child {
    let mut command = Command::new(program);
    command.args(arguments).stdin(Stdio::piped());
    command.stdout(Stdio::piped()).stderr(Stdio::piped());
    command.spawn().expect("the program starts")
}

fn run_with(program: &str, arguments: &[&str], input: &[u8]) -> Output {
    let mut child = start(program, arguments);
    let mut stdin = child.stdin.take().expect("a pipe");
    // The program may have its answer before it has read everything.
    let _ = stdin.write_all(input);
    drop(stdin);
    child.wait_with_output().expect("the program ends")
}

#[track_caller]
fn prints(program: &str, input: &str, answer: &str) {
    for arguments in [&[][..], &["--kilowatts"][..]] {
        let output = run_with(program, arguments, input.as_bytes());
        assert_eq!(String::from_utf8_lossy(&output.stdout), answer);
        assert_eq!(output.stderr, b"");
        assert!(output.status.success());
    }
}

/// What a program that writes a text writes on its two outputs.
#[track_caller]
fn writes(program: &str, input: &[u8], stdout: &[u8], stderr: &str) {
    let output = run_with(program, &[], input);
    assert_eq!(output.stdout, stdout);
    assert_eq!(String::from_utf8_lossy(&output.stderr), stderr);
    assert!(output.status.success());
}

#[test]
fn hour_prints_the_worked_example() {
    prints(HOUR, WORKED, WORKED_ANSWER);
    prints(HOUR, &format!("{WORKED}\n{WORKED}"), WORKED_ANSWER);
}

#[test]
fn hour_finds_the_point_on_the_curve() {
    let quarters = (1..=4).map(|i| format!("i={i} grains=108000000\n"));
    let answer = quarters.collect::<String>() + "hour=0 pay=120\n";
    prints(HOUR, OPEN, &answer);
    prints(HOUR, &open_on("rt=0 n=0"), "refused=10 at=1\n");
}

#[test]
fn refusals_are_answers() {
    prints(HOUR, "", "refused=1 at=1\n");
    prints(HOUR, "\n", "refused=1 at=1\n");
    prints(HOUR, &WORKED[..WORKED.len() - 1], "refused=1 at=7\n");
    prints(HOUR, &with_value(WORKED, 7, "s", "899"), "refused=5 at=0\n");
    prints(DAY, "", "refused=1 at=1 header=0\n");
    prints(DAY, "\n", "refused=1 at=1 header=1\n");
    prints(DAY, "\n\n", "refused=1 at=1 header=1\n");
    prints(IMPORT, "", "refused=1 hour=- at=1\n");
    prints(IMPORT, "import=1 cts=0\n\n", "refused=1 hour=0 at=1\n");
}

#[test]
fn day_and_import_print_their_totals() {
    let hours: String = (0..24).map(|hour| format!("hour={hour} pay=1\n")).collect();
    let text = alone(&day_of(&Header::default(), &one_cent_hours()));
    prints(DAY, &text, &format!("{hours}total=24\n"));
    prints(DAY, &(text + "\n"), &format!("{hours}total=-\n"));
    let text = import_of(7, 0, &one_cent_imports());
    prints(IMPORT, &text, "import=7 pay=24\n");
    prints(IMPORT, &(text + "\n"), "refused=3 hour=- at=0\n");
}

#[test]
fn days_on_which_the_clock_changes() {
    let answer = WORKED_ANSWER.replace("hour=14", "hour=24");
    prints(HOUR, &with_value(WORKED, 1, "hour", "24"), &answer);
    for hours in [23, 25] {
        let lines = (0..hours).map(|hour| format!("hour={hour} pay=1\n"));
        let lines: String = lines.collect();
        let text = alone(&counted_day(hours));
        prints(DAY, &text, &format!("{lines}total={hours}\n"));
        let answer = format!("import=7 pay={hours}\n");
        prints(IMPORT, &counted_import(hours as i64), &answer);
    }
    let header = Header::counted(26).to_text();
    prints(DAY, &alone(&header), "refused=2 at=2 header=1\n");
    prints(IMPORT, &counted_import(26), "refused=2 hour=- at=1\n");
}

#[test]
fn day_reads_the_headers_of_three_days() {
    let own = counted_day(25);
    let neighbour = |unit, hours, marked: usize| {
        let mut header = Header {
            unit,
            ..Header::counted(hours)
        };
        header.x[3][marked] = 1;
        header.to_text()
    };
    let print = |before: &str, after: &str, answer: &str| {
        let text = between(before.as_bytes(), own.as_bytes(), after.as_bytes());
        prints(DAY, &String::from_utf8_lossy(&text), answer);
    };
    let (before, after) = (neighbour(1, 23, 22), neighbour(1, 24, 1));
    let unpaid = [0, 1, 24].map(|hour| (hour, "pay=0"));
    print(&before, &after, &printed(25, &unpaid, "22"));
    print(&before, "\n", &printed(25, &unpaid[..2], "23"));
    print("\n", &after, &printed(25, &unpaid[2..], "24"));
    let other = neighbour(2, 24, 0);
    print(&other, &other, "refused=2 at=3 header=0\n");
    print(&before, &other, "refused=2 at=3 header=2\n");
    print("form=1\n\n", &after, "refused=1 at=2 header=0\n");
    print(&before, "form=2\nhours=23\n\n", "refused=1 at=3 header=2\n");
}

#[test]
fn line_prints_its_hours_and_the_total() {
    for hours in 23..=25 {
        let text = line_day(hours);
        prints(LINE, &text, &printed(hours, &[], &hours.to_string()));
        prints(LINE, &(text + "x"), &printed(hours, &[], "-"));
    }
    let mut blocks = line_blocks(24);
    blocks[14] = LINE_BLOCK.to_string() + "\n";
    blocks[15] = with_value(&blocks[15], 2, "da", "1");
    let text = LineHead::new(24).to_text() + &blocks.concat();
    let others = [(14, "pay=7125"), (15, "refused=7 at=1")];
    prints(LINE, &text, &printed(24, &others, "-"));
    prints(LINE, "", "refused=1 at=1\n");
    prints(LINE, &LineHead::new(26).to_text(), "refused=2 at=2\n");
}

#[test]
fn sheets_go_up_and_down() {
    let surplus = b"\x80\n\n\0 and no LF";
    let form_1 = day_of(&Header::default(), &one_cent_hours()).into_bytes();
    let form_1 = [&form_1[..], surplus].concat();
    let form_2 = [counted_day(24).as_bytes(), surplus].concat();
    writes(UP, &form_1, &form_2, "");
    writes(DOWN, &form_2, &form_1, "");
    writes(UP, &form_2, b"", "refused=2 at=1\n");
    writes(DOWN, &form_1, b"", "refused=2 at=1\n");
    writes(DOWN, counted_day(23).as_bytes(), b"", "refused=9 at=2\n");
    writes(DOWN, counted_day(25).as_bytes(), b"", "refused=9 at=2\n");
    for program in [UP, DOWN] {
        writes(program, b"", b"", "refused=1 at=1\n");
        writes(program, b"form=1\nunit=1\n", b"", "refused=1 at=3\n");
    }
}

#[test]
fn hour_does_not_wait_for_what_follows() {
    let mut child = start(HOUR, &[]);
    let mut stdin = child.stdin.take().expect("a pipe");
    stdin
        .write_all(WORKED.as_bytes())
        .expect("the program reads");
    stdin.write_all(b"\n").expect("the program reads");
    // The input stays open while the answer is read to its end.
    let mut answer = String::new();
    let mut stdout = child.stdout.take().expect("a pipe");
    stdout.read_to_string(&mut answer).expect("an answer");
    assert_eq!(answer, WORKED_ANSWER);
    assert!(child.wait().expect("the program ends").success());
    drop(stdin);
}

#[test]
fn hour_does_not_read_what_follows() {
    let path = std::env::temp_dir().join(format!("second-{}.txt", std::process::id()));
    let other = with_value(WORKED, 1, "hour", "15");
    let text = format!("{WORKED}\n{other}\nwhat\n");
    std::fs::write(&path, text).expect("a file");
    let file = File::open(&path).expect("a file");
    // One open file, read by one program after the other.
    let mut answers = Vec::new();
    for _ in 0..4 {
        let mut command = Command::new(HOUR);
        command.stdin(file.try_clone().expect("the same file"));
        let output = command.output().expect("the program ends");
        answers.push(String::from_utf8_lossy(&output.stdout).into_owned());
    }
    std::fs::remove_file(&path).expect("the file is there");
    assert_eq!(answers[0], WORKED_ANSWER);
    assert_eq!(answers[1], WORKED_ANSWER.replace("hour=14", "hour=15"));
    assert_eq!(answers[2], "refused=1 at=1\n");
    assert_eq!(answers[3], "refused=1 at=1\n");
}

#[test]
fn a_closed_output_does_no_harm() {
    let sheet = day_of(&Header::default(), &one_cent_hours());
    let day = alone(&sheet);
    let import = import_of(7, 0, &one_cent_imports());
    let counted = counted_day(24);
    let line = line_day(24);
    for (program, input) in [
        (HOUR, WORKED),
        (DAY, &day),
        (IMPORT, &import),
        (LINE, &line),
        (UP, &sheet),
        (DOWN, &counted),
    ] {
        let mut child = start(program, &[]);
        drop(child.stdout.take());
        let mut stdin = child.stdin.take().expect("a pipe");
        stdin
            .write_all(input.as_bytes())
            .expect("the program reads");
        drop(stdin);
        let output = child.wait_with_output().expect("the program ends");
        assert_eq!(output.stderr, b"");
        assert!(output.status.success());
    }
}

#[test]
fn an_input_that_cannot_be_read_is_empty() {
    for (program, answer) in [
        (HOUR, "refused=1 at=1\n"),
        (DAY, "refused=1 at=1 header=0\n"),
        (IMPORT, "refused=1 hour=- at=1\n"),
        (LINE, "refused=1 at=1\n"),
    ] {
        let output = unreadable(program);
        assert_eq!(String::from_utf8_lossy(&output.stdout), answer);
        assert_eq!(output.stderr, b"");
        assert!(output.status.success());
    }
    for program in [UP, DOWN] {
        let output = unreadable(program);
        assert_eq!(output.stdout, b"");
        assert_eq!(output.stderr, b"refused=1 at=1\n");
        assert!(output.status.success());
    }
}

/// The program with a directory as its input.
fn unreadable(program: &str) -> Output {
    let directory = File::open(env!("CARGO_MANIFEST_DIR")).expect("a directory");
    let output = Command::new(program).stdin(directory).output();
    output.expect("the program ends")
}

//! Sheets and small changes to them, shared by the tests.
#![allow(dead_code)]

pub mod line;
pub mod point;

use second::import::{CountedImportLine, ImportHour, ImportHourLine, ImportInterval, ImportLine};
use second::record::{Kind, Record};
use second::text::cut_block;
use second::{hour, Answer, Ask, Curve, DayAhead, Header, HourRecord, Interval, Run, Way};

/// The block of document 01's section "Programs".
pub const WORKED: &str = "\
hour=14 en=100000 reg=0 r1=0 r2=0 r3=0 breg=0 b1=0 b2=0 b3=0
da=0 n=2 to=60000 at=2000 to=100000 at=3500
rt=0 n=2 to=60000 at=2000 to=120000 at=4000
s=900 en=80000 ae=80000 co=0 eop=90000 pen=5000 lim=70000 uol=- r1=0 r2=0 r3=0 p1=0 p2=0 p3=0 reg=0 preg=0 breg=0 mv=0 pmv=0 bmv=0
s=900 en=50000 ae=70000 co=3000 eop=90000 pen=5000 lim=45000 uol=- r1=0 r2=0 r3=0 p1=0 p2=0 p3=0 reg=0 preg=0 breg=0 mv=0 pmv=0 bmv=0
s=900 en=110000 ae=110000 co=0 eop=120000 pen=5000 lim=100000 uol=- r1=0 r2=0 r3=0 p1=0 p2=0 p3=0 reg=0 preg=0 breg=0 mv=0 pmv=0 bmv=0
s=900 en=100000 ae=95000 co=0 eop=100000 pen=5000 lim=95000 uol=- r1=0 r2=0 r3=0 p1=0 p2=0 p3=0 reg=0 preg=0 breg=0 mv=0 pmv=0 bmv=0
";

/// What `hour` prints for it.
pub const WORKED_ANSWER: &str = "\
i=1 grains=27000000000
i=2 grains=72900000000
i=3 grains=-9000000000
i=4 grains=0
hour=14 pay=25250
";

/// Counts of hours that no day has.
pub const OTHER_COUNTS: [&str; 9] = [
    "22", "26", "0", "-24", "1", "2", "48", "9999999", "-9999999",
];

/// An interval of a unit that does nothing, of so many seconds: it does not
/// lag, and contributes 0.
pub fn still(seconds: i64) -> Interval {
    Interval {
        s: seconds,
        eop: Some(0),
        lim: -1,
        ..Interval::default()
    }
}

/// An hour of a unit that does nothing, in four quarters.
pub fn still_hour(hour: i64) -> HourRecord {
    let mut record = HourRecord {
        day_ahead: DayAhead {
            hour,
            ..DayAhead::default()
        },
        ..HourRecord::default()
    };
    record.set_intervals(&[still(900); 4]);
    record
}

/// An hour of 100 kW day-ahead at 10 cents, not run in the first quarter, at
/// 50 cents: 3,600,000 grains, one cent.
pub fn one_cent_hour(hour: i64) -> HourRecord {
    let mut record = still_hour(hour);
    record.day_ahead.en = 100;
    record.da = Curve::new(0, &[(100, 10)]);
    let run = Interval {
        en: 100,
        ae: 100,
        eop: Some(100),
        ..still(900)
    };
    let cut = Interval {
        pen: 50,
        ..still(900)
    };
    record.set_intervals(&[cut, run, run, run]);
    record
}

/// The answer to a record, by both ways of summing costs, and its row.
pub fn judged(record: &HourRecord, ask: Ask) -> (Answer, Vec<i64>) {
    let of = |way| {
        let mut row = vec![-7; 32];
        let answer = hour::judge_record(record, ask, &mut row, &mut Run::new(way));
        (answer, row)
    };
    let by_steps = of(Way::Steps);
    assert_eq!(by_steps, of(Way::Kilowatts));
    by_steps
}

/// The contributions of an hour that has to be paid.
pub fn contributions(record: &HourRecord) -> Vec<i64> {
    let (answer, row) = judged(record, Ask::default());
    match answer {
        Answer::Paid(paid) => row[..paid.intervals].to_vec(),
        Answer::Refused(refusal) => panic!("{refusal}"),
    }
}

/// The block that a record stands for, with its closing empty line.
pub fn closed<K: Kind>(record: &Record<K>) -> String {
    record.to_text() + "\n"
}

/// The printed hours of one cent, with what the other ones print.
pub fn printed(hours: usize, others: &[(usize, &str)], total: &str) -> String {
    let mut says = vec!["pay=1"; hours];
    for (hour, other) in others {
        says[*hour] = other;
    }
    let lines = says.iter().enumerate();
    let lines: String = lines
        .map(|(h, says)| format!("hour={h} {says}\n"))
        .collect();
    format!("{lines}total={total}\n")
}

/// A day sheet of these hours.
pub fn day_of(header: &Header, hours: &[HourRecord]) -> String {
    let blocks: Vec<String> = hours.iter().map(closed).collect();
    header.to_text() + &blocks.concat()
}

/// A stored sheet as `day` reads it between these two headers: its own header,
/// up to its empty line, stands in the middle, and its blocks behind all three.
/// A sheet that ends within its header ends the text.
pub fn between(before: &[u8], sheet: &[u8], after: &[u8]) -> Vec<u8> {
    let behind = cut_block(sheet);
    if !behind.closed {
        return [before, sheet].concat();
    }
    let header = &sheet[..sheet.len() - behind.rest.len()];
    [before, header, after, behind.rest].concat()
}

/// A stored sheet as `day` reads it where both neighbours lack.
pub fn alone(sheet: &str) -> String {
    let text = between(b"\n", sheet.as_bytes(), b"\n");
    String::from_utf8(text).expect("an empty line stands on each side")
}

/// What `day` prints of a stored sheet without neighbours; and of a day of the
/// same unit that has the sheet's header in front, behind, and on both sides.
pub fn in_each_place(sheet: &[u8]) -> [String; 4] {
    let header = &sheet[..sheet.len() - cut_block(sheet).rest.len()];
    let lines = String::from_utf8_lossy(header).into_owned();
    let unit = lines.lines().find_map(|line| line.strip_prefix("unit="));
    let own = Header {
        unit: unit.and_then(|unit| unit.parse().ok()).unwrap_or(1),
        ..Header::default()
    };
    let own = day_of(&own, &one_cent_hours()).into_bytes();
    let empty: &[u8] = b"\n";
    [
        between(empty, sheet, empty),
        between(header, &own, empty),
        between(empty, &own, header),
        between(header, &own, header),
    ]
    .map(|text| second::day_text(&text))
}

/// 24 hours that pay nothing.
pub fn still_hours() -> Vec<HourRecord> {
    (0..24).map(still_hour).collect()
}

/// 24 hours of one cent each.
pub fn one_cent_hours() -> Vec<HourRecord> {
    (0..24).map(one_cent_hour).collect()
}

/// A day sheet that says its hours, each of one cent.
pub fn counted_day(hours: usize) -> String {
    let blocks: Vec<HourRecord> = (0..hours as i64).map(one_cent_hour).collect();
    day_of(&Header::counted(hours), &blocks)
}

/// An import's block whose first quarter is curtailed by 100 kW at 40 cents
/// above its bid: one cent.
pub fn one_cent_import(hour: i64) -> ImportHour {
    let run = ImportInterval {
        s: 900,
        cut: 0,
        prof: 100,
        rten: 100,
        lbmp: 50,
        bid: 5,
        def: 5,
    };
    let cut = ImportInterval {
        cut: 1,
        rten: 0,
        ..run
    };
    ImportHour {
        line: ImportHourLine {
            hour,
            den: 100,
            dec: 10,
        },
        intervals: vec![cut, run, run, run],
    }
}

/// 24 of them.
pub fn one_cent_imports() -> Vec<ImportHour> {
    (0..24).map(one_cent_import).collect()
}

/// What `import` prints of a text.
pub fn print_import(text: &str) -> String {
    second::import_text(text.as_bytes())
}

#[track_caller]
pub fn refused_import(text: &str, check: u8, hour: &str, line: usize) {
    let printed = format!("refused={check} hour={hour} at={line}\n");
    assert_eq!(print_import(text), printed, "{text}");
}

/// An import of these blocks.
pub fn import_of(import: i64, cts: i64, hours: &[ImportHour]) -> String {
    let mut text = String::new();
    ImportLine { import, cts }.write(&mut text);
    text + "\n" + &import_blocks(hours)
}

/// Import 7 of a day that says its hours, each of one cent.
pub fn counted_import(hours: i64) -> String {
    let blocks: Vec<ImportHour> = (0..hours).map(one_cent_import).collect();
    let mut text = String::new();
    let line = CountedImportLine {
        import: 7,
        cts: 0,
        hours,
    };
    line.write(&mut text);
    text + "\n" + &import_blocks(&blocks)
}

fn import_blocks(hours: &[ImportHour]) -> String {
    let closed = |hour: &ImportHour| hour.to_text() + "\n";
    hours.iter().map(closed).collect()
}

/// The text with its line of this number, from 1, replaced.
pub fn with_line(text: &str, line: usize, new: &str) -> String {
    let change = |(i, old): (usize, &str)| {
        let kept = if i + 1 == line { new } else { old };
        format!("{kept}\n")
    };
    text.lines().enumerate().map(change).collect()
}

/// The text without its line of this number, from 1.
pub fn without_line(text: &str, line: usize) -> String {
    let lines = text.lines().enumerate().filter(|(i, _)| i + 1 != line);
    lines.map(|(_, kept)| format!("{kept}\n")).collect()
}

/// The text with this line in front of the line of this number.
pub fn with_line_before(text: &str, line: usize, new: &str) -> String {
    let old = text.lines().nth(line - 1).unwrap_or_default();
    with_line(text, line, &format!("{new}\n{old}"))
}

/// The text with another value behind a key of a line.
pub fn with_value(text: &str, line: usize, key: &str, value: &str) -> String {
    let old = text.lines().nth(line - 1).expect("the line is there");
    let change = |pair: &str| match pair.split_once('=') {
        Some((name, _)) if name == key => format!("{key}={value}"),
        _ => pair.to_string(),
    };
    let pairs: Vec<String> = old.split(' ').map(change).collect();
    let key_is_there = old
        .split(' ')
        .any(|pair| pair.starts_with(&format!("{key}=")));
    assert!(key_is_there, "{key} on line {line}");
    with_line(text, line, &pairs.join(" "))
}

/// A row of digits that a test can repeat.
pub struct Numbers(pub u64);

impl Numbers {
    /// A number from 0 to below the bound.
    pub fn below(&mut self, bound: u64) -> u64 {
        self.0 = self.0.wrapping_mul(6_364_136_223_846_793_005);
        self.0 = self.0.wrapping_add(1_442_695_040_888_963_407);
        (self.0 >> 33) % bound.max(1)
    }

    /// A number from `low` to `high`.
    pub fn between(&mut self, low: i64, high: i64) -> i64 {
        low + self.below((high - low + 1) as u64) as i64
    }
}

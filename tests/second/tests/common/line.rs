//! Days of internal controllable lines, shared by the tests.

use second::{line, Answer, Ask, Curve, LineAhead, LineHead, LineInterval, LineRecord, Run, Way};

use super::closed;

/// A block of both branches, each with the stretch above and below.
pub const LINE_BLOCK: &str = "\
hour=14 dasi=100000 dasw=102000
da=0 n=2 to=60000 at=2000 to=100000 at=3500
rt=0 n=2 to=60000 at=2000 to=120000 at=4000
s=900 en=80000 aei=80000 aew=81500 pin=5000 pout=1000
s=900 en=40000 aei=50000 aew=51000 pin=5000 pout=1000
s=900 en=110000 aei=110000 aew=112000 pin=6000 pout=1000
s=900 en=100000 aei=95000 aew=97000 pin=3000 pout=1000
";

/// Its contributions, by hand. A second of each interval makes
///
/// 1. 20,000 x 5,000 - 20,500 x 1,000 - 20,000 x 3,500 = 9,500,000
/// 2. 50,000 x 5,000 - 51,000 x 1,000 - (10,000 x 2,000 + 40,000 x 3,500)
///    = 39,000,000
/// 3. -10,000 x 6,000 + 10,000 x 1,000 + 10,000 x 4,000 = -10,000,000
/// 4. 5,000 x 3,000 - 5,000 x 1,000 - 5,000 x 4,000 = -10,000,000
///
/// grains, and each has 900 of them.
pub const LINE_GRAINS: [i64; 4] = [
    8_550_000_000,
    35_100_000_000,
    -9_000_000_000,
    -9_000_000_000,
];

/// They sum to 25,650,000,000 grains, which are 7,125 cents.
pub const LINE_CENTS: i128 = 7125;

/// An hour of 100 kW day-ahead at 10 cents, neither scheduled nor injected in
/// the first quarter, at 50 cents: (5,000 - 1,000) x 900 = 3,600,000 grains, one
/// cent.
pub fn one_cent_line(hour: i64) -> LineRecord {
    let mut record = LineRecord {
        day_ahead: LineAhead {
            hour,
            dasi: 100,
            dasw: 0,
        },
        da: Curve::new(0, &[(100, 10)]),
        ..LineRecord::default()
    };
    let on = LineInterval {
        s: 900,
        en: 100,
        aei: 100,
        ..LineInterval::default()
    };
    let off = LineInterval {
        en: 0,
        aei: 0,
        pin: 50,
        ..on
    };
    record.set_intervals(&[off, on, on, on]);
    record
}

/// The blocks of one cent each, for so many hours from 0.
pub fn line_blocks(hours: usize) -> Vec<String> {
    let records = (0..hours as i64).map(one_cent_line);
    records.map(|record| closed(&record)).collect()
}

/// The day of a head over as many hours of one cent each.
pub fn line_day_under(head: &LineHead) -> String {
    head.to_text() + &line_blocks(head.mark.len()).concat()
}

/// A day of so many hours of one cent each, all marked (i).
pub fn line_day(hours: usize) -> String {
    line_day_under(&LineHead::new(hours))
}

/// What `line` prints for a text.
pub fn print_line(text: &str) -> String {
    second::line_text(text.as_bytes())
}

/// The answer to a block, by both ways of summing costs, and its row.
pub fn judged_line(text: &str, ask: Ask) -> (Answer, Vec<i64>) {
    let of = |way| {
        let mut row = vec![-7; 32];
        let answer = line::judge_block(text.as_bytes(), ask, &mut row, &mut Run::new(way));
        (answer, row)
    };
    let by_steps = of(Way::Steps);
    assert_eq!(by_steps, of(Way::Kilowatts));
    by_steps
}

/// The contributions of a block that has to be paid.
#[track_caller]
pub fn line_grains(text: &str) -> Vec<i64> {
    let (answer, row) = judged_line(text, Ask::default());
    match answer {
        Answer::Paid(paid) => row[..paid.intervals].to_vec(),
        Answer::Refused(refusal) => panic!("{refusal}"),
    }
}

/// Makes sure that a block is refused, and that its row is as before.
#[track_caller]
pub fn line_refused(text: &str, ask: Ask, check: u8, place: usize) {
    let (answer, row) = judged_line(text, ask);
    assert_eq!(row, [-7; 32], "a refusal leaves the row");
    match answer {
        Answer::Refused(refusal) => {
            let refusal = (refusal.check.number(), refusal.place);
            assert_eq!(refusal, (check, place), "{text}");
        }
        Answer::Paid(paid) => panic!("{paid:?}: {text}"),
    }
}

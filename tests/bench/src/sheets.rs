//! The sheets that are measured on: days of a plant and of an internal
//! controllable line whose hours have 30 intervals and two curves of 12 steps,
//! all of them paid.

use std::path::{Path, PathBuf};
use std::{fs, io};

use compare::hours::{self, is_paid};
use compare::kinds::Made;
use compare::lines;
use compare::random::Rng;
use second::curve::MOST_STEPS;
use second::day::HOURS;
use second::hour::judge_record;
use second::record::{Record, MOST_INTERVALS};
use second::{Ask, Header, Headers, LineHead, LineRecord, Run, Way};

/// Hours of the longest day.
pub const LONGEST: usize = HOURS + 1;

/// The seed of all sheets.
const SEED: u64 = 1;

/// Sheets and their blocks, as texts.
pub struct Sheets {
    /// The days, each between the headers of two usual ones.
    pub days: Vec<Vec<u8>>,
    /// The longest days, each with an hour more than such a day.
    pub long_days: Vec<Vec<u8>>,
    /// The days of a controllable line, every hour marked.
    pub lines: Vec<Vec<u8>>,
    /// Every hour block of the days, with its closing empty line.
    pub blocks: Vec<Vec<u8>>,
}

/// The sheets as files.
pub struct Files {
    /// A file for each day.
    pub days: Vec<PathBuf>,
    /// A file for each of the longest days.
    pub long_days: Vec<PathBuf>,
    /// A file for each day of a controllable line.
    pub lines: Vec<PathBuf>,
    /// A file for each hour block.
    pub blocks: Vec<PathBuf>,
}

impl Sheets {
    /// So many sheets of each kind.
    pub fn new(count: usize) -> Self {
        let block = |index, hour| full_block(hours::plant, is_paid, index, hour);
        let mut sheets = Sheets {
            days: Vec::new(),
            long_days: Vec::new(),
            lines: line_days(count),
            blocks: Vec::new(),
        };
        for day in 0..count {
            let hours = (0..HOURS).map(|hour| block(day * HOURS + hour, hour));
            let mut blocks: Vec<Vec<u8>> = hours.collect();
            sheets.days.push(sheet(between(Header::default()), &blocks));
            sheets.blocks.extend_from_slice(&blocks);
            // The one more comes behind all blocks of the days.
            blocks.push(block(count * HOURS + day, HOURS));
            let long_day = Header::counted(LONGEST);
            sheets.long_days.push(sheet(between(long_day), &blocks));
        }
        sheets
    }

    /// The hour blocks of so many sheets, which begin anew at their end.
    pub fn blocks_of(&self, count: usize) -> impl Iterator<Item = &[u8]> {
        let blocks = self.blocks.iter().cycle().take(count * HOURS);
        blocks.map(Vec::as_slice)
    }

    /// The bytes of those blocks.
    pub fn bytes_of(&self, count: usize) -> usize {
        self.blocks_of(count).map(<[u8]>::len).sum()
    }

    /// Writes every sheet and every block to its file.
    pub fn write(&self, folder: &Path) -> io::Result<Files> {
        let write = |name: String, text: &[u8]| {
            let path = folder.join(name);
            fs::write(&path, text).map(|()| path)
        };
        let numbered = |kind: &str, texts: &[Vec<u8>]| -> io::Result<Vec<PathBuf>> {
            let all = texts.iter().enumerate();
            all.map(|(i, text)| write(format!("{kind}-{i}"), text))
                .collect()
        };
        Ok(Files {
            days: numbered("day", &self.days)?,
            long_days: numbered("long-day", &self.long_days)?,
            lines: numbered("line", &self.lines)?,
            blocks: numbered("hour", &self.blocks)?,
        })
    }
}

/// What stands in front of a day's blocks, with its blocks below it.
fn sheet(front: String, blocks: &[Vec<u8>]) -> Vec<u8> {
    [front.into_bytes(), blocks.concat()].concat()
}

/// The three headers of a day between two usual ones.
fn between(own: Header) -> String {
    let usual = || Some(Header::default());
    let headers = Headers {
        before: usual(),
        own,
        after: usual(),
    };
    headers.to_text()
}

/// So many days of a controllable line.
fn line_days(count: usize) -> Vec<Vec<u8>> {
    // Behind all blocks of a plant, so that no two are drawn from one row.
    let first = count * LONGEST;
    let block = |day, hour| full_block(lines::cable, pays, first + day * HOURS + hour, hour);
    let day = |day| {
        let blocks: Vec<Vec<u8>> = (0..HOURS).map(|hour| block(day, hour)).collect();
        sheet(LineHead::new(HOURS).to_text(), &blocks)
    };
    (0..count).map(day).collect()
}

/// The block of this index: of the longest kind, good, and for its hour.
fn full_block<K: Made>(
    make: fn(&mut Rng) -> Record<K>,
    is_good: fn(&Record<K>) -> bool,
    index: usize,
    hour: usize,
) -> Vec<u8> {
    let rng = &mut Rng::new(SEED, index as u64);
    loop {
        let mut record = make(rng);
        *K::hour_mut(&mut record.day_ahead) = hour as i64;
        if is_full(&record) && is_good(&record) {
            let mut text = record.to_text().into_bytes();
            text.push(b'\n');
            return text;
        }
    }
}

fn is_full<K: Made>(record: &Record<K>) -> bool {
    let steps = [record.da.count, record.rt.count];
    record.count == MOST_INTERVALS && steps == [MOST_STEPS; 2]
}

/// Whether a controllable line gets more than 0 for an hour: with 0 its answer
/// would be that of an hour without a mark, whose intervals are not priced.
fn pays(record: &LineRecord) -> bool {
    let row = &mut [0; MOST_INTERVALS];
    let run = &mut Run::quiet(Way::Steps);
    judge_record(record, Ask::default(), row, run).cents() > Some(0)
}

#[cfg(test)]
mod tests {
    use super::*;
    use second::{day_text, line_text};

    /// What is paid for each hour, and whether there is a total.
    fn pay(answer: &str) -> (Vec<u64>, bool) {
        let cents = |line: &str| line.split_once(" pay=").map(|(_, cents)| cents.parse());
        let hours = answer.lines().filter_map(cents).map_while(Result::ok);
        let last = answer.lines().last();
        let total = last.is_some_and(|line| line.starts_with("total=") && line != "total=-");
        (hours.collect(), total)
    }

    /// Whether so many hours, each as long as can be, stand below headers of so
    /// many lines.
    fn is_longest(text: &[u8], above: usize, hours: usize) -> bool {
        let text = String::from_utf8_lossy(text);
        let steps = text.matches(&format!(" n={MOST_STEPS} ")).count();
        let lines = above + hours * (3 + MOST_INTERVALS + 1);
        (steps, text.lines().count()) == (2 * hours, lines)
    }

    #[test]
    fn sheets_are_full_and_paid() {
        let sheets = Sheets::new(2);
        let (days, long_days) = (&sheets.days, &sheets.long_days);
        for (texts, above, hours) in [(days, 33, HOURS), (long_days, 34, LONGEST)] {
            for text in texts {
                let (paid, total) = pay(&day_text(text));
                assert!(total && paid.len() == hours);
                assert!(is_longest(text, above, hours));
            }
        }
        for text in &sheets.lines {
            let (paid, total) = pay(&line_text(text));
            assert!(total && paid.len() == HOURS);
            assert!(paid.iter().all(|cents| *cents > 0), "{paid:?}");
            assert!(is_longest(text, 4, HOURS));
        }
    }

    #[test]
    fn a_sheet_is_made_again_and_is_no_other() {
        let (one, again) = (Sheets::new(2), Sheets::new(2));
        assert!(one.days == again.days && one.long_days == again.long_days);
        assert_eq!(one.lines, again.lines);
        assert_ne!(one.lines[0], one.lines[1]);
    }
}

//! The curtailed import of one day (25.6).

use std::fmt;

use crate::header::HOURS;
use crate::hour::{order, ranges, ranges_in_day, whole_hour};
use crate::record::MOST_INTERVALS;
use crate::refusal::{Check, Refusal};
use crate::text::{
    cut_block, read_at, sheet_line, Cut, Fault, Line, LineFault, DAY_HOURS, HOUR, MARK, NAME,
    POWER, PRICE, SECONDS,
};
use crate::trace::{Event, ImportTest, Spot, Trace};
use crate::{cents, Run};

sheet_line! {
    /// The first line of an import, for a day of 24 hours.
    ImportLine {
        /// The import.
        import: i64 => NAME,
        /// Whether its proxy bus is enabled for coordinated scheduling.
        cts: i64 => MARK,
    }
}

sheet_line! {
    /// The first line of an import that says how many hours its day has.
    CountedImportLine {
        /// The import.
        import: i64 => NAME,
        /// Whether its proxy bus is enabled for coordinated scheduling.
        cts: i64 => MARK,
        /// Hours of the day.
        hours: i64 => DAY_HOURS,
    }
}

/// A line that says no hours stands for 24 of them.
impl From<ImportLine> for CountedImportLine {
    fn from(line: ImportLine) -> Self {
        let ImportLine { import, cts } = line;
        CountedImportLine {
            import,
            cts,
            hours: HOURS as i64,
        }
    }
}

sheet_line! {
    /// Line 1 of an import's block.
    ImportHourLine {
        /// Hour of the day.
        hour: i64 => HOUR,
        /// Day-ahead energy schedule.
        den: i64 => POWER,
        /// Day-ahead decremental bid.
        dec: i64 => PRICE,
    }
}

sheet_line! {
    /// One interval of an import's block.
    ImportInterval {
        /// Seconds.
        s: i64 => SECONDS,
        /// Whether the ISO curtailed the import.
        cut: i64 => MARK,
        /// Real-time energy profile.
        prof: i64 => POWER,
        /// Energy scheduled by real-time dispatch.
        rten: i64 => POWER,
        /// Real-time price at the proxy bus.
        lbmp: i64 => PRICE,
        /// Real-time decremental bid.
        bid: i64 => PRICE,
        /// Default real-time decremental bid.
        def: i64 => PRICE,
    }
}

/// One block of an import.
#[derive(Clone, Debug, Default, PartialEq, Eq)]
pub struct ImportHour {
    /// Line 1.
    pub line: ImportHourLine,
    /// The interval lines.
    pub intervals: Vec<ImportInterval>,
}

/// The answer to an import.
#[derive(Clone, Copy, Debug, PartialEq, Eq)]
pub enum ImportAnswer {
    /// All blocks are good.
    Paid {
        /// The import.
        import: i64,
        /// The sum over the hours, each from 0 up.
        grains: i128,
        /// What is paid for the day: this sum in cents, rounded once.
        cents: i128,
    },
    /// A block, or what stands around the blocks, is refused.
    Refused {
        /// The refused block's place, from 0; none for the first two lines
        /// and for what follows the last block.
        hour: Option<usize>,
        /// The check and the line.
        refusal: Refusal,
    },
}

/// Prints the answer as the program `import` does.
impl fmt::Display for ImportAnswer {
    fn fmt(&self, out: &mut fmt::Formatter<'_>) -> fmt::Result {
        match self {
            ImportAnswer::Paid { import, cents, .. } => {
                writeln!(out, "import={import} pay={cents}")
            }
            ImportAnswer::Refused { hour, refusal } => {
                let hour = hour.map_or("-".to_string(), |hour| hour.to_string());
                let Refusal { check, place } = refusal;
                writeln!(out, "refused={} hour={hour} at={place}", check.number())
            }
        }
    }
}

/// Judges an import.
pub fn judge(text: &[u8], run: &mut Run) -> ImportAnswer {
    judge_day(text, &mut run.trace).unwrap_or_else(|(hour, refusal)| {
        let spot = match hour {
            Some(_) => Spot::in_import_hour(refusal),
            None => Spot::around_import(refusal),
        };
        run.trace.note(Event::Refused(refusal.check, spot));
        ImportAnswer::Refused { hour, refusal }
    })
}

/// What the program `import` prints for its input.
pub fn program(text: &[u8], run: &mut Run) -> String {
    judge(text, run).to_string()
}

/// A refusal and the place of the block it is for.
type Refused = (Option<usize>, Refusal);

fn judge_day(text: &[u8], trace: &mut Trace) -> Result<ImportAnswer, Refused> {
    let head = cut_block(text);
    let line = read_head(&head, trace).map_err(|refusal| (None, refusal))?;
    trace.note(Event::ImportHours(line.hours));
    let mut rest = head.rest;
    let mut grains = 0;
    for (place, expected) in (0..line.hours).enumerate() {
        let block = cut_block(rest);
        let hour = judge_hour(&block, expected, line.hours, trace);
        let hour = hour.map_err(|refusal| (Some(place), refusal))?;
        // An hour that would cost the supplier takes nothing from the others.
        let sum = hour.grains(line.cts, trace);
        trace.note(Event::ImportSum(sum.cmp(&0)));
        grains += sum.max(0);
        rest = block.rest;
    }
    if !rest.is_empty() {
        return Err((None, Refusal::new(Check::Order, 0)));
    }
    Ok(ImportAnswer::Paid {
        import: line.import,
        grains,
        cents: cents(grains),
    })
}

/// The first two lines, which are the import's header.
fn read_head(head: &Cut<'_>, trace: &mut Trace) -> Result<CountedImportLine, Refusal> {
    let line = form_of_head(head).map_err(|(line, fault)| {
        let refusal = Refusal::new(Check::Form, line);
        trace.note(Event::Malformed(Spot::around_import(refusal), fault));
        refusal
    })?;
    ranges(&[line.numbers()], trace)?;
    Ok(line)
}

fn form_of_head(head: &Cut<'_>) -> Result<CountedImportLine, LineFault> {
    let line = read_at(&head.lines, 1, read_first_line)?;
    if head.lines.len() > 1 {
        return Err((2, Fault::Extra));
    }
    if !head.closed {
        return Err((2, Fault::Absent));
    }
    Ok(line)
}

/// The hours may be left out, and nothing else.
fn read_first_line(line: Line<'_>) -> Result<CountedImportLine, Fault> {
    match ImportLine::read(line) {
        Ok(line) => Ok(line.into()),
        Err(_) => CountedImportLine::read(line),
    }
}

fn judge_hour(
    block: &Cut<'_>,
    expected: i64,
    hours: i64,
    trace: &mut Trace,
) -> Result<ImportHour, Refusal> {
    let hour = ImportHour::read(&block.lines).map_err(|(line, fault)| {
        let refusal = Refusal::new(Check::Form, line);
        trace.note(Event::Malformed(Spot::in_import_hour(refusal), fault));
        refusal
    })?;
    ranges_in_day(hour.lines_of_numbers(), hours, trace)?;
    order(hour.line.hour, Some(expected))?;
    whole_hour(hour.intervals.iter().map(|interval| interval.s))?;
    Ok(hour)
}

impl ImportHour {
    /// Reads the lines of a block; the first line at fault is named.
    pub fn read(lines: &[Line<'_>]) -> Result<Self, LineFault> {
        let line = read_at(lines, 1, ImportHourLine::read)?;
        let mut intervals = Vec::new();
        for place in 2..=lines.len() {
            if intervals.len() == MOST_INTERVALS {
                return Err((place, Fault::Extra));
            }
            intervals.push(read_at(lines, place, ImportInterval::read)?);
        }
        Ok(ImportHour { line, intervals })
    }

    /// The sum of the intervals that count, in grains.
    pub fn grains(&self, cts: i64, trace: &mut Trace) -> i128 {
        let mut sum = 0;
        for interval in &self.intervals {
            let against = self.against(interval, cts);
            if against.is_empty() {
                trace.note(Event::Import(ImportTest::Counts));
                sum += self.interval_grains(interval);
            }
            for test in against {
                trace.note(Event::Import(test));
            }
        }
        sum
    }

    /// Every reason for which an interval does not count.
    fn against(&self, interval: &ImportInterval, cts: i64) -> Vec<ImportTest> {
        let tests = [
            (ImportTest::Cts, cts != 0),
            (ImportTest::NotCut, interval.cut != 1),
            (ImportTest::ProfileBelow, interval.prof < self.line.den),
            (ImportTest::BidAbove, interval.bid > interval.def),
        ];
        let failed = tests.into_iter().filter(|(_, fails)| *fails);
        failed.map(|(test, _)| test).collect()
    }

    /// What the curtailed energy would have earned above its day-ahead bid; a
    /// bid below zero counts as zero.
    fn interval_grains(&self, interval: &ImportInterval) -> i128 {
        let margin = i128::from(interval.lbmp) - i128::from(self.line.dec.max(0));
        let curtailed = i128::from(self.line.den) - i128::from(interval.rten);
        margin * curtailed * i128::from(interval.s)
    }

    fn lines_of_numbers(&self) -> Vec<Vec<crate::text::Number>> {
        let mut lines = vec![self.line.numbers()];
        lines.extend(self.intervals.iter().map(ImportInterval::numbers));
        lines
    }

    /// The block's lines, without its closing empty line.
    pub fn to_text(&self) -> String {
        let mut text = String::new();
        self.line.write(&mut text);
        for interval in &self.intervals {
            interval.write(&mut text);
        }
        text
    }
}

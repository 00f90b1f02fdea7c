//! Curtailed imports: how they are made.

use second::import::{
    self, CountedImportLine, ImportHour, ImportHourLine, ImportInterval, ImportLine,
};
use second::record::MOST_INTERVALS;
use second::text::{Number, Side, POWER, PRICE};

use crate::bonds::{Bond, Pair};
use crate::damage::{self, set_value, Sheet, BROKEN_PAIRS, NO_NUMBERS};
use crate::events;
use crate::hours;
use crate::pieces::{self, any_said, count, each_hour, Said, COUNTS_OUT_OF_FORM, NO_COUNTS};
use crate::plan::{recipe, Program, Recipe};
use crate::random::Rng;
use crate::written::Written;

/// The program `import`.
pub const PROGRAM: Program = Program {
    name: "import",
    recipes: RECIPES,
    answer: |text, run| Written::Answer(import::program(text, run)),
    wanted: events::of_import,
    outcome,
    outcomes: || pieces::outcomes(&pieces::SAID, says),
    ends_at_empty_line: false,
    pair: Some(pair),
    back: None,
};

const RECIPES: &[Recipe] = &[
    recipe("imports", 6, |rng, turn| good(rng, turn, plain)),
    recipe("ends of ranges", 4, |rng, turn| good(rng, turn, extreme)),
    recipe("around a cent", 2, |rng, _| around_a_cent(rng)),
    recipe("first lines", 3, first_lines),
    recipe("wrong counts", 2, wrong_count),
    recipe("hours elsewhere", 2, hours_elsewhere),
    recipe("just out of range", 3, out_of_range),
    recipe("wrong lines", 5, wrong_lines),
    recipe("seconds", 2, seconds),
    recipe("extra lines", 1, extra_lines),
    recipe("blocks out of order", 2, out_of_order),
    recipe("blocks by the count", 3, by_count),
    recipe("texts that end", 3, ends),
    recipe("surplus", 2, surplus),
    recipe("damage", 5, |rng, _| damaged(rng)),
    recipe("noise", 1, |rng, _| {
        pieces::noise(rng, |rng| {
            let said = any_said(rng);
            head(rng, said)
        })
    }),
];

/// The hours that a first line says.
fn says(said: Said) -> String {
    match said {
        None => "no hours said".to_string(),
        Some(hours) => format!("hours={hours}"),
    }
}

fn outcome(text: &[u8], answer: &str) -> Option<String> {
    let first = text.split(|byte| *byte == b'\n').next()?;
    let first = String::from_utf8_lossy(first);
    let said = match first.split_once(" hours=") {
        None => None,
        Some((_, hours)) => Some(hours.parse().ok()?),
    };
    if !pieces::SAID.contains(&said) {
        return None;
    }
    let last = format!(" hour={} at=1\n", count(said) - 1);
    let outcome = match answer.strip_suffix(&last) {
        Some(refused) => format!("last hour {refused} at=1"),
        None if answer.starts_with("import=") => "paid".to_string(),
        None if answer == "refused=3 hour=- at=0\n" => "surplus".to_string(),
        None => return None,
    };
    Some(format!("{}: {outcome}", says(said)))
}

/// Lines of an import in front of its blocks.
const FIRST_LINES: usize = 2;

fn plain(rng: &mut Rng) -> ImportHour {
    let den = 1000 * rng.between(0, 400);
    let line = ImportHourLine {
        hour: 0,
        den,
        dec: rng.between(-3_000, 6_000),
    };
    let count = few(rng);
    let row = hours::seconds(rng, count);
    let interval = |s| {
        let bid = rng.between(-100, 100);
        ImportInterval {
            s,
            cut: rng.between(0, 1),
            prof: rng.pick(&[den, den, den + 500, den / 2]),
            rten: rng.pick(&[den, 0, den / 3, den + 1_000]).min(POWER.high),
            lbmp: rng.between(-2_000, 20_000),
            bid,
            def: bid + rng.between(-1, 4),
        }
    };
    ImportHour {
        line,
        intervals: row.into_iter().map(interval).collect(),
    }
}

fn extreme(rng: &mut Rng) -> ImportHour {
    let line = ImportHourLine {
        hour: 0,
        den: rng.edge(POWER),
        dec: rng.edge(PRICE),
    };
    let count = few(rng);
    let row = hours::seconds(rng, count);
    let interval = |s| ImportInterval {
        s,
        cut: i64::from(!rng.once_in(6)),
        prof: rng.pick(&[POWER.high, line.den, (line.den - 1).max(0)]),
        rten: rng.edge(POWER),
        lbmp: rng.edge(PRICE),
        bid: rng.pick(&[PRICE.low, 0, PRICE.high]),
        def: rng.pick(&[PRICE.low, 0, PRICE.high, PRICE.high]),
    };
    ImportHour {
        line,
        intervals: row.into_iter().map(interval).collect(),
    }
}

fn few(rng: &mut Rng) -> usize {
    rng.pick(&[4, 4, 4, 5, 6, 12, MOST_INTERVALS])
}

/// Blocks of each hour, made so.
fn blocks(rng: &mut Rng, said: Said, make: fn(&mut Rng) -> ImportHour) -> Vec<ImportHour> {
    each_hour(count(said), |_| make(rng))
}

/// The first two lines.
fn head(rng: &mut Rng, said: Said) -> String {
    let line = ImportLine {
        import: rng.pick(&[1, 9_999_999, 4711]),
        cts: i64::from(rng.once_in(8)),
    };
    let mut text = String::new();
    match said {
        None => line.write(&mut text),
        Some(hours) => CountedImportLine {
            hours: hours as i64,
            ..line.into()
        }
        .write(&mut text),
    }
    text + "\n"
}

fn text(rng: &mut Rng, said: Said, hours: &[ImportHour]) -> Vec<u8> {
    pieces::text(&head(rng, said), hours)
}

fn good(rng: &mut Rng, turn: usize, make: fn(&mut Rng) -> ImportHour) -> Vec<u8> {
    let said = pieces::said(turn);
    let hours = blocks(rng, said, make);
    let text = text(rng, said, &hours);
    pieces::closed(rng, text)
}

fn around_a_cent(rng: &mut Rng) -> Vec<u8> {
    let said = any_said(rng);
    let hours = hours_around_a_cent(rng, said);
    text(rng, said, &hours)
}

/// Hours that make some halves of a cent and no grain, or one grain more or less:
/// one hour alone, or several, where the loss of one takes nothing from another.
pub fn hours_around_a_cent(rng: &mut Rng, said: Said) -> Vec<ImportHour> {
    let mut hours = blocks(rng, said, |_| ImportHour {
        line: ImportHourLine {
            hour: 0,
            den: 1,
            dec: 5,
        },
        intervals: vec![
            ImportInterval {
                s: 900,
                cut: 1,
                prof: 1,
                rten: 1,
                lbmp: 5,
                bid: 0,
                def: 0,
            };
            4
        ],
    });
    let one = rng.below(hours.len());
    // 2000 cents for 900 seconds are half a cent.
    hours[one].intervals[0].rten = 0;
    hours[one].intervals[0].lbmp += 2000 * rng.between(0, 3);
    for _ in 0..3 {
        let any = rng.below(hours.len());
        let other = &mut hours[rng.pick(&[one, any, any])].intervals[1];
        other.rten = 0;
        other.lbmp += 2000 * rng.pick(&[-1, 0, 1, 1, 2]);
    }
    let any = rng.below(hours.len());
    let row = &mut hours[rng.pick(&[one, any])].intervals;
    row[2].s = 1;
    row[2].rten = 0;
    row[2].lbmp += rng.between(-1, 1);
    row.push(ImportInterval { s: 899, ..row[3] });
    hours
}

/// A sheet of good blocks, and the number of the line, from 0, where the one of
/// them starts that has thirty intervals.
fn sheet_and_block(rng: &mut Rng) -> (Sheet, usize) {
    let said = any_said(rng);
    let place = rng.below(count(said));
    let mut hours = blocks(rng, said, plain);
    hours[place].intervals = vec![hours[place].intervals[0]; MOST_INTERVALS];
    hours[place].intervals.iter_mut().for_each(|i| i.s = 120);
    let lines_of = |hour: &ImportHour| hour.intervals.len() + 2;
    let before: usize = hours[..place].iter().map(lines_of).sum();
    let sheet = Sheet::of(&text(rng, said, &hours));
    (sheet, FIRST_LINES + before)
}

/// A sheet of good blocks, of which nothing more is asked.
fn sheet(rng: &mut Rng, said: Said) -> Sheet {
    let hours = blocks(rng, said, plain);
    Sheet::of(&text(rng, said, &hours))
}

/// The lines of a block that differ in kind, in turn: line 1, the first
/// interval, one between, the thirtieth. Counted from 0 in the block.
fn nth_line(rng: &mut Rng, turn: usize) -> usize {
    match turn % 4 {
        0 => 0,
        1 => 1,
        2 => 2 + rng.below(MOST_INTERVALS - 2),
        _ => MOST_INTERVALS,
    }
}

/// The first two lines, wrong.
fn first_lines(rng: &mut Rng, turn: usize) -> Vec<u8> {
    let said = pieces::said(turn / 12);
    let mut sheet = sheet(rng, said);
    let line = &mut sheet.lines[0];
    match turn % 12 {
        0 => {
            let value = rng.pick(&["0", "-1", "-9999999"]);
            set_value(line, 0, value.as_bytes());
        }
        1 => set_value(line, 1, b"2"),
        2 => set_value(line, 1, b"-1"),
        3 => {
            let value = rng.pick(NO_NUMBERS);
            let pair = rng.below(damage::pairs(line).len());
            set_value(line, pair, value.as_bytes());
        }
        4 => damage::damage_pairs(rng, line, BROKEN_PAIRS[turn / 12 % BROKEN_PAIRS.len()]),
        5 => drop(sheet.lines.remove(0)),
        6 => drop(sheet.lines.remove(1)),
        7 => sheet.lines.insert(1, b"x".to_vec()),
        8 => sheet.lines.insert(0, Vec::new()),
        9 => sheet.lines.truncate(1),
        10 => {
            sheet.lines.truncate(1);
            sheet.ended = false;
        }
        _ => sheet.lines[1].push(rng.pick(b" \r0")),
    }
    sheet.text()
}

/// Counts that no day has, alone and with other faults of the first lines.
fn wrong_count(rng: &mut Rng, turn: usize) -> Vec<u8> {
    let all = [NO_COUNTS, COUNTS_OUT_OF_FORM].concat();
    let mut sheet = sheet(rng, pieces::SAID[1 + turn % 3]);
    set_value(&mut sheet.lines[0], 2, all[turn % all.len()].as_bytes());
    match turn / all.len() % 5 {
        1 => set_value(&mut sheet.lines[0], turn % 2, b"-1"),
        2 => sheet.lines[1].push(b'x'),
        3 => drop(sheet.lines.remove(1)),
        4 => sheet.end_in(0, |length| length),
        _ => {}
    }
    sheet.text()
}

/// Hours at another place than the end of the first line, twice, under another
/// key, of many digits, and beside what no line has.
fn hours_elsewhere(rng: &mut Rng, turn: usize) -> Vec<u8> {
    let said = pieces::SAID[turn / 13 % 4];
    let mut sheet = sheet(rng, said);
    let hours = format!("hours={}", count(said)).into_bytes();
    let mut pairs = damage::pairs(&sheet.lines[0]);
    match turn % 13 {
        0 => pairs.insert(1, hours),
        1 => pairs.insert(0, hours),
        2 => pairs.extend([hours.clone(), hours]),
        3 => pairs.extend([hours, b"hours=24".to_vec()]),
        4 => pairs.push(b"hour=24".to_vec()),
        5 => pairs.push([&hours[..], b" "].concat()),
        6 => drop(pairs.splice(1..2, [hours])),
        7 => pairs[1].extend(hours),
        8 => sheet.lines[1] = hours,
        9 => sheet.lines.insert(1, hours),
        10 => sheet.lines.insert(2, hours),
        11 => {
            let more = rng.pick(&[6, 40, 20_000, 66_000]);
            pairs.push([hours, vec![b'0'; more]].concat());
        }
        _ => pairs.push(hours),
    }
    sheet.lines[0] = pairs.join(&b' ');
    sheet.text()
}

/// More blocks than the count, fewer, or just as many.
fn by_count(rng: &mut Rng, turn: usize) -> Vec<u8> {
    let said = pieces::SAID[turn % 4];
    let mut hours = blocks(rng, said, plain);
    pieces::by_count(rng, &mut hours, turn / 4 % pieces::BY_COUNT);
    let text = text(rng, said, &hours);
    pieces::closed(rng, text)
}

fn keys_and_sides() -> Vec<(bool, usize, Number, Side)> {
    let mut kinds = Vec::new();
    let lines = [
        ImportHourLine::default().numbers(),
        ImportInterval::default().numbers(),
    ];
    for (line, numbers) in lines.into_iter().enumerate() {
        for (pair, number) in numbers.into_iter().enumerate() {
            for side in [Side::Below, Side::Above] {
                kinds.push((line == 0, pair, number, side));
            }
        }
    }
    kinds
}

/// Every key of every kind of line, just below its range and just above.
fn out_of_range(rng: &mut Rng, turn: usize) -> Vec<u8> {
    let (mut sheet, block) = sheet_and_block(rng);
    let kinds = keys_and_sides();
    let (first, pair, number, side) = kinds[turn % kinds.len()];
    let line = if first {
        0
    } else {
        nth_line(rng, 1 + turn / kinds.len() % 3)
    };
    let value = match side {
        Side::Below => number.range.low - 1,
        Side::Above => number.range.high + 1,
    };
    set_value(
        &mut sheet.lines[block + line],
        pair,
        value.to_string().as_bytes(),
    );
    sheet.text()
}

/// Lines of a block that are not in form.
fn wrong_lines(rng: &mut Rng, turn: usize) -> Vec<u8> {
    let (mut sheet, block) = sheet_and_block(rng);
    let line = nth_line(rng, turn);
    let line = &mut sheet.lines[block + line];
    match turn / 4 % 2 {
        0 => {
            let pair = rng.below(damage::pairs(line).len());
            let value = rng.pick(NO_NUMBERS);
            set_value(line, pair, value.as_bytes());
        }
        _ => damage::damage_pairs(rng, line, BROKEN_PAIRS[turn / 8 % BROKEN_PAIRS.len()]),
    }
    sheet.text()
}

/// Seconds that miss an hour by one, and blocks without intervals.
fn seconds(rng: &mut Rng, turn: usize) -> Vec<u8> {
    let said = any_said(rng);
    let mut hours = blocks(rng, said, plain);
    let place = rng.below(hours.len());
    let row = &mut hours[place].intervals;
    match turn % 4 {
        0 => row.clear(),
        1 => drop(row.pop()),
        _ => {
            let off = rng.pick(&[-1, 1]);
            if let Some(interval) = row.iter_mut().find(|i| (1..=900).contains(&(i.s + off))) {
                interval.s += off;
            }
        }
    }
    text(rng, said, &hours)
}

fn extra_lines(rng: &mut Rng, turn: usize) -> Vec<u8> {
    let (mut sheet, block) = sheet_and_block(rng);
    let more = match turn % 3 {
        0 => sheet.lines[block + 1].clone(),
        1 => b"x".to_vec(),
        _ => b" ".to_vec(),
    };
    let at = block + MOST_INTERVALS + 1;
    let count = rng.pick(&[1, 2, 40]);
    sheet.lines.splice(at..at, vec![more; count]);
    sheet.text()
}

fn out_of_order(rng: &mut Rng, turn: usize) -> Vec<u8> {
    let said = any_said(rng);
    let mut hours = blocks(rng, said, plain);
    pieces::misplace(rng, &mut hours, turn % pieces::MISPLACED);
    if rng.once_in(3) {
        // A later block's fault comes later, whatever its check.
        let late = rng.below(hours.len());
        if let Some(hour) = hours.get_mut(late) {
            hour.intervals.clear();
        }
    }
    text(rng, said, &hours)
}

/// Texts that end within a line, or behind one.
fn ends(rng: &mut Rng, turn: usize) -> Vec<u8> {
    let (sheet, block) = sheet_and_block(rng);
    let line = match turn % 5 {
        4 => rng.below(FIRST_LINES),
        kind => block + nth_line(rng, kind),
    };
    pieces::end_in_line(rng, sheet, line, turn / 5)
}

fn surplus(rng: &mut Rng, turn: usize) -> Vec<u8> {
    let said = any_said(rng);
    let mut hours = blocks(rng, said, plain);
    if turn % 4 == 3 {
        let place = rng.below(hours.len());
        hours[place].intervals.clear();
    }
    let mut text = text(rng, said, &hours);
    text.extend(pieces::surplus(rng, turn % 3));
    text
}

fn damaged(rng: &mut Rng) -> Vec<u8> {
    let said = any_said(rng);
    let text = sheet(rng, said).text();
    pieces::damaged(rng, text)
}

/// Two imports: an interval cut in two, the intervals in another order, or 24
/// hours that are said.
fn pair(rng: &mut Rng, turn: usize) -> Pair {
    if turn % 4 == 3 {
        return said_or_not(rng, turn);
    }
    let said = any_said(rng);
    let mut hours = blocks(rng, said, if turn % 8 < 4 { plain } else { extreme });
    let head = head(rng, said);
    let before = pieces::text(&head, &hours);
    let place = rng.below(hours.len());
    let row = &mut hours[place].intervals;
    let cut = row.iter().position(|interval| interval.s > 1);
    let name = match cut.filter(|_| turn % 2 == 0 && row.len() < MOST_INTERVALS) {
        Some(at) => {
            let s = rng.between(1, row[at].s - 1);
            let rest = ImportInterval {
                s: row[at].s - s,
                ..row[at]
            };
            row[at].s = s;
            row.insert(at + 1, rest);
            "interval cut"
        }
        None => {
            rng.shuffle(row);
            "other order"
        }
    };
    Pair {
        name,
        before,
        after: pieces::text(&head, &hours),
        bond: Bond::Same,
    }
}

/// An import that says no hours, and one that says 24 of them.
fn said_or_not(rng: &mut Rng, turn: usize) -> Pair {
    let mut hours = blocks(rng, None, plain);
    match turn / 4 % 3 {
        0 => {}
        1 => pieces::misplace(rng, &mut hours, turn / 12 % pieces::MISPLACED),
        _ => pieces::by_count(rng, &mut hours, turn / 12 % pieces::BY_COUNT),
    }
    let before = text(rng, None, &hours);
    let mut sheet = Sheet::of(&before);
    sheet.lines[0].extend(b" hours=24");
    Pair {
        name: "24 hours said",
        before,
        after: sheet.text(),
        bond: Bond::Same,
    }
}

#[cfg(test)]
mod tests {
    use super::*;

    #[test]
    fn what_came_of_the_hours() {
        let came = |said, make: fn(&mut Sheet)| {
            let mut sheet = sheet(&mut Rng::new(1, 1), said);
            make(&mut sheet);
            let text = sheet.text();
            outcome(&text, &second::import_text(&text)).unwrap_or_default()
        };
        assert_eq!(came(None, |_| ()), "no hours said: paid");
        assert_eq!(came(Some(25), |_| ()), "hours=25: paid");
        let more = |sheet: &mut Sheet| sheet.lines.push(Vec::new());
        assert_eq!(came(Some(23), more), "hours=23: surplus");
        let wrong = |sheet: &mut Sheet| sheet.lines[0].push(b'x');
        assert_eq!(came(Some(24), wrong), "");
        assert_eq!(
            outcome(b"import=1 cts=0\n\n", "refused=3 hour=23 at=1\n").as_deref(),
            Some("no hours said: last hour refused=3 at=1")
        );
    }

    #[test]
    fn hours_stand_at_the_end_of_the_first_line_alone() {
        for turn in 0..13 {
            let text = hours_elsewhere(&mut Rng::new(1, turn as u64), turn);
            let answer = second::import_text(&text);
            let start = match turn {
                0..=7 | 11 => "refused=1 hour=- at=1\n",
                8 | 9 => "refused=1 hour=- at=2\n",
                10 => "refused=1 hour=0 at=1\n",
                _ => "import=",
            };
            assert!(answer.starts_with(start), "{turn}: {answer}");
        }
    }
}

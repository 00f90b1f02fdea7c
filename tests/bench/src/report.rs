//! The figures as a page: ratios first, absolute figures second.

use std::fmt;

use second::day::HOURS;

use crate::moves::{self, Moves};
use crate::programs::Program;
use crate::timing::{Growth, COUNTS};

/// Everything that was measured.
pub struct Report {
    /// The kind of machine.
    pub machine: String,
    /// How many different hour blocks there are of a plant, and as many of a
    /// controllable line.
    pub hours: usize,
    /// How many bytes the first day of a controllable line has.
    pub line_bytes: usize,
    /// How many bytes the blocks of 1 to 1,000 sheets have.
    pub bytes: [usize; COUNTS.len()],
    /// The block call over these blocks.
    pub blocks: Vec<Growth>,
    /// The programs.
    pub programs: Vec<Program>,
    /// Those that move a sheet to the other form.
    pub moves: Moves,
}

const HEAD: &str = "\
# Benchmark

`sh tests/bench/run` measures and writes this page. Ratios first: the absolute figures are this machine's.

The sheets are days of a plant, every hour of 30 intervals with two curves of 12 steps, all paid; of form 1, and where 25 hours
are named of form 2, with the same 24 hours and one more; each between the headers of two days of form 1. Those of `line` are days of an internal controllable line: 24 hours with
as many intervals and steps, all marked and each paid more than 0. Everything goes over the same bytes in the same run, built for
release and warmed, in turn and in several rounds; a figure is their median. The second program is the independent one of tests/second,
`wc -l` a yardstick that only counts lines. No time is judged anywhere.
";

/// A heading, a sentence, and the first lines of a table.
fn table(
    out: &mut fmt::Formatter<'_>,
    heading: &str,
    sentence: &str,
    columns: &[&str],
) -> fmt::Result {
    writeln!(out, "\n## {heading}\n\n{sentence}\n")?;
    writeln!(out, "| {} |", columns.join(" | "))?;
    writeln!(out, "|{}", "---|".repeat(columns.len()))
}

/// The median of the rounds, and in brackets the least and the greatest.
fn spread([least, median, most]: [f64; 3]) -> String {
    format!("{median:.2} ({least:.2} to {most:.2})")
}

/// Memory, if it could be seen.
fn kb(most: Option<u64>) -> String {
    most.map_or("-".into(), |most| format!("{most} kB"))
}

/// A line for each of three that went over the same bytes, `hours` of them in each sheet or run.
fn rate(
    out: &mut fmt::Formatter<'_>,
    names: [String; 3],
    last: &Growth,
    bytes: f64,
    hours: usize,
) -> fmt::Result {
    for (name, seconds) in names.into_iter().zip(last.seconds()) {
        let bytes = bytes / 1e6 / seconds;
        let hours = (last.count * hours) as f64 / seconds;
        writeln!(out, "| {name} | {bytes:.0} | {hours:.0} |")?;
    }
    Ok(())
}

impl fmt::Display for Report {
    fn fmt(&self, out: &mut fmt::Formatter<'_>) -> fmt::Result {
        let Report { machine, hours, .. } = self;
        let [plant, line] = [self.bytes[0], self.line_bytes].map(|bytes| bytes / HOURS);
        writeln!(out, "{HEAD}")?;
        writeln!(out, "- Machine: {machine}.")?;
        writeln!(
            out,
            "- Hours: {hours} different ones of some {plant} bytes, and as many of `line` of some {line}; longer runs go over them again."
        )?;
        self.ratios(out)?;
        self.rates(out)?;
        self.growth(out)?;
        self.memory(out)?;
        self.moves(out)
    }
}

impl Report {
    /// Each thing that grows, and its name.
    fn all(&self) -> Vec<(String, &[Growth])> {
        let blocks = ("block call, sheets".to_string(), &self.blocks[..]);
        let name = |p: &Program| format!("program {}, runs", p.name);
        let programs = self.programs.iter();
        let programs = programs.map(|p| (name(p), &p.growth[..]));
        [blocks].into_iter().chain(programs).collect()
    }

    fn ratios(&self, out: &mut fmt::Formatter<'_>) -> fmt::Result {
        let heading = "How many times as fast the proved one is";
        let sentence = "By bytes and by hours alike, since both go over the same ones. In brackets the least and the greatest of the rounds.";
        let columns = ["What", "how many", "as the second program", "as `wc -l`"];
        table(out, heading, sentence, &columns)?;
        for (name, growth) in self.all() {
            for growth in growth {
                let [second, wc] = [1, 2].map(|other| spread(growth.ratio(0, other)));
                writeln!(out, "| {name} | {} | {second} | {wc} |", growth.count)?;
            }
        }
        Ok(())
    }

    /// Bytes and hours per second over the most sheets and runs.
    fn rates(&self, out: &mut fmt::Formatter<'_>) -> fmt::Result {
        let sentence = "Over the most sheets and runs. A program's run begins with its start, which is most of the time of a short text.";
        let columns = ["What", "MB per second", "hours per second"];
        table(out, "Bytes and hours per second", sentence, &columns)?;
        if let (Some(last), Some(&bytes)) = (self.blocks.last(), self.bytes.last()) {
            let names = [
                "block call, proved, through the static library",
                "block call, second program, in process",
                "`wc -l` on a file of the same blocks",
            ];
            rate(out, names.map(String::from), last, bytes as f64, HOURS)?;
        }
        for program in &self.programs {
            let Program { name, hours, .. } = program;
            if let Some(last) = program.growth.last() {
                let names = [
                    format!("program {name}"),
                    format!("second program's {name}"),
                    format!("`wc -l` on the texts of {name}"),
                ];
                rate(out, names, last, program.all_bytes as f64, *hours)?;
            }
        }
        Ok(())
    }

    fn growth(&self, out: &mut fmt::Formatter<'_>) -> fmt::Result {
        let heading = "Growth: microseconds for each sheet or run";
        let sentence = "A sheet is 24 calls in one process, a run one process for one text. `wc -l` is a process everywhere, its start included.";
        let columns = ["What", "how many", "proved", "second program", "`wc -l`"];
        table(out, heading, sentence, &columns)?;
        for (name, growth) in self.all() {
            for growth in growth {
                let count = growth.count;
                let each = |seconds: f64| format!("{:.0}", seconds * 1e6 / count as f64);
                let each = growth.seconds().map(each).join(" | ");
                writeln!(out, "| {name} | {count} | {each} |")?;
            }
        }
        Ok(())
    }

    fn memory(&self, out: &mut fmt::Formatter<'_>) -> fmt::Result {
        let sentence = "Resident, as the system gives it when the first line is printed.";
        let columns = [
            "Program",
            "bytes of its text",
            "proved",
            "second program",
            "`wc -l`",
        ];
        table(out, "The most memory of a run", sentence, &columns)?;
        for Program {
            name,
            bytes,
            memory,
            ..
        } in &self.programs
        {
            writeln!(out, "| {name} | {bytes} | {} |", memory.map(kb).join(" | "))?;
        }
        Ok(())
    }

    /// A sheet that goes to the other form.
    fn moves(&self, out: &mut fmt::Formatter<'_>) -> fmt::Result {
        let Moves {
            bytes,
            growth,
            memory,
        } = &self.moves;
        let heading = "A long sheet that moves to the other form";
        let sentence = format!(
            "A sheet of {:.0} MB from a file, through a pipe to a reader that throws it away. `cat` looks at nothing, `up` and `down` at the header\n\
             alone. In brackets the least and the greatest of the rounds. The memory is resident, as the system gives it shortly before the end.",
            *bytes as f64 / 1e6
        );
        let columns = [
            "Program",
            "how many times as fast as `cat`",
            "MB per second",
            "most memory",
        ];
        table(out, heading, &sentence, &columns)?;
        let seconds = growth.seconds();
        for (i, name) in moves::NAMES.into_iter().enumerate() {
            let ratio = spread(growth.ratio(i, moves::CAT));
            let rate = *bytes as f64 / 1e6 / seconds[i];
            let memory = kb(memory[i]);
            writeln!(out, "| `{name}` | {ratio} | {rate:.0} | {memory} |")?;
        }
        Ok(())
    }
}

//! Compares the proved library, called in process, with the second program.

use std::process::ExitCode;
use std::time::Instant;
use std::{fmt::Write as _, io, io::Write as _};

use compare::arguments::Arguments;
use compare::tally::{shown, write_failure, Tally, ENOUGH};
use library::call::{Call, Outcome};
use library::export::{Export, EXPORTS};
use library::reached::{AtEnd, Reached};
use second::{Run, Way};

const USAGE: &str = "\
library [--seed N] [--count M] [--only INDEX] [--all] [--out DIR]
library --show INDEX [--seed N]

Makes M blocks of units and M of internal controllable lines from the seed,
lends each one to the proved library and to the second program, with a row that
is too short, exact or too long, and compares the reply, the numbers and every
entry of the row. A call that fails is written to DIR, target/compare without
--out. --only compares the two calls of one index, --show prints what they
lend. --all counts every event that was reached. The exit status is 1 if
anything failed or if a wanted event was never reached.
";

fn main() -> ExitCode {
    let arguments = Arguments::of(std::env::args().skip(1));
    let Some(arguments) =
        arguments.filter(|a| a.bin.is_none() && a.back.is_none() && a.pairs.is_none())
    else {
        eprint!("{USAGE}");
        return ExitCode::from(2);
    };
    let done = match arguments.show {
        Some(index) => show(arguments.seed, index).map(|()| 0),
        None => compare_all(&arguments).map(|tally| tally.failed),
    };
    match done {
        Ok(0) => ExitCode::SUCCESS,
        Ok(_) => ExitCode::from(1),
        Err(error) => {
            eprintln!("library: {error}");
            ExitCode::from(2)
        }
    }
}

fn show(seed: u64, index: usize) -> io::Result<()> {
    let mut out = io::stdout().lock();
    for export in EXPORTS {
        let call = Call::new(export, seed, index);
        write!(out, "{call}")?;
        out.write_all(&shown(call.text()))?;
    }
    Ok(())
}

fn compare_all(arguments: &Arguments) -> io::Result<Tally> {
    let mut sum = Tally::default();
    for export in EXPORTS {
        sum.add(compare_one(export, arguments)?);
    }
    sum.end();
    Ok(sum)
}

fn compare_one(export: &'static Export, arguments: &Arguments) -> io::Result<Tally> {
    let start = Instant::now();
    let cases = arguments.cases();
    let mut tally = Tally::default();
    let mut reached = Reached::default();
    let mut run = Run::new(Way::Steps);
    for index in cases.clone() {
        if tally.failed >= ENOUGH {
            break;
        }
        let call = Call::new(export, arguments.seed, index);
        let (second, archive) = (call.of_second(&mut run), call.of_archive());
        tally.count(call.recipe, second.number != 0);
        reached.note(call.answered(second.number), call.at_end(second.number));
        let failure =
            (second != archive).then(|| write(arguments, index, &call, &second, &archive));
        tally.compared(failure.transpose()?);
    }
    tally.trace = run.trace;
    let seconds = start.elapsed().as_secs_f64();
    println!("{}: {} calls in {seconds:.1} s", export.name, cases.len());
    println!("seed {}", arguments.seed);
    tally.report(arguments.all);
    reached.report();
    let done = tally.passed + tally.failed;
    if done < cases.len() {
        println!("stopped after {done} of {}", cases.len());
    } else if arguments.only.is_none() {
        let answers = (export.answers)();
        tally.judge_events(&(export.wanted)());
        tally.judge("answers", answers.len(), &reached.missing(&answers));
        tally.judge("last hours", AtEnd::all().len(), &reached.missing_at_end());
    }
    Ok(tally)
}

/// Writes a call that failed to its file and gives a line about it.
fn write(
    arguments: &Arguments,
    index: usize,
    call: &Call,
    second: &Outcome,
    archive: &Outcome,
) -> io::Result<String> {
    let (name, seed, recipe) = (call.export.name, arguments.seed, call.recipe);
    let mut about = format!("library of seed {seed}\nmade as: {recipe}\nindex: {index}\n");
    // Appending to a string cannot fail.
    let _ = writeln!(about, "\n--- what is lent\n{call}");
    let _ = writeln!(about, "--- the second program's answer\n{second:?}\n");
    let _ = writeln!(about, "--- the library's answer\n{archive:?}\n");
    let mut file = about.into_bytes();
    file.extend(shown(call.text()));
    let name = format!("failing-library-{name}-{seed}-{index}.txt");
    let path = write_failure(&arguments.out, &name, &file)?;
    let difference = difference(second, archive);
    Ok(format!("{} ({recipe}): {difference}", path.display()))
}

/// The first part of the answers that differs.
fn difference(second: &Outcome, archive: &Outcome) -> String {
    if (second.number, second.numbers) != (archive.number, archive.numbers) {
        let told = |of: &Outcome| format!("{} with {:?}", of.number, of.numbers);
        return format!(
            "second says {}, library says {}",
            told(second),
            told(archive)
        );
    }
    let pairs = second.entries.iter().zip(&archive.entries).enumerate();
    let mut apart = pairs.filter(|(_, (second, archive))| second != archive);
    match apart.next() {
        Some((at, (second, archive))) => {
            format!("entry {at}: second has {second}, library has {archive}")
        }
        None => "rows of different lengths".to_string(),
    }
}

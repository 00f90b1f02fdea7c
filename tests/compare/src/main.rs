//! Compares a program with the second program on generated texts.

use std::io::Write;
use std::process::ExitCode;

use compare::arguments::Arguments;
use compare::plan::Program;
use compare::run::Job;
use compare::PROGRAMS;

const USAGE: &str = "\
compare hour|day|import|line --bin PATH [--seed N] [--count M] [--pairs K]
        [--threads T] [--only INDEX] [--all] [--out DIR]
compare up|down --bin PATH [--back PATH] [--seed N] [--count M]
        [--threads T] [--only INDEX] [--all] [--out DIR]
compare hour|day|import|line|up|down --show INDEX [--seed N]

Makes M texts and K pairs of texts (a tenth of M without --pairs) from the
seed, hands each one to the program PATH and compares what it writes, on both
of its outputs, with the second program. What `up` or `down` has moved goes to
the other one of them, named by --back, and has to come back as it was. A text
that fails is written to DIR, target/compare without --out. --only compares the
text of one index, --show prints it. --all counts every event that was reached.
The exit status is 1 if anything failed or if a wanted event was never reached,
which takes some 3000 texts.
";

fn show(program: &Program, seed: u64, index: usize) -> ExitCode {
    let text = program.case(seed, index).text;
    match std::io::stdout().lock().write_all(&text) {
        Ok(()) => ExitCode::SUCCESS,
        Err(_) => ExitCode::FAILURE,
    }
}

/// The program that is compared, and the options.
fn told(mut given: impl Iterator<Item = String>) -> Option<(&'static Program, Arguments)> {
    let name = given.next()?;
    let program = PROGRAMS.into_iter().find(|program| program.name == name)?;
    let arguments = Arguments::of(given)?;
    let asks = arguments.bin.is_some() || arguments.show.is_some();
    let has_pairs = arguments.pairs.is_none() || program.pair.is_some();
    let has_back = arguments.back.is_none() || program.back.is_some();
    (asks && has_pairs && has_back).then_some((program, arguments))
}

fn main() -> ExitCode {
    let Some((program, arguments)) = told(std::env::args().skip(1)) else {
        eprint!("{USAGE}");
        return ExitCode::from(2);
    };
    if let Some(index) = arguments.show {
        return show(program, arguments.seed, index);
    }
    let cases = arguments.cases();
    let bin = arguments.bin.unwrap_or_default();
    let pairs = arguments.pairs.unwrap_or(arguments.count / 10);
    let pairs = match program.pair {
        Some(_) if arguments.only.is_none() => pairs,
        _ => 0,
    };
    let job = Job {
        program,
        bin: &bin,
        back: arguments.back.as_deref(),
        seed: arguments.seed,
        cases,
        pairs: 0..pairs,
        threads: arguments.threads,
        out: arguments.out,
        judge_events: arguments.only.is_none(),
        all_events: arguments.all,
    };
    match job.run() {
        Ok(tally) if tally.failed == 0 => ExitCode::SUCCESS,
        Ok(_) => ExitCode::from(1),
        Err(error) => {
            eprintln!("compare: {error}");
            ExitCode::from(2)
        }
    }
}

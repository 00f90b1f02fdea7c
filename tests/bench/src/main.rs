//! Measures the proved library and programs beside the second program,
//! `wc -l` and `cat`, on the same sheets in one run. No time is judged.

mod blocks;
mod machine;
mod moves;
mod programs;
mod report;
mod sheets;
mod timing;

use std::path::{Path, PathBuf};
use std::process::ExitCode;
use std::{fs, io};

use report::Report;
use sheets::Sheets;
use timing::COUNTS;

/// How many sheets there are. A longer run goes over them again.
const SHEETS: usize = 50;

/// The repository's folder.
fn root() -> PathBuf {
    Path::new(env!("CARGO_MANIFEST_DIR")).join("../..")
}

fn measure() -> io::Result<Report> {
    let machine = machine::kind();
    let root = root().canonicalize()?;
    let folder = root.join("target/bench");
    fs::create_dir_all(&folder)?;
    let sheets = Sheets::new(SHEETS);
    let files = sheets.write(&folder)?;
    Ok(Report {
        machine,
        hours: sheets.blocks.len(),
        line_bytes: sheets.lines[0].len(),
        bytes: COUNTS.map(|count| sheets.bytes_of(count)),
        blocks: blocks::measure(&sheets, &folder)?,
        programs: programs::measure(&root, &files)?,
        moves: moves::measure(&root, &sheets, &folder)?,
    })
}

fn main() -> ExitCode {
    let out = match std::env::args_os().nth(1) {
        Some(path) => path.into(),
        None => root().join("docs/BENCHMARK.md"),
    };
    let done = measure().and_then(|report| {
        let text = report.to_string();
        print!("{text}");
        fs::write(&out, text)
    });
    match done {
        Ok(()) => ExitCode::SUCCESS,
        Err(error) => {
            eprintln!("bench: {error}");
            ExitCode::FAILURE
        }
    }
}

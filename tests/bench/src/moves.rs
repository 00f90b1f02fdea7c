//! The programs that move a sheet to the other form, beside `cat`: one long
//! sheet, from a file through a pipe to a reader.

use std::fmt;
use std::fs::{self, File};
use std::io::{self, Read};
use std::path::{Path, PathBuf};
use std::process::{Child, ChildStdout, Command, Stdio};

use second::day::HOURS;
use second::Header;

use crate::programs::{peak, wait_asleep};
use crate::sheets::Sheets;
use crate::timing::{in_turn, Growth};

/// What is measured, in this order.
pub const NAMES: [&str; 3] = ["up", "down", "cat"];

/// The place of `cat` among them.
pub const CAT: usize = 2;

/// How many bytes the sheet has at least.
const LONG: usize = 100_000_000;

/// How many rounds are run.
const ROUNDS: usize = 15;

/// Bytes that are left unread while its memory is seen: more than a pipe holds.
const BEHIND: u64 = 4 << 20;

/// `up`, `down` and `cat` over the same sheet.
pub struct Moves {
    /// How many bytes it has in form 1.
    pub bytes: u64,
    /// Of each round: `up`, `down` and `cat`.
    pub growth: Growth,
    /// The most memory of each, in kB; none where it could not be seen.
    pub memory: [Option<u64>; 3],
}

/// A program, the file that it reads, and what it has to write.
struct Run<'a> {
    program: PathBuf,
    file: &'a Path,
    text: &'a [u8],
}

/// Measures them. What is not moved as it should be is an error.
pub fn measure(root: &Path, sheets: &Sheets, folder: &Path) -> io::Result<Moves> {
    let headers = [Header::default(), Header::counted(HOURS)];
    let texts = headers.map(|header| long_sheet(&header, sheets));
    let files = [folder.join("form-1"), folder.join("form-2")];
    for (file, text) in files.iter().zip(&texts) {
        fs::write(file, text)?;
    }
    let bin = root.join("target/bin");
    let run = |program: PathBuf, from: usize, to: usize| Run {
        program,
        file: &files[from],
        text: &texts[to],
    };
    let [up, down, cat] = NAMES;
    let runs = [
        run(bin.join(up), 0, 1),
        run(bin.join(down), 1, 0),
        run(cat.into(), 0, 0),
    ];
    let mut memory = [None; 3];
    for (run, most) in runs.iter().zip(&mut memory) {
        // A program that cannot be run fails here, before any time is taken.
        run.check()?;
        *most = run.most_memory()?;
    }
    let all = |i: usize| _ = runs[i].through(|out, _| throw_away(out));
    let rounds = in_turn(ROUNDS, [&mut || all(0), &mut || all(1), &mut || all(CAT)]);
    for file in &files {
        fs::remove_file(file)?;
    }
    Ok(Moves {
        bytes: texts[0].len() as u64,
        growth: Growth { count: 1, rounds },
        memory,
    })
}

/// A header, and hours behind it until the sheet is long.
fn long_sheet(header: &Header, sheets: &Sheets) -> Vec<u8> {
    let mut text = header.to_text().into_bytes();
    for block in sheets.blocks.iter().cycle() {
        text.extend_from_slice(block);
        if text.len() >= LONG {
            break;
        }
    }
    text
}

impl Run<'_> {
    /// Runs it once. What it writes goes through a pipe to this reader, which
    /// is told the program, too.
    fn through(
        &self,
        read: impl FnOnce(&mut ChildStdout, &Child) -> io::Result<()>,
    ) -> io::Result<()> {
        let mut command = Command::new(&self.program);
        command.stdin(File::open(self.file)?).stdout(Stdio::piped());
        let mut child = command.spawn().map_err(|error| self.failed(error))?;
        if let Some(mut out) = child.stdout.take() {
            read(&mut out, &child)?;
        }
        let status = child.wait()?;
        match status.success() {
            true => Ok(()),
            false => Err(self.failed(status)),
        }
    }

    fn failed(&self, why: impl fmt::Display) -> io::Error {
        io::Error::other(format!("{}: {why}", self.program.display()))
    }

    /// Whether it writes what it has to.
    fn check(&self) -> io::Result<()> {
        let mut text = Vec::with_capacity(self.text.len());
        self.through(|out, _| out.read_to_end(&mut text).map(drop))?;
        match text == self.text {
            true => Ok(()),
            false => Err(self.failed("it does not write the moved sheet")),
        }
    }

    /// The most memory that it had in kB, seen while it waits to write the last
    /// of its bytes.
    fn most_memory(&self) -> io::Result<Option<u64>> {
        let most_of_them = (self.text.len() as u64).saturating_sub(BEHIND);
        let mut most = None;
        self.through(|out, child| {
            io::copy(&mut out.take(most_of_them), &mut io::sink())?;
            most = wait_asleep(child)?.and_then(|()| peak(child));
            throw_away(out)
        })?;
        Ok(most)
    }
}

/// Reads to the end, in a buffer as long as a pipe.
fn throw_away(out: &mut ChildStdout) -> io::Result<()> {
    let mut buffer = vec![0; 1 << 16];
    while out.read(&mut buffer)? > 0 {}
    Ok(())
}

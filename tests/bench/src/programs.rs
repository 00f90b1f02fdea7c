//! The programs: one run for each sheet, as the market's morning has them.

use std::fs::{self, File};
use std::io::{self, ErrorKind, Read, Write};
use std::os::fd::OwnedFd;
use std::os::unix::net::UnixStream;
use std::path::{Path, PathBuf};
use std::process::{Child, Command, Stdio};
use std::thread::sleep;
use std::time::{Duration, Instant};

use second::day::HOURS;

use crate::sheets::{Files, LONGEST};
use crate::timing::{alternate, Growth, COUNTS};

/// A program beside its second and beside `wc -l`, on the same files.
pub struct Program {
    /// Its name, and which texts it has if not the usual ones.
    pub name: &'static str,
    /// How many bytes the first of its files has.
    pub bytes: u64,
    /// How many hours one of its texts has.
    pub hours: usize,
    /// How many bytes its files have together over the most runs.
    pub all_bytes: u64,
    /// Over 1 to 1,000 runs.
    pub growth: Vec<Growth>,
    /// The most memory of each, in kB; none where it could not be seen.
    pub memory: [Option<u64>; 3],
}

/// Runs a program on a file.
pub fn run(program: &Path, arguments: &[&str], file: &Path) -> io::Result<()> {
    let mut command = Command::new(program);
    command.args(arguments).stdin(File::open(file)?);
    let status = command.stdout(Stdio::null()).status()?;
    match status.success() {
        true => Ok(()),
        false => Err(io::Error::other(format!("{}: {status}", program.display()))),
    }
}

/// Measures the programs. One that is not built is an error, and not left out.
pub fn measure(root: &Path, files: &Files) -> io::Result<Vec<Program>> {
    let mut programs = Vec::new();
    for (name, program, hours, files) in [
        ("`hour`", "hour", 1, &files.blocks),
        ("`day`", "day", HOURS, &files.days),
        ("`day`, 25 hours", "day", LONGEST, &files.long_days),
        ("`line`", "line", HOURS, &files.lines),
    ] {
        let bin = root.join("target/bin").join(program);
        let second = root.join("tests/second/target/release");
        let second = second.join(format!("{program}2"));
        for file in [&bin, &second] {
            if !file.is_file() {
                return Err(io::Error::other(format!("no program {}", file.display())));
            }
        }
        let bins = [&bin, &second, &PathBuf::from("wc")];
        programs.push(of(name, hours, bins, files)?);
    }
    Ok(programs)
}

fn of(
    name: &'static str,
    hours: usize,
    bins: [&PathBuf; 3],
    files: &[PathBuf],
) -> io::Result<Program> {
    let arguments: [&[&str]; 3] = [&[], &[], &["-l"]];
    let mut memory = [None; 3];
    for (i, most) in memory.iter_mut().enumerate() {
        // A program that cannot be run fails here, before any time is taken.
        run(bins[i], arguments[i], &files[0])?;
        *most = most_memory(bins[i], arguments[i], &files[0])?;
    }
    let growth = COUNTS.map(|count| {
        let all = |i: usize| {
            for file in files.iter().cycle().take(count) {
                let _ = run(bins[i], arguments[i], file);
            }
        };
        alternate(count, [&mut || all(0), &mut || all(1), &mut || all(2)])
    });
    let mut all_bytes = 0;
    for file in files.iter().cycle().take(COUNTS[COUNTS.len() - 1]) {
        all_bytes += fs::metadata(file)?.len();
    }
    Ok(Program {
        name,
        bytes: fs::metadata(&files[0])?.len(),
        hours,
        all_bytes,
        growth: growth.into(),
        memory,
    })
}

/// The most memory that a program had in kB, seen while it waits to print.
fn most_memory(program: &Path, arguments: &[&str], file: &Path) -> io::Result<Option<u64>> {
    let (mut ours, theirs) = full_stream()?;
    let mut command = Command::new(program);
    command.args(arguments).stdin(File::open(file)?);
    let mut child = command.stdout(OwnedFd::from(theirs)).spawn()?;
    // The command holds the other end open, and the child is to be the last.
    drop(command);
    let most = wait_asleep(&child)?.and_then(|()| peak(&child));
    io::copy(&mut ours, &mut io::sink())?;
    child.wait()?;
    Ok(most)
}

/// A stream that takes no byte before it is read.
fn full_stream() -> io::Result<(UnixStream, UnixStream)> {
    let (ours, mut theirs) = UnixStream::pair()?;
    theirs.set_nonblocking(true)?;
    let fill = loop {
        if let Err(error) = theirs.write_all(&[0; 4096]) {
            break error;
        }
    };
    theirs.set_nonblocking(false)?;
    match fill.kind() {
        ErrorKind::WouldBlock => Ok((ours, theirs)),
        _ => Err(fill),
    }
}

/// Waits until the child sleeps: its input is a file, so it can only wait to
/// print. None if it does not come to that.
pub fn wait_asleep(child: &Child) -> io::Result<Option<()>> {
    let until = Instant::now() + Duration::from_secs(5);
    while Instant::now() < until {
        sleep(Duration::from_millis(20));
        let mut stat = String::new();
        File::open(format!("/proc/{}/stat", child.id()))?.read_to_string(&mut stat)?;
        let state = stat
            .rsplit(") ")
            .next()
            .and_then(|rest| rest.chars().next());
        match state {
            Some('S') => return Ok(Some(())),
            Some('Z') | None => return Ok(None),
            _ => {}
        }
    }
    Ok(None)
}

/// The most memory that the child had until now, in kB.
pub fn peak(child: &Child) -> Option<u64> {
    let status = fs::read_to_string(format!("/proc/{}/status", child.id())).ok()?;
    let line = status.lines().find(|line| line.starts_with("VmHWM:"))?;
    line.split_whitespace().nth(1)?.parse().ok()
}

//! A program outside: a text goes to its standard input, and what it writes
//! and how it ends comes back.

use std::io::{self, Read, Write};
use std::path::Path;
use std::process::{Child, Command, ExitStatus, Stdio};
use std::sync::atomic::{AtomicBool, Ordering};
use std::sync::{Mutex, MutexGuard, PoisonError};
use std::thread::{self, sleep};
use std::time::{Duration, Instant};

/// How long a program may take for one text.
const LIMIT: Duration = Duration::from_secs(20);

/// How a text is handed over.
#[derive(Clone, Debug, Default, PartialEq, Eq)]
pub struct Manner {
    /// Whether the input stays open until the program has answered.
    pub held_open: bool,
    /// Where the text is cut into pieces that are written one by one.
    pub cuts: Vec<usize>,
}

/// What a program did with a text.
#[derive(Clone, Debug, PartialEq, Eq)]
pub struct Reply {
    /// What it printed.
    pub stdout: Vec<u8>,
    /// What it printed on standard error.
    pub stderr: Vec<u8>,
    /// How it ended; none if it was ended here, for it took too long.
    pub status: Option<ExitStatus>,
}

impl Reply {
    /// Whether the program ended normally and wrote this on its two outputs.
    pub fn is(&self, stdout: &[u8], stderr: &[u8]) -> bool {
        let normal = self.status.is_some_and(|status| status.success());
        normal && self.stdout == stdout && self.stderr == stderr
    }

    /// How it ended, in words.
    pub fn end(&self) -> String {
        match self.status {
            Some(status) => status.to_string(),
            None => format!("no end within {} seconds", LIMIT.as_secs()),
        }
    }
}

/// The programs that run now, one for each thread that asks.
pub struct Outside {
    slots: Vec<Mutex<Option<Running>>>,
    done: AtomicBool,
}

struct Running {
    child: Child,
    until: Instant,
    ended_here: bool,
}

impl Outside {
    /// For so many threads.
    pub fn new(threads: usize) -> Self {
        Outside {
            slots: (0..threads).map(|_| Mutex::new(None)).collect(),
            done: AtomicBool::new(false),
        }
    }

    /// Ends programs that take too long, until [`Outside::close`] is called.
    pub fn watch(&self) {
        while !self.done.load(Ordering::Relaxed) {
            for slot in 0..self.slots.len() {
                if let Some(running) = self.slot(slot).as_mut() {
                    if !running.ended_here && Instant::now() > running.until {
                        running.ended_here = true;
                        // It may have ended by itself just now.
                        let _ = running.child.kill();
                    }
                }
            }
            sleep(Duration::from_millis(50));
        }
    }

    /// Nothing more is asked.
    pub fn close(&self) {
        self.done.store(true, Ordering::Relaxed);
    }

    /// Runs a program on a text, for the thread of this slot.
    pub fn ask(
        &self,
        slot: usize,
        program: &Path,
        text: &[u8],
        manner: &Manner,
    ) -> io::Result<Reply> {
        let mut child = Command::new(program)
            .stdin(Stdio::piped())
            .stdout(Stdio::piped())
            .stderr(Stdio::piped())
            .spawn()
            .map_err(|error| {
                let what = format!("{}: {error}", program.display());
                io::Error::new(error.kind(), what)
            })?;
        let pipes = (child.stdin.take(), child.stdout.take(), child.stderr.take());
        *self.slot(slot) = Some(Running {
            child,
            until: Instant::now() + LIMIT,
            ended_here: false,
        });
        let (Some(mut stdin), Some(mut out), Some(mut err)) = pipes else {
            return Err(io::Error::other("a pipe is missing"));
        };
        let (mut stdout, mut stderr) = (Vec::new(), Vec::new());
        // A program that writes as it reads waits until it is read from, so
        // the text is handed over on the side.
        let status = thread::scope(|scope| {
            let held = scope.spawn(move || {
                // The program may have its answer before it has read everything.
                let _ = feed(&mut stdin, text, &manner.cuts);
                Some(stdin).filter(|_| manner.held_open)
            });
            out.read_to_end(&mut stdout)?;
            err.read_to_end(&mut stderr)?;
            let status = self.end(slot);
            drop(held.join());
            status
        })?;
        Ok(Reply {
            stdout,
            stderr,
            status,
        })
    }

    fn slot(&self, slot: usize) -> MutexGuard<'_, Option<Running>> {
        self.slots[slot]
            .lock()
            .unwrap_or_else(PoisonError::into_inner)
    }

    /// Waits for the end of a slot's program.
    fn end(&self, slot: usize) -> io::Result<Option<ExitStatus>> {
        loop {
            let mut running = self.slot(slot);
            let Some(now) = running.as_mut() else {
                return Ok(None);
            };
            if let Some(status) = now.child.try_wait()? {
                let by_itself = !now.ended_here;
                *running = None;
                return Ok(Some(status).filter(|_| by_itself));
            }
            drop(running);
            sleep(Duration::from_micros(50));
        }
    }
}

fn feed(stdin: &mut impl Write, text: &[u8], cuts: &[usize]) -> io::Result<()> {
    let mut from = 0;
    for to in cuts.iter().copied().chain([text.len()]) {
        if from < to && to <= text.len() {
            stdin.write_all(&text[from..to])?;
            from = to;
        }
    }
    Ok(())
}

#[cfg(test)]
mod tests {
    use super::*;

    fn ask(program: &str, text: &[u8], manner: &Manner) -> Reply {
        let outside = Outside::new(1);
        let reply = outside.ask(0, Path::new(program), text, manner);
        reply.expect("the program runs")
    }

    #[test]
    fn what_is_printed_comes_back() {
        let manner = Manner {
            held_open: false,
            cuts: vec![1, 1, 2, 9],
        };
        assert!(ask("cat", b"abc\n", &manner).is(b"abc\n", b""));
        assert!(!ask("cat", b"abc\n", &manner).is(b"abd\n", b""));
        assert!(!ask("cat", b"abc\n", &manner).is(b"abc\n", b"x"));
        assert!(!ask("false", b"", &manner).is(b"", b""));
    }

    #[test]
    fn a_program_may_write_while_it_reads() {
        let text = vec![b'x'; 1_000_000];
        let manner = Manner {
            held_open: false,
            cuts: vec![70_000, 500_000],
        };
        assert!(ask("cat", &text, &manner).is(&text, b""));
    }

    #[test]
    fn a_program_that_is_not_there_is_named() {
        let outside = Outside::new(1);
        let reply = outside.ask(0, Path::new("no/such"), b"", &Manner::default());
        let error = reply.expect_err("no program").to_string();
        assert!(error.starts_with("no/such: "), "{error}");
    }

    #[test]
    fn an_input_can_stay_open() {
        let manner = Manner {
            held_open: true,
            cuts: vec![],
        };
        assert!(ask("true", &[b'x'; 200_000], &manner).is(b"", b""));
    }
}

//! The comparison: every text goes to the program outside and to the second
//! program, and what they write has to be the same bytes.

use std::path::{Path, PathBuf};
use std::sync::atomic::{AtomicUsize, Ordering};
use std::time::Instant;
use std::{io, thread};

use second::{Run, Way};

use crate::answers::Answers;
use crate::outside::{Manner, Outside};
use crate::plan::Program;
use crate::random::Rng;
use crate::tally::{write_failure, Tally, ENOUGH};
use crate::written::Written;

/// A program that does not end in time counts for so many failures.
const SLOW_WEIGHT: usize = 10;

/// A text or a pair that failed.
struct Failure {
    /// A line about it.
    line: String,
    /// Whether the program ended by itself.
    in_time: bool,
}

/// What is compared.
pub struct Job<'a> {
    /// The kind of program.
    pub program: &'a Program,
    /// The program outside.
    pub bin: &'a Path,
    /// The one that has to undo what it does to a text, if that is asked.
    pub back: Option<&'a Path>,
    /// The seed of all texts.
    pub seed: u64,
    /// The indexes of the texts.
    pub cases: std::ops::Range<usize>,
    /// The indexes of the pairs of texts.
    pub pairs: std::ops::Range<usize>,
    /// How many programs run at once.
    pub threads: usize,
    /// Where failing texts are written.
    pub out: PathBuf,
    /// Whether everything wanted has to be reached.
    pub judge_events: bool,
    /// Whether the report gives every event.
    pub all_events: bool,
}

impl Job<'_> {
    /// Compares everything and prints a report; the last line counts what
    /// passed and what failed.
    pub fn run(&self) -> io::Result<Tally> {
        let start = Instant::now();
        let mut tally = self.all()?;
        let seconds = start.elapsed().as_secs_f64();
        let (cases, pairs) = (self.cases.len(), self.pairs.len());
        let name = self.program.name;
        println!("{name}: {cases} texts and {pairs} pairs in {seconds:.1} s");
        println!("seed {}, {} threads", self.seed, self.threads);
        tally.report(self.all_events);
        let done = tally.passed + tally.failed;
        if done < cases + pairs {
            println!("stopped after {done} of {}", cases + pairs);
        } else if self.judge_events {
            tally.judge_events(&(self.program.wanted)());
            tally.judge_outcomes(&(self.program.outcomes)());
        }
        tally.end();
        Ok(tally)
    }

    fn all(&self) -> io::Result<Tally> {
        let next = AtomicUsize::new(0);
        let failed = AtomicUsize::new(0);
        let outside = Outside::new(self.threads);
        let work = |slot| self.work(slot, &outside, &next, &failed);
        let parts: Vec<_> = thread::scope(|scope| {
            scope.spawn(|| outside.watch());
            let work = &work;
            let workers: Vec<_> = (0..self.threads)
                .map(|slot| scope.spawn(move || work(slot)))
                .collect();
            let parts = workers.into_iter().map(|worker| worker.join()).collect();
            outside.close();
            parts
        });
        let mut tally = Tally::default();
        for part in parts {
            tally.add(part.expect("a worker does not panic")?);
        }
        Ok(tally)
    }

    /// One thread's share: texts first, then pairs.
    fn work(
        &self,
        slot: usize,
        outside: &Outside,
        next: &AtomicUsize,
        failed: &AtomicUsize,
    ) -> io::Result<Tally> {
        let mut tally = Tally::default();
        let mut asker = Asker {
            job: self,
            slot,
            outside,
            run: Run::new(Way::Steps),
        };
        while failed.load(Ordering::Relaxed) < ENOUGH {
            let index = next.fetch_add(1, Ordering::Relaxed);
            let failure = if let Some(case) = self.cases.clone().nth(index) {
                asker.case(case, &mut tally)?
            } else if let Some(pair) = self.pairs.clone().nth(index - self.cases.len()) {
                asker.pair(pair)?
            } else {
                break;
            };
            if let Some(failure) = &failure {
                let weight = if failure.in_time { 1 } else { SLOW_WEIGHT };
                failed.fetch_add(weight, Ordering::Relaxed);
            }
            tally.compared(failure.map(|failure| failure.line));
        }
        tally.trace = asker.run.trace;
        Ok(tally)
    }

    /// How a text is handed over: in one piece or in several, and sometimes
    /// with an end that does not come before the answer.
    fn manner(&self, text: &[u8], index: usize) -> Manner {
        let mut rng = Rng::new(self.seed ^ 0x5eed, index as u64);
        let closed = text.starts_with(b"\n") || text.windows(2).any(|two| two == b"\n\n");
        let mut cuts: Vec<usize> = (0..rng.below(4))
            .map(|_| rng.below(text.len() + 1))
            .collect();
        cuts.sort_unstable();
        Manner {
            held_open: self.program.ends_at_empty_line && closed && rng.once_in(3),
            cuts,
        }
    }
}

/// What one thread asks with.
struct Asker<'a> {
    job: &'a Job<'a>,
    slot: usize,
    outside: &'a Outside,
    run: Run,
}

impl Asker<'_> {
    fn answers(&mut self, text: Vec<u8>, index: usize) -> io::Result<Answers> {
        let manner = self.job.manner(&text, index);
        let second = (self.job.program.answer)(&text, &mut self.run);
        let reply = self.outside.ask(self.slot, self.job.bin, &text, &manner)?;
        Ok(Answers {
            text,
            manner,
            second,
            reply,
        })
    }

    /// Compares a text; the failure, if there is one.
    fn case(&mut self, index: usize, tally: &mut Tally) -> io::Result<Option<Failure>> {
        let case = self.job.program.case(self.job.seed, index);
        let answers = self.answers(case.text, index)?;
        let said = answers.second.said();
        tally.count(case.recipe, said.contains("refused="));
        if let Some(outcome) = (self.job.program.outcome)(&answers.text, said) {
            tally.count_outcome(outcome);
        }
        let mut all = vec![answers];
        if all[0].agree() {
            all.extend(self.back(&all[0], index, tally)?);
        }
        if all.iter().all(Answers::agree) {
            return Ok(None);
        }
        let name = format!("failing-{}{}-{index}.txt", self.prefix(), self.job.seed);
        let made = match self.job.program.back.filter(|_| all.len() > 1) {
            Some(back) => format!("{}, and back by {back}", case.recipe),
            None => case.recipe.to_string(),
        };
        let about = format!("index: {index}\n");
        self.write(&name, &made, &about, &all).map(Some)
    }

    /// What the program moved, handed to the one that undoes it: the text from
    /// before has to come back.
    fn back(
        &self,
        moved: &Answers,
        index: usize,
        tally: &mut Tally,
    ) -> io::Result<Option<Answers>> {
        let (Some(bin), Written::Text(text)) = (self.job.back, &moved.second) else {
            return Ok(None);
        };
        tally.backs += 1;
        let manner = self.job.manner(text, index);
        let reply = self.outside.ask(self.slot, bin, text, &manner)?;
        Ok(Some(Answers {
            text: text.clone(),
            manner,
            second: Written::Text(moved.text.clone()),
            reply,
        }))
    }

    /// Compares a pair: both texts, and the bond between the answers of each
    /// program.
    fn pair(&mut self, index: usize) -> io::Result<Option<Failure>> {
        let Some(pair) = self.job.program.pair(self.job.seed, index) else {
            return Ok(None);
        };
        // What pairs reach is not counted: the texts have to do it alone.
        let trace = std::mem::replace(&mut self.run.trace, second::Trace::off());
        let answers = self.answers(pair.before, index);
        let answers = answers.and_then(|before| Ok((before, self.answers(pair.after, index)?)));
        self.run.trace = trace;
        let (before, after) = answers?;
        let (printed, then) = (&before.reply.stdout, &after.reply.stdout);
        let outside = match (std::str::from_utf8(printed), std::str::from_utf8(then)) {
            (Ok(printed), Ok(then)) => pair.bond.holds(printed, then),
            _ => false,
        };
        let second = pair.bond.holds(before.second.said(), after.second.said());
        if before.agree() && after.agree() && outside && second {
            return Ok(None);
        }
        let name = format!(
            "failing-{}{}-pair-{index}.txt",
            self.prefix(),
            self.job.seed
        );
        let about = format!(
            "index of the pair: {index}\nthe answers should be bound so: {:?}\nof the second program they are: {second}\nof the program outside they are: {outside}\n",
            pair.bond
        );
        self.write(&name, pair.name, &about, &[before, after])
            .map(Some)
    }

    fn prefix(&self) -> String {
        match self.job.program.name {
            "hour" => String::new(),
            name => format!("{name}-"),
        }
    }

    /// Writes a failure to its file and gives a line about it.
    fn write(&self, name: &str, recipe: &str, about: &str, all: &[Answers]) -> io::Result<Failure> {
        let mut file = format!(
            "{} of seed {}\nmade as: {recipe}\n{about}",
            self.job.program.name, self.job.seed
        )
        .into_bytes();
        for answers in all {
            file.extend(answers.describe());
        }
        let path = write_failure(&self.job.out, name, &file)?;
        let differs = all.iter().find(|answers| !answers.agree());
        let line = differs.map_or("bond broken".to_string(), Answers::difference);
        Ok(Failure {
            line: format!("{} ({recipe}): {line}", path.display()),
            in_time: all.iter().all(|answers| answers.reply.status.is_some()),
        })
    }
}

//! What came of a comparison: what passed and what failed, what each recipe
//! made, and what was reached.

use std::collections::BTreeMap;
use std::fmt::Debug;
use std::path::{Path, PathBuf};
use std::{fs, io};

use second::{Event, MidnightEvent, Trace};

/// After so many failures a run is stopped.
pub const ENOUGH: usize = 50;

/// What came of a comparison.
#[derive(Default)]
pub struct Tally {
    /// Texts, pairs, calls and wanted events that passed.
    pub passed: usize,
    /// Those that failed.
    pub failed: usize,
    /// What the second program noted on the way.
    pub trace: Trace,
    /// Texts that were moved and handed to the program that undoes it.
    pub backs: usize,
    /// Of each recipe: texts without a refusal, and with one.
    recipes: BTreeMap<&'static str, [usize; 2]>,
    /// What texts said of their hours, and what came of them.
    outcomes: BTreeMap<String, usize>,
    failures: Vec<String>,
}

impl Tally {
    /// Adds another tally to this one.
    pub fn add(&mut self, other: Tally) {
        self.passed += other.passed;
        self.failed += other.failed;
        self.backs += other.backs;
        for (recipe, counts) in other.recipes {
            let sum = self.recipes.entry(recipe).or_default();
            sum[0] += counts[0];
            sum[1] += counts[1];
        }
        for (outcome, count) in other.outcomes {
            *self.outcomes.entry(outcome).or_default() += count;
        }
        self.trace.add(&other.trace);
        self.failures.extend(other.failures);
    }

    /// Counts a text of a recipe.
    pub fn count(&mut self, recipe: &'static str, refused: bool) {
        self.recipes.entry(recipe).or_default()[usize::from(refused)] += 1;
    }

    /// Counts what a text said of its hours, and what came of them.
    pub fn count_outcome(&mut self, outcome: String) {
        *self.outcomes.entry(outcome).or_default() += 1;
    }

    /// Counts something that was compared, with a line about it if it failed.
    pub fn compared(&mut self, failure: Option<String>) {
        match failure {
            None => self.passed += 1,
            Some(line) => {
                self.failed += 1;
                self.failures.push(line);
            }
        }
    }

    /// Prints what the recipes made and what was reached.
    pub fn report(&self, all_events: bool) {
        for (recipe, [paid, refused]) in &self.recipes {
            println!("{recipe}: {paid} without a refusal, {refused} with one");
        }
        if self.backs > 0 {
            println!("handed on to come back: {} texts", self.backs);
        }
        for (outcome, count) in &self.outcomes {
            println!("came out {count} times: {outcome}");
        }
        for (event, count) in self.trace.events() {
            if all_events || is_counted(event) {
                println!("reached {count} times: {event:?}");
            }
        }
    }

    /// Judges whether the texts reached all of this.
    pub fn judge_events(&mut self, wanted: &[Event]) {
        let missing = self.trace.missing(wanted.iter().copied());
        self.judge("events", wanted.len(), &missing);
    }

    /// Judges whether the texts had all of these outcomes.
    pub fn judge_outcomes(&mut self, wanted: &[String]) {
        let missed = |outcome: &&String| !self.outcomes.contains_key(*outcome);
        let missing: Vec<&String> = wanted.iter().filter(missed).collect();
        self.judge("outcomes", wanted.len(), &missing);
    }

    /// Counts so many wanted things of a kind: those that were never reached
    /// fail.
    pub fn judge<T: Debug>(&mut self, kind: &str, wanted: usize, missing: &[T]) {
        let reached = wanted - missing.len();
        println!("{reached} of {wanted} wanted {kind} reached");
        for thing in missing {
            println!("never reached: {thing:?}");
        }
        self.passed += reached;
        self.failed += missing.len();
    }

    /// Prints every failure; the last line counts what passed and what failed.
    pub fn end(&self) {
        for failure in &self.failures {
            println!("failed: {failure}");
        }
        println!("{} passed, {} failed", self.passed, self.failed);
    }
}

/// Whether the report gives the event's count even if nobody asks for all.
fn is_counted(event: Event) -> bool {
    use Event::*;
    if let Midnight(event) = event {
        // Line by line in each of the three headers is too long a list.
        return !matches!(event, MidnightEvent::Refused(..));
    }
    matches!(
        event,
        Refused(..)
            | Limit(_)
            | Derate(_)
            | Point(_)
            | Lagging(_)
            | Excluded(_)
            | Import(_)
            | HourSum(_)
            | DayHours(_)
            | ImportHours(_)
            | Line(_)
    )
}

/// Writes a failure to its file in a folder, and gives the file's path.
pub fn write_failure(folder: &Path, name: &str, what: &[u8]) -> io::Result<PathBuf> {
    fs::create_dir_all(folder)?;
    let path = folder.join(name);
    fs::write(&path, what)?;
    Ok(path)
}

/// A text as a failure's file shows it.
pub fn shown(text: &[u8]) -> Vec<u8> {
    let mut bytes = format!("--- the text, {} bytes\n", text.len()).into_bytes();
    bytes.extend_from_slice(text);
    bytes.extend_from_slice(b"\n--- end of the text\n");
    bytes
}

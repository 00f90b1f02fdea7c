//! What a comparison is told on the command line.

use std::path::{Path, PathBuf};

/// The options, with what holds where one is not given.
pub struct Arguments {
    /// The program outside.
    pub bin: Option<PathBuf>,
    /// The one that undoes what it does.
    pub back: Option<PathBuf>,
    /// The seed of all texts.
    pub seed: u64,
    /// How many texts are made.
    pub count: usize,
    /// How many pairs of texts are made.
    pub pairs: Option<usize>,
    /// How many programs run at once.
    pub threads: usize,
    /// The one index that is compared.
    pub only: Option<usize>,
    /// The one index whose text is printed.
    pub show: Option<usize>,
    /// Whether the report gives every event.
    pub all: bool,
    /// Where failing texts are written.
    pub out: PathBuf,
}

impl Arguments {
    /// The options of a command line; none if one of them is not known.
    pub fn of(mut given: impl Iterator<Item = String>) -> Option<Self> {
        let mut arguments = Arguments {
            bin: None,
            back: None,
            seed: 1,
            count: 20_000,
            pairs: None,
            threads: 2,
            only: None,
            show: None,
            all: false,
            out: Path::new("target").join("compare"),
        };
        while let Some(name) = given.next() {
            if name == "--all" {
                arguments.all = true;
                continue;
            }
            let value = given.next()?;
            match name.as_str() {
                "--bin" => arguments.bin = Some(value.into()),
                "--back" => arguments.back = Some(value.into()),
                "--seed" => arguments.seed = value.parse().ok()?,
                "--count" => arguments.count = value.parse().ok()?,
                "--pairs" => arguments.pairs = Some(value.parse().ok()?),
                "--threads" => arguments.threads = value.parse().ok().filter(|n| *n > 0)?,
                "--only" => arguments.only = Some(value.parse().ok()?),
                "--show" => arguments.show = Some(value.parse().ok()?),
                "--out" => arguments.out = value.into(),
                _ => return None,
            }
        }
        Some(arguments)
    }

    /// The indexes of the texts that are compared.
    pub fn cases(&self) -> std::ops::Range<usize> {
        match self.only {
            Some(index) => index..index + 1,
            None => 0..self.count,
        }
    }
}

//! What is generated for a program, and how the second program answers it.

use second::{Event, Run};

use crate::bonds::Pair;
use crate::random::Rng;
use crate::written::Written;

/// One way to make texts.
pub struct Recipe {
    /// Its name in the report.
    pub name: &'static str,
    /// How many texts of each round it makes.
    pub share: usize,
    /// The text of its turn, counted from 0. What has to be met goes by the
    /// turn, and everything else is drawn.
    pub make: fn(&mut Rng, usize) -> Vec<u8>,
}

/// A recipe of this name and share.
pub const fn recipe(
    name: &'static str,
    share: usize,
    make: fn(&mut Rng, usize) -> Vec<u8>,
) -> Recipe {
    Recipe { name, share, make }
}

/// A program of documents 01 and 02: its texts and its answers.
pub struct Program {
    /// Its name on the command line.
    pub name: &'static str,
    /// The ways its texts are made.
    pub recipes: &'static [Recipe],
    /// What the second program writes for a text.
    pub answer: fn(&[u8], &mut Run) -> Written,
    /// Everything that its texts can reach.
    pub wanted: fn() -> Vec<Event>,
    /// What a text says of its hours and what came of them, if its answer or
    /// refusal is one of those that go by them. That is empty where a text is
    /// written instead.
    pub outcome: fn(&[u8], &str) -> Option<String>,
    /// All of these that its texts have to have.
    pub outcomes: fn() -> Vec<String>,
    /// Whether it has its answer at the first empty line, whatever follows.
    pub ends_at_empty_line: bool,
    /// Two texts whose answers are bound to each other, for each turn, where
    /// there are such.
    pub pair: Option<fn(&mut Rng, usize) -> Pair>,
    /// The program that undoes what this one does to a text, if there is one.
    pub back: Option<&'static str>,
}

/// A generated text.
#[derive(Clone, Debug, PartialEq, Eq)]
pub struct Case {
    /// The way it was made.
    pub recipe: &'static str,
    /// The text.
    pub text: Vec<u8>,
}

/// The text of this index under this seed, by one of these recipes.
pub fn case(recipes: &[Recipe], seed: u64, index: usize) -> Case {
    let round: usize = recipes.iter().map(|recipe| recipe.share).sum();
    let mut slot = index % round;
    for recipe in recipes {
        if slot < recipe.share {
            let turn = index / round * recipe.share + slot;
            let text = (recipe.make)(&mut Rng::new(seed, index as u64), turn);
            let recipe = recipe.name;
            return Case { recipe, text };
        }
        slot -= recipe.share;
    }
    unreachable!("a slot of the round belongs to a recipe")
}

impl Program {
    /// The text of this index under this seed.
    pub fn case(&self, seed: u64, index: usize) -> Case {
        case(self.recipes, seed, index)
    }

    /// The pair of this index under this seed, where there are pairs.
    pub fn pair(&self, seed: u64, index: usize) -> Option<Pair> {
        // Another seed, so that pairs are not made of the cases' hours.
        let mut rng = Rng::new(!seed, index as u64);
        self.pair.map(|pair| pair(&mut rng, index))
    }
}

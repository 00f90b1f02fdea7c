//! The functions that the library exports: the blocks that each is lent, and who
//! else answers them.

use compare::plan::Recipe;
use compare::{events, hour, line_block, line_events};
use second::line::Controllable;
use second::record::{Kind, Record, Unit, LINES_BEFORE, MOST_INTERVALS};
use second::text::cut_block;
use second::{Answer, Ask, Event, Run};

use crate::archive::{self, BlockCall};
use crate::reached::Answered;

/// A function of the library.
pub struct Export {
    /// Its name in the report, and in the file of a call that failed.
    pub name: &'static str,
    /// The ways its blocks are made.
    pub recipes: &'static [Recipe],
    /// Everything that its blocks can reach.
    pub wanted: fn() -> Vec<Event>,
    /// Everything that it can answer.
    pub answers: fn() -> Vec<Answered>,
    /// The function itself.
    pub archive: BlockCall,
    /// What the second program has in its place.
    pub second: fn(&[u8], Ask, &mut [i64], &mut Run) -> Answer,
    /// The hour and the count of intervals that a block says.
    pub said: fn(&[u8]) -> (i64, usize),
}

/// All of them.
pub const EXPORTS: [&Export; 2] = [
    // A unit's block.
    &Export {
        name: "block",
        recipes: hour::PROGRAM.recipes,
        wanted: events::of_block,
        answers: Answered::all,
        archive: archive::block,
        second: second::hour::judge_block,
        said: said::<Unit>,
    },
    // An internal controllable line's.
    &Export {
        name: "line-block",
        recipes: line_block::RECIPES,
        wanted: line_events::of_line_block,
        answers: Answered::of_a_line,
        archive: archive::line_block,
        second: second::line::judge_block,
        said: said::<Controllable>,
    },
];

/// The hour and the count of intervals that a block says; of a block that
/// cannot be read, hour 0 and its lines behind the third.
fn said<K: Kind>(text: &[u8]) -> (i64, usize) {
    let lines = cut_block(text).lines;
    match Record::<K>::read(&lines) {
        Ok(record) => (K::hour(&record.day_ahead), record.count),
        Err(_) => {
            let behind = lines.len().saturating_sub(LINES_BEFORE);
            (0, behind.min(MOST_INTERVALS))
        }
    }
}

//! Blocks of internal controllable lines: how they are made. No program reads
//! one alone; they stand in the days of [`crate::line`], and are there for a
//! call of the library.

use second::line::Controllable;
use second::LineRecord;

use crate::damage;
use crate::hour::{self, good};
use crate::line_hours::{around_a_cent, around_the_cap, largest, lifted};
use crate::lines;
use crate::plan::{recipe, Recipe};
use crate::random::Rng;

/// The ways the blocks are made.
pub const RECIPES: &[Recipe] = &[
    recipe("cables", 5, |rng, _| lift(rng, lines::cable)),
    recipe("cables both ways", 4, |rng, _| lift(rng, lines::two_way)),
    recipe("few kilowatts", 7, |rng, _| lift(rng, lines::small)),
    recipe("ends of ranges", 5, |rng, _| lift(rng, lines::extreme)),
    recipe("largest amounts", 1, |rng, _| good(rng, largest)),
    recipe("around a cent", 2, |rng, _| good(rng, around_a_cent)),
    recipe("around the cap", 4, |rng, _| good(rng, around_the_cap)),
    recipe("just reached", 6, hour::reach::<Controllable>),
    recipe("seconds", 2, hour::seconds::<Controllable>),
    recipe("just out of range", 4, hour::out_of_range::<Controllable>),
    recipe("no numbers", 3, hour::no_number::<Controllable>),
    recipe("wrong pairs", 2, hour::wrong_pairs::<Controllable>),
    recipe("broken curves", 2, hour::broken_curve::<Controllable>),
    recipe("wrong counts", 1, hour::wrong_count::<Controllable>),
    recipe("hours", 1, hour::other_hour::<Controllable>),
    recipe("extra lines", 1, hour::extra_lines::<Controllable>),
    recipe("surplus", 1, hour::surplus::<Controllable>),
    recipe("damaged bytes", 4, |rng, turn| {
        hour::damaged::<Controllable>(rng, turn, damage::BYTES)
    }),
    recipe("damaged lines", 2, |rng, turn| {
        hour::damaged::<Controllable>(rng, turn, damage::LINES)
    }),
    recipe("damaged pairs", 2, |rng, turn| {
        hour::damaged::<Controllable>(rng, turn, damage::PAIRS)
    }),
    recipe("damaged ends", 1, |rng, turn| {
        hour::damaged::<Controllable>(rng, turn, damage::ENDS)
    }),
    recipe("ends within lines", 1, hour::end_in_line::<Controllable>),
    recipe("noise", 1, hour::noise::<Controllable>),
    recipe("long lines", 1, hour::long::<Controllable>),
    recipe("several faults", 3, hour::several::<Controllable>),
    recipe("blocks of generators", 1, |rng, turn| {
        hour::PROGRAM.case(rng.bits(), turn).text
    }),
];

/// The block of an hour that is made so, and in most turns pays.
fn lift(rng: &mut Rng, make: fn(&mut Rng) -> LineRecord) -> Vec<u8> {
    let mut record = make(rng);
    if !rng.once_in(3) {
        record = lifted(rng, record);
    }
    hour::block(rng, &record)
}

#[cfg(test)]
mod tests {
    use super::*;
    use crate::line_events::of_line_block;
    use crate::plan::case;
    use second::line::judge_block;
    use second::record::MOST_INTERVALS;
    use second::text::HOUR;
    use second::{Ask, Run, Way};

    #[test]
    fn blocks_reach_all_that_a_call_can() {
        for seed in [1, 2] {
            let mut run = Run::new(Way::Steps);
            for index in 0..3000 {
                let rng = &mut Rng::new(!seed, index as u64);
                let ask = Ask {
                    excluded: rng.once_in(3),
                    expected: Some(rng.within(HOUR)).filter(|_| rng.once_in(3)),
                    hours: rng.pick(&[23, 24, 25]),
                };
                let mut row = [0; MOST_INTERVALS];
                let length = rng.pick(&[MOST_INTERVALS, MOST_INTERVALS, 3]);
                let block = case(RECIPES, seed, index).text;
                judge_block(&block, ask, &mut row[..length], &mut run);
            }
            let missing = run.trace.missing(of_line_block());
            assert!(missing.is_empty(), "seed {seed}: {missing:?}");
        }
    }
}

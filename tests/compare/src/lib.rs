//! Generated texts of documents 01 and 02 and the comparison of what is written
//! for them: by a program outside, and by the second program.
//!
//! - [`random`]: numbers from a seed;
//! - [`hours`], [`lines`] and [`line_hours`]: hours of generators and of
//!   internal controllable lines as records; [`kinds`] says what their making
//!   has in common, and [`stretches`] what they need a price for;
//! - [`points`], [`point_hours`] and [`point_faults`]: points that lines leave to
//!   the curve, hours that show them, and hours that lack them;
//! - [`damage`] and [`missing`]: what can happen to a text, and what stands where
//!   a number lacks;
//! - [`pieces`] and [`days`]: texts of a head and the blocks of a day;
//! - [`headers`], [`line_heads`] and [`rows`]: the headers of day sheets, the
//!   heads of lines' days, and the rows of marks in both;
//! - [`three`] and [`midnight`]: the headers of three days, in which places they
//!   are wrong, and marks that reach from one day into the other;
//! - [`stored`]: sheets that go up or down;
//! - [`hour`], [`day`], [`import`], [`mod@line`], [`archive`]: the texts of each
//!   program, recipe by recipe; [`line_block`]: the blocks of a line; and
//!   [`day_points`]: days of hours with points;
//! - [`bonds`]: pairs of texts whose answers are bound to each other, made by
//!   [`same`], [`point_pairs`], [`day_same`] and [`line_same`];
//! - [`events`] and [`line_events`]: what the texts of each program have to
//!   reach;
//! - [`written`] and [`answers`]: what programs write, and where it differs;
//! - [`outside`] and [`run`]: the comparison itself;
//! - [`arguments`] and [`tally`]: what a comparison is told, and what came of
//!   it.
//!
//! A text depends on its seed and index alone, so that each one can be made
//! again.

pub mod answers;
pub mod archive;
pub mod arguments;
pub mod bonds;
pub mod damage;
pub mod day;
pub mod day_points;
pub mod day_same;
pub mod days;
pub mod events;
pub mod headers;
pub mod hour;
pub mod hours;
pub mod import;
pub mod kinds;
pub mod line;
pub mod line_block;
pub mod line_events;
pub mod line_heads;
pub mod line_hours;
pub mod line_same;
pub mod lines;
pub mod midnight;
pub mod missing;
pub mod outside;
pub mod pieces;
pub mod plan;
pub mod point_faults;
pub mod point_hours;
pub mod point_pairs;
pub mod points;
pub mod random;
pub mod rows;
pub mod run;
pub mod same;
pub mod stored;
pub mod stretches;
pub mod tally;
pub mod three;
pub mod written;

#[cfg(test)]
mod cents;
#[cfg(test)]
mod other_points;

/// Every program that can be compared.
pub const PROGRAMS: [&plan::Program; 6] = [
    &hour::PROGRAM,
    &day::PROGRAM,
    &import::PROGRAM,
    &line::PROGRAM,
    &archive::UP,
    &archive::DOWN,
];

#[cfg(test)]
mod tests {
    use super::*;
    use second::{Run, Way};
    use written::Written;

    /// Texts of a program until every wanted event is met, at most so many.
    fn reaches(program: &plan::Program, most: usize) {
        for seed in [1, 2] {
            let mut run = Run::new(Way::Steps);
            let mut outcomes = std::collections::BTreeSet::new();
            for index in 0..most {
                let text = program.case(seed, index).text;
                let answer = (program.answer)(&text, &mut run);
                outcomes.extend((program.outcome)(&text, answer.said()));
            }
            for wanted in (program.outcomes)() {
                let had = outcomes.contains(&wanted);
                assert!(had, "{} seed {seed}: {wanted}", program.name);
            }
            let missing = run.trace.missing((program.wanted)());
            assert!(
                missing.is_empty(),
                "{} seed {seed}: {missing:?}",
                program.name
            );
        }
    }

    #[test]
    fn hour_texts_reach_everything() {
        reaches(&hour::PROGRAM, 3000);
    }

    #[test]
    fn day_texts_reach_everything() {
        reaches(&day::PROGRAM, 2000);
    }

    #[test]
    fn import_texts_reach_everything() {
        reaches(&import::PROGRAM, 1500);
    }

    #[test]
    fn line_texts_reach_everything() {
        reaches(&line::PROGRAM, 1500);
    }

    #[test]
    fn stored_sheets_reach_everything() {
        reaches(&archive::UP, 1500);
        reaches(&archive::DOWN, 1500);
    }

    #[test]
    fn pairs_are_bound_for_the_second_program() {
        for program in PROGRAMS {
            for index in 0..60 {
                let Some(pair) = program.pair(3, index) else {
                    continue;
                };
                let answer = |text| (program.answer)(text, &mut Run::quiet(Way::Steps));
                let (before, after) = (answer(&pair.before), answer(&pair.after));
                let holds = pair.bond.holds(before.said(), after.said());
                assert!(holds, "{} {index}", program.name);
            }
        }
    }

    #[test]
    fn what_a_program_undoes_comes_back() {
        let named = |name| PROGRAMS.into_iter().find(|program| program.name == name);
        for (program, name) in PROGRAMS.iter().filter_map(|p| Some((p, p.back?))) {
            let back = named(name).expect("it is compared, too");
            assert_eq!(back.back, Some(program.name));
            let write = |program: &plan::Program, text: &[u8]| {
                (program.answer)(text, &mut Run::quiet(Way::Steps))
            };
            for index in 0..600 {
                let text = program.case(4, index).text;
                if let Written::Text(moved) = write(program, &text) {
                    assert_eq!(write(back, &moved), Written::Text(text), "{name} {index}");
                }
            }
        }
    }

    #[test]
    fn a_text_can_be_made_again() {
        for program in PROGRAMS {
            for index in 0..100 {
                assert_eq!(program.case(5, index), program.case(5, index));
            }
            assert_ne!(program.case(5, 0), program.case(6, 0));
        }
    }
}

//! The programs `up` and `down`: their texts, and what can become of them. Both
//! have the same texts, as what goes one way does not go the other.

use std::ops::RangeInclusive;

use second::archive;
use second::text::cut_block;

use crate::events;
use crate::headers;
use crate::pieces::{self, Said};
use crate::plan::{recipe, Program, Recipe};
use crate::stored;

/// The program `up`.
pub const UP: Program = Program {
    name: "up",
    recipes: RECIPES,
    answer: |text, run| archive::up(text, run).into(),
    wanted: events::of_up,
    outcome,
    outcomes: || outcomes(None),
    ends_at_empty_line: false,
    pair: None,
    back: Some("down"),
};

/// The program `down`.
pub const DOWN: Program = Program {
    name: "down",
    recipes: RECIPES,
    answer: |text, run| archive::down(text, run).into(),
    wanted: events::of_down,
    outcome,
    outcomes: || outcomes(Some(24)),
    ends_at_empty_line: false,
    pair: None,
    back: Some("up"),
};

const RECIPES: &[Recipe] = &[
    recipe("sheets", 6, stored::good),
    recipe("other bytes behind", 8, stored::other_behind),
    recipe("long sheets", 2, stored::long),
    recipe("sheets of day", 6, stored::of_day),
    recipe("wrong headers", 6, |rng, turn| {
        headers::stored(rng, turn, headers::wrong)
    }),
    recipe("headers out of range", 5, stored::out_of_range),
    recipe("headers that end", 3, |rng, turn| {
        headers::stored(rng, turn, headers::ends)
    }),
    recipe("headers cut at a byte", 3, stored::cut),
    recipe("other layouts", 2, |rng, turn| {
        headers::stored(rng, turn, headers::other_layout)
    }),
    recipe("other forms", 3, stored::other_form),
    recipe("counts", 4, stored::counts),
    recipe("rows of other lengths", 3, |rng, turn| {
        headers::stored(rng, turn, headers::other_rows)
    }),
    recipe("long rows", 2, |rng, turn| {
        headers::stored(rng, turn, headers::long_rows)
    }),
    recipe("long lines", 2, stored::long_lines),
    recipe("damaged headers", 7, stored::damaged),
    recipe("noise", 2, |rng, _| {
        pieces::noise(rng, |rng| {
            let said = pieces::any_said(rng);
            stored::marked(rng, said).to_text()
        })
    }),
];

/// What a header can say that no sheet of an archive does.
const OTHER_COUNT: &str = "form=2 and another count";
const OTHER_FORM: &str = "another form";

/// What can stand behind the header of a sheet that is moved.
const BEHIND: [&str; 4] = [
    "nothing",
    "whole lines",
    "an open line",
    "more than 65536 bytes",
];

fn behind(text: &[u8]) -> &'static str {
    let rest = cut_block(text).rest;
    match rest.last() {
        None => BEHIND[0],
        Some(_) if rest.len() > 65_536 => BEHIND[3],
        Some(b'\n') => BEHIND[1],
        Some(_) => BEHIND[2],
    }
}

fn says(said: Said) -> String {
    match said {
        None => "form=1".to_string(),
        Some(hours) => format!("form=2 hours={hours}"),
    }
}

/// The form and the hours that a header says which is in form.
fn said_by(text: &[u8]) -> String {
    let mut lines = text.split(|byte| *byte == b'\n');
    let mut line = || lines.next().unwrap_or_default();
    match (line(), line()) {
        (b"form=1", _) => says(None),
        (b"form=2", b"hours=23") => says(Some(23)),
        (b"form=2", b"hours=24") => says(Some(24)),
        (b"form=2", b"hours=25") => says(Some(25)),
        (b"form=2", _) => OTHER_COUNT.to_string(),
        _ => OTHER_FORM.to_string(),
    }
}

/// FORM is the same both ways, and is counted line by line as an event.
fn outcome(text: &[u8], refusal: &str) -> Option<String> {
    let came = match refusal.trim_end() {
        "" => format!("moved with {} behind", behind(text)),
        form if form.starts_with("refused=1 ") => return None,
        other => other.to_string(),
    };
    Some(format!("{}: {came}", said_by(text)))
}

fn ranges(lines: RangeInclusive<usize>) -> Vec<String> {
    lines.map(|line| format!("refused=2 at={line}")).collect()
}

/// Everything but FORM that can become of sheets, where those are moved that
/// say this.
fn outcomes(moved: Said) -> Vec<String> {
    let back = || vec!["refused=9 at=2".to_string()];
    let moves = BEHIND.map(|behind| format!("moved with {behind} behind"));
    let mut came = vec![
        (OTHER_FORM.to_string(), ranges(1..=1)),
        (OTHER_COUNT.to_string(), ranges(1..=1)),
    ];
    if moved.is_some() {
        came[1].1 = ranges(2..=2);
    }
    for said in pieces::SAID {
        let all = match (moved, said) {
            (None, None) => [moves.to_vec(), ranges(2..=10)].concat(),
            (Some(_), Some(24)) => [moves.to_vec(), ranges(3..=11)].concat(),
            (Some(_), Some(_)) => [back(), ranges(3..=11)].concat(),
            (None, Some(_)) | (Some(_), None) => ranges(1..=1),
        };
        came.push((says(said), all));
    }
    let lines = |(says, all): &(String, Vec<String>)| -> Vec<String> {
        all.iter().map(|came| format!("{says}: {came}")).collect()
    };
    came.iter().flat_map(lines).collect()
}

#[cfg(test)]
mod tests {
    use super::*;
    use second::Header;

    #[test]
    fn what_became_of_a_sheet() {
        let header = Header::counted(24).to_text();
        let moved = |behind: &str| outcome((header.clone() + behind).as_bytes(), "");
        let came = |what: &str| Some(format!("form=2 hours=24: moved with {what} behind"));
        assert_eq!(moved(""), came("nothing"));
        assert_eq!(moved("\n"), came("whole lines"));
        assert_eq!(moved("\nx"), came("an open line"));
        assert_eq!(moved(&"x".repeat(70_000)), came("more than 65536 bytes"));
        let refused = |text: &str, refusal: &str| outcome(text.as_bytes(), refusal);
        assert_eq!(refused(&header, "refused=1 at=3\n"), None);
        let of = |says: &str| Some(format!("{says}: refused=2 at=1"));
        assert_eq!(refused(&header, "refused=2 at=1\n"), of("form=2 hours=24"));
        assert_eq!(refused("form=3\n", "refused=2 at=1\n"), of(OTHER_FORM));
        let header = Header::counted(26).to_text();
        assert_eq!(refused(&header, "refused=2 at=1\n"), of(OTHER_COUNT));
    }

    #[test]
    fn what_can_become_of_sheets() {
        let (up, down) = (outcomes(None), outcomes(Some(24)));
        assert_eq!(up.len(), 2 + 4 + 9 + 3);
        assert_eq!(down.len(), 2 + 1 + 4 + 9 + 2 * 10);
        for (list, outcome) in [
            (&up, "form=2 hours=23: refused=2 at=1"),
            (&up, "form=2 and another count: refused=2 at=1"),
            (&up, "form=1: moved with nothing behind"),
            (&down, "form=1: refused=2 at=1"),
            (&down, "form=2 and another count: refused=2 at=2"),
            (&down, "form=2 hours=23: refused=9 at=2"),
            (&down, "form=2 hours=25: refused=9 at=2"),
            (&down, "form=2 hours=25: refused=2 at=3"),
            (&down, "form=2 hours=24: moved with an open line behind"),
        ] {
            assert!(list.iter().any(|each| each == outcome), "{outcome}");
        }
    }
}

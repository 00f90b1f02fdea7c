//! A lone minus, which stands for a number that lacks where one may, and
//! spellings that only come near it.

use second::record::Unit;

use crate::damage::{self, set_value, Sheet};
use crate::hour::{block_of_sheet, nth_line};
use crate::random::Rng;

/// The keys whose number may lack.
const KEYS: [&str; 2] = ["eop", "uol"];

/// A lone minus, what comes near it, and numbers with one.
const SPELLINGS: &[&str] = &[
    "-",
    "-0",
    "--",
    "",
    "-5",
    "- ",
    " -",
    "-\r",
    "-\t",
    "-\0",
    "-\n",
    "+",
    "+-",
    "-+",
    "-x",
    "0-",
    "5-",
    "=-",
    "-=",
    "-.",
    "-,",
    "_",
    "~",
    "\u{2010}",
    "\u{2212}",
    "\u{ff0d}",
    "\u{ad}",
    "-00",
    "-05",
    "0",
    "-1",
    "-2000000",
    "-2000001",
    "-9999999",
    "-10000000",
    "none",
];

/// A lone minus behind every key of every kind of line; and, in the turns
/// between, every spelling behind the keys whose number may lack.
pub fn lone_minus(rng: &mut Rng, turn: usize) -> Vec<u8> {
    let (sheet, _) = spelled(rng, turn);
    block_of_sheet(rng, &sheet)
}

/// The sheet, and what was written where: the line, counted from 0, the key and
/// the value behind it.
fn spelled(rng: &mut Rng, turn: usize) -> (Sheet, (usize, String, &'static str)) {
    let round = turn / 2;
    let (spelling, again) = (round % SPELLINGS.len(), round / SPELLINGS.len());
    let minus = turn % 2 == 0;
    let (mut sheet, line) = match minus {
        true => nth_line::<Unit>(rng, round),
        // The first interval, one between, the thirtieth: another each time.
        false => nth_line::<Unit>(rng, 3 + (spelling + again) % 3),
    };
    let keys = keys_of(&sheet.lines[line]);
    let (key, value) = match minus {
        true => (keys[round / 6 % keys.len()].clone(), "-"),
        false => (KEYS[again % 2].to_string(), SPELLINGS[spelling]),
    };
    if let Some(pair) = keys.iter().position(|other| *other == key) {
        set_value(&mut sheet.lines[line], pair, value.as_bytes());
    }
    (sheet, (line, key, value))
}

/// The keys of a line.
fn keys_of(line: &[u8]) -> Vec<String> {
    let key = |pair: &Vec<u8>| {
        let key = pair.split(|byte| *byte == b'=').next();
        String::from_utf8_lossy(key.unwrap_or_default()).into_owned()
    };
    damage::pairs(line).iter().map(key).collect()
}

#[cfg(test)]
mod tests {
    use super::*;
    use second::hour_text;
    use second::text::number;
    use std::collections::BTreeSet;

    #[test]
    fn only_a_lone_minus_behind_two_keys_is_in_form() {
        let mut seen = BTreeSet::new();
        for turn in 0..400 {
            let (sheet, (line, key, value)) = spelled(&mut Rng::new(2, turn as u64), turn);
            let answer = hour_text(&sheet.text());
            let form = format!("refused=1 at={}\n", line + 1);
            let lacks = value == "-" && KEYS.contains(&key.as_str());
            let in_form = lacks || number(value.as_bytes()).is_some();
            assert_eq!(answer != form, in_form, "{key}={value}");
            // The first interval, those between, the thirtieth.
            let line = match line {
                32 => 32,
                line => line.min(4),
            };
            seen.insert((line, key, value));
        }
        for line in [3, 4, 32] {
            let has = |key: &str| seen.contains(&(line, key.to_string(), "-"));
            assert!(KEYS.into_iter().all(has), "{line}");
        }
        let minus = seen.iter().filter(|(_, _, value)| *value == "-");
        let keys: BTreeSet<&String> = minus.map(|(_, key, _)| key).collect();
        // Ten of line 1, those of the two curves, and what an interval has besides.
        assert_eq!(keys.len(), 10 + 5 + 14, "{keys:?}");
        for spelling in SPELLINGS {
            let of = |key: &str| seen.iter().any(|(_, k, v)| k == key && v == spelling);
            assert!(KEYS.into_iter().all(of), "{spelling:?}");
        }
    }
}

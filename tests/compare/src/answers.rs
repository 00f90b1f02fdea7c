//! A text with what both programs write for it, and where that differs.

use crate::outside::{Manner, Reply};
use crate::tally::shown;
use crate::written::Written;

/// The most bytes of a line that are told of a difference.
const TOLD: usize = 100;

/// A text with the answers of both programs.
pub struct Answers {
    /// The text.
    pub text: Vec<u8>,
    /// How it was handed to the program outside.
    pub manner: Manner,
    /// What the second program writes.
    pub second: Written,
    /// What the program outside did.
    pub reply: Reply,
}

impl Answers {
    /// Whether the program outside wrote the same on both of its outputs.
    pub fn agree(&self) -> bool {
        self.reply.is(self.second.stdout(), self.second.stderr())
    }

    /// The first line that differs, and how the program ended.
    pub fn difference(&self) -> String {
        let outputs = [
            ("", self.second.stdout(), &self.reply.stdout[..]),
            (
                " on standard error",
                self.second.stderr(),
                &self.reply.stderr,
            ),
        ];
        let apart = outputs.iter().find(|(_, wanted, got)| wanted != got);
        let (output, wanted, got) = apart.unwrap_or(&outputs[0]);
        let (wanted, got) = first_apart(wanted, got);
        let end = self.reply.end();
        format!("second says {wanted}{output}, program says {got} ({end})")
    }

    /// All of it, for a failure's file.
    pub fn describe(&self) -> Vec<u8> {
        let Reply { stdout, stderr, .. } = &self.reply;
        let end = self.reply.end();
        let mut file = Vec::new();
        let mut part = |head: &str, body: &[u8]| {
            file.extend_from_slice(format!("\n--- {head}\n").as_bytes());
            file.extend_from_slice(body);
        };
        match self.second.stderr() {
            b"" => part("the second program's answer", self.second.stdout()),
            error => part("the second program's standard error", error),
        }
        part(&format!("the program's answer ({end})"), stdout);
        if !stderr.is_empty() {
            part("its standard error", stderr);
        }
        part(&format!("handed over as {:?}", self.manner), b"");
        file.extend(shown(&self.text));
        file
    }
}

/// The first lines that differ. Of long ones it is the part where they do.
fn first_apart(wanted: &[u8], got: &[u8]) -> (String, String) {
    let lines = |text: &'_ [u8]| -> Vec<Vec<u8>> {
        let lines = text.split_inclusive(|byte| *byte == b'\n');
        lines.map(<[u8]>::to_vec).collect()
    };
    let (wanted, got) = (lines(wanted), lines(got));
    let same = wanted.iter().zip(&got).take_while(|(w, g)| w == g).count();
    let line = |of: &[Vec<u8>]| of.get(same).cloned().unwrap_or_default();
    let (wanted, got) = (line(&wanted), line(&got));
    let same = wanted.iter().zip(&got).take_while(|(w, g)| w == g).count();
    let from = match wanted.len().max(got.len()) {
        0..=TOLD => 0,
        _ => same.saturating_sub(TOLD / 2),
    };
    let told = |line: &[u8]| {
        let part: Vec<u8> = line.iter().copied().skip(from).take(TOLD).collect();
        format!("{:?}", String::from_utf8_lossy(&part))
    };
    (told(&wanted), told(&got))
}

#[cfg(test)]
mod tests {
    use super::*;

    fn apart(wanted: &str, got: &str) -> (String, String) {
        first_apart(wanted.as_bytes(), got.as_bytes())
    }

    #[test]
    fn the_first_line_that_differs_is_told() {
        let pair = |wanted: &str, got: &str| (format!("{wanted:?}"), format!("{got:?}"));
        assert_eq!(apart("a\nb\nc\n", "a\nd\ne\n"), pair("b\n", "d\n"));
        assert_eq!(apart("a\nb", "a\nb\n"), pair("b", "b\n"));
        assert_eq!(apart("a\n", "a\nb\n"), pair("", "b\n"));
        assert_eq!(apart("", "x"), pair("", "x"));
        assert_eq!(apart("a\n", "a\n"), pair("", ""));
    }

    #[test]
    fn long_lines_are_told_in_part() {
        let (wanted, got) = (format!("{}x", "0".repeat(9000)), "0".repeat(9001));
        let (wanted, got) = apart(&wanted, &got);
        assert_eq!(wanted, format!("{:?}", "0".repeat(50) + "x"));
        assert_eq!(got, format!("{:?}", "0".repeat(51)));
    }
}

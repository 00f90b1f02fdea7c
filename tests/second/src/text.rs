//! The sheet as bytes: a text is cut into blocks at its empty lines, a block
//! into lines, a line into pairs at its blanks, and only then is anything
//! judged.

pub use crate::keys::*;

/// Lines of a block that are kept. The longest good block has 33 lines, so the
/// 34th is the extra one already and what follows it changes no answer.
const KEPT_LINES: usize = 34;

/// One line without its LF.
#[derive(Clone, Copy, Debug, PartialEq, Eq)]
pub struct Line<'a> {
    /// The bytes of the line.
    pub bytes: &'a [u8],
    /// Whether an LF closed it; only the last line of a text can lack one.
    pub ended: bool,
}

/// A text cut behind its first block.
#[derive(Clone, Debug, PartialEq, Eq)]
pub struct Cut<'a> {
    /// The block's lines; at most the first 34 of them.
    pub lines: Vec<Line<'a>>,
    /// Whether an empty line closed the block, not the end of the text.
    pub closed: bool,
    /// What stands behind the block and its empty line.
    pub rest: &'a [u8],
}

/// Cuts the first block off a text. An empty text gives a block of no lines,
/// as an hour without a block is an empty block.
pub fn cut_block(text: &[u8]) -> Cut<'_> {
    let mut lines = Vec::new();
    let mut rest = text;
    while !rest.is_empty() {
        let (line, behind) = cut_line(rest);
        rest = behind;
        if line.bytes.is_empty() {
            return Cut {
                lines,
                closed: true,
                rest,
            };
        }
        if lines.len() < KEPT_LINES {
            lines.push(line);
        }
    }
    Cut {
        lines,
        closed: false,
        rest,
    }
}

/// The first line of a text that is not empty, and what follows it.
fn cut_line(text: &[u8]) -> (Line<'_>, &[u8]) {
    let length = text.iter().position(|byte| *byte == b'\n');
    let (bytes, behind) = text.split_at(length.unwrap_or(text.len()));
    let line = Line {
        bytes,
        ended: length.is_some(),
    };
    (line, behind.get(1..).unwrap_or_default())
}

/// What is wrong with the form of a line.
#[derive(Clone, Copy, Debug, PartialEq, Eq, PartialOrd, Ord, Hash)]
pub enum Fault {
    /// The line should be there and is not.
    Absent,
    /// The line should not be there.
    Extra,
    /// The text ends before the line's LF.
    Unended,
    /// A pair is absent, extra, or has another key than the printed one.
    Key,
    /// The value is not a number in the sheet's form.
    Number,
    /// A curve's `n` is not 0 to 12.
    Count,
    /// A row of marks is not a digit for each hour of the day.
    Marks,
}

/// A place in a text whose line is at fault, counted from 1.
pub type LineFault = (usize, Fault);

/// Reads the line at a place, counted from 1, with the given reader.
pub fn read_at<'a, T>(
    lines: &[Line<'a>],
    place: usize,
    read: impl Fn(Line<'a>) -> Result<T, Fault>,
) -> Result<T, LineFault> {
    let line = place.checked_sub(1).and_then(|index| lines.get(index));
    line.ok_or(Fault::Absent)
        .and_then(|line| read(*line))
        .map_err(|fault| (place, fault))
}

/// The pairs of one line, taken off from the left.
pub struct Pairs<'a> {
    pieces: std::vec::IntoIter<&'a [u8]>,
}

impl<'a> Pairs<'a> {
    /// Cuts a line at its blanks. Two blanks in a row, or one at an end, leave
    /// an empty piece that no key fits.
    pub fn of(line: Line<'a>) -> Result<Self, Fault> {
        if !line.ended {
            return Err(Fault::Unended);
        }
        let pieces: Vec<&[u8]> = line.bytes.split(|byte| *byte == b' ').collect();
        Ok(Pairs {
            pieces: pieces.into_iter(),
        })
    }

    /// The bytes of the next pair's value; its key has to be the given one.
    pub fn bytes(&mut self, key: &str) -> Result<&'a [u8], Fault> {
        let piece = self.pieces.next().ok_or(Fault::Key)?;
        let mut halves = piece.splitn(2, |byte| *byte == b'=');
        let named = halves.next() == Some(key.as_bytes());
        halves.next().filter(|_| named).ok_or(Fault::Key)
    }

    /// The next pair's value as a number, or as a number that may be missing.
    pub fn value<T: Value>(&mut self, key: &str) -> Result<T, Fault> {
        T::read(self.bytes(key)?).ok_or(Fault::Number)
    }

    /// Nothing may follow the last pair.
    pub fn end(mut self) -> Result<(), Fault> {
        match self.pieces.next() {
            None => Ok(()),
            Some(_) => Err(Fault::Key),
        }
    }
}

/// The largest number that seven digits can say.
const SEVEN_DIGITS: u64 = 9_999_999;

/// A number in the sheet's form. It is in that form exactly when printing its
/// value gives the same bytes back: `07`, `-0`, `+5` and `-` do not.
pub fn number(bytes: &[u8]) -> Option<i64> {
    let value: i64 = std::str::from_utf8(bytes).ok()?.parse().ok()?;
    let same = value.to_string().as_bytes() == bytes;
    (same && value.unsigned_abs() <= SEVEN_DIGITS).then_some(value)
}

#[cfg(test)]
mod tests {
    use super::*;

    fn block_lines(text: &str) -> Vec<String> {
        let lines = cut_block(text.as_bytes()).lines;
        let text_of = |line: &Line| String::from_utf8_lossy(line.bytes).into_owned();
        lines.iter().map(text_of).collect()
    }

    #[test]
    fn a_block_ends_at_its_empty_line() {
        let cut = cut_block(b"a\nb\n\nc\n");
        assert_eq!(block_lines("a\nb\n\nc\n"), ["a", "b"]);
        assert!(cut.closed);
        assert_eq!(cut.rest, b"c\n");
    }

    #[test]
    fn a_block_ends_at_the_end_of_the_text() {
        let cut = cut_block(b"a\nb");
        assert_eq!(block_lines("a\nb"), ["a", "b"]);
        assert!(cut.lines[0].ended && !cut.lines[1].ended);
        assert!(!cut.closed && cut.rest.is_empty());
        assert!(cut_block(b"a\n").lines[0].ended);
        assert!(!cut_block(b"a\n").closed);
    }

    #[test]
    fn empty_texts_and_leading_empty_lines_are_empty_blocks() {
        assert_eq!(cut_block(b"").lines, []);
        assert!(!cut_block(b"").closed);
        assert_eq!(cut_block(b"\na\n").lines, []);
        assert_eq!(cut_block(b"\na\n").rest, b"a\n");
        assert_eq!(cut_block(b"\r\n").lines.len(), 1);
    }

    #[test]
    fn a_long_block_is_cut_at_its_empty_line_too() {
        let text = ["x\n".repeat(1000), "\ny".to_string()].concat();
        let cut = cut_block(text.as_bytes());
        assert_eq!(cut.lines.len(), KEPT_LINES);
        assert_eq!(cut.rest, b"y");
    }

    #[test]
    fn numbers_have_one_form() {
        for (bytes, value) in [
            ("0", 0),
            ("7", 7),
            ("-7", -7),
            ("9999999", 9_999_999),
            ("-9999999", -9_999_999),
            ("10", 10),
        ] {
            assert_eq!(number(bytes.as_bytes()), Some(value), "{bytes}");
        }
        for bytes in [
            "",
            "-",
            "-0",
            "00",
            "07",
            "-07",
            "+5",
            "12345678",
            "-12345678",
            "10000000",
            "99999999999999999999999",
            " 5",
            "5 ",
            "5\r",
            "5.0",
            "1e3",
            "0x1",
            "--5",
            "5-",
            "\u{664}",
            "5\0",
        ] {
            assert_eq!(number(bytes.as_bytes()), None, "{bytes:?}");
        }
        assert_eq!(number(b"\xff"), None);
    }
}

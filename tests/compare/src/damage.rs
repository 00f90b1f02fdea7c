//! Damage to a text: to its bytes, its lines, its pairs and its end. Any text
//! of document 01 can be given.

use crate::random::Rng;

/// Bytes that a reader may take for something else.
pub const ODD_BYTES: &[u8] = b"\n\n  ==--+0019\r\t\0.,;:#aAe_\x0b\x0c\x1a\x7f\x80\xa0\xc3\xff";

/// Bytes of good texts.
pub const SHEET_BYTES: &[u8] = b"\n\n   ===--0123456789enaeopuolmvbr";

/// Values that are not numbers in the sheet's form.
pub const NO_NUMBERS: &[&str] = &[
    "",
    "-",
    "--",
    "-0",
    "+0",
    "+5",
    "00",
    "01",
    "07",
    "-07",
    "0000000",
    "00000001",
    "10000000",
    "12345678",
    "-10000000",
    "-12345678",
    "00000000",
    "4294967296",
    "4294967301",
    "-4294967295",
    "18446744073709551616",
    "18446744073709551621",
    "-9223372036854775809",
    "340282366920938463463374607431768211461",
    "99999999999999999999999999999999999999999999",
    "5.0",
    "5,0",
    "1e3",
    "0x1",
    "1_000",
    "5-",
    "--5",
    "-+5",
    "5+",
    "- 5",
    " 5",
    "5 ",
    "5\t",
    "\t5",
    "5\r",
    "5\x00",
    "\x005",
    "=5",
    "5=",
    "5=5",
    "a",
    "5a",
    "\u{664}",
    "\u{ff15}",
    "\u{2212}5",
    "/",
    ":",
];

/// A text as lines without their LF.
#[derive(Clone, Debug, PartialEq, Eq)]
pub struct Sheet {
    /// The lines.
    pub lines: Vec<Vec<u8>>,
    /// Whether the last line has an LF.
    pub ended: bool,
}

impl Sheet {
    /// The lines of a text.
    pub fn of(text: &[u8]) -> Self {
        let mut lines: Vec<Vec<u8>> = text.split(|b| *b == b'\n').map(<[u8]>::to_vec).collect();
        let ended = lines.last().is_some_and(Vec::is_empty);
        if ended {
            lines.pop();
        }
        Sheet { lines, ended }
    }

    /// The text of the lines.
    pub fn text(&self) -> Vec<u8> {
        let mut text = self.lines.join(&b'\n');
        if self.ended && !self.lines.is_empty() {
            text.push(b'\n');
        }
        text
    }

    /// Ends the text within a line, of whose bytes so many stay.
    pub fn end_in(&mut self, line: usize, stay: impl FnOnce(usize) -> usize) {
        self.lines.truncate(line + 1);
        self.ended = false;
        let last = &mut self.lines[line];
        last.truncate(stay(last.len()));
    }

    /// A line, any of them; lines that differ from all others (the first four
    /// and the last) come up more often than their share.
    pub fn any_line(&self, rng: &mut Rng) -> usize {
        match rng.below(3) {
            0 => rng.below(self.lines.len().min(4)),
            1 => self.lines.len().saturating_sub(1 + rng.below(2)),
            _ => rng.below(self.lines.len()),
        }
    }
}

/// A line as its pairs, which blanks keep apart.
pub type Pairs = Vec<Vec<u8>>;

/// The pairs of a line.
pub fn pairs(line: &[u8]) -> Pairs {
    line.split(|byte| *byte == b' ')
        .map(<[u8]>::to_vec)
        .collect()
}

/// Writes another value behind the key of a line's pair; a pair without key
/// gets one more `=`.
pub fn set_value(line: &mut Vec<u8>, pair: usize, value: &[u8]) {
    let mut all = pairs(line);
    if let Some(old) = all.get_mut(pair) {
        let key = old.iter().position(|byte| *byte == b'=');
        old.truncate(key.unwrap_or(old.len()));
        old.push(b'=');
        old.extend_from_slice(value);
    }
    *line = all.join(&b' ');
}

/// A kind of damage.
pub type Damage = fn(&mut Rng, Vec<u8>) -> Vec<u8>;

/// A kind of damage to the pairs of one line.
pub type PairDamage = fn(&mut Rng, &mut Pairs);

/// Damage to single bytes.
pub const BYTES: &[Damage] = &[
    flip_bit,
    other_byte,
    odd_byte,
    drop_byte,
    double_byte,
    swap_bytes,
    move_byte,
    insert_byte,
    drop_bytes,
    double_bytes,
];

/// Damage to whole lines.
pub const LINES: &[Damage] = &[
    |rng, text| on_lines(rng, text, drop_line),
    |rng, text| on_lines(rng, text, double_line),
    |rng, text| on_lines(rng, text, move_line),
    |rng, text| on_lines(rng, text, swap_lines),
    |rng, text| on_lines(rng, text, join_lines),
    |rng, text| on_lines(rng, text, split_line),
    |rng, text| on_lines(rng, text, empty_line),
    |rng, text| on_lines(rng, text, blank_line),
    |rng, text| on_lines(rng, text, odd_line),
];

/// Damage to the pairs of a line.
pub const PAIRS: &[Damage] = &[
    |rng, text| on_pairs(rng, text, drop_pair),
    |rng, text| on_pairs(rng, text, double_pair),
    |rng, text| on_pairs(rng, text, swap_pairs),
    |rng, text| on_pairs(rng, text, other_key),
    |rng, text| on_pairs(rng, text, no_key),
    |rng, text| on_pairs(rng, text, odd_blank),
    |rng, text| on_pairs(rng, text, more_pairs),
    |rng, text| on_pairs(rng, text, no_number),
    |rng, text| on_pairs(rng, text, no_number),
    |rng, text| on_pairs(rng, text, any_number),
];

/// Damage to the ends of lines and of the text.
pub const ENDS: &[Damage] = &[
    crlf_everywhere,
    crlf_somewhere,
    cr_for_lf,
    no_last_lf,
    end_anywhere,
    end_in_a_line,
    end_behind_a_line,
    byte_order_mark,
    blank_at_an_end,
    nul_at_an_end,
];

/// One damage of any kind.
pub fn any(rng: &mut Rng, text: Vec<u8>) -> Vec<u8> {
    let kinds = rng.pick(&[BYTES, LINES, PAIRS, ENDS]);
    rng.pick(kinds)(rng, text)
}

/// A place of the text.
fn place(rng: &mut Rng, text: &[u8]) -> usize {
    rng.below(text.len())
}

fn flip_bit(rng: &mut Rng, mut text: Vec<u8>) -> Vec<u8> {
    let at = place(rng, &text);
    let bit = 1 << rng.below(8);
    if let Some(byte) = text.get_mut(at) {
        *byte ^= bit;
    }
    text
}

fn other_byte(rng: &mut Rng, mut text: Vec<u8>) -> Vec<u8> {
    let at = place(rng, &text);
    let new = rng.pick(SHEET_BYTES);
    if let Some(byte) = text.get_mut(at) {
        *byte = new;
    }
    text
}

fn odd_byte(rng: &mut Rng, mut text: Vec<u8>) -> Vec<u8> {
    let at = place(rng, &text);
    let new = rng.pick(ODD_BYTES);
    if let Some(byte) = text.get_mut(at) {
        *byte = new;
    }
    text
}

fn drop_byte(rng: &mut Rng, mut text: Vec<u8>) -> Vec<u8> {
    let at = place(rng, &text);
    if at < text.len() {
        text.remove(at);
    }
    text
}

fn double_byte(rng: &mut Rng, mut text: Vec<u8>) -> Vec<u8> {
    let at = place(rng, &text);
    if let Some(byte) = text.get(at).copied() {
        text.insert(at, byte);
    }
    text
}

fn swap_bytes(rng: &mut Rng, mut text: Vec<u8>) -> Vec<u8> {
    let at = place(rng, &text);
    if at + 1 < text.len() {
        text.swap(at, at + 1);
    }
    text
}

fn move_byte(rng: &mut Rng, mut text: Vec<u8>) -> Vec<u8> {
    if !text.is_empty() {
        let from = place(rng, &text);
        let byte = text.remove(from);
        let to = rng.below(text.len() + 1);
        text.insert(to, byte);
    }
    text
}

fn insert_byte(rng: &mut Rng, mut text: Vec<u8>) -> Vec<u8> {
    let at = rng.below(text.len() + 1);
    let byte = rng.pick(ODD_BYTES);
    text.insert(at, byte);
    text
}

fn some_bytes(rng: &mut Rng, text: &[u8]) -> std::ops::Range<usize> {
    let from = place(rng, text);
    let to = (from + 1 + rng.below(12)).min(text.len());
    from..to
}

fn drop_bytes(rng: &mut Rng, mut text: Vec<u8>) -> Vec<u8> {
    text.drain(some_bytes(rng, &text));
    text
}

fn double_bytes(rng: &mut Rng, mut text: Vec<u8>) -> Vec<u8> {
    let part = some_bytes(rng, &text);
    let again = text[part.clone()].to_vec();
    text.splice(part.start..part.start, again);
    text
}

/// Damage to the lines of a text that has some.
fn on_lines(rng: &mut Rng, text: Vec<u8>, damage: fn(&mut Rng, &mut Sheet)) -> Vec<u8> {
    let mut sheet = Sheet::of(&text);
    if !sheet.lines.is_empty() {
        damage(rng, &mut sheet);
    }
    sheet.text()
}

fn drop_line(rng: &mut Rng, sheet: &mut Sheet) {
    let line = sheet.any_line(rng);
    sheet.lines.remove(line);
}

fn double_line(rng: &mut Rng, sheet: &mut Sheet) {
    let line = sheet.any_line(rng);
    let again = sheet.lines[line].clone();
    sheet.lines.insert(line, again);
}

fn move_line(rng: &mut Rng, sheet: &mut Sheet) {
    let from = sheet.any_line(rng);
    let moved = sheet.lines.remove(from);
    let to = rng.below(sheet.lines.len() + 1);
    sheet.lines.insert(to, moved);
}

fn swap_lines(rng: &mut Rng, sheet: &mut Sheet) {
    let one = sheet.any_line(rng);
    let other = sheet.any_line(rng);
    sheet.lines.swap(one, other);
}

fn join_lines(rng: &mut Rng, sheet: &mut Sheet) {
    let line = sheet.any_line(rng);
    if line + 1 < sheet.lines.len() {
        let behind = sheet.lines.remove(line + 1);
        if rng.once_in(2) {
            sheet.lines[line].push(b' ');
        }
        sheet.lines[line].extend(behind);
    }
}

fn split_line(rng: &mut Rng, sheet: &mut Sheet) {
    let line = sheet.any_line(rng);
    let all = pairs(&sheet.lines[line]);
    let at = rng.below(all.len() + 1);
    let behind = all[at..].join(&b' ');
    sheet.lines[line] = all[..at].join(&b' ');
    sheet.lines.insert(line + 1, behind);
}

fn empty_line(rng: &mut Rng, sheet: &mut Sheet) {
    let at = match rng.below(2) {
        0 => sheet.any_line(rng),
        _ => rng.below(sheet.lines.len() + 1),
    };
    sheet.lines.insert(at, Vec::new());
}

fn blank_line(rng: &mut Rng, sheet: &mut Sheet) {
    let at = sheet.any_line(rng);
    let blank: &[u8] = rng.pick(&[b" ", b"\r", b"\t", b"\0", b"  "]);
    sheet.lines.insert(at, blank.to_vec());
}

fn odd_line(rng: &mut Rng, sheet: &mut Sheet) {
    let line = sheet.any_line(rng);
    let length = rng.below(40);
    sheet.lines[line] = rng.bytes_of(ODD_BYTES, length);
}

/// Damage to the pairs of one line of a text that has some.
fn on_pairs(rng: &mut Rng, text: Vec<u8>, damage: PairDamage) -> Vec<u8> {
    let mut sheet = Sheet::of(&text);
    if !sheet.lines.is_empty() {
        let line = sheet.any_line(rng);
        damage_pairs(rng, &mut sheet.lines[line], damage);
    }
    sheet.text()
}

/// Damage to the pairs of a line.
pub fn damage_pairs(rng: &mut Rng, line: &mut Vec<u8>, damage: PairDamage) {
    let mut all = pairs(line);
    damage(rng, &mut all);
    *line = all.join(&b' ');
}

/// Damage to the pairs of a line that leaves no good line.
pub const BROKEN_PAIRS: &[PairDamage] = &[
    drop_pair,
    double_pair,
    other_key,
    no_key,
    odd_blank,
    more_pairs,
];

fn drop_pair(rng: &mut Rng, pairs: &mut Pairs) {
    let at = match rng.below(3) {
        0 => pairs.len() - 1,
        _ => rng.below(pairs.len()),
    };
    pairs.remove(at);
}

fn double_pair(rng: &mut Rng, pairs: &mut Pairs) {
    let at = rng.below(pairs.len());
    pairs.insert(at, pairs[at].clone());
}

fn swap_pairs(rng: &mut Rng, pairs: &mut Pairs) {
    let one = rng.below(pairs.len());
    let other = rng.below(pairs.len());
    pairs.swap(one, other);
}

fn other_key(rng: &mut Rng, pairs: &mut Pairs) {
    let at = rng.below(pairs.len());
    let pair = &mut pairs[at];
    let end = pair.iter().position(|byte| *byte == b'=').unwrap_or(0);
    match rng.below(5) {
        0 => pair[..end].make_ascii_uppercase(),
        1 => pair.insert(end, b's'),
        2 => pair.insert(0, b'a'),
        3 if end > 0 => drop(pair.remove(end - 1)),
        _ => drop(pair.splice(..end, *b"xx")),
    }
}

fn no_key(rng: &mut Rng, pairs: &mut Pairs) {
    let at = rng.below(pairs.len());
    let pair = &mut pairs[at];
    let end = pair.iter().position(|byte| *byte == b'=').unwrap_or(0);
    match rng.below(4) {
        0 => drop(pair.drain(..end)),
        1 => pair.truncate(end),
        2 => drop(pair.splice(end..(end + 1).min(pair.len()), *b":")),
        _ => drop(pair.splice(end..(end + 1).min(pair.len()), *b" = ")),
    }
}

fn odd_blank(rng: &mut Rng, pairs: &mut Pairs) {
    let at = rng.below(pairs.len());
    let odd: &[u8] = rng.pick(&[b" ", b"\t", b"\r", b"\0", b"\xc2\xa0", b","]);
    match rng.below(2) {
        0 => pairs[at].extend_from_slice(odd),
        _ => drop(pairs[at].splice(..0, odd.to_vec())),
    }
}

fn more_pairs(rng: &mut Rng, pairs: &mut Pairs) {
    let more: &[u8] = rng.pick(&[b"", b"x=1", b"to=5 at=5", b"inst=0", b"#", b"="]);
    pairs.push(more.to_vec());
}

fn no_number(rng: &mut Rng, pairs: &mut Pairs) {
    let at = rng.below(pairs.len());
    let value = rng.pick(NO_NUMBERS);
    set_value(&mut pairs[at], 0, value.as_bytes());
}

fn any_number(rng: &mut Rng, pairs: &mut Pairs) {
    let at = rng.below(pairs.len());
    let value = match rng.below(3) {
        0 => rng.between(-9_999_999, 9_999_999),
        1 => rng.between(-30, 1_000),
        _ => rng.pick(&[-9_999_999, 9_999_999, -1, 0, 1, 2, 12, 13, 24, 901]),
    };
    set_value(&mut pairs[at], 0, value.to_string().as_bytes());
}

fn crlf_everywhere(_: &mut Rng, text: Vec<u8>) -> Vec<u8> {
    let mut sheet = Sheet::of(&text);
    for line in &mut sheet.lines {
        line.push(b'\r');
    }
    sheet.text()
}

fn crlf_somewhere(rng: &mut Rng, text: Vec<u8>) -> Vec<u8> {
    on_lines(rng, text, |rng, sheet| {
        let line = sheet.any_line(rng);
        sheet.lines[line].push(b'\r');
    })
}

fn cr_for_lf(_: &mut Rng, mut text: Vec<u8>) -> Vec<u8> {
    for byte in &mut text {
        if *byte == b'\n' {
            *byte = b'\r';
        }
    }
    text
}

/// The text without the LF of its last line that is not empty.
fn no_last_lf(_: &mut Rng, mut text: Vec<u8>) -> Vec<u8> {
    while text.last() == Some(&b'\n') {
        text.pop();
    }
    text
}

fn end_anywhere(rng: &mut Rng, mut text: Vec<u8>) -> Vec<u8> {
    let end = rng.below(text.len() + 1);
    text.truncate(end);
    text
}

fn end_in_a_line(rng: &mut Rng, text: Vec<u8>) -> Vec<u8> {
    on_lines(rng, text, |rng, sheet| {
        let line = sheet.any_line(rng);
        sheet.end_in(line, |length| match rng.below(3) {
            0 => length,
            1 => length.saturating_sub(1),
            _ => rng.below(length + 1),
        });
    })
}

fn end_behind_a_line(rng: &mut Rng, text: Vec<u8>) -> Vec<u8> {
    on_lines(rng, text, |rng, sheet| {
        let line = sheet.any_line(rng);
        sheet.lines.truncate(line + 1);
        sheet.ended = true;
    })
}

fn byte_order_mark(_: &mut Rng, mut text: Vec<u8>) -> Vec<u8> {
    text.splice(..0, *b"\xef\xbb\xbf");
    text
}

fn at_an_end(rng: &mut Rng, text: Vec<u8>, byte: u8) -> Vec<u8> {
    let mut sheet = Sheet::of(&text);
    if sheet.lines.is_empty() {
        return vec![byte];
    }
    let line = sheet.any_line(rng);
    let line = &mut sheet.lines[line];
    let at = rng.pick(&[0, line.len()]);
    line.insert(at, byte);
    sheet.text()
}

fn blank_at_an_end(rng: &mut Rng, text: Vec<u8>) -> Vec<u8> {
    at_an_end(rng, text, b' ')
}

fn nul_at_an_end(rng: &mut Rng, text: Vec<u8>) -> Vec<u8> {
    at_an_end(rng, text, 0)
}

/// The block with its closing empty line and these bytes behind it.
pub fn with_surplus(mut block: Vec<u8>, surplus: &[u8]) -> Vec<u8> {
    if !block.ends_with(b"\n\n") {
        block.push(b'\n');
    }
    block.extend_from_slice(surplus);
    block
}

#[cfg(test)]
mod tests {
    use super::*;

    #[test]
    fn a_sheet_gives_its_text_back() {
        for text in ["", "\n", "a", "a\n", "a\nb", "a\n\n", "\n\na\n"] {
            assert_eq!(Sheet::of(text.as_bytes()).text(), text.as_bytes());
        }
    }

    #[test]
    fn values_are_set_behind_their_keys() {
        let mut line = b"a=1 b=2 c=3".to_vec();
        set_value(&mut line, 1, b"-7");
        assert_eq!(line, b"a=1 b=-7 c=3");
        set_value(&mut line, 9, b"5");
        assert_eq!(line, b"a=1 b=-7 c=3");
    }

    #[test]
    fn every_damage_takes_every_text() {
        for kinds in [BYTES, LINES, PAIRS, ENDS] {
            for damage in kinds {
                for text in ["", "\n", "a", "a=1 b=2\n", "\n\n\n", "=\n =\n"] {
                    for index in 0..40 {
                        damage(&mut Rng::new(1, index), text.as_bytes().to_vec());
                    }
                }
            }
        }
    }

    #[test]
    fn no_number_is_a_number() {
        for value in NO_NUMBERS {
            assert_eq!(second::text::number(value.as_bytes()), None, "{value:?}");
        }
    }
}

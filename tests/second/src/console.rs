//! Standard input, output and error of the programs.

use std::fs::File;
use std::io::{self, ErrorKind, Read, Write};
use std::os::fd::AsFd;

use crate::archive::Moved;
use crate::curve::Way;
use crate::Run;

/// The argument that asks for curves to be read kilowatt by kilowatt.
const BY_KILOWATTS: &str = "--kilowatts";

/// The run that the program's arguments ask for.
pub fn run() -> Run {
    let asked = std::env::args_os().any(|argument| argument == BY_KILOWATTS);
    Run::quiet(if asked { Way::Kilowatts } else { Way::Steps })
}

/// Standard input to its end. What cannot be read counts as the end.
pub fn read_all() -> Vec<u8> {
    let mut input = Vec::new();
    let _ = io::stdin().lock().read_to_end(&mut input);
    input
}

/// Standard input up to and with the first empty line, and not a byte further:
/// the block has its answer as soon as it has closed, and what follows stays
/// for the next reader.
pub fn read_block() -> Vec<u8> {
    let mut input = Vec::new();
    if let Ok(handle) = io::stdin().as_fd().try_clone_to_owned() {
        read_block_from(&mut File::from(handle), &mut input);
    }
    input
}

fn read_block_from(source: &mut impl Read, input: &mut Vec<u8>) {
    let mut byte = [0];
    while !(input == b"\n" || input.ends_with(b"\n\n")) {
        match source.read(&mut byte) {
            Ok(1..) => input.push(byte[0]),
            Err(error) if error.kind() == ErrorKind::Interrupted => {}
            Ok(0) | Err(_) => return,
        }
    }
}

/// Prints the answer. A closed standard output takes nothing, and no harm.
pub fn print(answer: &str) {
    write(&mut io::stdout().lock(), answer.as_bytes());
}

/// Writes a moved sheet on standard output, or its refusal on standard error:
/// one of the two stays empty.
pub fn hand_on(moved: &Moved) {
    match moved {
        Moved::Sheet(text) => write(&mut io::stdout().lock(), text),
        Moved::Refused(refusal) => {
            let line = format!("{refusal}\n");
            write(&mut io::stderr().lock(), line.as_bytes());
        }
    }
}

fn write(out: &mut impl Write, bytes: &[u8]) {
    let _ = out.write_all(bytes);
    let _ = out.flush();
}

#[cfg(test)]
mod tests {
    use super::*;

    fn taken(mut text: &[u8]) -> (Vec<u8>, Vec<u8>) {
        let mut input = Vec::new();
        read_block_from(&mut text, &mut input);
        (input, text.to_vec())
    }

    #[test]
    fn a_block_is_read_up_to_its_empty_line() {
        let pair = |input: &str, left: &str| (input.into(), left.into());
        assert_eq!(taken(b"a\n\nb\n"), pair("a\n\n", "b\n"));
        assert_eq!(taken(b"\n\nb\n"), pair("\n", "\nb\n"));
        assert_eq!(taken(b"a\nb"), pair("a\nb", ""));
        assert_eq!(taken(b""), pair("", ""));
    }
}

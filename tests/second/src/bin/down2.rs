//! Reads a stored sheet of form 2 from standard input and writes it in form 1.

use second::{archive, console};

fn main() {
    let moved = archive::down(&console::read_all(), &mut console::run());
    console::hand_on(&moved);
}

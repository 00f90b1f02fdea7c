//! Reads a stored sheet of form 1 from standard input and writes it in form 2.

use second::{archive, console};

fn main() {
    let moved = archive::up(&console::read_all(), &mut console::run());
    console::hand_on(&moved);
}

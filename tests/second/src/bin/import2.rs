//! Reads a curtailed import from standard input and prints what its day pays.

use second::{console, import};

fn main() {
    let answer = import::program(&console::read_all(), &mut console::run());
    console::print(&answer);
}

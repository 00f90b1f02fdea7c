//! Reads one hour block from standard input and prints its contributions and its pay.

use second::{console, hour};

fn main() {
    let answer = hour::program(&console::read_block(), &mut console::run());
    console::print(&answer);
}

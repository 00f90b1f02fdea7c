//! Reads a line's day from standard input and prints each hour and the total.

use second::{console, line};

fn main() {
    let answer = line::program(&console::read_all(), &mut console::run());
    console::print(&answer);
}

//! Reads the headers of three days and the blocks of the one between from
//! standard input, and prints each hour and the total.

use second::{console, day};

fn main() {
    let answer = day::program(&console::read_all(), &mut console::run());
    console::print(&answer);
}

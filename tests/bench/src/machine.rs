//! The kind of machine that was measured on.

use std::fs;
use std::thread::available_parallelism;

/// The processor's model, how many cores there are, and how busy they are
/// before anything is measured: other work makes the absolute figures worse.
pub fn kind() -> String {
    let about = fs::read_to_string("/proc/cpuinfo").unwrap_or_default();
    let line = about.lines().find(|line| line.starts_with("model name"));
    let model = line.and_then(|line| line.split(": ").nth(1));
    let cores = available_parallelism().map_or(0, usize::from);
    let model = model.unwrap_or("unknown processor");
    let load = fs::read_to_string("/proc/loadavg").unwrap_or_default();
    let load = load.split(' ').next().unwrap_or_default();
    format!("{model}, {cores} cores, a load of {load} before")
}

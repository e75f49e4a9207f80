//! The table that is printed.

use crate::measure::Times;
use std::time::Duration;

pub struct Line {
    pub call: &'static str,
    pub set: &'static str,
    /// The bytes read or written by one call.
    pub bytes: Option<usize>,
    pub times: Times,
}

pub fn head() {
    println!("| call | set | ours | oracle | ours / oracle |");
    println!("|---|---|---:|---:|---:|");
}

pub fn line(line: &Line) {
    let Times { ours, theirs } = line.times;
    println!(
        "| {} | {} | {} | {} | {:.2} |",
        line.call,
        line.set,
        shown(ours, line.bytes),
        shown(theirs, line.bytes),
        ours.as_secs_f64() / theirs.as_secs_f64()
    );
}

pub fn foot() {
    println!();
    println!(
        "Each is the median of several timed pieces, the two sides in turn on the same input."
    );
    println!(
        "Lent buffers are cleared before each piece, outside of the time. A piece is one call of"
    );
    println!(
        "the longest schedule; elsewhere it is many calls, and between those nothing is cleared."
    );
}

fn shown(time: Duration, bytes: Option<usize>) -> String {
    let seconds = time.as_secs_f64();
    match bytes {
        Some(bytes) => format!("{:.0} MB/s", bytes as f64 / seconds / 1e6),
        None if seconds < 1e-6 => format!("{:.0} ns", seconds * 1e9),
        None if seconds < 1e-3 => format!("{:.1} µs", seconds * 1e6),
        None => format!("{:.1} ms", seconds * 1e3),
    }
}

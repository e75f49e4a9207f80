//! Times the proved calls beside the oracle's on the same inputs, in the same run.
//! A ratio says more than a time: it hardly depends on the machine.
//! `--once` makes each call once, to see that all of it still runs.

mod measure;
mod report;
mod sets;

use boundary::LEAST_OUT;
use measure::{measure, Pace};
use report::Line;
use sets::Set;
use std::hint::black_box;
use std::process::ExitCode;

const WORST_WORDS: usize = 4 * 64 * 100_000;

fn main() -> ExitCode {
    let words: Vec<String> = std::env::args().skip(1).collect();
    let words: Vec<&str> = words.iter().map(String::as_str).collect();
    match words.as_slice() {
        [] => {
            all(|pace| pace);
            report::foot();
        }
        ["--once"] => all(|_| Pace::Once),
        _ => {
            eprintln!("usage: bench/run [--once]");
            return ExitCode::from(2);
        }
    }
    ExitCode::SUCCESS
}

/// Every line of the table, each at the pace that is made of its own.
fn all(pace_for: fn(Pace) -> Pace) {
    let many = pace_for(Pace::Many);
    report::head();
    for set in sets::for_verdict() {
        report::line(&verdict(&set, many));
    }
    let mut rows = vec![0; WORST_WORDS];
    for (set, pace) in sets::for_schedule() {
        report::line(&schedule(&set, pace_for(pace), &mut rows));
    }
    for set in sets::for_pattern() {
        report::line(&pattern(&set, many, &mut rows));
    }
    for set in sets::for_check() {
        report::line(&check(&set, many));
    }
    for set in sets::for_text() {
        report::line(&reader(&set, many));
        report::line(&writer(&set, many));
        report::line(&sheet_reader(&set, many));
        report::line(&sheet_writer(&set, many));
    }
}

fn verdict(set: &Set, pace: Pace) -> Line {
    let table = &set.table;
    let ours = |_: &mut ()| u64::from(boundary::verdict(black_box(table), &mut [0; LEAST_OUT]));
    let theirs = |_: &mut ()| {
        let answer = oracle::verdict(black_box(table));
        u64::from(answer.map_or_else(oracle::Refusal::number, oracle::Verdict::number))
    };
    let times = measure(pace, &mut (), |_| (), ours, theirs);
    Line { call: "verdict", set: set.name, bytes: None, times }
}

/// The rows are cleared before every timed piece, so no page is touched for the first time in it.
fn schedule(set: &Set, pace: Pace, rows: &mut Vec<u64>) -> Line {
    let table = &set.table;
    let ours = |rows: &mut Vec<u64>| {
        let mut out = [0; LEAST_OUT];
        boundary::schedule(black_box(table), 100_000, rows, &mut out);
        out[0]
    };
    let theirs = |rows: &mut Vec<u64>| {
        oracle::schedule(black_box(table), 100_000, rows).map_or(0, |schedule| schedule.rows as u64)
    };
    let words = oracle::schedule::words_needed(table, 100_000).expect("a table in range");
    let clear = |rows: &mut Vec<u64>| rows[..words].fill(0);
    let times = measure(pace, rows, clear, ours, theirs);
    Line { call: "schedule", set: set.name, bytes: None, times }
}

fn pattern(set: &Set, pace: Pace, rows: &mut Vec<u64>) -> Line {
    let table = &set.table;
    let ours = |rows: &mut Vec<u64>| {
        let mut out = [0; LEAST_OUT];
        boundary::pattern(black_box(table), rows, &mut out);
        out[0]
    };
    let theirs = |rows: &mut Vec<u64>| {
        oracle::pattern(black_box(table), rows).map_or(0, |count| count as u64)
    };
    let words = oracle::pattern::words_needed(table).expect("a set that misses");
    let clear = |rows: &mut Vec<u64>| rows[..words].fill(0);
    let times = measure(pace, rows, clear, ours, theirs);
    Line { call: "pattern", set: set.name, bytes: None, times }
}

fn check(set: &Set, pace: Pace) -> Line {
    let text = oracle::writer::set_text(&set.table);
    let ours = |_: &mut ()| u64::from(boundary::tile_check(black_box(&text)));
    let theirs = |_: &mut ()| u64::from(oracle::tile_check(black_box(&text)));
    let times = measure(pace, &mut (), |_| (), ours, theirs);
    Line { call: "tile_check", set: set.name, bytes: Some(text.len()), times }
}

fn reader(set: &Set, pace: Pace) -> Line {
    let text = oracle::writer::set_text(&set.table);
    let ours = |table: &mut [u32; 256]| {
        let mut out = [0; LEAST_OUT];
        boundary::read(black_box(&text), table, &mut out);
        out[0]
    };
    let theirs = |table: &mut [u32; 256]| {
        oracle::read(black_box(&text), table).0.map_or(0, |tasks| tasks as u64)
    };
    let times = measure(pace, &mut [0; 256], |table| table.fill(0), ours, theirs);
    Line { call: "reader", set: set.name, bytes: Some(text.len()), times }
}

fn writer(set: &Set, pace: Pace) -> Line {
    let table = &set.table;
    let ours = |text: &mut [u8; 4096]| {
        let mut out = [0; LEAST_OUT];
        boundary::write(black_box(table), text, &mut out);
        out[0]
    };
    let theirs = |text: &mut [u8; 4096]| {
        oracle::write(black_box(table), text).map_or(0, |length| length as u64)
    };
    let times = measure(pace, &mut [0; 4096], |text| text.fill(0), ours, theirs);
    let length = oracle::writer::set_text(table).len();
    Line { call: "writer", set: set.name, bytes: Some(length), times }
}

fn sheet_reader(set: &Set, pace: Pace) -> Line {
    let sheet = oracle::sheet::sheet_of(&set.table);
    let ours = |table: &mut [u32; 256]| {
        let mut out = [0; LEAST_OUT];
        boundary::sheet_read(black_box(&sheet), table, &mut out);
        out[0]
    };
    let theirs = |table: &mut [u32; 256]| {
        oracle::read_sheet(black_box(&sheet), table).map_or(0, |tasks| tasks as u64)
    };
    let times = measure(pace, &mut [0; 256], |table| table.fill(0), ours, theirs);
    Line { call: "sheet reader", set: set.name, bytes: Some(sheet.len()), times }
}

fn sheet_writer(set: &Set, pace: Pace) -> Line {
    let table = &set.table;
    let ours = |sheet: &mut [u8; 4096]| {
        let mut out = [0; LEAST_OUT];
        boundary::sheet_write(black_box(table), sheet, &mut out);
        out[0]
    };
    let theirs = |sheet: &mut [u8; 4096]| {
        oracle::write_sheet(black_box(table), sheet).map_or(0, |length| length as u64)
    };
    let times = measure(pace, &mut [0; 4096], |sheet| sheet.fill(0), ours, theirs);
    let length = oracle::sheet::sheet_of(table).len();
    Line { call: "sheet writer", set: set.name, bytes: Some(length), times }
}

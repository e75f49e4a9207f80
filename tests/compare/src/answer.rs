//! The oracle's answers in the form of the probe's boundary: a number, and what goes to `out`.

use boundary::{NO_BLOCKER, SHORT_OUT};
use oracle::{Late, Refusal, Schedule, Verdict};

pub struct Answer {
    pub number: u32,
    pub carries: Vec<u64>,
}

fn answer(number: u32, carries: &[u64]) -> Answer {
    Answer { number, carries: carries.to_vec() }
}

pub fn short_out() -> Answer {
    answer(SHORT_OUT, &[])
}

fn refused(refusal: Refusal) -> Answer {
    match refusal {
        Refusal::OutOfRange { word } => answer(refusal.number(), &[word as u64]),
        Refusal::Line { line } => answer(refusal.number(), &[line as u64]),
        Refusal::Record { record } => answer(refusal.number(), &[record as u64]),
        _ => answer(refusal.number(), &[]),
    }
}

pub fn read(text: &[u8], table: &mut [u32]) -> Answer {
    match oracle::read(text, table) {
        (Ok(tasks), rest) => answer(0, &[tasks as u64, (text.len() - rest.len()) as u64]),
        (Err(refusal), _) => refused(refusal),
    }
}

pub fn write(table: &[u32], text: &mut [u8]) -> Answer {
    match oracle::write(table, text) {
        Ok(length) => answer(0, &[length as u64]),
        Err(refusal) => refused(refusal),
    }
}

pub fn schedule(table: &[u32], z: u32, rows: &mut [u64]) -> Answer {
    match oracle::schedule(table, z, rows) {
        Ok(Schedule { rows, late: None }) => answer(200, &[rows as u64]),
        Ok(Schedule { rows, late: Some(Late { task, job, deadline }) }) => {
            answer(201, &[rows as u64, task as u64, job, deadline])
        }
        Err(refusal) => refused(refusal),
    }
}

pub fn verdict(table: &[u32]) -> Answer {
    match oracle::verdict(table) {
        Ok(Verdict::Meets { span }) => answer(100, &[span]),
        Ok(Verdict::Misses { length, blocker, over }) => {
            answer(101, &[length, blocker.map_or(NO_BLOCKER, |task| task as u64), over])
        }
        Ok(Verdict::TooFar) => answer(102, &[]),
        Err(refusal) => refused(refusal),
    }
}

pub fn pattern(table: &[u32], rows: &mut [u64]) -> Answer {
    match oracle::pattern(table, rows) {
        Ok(count) => answer(0, &[count as u64]),
        Err(refusal) => refused(refusal),
    }
}

pub fn draw(state: u32) -> Answer {
    let mut after = state;
    let number = oracle::draw(&mut after);
    answer(0, &[u64::from(number), u64::from(after)])
}

/// The state comes last, after a refusal too.
pub fn generate(state: u32, number: u32, table: &mut [u32]) -> Answer {
    let mut after = state;
    match oracle::generate(&mut after, number, table) {
        Ok(tasks) => answer(0, &[tasks as u64, u64::from(after)]),
        Err(refusal) => answer(refusal.number(), &[u64::from(after)]),
    }
}

pub fn sheet_read(sheet: &[u8], table: &mut [u32]) -> Answer {
    match oracle::read_sheet(sheet, table) {
        Ok(tasks) => answer(0, &[tasks as u64]),
        Err(refusal) => refused(refusal),
    }
}

pub fn sheet_write(table: &[u32], sheet: &mut [u8]) -> Answer {
    match oracle::write_sheet(table, sheet) {
        Ok(length) => answer(0, &[length as u64]),
        Err(refusal) => refused(refusal),
    }
}

//! The drawn cases.

use crate::checks::Checker;
use crate::difference::Outcome;
use crate::trips;
use cases::{damage, tables, texts, Random};
use oracle::sheet::sheet_of;
use oracle::writer::set_text;

/// A schedule of more rows than this is drawn seldom.
const MANY_WORDS: usize = 40_000;
/// One round in this many has sixty-four tasks.
const LARGE: usize = 40;

pub fn run(checker: &mut Checker, rounds: usize) -> Outcome {
    for round in 0..rounds {
        read_valid(checker)?;
        read_damaged(checker)?;
        let table = if round % LARGE == LARGE - 1 {
            tables::large(&mut checker.random)
        } else {
            tables::any(&mut checker.random)
        };
        on_table(checker, &table)?;
        round_trips(checker)?;
    }
    Ok(())
}

pub fn on_table(checker: &mut Checker, table: &[u32]) -> Outcome {
    write(checker, table)?;
    sheet_write(checker, table)?;
    schedule(checker, table)?;
    checker.verdict(table)?;
    pattern(checker, table)
}

/// Lengths around the one that is needed, none at all and a much longer one.
pub fn lengths_around(needed: usize) -> Vec<usize> {
    let mut lengths =
        vec![0, needed / 2, needed.saturating_sub(1), needed, needed + 1, needed + 300];
    lengths.dedup();
    lengths
}

/// One length of those around, for cases that take long; the exact one is the likeliest.
fn one_length(random: &mut Random, needed: usize) -> usize {
    if random.one_in(2) {
        return needed;
    }
    let lengths = lengths_around(needed);
    random.pick(&lengths)
}

fn read_valid(checker: &mut Checker) -> Outcome {
    let mut text = texts::readable(&mut checker.random);
    let words = 4 * text_tasks(&text);
    if checker.random.one_in(2) {
        text.extend(texts::several(&mut checker.random));
    }
    for length in lengths_around(words) {
        checker.read(&text, length)?;
    }
    Ok(())
}

/// The task count of a well-formed text: its lines without the first, four a task.
fn text_tasks(text: &[u8]) -> usize {
    text.iter().filter(|&&byte| byte == b'\n').count() / 4
}

/// Every kind of damage once, to a text of one set or of several.
fn read_damaged(checker: &mut Checker) -> Outcome {
    let random = &mut checker.random;
    let whole = if random.one_in(2) { texts::readable(random) } else { texts::several(random) };
    for kind in damage::ALL {
        let text = damage::apply(kind, &mut checker.random, &whole);
        let refused = oracle::read(&text, &mut [0; 256]).0.is_err();
        checker.tally.damage(damage::name(kind), refused);
        for length in [0, 256] {
            checker.read(&text, length)?;
        }
    }
    Ok(())
}

fn write(checker: &mut Checker, table: &[u32]) -> Outcome {
    let needed = if oracle::table::tasks(table).is_ok() { set_text(table).len() } else { 30 };
    for length in lengths_around(needed) {
        checker.write(table, length)?;
    }
    Ok(())
}

fn sheet_write(checker: &mut Checker, table: &[u32]) -> Outcome {
    let needed = if oracle::table::tasks(table).is_ok() { sheet_of(table).len() } else { 50 };
    for length in lengths_around(needed) {
        checker.sheet_write(table, length)?;
    }
    Ok(())
}

fn schedule(checker: &mut Checker, table: &[u32]) -> Outcome {
    let small = checker.random.between(2, 150);
    for z in [0, 1, small, 100_000, 100_001, u32::MAX] {
        let needed = oracle::schedule::words_needed(table, z).unwrap_or(16);
        if needed <= 4000 {
            for length in lengths_around(needed) {
                checker.schedule(table, z, length)?;
            }
        } else if needed <= MANY_WORDS || checker.random.one_in(40) {
            let length = one_length(&mut checker.random, needed);
            checker.schedule(table, z, length)?;
        }
    }
    Ok(())
}

fn pattern(checker: &mut Checker, table: &[u32]) -> Outcome {
    match oracle::pattern::words_needed(table) {
        // Only a look to the horizon, so two lengths are enough.
        Err(oracle::Refusal::NotMisses) => {
            checker.pattern(table, 0)?;
            checker.pattern(table, 40)
        }
        needed => {
            for length in lengths_around(needed.unwrap_or(16)) {
                checker.pattern(table, length)?;
            }
            Ok(())
        }
    }
}

fn round_trips(checker: &mut Checker) -> Outcome {
    let table = if checker.random.one_in(LARGE) {
        tables::large(&mut checker.random)
    } else {
        tables::in_range(&mut checker.random)
    };
    trips::write_then_read(checker, &table)?;
    trips::sheet_then_text(checker, &table)?;
    let set = texts::in_range(&mut checker.random);
    let after =
        if checker.random.one_in(2) { texts::readable(&mut checker.random) } else { Vec::new() };
    trips::read_then_write(checker, &set, &after)
}

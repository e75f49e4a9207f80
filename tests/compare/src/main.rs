//! Compares every call of the probe with the oracle, word by word, on drawn and on fixed cases.
//!
//! `compare [ROUNDS]` stops at the first difference and shows the input. At the end it tells how
//! often each answer came, and fails if one that it knows of never came.

mod answer;
mod checks;
mod difference;
mod excess;
mod fixed;
mod generator;
mod lent;
mod rounds;
mod shades;
mod sheets;
mod tally;
mod trips;

use checks::Checker;
use difference::Outcome;
use std::process::ExitCode;
use tally::Tally;

const SEED: u64 = 2516;
const ROUNDS: usize = 3000;

fn main() -> ExitCode {
    let Some(rounds) = rounds_asked_for() else {
        eprintln!("usage: compare [ROUNDS]");
        return ExitCode::from(2);
    };
    println!("seed {SEED}, {rounds} rounds");
    let mut checker = Checker::new(SEED);
    if let Err(difference) = compare(&mut checker, rounds) {
        println!("{difference}");
        return ExitCode::FAILURE;
    }
    print!("{}", checker.tally);
    all_answers_came(&checker.tally)
}

/// A run in which some answer never came has compared too little.
fn all_answers_came(tally: &Tally) -> ExitCode {
    let missing = tally.missing();
    for answer in &missing {
        println!("NEVER CAME: {answer}");
    }
    if missing.is_empty() {
        ExitCode::SUCCESS
    } else {
        ExitCode::FAILURE
    }
}

fn rounds_asked_for() -> Option<usize> {
    match std::env::args().nth(1) {
        None => Some(ROUNDS),
        Some(word) => word.parse().ok(),
    }
}

fn compare(checker: &mut Checker, rounds: usize) -> Outcome {
    fixed::run(checker)?;
    rounds::run(checker, rounds)?;
    excess::run(checker, rounds)?;
    generator::run(checker, rounds)?;
    sheets::run(checker, rounds)
}

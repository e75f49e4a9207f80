//! The generator: fixed states with every number, drawn ones, and states carried on by each side.

use crate::answer;
use crate::checks::Checker;
use crate::difference::{Difference, Outcome};
use crate::rounds::lengths_around;
use crate::trips;
use boundary::LEAST_OUT;
use cases::states;
use oracle::generator::{words_needed, MOST_DRAWN};

/// How far a state is carried, by draws and by sets.
const DRAWS: usize = 100_000;
const SETS: u32 = 10_000;
/// One round in this many goes through every length of the table.
const EVERY_LENGTH: usize = 6;

pub fn run(checker: &mut Checker, rounds: usize) -> Outcome {
    for state in states::fixed() {
        on_state(checker, state, &states::numbers())?;
        every_length(checker, state)?;
        short_outs(checker, state)?;
    }
    for round in 0..rounds {
        let state = checker.random.number() as u32;
        let numbers = [checker.random.number() as u32, 4 * (round as u32)];
        on_state(checker, state, &numbers)?;
        if round % EVERY_LENGTH == 0 {
            every_length(checker, state)?;
        }
    }
    for seed in [0, 7, u32::MAX] {
        carry_by_draws(checker, seed)?;
        carry_by_sets(checker, seed)?;
    }
    Ok(())
}

fn on_state(checker: &mut Checker, state: u32, numbers: &[u32]) -> Outcome {
    checker.draw(state)?;
    for &number in numbers {
        for length in lengths_around(words_needed(state)) {
            checker.generate(state, number, length)?;
        }
    }
    trips::generate_then_judge(checker, state, 0)?;
    trips::generate_then_judge(checker, state, 1)
}

/// With and without the long kernel.
fn every_length(checker: &mut Checker, state: u32) -> Outcome {
    for length in 0..=words_needed(state) + 5 {
        checker.generate(state, 0, length)?;
        checker.generate(state, 1, length)?;
    }
    Ok(())
}

/// A short `out` goes before a short table.
fn short_outs(checker: &mut Checker, state: u32) -> Outcome {
    for out_length in 0..=5 {
        checker.out = Some(out_length);
        checker.draw(state)?;
        for length in [0, words_needed(state)] {
            checker.generate(state, 4, length)?;
        }
    }
    checker.out = None;
    Ok(())
}

fn carry_by_draws(checker: &mut Checker, seed: u32) -> Outcome {
    let call = "a state carried on by draws";
    let (mut ours, mut theirs) = (seed, seed);
    for step in 0..DRAWS {
        let mut out = [0; LEAST_OUT];
        let number = boundary::draw(ours, &mut out);
        let wanted = u64::from(oracle::draw(&mut theirs));
        ours = out[1] as u32;
        if number != 0 || out != [wanted, u64::from(theirs), 0, 0] {
            let input = format!("seed {seed}, draw {step}");
            let found = format!("wanted {wanted} and state {theirs}, got {number}, {out:?}");
            return Err(Difference { call, input, found });
        }
        checker.tally.case(call, number);
    }
    Ok(())
}

/// Before each set a table is tried that mostly is too short.
fn carry_by_sets(checker: &mut Checker, seed: u32) -> Outcome {
    let call = "a state carried on by sets";
    let mut carried = Carried { ours: seed, theirs: seed };
    for number in 0..SETS {
        for length in [checker.random.below(MOST_DRAWN), MOST_DRAWN] {
            match carried.set(number, length) {
                Ok(answer) => checker.tally.case(call, answer),
                Err(found) => {
                    let input = format!("seed {seed}, number {number}, table of {length}");
                    return Err(Difference { call, input, found });
                }
            }
        }
    }
    Ok(())
}

/// The state of each side.
struct Carried {
    ours: u32,
    theirs: u32,
}

impl Carried {
    /// Both sides draw a set; the number that they agree on, or what differs.
    fn set(&mut self, number: u32, length: usize) -> Result<u32, String> {
        let mut table = [0xdead_beef; MOST_DRAWN];
        let mut same = table;
        let mut out = [0; LEAST_OUT];
        let got = boundary::generate(self.ours, number, &mut table[..length], &mut out);
        let wanted = answer::generate(self.theirs, number, &mut same[..length]);
        let state = wanted.carries.len() - 1;
        self.ours = out[state] as u32;
        self.theirs = wanted.carries[state] as u32;
        if got == wanted.number && out[..=state] == wanted.carries[..] && table == same {
            return Ok(got);
        }
        let wanted = format!("wanted {}, {:?}, {same:?}", wanted.number, wanted.carries);
        Err(format!("{wanted}; got {got}, {out:?}, {table:?}"))
    }
}

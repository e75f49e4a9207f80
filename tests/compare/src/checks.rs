//! One check for each call: the probe and the oracle get the same input and equal buffers,
//! and the number, `out` and every other buffer have to be equal afterwards.

use crate::answer::{self, Answer};
use crate::difference::{show_table, show_text, Difference, Outcome};
use crate::lent::{Lent, Word};
use crate::shades;
use crate::tally::Tally;
use boundary::LEAST_OUT;
use cases::Random;

pub struct Checker {
    pub random: Random,
    pub tally: Tally,
    /// The length of `out`, where it isn't drawn.
    pub out: Option<usize>,
}

/// What one call did: the number, `out` and the other lent buffer.
pub struct Done<W> {
    pub number: u32,
    pub out: Lent<u64>,
    pub buffer: Lent<W>,
}

impl<W: Word> Done<W> {
    /// Nothing done so far, with freshly filled buffers.
    fn before(length: usize, out_length: usize, salt: u64) -> Done<W> {
        Done { number: 0, out: Lent::new(out_length, !salt), buffer: Lent::new(length, salt) }
    }

    /// What the probe does.
    fn ours(mut self, call: impl FnOnce(&mut [W], &mut [u64]) -> u32) -> Done<W> {
        self.number = call(self.buffer.lend(), self.out.lend());
        self
    }

    /// What the oracle says should be done; a short `out` stops everything.
    fn wanted(mut self, ask: impl FnOnce(&mut [W]) -> Answer) -> Done<W> {
        let served = self.out.content().len() >= LEAST_OUT;
        let answer = if served { ask(self.buffer.lend()) } else { answer::short_out() };
        self.number = answer.number;
        self.out.lend()[..answer.carries.len()].copy_from_slice(&answer.carries);
        self
    }

    fn first_difference(&self, wanted: &Done<W>) -> Option<String> {
        if self.number != wanted.number {
            let outs =
                format!("out wanted {:?}, got {:?}", wanted.out.content(), self.out.content());
            return Some(format!("number: wanted {}, got {}; {outs}", wanted.number, self.number));
        }
        if let Some(found) = self.out.first_difference(&wanted.out) {
            return Some(format!("out, {found}"));
        }
        self.buffer.first_difference(&wanted.buffer).map(|found| format!("buffer, {found}"))
    }

    fn lengths(&self) -> String {
        format!("buffer of {}, out of {}", self.buffer.content().len(), self.out.content().len())
    }
}

impl Checker {
    pub fn new(seed: u64) -> Checker {
        Checker { random: Random::new(seed), tally: Tally::default(), out: None }
    }

    pub fn read(&mut self, text: &[u8], length: usize) -> Outcome {
        let copy = text.to_vec();
        let input = || show_text(text);
        let ours = |table: &mut [u32], out: &mut [u64]| boundary::read(&copy, table, out);
        let wanted =
            self.check("probe_read", input, length, ours, |table| answer::read(text, table))?;
        self.tally.shades("probe_read", &shades::of_read(text, &wanted));
        unchanged("probe_read", &copy, text, input)
    }

    pub fn write(&mut self, table: &[u32], length: usize) -> Outcome {
        let copy = table.to_vec();
        let input = || show_table(table);
        let ours = |text: &mut [u8], out: &mut [u64]| boundary::write(&copy, text, out);
        let wanted =
            self.check("probe_write", input, length, ours, |text| answer::write(table, text))?;
        self.tally.shades("probe_write", &shades::of_write(table, &wanted));
        unchanged("probe_write", &copy, table, input)
    }

    pub fn schedule(&mut self, table: &[u32], z: u32, length: usize) -> Outcome {
        let copy = table.to_vec();
        let input = || format!("Z {z}, {}", show_table(table));
        let ours = |rows: &mut [u64], out: &mut [u64]| boundary::schedule(&copy, z, rows, out);
        let theirs = |rows: &mut [u64]| answer::schedule(table, z, rows);
        let wanted = self.check("probe_schedule", input, length, ours, theirs)?;
        self.tally.shades("probe_schedule", &shades::of_schedule(table, z, &wanted));
        unchanged("probe_schedule", &copy, table, input)
    }

    pub fn verdict(&mut self, table: &[u32]) -> Outcome {
        let copy = table.to_vec();
        let input = || show_table(table);
        let ours = |_: &mut [u64], out: &mut [u64]| boundary::verdict(&copy, out);
        let wanted = self.check("probe_verdict", input, 0, ours, |_| answer::verdict(table))?;
        self.tally.shades("probe_verdict", &shades::of_verdict(table, &wanted));
        unchanged("probe_verdict", &copy, table, input)
    }

    pub fn pattern(&mut self, table: &[u32], length: usize) -> Outcome {
        let copy = table.to_vec();
        let input = || show_table(table);
        let ours = |rows: &mut [u64], out: &mut [u64]| boundary::pattern(&copy, rows, out);
        let theirs = |rows: &mut [u64]| answer::pattern(table, rows);
        let wanted = self.check("probe_pattern", input, length, ours, theirs)?;
        self.tally.shades("probe_pattern", &shades::of_pattern(table, &wanted));
        unchanged("probe_pattern", &copy, table, input)
    }

    pub fn draw(&mut self, state: u32) -> Outcome {
        let input = || format!("state {state}");
        let ours = |_: &mut [u64], out: &mut [u64]| boundary::draw(state, out);
        let wanted = self.check("probe_draw", input, 0, ours, |_| answer::draw(state))?;
        self.tally.shades("probe_draw", &shades::of_draw(state, &wanted));
        Ok(())
    }

    pub fn generate(&mut self, state: u32, number: u32, length: usize) -> Outcome {
        let input = || format!("state {state}, number {number}");
        let ours =
            |table: &mut [u32], out: &mut [u64]| boundary::generate(state, number, table, out);
        let theirs = |table: &mut [u32]| answer::generate(state, number, table);
        let wanted = self.check("probe_generate", input, length, ours, theirs)?;
        self.tally.shades("probe_generate", &shades::of_generate(state, number, &wanted));
        Ok(())
    }

    pub fn sheet_read(&mut self, sheet: &[u8], length: usize) -> Outcome {
        let call = "probe_sheet_read";
        let copy = sheet.to_vec();
        let input = || show_text(sheet);
        let ours = |table: &mut [u32], out: &mut [u64]| boundary::sheet_read(&copy, table, out);
        let theirs = |table: &mut [u32]| answer::sheet_read(sheet, table);
        let wanted = self.check(call, input, length, ours, theirs)?;
        self.tally.shades(call, &shades::of_sheet_read(sheet, &wanted));
        unchanged(call, &copy, sheet, input)
    }

    pub fn sheet_write(&mut self, table: &[u32], length: usize) -> Outcome {
        let call = "probe_sheet_write";
        let copy = table.to_vec();
        let input = || show_table(table);
        let ours = |sheet: &mut [u8], out: &mut [u64]| boundary::sheet_write(&copy, sheet, out);
        let theirs = |sheet: &mut [u8]| answer::sheet_write(table, sheet);
        let wanted = self.check(call, input, length, ours, theirs)?;
        self.tally.shades(call, &shades::of_sheet_write(table, &wanted));
        unchanged(call, &copy, table, input)
    }

    /// Runs both sides, holds one to the other and counts the case; gives back what was wanted.
    fn check<W: Word>(
        &mut self,
        call: &'static str,
        input: impl Fn() -> String,
        length: usize,
        ours: impl FnOnce(&mut [W], &mut [u64]) -> u32,
        theirs: impl FnOnce(&mut [W]) -> Answer,
    ) -> Result<Done<W>, Difference> {
        let (out_length, salt) = (self.out_length(), self.random.number());
        let done = Done::before(length, out_length, salt).ours(ours);
        let wanted = Done::before(length, out_length, salt).wanted(theirs);
        if let Some(found) = done.first_difference(&wanted) {
            return Err(Difference {
                call,
                input: format!("{}; {}", input(), done.lengths()),
                found,
            });
        }
        self.tally.case(call, wanted.number);
        Ok(wanted)
    }

    /// Mostly the shortest `out` that is served; now and then too short or longer.
    fn out_length(&mut self) -> usize {
        if let Some(length) = self.out {
            return length;
        }
        match self.random.below(16) {
            0 => self.random.below(LEAST_OUT),
            1 | 2 => LEAST_OUT + 1 + self.random.below(8),
            _ => LEAST_OUT,
        }
    }
}

/// What is lent for reading only must stay as it is.
fn unchanged<W: PartialEq>(
    call: &'static str,
    now: &[W],
    before: &[W],
    input: impl Fn() -> String,
) -> Outcome {
    if now == before {
        return Ok(());
    }
    Err(Difference { call, input: input(), found: "its input was written to".to_string() })
}

//! Round trips through the probe alone.

use crate::answer;
use crate::checks::Checker;
use crate::difference::{show_table, show_text, Difference, Outcome};
use boundary::LEAST_OUT;

const MOST_WORDS: usize = 256;
/// The first line and 256 lines of eight bytes at most.
const MOST_TEXT: usize = 9 + 8 * MOST_WORDS;
/// The header and 64 records of 25 bytes at most.
const MOST_SHEET: usize = 35 + 25 * 64;

/// What the probe writes for a table in range is read back to the same numbers.
pub fn write_then_read(checker: &mut Checker, table: &[u32]) -> Outcome {
    let mut text = [0xee; MOST_TEXT];
    let mut back = [0xdead_beef; MOST_WORDS];
    let mut written = [0; LEAST_OUT];
    let mut read = [0; LEAST_OUT];
    let first = boundary::write(table, &mut text, &mut written);
    let length = (written[0] as usize).min(MOST_TEXT);
    let second = boundary::read(&text[..length], &mut back, &mut read);
    let same = first == 0
        && second == 0
        && read[..2] == [table.len() as u64 / 4, written[0]]
        && back[..table.len()] == *table;
    end(checker, "write, then read", "the numbers came back", same, || show_table(table))
}

/// What the probe reads from a set in range is written back to the same bytes.
pub fn read_then_write(checker: &mut Checker, set: &[u8], after: &[u8]) -> Outcome {
    let text = [set, after].concat();
    let mut table = [0xdead_beef; MOST_WORDS];
    let mut back = [0xee; MOST_TEXT];
    let mut read = [0; LEAST_OUT];
    let mut written = [0; LEAST_OUT];
    let first = boundary::read(&text, &mut table, &mut read);
    let words = (4 * read[0] as usize).min(MOST_WORDS);
    let second = boundary::write(&table[..words], &mut back, &mut written);
    let same = first == 0
        && second == 0
        && read[1] as usize == set.len()
        && written[0] as usize == set.len()
        && back[..set.len()] == *set;
    end(checker, "read, then write", "the bytes came back", same, || show_text(&text))
}

/// The sheet that the probe writes for a table in range is read back to the same numbers, and the text
/// of these is the text of the table.
pub fn sheet_then_text(checker: &mut Checker, table: &[u32]) -> Outcome {
    let mut sheet = [0xee; MOST_SHEET];
    let mut back = [0xdead_beef; MOST_WORDS];
    let mut text = [0xee; MOST_TEXT];
    let [mut written, mut read, mut again] = [[0; LEAST_OUT]; 3];
    let first = boundary::sheet_write(table, &mut sheet, &mut written);
    let length = (written[0] as usize).min(MOST_SHEET);
    let second = boundary::sheet_read(&sheet[..length], &mut back, &mut read);
    let words = (4 * read[0] as usize).min(MOST_WORDS);
    let third = boundary::write(&back[..words], &mut text, &mut again);
    let wanted = oracle::writer::set_text(table);
    let same = [first, second, third] == [0; 3]
        && back[..words] == *table
        && again[0] as usize == wanted.len()
        && text[..wanted.len()] == wanted[..];
    end(checker, "sheet, then text", "the table's text", same, || show_table(table))
}

/// What the probe draws is judged as the oracle judges it, not refused, and its text is read back to
/// it.
pub fn generate_then_judge(checker: &mut Checker, state: u32, number: u32) -> Outcome {
    let mut table = [0xdead_beef; MOST_WORDS];
    let mut drawn = [0; LEAST_OUT];
    let mut judged = [0; LEAST_OUT];
    let first = boundary::generate(state, number, &mut table, &mut drawn);
    let set = &table[..(4 * drawn[0] as usize).min(MOST_WORDS)];
    let second = boundary::verdict(set, &mut judged);
    let wanted = answer::verdict(set);
    let same = first == 0
        && (100..=102).contains(&second)
        && second == wanted.number
        && judged[..wanted.carries.len()] == wanted.carries[..];
    let input = || format!("state {state}, number {number}, {}", show_table(set));
    end(checker, "generate, then judge", "a verdict, and the right one", same, input)?;
    write_then_read(checker, set)
}

pub fn end(
    checker: &mut Checker,
    trip: &'static str,
    good: &str,
    same: bool,
    input: impl Fn() -> String,
) -> Outcome {
    if !same {
        return Err(Difference { call: trip, input: input(), found: format!("not: {good}") });
    }
    checker.tally.answer(trip, good);
    Ok(())
}

//! What the program that exchanges sheets and texts makes of its input, or the words that it refuses
//! with.

use crate::program::MOST_BYTES;
use crate::reader::read;
use crate::refusal::Refusal;
use crate::sheet::{read_sheet, sheet_of, COLUMNS};
use crate::table::{tasks, LARGEST, MOST_TASKS, MOST_WORDS};
use crate::writer::set_text;

/// The text of the set that a sheet holds.
pub fn to_text(sheet: &[u8]) -> Result<Vec<u8>, String> {
    short_enough(sheet)?;
    let mut table = [0; MOST_WORDS];
    let count = read_sheet(sheet, &mut table).map_err(in_sheet)?;
    let words = &table[..4 * count];
    tasks(words).map_err(in_sheet)?;
    Ok(set_text(words))
}

/// The sheet of the first set of a text.
pub fn to_sheet(text: &[u8]) -> Result<Vec<u8>, String> {
    short_enough(text)?;
    let mut table = [0; MOST_WORDS];
    let count = read(text, &mut table).0.map_err(in_text)?;
    let words = &table[..4 * count];
    tasks(words).map_err(in_text)?;
    Ok(sheet_of(words))
}

fn short_enough(input: &[u8]) -> Result<(), String> {
    if input.len() > MOST_BYTES {
        return Err(format!("the input has more than {MOST_BYTES} bytes"));
    }
    Ok(())
}

fn in_sheet(refusal: Refusal) -> String {
    let told = match refusal {
        Refusal::Header => {
            "the header must name execution, deadline, period and release once each".to_string()
        }
        Refusal::Record { record } if record > MOST_TASKS + 1 => {
            format!("record {record} is one too many: a tile has at most {MOST_TASKS} kernels")
        }
        Refusal::Record { record } => format!("record {record} is not as due"),
        Refusal::NoRecord => "no record comes after the header".to_string(),
        Refusal::OutOfRange { word } => {
            // The header is record 1, so the first task is record 2.
            format!("record {}: {} {}", word / 4 + 2, COLUMNS[word % 4], out_of_range(word))
        }
        other => unreachable!("a sheet is never refused with {}", other.number()),
    };
    format!("{told} (refusal {})", refusal.number())
}

fn in_text(refusal: Refusal) -> String {
    let told = match refusal {
        Refusal::Line { line } => format!("line {line} is missing or not as due"),
        // The tasks line is line 1, so word 0 stands on line 2.
        Refusal::OutOfRange { word } => format!("line {} {}", word + 2, out_of_range(word)),
        other => unreachable!("a text is never refused with {}", other.number()),
    };
    format!("{told} (refusal {})", refusal.number())
}

fn out_of_range(word: usize) -> String {
    let least = if word % 4 == 3 { 0 } else { 1 };
    format!("is out of its range, which is {least} to {LARGEST}")
}

//! Sheets: the ones at the edges, every short string of marks, and drawn ones, whole and damaged.

use crate::checks::Checker;
use crate::difference::Outcome;
use crate::rounds::lengths_around;
use crate::shades::words_in_sheet;
use cases::{sheet_damage, sheets, tables};
use oracle::sheet::sheet_of;

/// The longest of the short strings of marks.
const MARKS: usize = 5;
/// One round in this many goes through every length of the table and of the sheet.
const EVERY_LENGTH: usize = 20;

pub fn run(checker: &mut Checker, rounds: usize) -> Outcome {
    for sheet in sheets::extreme() {
        around_need(checker, &sheet)?;
    }
    every_short_string(checker)?;
    every_small_edit(checker)?;
    for round in 0..rounds {
        let sheet = sheets::readable(&mut checker.random);
        around_need(checker, &sheet.bytes())?;
        every_damage(checker, &sheet)?;
        if round % EVERY_LENGTH == 0 {
            every_length(checker)?;
        }
    }
    Ok(())
}

fn around_need(checker: &mut Checker, sheet: &[u8]) -> Outcome {
    for length in lengths_around(words_in_sheet(sheet)) {
        checker.sheet_read(sheet, length)?;
    }
    Ok(())
}

fn every_short_string(checker: &mut Checker) -> Outcome {
    for string in sheets::short_strings(MARKS) {
        for sheet in sheets::around(&string) {
            checker.sheet_read(&sheet, 12)?;
        }
    }
    Ok(())
}

/// Every sheet one byte away from a good one: cut, removed, doubled, changed, inserted.
fn every_small_edit(checker: &mut Checker) -> Outcome {
    let sheet: &[u8] =
        b"release,\"a\"\"b\",period,execution,deadline\r\n0,\",\n\",3,\"10\",99999\n1,,2,3,4";
    for place in 0..=sheet.len() {
        let (before, after) = sheet.split_at(place);
        checker.sheet_read(before, 8)?;
        for byte in 0..=255 {
            checker.sheet_read(&[before, &[byte], after].concat(), 8)?;
            if let [_, after @ ..] = after {
                checker.sheet_read(&[before, &[byte], after].concat(), 8)?;
            }
        }
        if let [_, after @ ..] = after {
            checker.sheet_read(&[before, after].concat(), 8)?;
        }
    }
    Ok(())
}

/// Every kind of damage once.
fn every_damage(checker: &mut Checker, whole: &sheets::Sheet) -> Outcome {
    for kind in sheet_damage::ALL {
        let sheet = sheet_damage::apply(kind, &mut checker.random, whole);
        let refused = oracle::read_sheet(&sheet, &mut [0; 256]).is_err();
        checker.tally.damage(sheet_damage::name(kind), refused);
        for length in [0, 256] {
            checker.sheet_read(&sheet, length)?;
        }
    }
    Ok(())
}

fn every_length(checker: &mut Checker) -> Outcome {
    let table = tables::in_range(&mut checker.random);
    let sheet = sheets::of_words(&mut checker.random, &table).bytes();
    for length in 0..=table.len() + 5 {
        checker.sheet_read(&sheet, length)?;
    }
    for length in 0..=sheet_of(&table).len() + 5 {
        checker.sheet_write(&table, length)?;
    }
    Ok(())
}

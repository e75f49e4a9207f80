//! The writer: the text of a table.

use crate::reader::{COUNT_KEY, TASK_KEYS};
use crate::refusal::Refusal;
use crate::table;

/// The length of the text written to the start of the lent bytes.
pub fn write(words: &[u32], text: &mut [u8]) -> Result<usize, Refusal> {
    table::tasks(words)?;
    let full = set_text(words);
    if text.len() < full.len() {
        return Err(Refusal::ShortBuffer);
    }
    text[..full.len()].copy_from_slice(&full);
    Ok(full.len())
}

/// The text of a set, whatever the range of its words.
pub fn set_text(words: &[u32]) -> Vec<u8> {
    let mut text = Vec::with_capacity(10 + 8 * words.len());
    push_line(&mut text, COUNT_KEY, (words.len() / 4) as u32);
    for (index, word) in words.iter().enumerate() {
        push_line(&mut text, TASK_KEYS[index % 4], *word);
    }
    text
}

fn push_line(text: &mut Vec<u8>, key: &[u8], number: u32) {
    text.extend_from_slice(key);
    push_number(text, number);
    text.push(b'\n');
}

pub fn push_number(text: &mut Vec<u8>, number: u32) {
    if number >= 10 {
        push_number(text, number / 10);
    }
    text.push(b'0' + (number % 10) as u8);
}

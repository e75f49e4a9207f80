//! The reader: the first set of a text.

use crate::refusal::Refusal;
use crate::table::MOST_TASKS;

/// The keys of a task's four lines, in their order.
pub const TASK_KEYS: [&[u8]; 4] = [b"c=", b"d=", b"t=", b"r="];
pub const COUNT_KEY: &[u8] = b"tasks=";

const MOST_DIGITS: usize = 5;

/// The task count or a refusal, and the rest of the text.
/// The rest is what follows the set, or the whole text after a refusal.
pub fn read<'a>(text: &'a [u8], table: &mut [u32]) -> (Result<usize, Refusal>, &'a [u8]) {
    let (words, rest) = match first_set(text) {
        Ok(set) => set,
        Err(line) => return (Err(Refusal::Line { line }), text),
    };
    if table.len() < words.len() {
        return (Err(Refusal::ShortBuffer), text);
    }
    table[..words.len()].copy_from_slice(&words);
    (Ok(words.len() / 4), rest)
}

/// The words of the first set and what follows it, or the number of the first bad line.
fn first_set(text: &[u8]) -> Result<(Vec<u32>, &[u8]), usize> {
    let (count, mut rest) = line(text, COUNT_KEY).ok_or(1usize)?;
    let count = count as usize;
    if !(1..=MOST_TASKS).contains(&count) {
        return Err(1);
    }
    let mut words = Vec::with_capacity(4 * count);
    for index in 0..4 * count {
        // The tasks line is line 1, so word 0 stands on line 2.
        let (word, after) = line(rest, TASK_KEYS[index % 4]).ok_or(index + 2)?;
        words.push(word);
        rest = after;
    }
    Ok((words, rest))
}

/// The number of a line `key` number byte 10, and what follows the line.
fn line<'a>(text: &'a [u8], key: &[u8]) -> Option<(u32, &'a [u8])> {
    let text = text.strip_prefix(key)?;
    let length = digits(text);
    let (digits, rest) = text.split_at(length);
    let value = number(digits)?;
    let rest = rest.strip_prefix(b"\n")?;
    Some((value, rest))
}

/// How many decimal digits the text begins with; one more than allowed is enough to know.
fn digits(text: &[u8]) -> usize {
    text.iter().take(MOST_DIGITS + 1).take_while(|byte| byte.is_ascii_digit()).count()
}

/// One to five decimal digits, no leading zero except 0 itself.
pub fn number(text: &[u8]) -> Option<u32> {
    if text.is_empty() || text.len() > MOST_DIGITS || !text.iter().all(u8::is_ascii_digit) {
        return None;
    }
    if text[0] == b'0' && text.len() > 1 {
        return None;
    }
    Some(text.iter().fold(0, |value, digit| 10 * value + u32::from(digit - b'0')))
}

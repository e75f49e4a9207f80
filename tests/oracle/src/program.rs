//! What the program prints for an input.

use crate::reader::read;
use crate::refusal::Refusal;
use crate::table::MOST_WORDS;
use crate::verdict::{verdict, Verdict};

pub const MOST_BYTES: usize = 32_768;

pub fn output(input: &[u8]) -> String {
    if input.len() > MOST_BYTES {
        return "toolong\n".to_string();
    }
    let mut printed = String::new();
    let mut rest = input;
    let mut number = 0;
    loop {
        number += 1;
        printed += &format!("set={number}\n");
        let (answer, after) = judge_first(rest);
        printed += &lines(answer);
        rest = after;
        // After a 7 it stops; otherwise it goes on until the rest is empty.
        if matches!(answer, Err(Refusal::Line { .. })) || rest.is_empty() {
            return printed;
        }
    }
}

/// The verdict on the first set of a text, or the refusal, and the rest of the text.
pub fn judge_first(text: &[u8]) -> (Result<Verdict, Refusal>, &[u8]) {
    let mut table = [0; MOST_WORDS];
    match read(text, &mut table) {
        (Ok(tasks), rest) => (verdict(&table[..4 * tasks]), rest),
        (Err(refusal), rest) => (Err(refusal), rest),
    }
}

fn lines(answer: Result<Verdict, Refusal>) -> String {
    match answer {
        Ok(Verdict::Meets { span }) => format!("verdict=meets\nspan={span}\n"),
        Ok(Verdict::Misses { length, blocker, over }) => {
            let blocker = blocker.map_or("none".to_string(), |task| task.to_string());
            format!("verdict=misses\nlength={length}\nblocker={blocker}\nover={over}\n")
        }
        Ok(Verdict::TooFar) => "verdict=toofar\n".to_string(),
        Err(Refusal::OutOfRange { word }) => format!("refused=4\nword={word}\n"),
        Err(Refusal::Line { line }) => format!("refused=7\nline={line}\n"),
        Err(other) => unreachable!("a read table is never refused with {}", other.number()),
    }
}

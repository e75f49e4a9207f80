//! The number of each answer, by the word that the C header names it with.

use crate::refusal::Refusal;
use crate::verdict::Verdict;

pub fn numbers() -> Vec<(&'static str, u32)> {
    vec![
        ("MEETS", Verdict::Meets { span: 1 }.number()),
        ("MISSES", Verdict::Misses { length: 1, blocker: None, over: 1 }.number()),
        ("TOO_FAR", Verdict::TooFar.number()),
        ("NO_WORD", Refusal::NoWord.number()),
        ("NOT_FOURS", Refusal::NotFours.number()),
        ("TOO_MANY_WORDS", Refusal::TooManyWords.number()),
        ("OUT_OF_RANGE", Refusal::OutOfRange { word: 0 }.number()),
        ("END_TICK", Refusal::EndTick.number()),
        ("SHORT_BUFFER", Refusal::ShortBuffer.number()),
        ("BAD_LINE", Refusal::Line { line: 1 }.number()),
        ("NOT_MISSES", Refusal::NotMisses.number()),
    ]
}

/// A line for each: the word, a blank, the number.
pub fn table() -> String {
    numbers().iter().map(|(word, number)| format!("{word} {number}\n")).collect()
}

//! The refusals and their numbers.

#[derive(Clone, Copy, Debug, PartialEq, Eq)]
pub enum Refusal {
    /// 1: the table has no word.
    NoWord,
    /// 2: the table's length isn't a multiple of 4.
    NotFours,
    /// 3: the table's length is above 256.
    TooManyWords,
    /// 4: a word is out of its range; the index of the first such word.
    OutOfRange { word: usize },
    /// 5: Z is 0 or above 100,000.
    EndTick,
    /// 6: the lent buffer is shorter than the full result.
    ShortBuffer,
    /// 7: a line is missing or not as due; the number of the first such line.
    Line { line: usize },
    /// 8: a pattern is asked for and the verdict isn't "misses".
    NotMisses,
    /// 13: the header is missing or bad.
    Header,
    /// 14: a record isn't as due, or is a 65th after the header; its number, the header being 1.
    Record { record: usize },
    /// 15: no record comes after the header.
    NoRecord,
}

impl Refusal {
    pub fn number(self) -> u32 {
        match self {
            Refusal::NoWord => 1,
            Refusal::NotFours => 2,
            Refusal::TooManyWords => 3,
            Refusal::OutOfRange { .. } => 4,
            Refusal::EndTick => 5,
            Refusal::ShortBuffer => 6,
            Refusal::Line { .. } => 7,
            Refusal::NotMisses => 8,
            Refusal::Header => 13,
            Refusal::Record { .. } => 14,
            Refusal::NoRecord => 15,
        }
    }
}

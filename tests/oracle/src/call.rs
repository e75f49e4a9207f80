//! The number that the C call hands back.

use crate::program::judge_first;
use crate::refusal::Refusal;
use crate::verdict::Verdict;

pub fn tile_check(text: &[u8]) -> u32 {
    judge_first(text).0.map_or_else(Refusal::number, Verdict::number)
}

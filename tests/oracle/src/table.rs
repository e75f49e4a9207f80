//! The table of a task set: four words a task, in the order C, D, T, R.

use crate::refusal::Refusal;

pub const MOST_TASKS: usize = 64;
pub const MOST_WORDS: usize = 4 * MOST_TASKS;
pub const LARGEST: u32 = 65_535;
pub const HORIZON: u64 = 100_000;

/// One task, widened so that no sum or product of the paper overflows.
#[derive(Clone, Copy, Debug, PartialEq, Eq)]
pub struct Task {
    pub c: u64,
    pub d: u64,
    pub t: u64,
    pub r: u64,
}

/// The tasks of a table, or the first of the refusals 1, 2, 3, 4.
pub fn tasks(table: &[u32]) -> Result<Vec<Task>, Refusal> {
    if table.is_empty() {
        return Err(Refusal::NoWord);
    }
    if !table.len().is_multiple_of(4) {
        return Err(Refusal::NotFours);
    }
    if table.len() > MOST_WORDS {
        return Err(Refusal::TooManyWords);
    }
    if let Some(word) = first_out_of_range(table) {
        return Err(Refusal::OutOfRange { word });
    }
    Ok(table.chunks_exact(4).map(task).collect())
}

/// C, D and T are 1 to 65,535; R, every fourth word, may also be 0.
fn first_out_of_range(table: &[u32]) -> Option<usize> {
    (0..table.len()).find(|&i| {
        let least = if i % 4 == 3 { 0 } else { 1 };
        table[i] < least || table[i] > LARGEST
    })
}

fn task(words: &[u32]) -> Task {
    Task {
        c: u64::from(words[0]),
        d: u64::from(words[1]),
        t: u64::from(words[2]),
        r: u64::from(words[3]),
    }
}

//! The named pattern behind a "misses".

use crate::dispatch::{dispatch, put_row, row_count, Stream};
use crate::refusal::Refusal;
use crate::table::{self, Task};
use crate::verdict::{judge, Verdict};

/// The row count; the rows go to the start of the lent words.
pub fn pattern(words: &[u32], rows: &mut [u64]) -> Result<usize, Refusal> {
    let streams = streams(words)?;
    let count = row_count(&streams);
    if rows.len() < 4 * count {
        return Err(Refusal::ShortBuffer);
    }
    let mut index = 0;
    dispatch(&streams, |run| {
        put_row(rows, index, &run);
        index += 1;
    });
    Ok(count)
}

/// The words that the full result takes, unless the table is refused or there is no pattern.
pub fn words_needed(words: &[u32]) -> Result<usize, Refusal> {
    Ok(4 * row_count(&streams(words)?))
}

fn streams(words: &[u32]) -> Result<Vec<Stream>, Refusal> {
    let tasks = table::tasks(words)?;
    match judge(&tasks) {
        Verdict::Misses { length, blocker, .. } => Ok(named(&tasks, length, blocker)),
        _ => Err(Refusal::NotMisses),
    }
}

/// The pattern's jobs. The blocker comes at 0 and puts all others off by one tick.
pub fn named(tasks: &[Task], length: u64, blocker: Option<usize>) -> Vec<Stream> {
    let first = if blocker.is_some() { 1 } else { 0 };
    let mut streams: Vec<Stream> = tasks.iter().map(|task| due_jobs(task, length, first)).collect();
    if let Some(task) = blocker {
        streams[task].first = 0;
        streams[task].count = 1;
    }
    streams
}

/// Released at `first`, `first` + T and so on while the deadline is at most `first` + L.
fn due_jobs(task: &Task, length: u64, first: u64) -> Stream {
    let count = if task.d <= length { 1 + (length - task.d) / task.t } else { 0 };
    Stream { first, period: task.t, count, run: task.c, deadline: task.d }
}

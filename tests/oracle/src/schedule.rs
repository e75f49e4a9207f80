//! The concrete schedule.

use crate::dispatch::{dispatch, put_row, row_count, Run, Stream};
use crate::refusal::Refusal;
use crate::table::{self, Task, HORIZON};

/// The late job whose deadline is least; ties go to the lower task number.
#[derive(Clone, Copy, Debug, PartialEq, Eq)]
pub struct Late {
    pub task: usize,
    pub job: u64,
    pub deadline: u64,
}

/// The row count, and the late job if there is one.
#[derive(Clone, Copy, Debug, PartialEq, Eq)]
pub struct Schedule {
    pub rows: usize,
    pub late: Option<Late>,
}

pub fn schedule(words: &[u32], z: u32, rows: &mut [u64]) -> Result<Schedule, Refusal> {
    let streams = streams(words, z)?;
    let count = row_count(&streams);
    if rows.len() < 4 * count {
        return Err(Refusal::ShortBuffer);
    }
    Ok(Schedule { rows: count, late: fill(&streams, rows) })
}

/// The words that the full result takes, unless the table or Z is refused.
pub fn words_needed(words: &[u32], z: u32) -> Result<usize, Refusal> {
    Ok(4 * row_count(&streams(words, z)?))
}

fn streams(words: &[u32], z: u32) -> Result<Vec<Stream>, Refusal> {
    let tasks = table::tasks(words)?;
    let end = u64::from(z);
    if end == 0 || end > HORIZON {
        return Err(Refusal::EndTick);
    }
    Ok(tasks.iter().map(|task| concrete(task, end)).collect())
}

/// The jobs of a task released before the end tick: R + q × T below Z.
fn concrete(task: &Task, end: u64) -> Stream {
    let count = if task.r < end { (end - task.r).div_ceil(task.t) } else { 0 };
    Stream { first: task.r, period: task.t, count, run: task.c, deadline: task.d }
}

fn fill(streams: &[Stream], rows: &mut [u64]) -> Option<Late> {
    let mut late = None;
    let mut index = 0;
    dispatch(streams, |run| {
        put_row(rows, index, &run);
        index += 1;
        if run.finish > run.deadline {
            late = earlier(late, &run);
        }
    });
    late
}

fn earlier(late: Option<Late>, run: &Run) -> Option<Late> {
    let this = Late { task: run.task, job: run.job, deadline: run.deadline };
    match late {
        Some(old) if (old.deadline, old.task) <= (this.deadline, this.task) => Some(old),
        _ => Some(this),
    }
}

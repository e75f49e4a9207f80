//! The paper's definitions, word for word. Slow where the paper's own form is slow:
//! the verdict walks faster, and the tests hold it to these.

use crate::table::Task;

/// The sum over tasks with D at most L of C × (1 + the whole part of (L − D) / T).
pub fn due(tasks: &[Task], length: u64) -> u64 {
    tasks
        .iter()
        .filter(|task| task.d <= length)
        .map(|task| task.c * (1 + (length - task.d) / task.t))
        .sum()
}

/// The greatest C − 1 among tasks with D above L, or 0 if there is none.
pub fn wait(tasks: &[Task], length: u64) -> u64 {
    tasks.iter().filter(|task| task.d > length).map(|task| task.c - 1).max().unwrap_or(0)
}

/// Something is due, and with the wait it is above L.
pub fn fails(tasks: &[Task], length: u64) -> bool {
    let due = due(tasks, length);
    due >= 1 && due + wait(tasks, length) > length
}

/// How far Due(L) + Wait(L) is above L, for an L that fails.
pub fn excess(tasks: &[Task], length: u64) -> u64 {
    due(tasks, length) + wait(tasks, length) - length
}

/// The sum over all tasks of C × (t / T rounded up).
pub fn load(tasks: &[Task], t: u64) -> u64 {
    tasks.iter().map(|task| task.c * t.div_ceil(task.t)).sum()
}

/// The least t from 1 to `most` whose load is at most t.
pub fn span_up_to(tasks: &[Task], most: u64) -> Option<u64> {
    (1..=most).find(|&t| load(tasks, t) <= t)
}

/// The lowest-numbered task with the greatest C among those with D above L,
/// if the wait is above 0.
pub fn blocker(tasks: &[Task], length: u64) -> Option<usize> {
    let wait = wait(tasks, length);
    if wait == 0 {
        return None;
    }
    tasks.iter().position(|task| task.d > length && task.c == wait + 1)
}

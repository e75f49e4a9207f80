//! The verdict over all arrivals.

use crate::definitions::{blocker, load};
use crate::refusal::Refusal;
use crate::table::{self, Task, HORIZON};

#[derive(Clone, Copy, Debug, PartialEq, Eq)]
pub enum Verdict {
    Meets { span: u64 },
    Misses { length: u64, blocker: Option<usize>, over: u64 },
    TooFar,
}

impl Verdict {
    pub fn number(self) -> u32 {
        match self {
            Verdict::Meets { .. } => 100,
            Verdict::Misses { .. } => 101,
            Verdict::TooFar => 102,
        }
    }
}

pub fn verdict(words: &[u32]) -> Result<Verdict, Refusal> {
    Ok(judge(&table::tasks(words)?))
}

pub fn judge(tasks: &[Task]) -> Verdict {
    if let Some((length, over)) = first_failing(tasks) {
        return Verdict::Misses { length, blocker: blocker(tasks, length), over };
    }
    match span(tasks) {
        Some(span) => Verdict::Meets { span },
        None => Verdict::TooFar,
    }
}

/// The least L from 1 to H that fails, and its excess. Due grows by C at D, D + T and so on,
/// so it is kept up from length to length and no division is needed.
fn first_failing(tasks: &[Task]) -> Option<(u64, u64)> {
    let mut growth: Vec<u64> = tasks.iter().map(|task| task.d).collect();
    let mut due = 0;
    for length in 1..=HORIZON {
        let mut wait = 0;
        for (task, grows_at) in tasks.iter().zip(&mut growth) {
            if task.d > length {
                wait = wait.max(task.c - 1);
            } else if *grows_at == length {
                due += task.c;
                *grows_at += task.t;
            }
        }
        if due >= 1 && due + wait > length {
            return Some((length, due + wait - length));
        }
    }
    None
}

/// The span if it exists and is at most H. The load never falls as t grows,
/// so if load(t) is above t, no tick from t up to load(t) − 1 can be the span.
fn span(tasks: &[Task]) -> Option<u64> {
    let mut t = 1;
    while t <= HORIZON {
        let load = load(tasks, t);
        if load <= t {
            return Some(t);
        }
        t = load;
    }
    None
}

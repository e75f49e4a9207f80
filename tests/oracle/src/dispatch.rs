//! The dispatch rule over jobs that come in streams, one stream a task.

/// The jobs of one task: `count` of them, the first at `first`, each `period` after the one before.
#[derive(Clone, Copy, Debug)]
pub struct Stream {
    pub first: u64,
    pub period: u64,
    pub count: u64,
    pub run: u64,
    pub deadline: u64,
}

/// A job that was run. Its deadline isn't part of the row.
#[derive(Clone, Copy, Debug, PartialEq, Eq)]
pub struct Run {
    pub task: usize,
    pub job: u64,
    pub start: u64,
    pub finish: u64,
    pub deadline: u64,
}

/// The next job of a stream that hasn't started.
struct Next {
    job: u64,
    release: u64,
}

/// How many rows the streams give in all.
pub fn row_count(streams: &[Stream]) -> usize {
    streams.iter().map(|stream| stream.count as usize).sum()
}

/// Runs every job and tells each in order of start.
pub fn dispatch(streams: &[Stream], mut tell: impl FnMut(Run)) {
    let mut next: Vec<Next> =
        streams.iter().map(|stream| Next { job: 0, release: stream.first }).collect();
    let mut now = 0;
    for _ in 0..row_count(streams) {
        let task = match pending(streams, &next, now) {
            Some(task) => task,
            None => {
                now = next_release(streams, &next);
                pending(streams, &next, now).expect("a job is released at this tick")
            }
        };
        let run = start(&streams[task], &mut next[task], task, now);
        now = run.finish;
        tell(run);
    }
}

/// The task whose pending job has the least deadline; the lower task number wins a tie.
/// Jobs of one task have growing deadlines, so the next job of each task is enough.
fn pending(streams: &[Stream], next: &[Next], now: u64) -> Option<usize> {
    let mut best = None;
    let mut least = u64::MAX;
    for (task, (stream, next)) in streams.iter().zip(next).enumerate() {
        let deadline = next.release + stream.deadline;
        if next.job < stream.count && next.release <= now && deadline < least {
            best = Some(task);
            least = deadline;
        }
    }
    best
}

/// The earliest release of a job that hasn't started.
fn next_release(streams: &[Stream], next: &[Next]) -> u64 {
    streams
        .iter()
        .zip(next)
        .filter(|(stream, next)| next.job < stream.count)
        .map(|(_, next)| next.release)
        .min()
        .expect("a job is left")
}

fn start(stream: &Stream, next: &mut Next, task: usize, now: u64) -> Run {
    let run = Run {
        task,
        job: next.job,
        start: now,
        finish: now + stream.run,
        deadline: next.release + stream.deadline,
    };
    next.job += 1;
    next.release += stream.period;
    run
}

/// Puts a run at row `index`: task, job number, start, finish.
pub fn put_row(rows: &mut [u64], index: usize, run: &Run) {
    let row = &mut rows[4 * index..4 * index + 4];
    row.copy_from_slice(&[run.task as u64, run.job, run.start, run.finish]);
}

//! Repetitions and medians.

use std::hint::black_box;
use std::time::{Duration, Instant};

/// How a call is timed.
#[derive(Clone, Copy)]
pub enum Pace {
    /// As many calls in a timed piece as take a while.
    Many,
    /// One call is long enough.
    One,
    /// One call in one piece: that says nothing about the time.
    Once,
}

const PIECES: usize = 9;
const LONG_PIECES: usize = 5;
const LONG_ENOUGH: Duration = Duration::from_millis(20);

/// The median time of one call on either side.
pub struct Times {
    pub ours: Duration,
    pub theirs: Duration,
}

/// Times both sides in turn over the same buffer, which is cleared before every piece.
/// Both have to give the same number, or there is nothing to compare.
pub fn measure<B>(
    pace: Pace,
    buffer: &mut B,
    clear: impl Fn(&mut B),
    ours: impl Fn(&mut B) -> u64,
    theirs: impl Fn(&mut B) -> u64,
) -> Times {
    assert_eq!(ours(buffer), theirs(buffer), "the two sides differ");
    let (calls, pieces) = match pace {
        Pace::Many => (enough_calls(buffer, &ours, &theirs), PIECES),
        Pace::One => (1, LONG_PIECES),
        Pace::Once => (1, 1),
    };
    let mut our_times = Vec::new();
    let mut their_times = Vec::new();
    for _ in 0..pieces {
        clear(buffer);
        our_times.push(piece(calls, buffer, &ours));
        clear(buffer);
        their_times.push(piece(calls, buffer, &theirs));
    }
    Times { ours: median(our_times) / calls, theirs: median(their_times) / calls }
}

/// Doubles the calls until the faster side takes long enough.
fn enough_calls<B>(
    buffer: &mut B,
    ours: &impl Fn(&mut B) -> u64,
    theirs: &impl Fn(&mut B) -> u64,
) -> u32 {
    let mut calls = 1;
    while piece(calls, buffer, ours).min(piece(calls, buffer, theirs)) < LONG_ENOUGH {
        calls *= 2;
    }
    calls
}

fn piece<B>(calls: u32, buffer: &mut B, call: &impl Fn(&mut B) -> u64) -> Duration {
    let start = Instant::now();
    for _ in 0..calls {
        black_box(call(black_box(buffer)));
    }
    start.elapsed()
}

fn median(mut times: Vec<Duration>) -> Duration {
    times.sort();
    times[times.len() / 2]
}

//! The excess of a "misses", by the probe's own answers: its bounds, the end of the named pattern,
//! and what becomes of the length in a set that was eased.

use crate::checks::Checker;
use crate::difference::{show_table, Difference, Outcome};
use crate::shades::Shades;
use crate::trips::end;
use boundary::{LEAST_OUT, NO_BLOCKER};
use cases::tables;
use oracle::definitions::{due, wait};

pub fn run(checker: &mut Checker, rounds: usize) -> Outcome {
    for _ in 0..rounds {
        let table = tables::crowded(&mut checker.random);
        if let Some(miss) = judge(&table)? {
            bounds(checker, &table, &miss)?;
            last_row(checker, &table, &miss)?;
            ease(checker, &table, &miss)?;
        }
    }
    Ok(())
}

struct Miss {
    length: u64,
    blocked: bool,
    over: u64,
}

/// The probe's verdict, if it is a "misses".
fn judge(table: &[u32]) -> Result<Option<Miss>, Difference> {
    let mut out = [0; LEAST_OUT];
    match boundary::verdict(table, &mut out) {
        100 | 102 => Ok(None),
        101 => Ok(Some(Miss { length: out[0], blocked: out[1] != NO_BLOCKER, over: out[2] })),
        number => Err(Difference {
            call: "probe_verdict",
            input: show_table(table),
            found: format!("a table in range gets {number}"),
        }),
    }
}

fn bounds(checker: &mut Checker, table: &[u32], miss: &Miss) -> Outcome {
    let executions: u64 = table.chunks_exact(4).map(|task| u64::from(task[0])).sum();
    let good = (1..executions).contains(&miss.over);
    let input = || show_table(table);
    end(checker, "judge, then add up", "above 0 and below the sum of C", good, input)
}

/// The tile is never idle in the named pattern, so its last row ends that much after the length,
/// which begins one tick after a blocker.
fn last_row(checker: &mut Checker, table: &[u32], miss: &Miss) -> Outcome {
    let call = "judge, then pattern";
    let mut rows = vec![0; oracle::pattern::words_needed(table).unwrap_or(0)];
    let number = boundary::pattern(table, &mut rows, &mut [0; LEAST_OUT]);
    let wanted = miss.length + u64::from(miss.blocked) + miss.over;
    let good = number == 0 && rows.last() == Some(&wanted);
    end(checker, call, "the last row ends so much too late", good, || show_table(table))?;
    let shades = vec![("with a blocker", miss.blocked), ("with no blocker", !miss.blocked)];
    checker.tally.shades(call, &shades);
    Ok(())
}

/// Easing lets no shorter length fail. So the length is named again exactly if it fails again, and
/// then with what is left of the excess.
fn ease(checker: &mut Checker, table: &[u32], miss: &Miss) -> Outcome {
    let call = "judge, then ease";
    let eased = tables::eased(&mut checker.random, table);
    let change = Change::new(table, &eased, miss);
    let now = judge(&eased)?;
    let answer =
        if change.fails() { "the length again, with the rest" } else { "not the length again" };
    let good = match &now {
        Some(now) if change.fails() => now.length == miss.length && now.over == change.left(),
        Some(now) => now.length > miss.length,
        None => !change.fails(),
    };
    let input = || format!("{}; eased: {}", show_table(table), show_table(&eased));
    end(checker, call, answer, good, input)?;
    checker.tally.shades(call, &change.shades(now.is_some()));
    Ok(())
}

/// What easing did at the length that failed.
struct Change {
    over: u64,
    /// What is due now.
    due: u64,
    /// By how much Due + Wait fell.
    fall: u64,
}

impl Change {
    fn new(table: &[u32], eased: &[u32], miss: &Miss) -> Change {
        let at_length = |table: &[u32]| {
            let tasks = oracle::table::tasks(table).expect("a table in range");
            (due(&tasks, miss.length), wait(&tasks, miss.length))
        };
        let (before, now) = (at_length(table), at_length(eased));
        let fall = (before.0 + before.1) - (now.0 + now.1);
        Change { over: miss.over, due: now.0, fall }
    }

    fn fails(&self) -> bool {
        self.due >= 1 && self.fall < self.over
    }

    /// The rest of the excess, where the length fails.
    fn left(&self) -> u64 {
        self.over - self.fall
    }

    fn shades(&self, misses: bool) -> Shades {
        vec![
            ("over by as much", self.fails() && self.fall == 0),
            ("over by less", self.fails() && self.fall > 0),
            ("a greater length", !self.fails() && misses),
            ("no miss", !misses),
            ("fell by the excess", self.fall == self.over),
            ("fell by one less", self.fall + 1 == self.over),
            ("nothing due, fell by less", self.due == 0 && self.fall < self.over),
        ]
    }
}

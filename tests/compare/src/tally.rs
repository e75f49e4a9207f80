//! How often each answer came. An answer that never came makes the comparison fail,
//! so that it can't be empty.

use crate::shades::Shades;
use std::collections::BTreeMap;
use std::fmt;

/// For each call every answer that it can give, then the shades that have to be met as well.
#[rustfmt::skip]
const KNOWN: [(&str, &[&str], &[&str]); 18] = [
    ("probe_read", &["0", "6", "7", "999"],
     &["0 with a rest", "0 with no rest", "6 by one word", "7 on line 1", "7 on a later line",
       "7 with too short a table"]),
    ("probe_write", &["0", "1", "2", "3", "4", "6", "999"],
     &["4 with too short a buffer", "6 by one byte"]),
    ("probe_schedule", &["200", "201", "1", "2", "3", "4", "5", "6", "999"],
     &["no row", "idle before a start", "finish above 32 bits", "201 and not the first late job",
       "201 and the deadline shared", "5 with too short a buffer", "6 by one word"]),
    ("probe_verdict", &["100", "101", "102", "1", "2", "3", "4", "999"],
     &["100 at the horizon", "101 at the horizon", "101 with a blocker, over by 1",
       "101 with a blocker, over by more", "101 with no blocker, over by 1",
       "101 with no blocker, over by more", "101 over by the most there can be",
       "100 with 64 tasks", "101 with 64 tasks", "102 with 64 tasks"]),
    ("probe_pattern", &["0", "1", "2", "3", "4", "6", "8", "999"],
     &["0 with a blocker", "0 with no blocker", "8 with too short a buffer", "6 by one word"]),
    ("probe_draw", &["0", "999"],
     &["0 with no wrap", "0 with the sum wrapped", "0 with the product wrapped",
       "0 with both wrapped"]),
    ("probe_generate", &["0", "6", "999"],
     &["0 plain", "0 with the long kernel", "0 a multiple of 4 with one task",
       "0 a multiple of 5, not of 4", "0 with 8 tasks", "long beside one task",
       "long beside seven tasks", "long, its own D was the least",
       "long, the first D is the least", "long, the last D of the others is the least",
       "C of 1", "C equal to T", "D of 1", "D of 2000", "T of 1", "T of 1000", "R of 0",
       "R of 999", "6 with no table", "6 by one word"]),
    ("a state carried on by draws", &["0"], &[]),
    ("a state carried on by sets", &["0", "6"], &[]),
    ("generate, then judge", &["a verdict, and the right one"], &[]),
    ("probe_sheet_read", &["0", "6", "13", "14", "15", "999"],
     &["0 with 64 records", "0 with bare LF", "0 with no last line end", "0 with other columns",
       "0 with columns in another order", "0 with quotes", "0 with quotes doubled",
       "0 with bytes above 127", "0 with a number above 65,535", "6 by one word",
       "6 with no table", "13 with no byte", "13 with too short a table", "14 at record 2",
       "14 at a later record", "14 at record 66", "14 before a 65th", "14 with too short a table",
       "15 without a line end", "15 with a line end", "15 with too short a table"]),
    ("probe_sheet_write", &["0", "1", "2", "3", "4", "6", "999"],
     &["0 with 64 tasks", "4 with too short a buffer", "6 by one byte", "6 with no byte"]),
    ("sheet, then text", &["the table's text"], &[]),
    ("write, then read", &["the numbers came back"], &[]),
    ("read, then write", &["the bytes came back"], &[]),
    ("judge, then add up", &["above 0 and below the sum of C"], &[]),
    ("judge, then pattern", &["the last row ends so much too late"],
     &["with a blocker", "with no blocker"]),
    ("judge, then ease", &["the length again, with the rest", "not the length again"],
     &["over by as much", "over by less", "a greater length", "no miss", "fell by the excess",
       "fell by one less", "nothing due, fell by less"]),
];

#[derive(Default)]
pub struct Tally {
    cases: BTreeMap<&'static str, u64>,
    answers: BTreeMap<(&'static str, String), u64>,
    /// Each kind of damage, and how often it was refused.
    damages: BTreeMap<&'static str, u64>,
}

impl Tally {
    /// Counts a case of a call and the number that it answered.
    pub fn case(&mut self, call: &'static str, number: u32) {
        self.answer(call, &number.to_string());
    }

    pub fn answer(&mut self, call: &'static str, answer: &str) {
        *self.cases.entry(call).or_default() += 1;
        *self.answers.entry((call, answer.to_string())).or_default() += 1;
    }

    pub fn shades(&mut self, call: &'static str, shades: &Shades) {
        for (shade, _) in shades.iter().filter(|(_, met)| *met) {
            *self.answers.entry((call, shade.to_string())).or_default() += 1;
        }
    }

    pub fn damage(&mut self, kind: &'static str, refused: bool) {
        *self.damages.entry(kind).or_default() += u64::from(refused);
    }

    fn count(&self, call: &'static str, answer: &str) -> u64 {
        self.answers.get(&(call, answer.to_string())).copied().unwrap_or(0)
    }

    /// The known answers and shades that never came, and the damage that was never refused.
    pub fn missing(&self) -> Vec<String> {
        let mut missing = Vec::new();
        for (call, answers, shades) in KNOWN {
            let known = answers.iter().chain(shades);
            let never = known.filter(|answer| self.count(call, answer) == 0);
            missing.extend(never.map(|answer| format!("{call}: {answer}")));
        }
        let damages = [
            &cases::damage::ALL.map(cases::damage::name)[..],
            &cases::sheet_damage::ALL.map(cases::sheet_damage::name)[..],
        ]
        .concat();
        let never = damages.iter().filter(|kind| self.damages.get(*kind).is_none_or(|&n| n == 0));
        missing.extend(never.map(|kind| format!("a refusal after the damage: {kind}")));
        missing
    }
}

impl fmt::Display for Tally {
    fn fmt(&self, f: &mut fmt::Formatter) -> fmt::Result {
        for (call, answers, shades) in KNOWN {
            write!(f, "{call}: {} cases", self.cases.get(call).copied().unwrap_or(0))?;
            for answer in answers.iter().chain(shades) {
                write!(f, "; {answer}: {}", self.count(call, answer))?;
            }
            writeln!(f)?;
        }
        write!(f, "texts and sheets refused after damage")?;
        for (kind, refused) in &self.damages {
            write!(f, "; {kind}: {refused}")?;
        }
        writeln!(f)
    }
}

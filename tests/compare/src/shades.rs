//! What is noteworthy about an answer that both sides agree on. Each shade has to be met
//! in a run, so that the comparison is known to reach the places where slips are likely.

use crate::checks::Done;
use boundary::NO_BLOCKER;
use oracle::generator::{words_needed, MOST_DRAWN};
use oracle::{Verdict, HORIZON};

/// Of 64 tasks with all that a task can have, due in one tick.
const GREATEST_EXCESS: u64 = 64 * 65_535 - 1;

/// Names and whether they apply.
pub type Shades = Vec<(&'static str, bool)>;

pub fn of_read(text: &[u8], wanted: &Done<u32>) -> Shades {
    let out = wanted.out.content();
    let length = wanted.buffer.content().len();
    match wanted.number {
        0 => {
            let rest = (out[1] as usize) < text.len();
            vec![("0 with a rest", rest), ("0 with no rest", !rest)]
        }
        6 => vec![("6 by one word", length + 1 == words_in(text))],
        7 => vec![
            ("7 on line 1", out[0] == 1),
            ("7 on a later line", out[0] > 1),
            ("7 with too short a table", length < 4),
        ],
        _ => vec![],
    }
}

/// The words of the first set of a text that can be read.
fn words_in(text: &[u8]) -> usize {
    oracle::read(text, &mut [0; 256]).0.map_or(0, |tasks| 4 * tasks)
}

pub fn of_write(table: &[u32], wanted: &Done<u8>) -> Shades {
    let length = wanted.buffer.content().len();
    match wanted.number {
        4 => vec![("4 with too short a buffer", length == 0)],
        6 => vec![("6 by one byte", length + 1 == oracle::writer::set_text(table).len())],
        _ => vec![],
    }
}

pub fn of_verdict(table: &[u32], wanted: &Done<u64>) -> Shades {
    let out = wanted.out.content();
    let full = table.len() == 256;
    match wanted.number {
        100 => vec![("100 at the horizon", out[0] == HORIZON), ("100 with 64 tasks", full)],
        102 => vec![("102 with 64 tasks", full)],
        101 => {
            let more = [("101 with 64 tasks", full), ("101 at the horizon", out[0] == HORIZON)];
            [&more[..], &of_excess(out[1] != NO_BLOCKER, out[2])].concat()
        }
        _ => vec![],
    }
}

fn of_excess(blocked: bool, over: u64) -> Shades {
    vec![
        ("101 with a blocker, over by 1", blocked && over == 1),
        ("101 with a blocker, over by more", blocked && over > 1),
        ("101 with no blocker, over by 1", !blocked && over == 1),
        ("101 with no blocker, over by more", !blocked && over > 1),
        ("101 over by the most there can be", over == GREATEST_EXCESS),
    ]
}

pub fn of_pattern(table: &[u32], wanted: &Done<u64>) -> Shades {
    let length = wanted.buffer.content().len();
    match wanted.number {
        0 => {
            let blocked =
                matches!(oracle::verdict(table), Ok(Verdict::Misses { blocker: Some(_), .. }));
            vec![("0 with a blocker", blocked), ("0 with no blocker", !blocked)]
        }
        6 => vec![("6 by one word", Ok(length + 1) == oracle::pattern::words_needed(table))],
        8 => vec![("8 with too short a buffer", length < 4)],
        _ => vec![],
    }
}

pub fn of_schedule(table: &[u32], z: u32, wanted: &Done<u64>) -> Shades {
    let length = wanted.buffer.content().len();
    match wanted.number {
        5 => vec![("5 with too short a buffer", length < 4)],
        6 => vec![("6 by one word", Ok(length + 1) == oracle::schedule::words_needed(table, z))],
        200 | 201 => {
            let count = wanted.out.content()[0] as usize;
            of_rows(table, &wanted.buffer.content()[..4 * count])
        }
        _ => vec![],
    }
}

fn of_rows(table: &[u32], rows: &[u64]) -> Shades {
    let rows: Vec<Row> = rows.chunks_exact(4).map(|row| Row::new(table, row)).collect();
    let late: Vec<u64> =
        rows.iter().filter(|row| row.finish > row.deadline).map(|row| row.deadline).collect();
    let least = late.iter().min();
    let shared = late.iter().filter(|deadline| Some(*deadline) == least).count() > 1;
    vec![
        ("no row", rows.is_empty()),
        ("idle before a start", rows.windows(2).any(|pair| pair[0].finish < pair[1].start)),
        ("finish above 32 bits", rows.last().is_some_and(|row| row.finish > u64::from(u32::MAX))),
        ("201 and not the first late job", late.first() != least),
        ("201 and the deadline shared", shared),
    ]
}

/// A row with its job's deadline.
struct Row {
    start: u64,
    finish: u64,
    deadline: u64,
}

impl Row {
    fn new(table: &[u32], row: &[u64]) -> Row {
        let task = &table[4 * row[0] as usize..];
        let release = u64::from(task[3]) + row[1] * u64::from(task[2]);
        Row { start: row[2], finish: row[3], deadline: release + u64::from(task[1]) }
    }
}

pub fn of_draw(state: u32, wanted: &Done<u64>) -> Shades {
    if wanted.number != 0 {
        return vec![];
    }
    let (low, product) = state.overflowing_mul(1_664_525);
    let sum = low.checked_add(1_013_904_223).is_none();
    vec![
        ("0 with no wrap", !product && !sum),
        ("0 with the sum wrapped", !product && sum),
        ("0 with the product wrapped", product && !sum),
        ("0 with both wrapped", product && sum),
    ]
}

pub fn of_generate(state: u32, number: u32, wanted: &Done<u32>) -> Shades {
    let length = wanted.buffer.content().len();
    match wanted.number {
        0 => [of_kind(state, number), of_words(&plain_set(state))].concat(),
        6 => vec![
            ("6 with no table", length == 0),
            ("6 by one word", length + 1 == words_needed(state)),
        ],
        _ => vec![],
    }
}

/// The set as it is drawn, with no long kernel.
fn plain_set(mut state: u32) -> Vec<u32> {
    let mut table = [0; MOST_DRAWN];
    let tasks = oracle::generate(&mut state, 1, &mut table).expect("the table is long enough");
    table[..4 * tasks].to_vec()
}

fn of_kind(state: u32, number: u32) -> Shades {
    let deadlines: Vec<u32> = plain_set(state).chunks_exact(4).map(|task| task[1]).collect();
    let tasks = deadlines.len();
    let fourth = number.is_multiple_of(4);
    let long = fourth && tasks > 1;
    let others = &deadlines[..tasks - 1];
    let least = others.iter().min();
    vec![
        ("0 plain", !fourth),
        ("0 with the long kernel", long),
        ("0 a multiple of 4 with one task", fourth && tasks == 1),
        ("0 a multiple of 5, not of 4", number.is_multiple_of(5) && !fourth),
        ("0 with 8 tasks", tasks == 8),
        ("long beside one task", long && tasks == 2),
        ("long beside seven tasks", long && tasks == 8),
        ("long, its own D was the least", long && least > deadlines.last()),
        ("long, the first D is the least", long && others.len() > 1 && least == others.first()),
        ("long, the last D of the others is the least", long && least == others.last()),
    ]
}

fn of_words(set: &[u32]) -> Shades {
    let some = |test: fn(&[u32]) -> bool| set.chunks_exact(4).any(test);
    vec![
        ("C of 1", some(|task| task[0] == 1)),
        ("C equal to T", some(|task| task[0] == task[2])),
        ("D of 1", some(|task| task[1] == 1)),
        ("D of 2000", some(|task| task[1] == 2000)),
        ("T of 1", some(|task| task[2] == 1)),
        ("T of 1000", some(|task| task[2] == 1000)),
        ("R of 0", some(|task| task[3] == 0)),
        ("R of 999", some(|task| task[3] == 999)),
    ]
}

pub fn of_sheet_read(sheet: &[u8], wanted: &Done<u32>) -> Shades {
    let out = wanted.out.content();
    let length = wanted.buffer.content().len();
    match wanted.number {
        0 => of_good_sheet(sheet, &wanted.buffer.content()[..4 * out[0] as usize]),
        6 => vec![
            ("6 by one word", length + 1 == words_in_sheet(sheet)),
            ("6 with no table", length == 0),
        ],
        13 => {
            vec![("13 with no byte", sheet.is_empty()), ("13 with too short a table", length < 4)]
        }
        14 => vec![
            ("14 at record 2", out[0] == 2),
            ("14 at a later record", (3..=65).contains(&out[0])),
            ("14 at record 66", out[0] == 66),
            ("14 before a 65th", out[0] < 66 && line_ends(sheet) > 66),
            ("14 with too short a table", length < 4),
        ],
        15 => vec![
            ("15 without a line end", !sheet.ends_with(b"\n")),
            ("15 with a line end", sheet.ends_with(b"\n")),
            ("15 with too short a table", length < 4),
        ],
        _ => vec![],
    }
}

/// The words of a sheet that can be read.
pub fn words_in_sheet(sheet: &[u8]) -> usize {
    oracle::read_sheet(sheet, &mut [0; 256]).map_or(0, |tasks| 4 * tasks)
}

fn line_ends(sheet: &[u8]) -> usize {
    sheet.iter().filter(|&&byte| byte == b'\n').count()
}

/// Where there is no quote, every comma and line end is what it looks like.
fn of_good_sheet(sheet: &[u8], words: &[u32]) -> Shades {
    let has = |bytes: &[u8]| sheet.windows(bytes.len()).any(|window| window == bytes);
    let quotes = has(b"\"");
    let names: Vec<&[u8]> =
        sheet.split(|&byte| byte == b'\n').next().unwrap_or(sheet).split(|&b| b == b',').collect();
    let place = |name: &[u8]| names.iter().position(|&other| other == name);
    vec![
        ("0 with 64 records", words.len() == 256),
        ("0 with bare LF", !quotes && !has(b"\r")),
        ("0 with no last line end", !sheet.ends_with(b"\n")),
        ("0 with other columns", !quotes && names.len() > 4),
        ("0 with columns in another order", !quotes && place(b"period") < place(b"execution")),
        ("0 with quotes", quotes),
        ("0 with quotes doubled", has(b"a\"\"")),
        ("0 with bytes above 127", sheet.iter().any(|&byte| byte > 127)),
        ("0 with a number above 65,535", words.iter().any(|&word| word > 65_535)),
    ]
}

pub fn of_sheet_write(table: &[u32], wanted: &Done<u8>) -> Shades {
    let length = wanted.buffer.content().len();
    match wanted.number {
        0 => vec![("0 with 64 tasks", table.len() == 256)],
        4 => vec![("4 with too short a buffer", length == 0)],
        6 => vec![
            ("6 by one byte", length + 1 == oracle::sheet::sheet_of(table).len()),
            ("6 with no byte", length == 0),
        ],
        _ => vec![],
    }
}

//! The sets that are timed.

use crate::measure::Pace;

pub struct Set {
    pub name: &'static str,
    pub table: Vec<u32>,
}

fn set(name: &'static str, tasks: &[[u32; 4]]) -> Set {
    Set { name, table: tasks.concat() }
}

pub fn for_verdict() -> Vec<Set> {
    vec![
        set("meets, span 100,000", &[[25000, 65535, 50000, 0], [10000, 65535, 20000, 0]]),
        set("misses at 1", &[[1, 1, 2, 0], [1, 1, 2, 0]]),
        set("misses at 100,000", &[[50000, 50000, 50000, 0], [1, 65535, 34465, 0]]),
        set("too far", &[[1, 65535, 1, 0], [1, 65535, 65535, 0]]),
        set("64 tasks, meets, span 64", &[[1, 64, 64, 0]; 64]),
        set("64 tasks, meets, span 65,472", &[[1023, 65535, 65535, 0]; 64]),
        set("64 tasks, misses at 65,535", &[[1024, 65535, 65535, 0]; 64]),
        set("64 tasks, too far", &[[1, 65535, 63, 0]; 64]),
    ]
}

pub fn for_schedule() -> Vec<(Set, Pace)> {
    vec![
        (set("6,400,000 rows", &[[1, 65535, 1, 0]; 64]), Pace::One),
        (set("light, 8 tasks, 400 rows", &[[10, 2000, 2000, 0]; 8]), Pace::Many),
        (set("light, 64 tasks, 1,280 rows", &[[10, 5000, 5000, 0]; 64]), Pace::Many),
    ]
}

/// Each fails by one tick and late, so that there are many rows.
pub fn for_pattern() -> Vec<Set> {
    let mut many = vec![[1, 6400, 62, 0]; 62];
    many.extend([[6339, 65535, 65535, 0], [1, 50000, 65535, 0]]);
    vec![
        set("65,536 rows, no blocker", &[[1, 1, 1, 0], [1, 65535, 65535, 0]]),
        set(
            "10,003 rows, a blocker",
            &[[1, 30000, 1, 0], [1, 40000, 65535, 0], [30000, 65535, 65535, 0]],
        ),
        set("64 tasks, 43,712 rows, a blocker", &many),
    ]
}

/// Judged at once, so that reading is most of it.
pub fn for_check() -> Vec<Set> {
    let mut refused = [[54321, 65535, 12345, 10000]; 64];
    refused[0][0] = 99999;
    vec![
        set("64 tasks, five digits, refused", &refused),
        set("1 task, misses at 1", &[[2, 1, 1, 0]]),
    ]
}

pub fn for_text() -> Vec<Set> {
    vec![
        set("64 tasks, five digits", &[[54321, 65535, 12345, 10000]; 64]),
        set("64 tasks, one digit", &[[1, 2, 3, 0]; 64]),
        set("1 task", &[[20, 400, 400, 0]]),
    ]
}

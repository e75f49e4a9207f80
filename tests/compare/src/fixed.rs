//! The cases that come in every run: the paper's sets, the edges, and the worst schedules.

use crate::checks::Checker;
use crate::difference::Outcome;
use crate::rounds::{lengths_around, on_table};
use boundary::LEAST_OUT;

/// The paper's sets as (C, D, T), and sets at the edges of the horizon.
const SETS: [&[(u32, u32, u32)]; 16] = [
    &[(1, 1, 1)],
    &[(2, 4, 4), (3, 6, 6)],
    &[(2, 4, 4), (4, 8, 8)],
    &[(3, 4, 4), (2, 8, 8)],
    &[(3, 4, 4), (3, 8, 8)],
    &[(1, 1, 2), (1, 1, 2)],
    &[(1, 1, 2), (1, 9, 9)],
    &[(5, 3, 10)],
    &[(65535, 65535, 65535)],
    &[(65535, 65535, 65535), (1, 65535, 65535)],
    &[(1, 65535, 1), (1, 65535, 65535)],
    &[(1, 5, 5), (4, 10, 10)],
    // The span is 100,000.
    &[(25000, 65535, 50000), (10000, 65535, 20000)],
    // The span is 100,001.
    &[(2669, 65535, 5266), (1590, 65535, 3226)],
    // The first L to fail is 100,000.
    &[(50000, 50000, 50000), (1, 65535, 34465)],
    // The first L to fail is 100,001.
    &[(50000, 50001, 50000), (2, 65535, 65535)],
];

pub fn run(checker: &mut Checker) -> Outcome {
    checker.out = Some(LEAST_OUT);
    for set in SETS {
        on_table(checker, &table(set))?;
    }
    late_job_to_name(checker)?;
    sixty_four_tasks(checker)?;
    table_edges(checker)?;
    every_small_edit(checker)?;
    every_task_count(checker)?;
    worst_schedules(checker)?;
    short_outs(checker)?;
    checker.out = None;
    Ok(())
}

fn table(set: &[(u32, u32, u32)]) -> Vec<u32> {
    set.iter().flat_map(|&(c, d, t)| [c, d, t, 0]).collect()
}

/// Task 0 starts first and is late, but the late job of task 1 has the lesser deadline.
/// Then a third task shares that deadline.
fn late_job_to_name(checker: &mut Checker) -> Outcome {
    on_table(checker, &[10, 8, 99, 0, 1, 3, 99, 1])?;
    on_table(checker, &[1, 3, 99, 1, 10, 8, 99, 0, 1, 2, 99, 2])
}

/// The largest tables of each verdict.
fn sixty_four_tasks(checker: &mut Checker) -> Outcome {
    let task = [1, 64, 64, 0];
    let other = |last: [u32; 4]| [&task.repeat(63)[..], &last].concat();
    on_table(checker, &task.repeat(64))?;
    on_table(checker, &other([2, 64, 64, 0]))?;
    on_table(checker, &other([2, 65, 64, 0]))?;
    on_table(checker, &[1, 65_535, 63, 0].repeat(64))?;
    greatest_excesses(checker)
}

/// All work at once, then all of it but for one tick; and the longest blocker.
fn greatest_excesses(checker: &mut Checker) -> Outcome {
    on_table(checker, &[65_535, 1, 1, 0].repeat(64))?;
    on_table(checker, &[&[65_535, 1, 1, 0].repeat(63)[..], &[65_534, 1, 1, 0]].concat())?;
    on_table(checker, &[1, 1, 65_535, 0, 65_535, 65_535, 65_535, 0])
}

/// Every call with an `out` of 0 to 6 words, on an input that is otherwise served.
fn short_outs(checker: &mut Checker) -> Outcome {
    let table = table(SETS[2]);
    let text = oracle::writer::set_text(&table);
    let sheet = oracle::sheet::sheet_of(&table);
    for out_length in 0..=6 {
        checker.out = Some(out_length);
        checker.read(&text, 8)?;
        checker.write(&table, 100)?;
        checker.schedule(&table, 8, 20)?;
        checker.verdict(&table)?;
        checker.pattern(&table, 20)?;
        checker.draw(7)?;
        checker.generate(7, 0, 4)?;
        checker.sheet_read(&sheet, 8)?;
        checker.sheet_write(&table, 100)?;
    }
    Ok(())
}

/// Every table length from 0 to 264, and every word of a table at the ends of its range.
fn table_edges(checker: &mut Checker) -> Outcome {
    for length in 0..=264 {
        for word in [0, 1, 65_536] {
            each_call_once(checker, &vec![word; length])?;
        }
    }
    for index in 0..12 {
        for word in [0, 1, 65_535, 65_536, u32::MAX] {
            let mut table = [3, 20, 30, 2].repeat(3);
            table[index] = word;
            on_table(checker, &table)?;
        }
    }
    Ok(())
}

fn each_call_once(checker: &mut Checker, table: &[u32]) -> Outcome {
    checker.write(table, 3000)?;
    checker.sheet_write(table, 3000)?;
    checker.verdict(table)?;
    checker.schedule(table, 1, 1100)?;
    checker.pattern(table, 1100)
}

/// Every text one byte away from a good one: cut, removed, changed, inserted.
fn every_small_edit(checker: &mut Checker) -> Outcome {
    let text: &[u8] = b"tasks=1\nc=10\nd=0\nt=65536\nr=99999\n";
    for place in 0..=text.len() {
        checker.read(&text[..place], 4)?;
        for byte in 0..=255 {
            checker.read(&[&text[..place], &[byte], &text[place..]].concat(), 4)?;
        }
    }
    for place in 0..text.len() {
        checker.read(&[&text[..place], &text[place + 1..]].concat(), 4)?;
        for byte in 0..=255 {
            checker.read(&[&text[..place], &[byte], &text[place + 1..]].concat(), 4)?;
        }
    }
    Ok(())
}

/// The first line with every number up to 120, before lines for exactly 64 tasks.
fn every_task_count(checker: &mut Checker) -> Outcome {
    let lines = b"c=1\nd=2\nt=3\nr=4\n".repeat(64);
    for count in 0..=120 {
        let text = [format!("tasks={count}\n").as_bytes(), &lines].concat();
        for length in lengths_around(4 * count.min(64)) {
            checker.read(&text, length)?;
        }
    }
    Ok(())
}

/// The most rows there can be, and finishes that don't fit into 32 bits.
fn worst_schedules(checker: &mut Checker) -> Outcome {
    let words = 4 * 64 * 100_000;
    checker.schedule(&[1, 65_535, 1, 0].repeat(64), 100_000, words)?;
    checker.schedule(&[65_535, 1, 1, 0].repeat(64), 100_000, words + 3)?;
    checker.schedule(&[65_535, 1, 1, 0].repeat(64), 100_000, words - 1)
}

//! The excess of a "misses": worked out by hand, then its laws on drawn sets.

use crate::definitions::{due, fails, wait};
use crate::pattern::named;
use crate::program::output;
use crate::tests::{misses, runs, set, Draw};
use crate::verdict::judge;
use crate::writer::set_text;
use crate::*;

/// 64 × 65,535 − 1: all that can be due at once, in a length of 1.
const GREATEST: u64 = 4_194_239;
const SIZES: [u32; 5] = [5, 12, 40, 3000, 65535];

#[test]
fn excesses_by_hand() {
    // 1 + 4 − 2, and the first of two equal tasks blocks.
    misses(&[(1, 2, 9), (5, 8, 8), (5, 9, 9)], 2, Some(1), 3);
    // 20 + 25 + 56 − 100.
    misses(&[(20, 100, 200), (25, 100, 250), (30, 150, 300), (57, 2000, 2000)], 100, Some(3), 1);
    // 59 + 621 − 622.
    misses(&[(59, 622, 145), (622, 65535, 65535)], 622, Some(1), 58);
    // 1 + 65,534 − 1.
    misses(&[(1, 1, 65535), (65535, 65535, 65535)], 1, Some(1), 65534);
}

/// Lengths at which every task passed before, and a later job is one too many.
#[test]
fn excesses_by_hand_at_a_later_job() {
    // 7 fits into 7; then 14 − 8.
    misses(&[(7, 7, 1)], 8, None, 6);
    // 5 + 1 fit into 9; then 10 + 1 − 10.
    misses(&[(5, 9, 1), (1, 9, 9)], 10, None, 1);
    // 3 + 5 fit into 8; then 6 + 5 − 10.
    misses(&[(3, 8, 2), (6, 99, 99)], 10, Some(1), 1);
    // 4 + 2 fit into 6, and 4 + 2 + 2 into 8; then 8 + 2 + 2 − 9.
    misses(&[(4, 6, 3), (2, 8, 8), (3, 20, 20)], 9, Some(2), 3);
}

/// A set of one task whose excess is this, and one of two where the second one blocks.
fn sets_over_by(over: u32) -> [Vec<u32>; 2] {
    [set(&[(over + 1, 1, 1)]), set(&[(1, 1, 65535), (over + 1, 65535, 65535)])]
}

/// The excess is printed last and in full; the call for C has one number for all of them.
#[test]
fn excesses_are_printed_and_not_called() {
    for over in [1, 2, 9, 10, 99, 100, 101, 102, 65534] {
        let [alone, blocked] = sets_over_by(over).map(|table| set_text(&table));
        let printed =
            |blocker| format!("set=1\nverdict=misses\nlength=1\nblocker={blocker}\nover={over}\n");
        assert_eq!(output(&alone), printed("none"));
        assert_eq!(output(&blocked), printed("1"));
        assert_eq!([tile_check(&alone), tile_check(&blocked)], [101, 101]);
    }
}

#[test]
fn the_greatest_excess() {
    let most = [65535, 1, 1, 0].repeat(64);
    let wanted = Verdict::Misses { length: 1, blocker: None, over: GREATEST };
    assert_eq!(verdict(&most), Ok(wanted));
    let text = set_text(&most);
    assert!(output(&text).ends_with("\nlength=1\nblocker=none\nover=4194239\n"));
    assert_eq!(tile_check(&text), 101);
}

struct Miss {
    tasks: Vec<Task>,
    length: u64,
    blocker: Option<usize>,
    over: u64,
}

/// The sets that miss, of so many drawn ones for each size of their numbers.
fn drawn_misses(draw: &mut Draw, sizes: &[u32], sets: usize) -> Vec<Miss> {
    let mut drawn = Vec::new();
    for &most in sizes.repeat(sets).iter() {
        let tasks = table::tasks(&draw.table(6, most)).unwrap();
        if let Verdict::Misses { length, blocker, over } = judge(&tasks) {
            drawn.push(Miss { tasks, length, blocker, over });
        }
    }
    assert!(drawn.len() > sets, "only {} of the drawn sets miss", drawn.len());
    drawn
}

#[test]
fn an_excess_is_above_0_and_below_the_sum_of_the_executions() {
    let mut seen = [[0; 2]; 2];
    for Miss { tasks, blocker, over, .. } in drawn_misses(&mut Draw(5), &SIZES, 600) {
        let executions: u64 = tasks.iter().map(|task| task.c).sum();
        assert!((1..executions).contains(&over), "{over}, {tasks:?}");
        seen[usize::from(blocker.is_some())][usize::from(over > 1)] += 1;
    }
    assert!(seen.iter().flatten().all(|&count| count > 50), "{seen:?}");
}

/// The tile is never idle in the named pattern, so that the end of its last row shows the excess.
/// Where there is a blocker, the length begins one tick after it.
#[test]
fn the_named_pattern_ends_that_much_after_the_length() {
    for Miss { tasks, length, blocker, over } in drawn_misses(&mut Draw(6), &SIZES, 300) {
        let rows = runs(&named(&tasks, length, blocker));
        let end = length + u64::from(blocker.is_some());
        assert_eq!(rows.last().unwrap().finish, end + over, "{tasks:?}");
    }
}

/// One to three words are drawn anew, to the better or to the worse; R is no part of it.
fn changed(draw: &mut Draw, tasks: &[Task]) -> Vec<Task> {
    let mut tasks = tasks.to_vec();
    for _ in 0..1 + draw.below(3) {
        let task = draw.below(tasks.len() as u32) as usize;
        let word = u64::from(1 + draw.below(45));
        match draw.below(3) {
            0 => tasks[task].c = 1 + word / 4,
            1 => tasks[task].d = word,
            _ => tasks[task].t = word,
        }
    }
    tasks
}

/// The sum is Due(L) + Wait(L). The cases around the edge have to come up.
#[test]
fn a_length_passes_exactly_if_the_sum_falls_by_the_excess_or_nothing_is_due() {
    let mut draw = Draw(7);
    let mut seen = [0; 5];
    for Miss { tasks, length, over, .. } in drawn_misses(&mut draw, &SIZES[..3], 2500) {
        let other = changed(&mut draw, &tasks);
        let sum = |tasks: &[Task]| due(tasks, length) + wait(tasks, length);
        let fall = sum(&tasks) as i64 - sum(&other) as i64;
        let (over, none_due) = (over as i64, due(&other, length) == 0);
        assert_eq!(!fails(&other, length), fall >= over || none_due, "{tasks:?}, {other:?}");
        let cases =
            [fall == over, fall == over - 1, fall > over, fall < 0, none_due && fall < over];
        for (count, met) in seen.iter_mut().zip(cases) {
            *count += u32::from(met);
        }
    }
    assert!(seen.iter().all(|&count| count > 50), "{seen:?}");
}

//! The generator of document 02, request 1: sets that any site can draw again.

use crate::refusal::Refusal;
use crate::table::LARGEST;
use crate::writer::set_text;

/// Eight tasks of four words.
pub const MOST_DRAWN: usize = 32;

/// The state is moved on; the number drawn.
pub fn draw(state: &mut u32) -> u32 {
    let next = (1_664_525 * u64::from(*state) + 1_013_904_223) % 4_294_967_296;
    *state = next as u32;
    *state / 65_536
}

/// The task count; the words of the set with this number go to the start of the lent table.
/// After a refusal the state is the one before the set.
pub fn generate(state: &mut u32, number: u32, table: &mut [u32]) -> Result<usize, Refusal> {
    let mut after = *state;
    let words = draw_set(&mut after, number).concat();
    if table.len() < words.len() {
        return Err(Refusal::ShortBuffer);
    }
    table[..words.len()].copy_from_slice(&words);
    *state = after;
    Ok(words.len() / 4)
}

/// The words that the set drawn from a state takes, whatever its number.
pub fn words_needed(mut state: u32) -> usize {
    draw_set(&mut state, 0).concat().len()
}

/// The texts of so many sets, numbered from 0, one state going through all of them.
pub fn texts(seed: u32, count: u32) -> Vec<u8> {
    let mut state = seed;
    let text = |number| set_text(&draw_set(&mut state, number).concat());
    (0..count).flat_map(text).collect()
}

fn draw_set(state: &mut u32, number: u32) -> Vec<[u32; 4]> {
    let count = 1 + draw(state) % 8;
    let mut tasks: Vec<[u32; 4]> = (0..count).map(|_| draw_task(state)).collect();
    if number.is_multiple_of(4) {
        lengthen_last(&mut tasks);
    }
    tasks
}

/// Drawn in the order T, C, D, R; the words stand as C, D, T, R.
fn draw_task(state: &mut u32) -> [u32; 4] {
    let t = 1 + draw(state) % 1000;
    let c = 1 + draw(state) % t;
    let d = 1 + draw(state) % 2000;
    let r = draw(state) % 1000;
    [c, d, t, r]
}

/// The last task gets D and T of 65,535 and C equal to the least D of the others, if there are any.
fn lengthen_last(tasks: &mut [[u32; 4]]) {
    let Some((last, others)) = tasks.split_last_mut() else { return };
    if let Some(least) = others.iter().map(|task| task[1]).min() {
        *last = [least, LARGEST, LARGEST, last[3]];
    }
}

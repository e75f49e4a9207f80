//! States of the generator, and numbers of its sets.

/// 1,664,525 times this is 1 modulo 2^32.
const INVERSE: u32 = 4_276_115_653;

/// The state that a draw replaces by this one.
fn before(state: u32) -> u32 {
    state.wrapping_sub(1_013_904_223).wrapping_mul(INVERSE)
}

/// The state that so many draws replace by this one.
fn draws_before(state: u32, draws: usize) -> u32 {
    (0..draws).fold(state, |state, _| before(state))
}

/// States at the ends of their range, around the wraps, and before noteworthy ones.
pub fn fixed() -> Vec<u32> {
    let powers = (0..32).flat_map(|bit| around(1 << bit));
    // The sum wraps from 1972 on, the product from 2581 on.
    let wraps = [1971, 1972, 2580, 2581, 2582, 5160, 5161];
    let top = [u32::MAX - 1, u32::MAX];
    let ends = [0, u32::MAX, 1 << 31].into_iter().flat_map(around).map(before);
    let mut states: Vec<u32> =
        powers.chain(wraps).chain(top).chain(ends).chain(before_edges()).collect();
    states.sort_unstable();
    states.dedup();
    states
}

/// States from which a set's count, or its first T, C, D or R, is made of a number at an edge, given
/// by the lowest and by the highest state that gives it.
fn before_edges() -> impl Iterator<Item = u32> {
    let numbers = [0, 1, 2, 3, 4, 5, 6, 7, 8, 999, 1000, 1999, 2000, 65_534, 65_535];
    let states = numbers.into_iter().flat_map(|number: u32| [number << 16, number << 16 | 65_535]);
    states.flat_map(|state| (1..=5).map(move |draws| draws_before(state, draws)))
}

/// Numbers around multiples of 4 and of 5, up to the highest.
pub fn numbers() -> Vec<u32> {
    let rounds = [25, 35, 40, 100, 256, 1000, 65_535, 65_536, 99_996, 1 << 31, u32::MAX - 3];
    let mut numbers: Vec<u32> =
        (0..=21).chain(rounds.into_iter().flat_map(around)).chain([u32::MAX]).collect();
    numbers.sort_unstable();
    numbers.dedup();
    numbers
}

fn around(number: u32) -> [u32; 3] {
    [number.wrapping_sub(1), number, number.wrapping_add(1)]
}

//! Random texts of sets.

use crate::damage;
use crate::random::Random;
use crate::tables;
use oracle::writer::set_text;

/// One well-formed set; the reader doesn't judge the range, so the words go up to 99,999.
pub fn readable(random: &mut Random) -> Vec<u8> {
    let count = if random.one_in(10) { random.pick(&[63, 64]) } else { random.between(1, 5) };
    let words: Vec<u32> = (0..4 * count).map(|_| number(random)).collect();
    set_text(&words)
}

/// One well-formed set of words in range, so that the writer can give it back.
pub fn in_range(random: &mut Random) -> Vec<u8> {
    set_text(&tables::in_range(random))
}

/// A few sets after each other.
pub fn several(random: &mut Random) -> Vec<u8> {
    let mut text = Vec::new();
    for _ in 0..random.between(1, 4) {
        let set = if random.one_in(3) { readable(random) } else { in_range(random) };
        text.extend(set);
    }
    text
}

/// What the program may be given: sets with verdicts and refusals, most of them damaged.
pub fn for_program(random: &mut Random) -> Vec<u8> {
    let mut text = several(random);
    for _ in 0..random.below(3) {
        let kind = random.pick(&damage::ALL);
        text = damage::apply(kind, random, &text);
    }
    text
}

/// Sets of one task each, `length` bytes in all; `length` is 24 to 40, or 48 or more.
pub fn exact(random: &mut Random, length: usize) -> Vec<u8> {
    assert!(can_be_filled(length) && length > 0, "no text of sets has {length} bytes");
    let mut text = Vec::new();
    while text.len() < length {
        let left = length - text.len();
        let digits = [0; 4].map(|_| random.between(1, 5));
        let size = LEAST_SET - 4 + digits.iter().sum::<u32>() as usize;
        if size <= left && can_be_filled(left - size) {
            text.extend(set_text(&digits.map(|count| number_of(random, count))));
        }
    }
    text
}

/// A set of one task takes 24 to 40 bytes.
const LEAST_SET: usize = 24;
const MOST_SET: usize = 40;

fn can_be_filled(length: usize) -> bool {
    length == 0 || (LEAST_SET..=MOST_SET).contains(&length) || length >= 2 * LEAST_SET
}

/// A number in range with this many digits.
fn number_of(random: &mut Random, digits: u32) -> u32 {
    let least = 10u32.pow(digits - 1);
    random.between(least, (10 * least - 1).min(65_535))
}

fn number(random: &mut Random) -> u32 {
    let most = random.pick(&[0, 9, 99, 999, 9999, 65_535, 65_536, 99_999]);
    random.between(0, most)
}

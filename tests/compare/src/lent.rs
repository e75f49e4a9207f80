//! Lent buffers, filled beforehand and with guard words on both sides.

const GUARD: usize = 16;

/// A word that can be filled with a pattern that depends on its place.
pub trait Word: Copy + PartialEq + std::fmt::Debug {
    fn pattern(number: u64) -> Self;
}

impl Word for u8 {
    fn pattern(number: u64) -> u8 {
        (number >> 56) as u8
    }
}

impl Word for u32 {
    fn pattern(number: u64) -> u32 {
        (number >> 32) as u32 | 0x8000_0000
    }
}

impl Word for u64 {
    fn pattern(number: u64) -> u64 {
        number | 0x8000_0000_0000_0000
    }
}

/// A buffer for one call. The same length and salt give the same content.
#[derive(PartialEq)]
pub struct Lent<W> {
    words: Vec<W>,
}

impl<W: Word> Lent<W> {
    pub fn new(length: usize, salt: u64) -> Lent<W> {
        let word = |place: usize| {
            W::pattern((place as u64 + 1).wrapping_add(salt).wrapping_mul(0x9e37_79b9_7f4a_7c15))
        };
        Lent { words: (0..length + 2 * GUARD).map(word).collect() }
    }

    /// The part between the guards.
    pub fn lend(&mut self) -> &mut [W] {
        let end = self.words.len() - GUARD;
        &mut self.words[GUARD..end]
    }

    pub fn content(&self) -> &[W] {
        &self.words[GUARD..self.words.len() - GUARD]
    }

    /// Tells the first word, guards included, that isn't the same.
    pub fn first_difference(&self, wanted: &Lent<W>) -> Option<String> {
        if self == wanted {
            return None;
        }
        let mut pairs = self.words.iter().zip(&wanted.words);
        let place = pairs.position(|(got, wanted)| got != wanted)?;
        let (got, wanted) = (self.words[place], wanted.words[place]);
        let index = place as i64 - GUARD as i64;
        Some(format!("index {index}: wanted {wanted:?}, got {got:?}"))
    }
}

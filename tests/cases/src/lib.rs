//! Tables, texts and sheets for the tests, drawn from a fixed seed; states and numbers for the
//! generator.

pub mod damage;
pub mod random;
pub mod sheet_damage;
pub mod sheets;
pub mod states;
pub mod tables;
pub mod texts;

pub use random::Random;

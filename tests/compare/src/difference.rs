//! A difference between the probe and the oracle, with the input that shows it.

use std::fmt;

pub struct Difference {
    pub call: &'static str,
    pub input: String,
    pub found: String,
}

pub type Outcome = Result<(), Difference>;

impl fmt::Display for Difference {
    fn fmt(&self, f: &mut fmt::Formatter) -> fmt::Result {
        write!(f, "DIFFERENCE in {}\n  input: {}\n  {}", self.call, self.input, self.found)
    }
}

/// A text as it can be read: bytes that aren't printable are escaped.
pub fn show_text(text: &[u8]) -> String {
    format!("{} bytes \"{}\"", text.len(), text.escape_ascii())
}

pub fn show_table(table: &[u32]) -> String {
    format!("{} words {:?}", table.len(), table)
}

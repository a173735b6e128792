//! What is reported where the two sides differ, or a law is broken.

use std::fmt::{self, Display, Formatter};

use crate::comparing::buffers::hex;

/// Something that the two sides have different, with what they were given.
pub struct Difference {
    pub call: &'static str,
    pub what: String,
    pub inputs: Vec<(String, String)>,
}

impl Display for Difference {
    fn fmt(&self, to: &mut Formatter) -> fmt::Result {
        writeln!(to, "{}: {}", self.call, self.what)?;
        for (name, value) in &self.inputs {
            writeln!(to, "  {name}: {value}")?;
        }
        Ok(())
    }
}

/// Bytes by their name, as a difference shows them.
pub fn shown(name: &str, bytes: &[u8]) -> (String, String) {
    (format!("{name} ({} bytes)", bytes.len()), hex(bytes))
}

/// A number by its name; of a long buffer its length.
pub fn counted(name: &str, number: usize) -> (String, String) {
    (name.to_string(), number.to_string())
}

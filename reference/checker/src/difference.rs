//! A difference between what is expected and what was found.

use std::fmt;

/// What differs, with the whole input.
#[derive(Clone, Debug)]
pub struct Difference {
    place: String,
    input: String,
}

impl Difference {
    /// A difference at a place, for an input.
    pub fn new(place: String, input: String) -> Difference {
        Difference { place, input }
    }
}

impl fmt::Display for Difference {
    fn fmt(&self, out: &mut fmt::Formatter) -> fmt::Result {
        writeln!(out, "difference at {}", self.place)?;
        write!(out, "input: {}", self.input)
    }
}

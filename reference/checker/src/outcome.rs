//! What an operation answers and leaves behind, from the library and from the
//! model, in one form.

use reference::generate::rules::JudgeTable;
use reference::model::limits;

use crate::difference::Difference;
use crate::input::{Input, GUARD};

/// The whole answer, and every lent entry after it.
#[derive(Clone, PartialEq, Eq, Debug)]
pub struct Outcome {
    /// The refusal number, 0 when accepted.
    pub number: u8,
    /// The values, all zero on a refusal. Of the joint reading also whether
    /// the part is of the recording text, where it starts and its length.
    pub values: Vec<usize>,
    /// Each lent slice with its guards, in the order of [`Input::slices`].
    pub lent: Vec<Vec<u64>>,
}

/// The first place where two rows of entries differ, and both entries there.
pub fn first_difference<T: Copy + PartialEq>(expected: &[T], found: &[T]) -> Option<(usize, T, T)> {
    let mut pairs = expected.iter().zip(found).enumerate();
    pairs.find(|(_, (one, other))| one != other).map(|(at, (one, other))| (at, *one, *other))
}

/// A lent entry's place as it is printed: its number, or which guard it is in.
pub fn entry_name(at: usize, length: usize) -> String {
    if at < GUARD {
        format!("entry {} before the first", GUARD - at)
    } else if at < GUARD + length {
        format!("entry {}", at - GUARD)
    } else {
        format!("entry {} after the last", at - GUARD - length + 1)
    }
}

impl Outcome {
    /// How many lent entries it has, guards included.
    pub fn entries(&self) -> u64 {
        self.lent.iter().map(|entries| entries.len() as u64).sum()
    }

    /// The lent part of a slice, without the guards.
    pub fn slice(&self, number: usize) -> &[u64] {
        let entries = &self.lent[number];
        &entries[GUARD..entries.len() - GUARD]
    }

    /// The table, count and tops that an accepted rewriting left, as the
    /// judge of the whole recording takes them.
    pub fn rewritten_table(&self) -> JudgeTable {
        let nodes = self.slice(0)[..limits::TABLE_NODES].iter().map(|word| *word as u32);
        let [count, weak_top, strong_top] = self.values[..] else { unreachable!("three values") };
        JudgeTable { count, nodes: nodes.collect(), weak_top, strong_top }
    }

    /// Where a library's outcome differs from this expected one, in words.
    fn difference(&self, input: &Input, found: &Outcome) -> Option<String> {
        if self == found {
            return None;
        }
        if self.number != found.number {
            return Some(format!("number: expected {}, found {}", self.number, found.number));
        }
        if self.values != found.values {
            return Some(format!("values: expected {:?}, found {:?}", self.values, found.values));
        }
        for (number, slice) in input.slices().iter().enumerate() {
            let entries = first_difference(&self.lent[number], &found.lent[number]);
            if let Some((at, expected, other)) = entries {
                let entry = entry_name(at, slice.lent.length);
                let what = format!("{} {entry}", slice.name);
                return Some(format!("{what}: expected {expected:#x}, found {other:#x}"));
            }
        }
        None
    }

    /// Compares a library's outcome with this expected one.
    pub fn require(&self, input: &Input, found: &Outcome) -> Result<(), Difference> {
        match self.difference(input, found) {
            None => Ok(()),
            Some(place) => Err(Difference::new(place, input.to_string())),
        }
    }
}

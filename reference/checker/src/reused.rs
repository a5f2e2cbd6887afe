//! Lent space without a new allocation for each comparison, where there are
//! millions.

use crate::check::Check;
use crate::difference::Difference;
use crate::input::{Entry, Input, Lent, Space};
use crate::outcome::Outcome;
use crate::tally::Operation;
use crate::wrong::Place;

/// Bytes that are compared and filled at once: few enough that what they are
/// compared with and filled from stays in the nearest cache.
const BLOCK: usize = 2048;

/// One lent slice: as the library leaves it, and as the model leaves it. Before
/// each call it is a block of a pattern, again and again.
pub struct Reused<T> {
    full: usize,
    pattern: Vec<T>,
    zeros: Vec<T>,
    found: Space<T>,
    expected: Space<T>,
    /// For each block of `expected`: is it all zero?
    unused: Vec<bool>,
}

/// Fills entries with a block, again and again.
fn fill<T: Copy>(entries: &mut [T], block: &[T]) {
    for part in entries.chunks_mut(block.len()) {
        part.copy_from_slice(&block[..part.len()]);
    }
}

impl<T: Entry + PartialEq> Reused<T> {
    /// Space of this full size, and a little more.
    pub fn new(full: usize) -> Reused<T> {
        let mut found: Space<T> = Space::new(Lent::ample(full));
        let block = BLOCK / size_of::<T>();
        let pattern = found.entries()[..block].to_vec();
        fill(found.entries_mut(), &pattern);
        let (zeros, expected) = (vec![T::of(0); block], found.clone());
        let unused = vec![false; found.entries().len().div_ceil(block)];
        Reused { full, pattern, zeros, found, expected, unused }
    }

    /// The space to lend to the library, as it is before each call: what it
    /// leaves is to be required or dropped.
    pub fn lend(&mut self) -> &mut [T] {
        self.found.lend()
    }

    /// Drops what the library left.
    pub fn drop_found(&mut self) {
        fill(self.found.entries_mut(), &self.pattern);
    }

    /// The space to lend to the model, for an input that is accepted: it fills
    /// the full size, and what lies around that is the pattern still.
    pub fn lend_model(&mut self) -> &mut [T] {
        self.expected.lend()
    }

    /// Expects what the model left, with an entry altered if the wrong answer is
    /// of it.
    pub fn expect(&mut self, check: &Check, operation: Operation) {
        let last = self.full - 1;
        let places = [(Place::Content, 0), (Place::Unused, last), (Place::Beyond, last + 1)];
        for (place, at) in places {
            if check.wrong(operation, place) {
                let entry = &mut self.expected.lend()[at];
                *entry = T::of(entry.word() ^ 1);
            }
        }
        let blocks = self.expected.entries().chunks(self.zeros.len());
        for (unused, block) in self.unused.iter_mut().zip(blocks) {
            *unused = *block == self.zeros[..block.len()];
        }
    }

    /// What is expected, and after [`Reused::require`] also what the library left.
    pub fn expected(&mut self) -> &[T] {
        self.expected.lend()
    }

    /// How many entries are compared.
    pub fn entries(&self) -> u64 {
        self.found.entries().len() as u64
    }

    /// Is what the library left what is expected? Block by block it is the
    /// pattern again, so that each is fetched once for both, and from the last
    /// on, where the library was last.
    fn is_expected(&mut self) -> bool {
        let block = self.pattern.len();
        let found = self.found.entries_mut().chunks_mut(block).enumerate();
        let expected = self.expected.entries().chunks(block);
        for (((number, found), expected), unused) in found.zip(expected).zip(&self.unused).rev() {
            let expected = if *unused { &self.zeros[..found.len()] } else { expected };
            if found != expected {
                self.put_back((number + 1) * block);
                return false;
            }
            found.copy_from_slice(&self.pattern[..found.len()]);
        }
        true
    }

    /// Puts back the entries from a number on, which were as expected.
    fn put_back(&mut self, start: usize) {
        let (found, expected) = (self.found.entries_mut(), self.expected.entries());
        let start = start.min(found.len());
        found[start..].copy_from_slice(&expected[start..]);
    }

    /// Requires that the library accepts, answers these values and leaves what
    /// the model leaves.
    pub fn require<const N: usize>(
        &mut self,
        expected: [usize; N],
        found: (u8, [usize; N]),
        input: impl FnOnce() -> Input,
    ) -> Result<(), Difference> {
        if found == (0, expected) && self.is_expected() {
            return Ok(());
        }
        let outcome = |number, values: [usize; N], space: &Space<T>| {
            let lent = vec![space.clone().words()];
            Outcome { number, values: values.to_vec(), lent }
        };
        let (number, values) = found;
        let found = outcome(number, values, &self.found);
        outcome(0, expected, &self.expected).require(&input(), &found)?;
        unreachable!("the outcomes differ")
    }
}

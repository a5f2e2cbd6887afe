//! Lent space: shorter than its full size, exact and longer, never clean.

use super::random::Random;

/// A length to lend for a full size: the full size half of the time, else one
/// shorter, none, any shorter or longer one.
pub fn length(random: &mut Random, full: usize) -> usize {
    match random.below(16) {
        0 => full - 1,
        1 => 0,
        2 => random.below(full),
        3..=7 => full + 1 + random.below(9),
        _ => full,
    }
}

/// Lent entries of a length, none of them zero.
pub fn entries<T>(random: &mut Random, length: usize, entry: impl Fn(u64) -> T) -> Vec<T> {
    (0..length).map(|_| entry(random.bits())).collect()
}

/// Lent bytes of rule text.
pub fn bytes(random: &mut Random, length: usize) -> Vec<u8> {
    entries(random, length, |bits| (bits as u8) | 1)
}

/// Lent nodes, masks or places.
pub fn words(random: &mut Random, length: usize) -> Vec<u32> {
    entries(random, length, |bits| (bits as u32) | 1)
}

/// Lent states, or words of rows.
pub fn long_words(random: &mut Random, length: usize) -> Vec<u64> {
    entries(random, length, |bits| bits | 1)
}

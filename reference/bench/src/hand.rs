//! The operations written by hand for speed, with the same answers as the
//! proved library: the same numbers, values and lent entries.

pub mod archive;
pub mod check;
pub mod evidence;
pub mod gauges;
pub mod line;
pub mod plain;
pub mod read;
pub mod rewrite;
pub mod session;
pub mod tuned;
pub mod write;

/// The rule table's kinds, and a node's word taken apart.
pub mod node {
    pub use reference::model::rule::{
        ATOM, END, KIND_WORDS, NEXT, NOT, OR, PREV, RUN, SINCE, TRUE, UNTIL,
    };

    pub fn kind(word: u32) -> u32 {
        word & 0xff
    }

    pub fn first(word: u32) -> usize {
        (word >> 8 & 0xfff) as usize
    }

    pub fn second(word: u32) -> usize {
        (word >> 20) as usize
    }

    pub fn word(kind: u32, first: usize, second: usize) -> u32 {
        kind | (first as u32) << 8 | (second as u32) << 20
    }
}

/// Leaves zeros after a refusal and hands on its number without values.
pub fn refused<T: Copy + Default, const N: usize>(
    number: u8,
    lent: &mut [T],
    full: usize,
) -> (u8, [usize; N]) {
    lent[..full].fill(T::default());
    (number, [0; N])
}

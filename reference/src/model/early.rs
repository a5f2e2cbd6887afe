//! "Verdicts that may be announced early": what is asked of a recording that
//! goes on from the first K states, and which verdicts stay on it.

use super::recording::{bit, Recording, State};
use super::Verdict;

/// "every accepted longer recording that begins with the same masks and words
/// and has the same run marks in the first K-1 states": does b begin like a, a
/// recording of K states?
pub fn begins(a: &Recording, b: &Recording) -> bool {
    let (first, others) = (a.states.len(), a.states.len() - 1);
    b.states.len() >= first
        && a.masks == b.masks
        && (0..first).all(|k| a.states[k].atoms == b.states[k].atoms)
        && (0..others).all(|k| a.states[k].scheduled == b.states[k].scheduled)
}

/// What of it one controller needs; the number of controllers, the others'
/// masks and marks and foreign atoms where it doesn't run are free.
#[derive(Clone, Copy, PartialEq, Eq, Debug)]
pub enum Asked {
    /// K states or more.
    Longer,
    /// Its own mask.
    Mask,
    /// Its run marks "in the first K-1 states".
    Marks,
    /// The words of those in which it runs.
    Words,
    /// Its own atoms in state K.
    OwnAtoms,
}

impl Asked {
    /// All that is asked.
    pub const ALL: [Asked; 5] =
        [Asked::Longer, Asked::Mask, Asked::Marks, Asked::Words, Asked::OwnAtoms];

    /// Has b this of a, for a controller? Of a shorter b the states that it has.
    pub fn met(self, a: &Recording, b: &Recording, controller: usize) -> bool {
        let last = a.states.len() - 1;
        let own = a.masks[controller];
        let mut before = a.states[..last].iter().zip(&b.states);
        let marked = |state: &State| bit(state.scheduled, controller);
        match self {
            Asked::Longer => b.states.len() > last,
            Asked::Mask => b.masks[controller] == own,
            Asked::Marks => before.all(|(x, y)| marked(x) == marked(y)),
            Asked::Words => before.all(|(x, y)| !marked(x) || x.atoms == y.atoms),
            Asked::OwnAtoms => {
                b.states.get(last).is_none_or(|y| (y.atoms ^ a.states[last].atoms) & own == 0)
            }
        }
    }
}

/// What b hasn't of a, for a controller.
pub fn missing(a: &Recording, b: &Recording, controller: usize) -> Vec<Asked> {
    Asked::ALL.into_iter().filter(|asked| !asked.met(a, b, controller)).collect()
}

/// May these verdicts be announced? "a strong yes .. stays a strong yes", "a
/// weak no stays a weak no alike".
pub fn announced(verdict: Verdict) -> bool {
    verdict.strong || !verdict.weak
}

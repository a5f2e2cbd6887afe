//! "The recording" and "The local trace", and the rows of the refusal table
//! for "a recording line or state" and "recording line count".

use super::{limits, refusal};

/// Bit `index` of a word.
pub fn bit(word: u32, index: usize) -> bool {
    word >> index & 1 == 1
}

/// One state: its word of atoms and a run mark for each controller.
#[derive(Clone, Copy, PartialEq, Eq, Debug)]
pub struct State {
    /// Bit a is atom a.
    pub atoms: u32,
    /// Bit c is the run mark of controller c.
    pub scheduled: u32,
}

impl State {
    /// The state that a word of lent space is.
    pub fn of_word(word: u64) -> State {
        State { atoms: (word % (1 << 32)) as u32, scheduled: (word / (1 << 32)) as u32 }
    }

    /// The word of lent space that a state is.
    pub fn word(self) -> u64 {
        u64::from(self.atoms) + u64::from(self.scheduled) * (1 << 32)
    }
}

/// A recording: a mask for each controller, and the states.
#[derive(Clone, PartialEq, Eq, Debug)]
pub struct Recording {
    /// The own atoms of each controller.
    pub masks: Vec<u32>,
    /// The states.
    pub states: Vec<State>,
}

impl Recording {
    /// Does the controller run in this state? "A mark in the last state is
    /// read as no run" (document 02).
    pub fn runs(&self, controller: usize, k: usize) -> bool {
        let last = k + 1 == self.states.len();
        !last && bit(self.states[k].scheduled, controller)
    }

    /// "`end` holds in state k when c runs in no state from k on."
    pub fn ended(&self, controller: usize, k: usize) -> bool {
        (k..self.states.len()).all(|j| !self.runs(controller, j))
    }

    /// Refusal 11: a controller not below C.
    pub fn check_controller(&self, controller: usize) -> Result<(), u8> {
        if controller >= self.masks.len() {
            return Err(refusal::CONTROLLER);
        }
        Ok(())
    }
}

/// Refusal 6 of C: from 1 to 11.
pub fn check_controllers(controllers: usize) -> Result<(), u8> {
    if !(1..=limits::CONTROLLERS).contains(&controllers) {
        return Err(refusal::RECORDING_LIMIT);
    }
    Ok(())
}

/// Refusal 6 of the heading: C from 1 to 11, N from 1 to 128.
pub fn check_heading(controllers: usize, length: usize) -> Result<(), u8> {
    check_controllers(controllers)?;
    if !(1..=limits::STATES).contains(&length) {
        return Err(refusal::RECORDING_LIMIT);
    }
    Ok(())
}

/// Refusal 7: a mask meets an earlier mask.
pub fn check_mask(earlier: &[u32], mask: u32) -> Result<(), u8> {
    if earlier.iter().any(|other| other & mask != 0) {
        return Err(refusal::MASKS_MEET);
    }
    Ok(())
}

/// "Output rule: if c doesn't run in state k and k+1 exists, its own atoms
/// are equal in k and k+1."
pub fn obeys_output_rule(masks: &[u32], before: State, after: State) -> bool {
    masks.iter().enumerate().all(|(controller, own)| {
        bit(before.scheduled, controller) || before.atoms & own == after.atoms & own
    })
}

/// Refusal 6 of a state: a run mark at C or above.
pub fn check_marks(controllers: usize, state: State) -> Result<(), u8> {
    if (controllers..32).any(|controller| bit(state.scheduled, controller)) {
        return Err(refusal::RECORDING_LIMIT);
    }
    Ok(())
}

/// Refusal 10 of a state after the one before it, if there is one.
pub fn check_output(masks: &[u32], before: Option<State>, state: State) -> Result<(), u8> {
    if before.is_some_and(|before| !obeys_output_rule(masks, before, state)) {
        return Err(refusal::OUTPUT_RULE);
    }
    Ok(())
}

/// Refusals 6 and 10 of a state after the one before it, if there is one, in a
/// recording of `controllers` controllers.
pub fn check_state(
    controllers: usize,
    masks: &[u32],
    before: Option<State>,
    state: State,
) -> Result<(), u8> {
    check_marks(controllers, state)?;
    check_output(masks, before, state)
}

/// Refusal 7 of the masks that are there, C at most.
pub fn check_masks(controllers: usize, words: &[u32]) -> Result<Vec<u32>, u8> {
    let mut masks = Vec::new();
    for mask in words.iter().take(controllers) {
        check_mask(&masks, *mask)?;
        masks.push(*mask);
    }
    Ok(masks)
}

/// A recording as tables: C and N, the masks that are there, the states that
/// are there, then 8 if masks or states are fewer than C or N.
pub fn check_recording(
    controllers: usize,
    length: usize,
    mask_words: &[u32],
    state_words: &[u64],
) -> Result<Recording, u8> {
    check_heading(controllers, length)?;
    let masks = check_masks(controllers, mask_words)?;
    let mut states = Vec::new();
    for word in state_words.iter().take(length) {
        let state = State::of_word(*word);
        check_state(controllers, &masks, states.last().copied(), state)?;
        states.push(state);
    }
    if masks.len() < controllers || states.len() < length {
        return Err(refusal::RECORDING_LINES);
    }
    Ok(Recording { masks, states })
}

/// A local trace with the own atoms of its controller.
#[derive(Clone, PartialEq, Eq, Debug)]
pub struct LocalTrace {
    /// The mask of own atoms.
    pub own: u32,
    /// The word at each place.
    pub positions: Vec<u32>,
}

/// The states that the places of the local trace are: "place i < m is state
/// r(i)", "place m is state r(m-1)+1, or state 0 if m = 0".
pub fn place_states(recording: &Recording, controller: usize) -> Vec<usize> {
    let mut states: Vec<usize> =
        (0..recording.states.len()).filter(|k| recording.runs(controller, *k)).collect();
    let last = match states.last() {
        None => 0,
        Some(r) => r + 1,
    };
    states.push(last);
    states
}

/// "The local trace": the states in which c runs, with their whole words, and
/// a last place with own atoms only.
pub fn project(recording: &Recording, controller: usize) -> LocalTrace {
    let own = recording.masks[controller];
    let states = place_states(recording, controller);
    let mut positions: Vec<u32> = states.iter().map(|k| recording.states[*k].atoms).collect();
    positions[states.len() - 1] &= own;
    LocalTrace { own, positions }
}

//! Recordings, valid and damaged, as words of lent space, other schedules of
//! the same local trace, and recordings that begin alike.

use super::random::Random;
use crate::model::limits;
use crate::model::recording::State;

/// A recording as an operation on tables takes it.
#[derive(Clone, PartialEq, Eq, Debug)]
pub struct RecordingTable {
    /// C.
    pub controllers: usize,
    /// N.
    pub length: usize,
    /// The masks; there may be fewer or more than C.
    pub masks: Vec<u32>,
    /// The states; there may be fewer or more than N.
    pub states: Vec<u64>,
}

/// Gives each free atom to one of the controllers or to nobody.
fn share_atoms(random: &mut Random, masks: &mut [u32], free: u32, receivers: &[usize]) {
    for atom in 0..limits::ATOMS {
        if free >> atom & 1 == 1 && !receivers.is_empty() && !random.once_in(4) {
            masks[random.pick(receivers)] |= 1 << atom;
        }
    }
}

/// Some of the bits of a word: few, half or all.
fn some_bits(random: &mut Random) -> u32 {
    match random.below(4) {
        0 => random.word() & random.word() & random.word(),
        1 => u32::MAX,
        _ => random.word(),
    }
}

/// How often a controller runs: never, seldom, evenly or always.
fn runs(random: &mut Random, habit: usize) -> bool {
    match habit {
        0 => false,
        1 => random.once_in(8),
        2 => random.once_in(2),
        _ => true,
    }
}

/// The atoms that may change after a state: those of nobody and those of the
/// controllers that run in it.
fn may_change(masks: &[u32], scheduled: u32) -> u32 {
    let held = masks.iter().enumerate().filter(|(c, _)| scheduled >> c & 1 == 0);
    !held.fold(0, |atoms, (_, own)| atoms | own)
}

/// States that obey the output rule. Run marks in the last one are a step whose
/// result isn't there.
fn states(random: &mut Random, masks: &[u32], length: usize) -> Vec<u64> {
    let habits: Vec<usize> = masks.iter().map(|_| random.below(4)).collect();
    let mut atoms = random.word();
    let mut words = Vec::new();
    for _ in 0..length {
        let mut scheduled = 0;
        for (c, habit) in habits.iter().enumerate() {
            if runs(random, *habit) {
                scheduled |= 1 << c;
            }
        }
        words.push(State { atoms, scheduled }.word());
        atoms ^= some_bits(random) & may_change(masks, scheduled);
    }
    words
}

/// Run marks of so many controllers: few, half, most or all.
pub fn marks(random: &mut Random, controllers: usize) -> u64 {
    let [one, other] = [random.word(), random.word()];
    let word = random.pick(&[one & other, one, one | other, u32::MAX]);
    u64::from(word % (1 << controllers))
}

/// A state that may follow this one.
pub fn following(random: &mut Random, masks: &[u32], before: u64) -> u64 {
    let State { atoms, scheduled } = State::of_word(before);
    let atoms = atoms ^ (some_bits(random) & may_change(masks, scheduled));
    marks(random, masks.len()) << limits::ATOMS | u64::from(atoms)
}

/// An accepted recording of at most so many controllers and states.
pub fn recording(
    random: &mut Random,
    most_controllers: usize,
    most_states: usize,
) -> RecordingTable {
    let controllers = random.size(1, most_controllers);
    let length = random.size(1, most_states);
    let everybody: Vec<usize> = (0..controllers).collect();
    let mut masks = vec![0; controllers];
    share_atoms(random, &mut masks, u32::MAX, &everybody);
    let states = states(random, &masks, length);
    RecordingTable { controllers, length, masks, states }
}

/// The number of controllers or of states made wrong, or not matching.
fn damage_heading(random: &mut Random, recording: &mut RecordingTable) {
    match random.below(5) {
        0 => recording.controllers = 0,
        1 => recording.length = 0,
        2 => recording.controllers = random.beyond(limits::CONTROLLERS + 1),
        3 => recording.length = random.beyond(limits::STATES + 1),
        _ => {
            recording.controllers = random.between(1, limits::CONTROLLERS);
            recording.length = random.between(1, limits::STATES);
        }
    }
}

/// Masks or states taken away: a line missing.
fn shorten(random: &mut Random, recording: &mut RecordingTable) {
    if random.once_in(2) {
        recording.masks.truncate(random.below(recording.masks.len()));
    } else {
        recording.states.truncate(random.below(recording.states.len()));
    }
}

/// A bit of a state turned over: an atom, a run mark, or one at C or above.
fn damage_state(random: &mut Random, recording: &mut RecordingTable) {
    let k = random.below(recording.states.len());
    let k = if random.once_in(4) { recording.states.len() - 1 } else { k };
    let turned = match random.below(4) {
        0 => random.below(limits::ATOMS),
        1 => 32 + random.below(recording.controllers),
        2 => 32 + random.between(recording.controllers, 31),
        _ => random.below(64),
    };
    recording.states[k] ^= 1 << turned;
}

/// A recording that is most of the time refused.
pub fn damaged_recording(
    random: &mut Random,
    most_controllers: usize,
    most_states: usize,
) -> RecordingTable {
    let mut recording = recording(random, most_controllers, most_states);
    for _ in 0..random.pick(&[1, 1, 2]) {
        if recording.masks.is_empty() || recording.states.is_empty() {
            break;
        }
        let (mask, state) = (recording.masks.len(), recording.states.len());
        match random.below(8) {
            0 => shorten(random, &mut recording),
            1 => recording.masks[random.below(mask)] |= 1 << random.below(limits::ATOMS),
            2 => recording.states[random.below(state)] = random.bits(),
            3 => recording.masks.extend([random.word(), random.word()]),
            4 => recording.states.extend([random.bits(), random.bits()]),
            5 | 6 => damage_state(random, &mut recording),
            _ => {}
        }
    }
    if random.once_in(4) {
        damage_heading(random, &mut recording);
    }
    recording
}

/// An accepted recording or a damaged one.
pub fn any_recording(
    random: &mut Random,
    most_controllers: usize,
    most_states: usize,
) -> RecordingTable {
    if random.once_in(2) {
        recording(random, most_controllers, most_states)
    } else {
        damaged_recording(random, most_controllers, most_states)
    }
}

/// The words of the states in which a controller runs, and its own atoms
/// after the last of them. A mark in the last state is no run.
fn local_words(recording: &RecordingTable, controller: usize) -> (Vec<u32>, u32) {
    let own = recording.masks[controller];
    let states = recording.states.iter().map(|word| State::of_word(*word));
    let mut steps = Vec::new();
    let mut last = State::of_word(recording.states[0]).atoms & own;
    let mut after_step = false;
    for (k, state) in states.enumerate() {
        if after_step {
            last = state.atoms & own;
        }
        after_step = k + 1 < recording.length && state.scheduled >> controller & 1 == 1;
        if after_step {
            steps.push(state.atoms);
        }
    }
    (steps, last)
}

/// The words at the places of the local trace of a controller.
pub fn places(recording: &RecordingTable, controller: usize) -> Vec<u32> {
    let (mut places, last) = local_words(recording, controller);
    places.push(last);
    places
}

/// In which of `length` states the `steps` steps come; never in the last.
fn schedule(random: &mut Random, steps: usize, length: usize) -> Vec<bool> {
    let mut picked = vec![false; length];
    let mut left = steps;
    for (k, step) in picked.iter_mut().enumerate() {
        let free = length - 1 - k;
        *step = left > 0 && random.below(free) < left;
        left -= usize::from(*step);
    }
    picked
}

/// The words of a recording with these steps at the picked states: between
/// them own atoms are those of the place that follows, the others are free.
fn scheduled_atoms(
    random: &mut Random,
    own: u32,
    picked: &[bool],
    steps: &[u32],
    last: u32,
) -> Vec<u32> {
    let mut place = 0;
    let mut words = Vec::new();
    for step in picked {
        let next = steps.get(place).copied().unwrap_or(last);
        if *step {
            words.push(next);
            place += 1;
        } else {
            let before = words.last().copied().unwrap_or(next);
            let foreign = before ^ (some_bits(random) & some_bits(random));
            words.push((next & own) | (foreign & !own));
        }
    }
    words
}

/// The run marks of a state for all but one controller: those whose atoms
/// change have to run, the others may.
fn others_scheduled(
    random: &mut Random,
    masks: &[u32],
    controller: usize,
    changed: u32,
    habits: &[usize],
) -> u32 {
    let mut scheduled = 0;
    for (c, own) in masks.iter().enumerate() {
        if c != controller && (changed & own != 0 || runs(random, habits[c])) {
            scheduled |= 1 << c;
        }
    }
    scheduled
}

/// Masks for a number of controllers, one of which keeps its own atoms.
fn other_masks(random: &mut Random, controllers: usize, controller: usize, own: u32) -> Vec<u32> {
    let others: Vec<usize> = (0..controllers).filter(|c| *c != controller).collect();
    let mut masks = vec![0; controllers];
    masks[controller] = own;
    share_atoms(random, &mut masks, !own, &others);
    masks
}

/// A recording that has this controller, with these words in the states in
/// which it runs, this mask of own atoms for it and these own atoms after its
/// last step; any length, other controllers and states between its steps, any
/// marks in the last state.
fn recorded(
    random: &mut Random,
    controller: usize,
    own: u32,
    steps: &[u32],
    last: u32,
) -> RecordingTable {
    let controllers = random.between(controller + 1, limits::CONTROLLERS);
    recorded_among(random, (controllers, controller), own, steps, last)
}

/// The same of so many controllers.
fn recorded_among(
    random: &mut Random,
    (controllers, controller): (usize, usize),
    own: u32,
    steps: &[u32],
    last: u32,
) -> RecordingTable {
    let length = random.size(steps.len() + 1, limits::STATES);
    let picked = schedule(random, steps.len(), length);
    let atoms = scheduled_atoms(random, own, &picked, steps, last);
    among_others(random, (controllers, controller), own, &picked, &atoms)
}

/// A recording of these words and so many controllers in which this one owns
/// these atoms and runs in the picked states; the others run at least where
/// their atoms change, any marks in the last state.
fn among_others(
    random: &mut Random,
    (controllers, controller): (usize, usize),
    own: u32,
    picked: &[bool],
    atoms: &[u32],
) -> RecordingTable {
    let length = atoms.len();
    let masks = other_masks(random, controllers, controller, own);
    let habits: Vec<usize> = masks.iter().map(|_| random.below(4)).collect();
    let mut states = Vec::new();
    for k in 0..length {
        let last = k + 1 == length;
        let marked = picked[k] || (last && runs(random, habits[controller]));
        let mut scheduled = u32::from(marked) << controller;
        let changed = if last { 0 } else { atoms[k] ^ atoms[k + 1] };
        scheduled |= others_scheduled(random, &masks, controller, changed, &habits);
        states.push(State { atoms: atoms[k], scheduled }.word());
    }
    RecordingTable { controllers, length, masks, states }
}

/// An accepted recording with a controller that runs often and words that seldom
/// change, so that its local trace is long and much the same throughout.
pub fn steady(random: &mut Random) -> (RecordingTable, usize) {
    let steps = random.size(1, limits::STATES - 1);
    let own = [0, u32::MAX, 0x5555_5555, 1, random.word()][random.below(5)];
    let mut word = [0, 0, u32::MAX, random.word()][random.below(4)];
    let mut words = Vec::new();
    for _ in 0..=steps {
        words.push(word);
        if random.once_in(16) {
            word ^= 1 << random.below(limits::ATOMS);
        }
    }
    let last = words.pop().expect("a place") & own;
    let controller = random.below(limits::CONTROLLERS);
    (recorded(random, controller, own, &words, last), controller)
}

/// Another recording that has this controller, with the same local trace and
/// the same mask of own atoms for it.
pub fn rescheduled(
    random: &mut Random,
    recording: &RecordingTable,
    controller: usize,
) -> RecordingTable {
    let (steps, last) = local_words(recording, controller);
    recorded(random, controller, recording.masks[controller], &steps, last)
}

/// The same of so many controllers: "between one of eight controllers and one of
/// eleven".
pub fn rescheduled_among(
    random: &mut Random,
    recording: &RecordingTable,
    controllers: usize,
    controller: usize,
) -> RecordingTable {
    let (steps, last) = local_words(recording, controller);
    let own = recording.masks[controller];
    recorded_among(random, (controllers, controller), own, &steps, last)
}

/// Another recording that has this controller, with the same mask of own atoms
/// for it and a local trace of the same length that agrees with this one in the
/// kept bits of each place. The others are turned over: few, half or all.
pub fn varied(
    random: &mut Random,
    recording: &RecordingTable,
    controller: usize,
    kept: &[u32],
) -> RecordingTable {
    agreeing(random, recording, controller, kept, 0)
}

/// The same with a local trace that has more places, which are any.
pub fn lengthened(
    random: &mut Random,
    recording: &RecordingTable,
    controller: usize,
    kept: &[u32],
) -> RecordingTable {
    let more = random.size(0, limits::STATES - kept.len());
    agreeing(random, recording, controller, kept, more)
}

/// A recording whose local trace agrees with that of this one in the kept bits,
/// and has so many places more.
fn agreeing(
    random: &mut Random,
    recording: &RecordingTable,
    controller: usize,
    kept: &[u32],
    more: usize,
) -> RecordingTable {
    let own = recording.masks[controller];
    let mut steps = places(recording, controller);
    for (word, kept) in steps.iter_mut().zip(kept) {
        *word ^= some_bits(random) & !kept;
    }
    steps.extend((0..more).map(|_| random.word()));
    let last = steps.pop().expect("a place") & own;
    recorded(random, controller, own, &steps, last)
}

/// The first states of a recording, with any run marks in the last of them.
pub fn cut(random: &mut Random, recording: &RecordingTable, length: usize) -> RecordingTable {
    let mut states = recording.states[..length].to_vec();
    let last = State::of_word(states[length - 1]);
    let scheduled = random.word() % (1 << recording.controllers);
    states[length - 1] = State { scheduled, ..last }.word();
    RecordingTable { length, states, ..recording.clone() }
}

/// Another recording of so many states that this one begins like, as far as
/// this controller goes: other controllers, and other foreign atoms where it
/// doesn't run.
pub fn begun_alike(
    random: &mut Random,
    recording: &RecordingTable,
    controller: usize,
    length: usize,
) -> RecordingTable {
    let own = recording.masks[controller];
    let states = recording.states[..length].iter().map(|word| State::of_word(*word));
    let (mut picked, mut atoms) = (Vec::new(), Vec::new());
    for (k, state) in states.enumerate() {
        let runs = k + 1 < length && state.scheduled >> controller & 1 == 1;
        picked.push(runs);
        atoms.push(if runs { state.atoms } else { state.atoms ^ (some_bits(random) & !own) });
    }
    let controllers = random.between(controller + 1, limits::CONTROLLERS);
    among_others(random, (controllers, controller), own, &picked, &atoms)
}

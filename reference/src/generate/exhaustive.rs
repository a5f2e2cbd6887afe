//! Every small rule and every small accepted recording, over two atoms.

use std::ops::Range;

use super::recordings::RecordingTable;
use crate::model::recording::State;
use crate::model::rule::{Node, ATOM, NEXT, NOT, OR, PREV, SINCE, TRUE, UNTIL};

/// The number of atoms.
pub const ATOMS: usize = 2;

/// Every node that may stand at a number in a rule.
fn nodes_at(number: usize) -> Vec<u32> {
    let word = |kind, first, second| Node { kind, first, second }.word();
    let mut words = vec![word(TRUE, 0, 0)];
    words.extend((0..ATOMS).map(|atom| word(ATOM, atom, 0)));
    for first in 0..number {
        words.extend([NOT, NEXT, PREV].map(|kind| word(kind, first, 0)));
        for second in 0..number {
            words.extend([OR, UNTIL, SINCE].map(|kind| word(kind, first, second)));
        }
    }
    words
}

/// Visits every rule that starts with these nodes and has at most `most`.
fn extend_rule(nodes: &mut Vec<u32>, most: usize, visit: &mut dyn FnMut(&[u32])) {
    if nodes.len() == most {
        return;
    }
    for word in nodes_at(nodes.len()) {
        nodes.push(word);
        visit(nodes);
        extend_rule(nodes, most, visit);
        nodes.pop();
    }
}

/// Visits every rule of 1 to `most` nodes.
pub fn each_rule(most: usize, visit: &mut dyn FnMut(&[u32])) {
    extend_rule(&mut Vec::new(), most, visit);
}

/// Every rule of 1 to `most` nodes.
pub fn rules(most: usize) -> Vec<Vec<u32>> {
    let mut all = Vec::new();
    each_rule(most, &mut |nodes| all.push(nodes.to_vec()));
    all
}

/// Every way to give each atom to one controller or to nobody.
fn all_masks(controllers: usize) -> Vec<Vec<u32>> {
    let mut all = vec![vec![0; controllers]];
    for atom in 0..ATOMS {
        let mut more = all.clone();
        for masks in &all {
            for owner in 0..controllers {
                let mut given = masks.clone();
                given[owner] |= 1 << atom;
                more.push(given);
            }
        }
        all = more;
    }
    all
}

/// May this word follow that state? The output rule, for every controller.
fn may_follow(masks: &[u32], before: State, atoms: u32) -> bool {
    let mut held = 0;
    for (c, own) in masks.iter().enumerate() {
        if before.scheduled >> c & 1 == 0 {
            held |= own;
        }
    }
    (before.atoms ^ atoms) & held == 0
}

/// The recordings of up to so many states have every run mark in their last
/// state. A longer one has one of the words of run marks there, in turn.
pub const EVERY_LAST_MARK: usize = 2;

/// The run marks to put into a state of this word, after those that are there.
fn schedules(recording: &RecordingTable, atoms: u32) -> Range<u32> {
    let all = 1 << recording.controllers;
    let last = recording.states.len() + 1 == recording.length;
    if !last || recording.length <= EVERY_LAST_MARK {
        return 0..all;
    }
    let fold = |sum: u32, word: &u64| sum + (word % (1 << 32)) as u32 + (word >> 32) as u32;
    let turn = recording.states.iter().fold(atoms, fold) % all;
    turn..turn + 1
}

/// Visits every recording that starts with the states of `recording`.
fn extend_recording(recording: &mut RecordingTable, visit: &mut dyn FnMut(&RecordingTable)) {
    if recording.states.len() == recording.length {
        visit(recording);
        return;
    }
    let before = recording.states.last().map(|word| State::of_word(*word));
    for atoms in 0..1 << ATOMS {
        if before.is_some_and(|before| !may_follow(&recording.masks, before, atoms)) {
            continue;
        }
        for scheduled in schedules(recording, atoms) {
            recording.states.push(State { atoms, scheduled }.word());
            extend_recording(recording, visit);
            recording.states.pop();
        }
    }
}

/// Visits every accepted recording of 1 to so many controllers and states; of
/// the longer ones that differ in the marks of their last state one in turn.
pub fn each_recording(
    most_controllers: usize,
    most_states: usize,
    visit: &mut dyn FnMut(&RecordingTable),
) {
    for controllers in 1..=most_controllers {
        for masks in all_masks(controllers) {
            for length in 1..=most_states {
                let masks = masks.clone();
                let states = Vec::new();
                let mut start = RecordingTable { controllers, length, masks, states };
                extend_recording(&mut start, visit);
            }
        }
    }
}

/// Every accepted recording of 1 to so many controllers and states, as
/// [`each_recording`] visits them.
pub fn recordings(most_controllers: usize, most_states: usize) -> Vec<RecordingTable> {
    let mut all = Vec::new();
    each_recording(most_controllers, most_states, &mut |recording| all.push(recording.clone()));
    all
}

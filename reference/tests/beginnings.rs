//! Document 02, project while counting: the local trace of each beginning of a
//! recording, and what one state more makes of it.

use reference::generate::exhaustive;
use reference::generate::random::Random;
use reference::generate::recordings::{self, RecordingTable};
use reference::model::limits;

mod common;

/// The local trace of the first states of an accepted recording.
fn places(recording: &RecordingTable, length: usize, controller: usize) -> Vec<u32> {
    let lowered = RecordingTable { length, ..recording.clone() };
    common::places(&lowered, controller).expect("a beginning is accepted")
}

#[test]
fn each_beginning_of_a_sample() {
    let states = [(1, 2), (3, 3), (1, 2), (2, 3), (1, 1), (3, 0)];
    let states: Vec<u64> = states.iter().map(|(marks, word)| (marks << 32) + word).collect();
    let whole = RecordingTable { controllers: 2, length: 6, masks: vec![1, 2], states };
    let each = |c: usize| (1..=6).map(|length| places(&whole, length, c)).collect::<Vec<_>>();
    let first: [&[u32]; 6] =
        [&[0], &[2, 1], &[2, 3, 0], &[2, 3, 2, 1], &[2, 3, 2, 1], &[2, 3, 2, 1, 0]];
    let second: [&[u32]; 6] = [&[2], &[2], &[3, 2], &[3, 2], &[3, 3, 0], &[3, 3, 0]];
    assert_eq!(each(0), first);
    assert_eq!(each(1), second);
}

/// One state more: the same places, or all before the last one, the word of the
/// state that ran, and a last place.
fn check_carried(recording: &RecordingTable, controller: usize) {
    let word = |k: usize| recording.states[k] as u32;
    for length in 1..recording.length {
        let before = places(recording, length, controller);
        let ran = recording.states[length - 1] >> (32 + controller) & 1 == 1;
        let expected = match before.split_last() {
            Some((_, kept)) if ran => {
                let own = word(length) & recording.masks[controller];
                [kept, &[word(length - 1), own]].concat()
            }
            _ => before,
        };
        assert_eq!(places(recording, length + 1, controller), expected, "{recording:?}");
    }
}

#[test]
fn one_state_more() {
    let mut random = Random::new(53);
    for _ in 0..100 {
        let recording = recordings::recording(&mut random, limits::CONTROLLERS, limits::STATES);
        check_carried(&recording, random.below(recording.controllers));
    }
    exhaustive::each_recording(2, 3, &mut |recording| {
        (0..recording.controllers).for_each(|controller| check_carried(recording, controller));
    });
}

//! Document 02, recordings that stop in mid step: what a mark in the last state
//! is read as, and that every beginning of an accepted recording is accepted.

use reference::generate::exhaustive;
use reference::generate::random::Random;
use reference::generate::recordings::{self, RecordingTable};
use reference::generate::rules::{self, JudgeTable, RuleTable};
use reference::generate::texts::recording_text;
use reference::model::rule::{Node, END, RUN};
use reference::model::{self, limits, Verdict};

mod common;

use common::places;

/// The verdict and all rows of a table over a recording.
fn judged(
    table: &JudgeTable,
    recording: &RecordingTable,
    controller: usize,
) -> (Result<Verdict, u8>, Vec<u64>) {
    let JudgeTable { count, nodes, weak_top, strong_top } = table;
    let RecordingTable { controllers, length, masks, states } = recording;
    let mut rows = vec![1; limits::ROW_WORDS];
    let verdict = model::judge_recording(
        *count,
        nodes,
        *weak_top,
        *strong_top,
        *controllers,
        *length,
        masks,
        states,
        controller,
        &mut rows,
    );
    (verdict, rows)
}

/// The states as a recording text hands them back.
fn states_read(recording: &RecordingTable) -> Result<Vec<u64>, u8> {
    let (mut masks, mut states) = (vec![1; limits::CONTROLLERS], vec![1; limits::STATES]);
    let heading = model::read_recording(&recording_text(recording), &mut masks, &mut states)?;
    states.truncate(heading.states);
    Ok(states)
}

/// The recording with other run marks in its last state.
fn with_last_marks(recording: &RecordingTable, marks: u64) -> RecordingTable {
    let mut other = recording.clone();
    let last = &mut other.states[recording.length - 1];
    *last = *last % (1 << 32) + (marks << 32);
    other
}

/// The run and the end of a controller.
fn run_and_end() -> JudgeTable {
    let word = |kind| Node { kind, first: 0, second: 0 }.word();
    JudgeTable { count: 2, nodes: vec![word(RUN), word(END)], weak_top: 0, strong_top: 1 }
}

#[test]
fn one_state_with_a_mark() {
    let recording =
        RecordingTable { controllers: 1, length: 1, masks: vec![1], states: vec![1 << 32] };
    assert_eq!(places(&recording, 0), Ok(vec![0]));
    assert_eq!(states_read(&recording), Ok(vec![1 << 32]));
    let verdict = judged(&run_and_end(), &recording, 0).0;
    assert_eq!(verdict, Ok(Verdict { weak: false, strong: true }));
    let above = with_last_marks(&recording, 2);
    assert_eq!(places(&above, 0), Err(6));
    assert_eq!(states_read(&above), Err(6));
}

/// The last state is that of the declared N, where more states are there.
#[test]
fn lowered_with_all_states_there() {
    let states = [(1, 2), (2, 3), (1, 1), (2, 0), (0, 2)];
    let states: Vec<u64> = states.iter().map(|(marks, word)| (marks << 32) + word).collect();
    let lengths: Vec<usize> = (1..=5)
        .map(|length| {
            let (masks, states) = (vec![1, 2], states.clone());
            let lowered = RecordingTable { controllers: 2, length, masks, states };
            places(&lowered, 0).expect("a beginning is accepted").len()
        })
        .collect();
    assert_eq!(lengths, [1, 2, 2, 3, 3]);
}

/// Marks in the last state change no answer but the states that are read.
fn check_last_marks(recording: &RecordingTable, table: &JudgeTable, rule: &RuleTable) {
    let RecordingTable { controllers, length, masks, .. } = recording;
    let local = |recording: &RecordingTable| {
        let RuleTable { controller, count, nodes } = rule;
        let states = &recording.states;
        model::judge_local(*controller, *count, nodes, *controllers, *length, masks, states)
    };
    let unmarked = with_last_marks(recording, 0);
    for marks in [1, (1 << controllers) - 1] {
        let marked = with_last_marks(recording, marks);
        assert_eq!(states_read(&marked).as_ref(), Ok(&marked.states));
        for controller in 0..*controllers {
            assert_eq!(places(&marked, controller), places(&unmarked, controller));
        }
        let controller = rule.controller;
        assert_eq!(judged(table, &marked, controller), judged(table, &unmarked, controller));
        assert_eq!(local(&marked), local(&unmarked));
    }
}

#[test]
fn last_marks_are_read_by_nothing() {
    let mut random = Random::new(51);
    for _ in 0..300 {
        let recording = recordings::recording(&mut random, limits::CONTROLLERS, 20);
        let controller = random.below(recording.controllers);
        let table = rules::table(&mut random, 12);
        let rule = rules::rule_for(&mut random, controller, 12);
        check_last_marks(&recording, &table, &rule);
    }
}

/// Every beginning, as tables with N lowered and as text with its lines cut.
fn check_beginnings(recording: &RecordingTable) {
    for length in 1..=recording.length {
        let lowered = RecordingTable { length, ..recording.clone() };
        assert!(places(&lowered, 0).is_ok(), "{lowered:?}");
        let states = recording.states[..length].to_vec();
        let cut = RecordingTable { length, states, ..recording.clone() };
        assert_eq!(states_read(&cut), Ok(cut.states));
    }
}

#[test]
fn beginnings_are_accepted() {
    let mut random = Random::new(52);
    for _ in 0..300 {
        check_beginnings(&recordings::recording(&mut random, limits::CONTROLLERS, limits::STATES));
    }
    exhaustive::each_recording(2, 3, &mut |recording| check_beginnings(recording));
}

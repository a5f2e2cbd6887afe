//! What the generators give: the same for the same seed, accepted where they
//! say so, and every refusal where they damage.

use std::collections::BTreeMap;

use reference::generate::exhaustive;
use reference::generate::random::Random;
use reference::generate::recordings::{self, RecordingTable};
use reference::generate::rules::{self, JudgeTable, RuleTable};
use reference::generate::texts::{self, DAMAGES};
use reference::model::{self, limits};

/// How often each number was answered; 0 for accepted.
type Tally = BTreeMap<u8, usize>;

/// Counts an answer.
fn count<T>(tally: &mut Tally, answer: Result<T, u8>) {
    *tally.entry(answer.err().unwrap_or(0)).or_insert(0) += 1;
}

/// Asserts that exactly these numbers were answered, each often.
fn expect(tally: &Tally, numbers: &[u8], often: usize) {
    println!("{tally:?}");
    assert_eq!(tally.keys().copied().collect::<Vec<u8>>(), numbers);
    assert!(tally.values().all(|times| *times >= often));
}

/// The local trace that a recording as tables is answered.
fn project(recording: &RecordingTable, controller: usize) -> Result<Vec<u32>, u8> {
    let RecordingTable { controllers, length, masks, states } = recording;
    let mut places = [0; limits::PLACES];
    let local = model::project(*controllers, *length, masks, states, controller, &mut places)?;
    Ok(places[..local].to_vec())
}

/// The answer to a recording text.
fn read_recording(text: &[u8]) -> Result<(), u8> {
    let (masks, states) = (&mut [0; limits::CONTROLLERS], &mut [0; limits::STATES]);
    model::read_recording(text, masks, states).map(|_| ())
}

#[test]
fn equal_seeds_give_equal_inputs() {
    let inputs = |seed| {
        let mut random = Random::new(seed);
        (0..50).map(|_| texts::any_program_input(&mut random)).collect::<Vec<_>>()
    };
    assert_eq!(inputs(5), inputs(5));
    assert_ne!(inputs(5), inputs(6));
}

#[test]
fn rule_tables_meet_every_number() {
    let mut random = Random::new(31);
    let mut text = [0; limits::RULE_TEXT];
    let mut tally = Tally::new();
    for _ in 0..20_000 {
        let RuleTable { controller, count: nodes_count, nodes } =
            rules::damaged_rule(&mut random, limits::RULE_NODES);
        count(&mut tally, model::write_rule(controller, nodes_count, &nodes, &mut text));
        let rule = rules::rule(&mut random, limits::RULE_NODES);
        assert!(model::write_rule(rule.controller, rule.count, &rule.nodes, &mut text).is_ok());
    }
    expect(&tally, &[0, 2, 3, 4], 500);
}

#[test]
fn judge_tables_meet_every_number() {
    let mut random = Random::new(32);
    let mut rows = vec![0; limits::ROW_WORDS];
    let mut judge = |table: &JudgeTable| {
        let JudgeTable { count, nodes, weak_top, strong_top } = table;
        model::judge_recording(
            *count,
            nodes,
            *weak_top,
            *strong_top,
            1,
            1,
            &[1],
            &[0],
            0,
            &mut rows,
        )
    };
    let mut tally = Tally::new();
    for _ in 0..3000 {
        count(&mut tally, judge(&rules::damaged_table(&mut random, limits::TABLE_NODES)));
        assert!(judge(&rules::table(&mut random, limits::TABLE_NODES)).is_ok());
    }
    expect(&tally, &[0, 2, 3, 4], 100);
}

#[test]
fn recording_tables_meet_every_number() {
    let mut random = Random::new(33);
    let mut tally = Tally::new();
    for _ in 0..20_000 {
        let damaged =
            recordings::damaged_recording(&mut random, limits::CONTROLLERS, limits::STATES);
        let controller = random.below(limits::CONTROLLERS);
        count(&mut tally, project(&damaged, controller));
        let recording = recordings::recording(&mut random, limits::CONTROLLERS, limits::STATES);
        assert!(project(&recording, 0).is_ok());
    }
    expect(&tally, &[0, 6, 7, 8, 10, 11], 100);
}

#[test]
fn rule_texts_meet_every_number() {
    let mut random = Random::new(34);
    let mut nodes = [0; limits::RULE_NODES];
    let mut tally = Tally::new();
    for _ in 0..20_000 {
        let text = texts::any_rule_text(&mut random, limits::RULE_NODES);
        count(&mut tally, model::read_rule(&text, &mut nodes));
    }
    expect(&tally, &[0, 1, 2, 3, 4], 300);
}

#[test]
fn recording_texts_meet_every_number() {
    let mut random = Random::new(35);
    let mut tally = Tally::new();
    for _ in 0..20_000 {
        let text = texts::any_recording_text(&mut random, limits::CONTROLLERS, limits::STATES);
        count(&mut tally, read_recording(&text));
    }
    expect(&tally, &[0, 5, 6, 7, 8, 10, 19, 20], 100);
}

#[test]
fn every_damage_is_refused_now_and_then() {
    let mut random = Random::new(36);
    let mut nodes = [0; limits::RULE_NODES];
    for kind in DAMAGES {
        let (mut rules, mut recordings) = (Tally::new(), Tally::new());
        for _ in 0..300 {
            let rule = texts::rule_text(&rules::rule(&mut random, 8));
            let rule = texts::damage(&mut random, &rule, kind);
            count(&mut rules, model::read_rule(&rule, &mut nodes));
            let recording = texts::recording_text(&recordings::recording(&mut random, 4, 8));
            let recording = texts::damage(&mut random, &recording, kind);
            count(&mut recordings, read_recording(&recording));
        }
        println!("{kind:?}: {rules:?} {recordings:?}");
        assert!(rules.keys().any(|number| *number != 0));
        assert!(recordings.keys().any(|number| *number != 0));
    }
}

#[test]
fn program_inputs_meet_every_number() {
    let mut random = Random::new(37);
    let mut tally: BTreeMap<String, usize> = BTreeMap::new();
    for _ in 0..4000 {
        let output = model::program(&texts::any_program_input(&mut random));
        let fields: Vec<&[u8]> = output.split(|byte| *byte == 9).collect();
        let number = if fields[0] == b"refused" { fields[1] } else { b"0" };
        *tally.entry(String::from_utf8_lossy(number).into_owned()).or_insert(0) += 1;
    }
    println!("{tally:?}");
    for number in ["0", "1", "2", "3", "4", "5", "6", "7", "8", "10", "11", "14", "19", "20"] {
        assert!(tally.contains_key(number), "{number}");
    }
    assert_eq!(tally.len(), 14);
}

#[test]
fn schedules_differ_and_local_traces_do_not() {
    let mut random = Random::new(38);
    let mut differ = [0; 3];
    for _ in 0..5000 {
        let one = recordings::recording(&mut random, limits::CONTROLLERS, limits::STATES);
        let controller = random.below(one.controllers);
        let other = recordings::rescheduled(&mut random, &one, controller);
        assert_eq!(one.masks[controller], other.masks[controller]);
        assert_eq!(project(&one, controller), project(&other, controller));
        differ[0] += usize::from(one.length != other.length);
        differ[1] += usize::from(one.controllers != other.controllers);
        differ[2] += usize::from(one.states != other.states);
    }
    println!("{differ:?}");
    assert!(differ.iter().all(|times| *times > 1000));
}

#[test]
fn varied_local_traces_keep_length_mask_and_the_kept_bits() {
    let mut random = Random::new(40);
    let mut differ = 0;
    for _ in 0..5000 {
        let one = recordings::recording(&mut random, limits::CONTROLLERS, limits::STATES);
        let controller = random.below(one.controllers);
        let places = recordings::places(&one, controller);
        assert_eq!(Ok(&places), project(&one, controller).as_ref());
        let kept: Vec<u32> = places.iter().map(|_| random.word() | random.word()).collect();
        let other = recordings::varied(&mut random, &one, controller, &kept);
        let varied = project(&other, controller).expect("accepted");
        assert_eq!(one.masks[controller], other.masks[controller]);
        assert_eq!(places.len(), varied.len());
        for ((word, other), kept) in places.iter().zip(&varied).zip(&kept) {
            assert_eq!(word & kept, other & kept);
        }
        differ += usize::from(places != varied);
    }
    println!("{differ}");
    assert!(differ > 3000);
}

#[test]
fn last_states_are_marked_and_unmarked() {
    let mut random = Random::new(39);
    let marked = |recording: &RecordingTable| recording.states[recording.length - 1] >> 32 != 0;
    let mut tally = [0; 2];
    for _ in 0..1000 {
        let one = recordings::recording(&mut random, limits::CONTROLLERS, limits::STATES);
        let other = recordings::rescheduled(&mut random, &one, 0);
        tally[usize::from(marked(&one))] += 1;
        tally[usize::from(marked(&other))] += 1;
    }
    println!("{tally:?}");
    assert!(tally.iter().all(|times| *times > 300));
    let all = exhaustive::recordings(2, 4);
    for length in 1..=4 {
        let of_length = || all.iter().filter(|recording| recording.length == length);
        assert!(of_length().any(marked) && !of_length().all(marked));
    }
}

#[test]
fn small_rules_are_counted() {
    let counts = [3, 30, 597, 22_710];
    for (most, expected) in (1..).zip(counts) {
        assert_eq!(exhaustive::rules(most).len(), expected);
    }
}

/// Every candidate over two atoms, accepted or not, of one shape.
fn candidates(controllers: usize, length: usize, visit: &mut dyn FnMut(RecordingTable)) {
    let mask_choices = 4usize.pow(controllers as u32);
    let per_state = 4 << controllers;
    let state_choices = usize::pow(per_state, length as u32);
    for masks_number in 0..mask_choices {
        for states_number in 0..state_choices {
            let mask = |c: usize| (masks_number >> (2 * c) & 3) as u32;
            let state = |k: usize| {
                let digit = states_number / usize::pow(per_state, k as u32) % per_state;
                ((digit as u64 >> 2) << 32) + (digit as u64 & 3)
            };
            let masks = (0..controllers).map(mask).collect();
            let states = (0..length).map(state).collect();
            visit(RecordingTable { controllers, length, masks, states });
        }
    }
}

#[test]
fn small_recordings_are_the_accepted_ones() {
    let mut accepted = 0;
    for controllers in 1..=2 {
        for length in 1..=4 {
            candidates(controllers, length, &mut |recording| {
                let unmarked = recording.states[length - 1] < 1 << 32;
                let counted = unmarked || length <= exhaustive::EVERY_LAST_MARK;
                accepted += usize::from(counted && project(&recording, 0).is_ok());
            });
        }
    }
    let all = exhaustive::recordings(2, 4);
    assert_eq!(accepted, all.len());
    assert!(all.iter().all(|recording| project(recording, 0).is_ok()));
}

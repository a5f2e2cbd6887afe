//! Document 02, eleven controllers: the limit, the digits of run marks, the lent
//! masks, and demand 3 between a recording of eight controllers and one of eleven.

use reference::generate::random::Random;
use reference::generate::recordings::{self, RecordingTable};
use reference::generate::rules::{self, RuleTable};
use reference::generate::texts::{recording_text, recording_text_with};
use reference::model::{self, limits, Verdict};

mod common;

use common::places;

/// C and N of a recording text, and what it leaves in so many lent masks.
fn read(text: &[u8], lent: usize) -> (Result<(usize, usize), u8>, Vec<u32>, Vec<u64>) {
    let (mut masks, mut states) = (vec![1; lent], vec![1; limits::STATES]);
    let answer = model::read_recording(text, &mut masks, &mut states);
    (answer.map(|heading| (heading.controllers, heading.states)), masks, states)
}

/// The refusal of a recording of one state with these run marks, 0 for none.
fn refusal(controllers: usize, marks: &str) -> u8 {
    let mut text = format!("recording\t{controllers}\t1\n");
    text.push_str(&"owns\t00000000\n".repeat(controllers));
    text.push_str(&format!("at\t{marks}\t00000000\n"));
    read(text.as_bytes(), limits::CONTROLLERS).0.err().unwrap_or(0)
}

/// A recording in which controller c has atom c.
fn among(controllers: usize, states: &[(u64, u64)]) -> RecordingTable {
    let masks = (0..controllers).map(|c| 1 << c).collect();
    let words = states.iter().map(|(runs, word)| (runs << 32) + word).collect();
    RecordingTable { controllers, length: states.len(), masks, states: words }
}

/// The verdict of a rule on its local trace, rewritten plain and rewritten short.
fn verdicts(rule: &RuleTable, recording: &RecordingTable) -> [Result<Verdict, u8>; 3] {
    let RuleTable { controller, count, nodes } = rule;
    let RecordingTable { controllers, length, masks, states } = recording;
    let whole = |short| {
        let mut table = vec![0; limits::TABLE_NODES];
        let mask = masks[*controller];
        let made = model::rewrite(short, *controller, *count, nodes, mask, &mut table)?;
        let (count, weak, strong) = (made.count, made.weak_top, made.strong_top);
        let mut rows = vec![0; limits::ROW_WORDS];
        model::judge_recording(
            count,
            &table,
            weak,
            strong,
            *controllers,
            *length,
            masks,
            states,
            *controller,
            &mut rows,
        )
    };
    let local =
        model::judge_local(*controller, *count, nodes, *controllers, *length, masks, states);
    [local, whole(false), whole(true)]
}

#[test]
fn three_digits_above_eight_controllers() {
    let trials = [
        (11, "7ff", 0),
        (11, "400", 0),
        (11, "800", 6),
        (11, "00", 5),
        (11, "0000", 5),
        (10, "3ff", 0),
        (10, "400", 6),
        (9, "1ff", 0),
        (9, "200", 6),
        (9, "00", 5),
        (9, "1FF", 5),
        (8, "ff", 0),
        (8, "000", 5),
        (1, "01", 0),
        (1, "001", 5),
        (12, "000", 6),
        (12, "00", 6),
    ];
    for (controllers, marks, number) in trials {
        assert_eq!(refusal(controllers, marks), number, "C {controllers}, {marks}");
    }
}

#[test]
fn ten_is_the_highest_controller() {
    for (controller, number) in [(7, None), (8, None), (10, None), (11, Some(2))] {
        let text = format!("rule\t{controller}\t1\ntrue\n");
        let mut nodes = [1; limits::RULE_NODES];
        assert_eq!(model::read_rule(text.as_bytes(), &mut nodes).err(), number);
        assert_eq!(model::read_line(controller, b"true", &mut nodes).err(), number);
    }
    let recording = among(10, &[(0, 0)]);
    let rule = RuleTable { controller: 10, count: 1, nodes: vec![0] };
    let RecordingTable { controllers, length, masks, states } = &recording;
    let judged = model::judge_local(10, 1, &rule.nodes, *controllers, *length, masks, states);
    assert_eq!(judged, Err(11));
}

#[test]
fn the_checks_reach_the_eleventh_controller() {
    let mut meeting = among(11, &[(0, 0)]);
    meeting.masks[10] |= 1 << 8;
    let trials = [
        (among(11, &[(2047, 0), (0, 2047)]), None),
        (among(12, &[(0, 0)]), Some(6)),
        (among(11, &[(2048, 0)]), Some(6)),
        (meeting, Some(7)),
        (among(11, &[(1791, 0), (0, 256)]), Some(10)),
        (among(11, &[(1535, 0), (0, 512)]), Some(10)),
        (among(11, &[(1023, 0), (0, 1024)]), Some(10)),
    ];
    for (recording, number) in trials {
        assert_eq!(places(&recording, 0).err(), number, "{recording:?}");
    }
}

#[test]
fn eleven_masks_are_lent() {
    let text = b"recording\t1\t1\nowns\t00000005\nat\t00\t00000000\n";
    for lent in [0, 8, 10] {
        let (answer, masks, _) = read(text, lent);
        assert_eq!((answer, masks), (Err(13), vec![1; lent]));
    }
    let (answer, masks, _) = read(text, 12);
    assert_eq!(answer, Ok((1, 1)));
    assert_eq!(masks, [5, 0, 0, 0, 0, 0, 0, 0, 0, 0, 0, 1]);
    let (answer, masks, _) = read(b"recording\t1\t1\n", 12);
    assert_eq!(answer, Err(8));
    assert_eq!(masks, [0, 0, 0, 0, 0, 0, 0, 0, 0, 0, 0, 1]);
}

#[test]
fn texts_come_back_with_their_digits_and_no_others() {
    let mut random = Random::new(6);
    for _ in 0..2000 {
        let recording = recordings::recording(&mut random, limits::CONTROLLERS, limits::STATES);
        let RecordingTable { controllers, length, masks, states } = &recording;
        let (answer, read_masks, read_states) =
            read(&recording_text(&recording), limits::CONTROLLERS);
        assert_eq!(answer, Ok((*controllers, *length)));
        assert_eq!(&read_masks[..*controllers], &masks[..]);
        assert_eq!(&read_states[..*length], &states[..]);
        let digits = if *controllers > 8 { 3 } else { 2 };
        let wide = recording_text_with(&recording, digits + 1);
        assert_eq!(read(&wide, limits::CONTROLLERS).0, Err(5));
    }
    let longest =
        RecordingTable { controllers: 11, length: 128, masks: vec![0; 11], states: vec![0; 128] };
    assert_eq!(recording_text(&longest).len(), 2219);
}

#[test]
fn demand_3_between_eight_controllers_and_eleven() {
    let eight = among(8, &[(1, 1026), (0, 1027)]);
    let eleven = among(11, &[(1024, 2), (1, 1026), (0, 1027)]);
    assert_eq!(places(&eight, 0), places(&eleven, 0));
    assert_eq!(places(&eleven, 10), Ok(vec![2, 1024]));
    let mut random = Random::new(11);
    for _ in 0..400 {
        let one = recordings::recording(&mut random, 8, limits::STATES);
        let controller = random.below(one.controllers);
        let eight = recordings::rescheduled_among(&mut random, &one, 8, controller);
        let eleven = recordings::rescheduled_among(&mut random, &one, 11, controller);
        assert_eq!((eight.controllers, eleven.controllers), (8, 11));
        assert_eq!(places(&eight, controller), places(&eleven, controller));
        let rule = rules::rule_for(&mut random, controller, limits::RULE_NODES);
        let [local, plain, short] = verdicts(&rule, &eight);
        assert!(local.is_ok() && plain == local && short == local);
        assert_eq!(verdicts(&rule, &eleven), [local, local, local]);
    }
}

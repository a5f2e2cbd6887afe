//! Document 02, verdicts that may be announced early: that a strong yes and a
//! weak no stay, and that each thing that is asked of the longer recording is
//! needed.

use reference::generate::exhaustive;
use reference::generate::random::Random;
use reference::generate::recordings::{self, RecordingTable};
use reference::generate::rules::{self, RuleTable};
use reference::generate::texts::{program_input, recording_text, rule_text};
use reference::model::early::{announced, begins, missing, Asked};
use reference::model::recording::{check_recording, project, Recording, State};
use reference::model::rule::{Node, ATOM, NEXT, TRUE};
use reference::model::semantics::{local_readings, Reading};
use reference::model::{limits, program, Verdict};

/// The verdicts of a rule on the local trace of controller c, whether or not the
/// recording is accepted.
fn verdict(nodes: &[Node], recording: &Recording, controller: usize) -> Verdict {
    let readings = local_readings(nodes, &project(recording, controller));
    let at = |reading| readings.at(nodes.len() - 1, reading, 0);
    Verdict { weak: at(Reading::Weak), strong: at(Reading::Strong) }
}

fn checked(recording: &RecordingTable) -> Result<Recording, u8> {
    let RecordingTable { controllers, length, masks, states } = recording;
    check_recording(*controllers, *length, masks, states)
}

fn nodes(rule: &RuleTable) -> Vec<Node> {
    rule.nodes.iter().map(|word| Node::of_word(*word)).collect()
}

/// A recording of controller 0 alone, with these marks and words.
fn alone(own: u32, states: &[(u32, u32)]) -> Recording {
    let state = |&(scheduled, atoms): &(u32, u32)| State { atoms, scheduled };
    Recording { masks: vec![own], states: states.iter().map(state).collect() }
}

fn is_accepted(recording: &Recording) -> Result<(), u8> {
    let states = recording.states.iter().map(|state| state.word()).collect();
    let Recording { masks, states: all } = recording;
    let table = RecordingTable {
        controllers: masks.len(),
        length: all.len(),
        masks: masks.clone(),
        states,
    };
    checked(&table).map(|_| ())
}

const KEPT: Verdict = Verdict { weak: true, strong: true };
const BROKEN: Verdict = Verdict { weak: false, strong: false };
const OPEN: Verdict = Verdict { weak: true, strong: false };

#[test]
fn what_is_announced() {
    assert!(announced(KEPT) && announced(BROKEN));
    assert!(!announced(OPEN));
}

/// For each thing that is asked a pair that lacks it alone, and a strong yes that
/// goes.
#[test]
fn each_thing_is_needed() {
    let atom = |first| Node { kind: ATOM, first, second: 0 };
    let next = |first| Node { kind: NEXT, first, second: 0 };
    let truth = Node { kind: TRUE, first: 0, second: 0 };
    let trials = [
        (vec![truth, next(0)], alone(1, &[(1, 0), (0, 0)]), alone(1, &[(1, 0)]), Asked::Longer),
        (vec![atom(0)], alone(1, &[(0, 1)]), alone(0, &[(0, 1), (0, 0)]), Asked::Mask),
        (
            vec![truth, next(0)],
            alone(1, &[(1, 0), (0, 0)]),
            alone(1, &[(0, 0), (0, 0)]),
            Asked::Marks,
        ),
        (vec![atom(1)], alone(1, &[(1, 2), (0, 0)]), alone(1, &[(1, 0), (0, 0)]), Asked::Words),
        (
            vec![atom(0), next(0)],
            alone(1, &[(1, 0), (0, 1)]),
            alone(1, &[(1, 0), (0, 0)]),
            Asked::OwnAtoms,
        ),
    ];
    for (nodes, a, b, lacks) in trials {
        assert_eq!(missing(&a, &b, 0), [lacks]);
        assert_eq!((is_accepted(&a), is_accepted(&b)), (Ok(()), Ok(())));
        assert_eq!(verdict(&nodes, &a, 0), KEPT);
        assert_ne!(verdict(&nodes, &b, 0), KEPT, "{lacks:?}");
    }
}

/// "every accepted longer recording": without the output rule a recording can
/// begin alike and lose a strong yes.
#[test]
fn the_output_rule_is_needed() {
    let nodes = [Node { kind: ATOM, first: 0, second: 0 }];
    let a = alone(1, &[(0, 1)]);
    let b = alone(1, &[(0, 1), (1, 0), (0, 0)]);
    assert!(begins(&a, &b) && missing(&a, &b, 0).is_empty());
    assert_eq!((is_accepted(&a), is_accepted(&b)), (Ok(()), Err(10)));
    assert_eq!((verdict(&nodes, &a, 0), verdict(&nodes, &b, 0)), (KEPT, BROKEN));
}

/// The plain and the short table announce the same verdicts, and they stay: two
/// steps, the same with a third in mid step, and in a rack of two.
#[test]
fn tables_announce_the_same() {
    let always = "rule\t0\t5\natom\t0\nnot\t0\ntrue\nuntil\t2\t1\nnot\t3\n";
    let once = "rule\t0\t3\natom\t0\ntrue\nuntil\t1\t0\n";
    let state = |&(marks, word): &(u64, u64)| (marks << 32) + word;
    let two_steps = vec![(1, 1), (1, 0), (0, 1)];
    let with_third = vec![(1, 1), (1, 0), (1, 1), (1, 0)];
    let with_other = vec![(1, 1), (3, 0), (2, 3), (1, 1), (0, 0)];
    for (masks, states) in [(vec![1], two_steps), (vec![1], with_third), (vec![1, 2], with_other)] {
        let states: Vec<u64> = states.iter().map(state).collect();
        let (controllers, length) = (masks.len(), states.len());
        let recording = recording_text(&RecordingTable { controllers, length, masks, states });
        let printed = |rule: &str| {
            let output = program(&program_input(rule.as_bytes(), &recording));
            String::from_utf8(output).unwrap()
        };
        assert!(printed(always).ends_with("own\tno\tno\nplain\t36\tno\tno\nshort\t23\tno\tno\n"));
        assert!(
            printed(once).ends_with("own\tyes\tyes\nplain\t32\tyes\tyes\nshort\t19\tyes\tyes\n")
        );
    }
}

/// What the request asks, and what a controller needs of it.
#[test]
fn begins_asks_for_each_controller() {
    let mut random = Random::new(91);
    for _ in 0..300 {
        let whole = recordings::recording(&mut random, limits::CONTROLLERS, 20);
        let length = random.between(1, whole.length);
        let cut = recordings::cut(&mut random, &whole, length);
        let controller = random.below(whole.controllers);
        let alike = recordings::begun_alike(&mut random, &whole, controller, length);
        let [whole, cut, alike] = [&whole, &cut, &alike].map(|one| checked(one).unwrap());
        assert!(begins(&cut, &whole));
        assert!((0..whole.masks.len()).all(|c| missing(&cut, &whole, c).is_empty()));
        assert!(missing(&alike, &whole, controller).is_empty());
    }
}

/// Every small rule on every two small recordings that begin alike.
#[test]
fn small_verdicts_stay() {
    let mut recordings: Vec<Recording> = Vec::new();
    exhaustive::each_recording(1, 3, &mut |recording| recordings.push(checked(recording).unwrap()));
    let alike = |a: &Recording| -> Vec<usize> {
        (0..recordings.len()).filter(|b| missing(a, &recordings[*b], 0).is_empty()).collect()
    };
    let alike: Vec<Vec<usize>> = recordings.iter().map(alike).collect();
    exhaustive::each_rule(2, &mut |words| {
        let nodes: Vec<Node> = words.iter().map(|word| Node::of_word(*word)).collect();
        let verdicts: Vec<Verdict> =
            recordings.iter().map(|recording| verdict(&nodes, recording, 0)).collect();
        for (a, others) in alike.iter().enumerate() {
            assert!(verdicts[a].weak || !verdicts[a].strong, "a strong yes is a weak yes");
            let stays = |b: &usize| !announced(verdicts[a]) || verdicts[*b] == verdicts[a];
            assert!(others.iter().all(stays), "{nodes:?}, {:?}", recordings[a]);
        }
    });
}

/// Random rules on recordings that are cut after each state: once announced, the
/// verdicts stay the same; and what the program prints of the texts.
#[test]
fn random_verdicts_stay() {
    let mut random = Random::new(92);
    for _ in 0..300 {
        let whole = recordings::recording(&mut random, limits::CONTROLLERS, 30);
        let controller = random.below(whole.controllers);
        let rule = rules::rule_for(&mut random, controller, 12);
        let printed = |recording: &RecordingTable| {
            let input = program_input(&rule_text(&rule), &recording_text(recording));
            let output = String::from_utf8(program(&input)).unwrap();
            output.split_once('\n').unwrap().1.to_string()
        };
        let mut before = OPEN;
        let mut lines = String::new();
        for length in 1..=whole.length {
            let cut = recordings::cut(&mut random, &whole, length);
            let now = verdict(&nodes(&rule), &checked(&cut).unwrap(), controller);
            let now_printed = printed(&cut);
            if announced(before) {
                assert_eq!((now, &now_printed), (before, &lines));
            }
            (before, lines) = (now, now_printed);
        }
    }
}

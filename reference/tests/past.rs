//! "Shorter rules about the past": counts, node lists, verdicts, and that the
//! tables of wrong rewriters give a wrong verdict on some small pair.

use reference::generate::exhaustive;
use reference::generate::random::Random;
use reference::generate::recordings::RecordingTable;
use reference::generate::rules::{self, listed, RuleTable};
use reference::model::rewriting::{rewrite, rewrite_by, AsWorded, Decisions, Rewritten};
use reference::model::rule::{check_rule, Node, PREV, SINCE};
use reference::model::{self, limits, Verdict};

const NO_NO: Verdict = Verdict { weak: false, strong: false };
const YES_NO: Verdict = Verdict { weak: true, strong: false };
const YES_YES: Verdict = Verdict { weak: true, strong: true };

/// A rule from its nodes, such as "atom 1; prev 0".
fn rule(nodes: &str) -> RuleTable {
    let nodes = listed(nodes);
    RuleTable { controller: 0, count: nodes.len(), nodes }
}

/// The recording R of the program's example.
fn recording_r() -> RecordingTable {
    let states = [(1, 2), (2, 3), (1, 1), (2, 0), (0, 2)];
    let states = states.iter().map(|(runs, word)| (runs << 32) + word).collect();
    RecordingTable { controllers: 2, length: 5, masks: vec![1, 2], states }
}

/// The recording Z: one state, word 0, no run, C 1, mask 00000001.
fn recording_z() -> RecordingTable {
    RecordingTable { controllers: 1, length: 1, masks: vec![1], states: vec![0] }
}

/// The table of a rule, with these decisions.
fn table(decisions: &dyn Decisions, short: bool, rule: &RuleTable, own: u32) -> Rewritten {
    let checked = check_rule(rule.controller, rule.count, &rule.nodes);
    let Ok(accepted) = checked else { unreachable!("the rule is accepted") };
    rewrite_by(decisions, short, &accepted, own)
}

/// The verdict of a table over the whole recording.
fn whole(table: &Rewritten, recording: &RecordingTable, controller: usize) -> Verdict {
    let nodes: Vec<u32> = table.nodes.iter().map(|node| node.word()).collect();
    let RecordingTable { controllers, length, masks, states } = recording;
    model::judge_recording(
        nodes.len(),
        &nodes,
        table.weak_top,
        table.strong_top,
        *controllers,
        *length,
        masks,
        states,
        controller,
        &mut vec![0; limits::ROW_WORDS],
    )
    .expect("both are accepted")
}

/// The verdict of a rule on its local trace.
fn local(rule: &RuleTable, recording: &RecordingTable) -> Verdict {
    let RuleTable { controller, count, nodes } = rule;
    let RecordingTable { controllers, length, masks, states } = recording;
    model::judge_local(*controller, *count, nodes, *controllers, *length, masks, states)
        .expect("both are accepted")
}

/// A rule's plain and short count with atom 0 own, and its verdict all three
/// times, on R and on Z.
fn trial(nodes: &str, counts: [usize; 2], on_r: Verdict, on_z: Verdict) {
    let rule = rule(nodes);
    for (short, count) in [(false, counts[0]), (true, counts[1])] {
        let table = table(&AsWorded, short, &rule, 1);
        assert_eq!(table.nodes.len(), count, "{nodes}, short {short}");
        assert_eq!(whole(&table, &recording_r(), 0), on_r, "{nodes} on R, short {short}");
        assert_eq!(whole(&table, &recording_z(), 0), on_z, "{nodes} on Z, short {short}");
    }
    assert_eq!(local(&rule, &recording_r()), on_r, "{nodes} on R");
    assert_eq!(local(&rule, &recording_z()), on_z, "{nodes} on Z");
}

#[test]
fn prev_is_tolerant() {
    trial("atom 1; prev 0", [34, 26], NO_NO, NO_NO);
    trial("true; prev 0", [30, 22], NO_NO, NO_NO);
    trial("true; prev 0; next 1", [40, 36], YES_YES, YES_NO);
    trial("atom 1; prev 0; next 1", [44, 40], YES_YES, YES_NO);
    trial("atom 0; prev 0; next 1", [40, 36], NO_NO, YES_NO);
    trial("atom 1; prev 0; atom 0; or 1 2", [37, 29], NO_NO, NO_NO);
}

#[test]
fn since_of_two_tolerant_operands() {
    trial("atom 0; since 0 0", [30, 14], NO_NO, NO_NO);
    trial("true; since 0 0", [30, 14], YES_YES, YES_YES);
    trial("atom 0; prev 0; not 1; since 0 2; next 3", [52, 40], YES_YES, YES_NO);
    trial("atom 1; prev 0; not 1; since 1 2; until 3 1", [57, 36], YES_YES, YES_NO);
}

#[test]
fn other_sinces_stay() {
    trial("atom 0; atom 1; since 1 0", [35, 35], NO_NO, NO_NO);
    trial("atom 0; atom 1; since 0 1", [35, 35], YES_YES, YES_NO);
    trial("atom 1; since 0 0", [34, 34], YES_YES, YES_NO);
    trial("atom 1; since 0 0; next 1", [44, 44], NO_NO, YES_NO);
    trial("atom 0; atom 1; since 0 1; next 2", [45, 45], YES_YES, YES_NO);
}

#[test]
fn node_list() {
    let short = table(&AsWorded, true, &rule("atom 1; prev 0; atom 0; since 1 2; next 3"), 1);
    let nodes: Vec<u32> = short.nodes[11..].iter().map(|node| node.word()).collect();
    let expected = listed(
        "atom 1; or 1 11; not 11; or 1 13; not 14;
        not 12; or 1 16; not 17; since 1 18; prev 19; not 15; or 1 21; not 22; since 1 23; prev 24;
        atom 0; since 20 26; since 25 26;
        next 27; or 3 29; next 28; not 31; or 3 32; not 33;
        or 8 30; not 35; until 8 36; not 37; not 34; or 8 39; not 40; until 8 41",
    );
    assert_eq!(nodes, expected);
    assert_eq!((short.weak_top, short.strong_top), (38, 42));
}

/// Document 01's own tolerance, without document 02's words on the past.
struct Former;

impl Decisions for Former {
    fn tolerant(&self, kind: u32, own: bool, p: bool, q: bool) -> bool {
        !matches!(kind, PREV | SINCE) && AsWorded.tolerant(kind, own, p, q)
    }

    fn short_since(&self, _: bool, _: bool, _: bool) -> bool {
        false
    }
}

/// Plain is as it was, and short has no more nodes than it had.
fn no_longer(rule: &RuleTable, own: u32) {
    let [plain, former_plain] =
        [&AsWorded as &dyn Decisions, &Former].map(|by| table(by, false, rule, own));
    assert_eq!(plain.nodes, former_plain.nodes, "{rule:?}");
    let checked = check_rule(0, rule.count, &rule.nodes);
    let Ok(accepted) = checked else { unreachable!("the rule is accepted") };
    let short = rewrite(true, &accepted, own).nodes.len();
    let former = table(&Former, true, rule, own).nodes.len();
    assert!(short <= former && former <= plain.nodes.len(), "{rule:?}");
    let past = rule.nodes.iter().any(|word| matches!(Node::of_word(*word).kind, PREV | SINCE));
    assert!(past || short == former, "{rule:?}");
}

#[test]
fn never_longer_than_before() {
    exhaustive::each_rule(4, &mut |nodes| {
        let rule = RuleTable { controller: 0, count: nodes.len(), nodes: nodes.to_vec() };
        (0..4).for_each(|own| no_longer(&rule, own));
    });
    let mut random = Random::new(81);
    for _ in 0..3000 {
        let rule = RuleTable { controller: 0, ..rules::rule(&mut random, limits::RULE_NODES) };
        no_longer(&rule, random.word());
    }
}

/// Is each short verdict of these decisions the local one, of every rule of up
/// to 3 nodes on every seventh recording of up to 3 states?
fn agrees(decisions: &dyn Decisions) -> bool {
    let recordings = exhaustive::recordings(2, 3);
    exhaustive::rules(3).into_iter().all(|nodes| {
        let rule = RuleTable { controller: 0, count: nodes.len(), nodes };
        let tables: Vec<Rewritten> = (0..4).map(|own| table(decisions, true, &rule, own)).collect();
        let agrees = |recording: &RecordingTable| {
            let table = &tables[recording.masks[0] as usize];
            whole(table, recording, 0) == local(&rule, recording)
        };
        recordings.iter().step_by(7).all(agrees)
    })
}

/// Decisions with one thing otherwise.
struct Otherwise {
    tolerant: fn(u32, bool, bool, bool) -> bool,
    short_since: fn(bool, bool) -> bool,
    short_prev: bool,
}

impl Otherwise {
    const NOTHING: Otherwise = Otherwise {
        tolerant: |kind, own, p, q| AsWorded.tolerant(kind, own, p, q),
        short_since: |p, q| p && q,
        short_prev: false,
    };
}

impl Decisions for Otherwise {
    fn tolerant(&self, kind: u32, own: bool, p: bool, q: bool) -> bool {
        (self.tolerant)(kind, own, p, q)
    }

    fn short_since(&self, short: bool, p: bool, q: bool) -> bool {
        short && (self.short_since)(p, q)
    }

    fn short_prev(&self, short: bool, p: bool) -> bool {
        self.short_prev && short && p
    }
}

#[test]
fn wrong_decisions_show_in_a_verdict() {
    assert!(agrees(&AsWorded));
    assert!(agrees(&Former));
    let wrong: [(&str, Otherwise); 4] = [
        (
            "every since is tolerant",
            Otherwise {
                tolerant: |kind, own, p, q| kind == SINCE || AsWorded.tolerant(kind, own, p, q),
                ..Otherwise::NOTHING
            },
        ),
        (
            "a since is tolerant by its second operand",
            Otherwise {
                tolerant: |kind, own, p, q| {
                    if kind == SINCE {
                        q
                    } else {
                        AsWorded.tolerant(kind, own, p, q)
                    }
                },
                ..Otherwise::NOTHING
            },
        ),
        ("every since is short", Otherwise { short_since: |_, _| true, ..Otherwise::NOTHING }),
        (
            "a since is short by its first operand",
            Otherwise { short_since: |p, _| p, ..Otherwise::NOTHING },
        ),
    ];
    for (what, decisions) in wrong {
        assert!(!agrees(&decisions), "{what}");
    }
    // A prev that is shortened too is right just after a step; an until of a
    // foreign atom asks for it at the next one, with an idle state between.
    let until = "atom 0; prev 0; atom 1; until 2 1";
    trial(until, [46, 38], NO_NO, YES_NO);
    let shortened = Otherwise { short_prev: true, ..Otherwise::NOTHING };
    assert_eq!(whole(&table(&shortened, true, &rule(until), 1), &recording_r(), 0), YES_YES);
}

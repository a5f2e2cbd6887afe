//! "The rack as it runs" and "A new rule without stopping the rack": every
//! number and its place, what a refusal leaves, what a session is judged by, and
//! the calls on contents that none made.

use reference::generate::exhaustive;
use reference::generate::random::Random;
use reference::generate::recordings::RecordingTable;
use reference::generate::rules::{listed, RuleTable};
use reference::generate::sessions::{self, Call, OpeningTable};
use reference::model::limits::{CONTROLLERS, RULE_NODES, STATES};
use reference::model::recording::State;
use reference::model::session::{
    arrive, open_session, replace_rule, session_verdicts, withdraw, Contents, Session,
};
use reference::model::{self, Verdict};

/// A run mark of controller 0, of controller 1, and of one too many for two.
const RUN: u64 = 1 << 32;
const RUN_1: u64 = 2 << 32;
const RUN_2: u64 = 4 << 32;

/// Two controllers, atom 0 and atom 1, and a rule of controller 0.
fn opening(list: &str) -> OpeningTable {
    let nodes = listed(list);
    let rule = RuleTable { controller: 0, count: nodes.len(), nodes };
    OpeningTable { controllers: 2, owned: vec![1, 2], rule }
}

/// Lent space, three entries past the full sizes, none of them zero.
fn garbage() -> Contents {
    Contents {
        heading: [7; 4],
        masks: vec![7; CONTROLLERS + 3],
        nodes: vec![7; RULE_NODES + 3],
        states: vec![7; STATES + 3],
    }
}

/// Makes a call: its number.
fn call(contents: &mut Contents, call: &Call) -> u8 {
    let Contents { heading, masks, nodes, states } = contents;
    let answer = match call {
        Call::Open(table) => open_session(&table.opening(), heading, masks, nodes, states),
        Call::Arrive(word) => arrive(*word, heading, masks, states),
        Call::Withdraw => withdraw(heading, states),
        Call::Replace(rule) => {
            replace_rule(rule.controller, rule.count, &rule.nodes, heading, nodes)
        }
    };
    answer.err().unwrap_or(0)
}

/// A session that holds these states.
fn opened(table: &OpeningTable, words: &[u64]) -> Contents {
    let mut contents = garbage();
    assert_eq!(call(&mut contents, &Call::Open(table.clone())), 0);
    for word in words {
        assert_eq!(call(&mut contents, &Call::Arrive(*word)), 0, "{word:#x}");
    }
    contents
}

/// What the query answers.
fn verdicts(contents: &Contents) -> Result<Option<[bool; 2]>, u8> {
    let Contents { heading, masks, nodes, states } = contents;
    let answer = session_verdicts(heading, masks, nodes, states)?;
    Ok(answer.map(|Verdict { weak, strong }| [weak, strong]))
}

/// A refused call changes nothing.
fn refused(contents: &Contents, refused: Call, number: u8) {
    let mut after = contents.clone();
    assert_eq!(call(&mut after, &refused), number, "{refused:?}");
    assert_eq!(after, *contents, "{refused:?}");
}

/// The rule of the program's example, and its recording R.
fn example() -> (OpeningTable, Vec<u64>) {
    let rule = "atom 1; not 0; atom 0; next 2; or 1 3; not 4; true; until 6 5; not 7";
    let states = [(1, 2), (2, 3), (1, 1), (2, 0), (0, 2)];
    (opening(rule), states.iter().map(|(runs, word)| (runs << 32) + word).collect())
}

#[test]
fn an_opening_is_refused_at_its_places_in_order() {
    let fine = opening("atom 0; next 0");
    let mut table = OpeningTable { controllers: 12, owned: vec![1, 1], ..fine.clone() };
    table.rule = RuleTable { controller: 11, count: 3, nodes: listed("atom 0; next 1") };
    let mut short = garbage();
    short.nodes.truncate(RULE_NODES - 1);
    // All at once, then each mended in turn.
    refused(&short, Call::Open(table.clone()), 13);
    let open =
        |table: &OpeningTable, number| refused(&garbage(), Call::Open(table.clone()), number);
    open(&table, 2);
    table.rule.controller = 5;
    open(&table, 3);
    table.rule.nodes = listed("atom 0; next 0");
    open(&table, 4);
    table.rule.count = 2;
    open(&table, 6);
    table.controllers = 3;
    open(&table, 7);
    table.owned = vec![1, 2];
    open(&table, 8);
    table.controllers = 2;
    open(&table, 11);
    table.rule.controller = 1;
    assert_eq!(call(&mut garbage(), &Call::Open(table)), 0);
}

#[test]
fn an_opening_is_refused_at_each_edge() {
    let fine = opening("atom 0; next 0");
    let with = |change: fn(&mut OpeningTable)| {
        let mut table = fine.clone();
        change(&mut table);
        table
    };
    let refusals = [
        (with(|table| table.rule.controller = CONTROLLERS), 2),
        (with(|table| table.rule.count = 0), 2),
        (with(|table| (table.rule.count, table.rule.nodes) = (65, vec![0; 65])), 2),
        (with(|table| table.rule.nodes[0] = listed("run")[0]), 2),
        (with(|table| table.rule.count = usize::MAX), 2),
        (with(|table| table.rule.nodes[0] = listed("not 0")[0]), 3),
        (with(|table| table.rule.count = 3), 4),
        (with(|table| table.controllers = 0), 6),
        (with(|table| (table.controllers, table.owned) = (12, vec![0; 12])), 6),
        (with(|table| table.controllers = usize::MAX), 6),
        (with(|table| table.owned = vec![3, 2]), 7),
        (with(|table| table.controllers = 3), 8),
        (with(|table| table.owned.clear()), 8),
        (with(|table| table.rule.controller = 2), 11),
    ];
    let old = opened(&fine, &[RUN, 1]);
    for (table, number) in refusals {
        refused(&garbage(), Call::Open(table.clone()), number);
        refused(&old, Call::Open(table), number);
    }
    let eleven = with(|table| (table.controllers, table.owned) = (11, vec![0; 11]));
    let long = with(|table| (table.rule.count, table.rule.nodes) = (64, vec![0; 64]));
    let more = with(|table| (table.owned.push(1), table.rule.nodes.push(9)).0);
    for table in [eleven, long, more] {
        assert_eq!(call(&mut garbage(), &Call::Open(table)), 0);
    }
}

#[test]
fn an_open_session_is_empty_and_unused_entries_are_zero() {
    let table = opening("atom 0; next 0");
    let contents = opened(&table, &[]);
    assert_eq!(contents.heading, [2, 0, 2, 0]);
    assert_eq!(contents.masks, [1, 2, 0, 0, 0, 0, 0, 0, 0, 0, 0, 7, 7, 7]);
    assert_eq!(contents.nodes[..2], listed("atom 0; next 0"));
    assert!(contents.nodes[2..RULE_NODES].iter().all(|node| *node == 0));
    assert_eq!(contents.nodes[RULE_NODES..], [7; 3]);
    assert!(contents.states[..STATES].iter().all(|state| *state == 0));
    assert_eq!(contents.states[STATES..], [7; 3]);
    assert_eq!(verdicts(&contents), Ok(None));
    // Over an old session: nothing of it is left.
    let mut old = opened(&opening("atom 1; atom 0; until 0 1"), &[RUN, 1, 1]);
    assert_eq!(call(&mut old, &Call::Open(table)), 0);
    assert_eq!(old, contents);
}

#[test]
fn masks_and_nodes_past_their_counts_are_not_taken_over() {
    let mut table = opening("atom 0; next 0");
    table.owned.push(4);
    table.rule.nodes.push(9);
    assert_eq!(opened(&table, &[]), opened(&opening("atom 0; next 0"), &[]));
}

#[test]
fn an_arrival_is_refused_at_its_places_in_order() {
    let full = opened(&opening("atom 0"), &[0; STATES]);
    // 128 held, a mark too many and an own atom that changes without a run.
    let mut short = full.clone();
    short.states.truncate(STATES - 1);
    refused(&short, Call::Arrive(RUN_2 + 1), 13);
    refused(&full, Call::Arrive(RUN_2 + 1), 17);
    refused(&full, Call::Arrive(1), 17);
    refused(&full, Call::Arrive(0), 17);
    let room = opened(&opening("atom 0"), &[0; STATES - 1]);
    refused(&room, Call::Arrive(RUN_2 + 1), 6);
    refused(&room, Call::Arrive(1), 10);
    assert_eq!(opened(&opening("atom 0"), &[0; STATES]).heading[3], STATES);
}

#[test]
fn a_mark_at_c_or_above_is_6() {
    let two = opened(&opening("atom 0"), &[]);
    for c in 2..32 {
        refused(&two, Call::Arrive(1 << (32 + c)), 6);
    }
    let eleven = OpeningTable { controllers: 11, owned: vec![0; 11], ..opening("atom 0") };
    let eleven = opened(&eleven, &[(2047 << 32) + 5]);
    refused(&eleven, Call::Arrive(2048 << 32), 6);
    assert_eq!(eleven.states[0], (2047 << 32) + 5);
}

#[test]
fn the_first_state_may_be_any_word() {
    for word in [0, 1, u64::from(u32::MAX), RUN + 3, RUN_1] {
        assert_eq!(opened(&opening("atom 0"), &[word]).states[0], word);
    }
}

#[test]
fn an_arriving_state_obeys_the_output_rule_against_the_state_before() {
    let table = opening("atom 0");
    // Atom 0 changes after a run of controller 0, atom 1 after one of controller 1.
    refused(&opened(&table, &[0]), Call::Arrive(1), 10);
    refused(&opened(&table, &[RUN_1]), Call::Arrive(1), 10);
    refused(&opened(&table, &[RUN]), Call::Arrive(2), 10);
    opened(&table, &[RUN, 1]);
    opened(&table, &[RUN_1, 2]);
    opened(&table, &[RUN + RUN_1, 3]);
    // Atom 2 is nobody's.
    opened(&table, &[0, 4, 0]);
    // Not against the first state: there controller 0 ran, and atom 0 was 0.
    refused(&opened(&table, &[RUN, 1]), Call::Arrive(0), 10);
    opened(&table, &[RUN, 1, 1]);
}

#[test]
fn a_mark_of_the_last_state_becomes_a_run_when_the_next_arrives() {
    let table = opening("atom 0; next 0");
    // A mark in the last state is read as no run: one place.
    assert_eq!(verdicts(&opened(&table, &[RUN])), Ok(Some([true, false])));
    // The next state may change its atoms, and is a place.
    assert_eq!(verdicts(&opened(&table, &[RUN, 1])), Ok(Some([true, true])));
    assert_eq!(verdicts(&opened(&table, &[RUN, RUN])), Ok(Some([false, false])));
    // The state holds its mark, withdrawn or not.
    let mut contents = opened(&table, &[RUN, RUN + 1]);
    assert_eq!(contents.states[..3], [RUN, RUN + 1, 0]);
    assert_eq!(call(&mut contents, &Call::Withdraw), 0);
    assert_eq!(contents, opened(&table, &[RUN]));
}

#[test]
fn a_withdrawal_is_refused_at_its_places_in_order() {
    let empty = opened(&opening("atom 0"), &[]);
    refused(&empty, Call::Withdraw, 18);
    let mut short = empty.clone();
    short.states.truncate(STATES - 1);
    refused(&short, Call::Withdraw, 13);
    let mut short = opened(&opening("atom 0"), &[0]);
    short.states.truncate(STATES - 1);
    refused(&short, Call::Withdraw, 13);
    let mut once = opened(&opening("atom 0"), &[1]);
    assert_eq!(call(&mut once, &Call::Withdraw), 0);
    assert_eq!(once, empty);
    refused(&once, Call::Withdraw, 18);
}

#[test]
fn after_a_withdrawal_all_is_as_before_the_arrival() {
    let (table, states) = example();
    for held in 0..states.len() {
        let before = opened(&table, &states[..held]);
        let mut after = opened(&table, &states[..=held]);
        assert_eq!(after.states[held], states[held]);
        assert_eq!(call(&mut after, &Call::Withdraw), 0);
        assert_eq!(after, before);
    }
    // From 128 held, too; then another state takes the place.
    let mut full = opened(&opening("atom 0"), &[RUN; STATES]);
    assert_eq!(call(&mut full, &Call::Withdraw), 0);
    assert_eq!(full, opened(&opening("atom 0"), &[RUN; STATES - 1]));
    assert_eq!(call(&mut full, &Call::Arrive(1)), 0);
    assert_eq!((full.heading[3], full.states[STATES - 1]), (STATES, 1));
}

#[test]
fn a_bench_test_is_withdrawn_and_another_state_arrives() {
    let table = opening("atom 0; next 0");
    let mut contents = opened(&table, &[RUN, 0]);
    assert_eq!(verdicts(&contents), Ok(Some([false, false])));
    assert_eq!(call(&mut contents, &Call::Withdraw), 0);
    assert_eq!(verdicts(&contents), Ok(Some([true, false])));
    assert_eq!(call(&mut contents, &Call::Arrive(1)), 0);
    assert_eq!(verdicts(&contents), Ok(Some([true, true])));
}

#[test]
fn the_example_as_it_runs() {
    let (table, states) = example();
    for held in 1..=states.len() {
        assert_eq!(verdicts(&opened(&table, &states[..held])), Ok(Some([true, false])));
    }
    let RecordingTable { controllers, length, masks, states } = table.recording(&states);
    let nodes = &table.rule.nodes;
    let judged = model::judge_local(0, 9, nodes, controllers, length, &masks, &states);
    assert_eq!(judged, Ok(Verdict { weak: true, strong: false }));
}

#[test]
fn an_empty_session_has_no_verdict_and_that_is_not_no() {
    // Every verdict of this rule is no, and of that one yes; without a state there is none.
    for list in ["true; not 0", "true"] {
        let mut contents = opened(&opening(list), &[]);
        assert_eq!(verdicts(&contents), Ok(None));
        assert_eq!(call(&mut contents, &Call::Arrive(0)), 0);
        let yes = list == "true";
        assert_eq!(verdicts(&contents), Ok(Some([yes, yes])));
        assert_eq!(call(&mut contents, &Call::Withdraw), 0);
        assert_eq!(verdicts(&contents), Ok(None));
    }
}

/// A session of two states with its contents changed.
fn forged(change: impl Fn(&mut Contents)) -> Contents {
    let mut contents = opened(&opening("atom 0; next 0"), &[RUN, 1]);
    change(&mut contents);
    contents
}

#[test]
fn arrivals_on_contents_that_no_call_made() {
    for held in [128, 129, 131, 1 << 32, usize::MAX] {
        refused(&forged(|contents| contents.heading[3] = held), Call::Arrive(1), 17);
        // 17 before C.
        let both = forged(|contents| (contents.heading[0], contents.heading[3]) = (0, held));
        refused(&both, Call::Arrive(1), 17);
    }
    for controllers in [0, 12, 33, 64, usize::MAX] {
        refused(&forged(|contents| contents.heading[0] = controllers), Call::Arrive(1), 6);
    }
    // The rule isn't read: whatever its controller, its count and its nodes are.
    let mut other = forged(|contents| {
        (contents.heading[1], contents.heading[2]) = (usize::MAX, usize::MAX);
        contents.nodes.fill(u32::MAX);
    });
    assert_eq!(call(&mut other, &Call::Arrive(1)), 0);
    // Masks that meet are no 7, masks that aren't there no 8: they own nothing.
    let meeting = forged(|contents| contents.masks[..2].fill(3));
    refused(&meeting, Call::Arrive(0), 10);
    for there in 0..2 {
        let mut few = forged(|contents| contents.masks.truncate(there));
        assert_eq!(call(&mut few, &Call::Arrive(3)), 0);
    }
    refused(&forged(|contents| contents.masks.truncate(1)), Call::Arrive(0), 10);
    // A mask past C owns nothing either.
    let mut past = forged(|contents| contents.masks[2] = 4);
    assert_eq!(call(&mut past, &Call::Arrive(5)), 0);
    // Every other entry is left as it was, zero or not.
    let mut filled = forged(|contents| contents.states[2..].fill(9));
    let mut expected = filled.clone();
    (expected.states[2], expected.heading[3]) = (RUN + 1, 3);
    assert_eq!(call(&mut filled, &Call::Arrive(RUN + 1)), 0);
    assert_eq!(filled, expected);
}

#[test]
fn withdrawals_on_contents_that_no_call_made() {
    for held in [129, 130, 131, 1 << 32, usize::MAX] {
        refused(&forged(|contents| contents.heading[3] = held), Call::Withdraw, 6);
    }
    // Nothing else is tested.
    let mut other = forged(|contents| {
        (contents.heading[0], contents.heading[1], contents.heading[2]) = (0, 99, 99);
        contents.states.fill(u64::MAX);
        contents.heading[3] = 128;
    });
    let mut expected = other.clone();
    (expected.states[127], expected.heading[3]) = (0, 127);
    assert_eq!(call(&mut other, &Call::Withdraw), 0);
    assert_eq!(other, expected);
}

#[test]
fn verdicts_on_contents_that_no_call_made() {
    // Without a state there are none, whatever else stands there.
    let mut empty = garbage();
    empty.heading = [99, 99, 99, 0];
    assert_eq!(verdicts(&empty), Ok(None));
    (empty.masks, empty.nodes, empty.states) = (vec![], vec![], vec![]);
    assert_eq!(verdicts(&empty), Ok(None));
    // Else the numbers of local judging, in its order.
    let with = |change: fn(&mut Contents)| verdicts(&forged(change)).unwrap_err();
    assert_eq!(with(|contents| contents.heading = [12, 11, 65, 129]), 2);
    assert_eq!(with(|contents| contents.heading[2] = 0), 2);
    assert_eq!(with(|contents| contents.nodes[0] = listed("not 0")[0]), 3);
    assert_eq!(with(|contents| contents.nodes.truncate(1)), 4);
    assert_eq!(with(|contents| contents.heading[0] = 12), 6);
    assert_eq!(with(|contents| contents.heading[3] = 129), 6);
    assert_eq!(with(|contents| contents.heading[3] = usize::MAX), 6);
    assert_eq!(with(|contents| contents.masks[1] = 1), 7);
    assert_eq!(with(|contents| contents.states[0] = RUN_2), 6);
    assert_eq!(with(|contents| contents.states[0] = 0), 10);
    assert_eq!(with(|contents| contents.masks.truncate(1)), 8);
    assert_eq!(with(|contents| contents.states.truncate(1)), 8);
    assert_eq!(with(|contents| contents.heading[1] = 2), 11);
    // Short slices are no 13: two masks, two nodes and two states are enough.
    let few = forged(|contents| {
        contents.masks.truncate(2);
        contents.nodes.truncate(2);
        contents.states.truncate(2);
    });
    assert_eq!(verdicts(&few), Ok(Some([true, true])));
}

#[test]
fn lent_space_below_its_full_size_is_13_of_what_a_call_writes() {
    let open = Call::Open(opening("atom 0"));
    let lengths = [(11, 64, 128, 0), (10, 64, 128, 13), (11, 63, 128, 13), (11, 64, 127, 13)];
    for (masks, nodes, states, number) in lengths {
        let mut contents = opened(&opening("true"), &[0]);
        contents.masks.truncate(masks);
        contents.nodes.truncate(nodes);
        contents.states.truncate(states);
        let before = contents.clone();
        assert_eq!(call(&mut contents, &open), number);
        assert_eq!(contents == before, number == 13);
        let only_states = u8::from(states < 128) * 13;
        let mut contents = before.clone();
        assert_eq!(call(&mut contents, &Call::Arrive(0)), only_states);
        let mut contents = before.clone();
        assert_eq!(call(&mut contents, &Call::Withdraw), only_states);
        assert_eq!(verdicts(&before), Ok(Some([true, true])));
    }
}

#[test]
fn a_new_rule_is_refused_at_its_places_in_order() {
    let old = opened(&opening("atom 0; next 0"), &[RUN, 1]);
    let mut short = old.clone();
    short.nodes.truncate(RULE_NODES - 1);
    let mut rule = RuleTable { controller: 11, count: 4, nodes: listed("atom 0; next 1") };
    // All at once, then each mended in turn.
    refused(&short, Call::Replace(rule.clone()), 13);
    refused(&old, Call::Replace(rule.clone()), 2);
    rule.controller = 2;
    refused(&old, Call::Replace(rule.clone()), 3);
    rule.nodes = listed("atom 0; not 0; next 1");
    refused(&old, Call::Replace(rule.clone()), 4);
    rule.count = 3;
    refused(&old, Call::Replace(rule.clone()), 11);
    assert_eq!(verdicts(&old), Ok(Some([true, true])));
    rule.controller = 0;
    let mut renewed = old.clone();
    assert_eq!(call(&mut renewed, &Call::Replace(rule)), 0);
    assert_eq!(renewed, opened(&opening("atom 0; not 0; next 1"), &[RUN, 1]));
    assert_eq!(verdicts(&renewed), Ok(Some([false, false])));
}

#[test]
fn a_new_rule_leaves_nothing_of_the_former_and_every_state() {
    let mut table = opening("atom 1; atom 0; until 0 1");
    let former = [opened(&table, &[]), opened(&table, &[RUN, 1]), opened(&table, &[0; STATES])];
    table.rule = RuleTable { controller: 1, count: 1, nodes: listed("atom 1") };
    let mut given = table.rule.clone();
    given.nodes.extend([7, 7]);
    for former in former {
        let mut renewed = former.clone();
        assert_eq!(call(&mut renewed, &Call::Replace(given.clone())), 0);
        let states = &former.states[..former.heading[3]];
        assert_eq!(renewed, opened(&table, states));
    }
}

#[test]
fn a_new_rule_goes_by_the_headings_c_whatever_it_is() {
    let rule = |controller| Call::Replace(RuleTable { controller, ..opening("true").rule });
    for (controllers, controller, number) in
        [(0, 0, 11), (1, 1, 11), (12, 10, 0), (usize::MAX, 10, 0), (usize::MAX, 11, 2)]
    {
        let mut contents = garbage();
        contents.heading[0] = controllers;
        assert_eq!(call(&mut contents, &rule(controller)), number);
        contents.masks.clear();
        contents.states.clear();
        assert_eq!(call(&mut contents, &rule(controller)), number);
    }
}

/// A session as it is worded beside lent space: each call has the same number,
/// lent space is its image, and the verdicts are its own.
struct Beside {
    contents: Contents,
    session: Option<Session>,
}

impl Beside {
    fn new() -> Beside {
        let mut contents = garbage();
        contents.heading = [0; 4];
        contents.masks.truncate(CONTROLLERS);
        contents.nodes.truncate(RULE_NODES);
        contents.states.truncate(STATES);
        Beside { contents, session: None }
    }

    fn call(&mut self, made: &Call) -> u8 {
        let number = call(&mut self.contents, made);
        let worded = match (made, &mut self.session) {
            (Call::Open(table), session) => {
                Session::open(&table.opening()).map(|opened| *session = Some(opened))
            }
            (Call::Arrive(word), Some(session)) => session.arrive(State::of_word(*word)),
            (Call::Withdraw, Some(session)) => session.withdraw(),
            (Call::Replace(rule), Some(session)) => {
                session.replace_rule(rule.controller, rule.count, &rule.nodes)
            }
            (_, None) => return number,
        };
        assert_eq!(worded.err().unwrap_or(0), number, "{made:?}");
        if let Some(session) = &self.session {
            assert_eq!(session.image(), self.contents, "{made:?}");
            let expected = session.verdict().map(|verdict| [verdict.weak, verdict.strong]);
            assert_eq!(verdicts(&self.contents), Ok(expected));
        }
        number
    }
}

#[test]
fn every_list_of_four_calls_leaves_the_image_of_what_remains() {
    let mut refused_opening = opening("atom 0");
    refused_opening.owned[1] = 1;
    let mut calls = vec![
        Call::Open(opening("atom 0; next 0")),
        Call::Open(opening("atom 0; atom 1; until 0 1")),
        Call::Open(refused_opening),
        Call::Withdraw,
        Call::Replace(RuleTable { controller: 1, ..opening("atom 1").rule }),
        Call::Replace(RuleTable { controller: 2, ..opening("atom 1").rule }),
    ];
    calls.extend([0, RUN, RUN + 1, 1, RUN_1 + 1, 2, RUN_2].map(Call::Arrive));
    for list in 0..calls.len().pow(4) {
        let mut beside = Beside::new();
        let mut left = list;
        for _ in 0..4 {
            beside.call(&calls[left % calls.len()]);
            left /= calls.len();
        }
    }
}

#[test]
fn long_lists_leave_the_image_of_what_remains() {
    let mut random = Random::new(51);
    let mut met = [0; 20];
    for _ in 0..120 {
        let mut beside = Beside::new();
        let first = sessions::opening(&mut random, 8);
        beside.call(&Call::Open(first));
        for phase in 0..4 {
            for _ in 0..random.between(1, 180) {
                let session = beside.session.clone().expect("it is open");
                let before = session.states.last().map(|state| state.word());
                let leaves = phase % 2 == 1;
                let made = match random.below(64) {
                    0 => Call::Open(sessions::damaged_opening(&mut random)),
                    1..=3 => {
                        let controllers = session.masks.len();
                        Call::Replace(sessions::any_new_rule(&mut random, controllers))
                    }
                    4..=11 if !leaves => Call::Withdraw,
                    4..=48 if leaves => Call::Withdraw,
                    _ => Call::Arrive(sessions::any_arrival(&mut random, &session.masks, before)),
                };
                met[usize::from(beside.call(&made))] += 1;
            }
        }
    }
    println!("{met:?}");
    assert!([0, 2, 3, 4, 6, 10, 11, 17, 18].iter().all(|number| met[*number] > 20));
}

#[test]
fn every_small_recording_arrives_and_is_judged_from_the_start() {
    let rules = exhaustive::rules(2);
    let recordings = exhaustive::recordings(2, 3);
    for (number, recording) in recordings.iter().enumerate() {
        let RecordingTable { controllers, length, masks, states } = recording;
        let nodes = rules[number % rules.len()].clone();
        let rule = RuleTable { controller: number % controllers, count: nodes.len(), nodes };
        let table = OpeningTable { controllers: *controllers, owned: masks.clone(), rule };
        let contents = opened(&table, states);
        let RuleTable { controller, count, nodes } = &table.rule;
        let judged =
            model::judge_local(*controller, *count, nodes, *controllers, *length, masks, states);
        let judged = judged.map(|verdict| Some([verdict.weak, verdict.strong]));
        assert_eq!(verdicts(&contents), judged);
    }
}

#[test]
fn any_contents_have_an_answer_to_every_call() {
    let mut random = Random::new(52);
    let mut met = [[0; 20]; 5];
    for _ in 0..20_000 {
        let contents = sessions::contents(&mut random);
        let held = contents.heading[3].min(contents.states.len());
        let before = held.checked_sub(1).map(|last| contents.states[last]);
        let masks =
            &contents.masks[..contents.heading[0].min(contents.masks.len()).min(CONTROLLERS)];
        let calls = [
            Call::Open(sessions::any_opening(&mut random)),
            Call::Arrive(sessions::any_arrival(&mut random, masks, before)),
            Call::Withdraw,
            Call::Replace(sessions::any_new_rule(&mut random, contents.heading[0])),
        ];
        for (counts, made) in met.iter_mut().zip(&calls) {
            let mut after = contents.clone();
            let number = call(&mut after, made);
            counts[usize::from(number)] += 1;
            assert!(number == 0 || after == contents);
        }
        met[4][usize::from(verdicts(&contents).err().unwrap_or(0))] += 1;
    }
    println!("{met:?}");
    let answerable: [&[usize]; 5] = [
        &[0, 2, 3, 4, 6, 7, 8, 11, 13],
        &[0, 6, 10, 13, 17],
        &[0, 6, 13, 18],
        &[0, 2, 3, 4, 11, 13],
        &[0, 2, 3, 4, 6, 7, 8, 10, 11],
    ];
    for (counts, numbers) in met.iter().zip(answerable) {
        let given: Vec<usize> = (0..20).filter(|number| counts[*number] > 0).collect();
        assert_eq!(given, numbers);
        assert!(numbers.iter().all(|number| counts[*number] > 50));
    }
}

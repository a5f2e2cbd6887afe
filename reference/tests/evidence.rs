//! The readings behind a verdict: each case of the walk, the lent space, and
//! the promise, that other recordings with those bits get the same verdict.

use reference::generate::exhaustive;
use reference::generate::random::Random;
use reference::generate::recordings::{self, RecordingTable};
use reference::generate::rules::{self, RuleTable};
use reference::model::evidence::{walk, AsWorded, Pair};
use reference::model::limits::{CONTROLLERS, PAIRS, RULE_NODES, STATES};
use reference::model::recording::{bit, check_recording, project, LocalTrace};
use reference::model::rule::{Node, ATOM, NEXT, NOT, OR, PREV, SINCE, TRUE, UNTIL};
use reference::model::semantics::{local_readings, Reading};
use reference::model::{self, refusal};

/// A rule of controller 0 from kinds and operands.
fn rule(nodes: &[(u32, usize, usize)]) -> RuleTable {
    let word = |&(kind, first, second)| Node { kind, first, second }.word();
    RuleTable { controller: 0, count: nodes.len(), nodes: nodes.iter().map(word).collect() }
}

/// A recording of one controller that runs in every state but the last, so
/// that its places are these words.
fn steps(own: u32, words: &[u64]) -> RecordingTable {
    let (last, before) = words.split_last().expect("a state");
    let states = before.iter().map(|word| (1 << 32) + word).chain([*last]).collect();
    RecordingTable { controllers: 1, length: words.len(), masks: vec![own], states }
}

/// What the operation answers.
fn asked(
    rule: &RuleTable,
    recording: &RecordingTable,
    weak: bool,
    pairs: &mut [u32],
) -> Result<usize, u8> {
    let RuleTable { controller, count, nodes } = rule;
    let RecordingTable { controllers, length, masks, states } = recording;
    model::evidence(*controller, *count, nodes, *controllers, *length, masks, states, weak, pairs)
}

/// The pairs of an accepted input, each as place and node.
fn pairs(rule: &RuleTable, recording: &RecordingTable, weak: bool) -> Vec<(usize, usize)> {
    let mut lent = vec![u32::MAX; PAIRS + 2];
    let count = asked(rule, recording, weak, &mut lent).expect("both are accepted");
    assert!(lent[count..PAIRS].iter().all(|entry| *entry == 0));
    assert_eq!(lent[PAIRS..], [u32::MAX; 2]);
    let pair = |entry: &u32| (*entry as usize / 64, *entry as usize % 64);
    lent[..count].iter().map(pair).collect()
}

/// Both readings have these pairs.
fn both(rule: &RuleTable, recording: &RecordingTable, expected: &[(usize, usize)]) {
    for weak in [true, false] {
        assert_eq!(pairs(rule, recording, weak), expected, "{rule:?} {recording:?} {weak}");
    }
}

const P: (u32, usize, usize) = (ATOM, 0, 0);
const Q: (u32, usize, usize) = (ATOM, 1, 0);

#[test]
fn an_or_takes_its_first_yes_operand_or_both() {
    let or = rule(&[P, Q, (OR, 0, 1)]);
    both(&or, &steps(3, &[3, 0]), &[(0, 0)]);
    both(&or, &steps(3, &[1, 0]), &[(0, 0)]);
    both(&or, &steps(3, &[2, 0]), &[(0, 1)]);
    both(&or, &steps(3, &[0, 0]), &[(0, 0), (0, 1)]);
    // The first operand is operand a, whatever its number.
    both(&rule(&[P, Q, (OR, 1, 0)]), &steps(3, &[3, 0]), &[(0, 1)]);
}

#[test]
fn an_until_takes_its_first_witness_and_p_before_it() {
    let until = rule(&[P, Q, (UNTIL, 0, 1)]);
    both(&until, &steps(3, &[1, 1, 2, 2]), &[(0, 0), (1, 0), (2, 1)]);
    both(&until, &steps(3, &[1, 3, 3, 2]), &[(0, 0), (1, 1)]);
    both(&until, &steps(3, &[2, 2]), &[(0, 1)]);
    // The witness is at the last place.
    both(&until, &steps(3, &[1, 1, 2]), &[(0, 0), (1, 0), (2, 1)]);
}

#[test]
fn an_until_by_the_weak_ending_takes_p_everywhere() {
    let until = rule(&[P, Q, (UNTIL, 0, 1)]);
    let kept = steps(3, &[1, 1, 1]);
    assert_eq!(pairs(&until, &kept, true), [(0, 0), (1, 0), (2, 0)]);
    // Strong it is no, and p never fails: q everywhere.
    assert_eq!(pairs(&until, &kept, false), [(0, 1), (1, 1), (2, 1)]);
    // With a witness the ending isn't needed.
    both(&until, &steps(3, &[1, 3, 1]), &[(0, 0), (1, 1)]);
    // From its own place on.
    let later = rule(&[P, Q, (UNTIL, 0, 1), (NEXT, 2, 0)]);
    assert_eq!(pairs(&later, &kept, true), [(1, 0), (2, 0)]);
    assert_eq!(pairs(&later, &kept, false), [(1, 1), (2, 1)]);
}

#[test]
fn an_until_that_is_no_takes_the_failing_p_and_q_up_to_it() {
    let until = rule(&[P, Q, (UNTIL, 0, 1)]);
    both(&until, &steps(3, &[1, 1, 0, 2]), &[(0, 1), (1, 1), (2, 0), (2, 1)]);
    both(&until, &steps(3, &[0, 3]), &[(0, 0), (0, 1)]);
    both(&until, &steps(3, &[1, 0]), &[(0, 1), (1, 0), (1, 1)]);
}

/// Since at place 2.
fn since_at_2() -> RuleTable {
    rule(&[P, Q, (SINCE, 0, 1), (NEXT, 2, 0), (NEXT, 3, 0)])
}

#[test]
fn a_since_takes_its_latest_witness_and_p_after_it() {
    both(&since_at_2(), &steps(3, &[2, 1, 1, 0]), &[(0, 1), (1, 0), (2, 0)]);
    both(&since_at_2(), &steps(3, &[2, 3, 1, 0]), &[(1, 1), (2, 0)]);
    both(&since_at_2(), &steps(3, &[3, 3, 3, 0]), &[(2, 1)]);
    // At the last place, too.
    both(&since_at_2(), &steps(3, &[2, 1, 1]), &[(0, 1), (1, 0), (2, 0)]);
}

#[test]
fn a_since_that_is_no_takes_the_latest_failing_p_and_q_from_it() {
    both(&since_at_2(), &steps(3, &[2, 0, 1, 3]), &[(1, 0), (1, 1), (2, 1)]);
    both(&since_at_2(), &steps(3, &[2, 0, 0, 3]), &[(2, 0), (2, 1)]);
    both(&since_at_2(), &steps(3, &[0, 1, 1, 3]), &[(0, 0), (0, 1), (1, 1), (2, 1)]);
    // P never fails: q at every place up to its own.
    both(&since_at_2(), &steps(3, &[1, 1, 1, 3]), &[(0, 1), (1, 1), (2, 1)]);
}

#[test]
fn next_and_prev_take_a_place_that_is_there() {
    both(&rule(&[P, (NEXT, 0, 0)]), &steps(3, &[1, 0]), &[(1, 0)]);
    both(&rule(&[P, (NEXT, 0, 0)]), &steps(3, &[1]), &[]);
    both(&rule(&[P, (NEXT, 0, 0), (NEXT, 1, 0)]), &steps(3, &[1, 1]), &[]);
    both(&rule(&[P, (PREV, 0, 0)]), &steps(3, &[1, 0]), &[]);
    both(&rule(&[P, (PREV, 0, 0), (NEXT, 1, 0)]), &steps(3, &[1, 0]), &[(0, 0)]);
}

#[test]
fn a_not_passes_on_in_the_other_reading() {
    let never = rule(&[P, Q, (UNTIL, 0, 1), (NOT, 2, 0)]);
    let kept = steps(3, &[1, 1]);
    // Weak: the until is read strong and is no; q everywhere.
    assert_eq!(pairs(&never, &kept, true), [(0, 1), (1, 1)]);
    // Strong: the until is read weak and is yes by its ending.
    assert_eq!(pairs(&never, &kept, false), [(0, 0), (1, 0)]);
    let twice = rule(&[P, Q, (UNTIL, 0, 1), (NOT, 2, 0), (NOT, 3, 0)]);
    assert_eq!(pairs(&twice, &kept, true), [(0, 0), (1, 0)]);
    assert_eq!(pairs(&twice, &kept, false), [(0, 1), (1, 1)]);
}

#[test]
fn a_foreign_atom_at_the_last_place_adds_nothing() {
    both(&rule(&[Q]), &steps(1, &[2]), &[]);
    both(&rule(&[Q]), &steps(1, &[2, 0]), &[(0, 0)]);
    both(&rule(&[P]), &steps(1, &[1]), &[(0, 0)]);
    let or = rule(&[P, Q, (OR, 0, 1)]);
    // Weak yes by the foreign atom alone; strong no: both, of which one counts.
    assert_eq!(pairs(&or, &steps(1, &[0]), true), []);
    assert_eq!(pairs(&or, &steps(1, &[0]), false), [(0, 0)]);
    // An until whose witness, or whose weak ending, is the foreign atom.
    let until = rule(&[P, Q, (UNTIL, 0, 1)]);
    assert_eq!(pairs(&until, &steps(1, &[1, 0]), true), [(0, 0)]);
    assert_eq!(pairs(&until, &steps(1, &[1, 0]), false), [(0, 1), (1, 0)]);
    assert_eq!(pairs(&rule(&[P, Q, (UNTIL, 1, 0)]), &steps(1, &[2, 0]), true), [(0, 1)]);
}

#[test]
fn true_adds_nothing() {
    both(&rule(&[(TRUE, 0, 0)]), &steps(3, &[0, 0]), &[]);
    both(&rule(&[(TRUE, 0, 0), P, (UNTIL, 0, 1)]), &steps(3, &[0, 1]), &[(1, 1)]);
}

#[test]
fn a_shared_node_is_found_once_for_each_place() {
    let shared = rule(&[P, (NOT, 0, 0), (NEXT, 0, 0), (OR, 1, 2)]);
    both(&shared, &steps(3, &[1, 0]), &[(0, 0), (1, 0)]);
    both(&rule(&[P, (OR, 0, 0)]), &steps(3, &[0]), &[(0, 0)]);
    // In both readings at one place: weak it is yes, strong it is no.
    let open = [P, Q, (UNTIL, 0, 1), (NOT, 2, 0), (OR, 2, 3), (NOT, 4, 0)];
    let excluded = rule(&open);
    assert_eq!(pairs(&excluded, &steps(3, &[1, 1]), false), [(0, 0), (1, 0)]);
    assert_eq!(pairs(&excluded, &steps(3, &[1, 1]), true), [(0, 0), (0, 1), (1, 0), (1, 1)]);
}

#[test]
fn two_nodes_with_one_atom_are_two_pairs() {
    both(&rule(&[P, P, (OR, 0, 1)]), &steps(3, &[0]), &[(0, 0), (0, 1)]);
    both(&rule(&[P, P, (OR, 0, 1)]), &steps(3, &[1]), &[(0, 0)]);
}

#[test]
fn pairs_come_by_place_then_node() {
    let both_ends = rule(&[P, (NEXT, 0, 0), Q, (OR, 1, 2), P, (OR, 4, 3)]);
    both(&both_ends, &steps(3, &[0, 0]), &[(0, 2), (0, 4), (1, 0)]);
}

/// The rule of the program's example.
fn example_rule() -> RuleTable {
    let next = [(ATOM, 1, 0), (NOT, 0, 0), (ATOM, 0, 0), (NEXT, 2, 0), (OR, 1, 3)];
    let always = [(NOT, 4, 0), (TRUE, 0, 0), (UNTIL, 6, 5), (NOT, 7, 0)];
    rule(&[&next[..], &always].concat())
}

/// The recording R of the program's example.
fn recording_r() -> RecordingTable {
    let states = [(1, 2), (2, 3), (1, 1), (2, 0), (0, 2)];
    let states = states.iter().map(|(runs, word)| (runs << 32) + word).collect();
    RecordingTable { controllers: 2, length: 5, masks: vec![1, 2], states }
}

#[test]
fn of_the_programs_example() {
    // Weak yes: at place 0 the answer comes at place 1, at place 1 there is no
    // request, and at the last place nobody knows.
    assert_eq!(pairs(&example_rule(), &recording_r(), true), [(1, 0), (1, 2)]);
    // Strong no: the promise may still be broken at the last place alone.
    assert_eq!(pairs(&example_rule(), &recording_r(), false), []);
}

#[test]
fn lent_space_and_the_order_of_refusals() {
    let (fine, r) = (example_rule(), recording_r());
    let controller = RuleTable { controller: 2, ..fine.clone() };
    let missing = RuleTable { count: 10, ..fine.clone() };
    let operand = rule(&[(NOT, 0, 0)]);
    let limit = RuleTable { controller: CONTROLLERS, ..fine.clone() };
    let states = RecordingTable { length: 6, ..r.clone() };
    let cases = [
        (&limit, &states, refusal::RULE_LIMIT),
        (&operand, &states, refusal::OPERAND),
        (&missing, &states, refusal::RULE_LINES),
        (&controller, &states, refusal::RECORDING_LINES),
        (&controller, &r, refusal::CONTROLLER),
    ];
    for (rule, recording, number) in cases {
        let mut lent = vec![7; PAIRS + 3];
        assert_eq!(asked(rule, recording, true, &mut lent), Err(number));
        assert!(lent[..PAIRS].iter().all(|entry| *entry == 0));
        assert_eq!(lent[PAIRS..], [7; 3]);
    }
    for (rule, length) in [(&fine, PAIRS - 1), (&fine, 0), (&limit, PAIRS - 1)] {
        let mut short = vec![7; length];
        assert_eq!(asked(rule, &r, true, &mut short), Err(refusal::LENT_SPACE));
        assert!(short.iter().all(|entry| *entry == 7));
    }
}

#[test]
fn a_node_is_visited_once() {
    // Without a memory this walk would take 2 to the 63 steps.
    let doubled = (0..63).map(|node| (OR, node, node));
    let nodes: Vec<_> = [P].into_iter().chain(doubled).collect();
    both(&rule(&nodes), &steps(3, &[0]), &[(0, 0)]);
    let doubled = (0..63).map(|node| (UNTIL, node, node));
    let nodes: Vec<_> = [P].into_iter().chain(doubled).collect();
    assert_eq!(pairs(&rule(&nodes), &steps(3, &vec![0; 128]), true), [(0, 0)]);
}

/// The bits that pairs name, at each place.
fn named_bits(nodes: &[Node], pairs: &[Pair], length: usize) -> Vec<u32> {
    let mut bits = vec![0; length];
    pairs.iter().for_each(|pair| bits[pair.place] |= 1 << nodes[pair.node].first);
    bits
}

/// Every local trace of a length and an own mask, over two atoms.
fn small_traces(own: u32, length: usize) -> Vec<LocalTrace> {
    let mut all = vec![Vec::new()];
    for place in 0..length {
        let fits = |word: &u32| place + 1 < length || word & !own == 0;
        let longer = |recording: &Vec<u32>| {
            (0..4).filter(fits).map(|word| [&recording[..], &[word]].concat()).collect::<Vec<_>>()
        };
        all = all.iter().flat_map(longer).collect();
    }
    all.into_iter().map(|positions| LocalTrace { own, positions }).collect()
}

/// The verdict of a rule on a local trace.
fn verdict(nodes: &[Node], local: &LocalTrace, reading: Reading) -> bool {
    local_readings(nodes, local).at(nodes.len() - 1, reading, 0)
}

#[test]
fn small_traces_with_those_bits_get_the_same_verdict() {
    let rules = exhaustive::rules(3);
    for (own, length) in [(0, 3), (1, 3), (2, 2), (3, 3), (3, 2), (1, 1)] {
        let recordings = small_traces(own, length);
        for rule in &rules {
            let nodes: Vec<Node> = rule.iter().map(|word| Node::of_word(*word)).collect();
            for reading in [Reading::Weak, Reading::Strong] {
                let verdicts: Vec<bool> = recordings
                    .iter()
                    .map(|recording| verdict(&nodes, recording, reading))
                    .collect();
                for (recording, one) in recordings.iter().zip(&verdicts) {
                    let pairs = walk(&AsWorded, &nodes, recording, reading);
                    let bits = named_bits(&nodes, &pairs, length);
                    let same = |other: &LocalTrace| {
                        let mut words = recording.positions.iter().zip(&other.positions).zip(&bits);
                        words.all(|((word, other), bits)| (word ^ other) & bits == 0)
                    };
                    let others = recordings.iter().zip(&verdicts).filter(|(other, _)| same(other));
                    for (other, verdict) in others {
                        assert_eq!(verdict, one, "{nodes:?} {recording:?} {other:?} {reading:?}");
                    }
                }
            }
        }
    }
}

#[test]
fn large_traces_with_those_bits_get_the_same_verdict() {
    let mut random = Random::new(31);
    let mut most = 0;
    for number in 0..1500 {
        let far = number % 2 == 0;
        let (table, controller) = if far {
            recordings::steady(&mut random)
        } else {
            let table = recordings::recording(&mut random, CONTROLLERS, STATES);
            let controller = random.below(table.controllers);
            (table, controller)
        };
        let rule = if far { rules::far_rule_for } else { rules::rule_for };
        let rule = rule(&mut random, controller, RULE_NODES);
        let nodes: Vec<Node> = rule.nodes.iter().map(|word| Node::of_word(*word)).collect();
        let recording =
            check_recording(table.controllers, table.length, &table.masks, &table.states);
        let local = project(&recording.expect("accepted"), controller);
        let length = local.positions.len();
        for reading in [Reading::Weak, Reading::Strong] {
            let pairs = walk(&AsWorded, &nodes, &local, reading);
            let foreign = |pair: &&Pair| !bit(local.own, nodes[pair.node].first);
            assert!(pairs.iter().filter(foreign).all(|pair| pair.place + 1 < length));
            most = most.max(pairs.len());
            let bits = named_bits(&nodes, &pairs, length);
            let expected = verdict(&nodes, &local, reading);
            for _ in 0..20 {
                let mut other = local.clone();
                for (word, bits) in other.positions.iter_mut().zip(&bits) {
                    *word ^= random.word() & !bits;
                }
                other.positions[length - 1] &= local.own;
                assert_eq!(verdict(&nodes, &other, reading), expected, "{rule:?} {table:?}");
            }
        }
    }
    println!("at most {most} pairs");
    assert!(most > 300);
}

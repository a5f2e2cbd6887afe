//! "Trials at the edges" of document 01, the program's example, and the
//! demands as properties of the model itself.

use std::collections::HashMap;

use reference::generate::exhaustive;
use reference::generate::random::Random;
use reference::generate::recordings::{self, RecordingTable};
use reference::generate::rules::{self, listed, RuleTable};
use reference::generate::texts::{recording_text, rule_text};
use reference::model::recording::{check_recording, Recording};
use reference::model::rule::{Node, ATOM, END, NEXT, NOT, OR, PREV, RUN, SINCE, TRUE, UNTIL};
use reference::model::semantics::{whole_readings, Reading};
use reference::model::{self, limits, RecordingHeading, Rewriting, RuleHeading, Verdict};

const NO_NO: Verdict = Verdict { weak: false, strong: false };
const YES_NO: Verdict = Verdict { weak: true, strong: false };

/// A rule of controller 0 from kinds and operands.
fn rule(nodes: &[(u32, usize, usize)]) -> RuleTable {
    let word = |&(kind, first, second)| Node { kind, first, second }.word();
    RuleTable { controller: 0, count: nodes.len(), nodes: nodes.iter().map(word).collect() }
}

/// The recording R of the program's example.
fn recording_r() -> RecordingTable {
    let states = [(1, 2), (2, 3), (1, 1), (2, 0), (0, 2)];
    RecordingTable {
        controllers: 2,
        length: 5,
        masks: vec![1, 2],
        states: states.iter().map(|(runs, word)| (runs << 32) + word).collect(),
    }
}

/// The recording Z: one state, word 0, no run, C 1, mask 00000001.
fn recording_z() -> RecordingTable {
    RecordingTable { controllers: 1, length: 1, masks: vec![1], states: vec![0] }
}

/// The rule judged on its local trace.
fn local(rule: &RuleTable, recording: &RecordingTable) -> Verdict {
    let RecordingTable { controllers, length, masks, states } = recording;
    let RuleTable { controller, count, nodes } = rule;
    model::judge_local(*controller, *count, nodes, *controllers, *length, masks, states)
        .expect("both are accepted")
}

/// A rewritten table with what the rewriting answered.
#[derive(Clone, PartialEq, Eq, Debug)]
struct RewrittenTable {
    answer: Rewriting,
    table: Vec<u32>,
}

/// The rule rewritten for a mask.
fn rewritten(short: bool, rule: &RuleTable, mask: u32) -> RewrittenTable {
    let mut table = vec![u32::MAX; limits::TABLE_NODES];
    let answer = model::rewrite(short, rule.controller, rule.count, &rule.nodes, mask, &mut table)
        .expect("the rule is accepted");
    RewrittenTable { answer, table }
}

/// A rewritten table judged over the whole recording.
fn judged(
    table: &RewrittenTable,
    recording: &RecordingTable,
    controller: usize,
    rows: &mut [u64],
) -> Verdict {
    let RecordingTable { controllers, length, masks, states } = recording;
    let Rewriting { count, weak_top, strong_top } = table.answer;
    model::judge_recording(
        count,
        &table.table,
        weak_top,
        strong_top,
        *controllers,
        *length,
        masks,
        states,
        controller,
        rows,
    )
    .expect("a rewritten table and an accepted recording are accepted")
}

/// The three verdicts of a rule on a recording, asserted to be one.
fn verdict(rule: &RuleTable, recording: &RecordingTable) -> Verdict {
    let mut rows = vec![0; limits::ROW_WORDS];
    let own = local(rule, recording);
    for short in [false, true] {
        let table = rewritten(short, rule, recording.masks[rule.controller]);
        assert_eq!(own, judged(&table, recording, rule.controller, &mut rows), "{short} {rule:?}");
    }
    own
}

/// The plain and the short node count.
fn counts(rule: &RuleTable, mask: u32) -> (usize, usize) {
    let count = |short| rewritten(short, rule, mask).answer.count;
    (count(false), count(true))
}

/// What reading a rule text answers.
fn read_rule(text: &str) -> Result<RuleHeading, u8> {
    model::read_rule(text.as_bytes(), &mut [0; limits::RULE_NODES])
}

/// What reading a recording text answers.
fn read_recording(text: &[u8]) -> Result<RecordingHeading, u8> {
    model::read_recording(text, &mut [0; limits::CONTROLLERS], &mut [0; limits::STATES])
}

#[test]
fn r_next_of_atom_1() {
    let next = rule(&[(ATOM, 1, 0), (NEXT, 0, 0)]);
    assert_eq!(verdict(&next, &recording_r()), NO_NO);
    assert_eq!(counts(&next, 1), (34, 34));
}

#[test]
fn r_prev_of_true() {
    let prev = rule(&[(TRUE, 0, 0), (PREV, 0, 0)]);
    assert_eq!(verdict(&prev, &recording_r()), NO_NO);
    assert_eq!(counts(&prev, 1), (30, 22));
}

#[test]
fn z_foreign_atom_and_own_atom() {
    assert_eq!(verdict(&rule(&[(ATOM, 1, 0)]), &recording_z()), YES_NO);
    assert_eq!(verdict(&rule(&[(ATOM, 0, 0)]), &recording_z()), NO_NO);
}

#[test]
fn z_next_of_true_and_local_length() {
    assert_eq!(verdict(&rule(&[(TRUE, 0, 0), (NEXT, 0, 0)]), &recording_z()), YES_NO);
    let mut places = [7; limits::PLACES];
    assert_eq!(model::project(1, 1, &[1], &[0], 0, &mut places), Ok(1));
    assert_eq!(places, [0; limits::PLACES]);
}

#[test]
fn r_local_trace() {
    let r = recording_r();
    let mut places = [7; limits::PLACES + 1];
    let length = model::project(r.controllers, r.length, &r.masks, &r.states, 0, &mut places);
    assert_eq!(length, Ok(3));
    assert_eq!(places[..4], [2, 1, 0, 0]);
    assert_eq!(places[limits::PLACES - 1..], [0, 7]);
}

#[test]
fn node_counts() {
    assert_eq!(counts(&rule(&[(TRUE, 0, 0)]), 1), (20, 12));
    let until = rule(&[(ATOM, 0, 0), (ATOM, 1, 0), (UNTIL, 0, 1)]);
    assert_eq!(counts(&until, 3), (32, 19));
    assert_eq!(counts(&until, 0), (40, 32));
}

#[test]
fn operands_stand_earlier() {
    let mut space = [9; limits::RULE_NODES];
    assert_eq!(model::read_rule(b"rule\t0\t1\nnot\t0\n", &mut space), Err(3));
    assert_eq!(space, [0; limits::RULE_NODES]);
    let accepted = Ok(RuleHeading { controller: 0, count: 3 });
    assert_eq!(read_rule("rule\t0\t3\natom\t0\natom\t1\nuntil\t1\t0\n"), accepted);
    let loops = rule(&[(NOT, 0, 0)]);
    assert_eq!(model::judge_local(0, 1, &loops.nodes, 1, 1, &[1], &[0]), Err(3));
}

#[test]
fn node_limit() {
    let text = |count: usize| format!("rule\t7\t{count}\n{}", "true\n".repeat(count));
    assert_eq!(read_rule(&text(64)), Ok(RuleHeading { controller: 7, count: 64 }));
    assert_eq!(read_rule(&text(65)), Err(2));
    let nodes = [0; 65];
    let mut space = [0; limits::RULE_TEXT];
    assert!(model::write_rule(0, 64, &nodes, &mut space).is_ok());
    assert_eq!(model::write_rule(0, 65, &nodes, &mut space), Err(2));
}

#[test]
fn state_limit() {
    let mut recording = recording_z();
    for (length, answer) in
        [(128, Ok(RecordingHeading { controllers: 1, states: 128 })), (129, Err(6))]
    {
        recording.length = length;
        recording.states = vec![0; length];
        assert_eq!(read_recording(&recording_text(&recording)), answer);
        let length =
            model::project(1, length, &[1], &recording.states, 0, &mut [0; limits::PLACES]);
        assert_eq!(length, answer.map(|_| 1));
    }
}

#[test]
fn atom_limit() {
    assert!(read_rule("rule\t0\t1\natom\t31\n").is_ok());
    assert_eq!(read_rule("rule\t0\t1\natom\t32\n"), Err(2));
}

#[test]
fn empty_rule_text() {
    assert_eq!(read_rule(""), Err(4));
}

/// The program's example, with a tab at each space.
fn example() -> Vec<u8> {
    let lines = [
        "rule 0 9",
        "atom 1",
        "not 0",
        "atom 0",
        "next 2",
        "or 1 3",
        "not 4",
        "true",
        "until 6 5",
        "not 7",
        "-",
        "recording 2 5",
        "owns 00000001",
        "owns 00000002",
        "at 01 00000002",
        "at 02 00000003",
        "at 01 00000001",
        "at 02 00000000",
        "at 00 00000002",
        "",
    ];
    lines.join("\n").replace(' ', "\t").into_bytes()
}

#[test]
fn program_example() {
    let output = "local 3\nown yes no\nplain 55 yes no\nshort 43 yes no\n".replace(' ', "\t");
    assert_eq!(model::program(&example()), output.into_bytes());
}

#[test]
fn opening_of_every_rewriting() {
    let opening = rule(&[
        (RUN, 0, 0),
        (NOT, 0, 0),
        (PREV, 1, 0),
        (END, 0, 0),
        (NOT, 3, 0),
        (OR, 2, 4),
        (NOT, 5, 0),
        (OR, 0, 6),
        (NOT, 7, 0),
        (PREV, 3, 0),
        (NOT, 9, 0),
    ]);
    for short in [false, true] {
        let table = rewritten(short, &rule(&[(TRUE, 0, 0)]), 0);
        assert_eq!(table.table[..11], opening.nodes);
        assert!(table.table[table.answer.count..].iter().all(|word| *word == 0));
    }
}

/// The rewriting of a rule for mask 1, written out by hand after the opening.
fn check_list(short: bool, rule: &str, after_opening: &str, weak_top: usize, strong_top: usize) {
    let nodes = listed(rule);
    let rule = RuleTable { controller: 0, count: nodes.len(), nodes };
    let RewrittenTable { answer, table } = rewritten(short, &rule, 1);
    let expected = listed(after_opening);
    assert_eq!(answer, Rewriting { count: 11 + expected.len(), weak_top, strong_top });
    assert_eq!(table[11..answer.count], expected);
}

#[test]
fn plain_node_list() {
    check_list(
        false,
        "atom 1; atom 0; next 0; prev 2; until 1 3; since 4 0; not 5; true; or 6 7",
        "atom 1; or 1 11; not 11; or 1 13; not 14; atom 0;
        or 8 12; not 17; until 8 18; not 19; next 20; not 15; or 8 22; not 23; until 8 24; next 25;
        not 21; or 1 27; not 28; since 1 29; prev 30; not 26; or 1 32; not 33; since 1 34; prev 35;
        or 8 16; not 31; or 8 38; not 39; or 40 9; until 37 41;
        or 8 16; not 36; or 8 44; not 45; until 43 46;
        or 8 42; not 12; or 8 49; not 50; since 48 51; or 8 47; not 15; or 8 54; not 55; since 53 56;
        not 57; not 52; true; or 58 60; or 59 60;
        or 8 61; not 63; until 8 64; not 65; not 62; or 8 67; not 68; until 8 69",
        66,
        70,
    );
}

#[test]
fn short_node_list() {
    check_list(
        true,
        "atom 0; next 0; until 0 1; not 2; until 3 0; next 1; or 4 2",
        "atom 0; next 11; or 3 12; next 11; not 14; or 3 15; not 16;
        or 8 11; not 13; or 8 19; not 20; or 21 9; until 18 22;
        or 8 11; not 17; or 8 25; not 26; until 24 27; not 28; not 23;
        or 9 11; until 29 31; not 11; or 9 33; not 34; until 30 35;
        or 8 13; not 37; until 8 38; not 39; next 40; not 17; or 8 42; not 43; until 8 44; next 45;
        or 32 23; or 36 28",
        47,
        48,
    );
}

/// The sum of the bracketed numbers of the plain rewriting.
fn plain_count(rule: &RuleTable, own: u32) -> usize {
    let of_node = |word: &u32| {
        let node = Node::of_word(*word);
        match node.kind {
            TRUE => 1,
            ATOM if own >> node.first & 1 == 1 => 1,
            ATOM => 5,
            NOT | OR => 2,
            UNTIL => 11,
            NEXT | PREV | SINCE => 10,
            _ => unreachable!(),
        }
    };
    11 + 8 + rule.nodes.iter().map(of_node).sum::<usize>()
}

/// Counts as bracketed, short never above plain, tables accepted by the judge.
fn check_rewritings(rule: &RuleTable, mask: u32, rows: &mut [u64]) {
    let z = recording_z();
    let plain = rewritten(false, rule, mask);
    let short = rewritten(true, rule, mask);
    assert_eq!(plain.answer.count, plain_count(rule, mask));
    assert!(short.answer.count <= plain.answer.count, "{rule:?}");
    judged(&plain, &z, 0, rows);
    judged(&short, &z, 0, rows);
}

#[test]
fn rewritten_tables_of_small_rules() {
    let mut rows = vec![0; limits::ROW_WORDS];
    exhaustive::each_rule(3, &mut |nodes| {
        let (count, nodes) = (nodes.len(), nodes.to_vec());
        let rule = RuleTable { controller: 0, count, nodes };
        (0..4).for_each(|mask| check_rewritings(&rule, mask, &mut rows));
    });
}

#[test]
fn rewritten_tables_of_random_rules() {
    let mut random = Random::new(1);
    let mut rows = vec![0; limits::ROW_WORDS];
    for _ in 0..3000 {
        let rule = rules::rule(&mut random, limits::RULE_NODES);
        let mask = random.word();
        check_rewritings(&rule, mask, &mut rows);
    }
}

/// Written and read again, a rule is the same table; read and written again,
/// a text is the same bytes.
fn check_round_trip(rule: &RuleTable) {
    let mut text = [1; limits::RULE_TEXT];
    let length = model::write_rule(rule.controller, rule.count, &rule.nodes, &mut text)
        .expect("the rule is accepted");
    assert_eq!(text[..length], rule_text(rule));
    assert!(text[length..].iter().all(|byte| *byte == 0));
    let mut nodes = [1; limits::RULE_NODES];
    let heading = model::read_rule(&text[..length], &mut nodes);
    assert_eq!(heading, Ok(RuleHeading { controller: rule.controller, count: rule.count }));
    assert_eq!(nodes[..rule.count], rule.nodes);
    assert!(nodes[rule.count..].iter().all(|word| *word == 0));
}

#[test]
fn round_trips_of_rules() {
    exhaustive::each_rule(3, &mut |nodes| {
        let (count, nodes) = (nodes.len(), nodes.to_vec());
        check_round_trip(&RuleTable { controller: count, count, nodes });
    });
    let mut random = Random::new(2);
    for _ in 0..5000 {
        check_round_trip(&rules::rule(&mut random, limits::RULE_NODES));
    }
}

#[test]
fn round_trips_of_recordings() {
    let mut random = Random::new(3);
    for _ in 0..3000 {
        let recording = recordings::recording(&mut random, limits::CONTROLLERS, limits::STATES);
        let mut masks = [1; limits::CONTROLLERS];
        let mut states = [1; limits::STATES];
        let answer = model::read_recording(&recording_text(&recording), &mut masks, &mut states);
        let RecordingTable { controllers, length, .. } = recording;
        assert_eq!(answer, Ok(RecordingHeading { controllers, states: length }));
        assert_eq!(masks[..controllers], recording.masks);
        assert_eq!(states[..length], recording.states);
    }
}

/// A local trace as demand 3 compares it: controller, own mask and places.
type LocalTrace = (usize, u32, Vec<u32>);

/// The local trace of a recording for a controller.
fn local_trace(recording: &RecordingTable, controller: usize) -> LocalTrace {
    let RecordingTable { controllers, length, masks, states } = recording;
    let mut places = [0; limits::PLACES];
    let count = model::project(*controllers, *length, masks, states, controller, &mut places)
        .expect("the recording is accepted");
    (controller, masks[controller], places[..count].to_vec())
}

/// Recordings gathered by the local trace that they have for a controller.
fn by_local_trace(states: usize) -> HashMap<LocalTrace, Vec<RecordingTable>> {
    let mut gathered: HashMap<LocalTrace, Vec<RecordingTable>> = HashMap::new();
    exhaustive::each_recording(2, states, &mut |recording| {
        for controller in 0..recording.controllers {
            let key = local_trace(recording, controller);
            gathered.entry(key).or_default().push(recording.clone());
        }
    });
    gathered
}

/// Demand 3 for one rule and all recordings of one local trace: every plain
/// and every short verdict pair equals the local one.
fn check_demand_3(rule: &RuleTable, own: u32, recordings: &[RecordingTable], rows: &mut [u64]) {
    let expected = local(rule, &recordings[0]);
    let tables = [rewritten(false, rule, own), rewritten(true, rule, own)];
    for recording in recordings {
        assert_eq!(expected, local(rule, recording), "{rule:?} {recording:?}");
        for table in &tables {
            let verdict = judged(table, recording, rule.controller, rows);
            assert_eq!(expected, verdict, "{rule:?} {recording:?}");
        }
    }
}

/// A rule of every controller with its rewritings for every mask of 2 atoms: the
/// plain one, then the short one where it is another.
struct SmallRule {
    nodes: Vec<u32>,
    tables: Vec<Vec<(Vec<Node>, Rewriting)>>,
}

impl SmallRule {
    fn new(nodes: Vec<u32>) -> SmallRule {
        let rule = small_rule(&nodes, 0);
        let table = |short, own| {
            let RewrittenTable { answer, table } = rewritten(short, &rule, own);
            let words = table[..answer.count].iter();
            (words.map(|word| Node::of_word(*word)).collect(), answer)
        };
        let both = |own| {
            let mut tables = vec![table(false, own), table(true, own)];
            tables.dedup();
            tables
        };
        let tables = (0..4).map(both).collect();
        SmallRule { nodes, tables }
    }
}

/// The rule of these nodes for a controller.
fn small_rule(nodes: &[u32], controller: usize) -> RuleTable {
    RuleTable { controller, count: nodes.len(), nodes: nodes.to_vec() }
}

/// Demand 3 for all rules of at most `nodes` nodes and all recordings of at
/// most 2 controllers and `states` states. The operations themselves are
/// called for the first recording of each local trace, what they answer from
/// is compared for all.
fn exhaust_demand_3(nodes: usize, states: usize) {
    let mut rows = vec![0; limits::ROW_WORDS];
    let rules: Vec<SmallRule> = exhaustive::rules(nodes).into_iter().map(SmallRule::new).collect();
    let mut compared = 0;
    for ((controller, own, _), recordings) in by_local_trace(states) {
        let read: Vec<Recording> = recordings.iter().map(accepted).collect();
        for rule in &rules {
            let table = small_rule(&rule.nodes, controller);
            check_demand_3(&table, own, &recordings[..1], &mut rows);
            let expected = local(&table, &recordings[0]);
            for recording in &read {
                for rewritten in &rule.tables[own as usize] {
                    assert_eq!(expected, read_at_tops(rewritten, recording, controller));
                }
            }
            compared += read.len();
        }
    }
    println!("{compared} pairs of a rule and a recording of up to {states} states");
}

/// The recording that accepted tables are.
fn accepted(recording: &RecordingTable) -> Recording {
    let RecordingTable { controllers, length, masks, states } = recording;
    check_recording(*controllers, *length, masks, states).expect("the recording is accepted")
}

/// The verdicts of a rewritten table.
fn read_at_tops(
    rewritten: &(Vec<Node>, Rewriting),
    recording: &Recording,
    controller: usize,
) -> Verdict {
    let (nodes, answer) = rewritten;
    let readings = whole_readings(nodes, recording, controller);
    Verdict {
        weak: readings.at(answer.weak_top, Reading::Weak, 0),
        strong: readings.at(answer.strong_top, Reading::Strong, 0),
    }
}

#[test]
fn demand_3_for_every_rule_of_2_nodes_and_recording_of_4_states() {
    exhaust_demand_3(2, 4);
}

#[test]
fn demand_3_for_every_rule_of_3_nodes_and_recording_of_3_states() {
    exhaust_demand_3(3, 3);
}

#[test]
fn demand_3_for_random_rules_and_schedules() {
    let mut random = Random::new(4);
    let mut rows = vec![0; limits::ROW_WORDS];
    let mut verdicts = HashMap::new();
    for _ in 0..1500 {
        let one = recordings::recording(&mut random, limits::CONTROLLERS, limits::STATES);
        let controller = random.below(one.controllers);
        let other = recordings::rescheduled(&mut random, &one, controller);
        assert_eq!(local_trace(&one, controller), local_trace(&other, controller));
        let rule = rules::rule_for(&mut random, controller, limits::RULE_NODES);
        let own = one.masks[controller];
        let verdict = local(&rule, &one);
        check_demand_3(&rule, own, &[one, other], &mut rows);
        *verdicts.entry((verdict.weak, verdict.strong)).or_insert(0) += 1;
    }
    println!("verdicts {verdicts:?}");
    assert!(verdicts.len() >= 3);
}

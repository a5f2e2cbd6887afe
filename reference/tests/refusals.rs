//! "Where a refusal is met", case by case, the refused lines of the joint
//! reading, and what every operation leaves in lent space.

use reference::generate::lent;
use reference::generate::random::Random;
use reference::generate::recordings::{self, RecordingTable};
use reference::generate::rules::{self, JudgeTable, RuleTable};
use reference::generate::texts;
use reference::model::{self, limits, Part, Source};

/// The joint reading's number and the refused line.
fn joint(rule: &[u8], recording: &[u8]) -> (u32, Source, usize, Vec<u8>) {
    let mut nodes = [1; limits::RULE_NODES];
    let mut masks = [1; limits::CONTROLLERS];
    let mut states = [1; limits::STATES];
    let mut heading = [1; 5];
    let part =
        model::read_joint(rule, recording, &mut nodes, &mut masks, &mut states, &mut heading);
    let Part { source, start, length } = part;
    let text = if source == Source::Rule { rule } else { recording };
    if heading[0] != 0 {
        assert_eq!(heading[1..], [0; 4]);
        assert!(nodes.iter().chain(&masks).all(|word| *word == 0));
        assert!(states.iter().all(|word| *word == 0));
    }
    (heading[0], source, start, text[start..start + length].to_vec())
}

/// An accepted recording text.
const RECORDING: &[u8] = b"recording\t2\t3\nowns\t00000001\nowns\t00000002\n\
    at\t01\t00000000\nat\t00\t00000001\nat\t00\t00000001\n";
/// An accepted rule text of controller 1.
const RULE: &[u8] = b"rule\t1\t2\natom\t31\nnext\t0\n";

/// A text, its number, the start of the refused line and its bytes.
type TextCase = (&'static [u8], u32, usize, &'static [u8]);

/// Refused rule texts: text, number, start of the refused line, its bytes.
const RULE_TEXTS: &[TextCase] = &[
    (b"", 4, 0, b""),
    (b"rule\t0\t1", 1, 0, b"rule\t0\t1"),
    (b"\n", 1, 0, b""),
    (b"rule\t0\t1\n", 4, 9, b""),
    (b"rule\t0\t1\ntrue", 1, 9, b"true"),
    (b"rule\t0\t1\ntrue\n\n", 4, 14, b""),
    (b"rule\t0\t1\ntrue\nnot\t0\nnot\t0\n", 4, 14, b"not\t0"),
    (b"rule\t0\t1\ntrue\nnot", 4, 14, b"not"),
    (b"rule\t11\t1\n", 2, 0, b"rule\t11\t1"),
    (b"rule\t0\t0\n", 2, 0, b"rule\t0\t0"),
    (b"rule\t0\t65\n", 2, 0, b"rule\t0\t65"),
    (b"rule\t0\t99999999999999999999\n", 2, 0, b"rule\t0\t99999999999999999999"),
    (b"rule\t0\t18446744073709551617\n", 2, 0, b"rule\t0\t18446744073709551617"),
    (b"rule\t11\t01\n", 1, 0, b"rule\t11\t01"),
    (b"rule\t00\t1\n", 1, 0, b"rule\t00\t1"),
    (b"rule\t0\t1\t\n", 1, 0, b"rule\t0\t1\t"),
    (b"rules\t0\t1\n", 1, 0, b"rules\t0\t1"),
    (b"rule\t0\t1\r\n", 4, 10, b""),
    (b"rule\t0\t1\r\r\n", 1, 0, b"rule\t0\t1\r"),
    (b"rule\t0\t1\ntrue\t\n", 1, 9, b"true\t"),
    (b"rule\t0\t1\ntrue\t0\n", 1, 9, b"true\t0"),
    (b"rule\t0\t1\nTrue\n", 1, 9, b"True"),
    (b"rule\t0\t1\natom\n", 1, 9, b"atom"),
    (b"rule\t0\t1\natom\t\n", 1, 9, b"atom\t"),
    (b"rule\t0\t1\natom\t007\n", 1, 9, b"atom\t007"),
    (b"rule\t0\t1\natom\t32\n", 2, 9, b"atom\t32"),
    (b"rule\t0\t1\natom\t4294967296\n", 2, 9, b"atom\t4294967296"),
    (b"rule\t0\t1\nrun\n", 2, 9, b"run"),
    (b"rule\t0\t1\nend\n", 2, 9, b"end"),
    (b"rule\t0\t1\nrun\t0\n", 1, 9, b"run\t0"),
    (b"rule\t0\t1\nend\t\n", 1, 9, b"end\t"),
    (b"rule\t0\t1\nfoo\n", 2, 9, b"foo"),
    (b"rule\t0\t1\nfoo\t\n", 2, 9, b"foo\t"),
    (b"rule\t0\t1\nfoo\t\0\xff\t\t 01\n", 2, 9, b"foo\t\0\xff\t\t 01"),
    (b"rule\t0\t1\nfoo\t1\r\n", 2, 9, b"foo\t1"),
    (b"rule\t0\t1\nfoo\t1\r\r\n", 1, 9, b"foo\t1\r"),
    (b"rule\t0\t1\nfoo\t\r1\n", 1, 9, b"foo\t\r1"),
    (b"rule\t0\t1\nfoo\r\n", 2, 9, b"foo"),
    (b"rule\t0\t1\nfoo\r\r\n", 1, 9, b"foo\r"),
    (b"rule\t0\t1\nfoo 1\n", 1, 9, b"foo 1"),
    (b"rule\t0\t1\nfoo1\n", 1, 9, b"foo1"),
    (b"rule\t0\t1\n\t\n", 1, 9, b"\t"),
    (b"rule\t0\t1\nfoo", 1, 9, b"foo"),
    (b"rule\t0\t1\nnot\t0\n", 3, 9, b"not\t0"),
    (b"rule\t0\t1\nnot\t0\t0\n", 1, 9, b"not\t0\t0"),
    (b"rule\t0\t2\ntrue\nor\t0\t1\n", 3, 14, b"or\t0\t1"),
    (
        b"rule\t0\t2\ntrue\nsince\t99999999999999999999\t0\n",
        3,
        14,
        b"since\t99999999999999999999\t0",
    ),
    (b"rule\t0\t2\ntrue\nuntil\t9\t00\n", 1, 14, b"until\t9\t00"),
    (b"rule\t0\t2\nnot\t0\nfoo\n", 3, 9, b"not\t0"),
];

/// Refused rule texts: text, number, start of the refused line, its bytes.
#[test]
fn refused_rule_texts() {
    for (text, number, start, line) in RULE_TEXTS {
        let expected = (*number, Source::Rule, *start, line.to_vec());
        assert_eq!(joint(text, b"x"), expected, "{:?}", String::from_utf8_lossy(text));
        let alone = model::read_rule(text, &mut [1; limits::RULE_NODES]);
        assert_eq!(alone, Err(*number as u8));
    }
}

/// Refused recording texts, after an accepted rule.
const RECORDING_TEXTS: &[TextCase] = &[
    (b"", 8, 0, b""),
    (b"recording\t1\t1", 5, 0, b"recording\t1\t1"),
    (b"recording\t0\t1\n", 6, 0, b"recording\t0\t1"),
    (b"recording\t12\t1\n", 6, 0, b"recording\t12\t1"),
    (b"recording\t1\t0\n", 6, 0, b"recording\t1\t0"),
    (b"recording\t1\t129\n", 6, 0, b"recording\t1\t129"),
    (b"recording\t1\t99999999999999999999\n", 6, 0, b"recording\t1\t99999999999999999999"),
    (b"recording\t12\t01\n", 5, 0, b"recording\t12\t01"),
    (b"recording\t1\n", 5, 0, b"recording\t1"),
    (b"recording\t1\t1\n", 8, 14, b""),
    (b"recording\t1\t1\nowns\t0000000A\n", 5, 14, b"owns\t0000000A"),
    (b"recording\t1\t1\nowns\t000000001\n", 5, 14, b"owns\t000000001"),
    (b"recording\t1\t1\nowns\t0\n", 5, 14, b"owns\t0"),
    (b"recording\t1\t1\nat\t00\t00000000\n", 5, 14, b"at\t00\t00000000"),
    (b"recording\t2\t1\nowns\t00000003\nowns\t00000002\n", 7, 28, b"owns\t00000002"),
    (b"recording\t1\t1\nowns\t00000001\n", 8, 28, b""),
    (b"recording\t1\t1\nowns\t00000001\nat\t02\t00000000\n", 6, 28, b"at\t02\t00000000"),
    (b"recording\t1\t1\nowns\t00000001\nat\t1\t00000000\n", 5, 28, b"at\t1\t00000000"),
    (b"recording\t1\t1\nowns\t00000001\nat\t00\t00000000", 5, 28, b"at\t00\t00000000"),
    (b"recording\t1\t1\nowns\t00000001\nat\t00\t00000000\n\n\n", 8, 43, b""),
    (b"recording\t1\t1\nowns\t00000001\nat\t00\t00000000\nx", 8, 43, b"x"),
    (
        b"recording\t1\t2\nowns\t00000001\nat\t00\t00000000\nat\t01\t00000001\n",
        10,
        43,
        b"at\t01\t00000001",
    ),
    (
        b"recording\t1\t2\nowns\t00000001\nat\t00\t00000000\nat\t02\t00000001\n",
        6,
        43,
        b"at\t02\t00000001",
    ),
];

/// Refused recording texts, after an accepted rule.
#[test]
fn refused_recording_texts() {
    for (text, number, start, line) in RECORDING_TEXTS {
        let expected = (*number, Source::Recording, *start, line.to_vec());
        assert_eq!(joint(RULE, text), expected, "{:?}", String::from_utf8_lossy(text));
        let (masks, states) = (&mut [1; limits::CONTROLLERS], &mut [1; limits::STATES]);
        assert_eq!(model::read_recording(text, masks, states), Err(*number as u8));
    }
}

#[test]
fn joint_acceptance_and_joining() {
    assert_eq!(joint(RULE, RECORDING), (0, Source::Recording, RECORDING.len(), vec![]));
    let line = b"rule\t2\t1".to_vec();
    assert_eq!(joint(b"rule\t2\t1\ntrue\n", RECORDING), (11, Source::Rule, 0, line));
    assert_eq!(joint(b"x", b"y"), (1, Source::Rule, 0, b"x".to_vec()));
}

#[test]
fn joint_lent_space() {
    for (n, m, s) in [(63, 11, 128), (64, 10, 128), (64, 11, 127)] {
        let (mut nodes, mut masks, mut states) = (vec![7; n], vec![7; m], vec![7; s]);
        let mut heading = [1; 5];
        let part = model::read_joint(b"x", b"y", &mut nodes, &mut masks, &mut states, &mut heading);
        assert_eq!(part, Part { source: Source::Rule, start: 0, length: 0 });
        assert_eq!(heading, [13, 0, 0, 0, 0]);
        assert!(nodes.iter().chain(&masks).all(|word| *word == 7));
        assert!(states.iter().all(|word| *word == 7));
    }
}

/// Refused rules as tables: controller, count, nodes, number.
#[test]
fn refused_rule_tables() {
    let word = |kind: u32, first: u32, second: u32| kind + 256 * first + 1048576 * second;
    let cases: &[(usize, usize, Vec<u32>, u8)] = &[
        (11, 1, vec![0], 2),
        (0, 0, vec![0], 2),
        (0, 65, vec![0; 65], 2),
        (0, usize::MAX, vec![0], 2),
        (0, 1, vec![word(10, 0, 0)], 2),
        (0, 1, vec![word(8, 0, 0)], 2),
        (0, 1, vec![word(9, 0, 0)], 2),
        (0, 1, vec![word(0, 1, 0)], 2),
        (0, 1, vec![word(0, 0, 1)], 2),
        (0, 1, vec![word(1, 32, 0)], 2),
        (0, 1, vec![word(1, 0, 1)], 2),
        (0, 1, vec![word(2, 0, 1)], 2),
        (0, 1, vec![word(2, 0, 0)], 3),
        (0, 2, vec![0, word(3, 0, 1)], 3),
        (0, 2, vec![0, word(7, 1, 0)], 3),
        (0, 2, vec![0], 4),
        (0, 2, vec![word(2, 0, 0)], 3),
        (0, 1, vec![], 4),
    ];
    for (controller, count, nodes, number) in cases {
        let mut text = [1; limits::RULE_TEXT + 1];
        assert_eq!(model::write_rule(*controller, *count, nodes, &mut text), Err(*number));
        assert_eq!(text[..limits::RULE_TEXT], [0; limits::RULE_TEXT]);
        assert_eq!(text[limits::RULE_TEXT], 1);
        let mut table = [1; limits::TABLE_NODES];
        for short in [false, true] {
            let answer = model::rewrite(short, *controller, *count, nodes, 0, &mut table);
            assert_eq!(answer, Err(*number));
        }
        let judged = model::judge_local(*controller, *count, nodes, 0, 0, &[], &[]);
        assert_eq!(judged, Err(*number));
    }
}

/// Refused recordings as tables: C, N, masks, states, c, number.
#[test]
fn refused_recording_tables() {
    let state = |runs: u64, atoms: u64| (runs << 32) + atoms;
    type Case = (usize, usize, Vec<u32>, Vec<u64>, usize, u8);
    let cases: &[Case] = &[
        (0, 1, vec![], vec![0], 0, 6),
        (12, 1, vec![0; 12], vec![0], 0, 6),
        (1, 0, vec![0], vec![], 0, 6),
        (1, 129, vec![0], vec![0; 129], 0, 6),
        (usize::MAX, usize::MAX, vec![], vec![], 0, 6),
        (2, 1, vec![1, 3], vec![state(4, 0)], 0, 7),
        (1, 2, vec![1, 1], vec![state(2, 0), 0], 0, 6),
        (1, 1, vec![1], vec![state(1 << 31, 0)], 0, 6),
        (1, 2, vec![1], vec![0, 1], 0, 10),
        (1, 2, vec![1], vec![0, state(1, 1)], 0, 10),
        (1, 2, vec![1], vec![0, state(2, 0)], 0, 6),
        (1, 3, vec![1], vec![0, state(1, 0)], 0, 8),
        (2, 2, vec![1], vec![0, 2], 0, 8),
        (2, 2, vec![1], vec![0, 1], 0, 10),
        (2, 2, vec![], vec![0, 1], 0, 8),
        (2, 2, vec![1], vec![0, state(1, 0)], 0, 8),
        (1, 1, vec![1], vec![0], 1, 11),
        (1, 1, vec![1], vec![], 1, 8),
    ];
    for (controllers, length, masks, states, c, number) in cases {
        let mut places = [1; limits::PLACES];
        let answer = model::project(*controllers, *length, masks, states, *c, &mut places);
        assert_eq!(answer, Err(*number), "{masks:?} {states:?}");
        assert_eq!(places, [0; limits::PLACES]);
        let answer = model::judge_local(*c, 1, &[0], *controllers, *length, masks, states);
        assert_eq!(answer, Err(*number));
    }
}

#[test]
fn order_of_the_whole_judge() {
    let mut rows = vec![1; limits::ROW_WORDS];
    let mut judge = |count, nodes: &[u32], weak, strong, length, c| {
        model::judge_recording(count, nodes, weak, strong, 1, length, &[1], &[0], c, &mut rows)
    };
    assert_eq!(judge(1025, &[0; 1025], 0, 0, 1, 0), Err(2));
    assert_eq!(judge(1, &[2], 1, 1, 1, 0), Err(3));
    assert_eq!(judge(2, &[8], 9, 9, 1, 0), Err(4));
    assert_eq!(judge(1, &[8], 1, 0, 1, 0), Err(2));
    assert_eq!(judge(1, &[8], 0, 1, 1, 0), Err(2));
    assert_eq!(judge(2, &[8, 9], 2, 0, 0, 0), Err(2));
    assert_eq!(judge(2, &[8, 9], 0, usize::MAX, 0, 0), Err(2));
    assert_eq!(judge(2, &[8, 9], 0, 1, 0, 1), Err(6));
    assert_eq!(judge(2, &[8, 9], 0, 1, 2, 1), Err(8));
    assert_eq!(judge(2, &[8, 9], 0, 1, 1, 1), Err(11));
    assert_eq!(judge(1, &[8 + 256], 0, 1, 1, 1), Err(2));
    assert!(judge(1024, &[8; 1024], 0, 1023, 1, 0).is_ok());
    let mut short = vec![1; limits::ROW_WORDS - 1];
    let answer = model::judge_recording(0, &[], 0, 0, 0, 0, &[], &[], 0, &mut short);
    assert_eq!(answer, Err(13));
    assert!(short.iter().all(|word| *word == 1));
}

/// Rows of `run`, `end`, an atom, next and not over R's first states.
#[test]
fn rows_of_a_small_table() {
    let states = [(1 << 32) + 2, 1, 1];
    let nodes = [8, 9, 1 + 256, 4, 2 + 3 * 256];
    let mut rows = vec![7; limits::ROW_WORDS + 1];
    let answer = model::judge_recording(5, &nodes, 3, 4, 1, 3, &[1], &states, 0, &mut rows);
    assert_eq!(answer, Ok(model::Verdict { weak: false, strong: true }));
    let expected = [
        [0b001, 0, 3, 0b001, 0, 3],
        [0b110, 0, 3, 0b110, 0, 3],
        [0b001, 0, 3, 0b001, 0, 3],
        [0b100, 0, 3, 0b000, 0, 3],
        [0b111, 0, 3, 0b011, 0, 3],
    ];
    assert_eq!(rows[..30], expected.concat());
    assert!(rows[30..limits::ROW_WORDS].iter().all(|word| *word == 0));
    assert_eq!(rows[limits::ROW_WORDS], 7);
}

#[test]
fn program_refusals() {
    let print = |input: &[u8]| String::from_utf8_lossy(&model::program(input)).into_owned();
    assert_eq!(print(b""), "refused\t4\t\n");
    assert_eq!(print(b"-\n"), "refused\t4\t\n");
    assert_eq!(print(b"rule\t0\t1\ntrue\n"), "refused\t8\t\n");
    assert_eq!(print(b"rule\t0\t1\ntrue\n-\n"), "refused\t8\t\n");
    assert_eq!(print(b"rule\t0\t1\ntrue\n-"), "refused\t4\t-\n");
    assert_eq!(print(b"rule\t0\t1\ntrue\n-\n-\n"), "refused\t5\t-\n");
    assert_eq!(print(b"rule\t0\t1\ntrue -\n-\n"), "refused\t1\ttrue -\n");
    assert_eq!(print(&[b'-'; 16385]), "refused\t14\t\n");
    assert_eq!(print(&[b'\n'; 16384]), "refused\t1\t\n");
    let joining = [b"rule\t2\t1\ntrue\n-\n", RECORDING].concat();
    assert_eq!(print(&joining), "refused\t11\trule\t2\t1\n");
    let odd = model::program(b"rule\t0\t1\n\xff\0\n");
    assert_eq!(odd, b"refused\t1\t\xff\0\n");
}

/// What lent space holds after an operation, given what it held before;
/// `short` says whether any of what was lent is shorter than its full size.
fn check_lent<T: Copy + Default + PartialEq + std::fmt::Debug>(
    before: &[T],
    after: &[T],
    full: usize,
    refusal: Option<u8>,
    short: bool,
    content: usize,
) {
    assert_eq!(refusal == Some(13), short);
    if short {
        assert_eq!(before, after);
        return;
    }
    let zero_from = if refusal.is_some() { 0 } else { content };
    assert!(after[zero_from..full].iter().all(|entry| *entry == T::default()));
    assert_eq!(before[full..], after[full..]);
}

/// Lent words of some length around a full size, before and after.
fn lend(random: &mut Random, full: usize) -> (Vec<u32>, Vec<u32>) {
    let length = lent::length(random, full);
    let before = lent::words(random, length);
    (before.clone(), before)
}

/// Lent long words, likewise.
fn lend_long(random: &mut Random, full: usize) -> (Vec<u64>, Vec<u64>) {
    let length = lent::length(random, full);
    let before = lent::long_words(random, length);
    (before.clone(), before)
}

#[test]
fn lent_space_of_reading_a_rule() {
    let mut random = Random::new(11);
    for _ in 0..4000 {
        let text = texts::any_rule_text(&mut random, 20);
        let (before, mut after) = lend(&mut random, limits::RULE_NODES);
        let answer = model::read_rule(&text, &mut after);
        let count = answer.map_or(0, |heading| heading.count);
        let short = before.len() < limits::RULE_NODES;
        check_lent(&before, &after, limits::RULE_NODES, answer.err(), short, count);
    }
}

#[test]
fn lent_space_of_writing_and_rewriting() {
    let mut random = Random::new(12);
    for _ in 0..4000 {
        let RuleTable { controller, count, nodes } = rules::any_rule(&mut random, 20);
        let length = lent::length(&mut random, limits::RULE_TEXT);
        let before = lent::bytes(&mut random, length);
        let mut after = before.clone();
        let answer = model::write_rule(controller, count, &nodes, &mut after);
        let (full, short) = (limits::RULE_TEXT, length < limits::RULE_TEXT);
        check_lent(&before, &after, full, answer.err(), short, answer.unwrap_or(0));

        let (before, mut after) = lend(&mut random, limits::TABLE_NODES);
        let (short, mask) = (random.once_in(2), random.word());
        let answer = model::rewrite(short, controller, count, &nodes, mask, &mut after);
        let count = answer.map_or(0, |rewriting| rewriting.count);
        let short = before.len() < limits::TABLE_NODES;
        check_lent(&before, &after, limits::TABLE_NODES, answer.err(), short, count);
    }
}

#[test]
fn lent_space_of_reading_a_recording() {
    let mut random = Random::new(13);
    for _ in 0..4000 {
        let text = texts::any_recording_text(&mut random, 8, 20);
        let (masks_before, mut masks) = lend(&mut random, limits::CONTROLLERS);
        let (states_before, mut states) = lend_long(&mut random, limits::STATES);
        let short = masks.len() < limits::CONTROLLERS || states.len() < limits::STATES;
        let answer = model::read_recording(&text, &mut masks, &mut states);
        let (c, n) = answer.map_or((0, 0), |heading| (heading.controllers, heading.states));
        check_lent(&masks_before, &masks, limits::CONTROLLERS, answer.err(), short, c);
        check_lent(&states_before, &states, limits::STATES, answer.err(), short, n);
    }
}

#[test]
fn lent_space_of_the_joint_reading() {
    let mut random = Random::new(14);
    for _ in 0..4000 {
        let (rule, recording) = texts::any_pair(&mut random);
        let (nodes_before, mut nodes) = lend(&mut random, limits::RULE_NODES);
        let (masks_before, mut masks) = lend(&mut random, limits::CONTROLLERS);
        let (states_before, mut states) = lend_long(&mut random, limits::STATES);
        let short = nodes.len() < limits::RULE_NODES
            || masks.len() < limits::CONTROLLERS
            || states.len() < limits::STATES;
        let mut heading = [1; 5];
        model::read_joint(&rule, &recording, &mut nodes, &mut masks, &mut states, &mut heading);
        let refusal = (heading[0] != 0).then_some(heading[0] as u8);
        let [_, _, count, c, n] = heading.map(|value| value as usize);
        check_lent(&nodes_before, &nodes, limits::RULE_NODES, refusal, short, count);
        check_lent(&masks_before, &masks, limits::CONTROLLERS, refusal, short, c);
        check_lent(&states_before, &states, limits::STATES, refusal, short, n);
    }
}

#[test]
fn lent_space_of_projection() {
    let mut random = Random::new(15);
    for _ in 0..4000 {
        let RecordingTable { controllers, length, masks, states } =
            recordings::any_recording(&mut random, 8, 20);
        let (before, mut after) = lend(&mut random, limits::PLACES);
        let c = random.below(4);
        let answer = model::project(controllers, length, &masks, &states, c, &mut after);
        let short = before.len() < limits::PLACES;
        check_lent(&before, &after, limits::PLACES, answer.err(), short, answer.unwrap_or(0));
    }
}

#[test]
fn lent_space_of_the_whole_judge() {
    let mut random = Random::new(16);
    for _ in 0..1000 {
        let RecordingTable { controllers: cs, length, masks, states } =
            recordings::any_recording(&mut random, 8, 20);
        let JudgeTable { count, nodes, weak_top, strong_top } = rules::any_table(&mut random, 30);
        let (before, mut after) = lend_long(&mut random, limits::ROW_WORDS);
        let (c, rows) = (random.below(4), &mut after);
        let answer = model::judge_recording(
            count, &nodes, weak_top, strong_top, cs, length, &masks, &states, c, rows,
        );
        let short = before.len() < limits::ROW_WORDS;
        let content = 6 * count.min(limits::TABLE_NODES);
        check_lent(&before, &after, limits::ROW_WORDS, answer.err(), short, content);
    }
}

//! "Lines from the other system": a line ends in byte 10, or in bytes 13 and
//! 10, line by line; a byte 13 anywhere else makes it malformed.

use reference::generate::endings::{mixed_endings, plain_endings, with_returns};
use reference::generate::random::Random;
use reference::generate::recordings;
use reference::generate::rules;
use reference::generate::texts::{self, program_input, recording_text, rule_text};
use reference::model::{self, limits, Source};

/// An accepted rule text of controller 1.
const RULE: &[u8] = b"rule\t1\t2\natom\t31\nnext\t0\n";
/// An accepted recording text.
const RECORDING: &[u8] = b"recording\t2\t2\nowns\t00000001\nowns\t00000002\n\
    at\t01\t00000000\nat\t00\t00000001\n";
/// What the program prints of the two.
const OUTPUT: &[u8] = b"local\t1\nown\tyes\tno\nplain\t34\tyes\tno\nshort\t34\tyes\tno\n";

/// What the joint reading answers, the refused line by its bytes, and what it
/// leaves.
#[derive(PartialEq, Eq, Debug)]
struct Joint {
    heading: [u32; 5],
    source: Source,
    line: Vec<u8>,
    nodes: Vec<u32>,
    masks: Vec<u32>,
    states: Vec<u64>,
}

/// The joint reading of two texts.
fn joint(rule: &[u8], recording: &[u8]) -> Joint {
    let mut nodes = vec![1; limits::RULE_NODES];
    let mut masks = vec![1; limits::CONTROLLERS];
    let mut states = vec![1; limits::STATES];
    let mut heading = [1; 5];
    let part =
        model::read_joint(rule, recording, &mut nodes, &mut masks, &mut states, &mut heading);
    let text = if part.source == Source::Rule { rule } else { recording };
    let line = text[part.start..part.start + part.length].to_vec();
    Joint { heading, source: part.source, line, nodes, masks, states }
}

/// The number and the refused line of a rule text.
fn rule_refused(text: &[u8]) -> (u32, Vec<u8>) {
    let Joint { heading, source, line, .. } = joint(text, RECORDING);
    assert_eq!(source, Source::Rule);
    (heading[0], line)
}

/// The number and the refused line of a recording text.
fn recording_refused(text: &[u8]) -> (u32, Vec<u8>) {
    let Joint { heading, source, line, .. } = joint(RULE, text);
    assert_eq!(source, Source::Recording);
    (heading[0], line)
}

#[test]
fn either_ending_is_taken_line_by_line() {
    let plain = joint(RULE, RECORDING);
    assert_eq!(plain.heading, [0, 1, 2, 2, 2]);
    for choice in 0..1 << 8 {
        let rule = with_returns(RULE, |line| choice >> line & 1 == 1);
        let recording = with_returns(RECORDING, |line| choice >> (3 + line) & 1 == 1);
        assert_eq!(joint(&rule, &recording), plain);
        assert_eq!(model::program(&program_input(&rule, &recording)), OUTPUT);
    }
}

#[test]
fn two_returns_are_one_too_many() {
    assert_eq!(rule_refused(b"rule\t0\t1\r\ntrue\r\r\n"), (1, b"true\r".to_vec()));
    assert_eq!(rule_refused(b"rule\t0\t1\r\r\ntrue\n"), (1, b"rule\t0\t1\r".to_vec()));
    let line = b"at\t00\t00000000\r".to_vec();
    let recording = [b"recording\t1\t1\nowns\t00000001\n", &line[..], b"\r\n"].concat();
    assert_eq!(recording_refused(&recording), (5, line));
}

#[test]
fn an_unclosed_line_keeps_its_return() {
    assert_eq!(rule_refused(b"rule\t0\t1\r\ntrue\r"), (1, b"true\r".to_vec()));
    assert_eq!(rule_refused(b"rule\t0\t1\r"), (1, b"rule\t0\t1\r".to_vec()));
    assert_eq!(rule_refused(b"\r"), (1, b"\r".to_vec()));
    assert_eq!(recording_refused(b"recording\t1\t1\r"), (5, b"recording\t1\t1\r".to_vec()));
    // Bytes 13 alone close no line: all of it is one that isn't closed.
    assert_eq!(rule_refused(b"rule\t0\t1\rtrue\r"), (1, b"rule\t0\t1\rtrue\r".to_vec()));
}

#[test]
fn a_line_too_many_is_handed_back_without_its_ending() {
    for (number, text) in [(4, RULE), (8, RECORDING)] {
        let refused = if number == 4 { rule_refused } else { recording_refused };
        for text in [text.to_vec(), with_returns(text, |_| true)] {
            let after = |extra: &[u8]| refused(&[&text, extra].concat());
            assert_eq!(after(b"x\r\n"), (number, b"x".to_vec()));
            assert_eq!(after(b"x\r"), (number, b"x\r".to_vec()));
            assert_eq!(after(b"x\r\r\n"), (number, b"x\r".to_vec()));
            assert_eq!(after(b"\r\nx\n"), (number, vec![]));
            assert_eq!(after(b"\r"), (number, b"\r".to_vec()));
        }
    }
}

#[test]
fn a_missing_line_is_the_empty_end() {
    assert_eq!(rule_refused(b"rule\t0\t1\r\n"), (4, vec![]));
    assert_eq!(recording_refused(b"recording\t1\t1\r\nowns\t00000001\r\n"), (8, vec![]));
    assert_eq!(rule_refused(b"\r\n"), (1, vec![]));
}

#[test]
fn an_unknown_word_before_either_ending() {
    let refused = |line: &[u8]| rule_refused(&[b"rule\t0\t1\n", line].concat());
    assert_eq!(refused(b"foo\t1\r\n"), (2, b"foo\t1".to_vec()));
    assert_eq!(refused(b"foo\t1\r\r\n"), (1, b"foo\t1\r".to_vec()));
    assert_eq!(refused(b"foo\t\r1\r\n"), (1, b"foo\t\r1".to_vec()));
    assert_eq!(refused(b"foo\r\n"), (2, b"foo".to_vec()));
    assert_eq!(refused(b"run\r\n"), (2, b"run".to_vec()));
}

#[test]
fn joining_hands_back_the_first_line_without_its_ending() {
    let found = joint(b"rule\t2\t1\r\ntrue\n", RECORDING);
    assert_eq!((found.heading[0], found.source), (11, Source::Rule));
    assert_eq!(found.line, b"rule\t2\t1");
}

/// The bounds of a line in a text, by a place in it.
fn line_around(text: &[u8], at: usize) -> (usize, usize) {
    let start = text[..at].iter().rposition(|byte| *byte == 10).map_or(0, |before| before + 1);
    let end = at + text[at..].iter().position(|byte| *byte == 10).expect("closed");
    (start, end)
}

#[test]
fn a_return_anywhere_else_makes_its_line_malformed() {
    for returns in [false, true] {
        for (number, text) in [(1, RULE), (5, RECORDING)] {
            let refused = if number == 1 { rule_refused } else { recording_refused };
            let text = with_returns(text, |_| returns);
            for at in 0..text.len() {
                let put = [&text[..at], b"\r", &text[at..]].concat();
                let (start, end) = line_around(&put, at);
                let only_ending = at + 1 == end && !text[..at].ends_with(b"\r");
                if only_ending {
                    assert_eq!(plain_endings(&put), plain_endings(&text));
                    continue;
                }
                let line = put[start..end].strip_suffix(b"\r").unwrap_or(&put[start..end]);
                assert_eq!(refused(&put), (number, line.to_vec()), "{}", put.escape_ascii());
            }
        }
    }
}

#[test]
fn the_program_splits_at_either_ending() {
    let parted = |line: &[u8]| model::program(&[RULE, line, RECORDING].concat());
    assert_eq!(parted(b"-\n"), OUTPUT);
    assert_eq!(parted(b"-\r\n"), OUTPUT);
    assert_eq!(parted(b"-\r\r\n"), b"refused\t4\t-\r\n");
    assert_eq!(parted(b"-\r"), b"refused\t4\t-\rrecording\t2\t2\n");
    assert_eq!(parted(b"\r\n-\r\n"), b"refused\t4\t\n");
    assert_eq!(model::program(&[RULE, b"-\r"].concat()), b"refused\t4\t-\r\n");
    assert_eq!(model::program(&[RULE, b"-\r\n"].concat()), b"refused\t8\t\n");
    // The first such line, of either ending, is the one.
    assert_eq!(parted(b"-\r\n-\n"), b"refused\t5\t-\n");
    assert_eq!(parted(b"-\n-\r\n"), b"refused\t5\t-\n");
}

#[test]
fn the_example_with_either_ending() {
    let example =
        "rule 0 9\natom 1\nnot 0\natom 0\nnext 2\nor 1 3\nnot 4\ntrue\nuntil 6 5\nnot 7\n\
        -\nrecording 2 5\nowns 00000001\nowns 00000002\nat 01 00000002\nat 02 00000003\n\
        at 01 00000001\nat 02 00000000\nat 00 00000002\n";
    let output = "local 3\nown yes no\nplain 55 yes no\nshort 43 yes no\n".replace(' ', "\t");
    let example = example.replace(' ', "\t").into_bytes();
    assert_eq!(model::program(&example), output.as_bytes());
    assert_eq!(model::program(&with_returns(&example, |_| true)), output.as_bytes());
    assert_eq!(model::program(&with_returns(&example, |line| line % 2 == 0)), output.as_bytes());
}

#[test]
fn a_refused_line_is_counted_and_printed() {
    let input = b"rule\t0\t2\r\ntrue\r\nfoo\t1\r\n";
    assert_eq!(model::program(input), b"refused\t2\tfoo\t1\n");
    assert_eq!(model::program_says(input), b"line\trule\t3\n");
    let input = [RULE, b"-\r\n", RECORDING, b"x\r\n"].concat();
    assert_eq!(model::program(&input), b"refused\t8\tx\n");
    assert_eq!(model::program_says(&input), b"line\trecording\t6\n");
}

#[test]
fn bytes_are_counted_as_they_came() {
    let accepted = with_returns(&program_input(RULE, RECORDING), |_| true);
    let grown = |length| {
        let mut input = accepted.clone();
        input.resize(length, b'x');
        model::program(&input)
    };
    let line = vec![b'x'; limits::PROGRAM_INPUT - accepted.len()];
    assert_eq!(grown(limits::PROGRAM_INPUT), [b"refused\t8\t", &line[..], b"\n"].concat());
    assert_eq!(grown(limits::PROGRAM_INPUT + 1), b"refused\t14\t\n");
    let returns = with_returns(&vec![10; limits::PROGRAM_INPUT / 2 + 1], |_| true);
    assert_eq!(model::program(&returns), b"refused\t14\t\n");
    assert_eq!(model::rule_program(&returns), b"refused\t14\n");
}

#[test]
fn the_program_rule_takes_either_ending() {
    let text = b"rule\t2\t2\natom\t31\nnext\t0\n";
    assert_eq!(model::rule_program(b"2\tX a31\n"), text);
    assert_eq!(model::rule_program(b"2\tX a31\r\n"), text);
    assert_eq!(model::rule_program(b"2\tX a31\r"), b"refused\t1\n");
    assert_eq!(model::rule_program(b"2\tX a31\r\n\r\n"), b"refused\t1\n");
    assert_eq!(model::rule_program(b"2\tX a31\r\n\r"), b"refused\t1\n");
    assert_eq!(model::rule_program(b"2\r\tX a31\r\n"), b"refused\t1\n");
    assert_eq!(model::rule_program(b"2\r\n"), b"refused\t1\n");
    assert_eq!(model::rule_program(b"\r\n"), b"refused\t1\n");
    // A byte 13 in the rule is no sign.
    assert_eq!(model::rule_program(b"2\tX a31\r\r\n"), b"refused\t15\n");
    assert_eq!(model::rule_program(b"2\tX\ra31\r\n"), b"refused\t15\n");
}

#[test]
fn rules_come_back_with_byte_10_at_each_line() {
    let mut random = Random::new(41);
    for _ in 0..3000 {
        let plain = rule_text(&rules::rule(&mut random, limits::RULE_NODES));
        let mixed = mixed_endings(&mut random, &plain);
        assert_eq!(plain_endings(&mixed), plain);
        let mut nodes = [1; limits::RULE_NODES];
        let heading = model::read_rule(&mixed, &mut nodes).expect("accepted");
        let mut text = [1; limits::RULE_TEXT];
        let length = model::write_rule(heading.controller, heading.count, &nodes, &mut text);
        assert_eq!(text[..length.expect("accepted")], plain);
    }
}

/// Both texts, and both with byte 10 alone, answer and leave the same, and
/// hand back the same line.
fn check_plain(rule: &[u8], recording: &[u8]) -> u32 {
    let found = joint(rule, recording);
    assert_eq!(found, joint(&plain_endings(rule), &plain_endings(recording)));
    found.heading[0]
}

#[test]
fn texts_and_those_with_byte_10_alone_answer_the_same() {
    let mut random = Random::new(42);
    let mut numbers = [0; 21];
    for _ in 0..12_000 {
        let (rule, recording) = texts::any_pair(&mut random);
        numbers[check_plain(&rule, &recording) as usize] += 1;
    }
    println!("{numbers:?}");
    // Every number of texts but 9, which is no longer given.
    let given = |number: usize| matches!(number, 0..=8 | 10 | 11 | 19 | 20);
    assert!(numbers.iter().enumerate().all(|(number, times)| (*times > 0) == given(number)));
}

#[test]
fn every_choice_of_endings_answers_the_same_with_byte_10_alone() {
    let endings: [&[u8]; 7] = [b"\n", b"\r\n", b"\r\r\n", b"\r", b"", b"\n\r", b"\r\n\n"];
    let lines: [&[u8]; 4] = [b"rule\t0\t3", b"true", b"foo\t1", b"not\t0"];
    for choice in 0..7usize.pow(4) {
        let closed = |number: usize| {
            let ending = choice / 7usize.pow(number as u32) % 7;
            [lines[number], endings[ending]].concat()
        };
        check_plain(&(0..4).flat_map(closed).collect::<Vec<u8>>(), RECORDING);
    }
}

#[test]
fn inputs_and_those_with_byte_10_alone_print_the_same() {
    let mut random = Random::new(43);
    for _ in 0..2000 {
        let mut input = texts::any_program_input(&mut random);
        input.truncate(limits::PROGRAM_INPUT);
        let plain = plain_endings(&input);
        assert_eq!(model::program(&input), model::program(&plain));
        assert_eq!(model::program_says(&input), model::program_says(&plain));
    }
}

#[test]
fn recordings_with_other_endings_are_accepted() {
    let mut random = Random::new(44);
    for _ in 0..2000 {
        let table = recordings::recording(&mut random, limits::CONTROLLERS, limits::STATES);
        let text = mixed_endings(&mut random, &recording_text(&table));
        let (mut masks, mut states) = ([1; limits::CONTROLLERS], [1; limits::STATES]);
        let heading = model::read_recording(&text, &mut masks, &mut states).expect("accepted");
        assert_eq!((heading.controllers, heading.states), (table.controllers, table.length));
        assert_eq!(masks[..table.controllers], table.masks);
        assert_eq!(states[..table.length], table.states);
    }
}

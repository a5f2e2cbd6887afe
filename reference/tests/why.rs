//! The program `why`: what it prints of a verdict and of a refusal, and what it
//! says on standard error.

use reference::generate::endings::{mixed_endings, with_returns};
use reference::generate::random::Random;
use reference::generate::texts::{any_program_input, program_input, recording_text, rule_text};
use reference::generate::{recordings, rules};
use reference::model::limits::{CONTROLLERS, PROGRAM_INPUT, RULE_NODES, STATES};
use reference::model::{program, program_says, why};

/// The texts of the program's example, the line `-` between them.
const EXAMPLE: &str = "rule 0 9\natom 1\nnot 0\natom 0\nnext 2\nor 1 3\nnot 4\ntrue\nuntil 6 5\n\
    not 7\n-\nrecording 2 5\nowns 00000001\nowns 00000002\nat 01 00000002\nat 02 00000003\n\
    at 01 00000001\nat 02 00000000\nat 00 00000002\n";

/// A text with a tab for each space.
fn tabs(text: &str) -> Vec<u8> {
    text.replace(' ', "\t").into_bytes()
}

/// What is printed of an input, with a space for each tab.
fn printed(input: &[u8]) -> String {
    String::from_utf8(why::program(input)).expect("letters and digits").replace('\t', " ")
}

/// What is printed of the example with another rule and other states.
fn of_texts(word: &str, rule: &str, recording: &str) -> String {
    printed(&tabs(&format!("{word}\n{rule}-\n{recording}")))
}

#[test]
fn of_the_example() {
    let both = "state 2 step 1 atom 1 is 0 node 0\nstate 2 step 1 atom 0 is 1 node 2\n";
    let weak = tabs(&format!("weak\n{EXAMPLE}"));
    assert_eq!(printed(&weak), format!("weak yes\n{both}"));
    assert_eq!(printed(&tabs(&format!("strong\n{EXAMPLE}"))), "strong no\n");
    assert_eq!(printed(&with_returns(&weak, |_| true)), format!("weak yes\n{both}"));
}

#[test]
fn the_state_of_a_place() {
    let next = "rule 0 2\natom 0\nnext 0\n";
    // The last place is the state after the last run.
    let runs_once = "recording 1 4\nowns 00000001\nat 00 00000000\nat 01 00000000\n\
        at 00 00000001\nat 00 00000003\n";
    let line = "state 2 step 1 atom 0 is 1 node 0\n";
    assert_eq!(of_texts("strong", next, runs_once), format!("strong yes\n{line}"));
    // A mark in the last state is no run: that place is state 0.
    let never_runs = "recording 1 2\nowns 00000001\nat 00 00000001\nat 01 00000001\n";
    let atom = "rule 0 1\natom 0\n";
    let line = "state 0 step 0 atom 0 is 1 node 0\n";
    assert_eq!(of_texts("weak", atom, never_runs), format!("weak yes\n{line}"));
    // A foreign atom's bit is the recorded one, in the state in which it is read.
    let foreign = "rule 0 1\natom 1\n";
    let runs_late =
        "recording 1 3\nowns 00000001\nat 00 00000000\nat 01 00000002\nat 00 00000000\n";
    let line = "state 1 step 0 atom 1 is 1 node 0\n";
    assert_eq!(of_texts("weak", foreign, runs_late), format!("weak yes\n{line}"));
}

#[test]
fn a_first_line_that_asks_for_no_reading() {
    let example = tabs(EXAMPLE);
    let firsts: [(&[u8], &[u8]); 12] = [
        (b"weakly\n", b"weakly"),
        (b"Weak\n", b"Weak"),
        (b"weak \n", b"weak "),
        (b"weak\t\n", b"weak\t"),
        (b"weak\r\r\n", b"weak\r"),
        (b"\rweak\n", b"\rweak"),
        (b"\n", b""),
        (b"\r\n", b""),
        (b"-\n", b"-"),
        (b"", b"rule\t0\t9"),
        (b"strong\tyes\n", b"strong\tyes"),
        (b"weakstrong\r\n", b"weakstrong"),
    ];
    for (first, line) in firsts {
        let input = [first, &example].concat();
        assert_eq!(why::program(&input), [b"refused\t1\t", line, b"\n"].concat());
        assert_eq!(why::says(&input), b"");
    }
    for unclosed in [&b""[..], b"weak", b"strong\r", b"weak\r"] {
        assert_eq!(why::program(unclosed), [b"refused\t1\t", unclosed, b"\n"].concat());
        assert_eq!(why::says(unclosed), b"");
    }
}

#[test]
fn fourteen_counts_the_first_line() {
    let mut input = tabs(&format!("weak\n{EXAMPLE}"));
    input.resize(PROGRAM_INPUT, b'x');
    assert!(why::program(&input).starts_with(b"refused\t8\tx"));
    assert_eq!(why::says(&input), b"line\trecording\t9\n");
    input.push(b'x');
    assert_eq!(why::program(&input), b"refused\t14\t\n");
    assert_eq!(why::says(&input), b"");
    assert_eq!(why::program(&vec![b'x'; PROGRAM_INPUT + 1]), b"refused\t14\t\n");
}

#[test]
fn refused_texts_are_refused_as_by_the_program_of_document_01() {
    let mut random = Random::new(5);
    let mut refused = 0;
    while refused < 2000 {
        let input = any_program_input(&mut random);
        let output = program(&input);
        if !output.starts_with(b"refused") || input.len() > PROGRAM_INPUT - 8 {
            continue;
        }
        refused += 1;
        for word in ["weak\n", "strong\n", "weak\r\n", "strong\r\n"] {
            let asked = [word.as_bytes(), &input].concat();
            assert_eq!(why::program(&asked), output);
            assert_eq!(why::says(&asked), program_says(&input));
        }
    }
}

#[test]
fn the_verdict_is_the_one_of_the_local_trace() {
    let mut random = Random::new(6);
    for _ in 0..300 {
        let recording = recordings::recording(&mut random, CONTROLLERS, STATES);
        let controller = random.below(recording.controllers);
        let rule = rules::rule_for(&mut random, controller, RULE_NODES);
        let texts = program_input(&rule_text(&rule), &recording_text(&recording));
        let judged = String::from_utf8(program(&texts)).expect("letters and digits");
        let own = judged.lines().nth(1).expect("a line").split('\t').collect::<Vec<_>>();
        for (word, verdict) in ["weak", "strong"].into_iter().zip(&own[1..]) {
            let input = [format!("{word}\n").as_bytes(), &texts].concat();
            let answer = printed(&input);
            assert_eq!(answer.lines().next(), Some(&*format!("{word} {verdict}")));
            let other = mixed_endings(&mut random, &input);
            assert_eq!(printed(&other), answer);
        }
    }
}

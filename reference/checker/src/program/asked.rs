//! Inputs of the program `why`: the word `weak` or `strong`, closed, before the
//! input of the program of document 01.

use reference::generate::endings::{any_endings, with_returns};
use reference::generate::random::Random;
use reference::generate::texts::{self, program_input, recording_text, rule_text};
use reference::model::limits::PROGRAM_INPUT;

use crate::check::Check;
use crate::difference::Difference;
use crate::evidence::far_reaching;
use crate::input::Input;
use crate::plan::Plan;
use crate::program::judged::{
    accepted_input, damaged_input, edges, ending_edges, gauge_edges, partings,
};
use crate::program::{listed, random, require, Expected, WHY};
use crate::tally::Operation;
use crate::trials::{example_rule, recording_r, widest};
use crate::work::Job;
use crate::wrong::Place;

/// Both words with both endings.
const FIRSTS: [&[u8]; 4] = [b"weak\n", b"strong\n", b"weak\r\n", b"strong\r\n"];

/// First lines that ask for no reading, or that aren't closed.
const ODD: [&[u8]; 16] = [
    b"",
    b"\n",
    b"\r\n",
    b"weak",
    b"strong\r",
    b"Weak\n",
    b"weakly\n",
    b"wea\n",
    b"weak \n",
    b" weak\n",
    b"weak\t\n",
    b"weak\r\r\n",
    b"\rweak\n",
    b"strong\tyes\r\n",
    b"-\n",
    b"weak\nstrong\n",
];

/// The example's texts.
fn example_texts() -> Vec<u8> {
    program_input(&rule_text(&example_rule()), &recording_text(&recording_r()))
}

/// The example, against what it is named to print, with either ending and in
/// pieces.
fn example(check: &mut Check) -> Result<(), Difference> {
    let lines = "state 2 step 1 atom 1 is 0 node 0\nstate 2 step 1 atom 0 is 1 node 2\n";
    let answers = [("weak", format!("weak yes\n{lines}")), ("strong", "strong no\n".to_string())];
    for (word, answer) in answers {
        let output = answer.replace(' ', "\t").into_bytes();
        let mut expected = Expected { output, errors: Vec::new() };
        if check.wrong(Operation::WhyProgram, Place::Named) {
            expected.output[0] ^= 1;
        }
        let input = [word.as_bytes(), b"\n", &example_texts()].concat();
        let returned = with_returns(&input, |_| true);
        require(check, WHY, &input, &expected, &[])?;
        require(check, WHY, &input, &expected, &vec![1; input.len()])?;
        require(check, WHY, &returned, &expected, &[])?;
        require(check, WHY, &returned, &expected, &[word.len() + 1])?;
    }
    Ok(())
}

/// An input with a first line; a long one keeps its length.
fn after(first: &[u8], texts: &[u8]) -> Vec<u8> {
    let long = texts.len() > PROGRAM_INPUT - 2;
    let length = if long { texts.len() - first.len() } else { texts.len() };
    [first, &texts[..length]].concat()
}

/// Texts that are refused with each number from 2 to 11, each with its reason in
/// one line of the rule or of the recording.
fn refused_texts() -> Vec<Vec<u8>> {
    let refused: [(&str, &str); 9] = [
        ("rule 0 1\nrun\n", "recording 1 1\nowns 00000001\nat 00 00000000\n"),
        ("rule 0 1\nnot 0\n", "recording 1 1\nowns 00000001\nat 00 00000000\n"),
        ("rule 0 2\ntrue\n", "recording 1 1\nowns 00000001\nat 00 00000000\n"),
        ("rule 0 1\ntrue\n", "recording 1 1\nowns 1\nat 00 00000000\n"),
        ("rule 0 1\ntrue\n", "recording 1 1\nowns 00000001\nat 02 00000000\n"),
        ("rule 0 1\ntrue\n", "recording 2 1\nowns 00000001\nowns 00000003\nat 00 00000000\n"),
        ("rule 0 1\ntrue\n", "recording 1 2\nowns 00000001\nat 00 00000000\n"),
        ("rule 0 1\ntrue\n", "recording 1 2\nowns 00000001\nat 00 00000000\nat 00 00000001\n"),
        ("rule 1 1\ntrue\n", "recording 1 1\nowns 00000001\nat 00 00000000\n"),
    ];
    let tabs = |text: &str| text.replace(' ', "\t").into_bytes();
    refused.map(|(rule, recording)| program_input(&tabs(rule), &tabs(recording))).to_vec()
}

/// The inputs of the program of document 01 after each first line in turn, odd
/// first lines, and the input with the longest output that we know of.
fn asked_edges() -> Vec<Vec<u8>> {
    let texts = [refused_texts(), ending_edges(), partings(), edges(), gauge_edges()].concat();
    let firsts = FIRSTS.iter().cycle();
    let mut inputs: Vec<Vec<u8>> =
        texts.iter().zip(firsts).map(|(texts, first)| after(first, texts)).collect();
    for first in ODD {
        inputs.extend([first.to_vec(), [first, &example_texts()].concat()]);
    }
    let Input::Evidence { rule, recording, .. } = widest() else { unreachable!("of evidence") };
    let widest = program_input(&rule_text(&rule), &recording_text(&recording));
    inputs.extend(FIRSTS.map(|first| after(first, &widest)));
    inputs
}

/// A first line: one of both words, now and then with damage.
fn first_line(random: &mut Random) -> Vec<u8> {
    match random.below(12) {
        0 => random.pick(&ODD).to_vec(),
        1 => {
            let first = random.pick(&FIRSTS);
            texts::damaged(random, first)
        }
        _ => random.pick(&FIRSTS).to_vec(),
    }
}

/// Texts with many pairs.
fn far_texts(random: &mut Random) -> Vec<u8> {
    let (rule, recording) = far_reaching(random);
    any_endings(random, program_input(&rule_text(&rule), &recording_text(&recording)))
}

/// Texts of any kind, accepted or damaged, after a first line.
fn any_input(random: &mut Random) -> Vec<u8> {
    let texts = match random.below(6) {
        0 | 1 => far_texts(random),
        2 => accepted_input(random),
        3 => damaged_input(random),
        _ => texts::any_program_input(random),
    };
    after(&first_line(random), &texts)
}

/// All runs of the program.
pub fn jobs(plan: &Plan) -> Vec<Job<'_>> {
    let mut jobs: Vec<Job> = vec![Box::new(example)];
    jobs.extend(listed(WHY, asked_edges()));
    jobs.extend(random(plan, WHY, plan.program_runs / 2, any_input));
    jobs
}

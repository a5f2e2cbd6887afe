//! The program `why`: the readings behind a verdict, in words. Its first line
//! is `weak` or `strong`, the verdict that is asked about; after it comes the
//! input of the program of document 01.

use super::evidence::{walk, AsWorded, Pair};
use super::recording::{bit, place_states, project, LocalTrace, Recording};
use super::rule::Rule;
use super::semantics::{local_readings, Reading};
use super::{limits, program_says, program_texts, refusal, refused_output, text, yes_or_no};

/// The words of the first line.
const READINGS: [(&[u8], Reading); 2] = [(b"weak", Reading::Weak), (b"strong", Reading::Strong)];

/// The first line's word and reading, and all that follows it; nothing where
/// the first line isn't closed or is no such word.
fn asked(input: &[u8]) -> Option<(&'static [u8], Reading, &[u8])> {
    let (line, next) = text::closed_line(input, 0)?;
    let (word, reading) = READINGS.into_iter().find(|(word, _)| *word == &input[line.clone()])?;
    Some((word, reading, &input[next..]))
}

/// The line of a pair: `state`, the state that its place is, `step`, the place,
/// `atom`, the atom, `is`, its bit there, `node`, the node.
fn pair_line(rule: &Rule, states: &[usize], local: &LocalTrace, pair: Pair) -> Vec<u8> {
    let Pair { place, node } = pair;
    let atom = rule.nodes[node].first;
    let is = usize::from(bit(local.positions[place], atom));
    let numbers = [states[place], place, atom, is, node].map(|number| number.to_string());
    let [state, step, atom, is, node] = numbers.each_ref().map(|number| number.as_bytes());
    text::printed(&[b"state", state, b"step", step, b"atom", atom, b"is", is, b"node", node])
}

/// The verdict in its reading, then a line for each pair.
fn answer(word: &[u8], reading: Reading, rule: &Rule, recording: &Recording) -> Vec<u8> {
    let local = project(recording, rule.controller);
    let states = place_states(recording, rule.controller);
    let last = rule.nodes.len() - 1;
    let verdict = local_readings(&rule.nodes, &local).at(last, reading, 0);
    let mut output = text::printed(&[word, yes_or_no(verdict)]);
    for pair in walk(&AsWorded, &rule.nodes, &local, reading) {
        output.extend(pair_line(rule, &states, &local, pair));
    }
    output
}

/// The whole standard input to the whole standard output. A refusal is printed
/// as the program of document 01 prints it, a first line that asks for no
/// reading with 1.
pub fn program(input: &[u8]) -> Vec<u8> {
    if input.len() > limits::PROGRAM_INPUT {
        return refused_output(refusal::PROGRAM_INPUT, &[]);
    }
    let Some((word, reading, texts)) = asked(input) else {
        return refused_output(refusal::RULE_FORM, &input[text::first_line(input)]);
    };
    match program_texts(texts) {
        Err((number, line)) => refused_output(number, line),
        Ok((rule, recording)) => answer(word, reading, &rule, &recording),
    }
}

/// What it says on standard error: where a refused line stands in its text, as
/// the program of document 01 says it.
pub fn says(input: &[u8]) -> Vec<u8> {
    if input.len() > limits::PROGRAM_INPUT {
        return Vec::new();
    }
    asked(input).map_or(Vec::new(), |(_, _, texts)| program_says(texts))
}

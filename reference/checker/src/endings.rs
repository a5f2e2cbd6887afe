//! "Lines from the other system": every choice of right and wrong endings for
//! the lines of small texts, bytes 13 and 10 at every place of the example's
//! texts, and random texts with other endings, accepted and damaged.
//!
//! A text and that text with byte 10 for each 13 10 must answer the same.

use reference::generate::endings::{mixed_endings, plain_endings, with_returns};
use reference::generate::random::Random;
use reference::generate::texts::{self, recording_text, rule_text};
use reference::generate::{recordings, rules};
use reference::model::limits::{CONTROLLERS, RULE_NODES, STATES};

use crate::check::Check;
use crate::difference::Difference;
use crate::input::Input;
use crate::outcome::Outcome;
use crate::plan::Plan;
use crate::tally::{Operation, Section};
use crate::texts::{example, read, Kind};
use crate::work::Job;
use crate::wrong::Place;

/// Pairs of texts of one random batch.
const TEXTS: usize = 50;

/// The part that a joint reading hands back, as bytes; of another reading
/// nothing.
fn line<'a>(input: &'a Input, outcome: &Outcome) -> &'a [u8] {
    match (&input.texts()[..], &outcome.values[..]) {
        (texts @ [_, _], [.., source, start, length]) => &texts[*source][*start..start + length],
        _ => &[],
    }
}

/// The values without the place of that part.
fn values(input: &Input, outcome: &Outcome) -> Vec<usize> {
    let placed = if input.operation() == Operation::ReadJoint { 2 } else { 0 };
    outcome.values[..outcome.values.len() - placed].to_vec()
}

/// Requires that the library answers the same, leaves the same and hands back
/// the same line for an input of texts and for those texts with byte 10 alone.
fn same_answer(check: &mut Check, input: &Input, found: &Outcome) -> Result<(), Difference> {
    let plain = input.with_texts(plain_endings);
    if plain.texts() == input.texts() {
        return Ok(());
    }
    let expected = check.compare(&plain)?;
    let mut expected_values = values(&plain, &expected);
    let mut expected_line = line(&plain, &expected).to_vec();
    if check.wrong(Operation::Endings, Place::Value) {
        expected_values[0] ^= 1;
    }
    if !expected_line.is_empty() && check.wrong(Operation::Endings, Place::Line) {
        expected_line.pop();
    }
    check.count(Operation::Endings, 1, found.entries() + expected_line.len() as u64);
    let same = expected.number == found.number
        && expected_values == values(input, found)
        && expected_line == line(input, found)
        && expected.lent == found.lent;
    if same {
        return Ok(());
    }
    let place = format!("the answer with byte 10 alone: {} {expected_values:?}", expected.number);
    let place = format!("{place} \"{}\"", expected_line.escape_ascii());
    Err(Difference::new(place, input.to_string()))
}

/// Compares the library with the model on an input of texts, and with itself
/// on the same texts with byte 10 alone.
pub fn compare(check: &mut Check, input: &Input) -> Result<Outcome, Difference> {
    let found = check.compare(input)?;
    same_answer(check, input, &found)?;
    Ok(found)
}

/// The endings that a line is tried with: both that are taken, and others.
const ENDINGS: [&[u8]; 7] = [b"\n", b"\r\n", b"\r\r\n", b"\r", b"", b"\n\r", b"\r\n\n"];

/// Small texts, line by line: accepted ones, one with an unknown word, one of
/// a controller that the example doesn't have, and ones with a line too many.
const TEXT_LINES: [(Kind, &[&[u8]]); 7] = [
    (Kind::Rule, &[b"rule\t0\t3", b"atom\t1", b"not\t0", b"until\t0\t1"]),
    (Kind::Rule, &[b"rule\t1\t2", b"true", b"foo\t1"]),
    (Kind::Rule, &[b"rule\t2\t1", b"true"]),
    (Kind::Rule, &[b"rule\t0\t1", b"true", b"x", b"-"]),
    (
        Kind::Recording,
        &[b"recording\t1\t2", b"owns\t00000001", b"at\t01\t00000000", b"at\t00\t00000001"],
    ),
    (Kind::Recording, &[b"recording\t1\t1", b"owns\t00000001", b"at\t00\t00000000", b"x"]),
    (
        Kind::Gauges,
        &[b"recording\t1\t1", b"owns\t00000001", b"gauge\t3\t0.00", b"at\t00\t00000000\t0.00"],
    ),
];

/// Every choice of endings for the lines of a small text.
fn every_choice(check: &mut Check, kind: Kind, lines: &[&[u8]]) -> Result<(), Difference> {
    for choice in 0..ENDINGS.len().pow(lines.len() as u32) {
        let mut digits = choice;
        let mut text = Vec::new();
        for line in lines {
            text.extend([line, ENDINGS[digits % ENDINGS.len()]].concat());
            digits /= ENDINGS.len();
        }
        read(check, kind, text)?;
    }
    Ok(())
}

/// The bytes that are put into a text.
const BYTES: [&[u8]; 6] = [b"\r", b"\n", b"\r\n", b"\n\r", b"\r\r", b"\r\r\n"];

/// The lines of the example's texts that end in 13 10: none, every other one,
/// all.
const RETURNED: [fn(usize) -> bool; 3] = [|_| false, |line| line % 2 == 0, |_| true];

/// At every place of the example's text bytes put in or put there, the byte
/// dropped, and the text cut.
fn at_every_place(
    check: &mut Check,
    kind: Kind,
    returned: fn(usize) -> bool,
) -> Result<(), Difference> {
    let text = with_returns(&example(kind), returned);
    for at in 0..=text.len() {
        let after = (at + 1).min(text.len());
        for bytes in BYTES {
            read(check, kind, [&text[..at], bytes, &text[at..]].concat())?;
            read(check, kind, [&text[..at], bytes, &text[after..]].concat())?;
        }
        read(check, kind, [&text[..at], &text[after..]].concat())?;
        read(check, kind, text[..at].to_vec())?;
    }
    Ok(())
}

/// Two texts up to all limits with other endings, accepted together.
fn mixed_pair(random: &mut Random) -> (Vec<u8>, Vec<u8>) {
    let recording = recordings::recording(random, CONTROLLERS, STATES);
    let controller = random.below(recording.controllers);
    let rule = rule_text(&rules::rule_for(random, controller, RULE_NODES));
    let recording = recording_text(&recording);
    (mixed_endings(random, &rule), mixed_endings(random, &recording))
}

/// Random texts with other endings, read alone and jointly: accepted, one of
/// the two damaged, and both.
fn random_endings(check: &mut Check, plan: &Plan, batch: usize) -> Result<(), Difference> {
    let mut random = plan.random(Section::Endings, batch);
    for _ in 0..TEXTS {
        let (rule, recording) = mixed_pair(&mut random);
        let bad_rule = texts::damaged(&mut random, &rule);
        let bad_recording = texts::damaged(&mut random, &recording);
        compare(check, &Input::read_joint(rule.clone(), recording.clone()))?;
        compare(check, &Input::read_joint(rule.clone(), bad_recording.clone()))?;
        compare(check, &Input::read_joint(bad_rule.clone(), recording.clone()))?;
        compare(check, &Input::read_joint(bad_rule.clone(), bad_recording.clone()))?;
        for rule in [rule, bad_rule] {
            read(check, Kind::Rule, rule)?;
        }
        for recording in [recording, bad_recording] {
            read(check, Kind::Recording, recording)?;
        }
    }
    Ok(())
}

/// All texts.
pub fn jobs(plan: &Plan) -> Vec<Job<'_>> {
    let mut jobs: Vec<Job> = Vec::new();
    for (kind, lines) in TEXT_LINES {
        jobs.push(Box::new(move |check| every_choice(check, kind, lines)));
    }
    for kind in [Kind::Rule, Kind::Recording, Kind::Gauges] {
        for returned in RETURNED {
            jobs.push(Box::new(move |check| at_every_place(check, kind, returned)));
        }
    }
    for batch in 0..plan.ending_batches {
        jobs.push(Box::new(move |check| random_endings(check, plan, batch)));
    }
    jobs
}

//! Texts: every accepted one read, written and read again; every damage of
//! one byte, line or number to the texts of the example; random damage of
//! every kind.

use reference::generate::endings::{any_endings, plain_endings};
use reference::generate::exhaustive;
use reference::generate::gauge_trials;
use reference::generate::recordings::{self, RecordingTable};
use reference::generate::rules::{self, RuleTable};
use reference::generate::texts::{
    damage, recording_text, recording_text_with, rule_text, DAMAGES, NUMBERS,
};
use reference::model::limits::{CONTROLLERS, RULE_NODES, STATES};
use reference::model::text::mark_digits;

use crate::check::Check;
use crate::difference::Difference;
use crate::endings::compare;
use crate::input::Input;
use crate::outcome::Outcome;
use crate::plan::Plan;
use crate::tally::{Operation, Section};
use crate::trials::{example_rule, recording_r};
use crate::work::Job;
use crate::wrong::Place;

/// The first entries of a slice as 32-bit words.
fn words(outcome: &Outcome, slice: usize, count: usize) -> Vec<u32> {
    outcome.slice(slice)[..count].iter().map(|word| *word as u32).collect()
}

/// Compares a text that came back with the one that was read, which has "byte
/// 10 at each line" then.
fn same_text(check: &mut Check, text: &[u8], mut back: Vec<u8>) -> Result<(), Difference> {
    if check.wrong(Operation::RoundTrip, Place::Content) {
        back[0] ^= 1;
    }
    check.count(Operation::RoundTrip, 1, back.len() as u64);
    if back != plain_endings(text) {
        let place = format!("the text written back: \"{}\"", back.escape_ascii());
        return Err(Difference::new(place, format!("b\"{}\"", text.escape_ascii())));
    }
    Ok(())
}

/// Reads a rule text; an accepted one is written back byte for byte, but for
/// its endings, and read again it is the same table.
fn rule_round_trip(check: &mut Check, text: Vec<u8>) -> Result<(), Difference> {
    let input = Input::read_rule(text.clone());
    let read = compare(check, &input)?;
    if read.number != 0 {
        return Ok(());
    }
    let [controller, count] = read.values[..] else { unreachable!("two values") };
    let rule = RuleTable { controller, count, nodes: words(&read, 0, count) };
    let written = check.compare(&Input::write_rule(rule))?;
    let back = written.slice(0)[..written.values[0]].iter().map(|byte| *byte as u8);
    let back: Vec<u8> = back.collect();
    let again = check.compare(&Input::read_rule(back.clone()))?;
    read.require(&input, &again)?;
    same_text(check, &text, back)
}

/// Reads a recording text; the tables of an accepted one have that text. Gauges
/// aren't handed back.
fn recording_round_trip(check: &mut Check, text: Vec<u8>) -> Result<(), Difference> {
    let read = compare(check, &Input::read_recording(text.clone()))?;
    let gauged = text.windows(6).any(|bytes| bytes == b"gauge\t");
    if read.number != 0 || gauged {
        return Ok(());
    }
    let [controllers, length] = read.values[..] else { unreachable!("two values") };
    let masks = words(&read, 0, controllers);
    let states = read.slice(1)[..length].to_vec();
    let back = recording_text(&RecordingTable { controllers, length, masks, states });
    same_text(check, &text, back)
}

/// One of the two texts.
#[derive(Clone, Copy, PartialEq, Eq)]
pub enum Kind {
    /// The rule text.
    Rule,
    /// The recording text.
    Recording,
    /// A recording text with gauges.
    Gauges,
}

/// Reads a damaged text alone and in a joint reading whose other text is the
/// example's.
pub fn read(check: &mut Check, kind: Kind, text: Vec<u8>) -> Result<(), Difference> {
    let joint = match kind {
        Kind::Rule => Input::read_joint(text.clone(), recording_text(&recording_r())),
        Kind::Recording | Kind::Gauges => {
            Input::read_joint(rule_text(&example_rule()), text.clone())
        }
    };
    compare(check, &joint)?;
    match kind {
        Kind::Rule => rule_round_trip(check, text),
        Kind::Recording | Kind::Gauges => recording_round_trip(check, text),
    }
}

/// The text of the example, of a kind.
pub fn example(kind: Kind) -> Vec<u8> {
    match kind {
        Kind::Rule => rule_text(&example_rule()),
        Kind::Recording => recording_text(&recording_r()),
        Kind::Gauges => gauge_trials::text(GAUGED),
    }
}

/// An example with gauges: one of an own atom, one of nobody's.
const GAUGED: &str = "recording 2 3; owns 00000001; owns 00000002; gauge 0 5.00; gauge 9 -0.50; \
    at 01 00000002 4.99 -0.51; at 02 00000002 12.30 -0.50; at 00 00000000 5.00 327.67";

/// A text with a part of it replaced.
fn spliced(text: &[u8], start: usize, end: usize, bytes: &[u8]) -> Vec<u8> {
    [&text[..start], bytes, &text[end..]].concat()
}

/// Every damage at one place: each byte put there or before it, the byte
/// dropped or doubled, the text cut before it or after it.
fn damage_at(check: &mut Check, kind: Kind, at: usize) -> Result<(), Difference> {
    let text = example(kind);
    for byte in 0..=255 {
        read(check, kind, spliced(&text, at, at + 1, &[byte]))?;
        read(check, kind, spliced(&text, at, at, &[byte]))?;
    }
    read(check, kind, spliced(&text, at, at + 1, &[]))?;
    read(check, kind, spliced(&text, at, at, &text[at..]))?;
    read(check, kind, text[..at].to_vec())?;
    read(check, kind, text[at..].to_vec())
}

/// Every two lines swapped, every line dropped or doubled.
fn damage_lines(check: &mut Check, kind: Kind) -> Result<(), Difference> {
    let text = example(kind);
    let lines: Vec<&[u8]> = text.split_inclusive(|byte| *byte == 10).collect();
    for one in 0..lines.len() {
        let mut doubled = lines.clone();
        doubled.insert(one, lines[one]);
        read(check, kind, doubled.concat())?;
        let mut dropped = lines.clone();
        dropped.remove(one);
        read(check, kind, dropped.concat())?;
        for other in 0..one {
            let mut swapped = lines.clone();
            swapped.swap(one, other);
            read(check, kind, swapped.concat())?;
        }
    }
    Ok(())
}

/// Every field of digits replaced by every number at and beyond a limit.
fn damage_numbers(check: &mut Check, kind: Kind) -> Result<(), Difference> {
    let text = example(kind);
    let parts = |byte: &u8| *byte == 9 || *byte == 10;
    let mut start = 0;
    for field in text.split(parts) {
        let end = start + field.len();
        if !field.is_empty() && field.iter().all(u8::is_ascii_digit) {
            for number in NUMBERS {
                read(check, kind, spliced(&text, start, end, number.as_bytes()))?;
            }
        }
        start = end + 1;
    }
    Ok(())
}

/// The example's recording with so many controllers, one atom each.
fn among(controllers: usize) -> RecordingTable {
    let masks = (0..controllers).map(|c| 1 << c).collect();
    RecordingTable { controllers, masks, ..recording_r() }
}

/// All that the digits of run marks can say in every state of the example, for
/// every C.
fn every_run_mark(check: &mut Check, controllers: usize) -> Result<(), Difference> {
    let recording = among(controllers);
    for k in 0..recording.length {
        for marks in 0..1 << (4 * mark_digits(controllers)) {
            let mut recording = recording.clone();
            recording.states[k] = marks << 32;
            read(check, Kind::Recording, recording_text(&recording))?;
        }
    }
    Ok(())
}

/// Run marks of every number of digits up to five, for every C and one more.
fn every_mark_width(check: &mut Check, controllers: usize) -> Result<(), Difference> {
    for digits in 1..=5 {
        for marks in [0, 1, (1 << controllers) - 1, 1 << controllers] {
            let mut recording = among(controllers);
            recording.states = vec![0, marks << 32, 0, 0, 0];
            read(check, Kind::Recording, recording_text_with(&recording, digits))?;
            recording.states = vec![marks << 32; 5];
            read(check, Kind::Recording, recording_text_with(&recording, digits))?;
        }
    }
    Ok(())
}

/// Counts one below, at and one above what the lines give, around the limits.
fn every_count(check: &mut Check) -> Result<(), Difference> {
    for lines in [1, 2, 63, 64, 65] {
        for count in lines - 1..=lines + 1 {
            let rule = RuleTable { controller: CONTROLLERS - 1, count, nodes: vec![0; lines] };
            read(check, Kind::Rule, rule_text(&rule))?;
        }
    }
    for lines in [1, 2, 127, 128, 129] {
        for length in lines - 1..=lines + 1 {
            let (masks, states) = (vec![u32::MAX], vec![0xffff_ffff; lines]);
            let recording = RecordingTable { controllers: 1, length, masks, states };
            read(check, Kind::Recording, recording_text(&recording))?;
        }
    }
    Ok(())
}

/// Random texts with one damage of a kind, read alone and jointly.
fn random_damage(check: &mut Check, plan: &Plan, number: usize) -> Result<(), Difference> {
    let mut random = plan.random(Section::Texts, number);
    let kind = DAMAGES[number % DAMAGES.len()];
    for _ in 0..plan.damaged_texts {
        let (nodes, states) = if random.once_in(4) { (RULE_NODES, STATES) } else { (8, 8) };
        let recording = recordings::recording(&mut random, CONTROLLERS, states);
        let controller = random.below(recording.controllers);
        let rule = rule_text(&rules::rule_for(&mut random, controller, nodes));
        let rule = any_endings(&mut random, rule);
        let recording = any_endings(&mut random, recording_text(&recording));
        let bad_rule = damage(&mut random, &rule, kind);
        let bad_recording = damage(&mut random, &recording, kind);
        compare(check, &Input::read_joint(bad_rule.clone(), recording.clone()))?;
        compare(check, &Input::read_joint(rule.clone(), bad_recording.clone()))?;
        compare(check, &Input::read_joint(bad_rule.clone(), bad_recording.clone()))?;
        rule_round_trip(check, bad_rule)?;
        recording_round_trip(check, bad_recording)?;
        rule_round_trip(check, rule)?;
        recording_round_trip(check, recording)?;
    }
    Ok(())
}

/// The texts of all small rules, for every controller in turn.
fn small_rules(check: &mut Check, rules: &[Vec<u32>]) -> Result<(), Difference> {
    for (number, nodes) in rules.iter().enumerate() {
        let (count, nodes) = (nodes.len(), nodes.clone());
        let rule = RuleTable { controller: number % CONTROLLERS, count, nodes };
        rule_round_trip(check, rule_text(&rule))?;
    }
    Ok(())
}

/// The texts of all small recordings.
fn small_recordings(check: &mut Check, recordings: &[RecordingTable]) -> Result<(), Difference> {
    recordings.iter().try_for_each(|table| recording_round_trip(check, recording_text(table)))
}

/// Jobs for the damage of the example's texts.
fn example_jobs<'a>() -> Vec<Job<'a>> {
    let mut jobs: Vec<Job> = vec![Box::new(every_count)];
    for kind in [Kind::Rule, Kind::Recording, Kind::Gauges] {
        for at in 0..example(kind).len() {
            jobs.push(Box::new(move |check| damage_at(check, kind, at)));
        }
        jobs.push(Box::new(move |check| damage_lines(check, kind)));
        jobs.push(Box::new(move |check| damage_numbers(check, kind)));
    }
    for controllers in 1..=CONTROLLERS {
        jobs.push(Box::new(move |check| every_run_mark(check, controllers)));
    }
    for controllers in 1..=CONTROLLERS + 1 {
        jobs.push(Box::new(move |check| every_mark_width(check, controllers)));
    }
    jobs
}

/// All texts. The small rules have one node more than those that meet every
/// recording.
pub fn jobs(plan: &Plan) -> Vec<Job<'_>> {
    let mut jobs = example_jobs();
    for number in 0..DAMAGES.len() {
        jobs.push(Box::new(move |check| random_damage(check, plan, number)));
    }
    for rules in exhaustive::rules(plan.small.nodes + 1).chunks(1000) {
        let rules = rules.to_vec();
        jobs.push(Box::new(move |check| small_rules(check, &rules)));
    }
    for recordings in exhaustive::recordings(2, plan.small.states).chunks(1000) {
        let recordings = recordings.to_vec();
        jobs.push(Box::new(move |check| small_recordings(check, &recordings)));
    }
    jobs
}

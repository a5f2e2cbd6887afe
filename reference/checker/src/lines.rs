//! Rules in one line: every short list of signs, lines at every limit, random
//! sentences and damage. What is accepted is a table that the writer takes,
//! and that comes back when it is read again.

use reference::generate::lines::{alphabet, damaged, edges, line, short_list, spelled};
use reference::generate::random::Random;
use reference::generate::rules::RuleTable;
use reference::model::limits::CONTROLLERS;

use crate::check::Check;
use crate::difference::Difference;
use crate::input::Input;
use crate::plan::Plan;
use crate::tally::{Operation, Section};
use crate::work::Job;
use crate::wrong::Place;

/// Lists of signs of one job.
const LISTS: usize = 200_000;

/// Lines of one random batch.
const LINES: usize = 200;

/// Reads a line; an accepted one is written and read again.
fn round_trip(check: &mut Check, controller: usize, line: Vec<u8>) -> Result<(), Difference> {
    let input = Input::read_line(controller, line);
    let read = check.compare(&input)?;
    if read.number != 0 {
        return Ok(());
    }
    let [controller, count] = read.values[..] else { unreachable!("two values") };
    let nodes = read.slice(0)[..count].iter().map(|word| *word as u32).collect();
    let rule = RuleTable { controller, count, nodes };
    let written = check.compare(&Input::write_rule(rule))?;
    let text = written.slice(0)[..written.values[0]].iter().map(|byte| *byte as u8).collect();
    let mut again = check.compare(&Input::read_rule(text))?;
    if check.wrong(Operation::RoundTrip, Place::Content) {
        again.values[1] ^= 1;
    }
    check.count(Operation::RoundTrip, 1, count as u64);
    read.require(&input, &again)
}

/// Some of the lists of signs of one length, with other spaces in each.
fn short_lists(
    check: &mut Check,
    length: usize,
    numbers: std::ops::Range<usize>,
) -> Result<(), Difference> {
    let alphabet = alphabet();
    for number in numbers {
        let signs = short_list(&alphabet, length, number);
        let spaces = Random::new(number as u64).bits();
        check.compare(&Input::read_line(number % CONTROLLERS, spelled(&signs, spaces)))?;
    }
    Ok(())
}

/// Lines at the edges, for the last controller and the one after it.
fn at_edges(check: &mut Check) -> Result<(), Difference> {
    for line in edges() {
        for controller in [CONTROLLERS - 1, CONTROLLERS] {
            round_trip(check, controller, line.clone())?;
        }
    }
    Ok(())
}

/// Every byte put at or before every place of a line, and every byte dropped.
fn every_byte(check: &mut Check, line: &'static [u8]) -> Result<(), Difference> {
    for at in 0..=line.len() {
        for byte in 0..=255 {
            round_trip(check, 1, [&line[..at], &[byte], &line[at..]].concat())?;
            if at < line.len() {
                round_trip(check, 1, [&line[..at], &[byte], &line[at + 1..]].concat())?;
            }
        }
        round_trip(check, 1, line[..at].to_vec())?;
        round_trip(check, 1, [&line[..at], &line[(at + 1).min(line.len())..]].concat())?;
    }
    Ok(())
}

/// Random sentences and damaged ones.
fn random_lines(check: &mut Check, plan: &Plan, batch: usize) -> Result<(), Difference> {
    let mut random = plan.random(Section::Lines, batch);
    for _ in 0..LINES {
        let sentence = line(&mut random);
        let controller =
            if random.once_in(20) { random.beyond(CONTROLLERS) } else { random.below(CONTROLLERS) };
        round_trip(check, controller, sentence.clone())?;
        round_trip(check, controller, damaged(&mut random, &sentence))?;
    }
    Ok(())
}

/// All lines.
pub fn jobs(plan: &Plan) -> Vec<Job<'_>> {
    let mut jobs: Vec<Job> = vec![Box::new(at_edges)];
    let lines: [&'static [u8]; 3] = [b"G (a1 -> X a0)", b"a12 U!true&(Y a3|a4)", b"a0 S FX a31"];
    for line in lines {
        jobs.push(Box::new(move |check| every_byte(check, line)));
    }
    for length in 1..=plan.list_length {
        let lists = alphabet().len().pow(length as u32);
        for start in (0..lists).step_by(LISTS) {
            let numbers = start..lists.min(start + LISTS);
            jobs.push(Box::new(move |check| short_lists(check, length, numbers.clone())));
        }
    }
    for batch in 0..plan.line_batches {
        jobs.push(Box::new(move |check| random_lines(check, plan, batch)));
    }
    jobs
}

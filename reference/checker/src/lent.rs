//! Lent space of every length, from none to three entries past the full size,
//! for every lent slice of every operation.

use reference::generate::gauges::{gauged_by, gauged_text};
use reference::generate::random::Random;
use reference::generate::recordings;
use reference::generate::rules::{self, RuleTable};
use reference::generate::texts::{recording_text, rule_text};
use reference::model::limits;

use crate::check::Check;
use crate::difference::Difference;
use crate::input::{Input, Lent, BEYOND};
use crate::plan::Plan;
use crate::tally::Section;
use crate::trials::{example_rule, recording_r, widest};
use crate::work::Job;

/// Inputs of every operation that lends space: small ones.
fn small_inputs() -> Vec<Input> {
    let (rule, recording) = (example_rule(), recording_r());
    let (rule_bytes, recording_bytes) = (rule_text(&rule), recording_text(&recording));
    let table = rules::table(&mut Random::new(1), 40);
    vec![
        Input::read_rule(rule_bytes.clone()),
        Input::read_line(0, b"G (a1 -> X a0)".to_vec()),
        Input::write_rule(rule.clone()),
        Input::read_recording(recording_bytes.clone()),
        Input::read_joint(rule_bytes, recording_bytes),
        Input::project(recording.clone(), 0),
        Input::rewrite(false, rule.clone(), 1),
        Input::rewrite(true, rule.clone(), 1),
        Input::judge_recording(table, recording.clone(), 0),
        Input::evidence(rule, recording, true),
    ]
}

/// The same with another fault in each.
fn refused_inputs() -> Vec<Input> {
    let (rule, recording) = (example_rule(), recording_r());
    let (rule_bytes, recording_bytes) = (rule_text(&rule), recording_text(&recording));
    let cut = |text: &[u8]| text[..text.len() - 1].to_vec();
    let wrong = RuleTable { count: 10, ..rule.clone() };
    let table = rules::table(&mut Random::new(1), 40);
    vec![
        Input::read_rule(cut(&rule_bytes)),
        Input::read_line(0, b"G (a1 -> X a0".to_vec()),
        Input::write_rule(wrong.clone()),
        Input::read_recording(cut(&recording_bytes)),
        Input::read_joint(rule_bytes.clone(), cut(&recording_bytes)),
        Input::read_joint(cut(&rule_bytes), recording_bytes),
        Input::project(recording.clone(), 2),
        Input::rewrite(false, wrong.clone(), 1),
        Input::rewrite(true, wrong.clone(), 1),
        Input::judge_recording(table, recording.clone(), 2),
        Input::evidence(wrong, recording, false),
    ]
}

/// Inputs that fill their lent space, or nearly.
fn large_inputs() -> Vec<Input> {
    let mut random = Random::new(2);
    let mut rule = rules::rule(&mut random, limits::RULE_NODES);
    while rule.count < limits::RULE_NODES {
        rule = rules::rule(&mut random, limits::RULE_NODES);
    }
    let mut recording = recordings::recording(&mut random, limits::CONTROLLERS, limits::STATES);
    while recording.length < limits::STATES || recording.controllers < limits::CONTROLLERS {
        recording = recordings::recording(&mut random, limits::CONTROLLERS, limits::STATES);
    }
    let mut table = rules::table(&mut random, limits::TABLE_NODES);
    while table.count < limits::TABLE_NODES {
        table = rules::table(&mut random, limits::TABLE_NODES);
    }
    let gauged = gauged_text(&gauged_by(&mut random, &recording, limits::GAUGES));
    vec![
        Input::read_recording(gauged.clone()),
        Input::read_joint(rule_text(&rule), gauged),
        Input::read_rule(rule_text(&rule)),
        Input::read_line(limits::CONTROLLERS - 1, [&[b'!'; 63][..], b"a31"].concat()),
        Input::write_rule(rule.clone()),
        Input::read_recording(recording_text(&recording)),
        Input::read_joint(rule_text(&rule), recording_text(&recording)),
        Input::project(recording.clone(), 1),
        Input::rewrite(false, rule.clone(), 0),
        Input::rewrite(true, rule, u32::MAX),
        Input::judge_recording(table, recording, 1),
        widest(),
    ]
}

/// One slice of an input at every length, the others ample.
fn every_length(
    check: &mut Check,
    input: &Input,
    slice: usize,
    step: usize,
) -> Result<(), Difference> {
    let full = input.slices()[slice].full;
    let mut input = input.clone();
    let edges = full - 1..=full + BEYOND;
    for length in (0..full - 1).step_by(step).chain(edges) {
        *input.lent_mut()[slice] = Lent { length, pattern: length as u64 };
        check.compare(&input)?;
    }
    Ok(())
}

/// Every combination of lengths of an input's slices, the first one given.
fn every_combination(
    check: &mut Check,
    input: &Input,
    first: usize,
    step: usize,
) -> Result<(), Difference> {
    let full: Vec<usize> = input.slices().iter().map(|slice| slice.full).collect();
    let mut input = input.clone();
    let last = full.len() - 1;
    let middle = if last == 1 { 0..=0 } else { 0..=full[1] + BEYOND };
    for second in middle {
        for length in (0..=full[last] + BEYOND).step_by(step) {
            let pattern = (first * 100 + second * 1000 + length) as u64;
            let mut slices = input.lent_mut();
            *slices[0] = Lent { length: first, pattern };
            if last == 2 {
                *slices[1] = Lent { length: second, pattern: !pattern };
            }
            *slices[last] = Lent { length, pattern: pattern << 8 };
            check.compare(&input)?;
        }
    }
    Ok(())
}

/// Jobs for every combination of lengths, where an operation lends more than
/// one slice.
fn combinations<'a>(input: Input, step: usize) -> Vec<Job<'a>> {
    let slices = input.slices();
    if slices.len() < 2 {
        return Vec::new();
    }
    let mut jobs: Vec<Job> = Vec::new();
    for first in 0..=slices[0].full + BEYOND {
        let input = input.clone();
        jobs.push(Box::new(move |check| every_combination(check, &input, first, step)));
    }
    jobs
}

/// All lengths of all slices, and all combinations for the small inputs.
pub fn jobs<'a>(plan: &'a Plan) -> Vec<Job<'a>> {
    let step = plan.lent_step;
    let mut jobs: Vec<Job> = Vec::new();
    let inputs = [small_inputs(), refused_inputs(), large_inputs()].concat();
    for input in inputs {
        for slice in 0..input.slices().len() {
            let input = input.clone();
            jobs.push(Box::new(move |check| every_length(check, &input, slice, step)));
        }
    }
    for input in [small_inputs(), refused_inputs()].concat() {
        jobs.extend(combinations(input, step));
    }
    for batch in 0..plan.random_batches.div_ceil(4) {
        jobs.push(Box::new(move |check| random_lengths(check, plan, batch)));
    }
    jobs
}

/// Every input again with random lengths of all slices at once.
fn random_lengths(check: &mut Check, plan: &Plan, batch: usize) -> Result<(), Difference> {
    let mut random = plan.random(Section::Lent, batch);
    for input in [small_inputs(), refused_inputs()].concat() {
        check.compare(&input.lent_anew(&mut random))?;
    }
    Ok(())
}

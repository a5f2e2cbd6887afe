//! Random inputs up to every limit: texts, rules of up to 64 nodes, recordings
//! of up to 128 states and 11 controllers, judge's tables of up to 1,024 nodes,
//! valid and damaged, other schedules of the same local trace, and beginnings
//! of recordings.

use reference::generate::lines;
use reference::generate::random::Random;
use reference::generate::recordings::{self, RecordingTable};
use reference::generate::rules::{self, RuleTable};
use reference::generate::texts;
use reference::model::limits::{
    CONTROLLERS, RULE_NODES, STATES, TABLE_NODES, TWO_DIGIT_CONTROLLERS,
};

use crate::beginnings;
use crate::check::Check;
use crate::difference::Difference;
use crate::growth;
use crate::input::Input;
use crate::plan::Plan;
use crate::tally::{Operation, Section};
use crate::work::Job;
use crate::wrong::Place;

/// A controller of a recording, or now and then one that it doesn't have.
fn controller(random: &mut Random, recording: &RecordingTable) -> usize {
    let controllers = recording.controllers.clamp(1, CONTROLLERS);
    if random.once_in(8) {
        random.beyond(controllers)
    } else {
        random.below(controllers)
    }
}

/// A mask of own atoms: none, all, or any.
fn mask(random: &mut Random) -> u32 {
    let any = [random.word(), random.word() & random.word()];
    random.pick(&[0, u32::MAX, 3, any[0], any[0], any[1]])
}

/// A rule and a recording that can mostly be judged together.
fn rule_and_recording(random: &mut Random) -> (RuleTable, RecordingTable) {
    let recording = match random.below(3) {
        0 => recordings::any_recording(random, CONTROLLERS, STATES),
        _ => recordings::recording(random, CONTROLLERS, STATES),
    };
    let controllers = recording.controllers.clamp(1, CONTROLLERS);
    let rule = match random.below(3) {
        0 => rules::any_rule(random, RULE_NODES),
        _ => {
            let controller = random.below(controllers);
            rules::rule_for(random, controller, RULE_NODES)
        }
    };
    (rule, recording)
}

/// A random input of a text operation or an operation on rules.
fn input(random: &mut Random, operation: Operation) -> Input {
    match operation {
        Operation::ReadRule => Input::read_rule(texts::any_rule_text(random, RULE_NODES)),
        Operation::ReadLine => {
            let controller = if random.once_in(8) { random.beyond(CONTROLLERS) } else { 0 };
            Input::read_line(controller, lines::any_line(random))
        }
        Operation::WriteRule => Input::write_rule(rules::any_rule(random, RULE_NODES)),
        Operation::ReadRecording => {
            Input::read_recording(texts::any_recording_text(random, CONTROLLERS, STATES))
        }
        Operation::ReadJoint => {
            let (rule, recording) = texts::any_pair(random);
            Input::read_joint(rule, recording)
        }
        Operation::Project => {
            let recording = recordings::any_recording(random, CONTROLLERS, STATES);
            let controller = controller(random, &recording);
            Input::project(recording, controller)
        }
        Operation::JudgeLocal => {
            let (rule, recording) = rule_and_recording(random);
            Input::JudgeLocal { rule, recording }
        }
        Operation::JudgeRecording => whole_input(random),
        Operation::Evidence => {
            let (rule, recording) = rule_and_recording(random);
            Input::evidence(rule, recording, random.once_in(2))
        }
        _ => {
            let short = operation == Operation::RewriteShort;
            Input::rewrite(short, rules::any_rule(random, RULE_NODES), mask(random))
        }
    }
}

/// A table and a recording for the whole judge; one of the two is damaged now
/// and then, or both are.
fn whole_input(random: &mut Random) -> Input {
    let table = match random.below(3) {
        0 => rules::any_table(random, TABLE_NODES),
        _ => rules::table(random, TABLE_NODES),
    };
    let recording = match random.below(4) {
        0 => recordings::any_recording(random, CONTROLLERS, STATES),
        _ => recordings::recording(random, CONTROLLERS, STATES),
    };
    let controller = controller(random, &recording);
    Input::judge_recording(table, recording, controller)
}

/// The verdicts of a rule on a recording: local, plain and short, each
/// compared with the model's.
fn verdicts(
    check: &mut Check,
    rule: &RuleTable,
    recording: &RecordingTable,
) -> Result<[Vec<usize>; 3], Difference> {
    let local = Input::JudgeLocal { rule: rule.clone(), recording: recording.clone() };
    let local = check.compare(&local)?.values;
    let mut whole = |short| {
        let mask = recording.masks[rule.controller];
        let rewritten = check.compare(&Input::rewrite(short, rule.clone(), mask))?;
        let table = rewritten.rewritten_table();
        let input = Input::judge_recording(table, recording.clone(), rule.controller);
        Ok(check.compare(&input)?.values)
    };
    Ok([local, whole(false)?, whole(true)?])
}

/// Demand 3: a rule on two recordings of one local trace, six verdicts that
/// are one; half of the time one of eight controllers and one of eleven.
fn schedules(check: &mut Check, random: &mut Random) -> Result<(), Difference> {
    let mut one = recordings::recording(random, CONTROLLERS, STATES);
    let controller = random.below(one.controllers);
    let mut other = recordings::rescheduled(random, &one, controller);
    if controller < TWO_DIGIT_CONTROLLERS && random.once_in(2) {
        one = recordings::rescheduled_among(random, &one, TWO_DIGIT_CONTROLLERS, controller);
        other = recordings::rescheduled_among(random, &one, CONTROLLERS, controller);
    }
    let rule = rules::rule_for(random, controller, RULE_NODES);
    let mut expected = verdicts(check, &rule, &one)?;
    let found = verdicts(check, &rule, &other)?;
    if check.wrong(Operation::Schedules, Place::Value) {
        expected[0][0] ^= 1;
    }
    check.count(Operation::Schedules, 1, 0);
    let all: Vec<&Vec<usize>> = expected.iter().chain(&found).collect();
    if all.iter().any(|verdict| *verdict != all[0]) {
        let place = format!("verdicts of one local trace: {expected:?} and {found:?}");
        return Err(Difference::new(place, format!("{rule:?}, {one:?}, {other:?}")));
    }
    Ok(())
}

/// The beginnings of an accepted recording, "of one state or more and with N
/// lowered": all as tables, and one as text.
fn beginnings(check: &mut Check, random: &mut Random) -> Result<(), Difference> {
    let whole = recordings::recording(random, CONTROLLERS, STATES);
    let controller = random.below(whole.controllers);
    beginnings::each(check, &whole, controller)?;
    let length = random.between(1, whole.length);
    let cut = RecordingTable { length, states: whole.states[..length].to_vec(), ..whole };
    let text = Input::read_recording(texts::recording_text(&cut));
    let found = check.compare(&text)?.number;
    if found != 0 {
        let place = format!("a beginning of an accepted recording: {found}");
        return Err(Difference::new(place, text.to_string()));
    }
    Ok(())
}

/// One batch of inputs of all operations.
fn batch(check: &mut Check, plan: &Plan, number: usize) -> Result<(), Difference> {
    let mut random = plan.random(Section::Random, number);
    for operation in Operation::ALL {
        let inputs = match operation {
            Operation::JudgeRecording | Operation::Evidence => 12,
            _ => 50,
        };
        for _ in 0..inputs {
            let input = input(&mut random, operation).lent_anew(&mut random);
            check.compare(&input)?;
        }
    }
    for _ in 0..4 {
        schedules(check, &mut random)?;
        beginnings(check, &mut random)?;
        let rule = rules::rule(&mut random, RULE_NODES);
        growth::rewritings(check, &rule, mask(&mut random))?;
    }
    Ok(())
}

/// All batches.
pub fn jobs(plan: &Plan) -> Vec<Job<'_>> {
    let job = |number| -> Job { Box::new(move |check| batch(check, plan, number)) };
    (0..plan.random_batches).map(job).collect()
}

//! The model's outcome for an input.

use reference::generate::recordings::RecordingTable;
use reference::generate::rules::{JudgeTable, RuleTable};
use reference::model::gauges::{AsWorded, Gauging};
use reference::model::{self, Source, Verdict};

use crate::input::{Input, Lent, Space};
use crate::outcome::Outcome;

/// The outcome of an answer: the number alone on a refusal.
fn outcome<const N: usize>(answer: Result<[usize; N], u8>, lent: Vec<Vec<u64>>) -> Outcome {
    let number = answer.err().unwrap_or(0);
    Outcome { number, values: answer.unwrap_or([0; N]).to_vec(), lent }
}

/// A verdict as values: 1 for yes.
pub fn verdict_values(verdict: Verdict) -> [usize; 2] {
    [usize::from(verdict.weak), usize::from(verdict.strong)]
}

/// The outcome of reading a rule text.
fn read_rule(text: &[u8], nodes: Lent) -> Outcome {
    let mut nodes = Space::new(nodes);
    let answer = model::read_rule(text, nodes.lend());
    outcome(answer.map(|heading| [heading.controller, heading.count]), vec![nodes.words()])
}

/// The outcome of reading a rule in one line.
fn read_line(controller: usize, line: &[u8], nodes: Lent) -> Outcome {
    let mut nodes = Space::new(nodes);
    let answer = model::read_line(controller, line, nodes.lend());
    outcome(answer.map(|heading| [heading.controller, heading.count]), vec![nodes.words()])
}

/// The outcome of writing a rule text.
fn write_rule(rule: &RuleTable, text: Lent) -> Outcome {
    let mut text = Space::new(text);
    let answer = model::write_rule(rule.controller, rule.count, &rule.nodes, text.lend());
    outcome(answer.map(|length| [length]), vec![text.words()])
}

/// The outcome of reading a recording text.
fn read_recording(gauging: &dyn Gauging, text: &[u8], [masks, states]: [Lent; 2]) -> Outcome {
    let (mut masks, mut states) = (Space::new(masks), Space::new(states));
    let answer = model::read_recording_by(gauging, text, masks.lend(), states.lend());
    let answer = answer.map(|heading| [heading.controllers, heading.states]);
    outcome(answer, vec![masks.words(), states.words()])
}

/// The outcome of the joint reading.
fn read_joint(gauging: &dyn Gauging, [rule, recording]: [&[u8]; 2], lent: [Lent; 3]) -> Outcome {
    let [nodes, masks, states] = lent;
    let (mut nodes, mut masks) = (Space::new(nodes), Space::new(masks));
    let mut states = Space::new(states);
    let mut heading = [0; 5];
    let part = model::read_joint_by(
        gauging,
        rule,
        recording,
        nodes.lend(),
        masks.lend(),
        states.lend(),
        &mut heading,
    );
    let mut values: Vec<usize> = heading[1..].iter().map(|value| *value as usize).collect();
    values.extend([usize::from(part.source == Source::Recording), part.start, part.length]);
    let lent = vec![nodes.words(), masks.words(), states.words()];
    Outcome { number: heading[0] as u8, values, lent }
}

/// The outcome of projection.
fn project(recording: &RecordingTable, controller: usize, places: Lent) -> Outcome {
    let mut places = Space::new(places);
    let RecordingTable { controllers, length, masks, states } = recording;
    let answer = model::project(*controllers, *length, masks, states, controller, places.lend());
    outcome(answer.map(|length| [length]), vec![places.words()])
}

/// The model's local verdict.
pub fn judge_local(rule: &RuleTable, recording: &RecordingTable) -> Result<Verdict, u8> {
    let RuleTable { controller, count, nodes } = rule;
    let RecordingTable { controllers, length, masks, states } = recording;
    model::judge_local(*controller, *count, nodes, *controllers, *length, masks, states)
}

/// The outcome of a rewriting.
fn rewrite(short: bool, rule: &RuleTable, mask: u32, table: Lent) -> Outcome {
    let mut table = Space::new(table);
    let RuleTable { controller, count, nodes } = rule;
    let answer = model::rewrite(short, *controller, *count, nodes, mask, table.lend());
    let values = answer.map(|answer| [answer.count, answer.weak_top, answer.strong_top]);
    outcome(values, vec![table.words()])
}

/// The model's verdict over the whole recording.
pub fn judge_recording(
    table: &JudgeTable,
    recording: &RecordingTable,
    controller: usize,
    rows: &mut [u64],
) -> Result<Verdict, u8> {
    let JudgeTable { count, nodes, weak_top, strong_top } = table;
    let RecordingTable { controllers, length, masks, states } = recording;
    model::judge_recording(
        *count,
        nodes,
        *weak_top,
        *strong_top,
        *controllers,
        *length,
        masks,
        states,
        controller,
        rows,
    )
}

/// The model's pairs behind a verdict: how many.
pub fn evidence(
    rule: &RuleTable,
    recording: &RecordingTable,
    weak: bool,
    pairs: &mut [u32],
) -> Result<usize, u8> {
    let RuleTable { controller, count, nodes } = rule;
    let RecordingTable { controllers, length, masks, states } = recording;
    model::evidence(*controller, *count, nodes, *controllers, *length, masks, states, weak, pairs)
}

/// The outcome of making one text of the other.
fn archive(back: bool, text: &[u8], made: Lent) -> Outcome {
    let mut made = Space::new(made);
    let answer = match back {
        false => model::archive::to_archive(text, made.lend()),
        true => model::archive::from_archive(text, made.lend()),
    };
    outcome(answer.map(|length| [length]), vec![made.words()])
}

/// What the model answers and leaves.
pub fn of(input: &Input) -> Outcome {
    of_by(&AsWorded, input)
}

/// The same with gauges read otherwise than they are worded.
pub fn of_by(gauging: &dyn Gauging, input: &Input) -> Outcome {
    match input {
        Input::ReadRule { text, nodes } => read_rule(text, *nodes),
        Input::ReadLine { controller, line, nodes } => read_line(*controller, line, *nodes),
        Input::WriteRule { rule, text } => write_rule(rule, *text),
        Input::ReadRecording { text, masks, states } => {
            read_recording(gauging, text, [*masks, *states])
        }
        Input::ReadJoint { rule, recording, nodes, masks, states } => {
            read_joint(gauging, [rule, recording], [*nodes, *masks, *states])
        }
        Input::Project { recording, controller, places } => {
            project(recording, *controller, *places)
        }
        Input::JudgeLocal { rule, recording } => {
            outcome(judge_local(rule, recording).map(verdict_values), vec![])
        }
        Input::Rewrite { short, rule, mask, table } => rewrite(*short, rule, *mask, *table),
        Input::JudgeRecording { table, recording, controller, rows } => {
            let mut rows = Space::new(*rows);
            let answer = judge_recording(table, recording, *controller, rows.lend());
            outcome(answer.map(verdict_values), vec![rows.words()])
        }
        Input::Evidence { rule, recording, weak, pairs } => {
            let mut pairs = Space::new(*pairs);
            let answer = evidence(rule, recording, *weak, pairs.lend());
            outcome(answer.map(|count| [count]), vec![pairs.words()])
        }
        Input::Archive { back, text, made } => archive(*back, text, *made),
    }
}

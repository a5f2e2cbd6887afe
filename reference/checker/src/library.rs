//! The proved library's outcome for an input.

use ragyvosin::{Recording, Rule, Table};
use reference::generate::recordings::RecordingTable;
use reference::generate::rules::{JudgeTable, RuleTable};
use reference::model::limits;

use crate::input::{Input, Lent, Space};
use crate::outcome::Outcome;

/// A rule as the library takes it.
pub fn lent_rule(table: &RuleTable) -> Rule<'_> {
    Rule { controller: table.controller, count: table.count, nodes: &table.nodes }
}

/// A recording as the library takes it.
pub fn lent_recording(table: &RecordingTable) -> Recording<'_> {
    let RecordingTable { controllers, length, masks, states } = table;
    Recording { controllers: *controllers, count: *length, masks, states }
}

/// A judge's table as the library takes it.
pub fn table(table: &JudgeTable) -> Table<'_> {
    let JudgeTable { count, nodes, weak_top, strong_top } = table;
    Table { count: *count, nodes, weak_top: *weak_top, strong_top: *strong_top }
}

/// The outcome of a call with no or one lent slice.
fn outcome<const N: usize>((number, values): (u8, [usize; N]), lent: Vec<Vec<u64>>) -> Outcome {
    Outcome { number, values: values.to_vec(), lent }
}

/// The outcome of reading a recording text.
fn read_recording(text: &[u8], masks: Lent, states: Lent) -> Outcome {
    let (mut masks, mut states) = (Space::new(masks), Space::new(states));
    let answer = ragyvosin::read_recording(text, masks.lend(), states.lend());
    outcome(answer, vec![masks.words(), states.words()])
}

/// The outcome of the joint reading. The wrapper's part is the bytes between
/// start and length of the named text, so these three stand for it.
fn read_joint(rule: &[u8], recording: &[u8], [nodes, masks, states]: [Lent; 3]) -> Outcome {
    let (mut nodes, mut masks) = (Space::new(nodes), Space::new(masks));
    let mut states = Space::new(states);
    let answer = ragyvosin::read_joint(rule, recording, nodes.lend(), masks.lend(), states.lend());
    let part = [usize::from(!answer.of_rule), answer.start, answer.part.len()];
    let values = [&answer.values[..], &part].concat();
    let lent = vec![nodes.words(), masks.words(), states.words()];
    Outcome { number: answer.number, values, lent }
}

/// What the library's judge of the whole recording takes and is lent.
pub struct Whole {
    nodes: Vec<u32>,
    rows: Vec<u64>,
}

impl Whole {
    /// Space of the full sizes.
    pub fn new() -> Whole {
        Whole { nodes: vec![0; limits::TABLE_NODES], rows: vec![0; limits::ROW_WORDS] }
    }

    /// The verdicts of an accepted rule on an accepted recording, by the library
    /// alone: on the local trace, and of both rewritings over the whole
    /// recording; or the number of a refusal.
    pub fn verdicts(
        &mut self,
        rule: &RuleTable,
        recording: &RecordingTable,
    ) -> Result<[[usize; 2]; 3], u8> {
        let (rule, recording) = (lent_rule(rule), lent_recording(recording));
        let accepted = |(number, values)| if number == 0 { Ok(values) } else { Err(number) };
        let local = accepted(ragyvosin::judge_local(rule, recording))?;
        let c = rule.controller;
        let mut whole = |short| {
            let rewritten = ragyvosin::rewrite(short, rule, recording.masks[c], &mut self.nodes);
            let (0, [count, weak_top, strong_top]) = rewritten else { return Err(rewritten.0) };
            let table = Table { count, nodes: &self.nodes, weak_top, strong_top };
            accepted(ragyvosin::judge_recording(table, recording, c, &mut self.rows))
        };
        Ok([local, whole(false)?, whole(true)?])
    }
}

/// What the library answers and leaves.
pub fn of(input: &Input) -> Outcome {
    match input {
        Input::ReadRule { text, nodes } => {
            let mut nodes = Space::new(*nodes);
            outcome(ragyvosin::read_rule(text, nodes.lend()), vec![nodes.words()])
        }
        Input::ReadLine { controller, line, nodes } => {
            let mut nodes = Space::new(*nodes);
            let answer = ragyvosin::read_line(*controller, line, nodes.lend());
            outcome(answer, vec![nodes.words()])
        }
        Input::WriteRule { rule: table, text } => {
            let mut text = Space::new(*text);
            outcome(ragyvosin::write_rule(lent_rule(table), text.lend()), vec![text.words()])
        }
        Input::ReadRecording { text, masks, states } => read_recording(text, *masks, *states),
        Input::ReadJoint { rule, recording, nodes, masks, states } => {
            read_joint(rule, recording, [*nodes, *masks, *states])
        }
        Input::Project { recording, controller, places } => {
            let mut places = Space::new(*places);
            let answer = ragyvosin::project(lent_recording(recording), *controller, places.lend());
            outcome(answer, vec![places.words()])
        }
        Input::JudgeLocal { rule, recording } => {
            outcome(ragyvosin::judge_local(lent_rule(rule), lent_recording(recording)), vec![])
        }
        Input::Rewrite { short, rule, mask, table } => {
            let mut space = Space::new(*table);
            let answer = ragyvosin::rewrite(*short, lent_rule(rule), *mask, space.lend());
            outcome(answer, vec![space.words()])
        }
        Input::JudgeRecording { table: nodes, recording, controller, rows } => {
            let mut rows = Space::new(*rows);
            let (nodes, recording) = (table(nodes), lent_recording(recording));
            let answer = ragyvosin::judge_recording(nodes, recording, *controller, rows.lend());
            outcome(answer, vec![rows.words()])
        }
        Input::Evidence { rule, recording, weak, pairs } => {
            let mut pairs = Space::new(*pairs);
            let (rule, recording) = (lent_rule(rule), lent_recording(recording));
            let answer = ragyvosin::evidence(rule, recording, *weak, pairs.lend());
            outcome(answer, vec![pairs.words()])
        }
        Input::Archive { back, text, made } => {
            let mut made = Space::new(*made);
            let answer = match back {
                false => ragyvosin::to_archive(text, made.lend()),
                true => ragyvosin::from_archive(text, made.lend()),
            };
            outcome(answer, vec![made.words()])
        }
    }
}

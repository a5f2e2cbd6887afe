//! The operations, each with its sides and its inputs.

use crate::case::{Case, Side, Sides, Timed};
use crate::hand::{archive, evidence, line, plain, read, rewrite, tuned, write};
use crate::inputs::{LineInput, RuleInput, TableInput};
use crate::sessions::{self, Arrival, NewRule};
use ragyvosin::{full, Joint};
use reference::generate::random::Random;
use reference::generate::sessions::contents;
use reference::generate::texts::any_recording_text;
use reference::model::session::Contents;
use std::fmt::Debug;

/// Inputs that a side goes through in turn: so many that the predictor of
/// branches doesn't learn them by heart, as it can't learn new recordings.
const INPUTS: usize = 256;

/// Inputs, refused ones among them, on which the sides are compared.
const COMPARED: usize = 2000;

/// Bytes of a rule in one line for each node of the largest rule.
const LINE_BYTES: usize = 1024 / full::RULE_NODES;

/// Lent space is longer than its full size, and not zero at first.
fn lent<T: Copy>(full: usize, garbage: T) -> Vec<T> {
    vec![garbage; full + 3]
}

/// Lent space of the readers.
#[derive(Clone, PartialEq, Debug)]
struct ReadSpace {
    nodes: Vec<u32>,
    masks: Vec<u32>,
    states: Vec<u64>,
}

impl ReadSpace {
    fn new() -> ReadSpace {
        ReadSpace {
            nodes: lent(full::RULE_NODES, 0xa5a5_a5a5),
            masks: lent(full::MASKS, 0xa5a5_a5a5),
            states: lent(full::STATES, 0xa5a5_a5a5_a5a5_a5a5),
        }
    }
}

/// A joint answer without its borrow.
fn owned(joint: Joint) -> (u8, [usize; 4], bool, usize, usize) {
    (joint.number, joint.values, joint.of_rule, joint.start, joint.part.len())
}

/// Where the inputs of a case come from.
#[derive(Clone, Copy)]
enum Source {
    Exact { nodes: usize, states: usize },
    Rewritten { nodes: usize, states: usize },
    Any,
}

impl Source {
    fn count(self) -> usize {
        if matches!(self, Source::Any) {
            COMPARED
        } else {
            INPUTS
        }
    }

    fn rules(self) -> Vec<RuleInput> {
        let mut random = Random::new(7);
        let mut draw = || match self {
            Source::Exact { nodes, states } | Source::Rewritten { nodes, states } => {
                RuleInput::exact(&mut random, nodes, states)
            }
            Source::Any => RuleInput::any(&mut random),
        };
        (0..self.count()).map(|_| draw()).collect()
    }

    /// Lines of sixteen bytes for each node that a rule may have.
    fn lines(self) -> Vec<LineInput> {
        let mut random = Random::new(7);
        let mut draw = || match self {
            Source::Exact { nodes, .. } | Source::Rewritten { nodes, .. } => {
                LineInput::exact(&mut random, nodes * LINE_BYTES)
            }
            Source::Any => LineInput::any(&mut random),
        };
        (0..self.count()).map(|_| draw()).collect()
    }

    /// Recording texts with eight gauges; any text where any is asked for.
    fn gauged(self) -> Vec<Vec<u8>> {
        let mut random = Random::new(7);
        let mut draw = || match self {
            Source::Exact { nodes, states } | Source::Rewritten { nodes, states } => {
                RuleInput::exact(&mut random, nodes, states).gauged(&mut random)
            }
            Source::Any => any_recording_text(&mut random, full::MASKS, full::STATES),
        };
        (0..self.count()).map(|_| draw()).collect()
    }

    fn tables(self) -> Vec<TableInput> {
        let mut random = Random::new(7);
        let mut draw = || match self {
            Source::Exact { nodes, states } => TableInput::exact(&mut random, nodes, states),
            Source::Rewritten { nodes, states } => {
                TableInput::rewritten(&mut random, nodes, states)
            }
            Source::Any => TableInput::any(&mut random),
        };
        (0..self.count()).map(|_| draw()).collect()
    }
}

impl Source {
    fn sessions(self) -> Vec<Contents> {
        let mut random = Random::new(7);
        let mut draw = || match self {
            Source::Exact { nodes, states } | Source::Rewritten { nodes, states } => {
                sessions::exact(&mut random, nodes, states)
            }
            Source::Any => contents(&mut random),
        };
        (0..self.count()).map(|_| draw()).collect()
    }

    fn arrivals(self) -> (Vec<Contents>, Vec<Arrival>) {
        match self {
            Source::Exact { nodes, states } | Source::Rewritten { nodes, states } => {
                sessions::arrivals(nodes, states, self.count())
            }
            Source::Any => sessions::any_arrivals(self.count()),
        }
    }

    fn new_rules(self) -> (Vec<Contents>, Vec<NewRule>) {
        match self {
            Source::Exact { nodes, states } | Source::Rewritten { nodes, states } => {
                sessions::new_rules(nodes, states, self.count())
            }
            Source::Any => sessions::any_new_rules(self.count()),
        }
    }
}

fn boxed<I, L, A>(plan: Plan, inputs: Vec<I>, lent: L, sides: Sides<I, L, A>) -> Box<dyn Timed>
where
    I: 'static,
    L: Clone + PartialEq + Debug + 'static,
    A: PartialEq + Debug + 'static,
{
    Box::new(Case { name: format!("{} {}", plan.operation, plan.size()), inputs, lent, sides })
}

fn judge_recording(plan: Plan) -> Box<dyn Timed> {
    let sides: Sides<TableInput, Vec<u64>, _> = vec![
        (Side::Proved, |i, l| ragyvosin::judge_recording(i.table(), i.recording(), i.c, l)),
        (Side::Plain, |i, l| plain::judge_recording(i.table(), i.recording(), i.c, l)),
        (Side::Tuned, |i, l| tuned::judge_recording(i.table(), i.recording(), i.c, l)),
    ];
    let rows = lent(full::ROW_WORDS, 0xa5a5_a5a5_a5a5_a5a5);
    boxed(plan, plan.source.tables(), rows, sides)
}

fn judge_local(plan: Plan) -> Box<dyn Timed> {
    let sides: Sides<RuleInput, (), _> = vec![
        (Side::Proved, |i, _| ragyvosin::judge_local(i.rule(), i.recording())),
        (Side::Plain, |i, _| plain::judge_local(i.rule(), i.recording())),
        (Side::Tuned, |i, _| tuned::judge_local(i.rule(), i.recording())),
    ];
    boxed(plan, plan.source.rules(), (), sides)
}

/// Of the weak verdict or of the strong one, as the input says.
fn evidence(plan: Plan) -> Box<dyn Timed> {
    let sides: Sides<RuleInput, Vec<u32>, _> = vec![
        (Side::Proved, |i, l| ragyvosin::evidence(i.rule(), i.recording(), i.weak, l)),
        (Side::Plain, |i, l| evidence::evidence(i.rule(), i.recording(), i.weak, l)),
        (Side::JudgeLocal, |i, _| {
            let (number, [weak, _]) = ragyvosin::judge_local(i.rule(), i.recording());
            (number, [weak])
        }),
    ];
    boxed(plan, plan.source.rules(), lent(full::PAIRS, 0xa5a5_a5a5), sides)
}

fn project(plan: Plan) -> Box<dyn Timed> {
    let sides: Sides<RuleInput, Vec<u32>, _> = vec![
        (Side::Proved, |i, l| ragyvosin::project(i.recording(), i.controller(), l)),
        (Side::Plain, |i, l| plain::project(i.recording(), i.controller(), l)),
        (Side::Tuned, |i, l| tuned::project(i.recording(), i.controller(), l)),
    ];
    boxed(plan, plan.source.rules(), lent(full::PLACES, 0xa5a5_a5a5), sides)
}

fn rewrite_plain(plan: Plan) -> Box<dyn Timed> {
    let sides: Sides<RuleInput, Vec<u32>, _> = vec![
        (Side::Proved, |i, l| ragyvosin::rewrite(false, i.rule(), i.mask(), l)),
        (Side::Plain, |i, l| rewrite::rewrite(false, i.rule(), i.mask(), l)),
    ];
    boxed(plan, plan.source.rules(), lent(full::TABLE_NODES, 0xa5a5_a5a5), sides)
}

fn rewrite_short(plan: Plan) -> Box<dyn Timed> {
    let sides: Sides<RuleInput, Vec<u32>, _> = vec![
        (Side::Proved, |i, l| ragyvosin::rewrite(true, i.rule(), i.mask(), l)),
        (Side::Plain, |i, l| rewrite::rewrite(true, i.rule(), i.mask(), l)),
    ];
    boxed(plan, plan.source.rules(), lent(full::TABLE_NODES, 0xa5a5_a5a5), sides)
}

fn read_rule(plan: Plan) -> Box<dyn Timed> {
    let sides: Sides<RuleInput, Vec<u32>, _> = vec![
        (Side::Proved, |i, l| ragyvosin::read_rule(&i.rule_text, l)),
        (Side::Plain, |i, l| read::read_rule(&i.rule_text, l)),
    ];
    boxed(plan, plan.source.rules(), lent(full::RULE_NODES, 0xa5a5_a5a5), sides)
}

fn read_line(plan: Plan) -> Box<dyn Timed> {
    let sides: Sides<LineInput, Vec<u32>, _> = vec![
        (Side::Proved, |i, l| ragyvosin::read_line(i.controller, &i.line, l)),
        (Side::Plain, |i, l| line::read_line(i.controller, &i.line, l)),
    ];
    boxed(plan, plan.source.lines(), lent(full::RULE_NODES, 0xa5a5_a5a5), sides)
}

fn write_rule(plan: Plan) -> Box<dyn Timed> {
    let sides: Sides<RuleInput, Vec<u8>, _> = vec![
        (Side::Proved, |i, l| ragyvosin::write_rule(i.rule(), l)),
        (Side::Plain, |i, l| write::write_rule(i.rule(), l)),
    ];
    boxed(plan, plan.source.rules(), lent(full::RULE_BYTES, 0xa5), sides)
}

fn read_recording(plan: Plan) -> Box<dyn Timed> {
    let sides: Sides<RuleInput, ReadSpace, _> = vec![
        (Side::Proved, |i, l| {
            ragyvosin::read_recording(&i.recording_text, &mut l.masks, &mut l.states)
        }),
        (Side::Plain, |i, l| read::read_recording(&i.recording_text, &mut l.masks, &mut l.states)),
    ];
    boxed(plan, plan.source.rules(), ReadSpace::new(), sides)
}

/// A recording with gauges, read.
fn read_gauges(plan: Plan) -> Box<dyn Timed> {
    let sides: Sides<Vec<u8>, ReadSpace, _> = vec![
        (Side::Proved, |text, l| ragyvosin::read_recording(text, &mut l.masks, &mut l.states)),
        (Side::Plain, |text, l| read::read_recording(text, &mut l.masks, &mut l.states)),
    ];
    boxed(plan, plan.source.gauged(), ReadSpace::new(), sides)
}

fn to_archive(plan: Plan) -> Box<dyn Timed> {
    let sides: Sides<RuleInput, Vec<u8>, _> = vec![
        (Side::Proved, |i, l| ragyvosin::to_archive(&i.recording_text, l)),
        (Side::Plain, |i, l| archive::to_archive(&i.recording_text, l)),
    ];
    boxed(plan, plan.source.rules(), lent(full::ARCHIVE_BYTES, 0xa5), sides)
}

/// Of the archive texts of the recordings; of what has none, of the text itself.
fn from_archive(plan: Plan) -> Box<dyn Timed> {
    let archived = |input: RuleInput| {
        let read = reference::model::text::read_plain(&input.recording_text);
        read.map_or(input.recording_text, |read| reference::model::archive::write_archive(&read))
    };
    let sides: Sides<Vec<u8>, Vec<u8>, _> = vec![
        (Side::Proved, |i, l| ragyvosin::from_archive(i, l)),
        (Side::Plain, |i, l| archive::from_archive(i, l)),
    ];
    let inputs = plan.source.rules().into_iter().map(archived).collect();
    boxed(plan, inputs, lent(full::ARCHIVE_BYTES, 0xa5), sides)
}

fn read_joint(plan: Plan) -> Box<dyn Timed> {
    let sides: Sides<RuleInput, ReadSpace, _> = vec![
        (Side::Proved, |i, l| {
            let ReadSpace { nodes, masks, states } = l;
            owned(ragyvosin::read_joint(&i.rule_text, &i.recording_text, nodes, masks, states))
        }),
        (Side::Plain, |i, l| {
            let ReadSpace { nodes, masks, states } = l;
            owned(read::read_joint(&i.rule_text, &i.recording_text, nodes, masks, states))
        }),
    ];
    boxed(plan, plan.source.rules(), ReadSpace::new(), sides)
}

fn arrive(plan: Plan) -> Box<dyn Timed> {
    let (lent, inputs) = plan.source.arrivals();
    boxed(plan, inputs, lent, sessions::arrive())
}

fn replace_rule(plan: Plan) -> Box<dyn Timed> {
    let (lent, inputs) = plan.source.new_rules();
    boxed(plan, inputs, lent, sessions::replace_rule())
}

fn session_verdicts(plan: Plan) -> Box<dyn Timed> {
    boxed(plan, plan.source.sessions(), (), sessions::verdicts())
}

/// A session as it runs, the verdicts asked after each state.
fn session(plan: Plan) -> Box<dyn Timed> {
    boxed(plan, plan.source.rules(), sessions::space(), sessions::as_it_runs())
}

/// A case that isn't built yet: its inputs take long to draw.
#[derive(Clone, Copy)]
pub struct Plan {
    pub operation: &'static str,
    source: Source,
}

impl Plan {
    /// Nodes, states or both, as the operation has them.
    pub fn size(self) -> String {
        let (nodes, states) = match self.source {
            Source::Exact { nodes, states } | Source::Rewritten { nodes, states } => {
                (nodes, states)
            }
            Source::Any => return "any".into(),
        };
        match self.operation {
            "project" | "read_recording" | "read_gauges" | "arrive" | "to_archive"
            | "from_archive" => {
                format!("{states}")
            }
            "read_line" => format!("{}", nodes * LINE_BYTES),
            "rewrite_plain" | "rewrite_short" | "read_rule" | "write_rule" => format!("{nodes}"),
            _ => format!("{nodes}x{states}"),
        }
    }

    pub fn build(self) -> Box<dyn Timed> {
        match self.operation {
            "judge_local" => judge_local(self),
            "evidence" => evidence(self),
            "project" => project(self),
            "rewrite_plain" => rewrite_plain(self),
            "rewrite_short" => rewrite_short(self),
            "read_rule" => read_rule(self),
            "read_line" => read_line(self),
            "write_rule" => write_rule(self),
            "read_recording" => read_recording(self),
            "read_gauges" => read_gauges(self),
            "read_joint" => read_joint(self),
            "to_archive" => to_archive(self),
            "from_archive" => from_archive(self),
            "arrive" => arrive(self),
            "replace_rule" => replace_rule(self),
            "session_verdicts" => session_verdicts(self),
            "session" => session(self),
            _ => judge_recording(self),
        }
    }
}

/// The operations that take a rule, a recording or both.
const OF_RULES: [&str; 17] = [
    "judge_local",
    "evidence",
    "project",
    "rewrite_plain",
    "rewrite_short",
    "read_rule",
    "read_line",
    "write_rule",
    "read_recording",
    "read_gauges",
    "read_joint",
    "arrive",
    "replace_rule",
    "session_verdicts",
    "session",
    "to_archive",
    "from_archive",
];

/// Every operation, the judge of tables over its own source.
fn plans(tables: Source, rules: Source) -> Vec<Plan> {
    let mut plans = vec![Plan { operation: "judge_recording", source: tables }];
    if let Source::Exact { nodes, states } = rules {
        let source = Source::Rewritten { nodes, states };
        plans.push(Plan { operation: "judge_rewritten", source });
    }
    plans.extend(OF_RULES.map(|operation| Plan { operation, source: rules }));
    plans
}

/// Every operation at full, half and quarter size.
pub fn sized() -> Vec<Plan> {
    let part = |part| {
        let states = full::STATES / part;
        let tables = Source::Exact { nodes: full::TABLE_NODES / part, states };
        plans(tables, Source::Exact { nodes: full::RULE_NODES / part, states })
    };
    [1, 2, 4].into_iter().flat_map(part).collect()
}

/// Every operation on inputs of any size, most of them refused.
pub fn any() -> Vec<Plan> {
    plans(Source::Any, Source::Any)
}

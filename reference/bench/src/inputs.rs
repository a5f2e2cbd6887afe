//! Inputs of exact sizes, drawn from the generators of the reference model.

use ragyvosin::{Recording, Rule, Table};
use reference::generate::gauges::{gauged_by, gauged_text};
use reference::generate::lines;
use reference::generate::random::Random;
use reference::generate::recordings::{self, RecordingTable};
use reference::generate::rules::{self, JudgeTable, RuleTable};
use reference::generate::texts;
use reference::model::limits;

/// Steps the source on until the sizes that it gives next are the largest, so
/// that what a generator draws first comes out at full size.
fn seek(random: &mut Random, largest: &[usize]) {
    let full = |mut ahead: Random| largest.iter().all(|most| ahead.size(1, *most) == *most);
    while !full(random.clone()) {
        random.bits();
    }
}

/// So many controllers have the recordings that are timed.
const CONTROLLERS: usize = 8;

/// A recording of eight controllers.
fn recording(random: &mut Random, states: usize) -> RecordingTable {
    seek(random, &[CONTROLLERS, states]);
    let recording = recordings::recording(random, CONTROLLERS, states);
    assert!(recording.controllers == CONTROLLERS && recording.length == states);
    recording
}

/// A rule of so many nodes.
fn rule(random: &mut Random, controller: usize, nodes: usize) -> RuleTable {
    seek(random, &[nodes]);
    let rule = rules::rule_for(random, controller, nodes);
    assert_eq!(rule.count, nodes);
    rule
}

/// A table of so many nodes of all ten kinds.
fn table(random: &mut Random, nodes: usize) -> JudgeTable {
    seek(random, &[nodes]);
    let table = rules::table(random, nodes);
    assert_eq!(table.count, nodes);
    table
}

/// The controller that runs most often: its local trace is the longest.
fn busiest(recording: &RecordingTable) -> usize {
    let runs =
        |c: &usize| recording.states.iter().filter(|word| *word >> (32 + c) & 1 == 1).count();
    (0..recording.controllers).max_by_key(runs).expect("there are controllers")
}

/// A controller and a rule in one line.
pub struct LineInput {
    pub controller: usize,
    pub line: Vec<u8>,
}

impl LineInput {
    /// An accepted line of so many bytes.
    pub fn exact(random: &mut Random, bytes: usize) -> LineInput {
        LineInput {
            controller: random.below(limits::CONTROLLERS),
            line: lines::full(random, bytes),
        }
    }

    /// Any line, accepted or refused.
    pub fn any(random: &mut Random) -> LineInput {
        let controller = random.below(limits::CONTROLLERS + 1);
        LineInput { controller, line: lines::any_line(random) }
    }
}

/// A rule and a recording that has its controller, as tables and as texts.
pub struct RuleInput {
    rule: RuleTable,
    recording: RecordingTable,
    /// The verdict whose readings are asked for.
    pub weak: bool,
    pub rule_text: Vec<u8>,
    pub recording_text: Vec<u8>,
}

impl RuleInput {
    fn of(random: &mut Random, rule: RuleTable, recording: RecordingTable) -> RuleInput {
        let (rule_text, recording_text) =
            (texts::rule_text(&rule), texts::recording_text(&recording));
        RuleInput { rule, recording, weak: random.once_in(2), rule_text, recording_text }
    }

    /// An accepted input of exactly this size.
    pub fn exact(random: &mut Random, nodes: usize, states: usize) -> RuleInput {
        let recording = recording(random, states);
        let rule = rule(random, busiest(&recording), nodes);
        RuleInput::of(random, rule, recording)
    }

    /// Any input, accepted or refused.
    pub fn any(random: &mut Random) -> RuleInput {
        let rule = rules::any_rule(random, limits::RULE_NODES);
        let recording = recordings::any_recording(random, limits::CONTROLLERS, limits::STATES);
        let mut input = RuleInput::of(random, rule, recording);
        (input.rule_text, input.recording_text) = texts::any_pair(random);
        input
    }

    /// The recording's text with as many gauges as there may be.
    pub fn gauged(&self, random: &mut Random) -> Vec<u8> {
        gauged_text(&gauged_by(random, &self.recording, limits::GAUGES))
    }

    pub fn rule(&self) -> Rule<'_> {
        let RuleTable { controller, count, nodes } = &self.rule;
        Rule { controller: *controller, count: *count, nodes }
    }

    pub fn recording(&self) -> Recording<'_> {
        as_recording(&self.recording)
    }

    pub fn controller(&self) -> usize {
        self.rule.controller
    }

    /// The own atoms of the rule's controller; any word if it has no mask.
    pub fn mask(&self) -> u32 {
        self.recording.masks.get(self.rule.controller).copied().unwrap_or(0x5555_5555)
    }
}

/// A table for the whole judge, a recording and a controller.
pub struct TableInput {
    table: JudgeTable,
    recording: RecordingTable,
    pub c: usize,
}

impl TableInput {
    /// An accepted table of all ten kinds and of exactly this size.
    pub fn exact(random: &mut Random, nodes: usize, states: usize) -> TableInput {
        let recording = recording(random, states);
        let table = table(random, nodes);
        TableInput { table, c: busiest(&recording), recording }
    }

    /// The plain rewriting of a rule of exactly this size.
    pub fn rewritten(random: &mut Random, nodes: usize, states: usize) -> TableInput {
        let input = RuleInput::exact(random, nodes, states);
        let mut nodes = vec![0; limits::TABLE_NODES];
        let (_, [count, weak_top, strong_top]) =
            ragyvosin::rewrite(false, input.rule(), input.mask(), &mut nodes);
        let table = JudgeTable { count, nodes, weak_top, strong_top };
        TableInput { table, c: input.controller(), recording: input.recording }
    }

    /// The rewriting of an interlock over the longest recording: p becomes an
    /// own atom of the controller, q another one or a foreign one.
    pub fn interlock(random: &mut Random, rule: &str, own: bool, short: bool) -> TableInput {
        let (recording, c, [p, q]) = loop {
            let recording = recording(random, limits::STATES);
            let c = busiest(&recording);
            let mask = recording.masks[c];
            let (p, rest) = (mask.trailing_zeros(), mask & mask.wrapping_sub(1));
            let q = if own { rest } else { !mask }.trailing_zeros();
            if p < 32 && q < 32 {
                break (recording, c, [p, q]);
            }
        };
        let line = rule.replace('p', &format!("a{p}")).replace('q', &format!("a{q}"));
        let mut nodes = [0; limits::RULE_NODES];
        let (number, [controller, count]) = ragyvosin::read_line(c, line.as_bytes(), &mut nodes);
        assert_eq!(number, 0, "{line}");
        let mut table = vec![0; limits::TABLE_NODES];
        let rule = Rule { controller, count, nodes: &nodes };
        let (_, [count, weak_top, strong_top]) =
            ragyvosin::rewrite(short, rule, recording.masks[c], &mut table);
        TableInput { table: JudgeTable { count, nodes: table, weak_top, strong_top }, c, recording }
    }

    /// Any input, accepted or refused.
    pub fn any(random: &mut Random) -> TableInput {
        let table = rules::any_table(random, limits::TABLE_NODES);
        let recording = recordings::any_recording(random, limits::CONTROLLERS, limits::STATES);
        TableInput { table, recording, c: random.below(limits::CONTROLLERS) }
    }

    pub fn table(&self) -> Table<'_> {
        let JudgeTable { count, nodes, weak_top, strong_top } = &self.table;
        Table { count: *count, nodes, weak_top: *weak_top, strong_top: *strong_top }
    }

    pub fn recording(&self) -> Recording<'_> {
        as_recording(&self.recording)
    }
}

fn as_recording(recording: &RecordingTable) -> Recording<'_> {
    let RecordingTable { controllers, length, masks, states } = recording;
    Recording { controllers: *controllers, count: *length, masks, states }
}

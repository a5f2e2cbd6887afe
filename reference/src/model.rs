//! The operations and the programs of document 01 and of the requests that
//! have landed, over lent slices.
//!
//! Every operation says first what it answers as a pure function of what it
//! reads, then leaves that in lent space: untouched after 13, the full size
//! zero after another refusal, and the content followed by zeros when
//! accepted. What is lent past the full size is never touched. The calls of a
//! session, which a refusal leaves as it was, are in [`session`].

pub mod archive;
pub mod early;
pub mod evidence;
pub mod gauges;
pub mod limits;
pub mod one_line;
pub mod recording;
pub mod refusal;
pub mod rewriting;
pub mod rule;
pub mod semantics;
pub mod session;
pub mod text;
pub mod watching;
pub mod why;

use evidence::{walk, AsWorded, Pair};
use gauges::Gauging;
use recording::{check_recording, Recording};
use rule::{check_count, check_nodes, check_rule, Language, Node, Rule, ATOM, UNTIL};
use semantics::{local_readings, whole_readings, Reading, Readings};
use text::RefusedLine;

/// What reading a rule answers.
#[derive(Clone, Copy, PartialEq, Eq, Debug)]
pub struct RuleHeading {
    /// The rule's controller.
    pub controller: usize,
    /// Its node count.
    pub count: usize,
}

/// What reading a recording answers.
#[derive(Clone, Copy, PartialEq, Eq, Debug)]
pub struct RecordingHeading {
    /// C, the number of controllers.
    pub controllers: usize,
    /// N, the number of states.
    pub states: usize,
}

/// A weak and a strong verdict.
#[derive(Clone, Copy, PartialEq, Eq, Debug)]
pub struct Verdict {
    /// The weak verdict.
    pub weak: bool,
    /// The strong verdict.
    pub strong: bool,
}

/// What a rewriting answers.
#[derive(Clone, Copy, PartialEq, Eq, Debug)]
pub struct Rewriting {
    /// The node count of the rewritten table.
    pub count: usize,
    /// The number of its top weak node.
    pub weak_top: usize,
    /// The number of its top strong node.
    pub strong_top: usize,
}

/// One of the two texts of the joint reading.
#[derive(Clone, Copy, PartialEq, Eq, Debug)]
pub enum Source {
    /// The rule text.
    Rule,
    /// The recording text.
    Recording,
}

/// A part of one of the two texts of the joint reading.
#[derive(Clone, Copy, PartialEq, Eq, Debug)]
pub struct Part {
    /// The text it is a part of.
    pub source: Source,
    /// Where it starts in that text.
    pub start: usize,
    /// How many bytes it has.
    pub length: usize,
}

/// The condition of 13: lent for output and shorter than its full size.
fn too_short<T>(lent: &[T], full: usize) -> bool {
    lent.len() < full
}

/// Leaves a content and zeros after it, up to the full size.
fn leave<T: Copy + Default>(lent: &mut [T], full: usize, content: &[T]) {
    lent[..full].fill(T::default());
    lent[..content.len()].copy_from_slice(content);
}

/// The words of nodes in lent space.
fn node_words(nodes: &[Node]) -> Vec<u32> {
    nodes.iter().map(|node| node.word()).collect()
}

/// The words of states in lent space.
fn state_words(recording: &Recording) -> Vec<u64> {
    recording.states.iter().map(|state| state.word()).collect()
}

/// Leaves a rule that was read, or zeros.
fn leave_rule(nodes: &mut [u32], rule: Option<&Rule>) {
    let content = rule.map_or(Vec::new(), |rule| node_words(&rule.nodes));
    leave(nodes, limits::RULE_NODES, &content);
}

/// Leaves a recording that was read, or zeros.
fn leave_recording(masks: &mut [u32], states: &mut [u64], recording: Option<&Recording>) {
    let content = recording.map_or(&[][..], |recording| &recording.masks);
    leave(masks, limits::CONTROLLERS, content);
    leave(states, limits::STATES, &recording.map_or(Vec::new(), state_words));
}

/// "read a rule (controller, count, nodes)".
pub fn read_rule(text: &[u8], nodes: &mut [u32]) -> Result<RuleHeading, u8> {
    if too_short(nodes, limits::RULE_NODES) {
        return Err(refusal::LENT_SPACE);
    }
    let answer = text::read_rule(text);
    leave_rule(nodes, answer.as_ref().ok());
    let rule = answer.map_err(|refused| refused.number)?;
    Ok(RuleHeading { controller: rule.controller, count: rule.nodes.len() })
}

/// "Rules in one line": "the controller is given beside the line".
pub fn read_line(controller: usize, line: &[u8], nodes: &mut [u32]) -> Result<RuleHeading, u8> {
    if too_short(nodes, limits::RULE_NODES) {
        return Err(refusal::LENT_SPACE);
    }
    let answer = one_line::read(controller, line);
    let content = answer.as_ref().map_or(Vec::new(), |read| node_words(read));
    leave(nodes, limits::RULE_NODES, &content);
    answer.map(|read| RuleHeading { controller, count: read.len() })
}

/// "write one (length, text)".
pub fn write_rule(
    controller: usize,
    count: usize,
    nodes: &[u32],
    text: &mut [u8],
) -> Result<usize, u8> {
    if too_short(text, limits::RULE_TEXT) {
        return Err(refusal::LENT_SPACE);
    }
    let answer = check_rule(controller, count, nodes).map(|rule| text::write_rule(&rule));
    let content = answer.as_ref().map_or(&[][..], |written| written);
    leave(text, limits::RULE_TEXT, content);
    answer.map(|written| written.len())
}

/// "read a recording (C, N, masks, states)", the states finished where it has
/// gauges.
pub fn read_recording(
    text: &[u8],
    masks: &mut [u32],
    states: &mut [u64],
) -> Result<RecordingHeading, u8> {
    read_recording_by(&gauges::AsWorded, text, masks, states)
}

/// The same with gauges read otherwise than they are worded.
pub fn read_recording_by(
    gauging: &dyn Gauging,
    text: &[u8],
    masks: &mut [u32],
    states: &mut [u64],
) -> Result<RecordingHeading, u8> {
    if too_short(masks, limits::CONTROLLERS) || too_short(states, limits::STATES) {
        return Err(refusal::LENT_SPACE);
    }
    let answer = text::read_recording_by(gauging, text);
    leave_recording(masks, states, answer.as_ref().ok());
    let recording = answer.map_err(|refused| refused.number)?;
    Ok(RecordingHeading { controllers: recording.masks.len(), states: recording.states.len() })
}

/// The refused line of a text, as a number and a part.
fn refused_part(source: Source, refused: RefusedLine) -> (u8, Part) {
    let part = Part { source, start: refused.line.start, length: refused.line.len() };
    (refused.number, part)
}

/// The bytes that a part is of.
fn part_of<'a>(part: Part, rule_text: &'a [u8], recording_text: &'a [u8]) -> &'a [u8] {
    let text = match part.source {
        Source::Rule => rule_text,
        Source::Recording => recording_text,
    };
    &text[part.start..part.start + part.length]
}

/// Both texts: the whole rule text, the whole recording text, then 11.
fn joint(rule_text: &[u8], recording_text: &[u8]) -> Result<(Rule, Recording), (u8, Part)> {
    joint_by(&gauges::AsWorded, rule_text, recording_text)
}

/// The same with gauges read otherwise than they are worded.
fn joint_by(
    gauging: &dyn Gauging,
    rule_text: &[u8],
    recording_text: &[u8],
) -> Result<(Rule, Recording), (u8, Part)> {
    let rule = text::read_rule(rule_text).map_err(|refused| refused_part(Source::Rule, refused))?;
    let recording = text::read_recording_by(gauging, recording_text)
        .map_err(|refused| refused_part(Source::Recording, refused))?;
    recording.check_controller(rule.controller).map_err(|number| {
        refused_part(Source::Rule, RefusedLine { number, line: text::first_line(rule_text) })
    })?;
    Ok((rule, recording))
}

/// The heading of an accepted joint reading: number 0, controller, node count,
/// C and N.
fn joint_heading(rule: &Rule, recording: &Recording) -> [u32; 5] {
    let sizes = [rule.nodes.len(), recording.masks.len(), recording.states.len()];
    let [count, controllers, length] = sizes.map(|size| size as u32);
    [0, rule.controller as u32, count, controllers, length]
}

/// "The joint reading takes the rule text, then the recording text, and hands
/// back the refused line itself". `heading` gets the number (0 when accepted),
/// controller, node count, C and N, all zero but the number on a refusal.
pub fn read_joint(
    rule_text: &[u8],
    recording_text: &[u8],
    nodes: &mut [u32],
    masks: &mut [u32],
    states: &mut [u64],
    heading: &mut [u32; 5],
) -> Part {
    let worded = &gauges::AsWorded;
    read_joint_by(worded, rule_text, recording_text, nodes, masks, states, heading)
}

/// The same with gauges read otherwise than they are worded.
pub fn read_joint_by(
    gauging: &dyn Gauging,
    rule_text: &[u8],
    recording_text: &[u8],
    nodes: &mut [u32],
    masks: &mut [u32],
    states: &mut [u64],
    heading: &mut [u32; 5],
) -> Part {
    let short_masks_or_states =
        too_short(masks, limits::CONTROLLERS) || too_short(states, limits::STATES);
    if too_short(nodes, limits::RULE_NODES) || short_masks_or_states {
        *heading = [u32::from(refusal::LENT_SPACE), 0, 0, 0, 0];
        return Part { source: Source::Rule, start: 0, length: 0 };
    }
    let answer = joint_by(gauging, rule_text, recording_text);
    leave_rule(nodes, answer.as_ref().ok().map(|(rule, _)| rule));
    leave_recording(masks, states, answer.as_ref().ok().map(|(_, recording)| recording));
    match answer {
        Err((number, part)) => {
            *heading = [u32::from(number), 0, 0, 0, 0];
            part
        }
        Ok((rule, recording)) => {
            *heading = joint_heading(&rule, &recording);
            Part { source: Source::Recording, start: recording_text.len(), length: 0 }
        }
    }
}

/// "project (recording and c)": answers the local length L.
pub fn project(
    controllers: usize,
    length: usize,
    masks: &[u32],
    states: &[u64],
    controller: usize,
    places: &mut [u32],
) -> Result<usize, u8> {
    if too_short(places, limits::PLACES) {
        return Err(refusal::LENT_SPACE);
    }
    let answer = check_recording(controllers, length, masks, states).and_then(|recording| {
        recording.check_controller(controller)?;
        Ok(recording::project(&recording, controller).positions)
    });
    let content = answer.as_ref().map_or(&[][..], |positions| positions);
    leave(places, limits::PLACES, content);
    answer.map(|positions| positions.len())
}

/// The weak reading of one node and the strong reading of another at place 0.
fn verdict(readings: &Readings, weak_top: usize, strong_top: usize) -> Verdict {
    Verdict {
        weak: readings.at(weak_top, Reading::Weak, 0),
        strong: readings.at(strong_top, Reading::Strong, 0),
    }
}

/// "judge a rule on its local trace (rule and recording, for the rule's
/// controller)".
pub fn judge_local(
    controller: usize,
    count: usize,
    nodes: &[u32],
    controllers: usize,
    length: usize,
    masks: &[u32],
    states: &[u64],
) -> Result<Verdict, u8> {
    let rule = check_rule(controller, count, nodes)?;
    let recording = check_recording(controllers, length, masks, states)?;
    recording.check_controller(controller)?;
    let local = recording::project(&recording, controller);
    let readings = local_readings(&rule.nodes, &local);
    let last = rule.nodes.len() - 1;
    Ok(verdict(&readings, last, last))
}

/// "The readings behind a verdict", the weak one or the strong one: "For a rule
/// and a recording, checked as in judging on the local trace". Answers the
/// number of pairs.
#[allow(clippy::too_many_arguments)]
pub fn evidence(
    controller: usize,
    count: usize,
    nodes: &[u32],
    controllers: usize,
    length: usize,
    masks: &[u32],
    states: &[u64],
    weak: bool,
    pairs: &mut [u32],
) -> Result<usize, u8> {
    if too_short(pairs, limits::PAIRS) {
        return Err(refusal::LENT_SPACE);
    }
    let answer = check_rule(controller, count, nodes).and_then(|rule| {
        let recording = check_recording(controllers, length, masks, states)?;
        recording.check_controller(controller)?;
        let local = recording::project(&recording, controller);
        let found = walk(&AsWorded, &rule.nodes, &local, Reading::chosen(weak));
        Ok(found.into_iter().map(Pair::number).collect::<Vec<u32>>())
    });
    let content = answer.as_ref().map_or(&[][..], |numbers| numbers);
    leave(pairs, limits::PAIRS, content);
    answer.map(|numbers| numbers.len())
}

/// "rewrite plain or short (rule and own mask, any 32 bits)".
pub fn rewrite(
    short: bool,
    controller: usize,
    count: usize,
    nodes: &[u32],
    mask: u32,
    table: &mut [u32],
) -> Result<Rewriting, u8> {
    if too_short(table, limits::TABLE_NODES) {
        return Err(refusal::LENT_SPACE);
    }
    let answer =
        check_rule(controller, count, nodes).map(|rule| rewriting::rewrite(short, &rule, mask));
    let content = answer.as_ref().map_or(Vec::new(), |rewritten| node_words(&rewritten.nodes));
    leave(table, limits::TABLE_NODES, &content);
    answer.map(|rewritten| Rewriting {
        count: rewritten.nodes.len(),
        weak_top: rewritten.weak_top,
        strong_top: rewritten.strong_top,
    })
}

/// "A row is 128 yes-or-no marks with the count of states it covers": low
/// word, high word and count; mark k is bit k.
fn row(readings: &Readings, node: usize, reading: Reading, length: usize) -> [u64; 3] {
    let mut words = [0, 0, length as u64];
    for k in 0..length {
        if readings.at(node, reading, k) {
            words[k / 64] |= 1 << (k % 64);
        }
    }
    words
}

/// "a weak and a strong row for each node".
fn row_pairs(readings: &Readings, count: usize, length: usize) -> Vec<u64> {
    let mut words = Vec::with_capacity(count * limits::PAIR_WORDS);
    for node in 0..count {
        words.extend(row(readings, node, Reading::Weak, length));
        words.extend(row(readings, node, Reading::Strong, length));
    }
    words
}

/// The judge's table: its nodes (2, 3, 4), then its tops (2).
fn check_table(count: usize, nodes: &[u32], tops: [usize; 2]) -> Result<Vec<Node>, u8> {
    let table = check_nodes(count, nodes, Language::Rewritten)?;
    if tops.iter().any(|top| *top >= count) {
        return Err(refusal::RULE_LIMIT);
    }
    Ok(table)
}

/// "judge the whole recording".
#[allow(clippy::too_many_arguments)]
pub fn judge_recording(
    count: usize,
    nodes: &[u32],
    weak_top: usize,
    strong_top: usize,
    controllers: usize,
    length: usize,
    masks: &[u32],
    states: &[u64],
    controller: usize,
    rows: &mut [u64],
) -> Result<Verdict, u8> {
    if too_short(rows, limits::ROW_WORDS) {
        return Err(refusal::LENT_SPACE);
    }
    let answer = check_table(count, nodes, [weak_top, strong_top]).and_then(|table| {
        let recording = check_recording(controllers, length, masks, states)?;
        recording.check_controller(controller)?;
        Ok(whole_readings(&table, &recording, controller))
    });
    let content = answer.as_ref().map_or(Vec::new(), |readings| row_pairs(readings, count, length));
    leave(rows, limits::ROW_WORDS, &content);
    answer.map(|readings| verdict(&readings, weak_top, strong_top))
}

/// "Refused, it prints only `refused`, number, line, tab-parted".
fn refused_output(number: u8, line: &[u8]) -> Vec<u8> {
    text::printed(&[b"refused", number.to_string().as_bytes(), line])
}

/// A verdict's two words.
fn yes_or_no(verdict: bool) -> &'static [u8] {
    if verdict {
        b"yes"
    } else {
        b"no"
    }
}

/// The program's input as a rule and a recording, or the refusal number and the
/// refused line.
fn program_texts(input: &[u8]) -> Result<(Rule, Recording), (u8, &[u8])> {
    if input.len() > limits::PROGRAM_INPUT {
        return Err((refusal::PROGRAM_INPUT, &[]));
    }
    let (rule_text, recording_text) = text::split_input(input);
    joint(rule_text, recording_text)
        .map_err(|(number, part)| (number, part_of(part, rule_text, recording_text)))
}

/// The lines `local`, places, and `own`, weak, strong on the local trace.
fn local_lines(rule: &Rule, recording: &Recording) -> Vec<u8> {
    let local = recording::project(recording, rule.controller);
    let last = rule.nodes.len() - 1;
    let own = verdict(&local_readings(&rule.nodes, &local), last, last);
    let places = local.positions.len().to_string();
    let lines = [
        text::printed(&[b"local", places.as_bytes()]),
        text::printed(&[b"own", yes_or_no(own.weak), yes_or_no(own.strong)]),
    ];
    lines.concat()
}

/// The line `plain` or `short`, nodes, weak, strong.
fn rewritten_line(rule: &Rule, recording: &Recording, short: bool) -> Vec<u8> {
    let c = rule.controller;
    let rewritten = rewriting::rewrite(short, rule, recording.masks[c]);
    let readings = whole_readings(&rewritten.nodes, recording, c);
    let verdict = verdict(&readings, rewritten.weak_top, rewritten.strong_top);
    let word: &[u8] = if short { b"short" } else { b"plain" };
    let count = rewritten.nodes.len().to_string();
    let (weak, strong) = (yes_or_no(verdict.weak), yes_or_no(verdict.strong));
    text::printed(&[word, count.as_bytes(), weak, strong])
}

/// "The program": its whole standard input to its whole standard output.
pub fn program(input: &[u8]) -> Vec<u8> {
    match program_texts(input) {
        Err((number, line)) => refused_output(number, line),
        Ok((rule, recording)) => {
            let rewritten = |short| rewritten_line(&rule, &recording, short);
            [local_lines(&rule, &recording), rewritten(false), rewritten(true)].concat()
        }
    }
}

/// What the program says on standard error of an input that it refuses at a
/// line: `line`, the text it is of, and its number there, counted from 1.
pub fn program_says(input: &[u8]) -> Vec<u8> {
    if input.len() > limits::PROGRAM_INPUT {
        return Vec::new();
    }
    let (rule_text, recording_text) = text::split_input(input);
    let Err((_, part)) = joint(rule_text, recording_text) else {
        return Vec::new();
    };
    let (word, text): (&[u8], &[u8]) = match part.source {
        Source::Rule => (b"rule", rule_text),
        Source::Recording => (b"recording", recording_text),
    };
    let closed = text[..part.start].iter().filter(|byte| **byte == 10).count();
    text::printed(&[b"line", word, (closed + 1).to_string().as_bytes()])
}

/// A program of one line: from its input to its output. Refused, it prints
/// `refused` and the number, without a line field.
fn line_program(input: &[u8], answer: impl FnOnce(&[u8]) -> Result<Rule, u8>) -> Vec<u8> {
    let answer = if input.len() > limits::PROGRAM_INPUT {
        Err(refusal::PROGRAM_INPUT)
    } else {
        text::only_line(input).ok_or(refusal::RULE_FORM).and_then(answer)
    };
    match answer {
        Ok(rule) => text::write_rule(&rule),
        Err(number) => text::printed(&[b"refused", number.to_string().as_bytes()]),
    }
}

/// The controller and the rule of the line of the program `rule`, parted by a
/// tab.
fn typed(line: &[u8]) -> Option<(usize, &[u8])> {
    let at = line.iter().position(|byte| *byte == b'\t')?;
    Some((text::decimal(&line[..at])?, &line[at + 1..]))
}

/// The program `rule`: from its input to its output.
pub fn rule_program(input: &[u8]) -> Vec<u8> {
    line_program(input, |line| {
        let (controller, line) = typed(line).ok_or(refusal::RULE_FORM)?;
        Ok(Rule { controller, nodes: one_line::read(controller, line)? })
    })
}

/// "The rule that grows most": the nodes `atom 0` and n-1 times `until 0 0`.
pub fn longest_rule(n: usize) -> Rule {
    let mut nodes = vec![Node { kind: ATOM, first: 0, second: 0 }];
    nodes.resize(n, Node { kind: UNTIL, first: 0, second: 0 });
    Rule { controller: 0, nodes }
}

/// The program `longest`, from n: 1 for "other input that isn't one decimal
/// line", 2 "for n = 0 or above 64".
pub fn longest_program(input: &[u8]) -> Vec<u8> {
    line_program(input, |line| {
        let n = text::decimal(line).ok_or(refusal::RULE_FORM)?;
        check_count(n, Language::Rule)?;
        Ok(longest_rule(n))
    })
}

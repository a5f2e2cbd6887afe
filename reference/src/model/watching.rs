//! The program `watch`: a rule text, a line `-`, a line `session`, C, its
//! `owns` lines, and then the events, a line each or the lines of a new rule,
//! answered one by one.

use super::recording::{check_recording, State};
use super::rule::Rule;
use super::{judge_local, limits, node_words, refusal, refused_output, text, yes_or_no};

/// At most so many bytes of an event's line are printed.
const EVENT_BYTES: usize = 1024;

/// A refusal number and what is printed of the refused line.
type Refused = (u8, Vec<u8>);

/// What is held: "masks, a rule and its controller", and the states that
/// arrived and weren't withdrawn.
struct Held {
    rule: Rule,
    masks: Vec<u32>,
    states: Vec<State>,
}

impl Held {
    /// The words of the states in lent space, and of one more.
    fn words(&self, more: Option<State>) -> Vec<u64> {
        self.states.iter().copied().chain(more).map(State::word).collect()
    }

    /// An arrival: "17 .. tested before 6 and 10", then what the recording with
    /// that state is refused with.
    fn arrive(&mut self, state: State) -> Result<(), u8> {
        if self.states.len() == limits::STATES {
            return Err(refusal::SESSION_FULL);
        }
        let words = self.words(Some(state));
        check_recording(self.masks.len(), words.len(), &self.masks, &words)?;
        self.states.push(state);
        Ok(())
    }

    /// A withdrawal: "18, a withdrawal from an empty session".
    fn withdraw(&mut self) -> Result<(), u8> {
        self.states.pop().map(drop).ok_or(refusal::SESSION_EMPTY)
    }

    /// A new rule: 14 where its text is too long, the number and the line that
    /// the text is refused with, then 11 at its first line.
    fn replace(&mut self, text: &[u8]) -> Result<(), Refused> {
        if text.len() > limits::PROGRAM_INPUT {
            return Err((refusal::PROGRAM_INPUT, Vec::new()));
        }
        let rule = text::read_rule(text)
            .map_err(|refused| (refused.number, text[refused.line].to_vec()))?;
        if rule.controller >= self.masks.len() {
            return Err((refusal::CONTROLLER, text[text::first_line(text)].to_vec()));
        }
        self.rule = rule;
        Ok(())
    }

    /// An event of one line: 5 where it is none, then the call's number.
    fn event(&mut self, line: &[u8]) -> Result<(), u8> {
        let line = text::only_line(line).ok_or(refusal::RECORDING_FORM)?;
        if line == b"withdraw" {
            return self.withdraw();
        }
        self.arrive(text::state_of_line(self.masks.len(), line)?)
    }

    /// `states`, how many are held, and both verdicts with their word, "those
    /// of judging the remaining states from the start"; "An empty session has
    /// no verdict, and its answer says so".
    fn status(&self) -> Vec<u8> {
        let count = self.states.len().to_string();
        if self.states.is_empty() {
            return text::printed(&[b"states", count.as_bytes()]);
        }
        let (nodes, words) = (node_words(&self.rule.nodes), self.words(None));
        let (controllers, length) = (self.masks.len(), words.len());
        let controller = self.rule.controller;
        let verdict =
            judge_local(controller, nodes.len(), &nodes, controllers, length, &self.masks, &words)
                .expect("checked");
        let word: &[u8] = match (verdict.weak, verdict.strong) {
            (true, true) => b"kept",
            (false, false) => b"broken",
            _ => b"open",
        };
        let (weak, strong) = (yes_or_no(verdict.weak), yes_or_no(verdict.strong));
        text::printed(&[b"states", count.as_bytes(), weak, strong, word])
    }

    /// What is printed of an event: the status after it, or the refusal.
    fn answer(&mut self, event: &[u8]) -> Vec<u8> {
        let answer = if begins_rule(event) {
            self.replace(event)
        } else {
            let line = event[text::first_line(event)].to_vec();
            self.event(event).map_err(|number| (number, line))
        };
        match answer {
            Ok(()) => self.status(),
            Err((number, line)) => refused_output(number, &line[..line.len().min(EVENT_BYTES)]),
        }
    }
}

/// Is it the first line of a rule text: is its first field the word `rule`?
fn begins_rule(event: &[u8]) -> bool {
    let line = &event[text::first_line(event)];
    line.split(|byte| *byte == 9).next() == Some(b"rule")
}

/// How many lines the first event of these has: one; or those of a rule text, up
/// to its last line, to the first that is refused, or to the last that is there.
fn event_lines(lines: &[&[u8]]) -> usize {
    let lacks_lines = |count: &usize| {
        let read = text::read_rule(&lines[..*count].concat());
        read.is_err_and(|refused| refused.number == refusal::RULE_LINES)
    };
    if !begins_rule(lines[0]) {
        return 1;
    }
    (1..lines.len()).find(|count| !lacks_lines(count)).unwrap_or(lines.len())
}

/// The events that these lines are.
fn events_of(mut lines: &[&[u8]]) -> Vec<Vec<u8>> {
    let mut events = Vec::new();
    while !lines.is_empty() {
        let (event, after) = lines.split_at(event_lines(lines));
        events.push(event.concat());
        lines = after;
    }
    events
}

/// The next line of a text: 8 where it is missing, 5 where it isn't closed,
/// then what reading it is refused with.
fn next_line<T>(text: &mut &[u8], read: impl FnOnce(&[u8]) -> Result<T, u8>) -> Result<T, Refused> {
    if text.is_empty() {
        return Err((refusal::RECORDING_LINES, Vec::new()));
    }
    let (line, next) =
        text::closed_line(text, 0).ok_or((refusal::RECORDING_FORM, text.to_vec()))?;
    let line = &text[line];
    let value = read(line).map_err(|number| (number, line.to_vec()))?;
    *text = &text[next..];
    Ok(value)
}

/// The line `session`, C.
fn session_of_line(line: &[u8]) -> Result<usize, u8> {
    let number = line.strip_prefix(b"session\t").and_then(text::decimal);
    let controllers = number.ok_or(refusal::RECORDING_FORM)?;
    if !(1..=limits::CONTROLLERS).contains(&controllers) {
        return Err(refusal::RECORDING_LIMIT);
    }
    Ok(controllers)
}

/// The masks of the lines after the line `-`: 5 and 6 of the first, 5 and 7 of
/// each `owns` line.
fn session_masks(mut text: &[u8]) -> Result<Vec<u32>, Refused> {
    let controllers = next_line(&mut text, session_of_line)?;
    let mut masks: Vec<u32> = Vec::new();
    for _ in 0..controllers {
        let mask = next_line(&mut text, |line| {
            let mask = text::mask_of_line(line)?;
            if masks.iter().any(|earlier| earlier & mask != 0) {
                return Err(refusal::MASKS_MEET);
            }
            Ok(mask)
        })?;
        masks.push(mask);
    }
    Ok(masks)
}

/// What an opening text opens, if it is whole: 14, the rule's own number, those
/// of the lines after the line `-`, then 11 at the rule's first line. Nothing
/// where only lines are missing, and more may come.
fn opened(opening: &[u8], ended: bool) -> Option<Result<Held, Refused>> {
    if opening.len() > limits::PROGRAM_INPUT {
        return Some(Err((refusal::PROGRAM_INPUT, Vec::new())));
    }
    let (rule_text, session) = text::split_input(opening);
    let parted = rule_text.len() < opening.len();
    if !parted && !ended {
        return None;
    }
    let rule = match text::read_rule(rule_text) {
        Ok(rule) => rule,
        Err(refused) => return Some(Err((refused.number, rule_text[refused.line].to_vec()))),
    };
    match session_masks(session) {
        Err((refusal::RECORDING_LINES, _)) if !ended => None,
        Err(refused) => Some(Err(refused)),
        Ok(masks) if rule.controller >= masks.len() => {
            let line = rule_text[text::first_line(rule_text)].to_vec();
            Some(Err((refusal::CONTROLLER, line)))
        }
        Ok(masks) => Some(Ok(Held { rule, masks, states: Vec::new() })),
    }
}

/// The whole standard input, parted: how the opening ends, its text, and the
/// events where a session opens.
fn parted(input: &[u8]) -> (Result<Held, Refused>, &[u8], Vec<Vec<u8>>) {
    let lines: Vec<&[u8]> = input.split_inclusive(|byte| *byte == 10).collect();
    let mut length = 0;
    for (number, line) in lines.iter().enumerate() {
        length += line.len();
        match opened(&input[..length], false) {
            None => {}
            Some(Err(refused)) => return (Err(refused), &input[..length], Vec::new()),
            Some(held) => return (held, &input[..length], events_of(&lines[number + 1..])),
        }
    }
    (opened(input, true).expect("a line is missing"), input, Vec::new())
}

/// The text of the opening, and of each event.
pub fn events(input: &[u8]) -> (&[u8], Vec<Vec<u8>>) {
    let (_, opening, events) = parted(input);
    (opening, events)
}

/// The whole standard input to the whole standard output, as a line for the
/// opening and for each event.
pub fn answers(input: &[u8]) -> Vec<Vec<u8>> {
    match parted(input) {
        (Err((number, line)), _, _) => vec![refused_output(number, &line)],
        (Ok(mut held), _, events) => {
            let opening = vec![held.status()];
            let answers = events.iter().map(|event| held.answer(event));
            opening.into_iter().chain(answers).collect()
        }
    }
}

/// The program: its whole standard input to its whole standard output.
pub fn program(input: &[u8]) -> Vec<u8> {
    answers(input).concat()
}

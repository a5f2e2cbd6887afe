//! "Texts": one record a line, fields parted by one tab; "Lines from the other
//! system": a line ends in byte 10, or in bytes 13 and 10.

use std::ops::Range;

use super::gauges::{AsWorded, Before, Gauge, Gauging, Hundredths, Measured};
use super::recording::{self, Recording, State};
use super::rule::{self, Language, Node, Rule, KIND_WORDS};
use super::{limits, refusal};

/// The byte that closes a line.
const NEWLINE: u8 = 10;
/// The byte between two fields.
const TAB: u8 = 9;
/// The byte that may stand right before the byte that closes a line.
const RETURN: u8 = 13;

/// A refusal number and the refused line's place in its text.
#[derive(Clone, PartialEq, Eq, Debug)]
pub struct RefusedLine {
    /// The refusal number.
    pub number: u8,
    /// The line without its ending.
    pub line: Range<usize>,
}

/// "The line reader must take either ending, line by line": the closed line
/// that starts here, which "leaves out its ending", and where the next starts.
pub fn closed_line(text: &[u8], start: usize) -> Option<(Range<usize>, usize)> {
    let newline = (start..text.len()).find(|at| text[*at] == NEWLINE)?;
    let returned = start < newline && text[newline - 1] == RETURN;
    let end = if returned { newline - 1 } else { newline };
    Some((start..end, newline + 1))
}

/// The line that starts here: without its ending, or all that is left.
fn line_at(text: &[u8], start: usize) -> Range<usize> {
    closed_line(text, start).map_or(start..text.len(), |(line, _)| line)
}

/// The first line of a text.
pub fn first_line(text: &[u8]) -> Range<usize> {
    line_at(text, 0)
}

/// The line that a text is, if it is one closed line and nothing else.
pub fn only_line(text: &[u8]) -> Option<&[u8]> {
    let (line, next) = closed_line(text, 0)?;
    (next == text.len()).then_some(&text[line])
}

/// The lines of a text, in order.
pub(super) struct Lines<'a> {
    text: &'a [u8],
    start: usize,
    /// The number for a line that isn't closed.
    form: u8,
    /// The number for a line missing or one too many.
    lines: u8,
}

impl Lines<'_> {
    /// Reads one line and hands it to `read`. "for an unclosed line all that
    /// is left, for a missing line the empty end of that text".
    pub(super) fn read<T>(
        &mut self,
        read: impl FnOnce(&[u8]) -> Result<T, u8>,
    ) -> Result<T, RefusedLine> {
        let end = self.text.len();
        if self.start == end {
            return Err(RefusedLine { number: self.lines, line: end..end });
        }
        match closed_line(self.text, self.start) {
            None => Err(RefusedLine { number: self.form, line: self.start..end }),
            Some((line, next)) => {
                self.start = next;
                read(&self.text[line.clone()]).map_err(|number| RefusedLine { number, line })
            }
        }
    }

    /// Is the next line a closed one with this first field?
    fn next_is(&self, word: &[u8]) -> bool {
        let next = closed_line(self.text, self.start);
        next.is_some_and(|(line, _)| fields(&self.text[line])[0] == word)
    }

    /// "for a line too many the first extra one" (up to its ending or the end).
    pub(super) fn finish(&self) -> Result<(), RefusedLine> {
        if self.start == self.text.len() {
            return Ok(());
        }
        Err(RefusedLine { number: self.lines, line: line_at(self.text, self.start) })
    }
}

/// The fields of a line.
pub(super) fn fields(line: &[u8]) -> Vec<&[u8]> {
    line.split(|byte| *byte == TAB).collect()
}

/// The value of a decimal field: digits without leading zeros. A value too
/// large for a number here is outside every limit, as is the largest number.
pub fn decimal(field: &[u8]) -> Option<usize> {
    if field.is_empty() || !field.iter().all(u8::is_ascii_digit) {
        return None;
    }
    if field.len() > 1 && field[0] == b'0' {
        return None;
    }
    let digits = field.iter().map(|digit| usize::from(digit - b'0'));
    Some(digits.fold(0, |value: usize, digit| value.saturating_mul(10).saturating_add(digit)))
}

/// The value of a field of exactly so many lower-case hexadecimal digits.
fn hexadecimal(field: &[u8], digits: usize) -> Option<u32> {
    if field.len() != digits {
        return None;
    }
    let mut value = 0;
    for byte in field {
        let digit = match byte {
            b'0'..=b'9' => byte - b'0',
            b'a'..=b'f' => byte - b'a' + 10,
            _ => return None,
        };
        value = value * 16 + u32::from(digit);
    }
    Some(value)
}

/// "a kind word is one or more letters a to z".
fn is_kind_word(field: &[u8]) -> bool {
    !field.is_empty() && field.iter().all(u8::is_ascii_lowercase)
}

/// A heading: its word and two decimal fields; anything else isn't of its form.
fn heading(line: &[u8], word: &[u8]) -> Option<(usize, usize)> {
    let fields = fields(line);
    if fields.len() != 3 || fields[0] != word {
        return None;
    }
    Some((decimal(fields[1])?, decimal(fields[2])?))
}

/// The line `rule`, controller, node count.
fn rule_heading(line: &[u8]) -> Result<(usize, usize), u8> {
    let (controller, count) = heading(line, b"rule").ok_or(refusal::RULE_FORM)?;
    rule::check_controller(controller)?;
    rule::check_count(count, Language::Rule)?;
    Ok((controller, count))
}

/// A node line: "the kind word, spelt as above, and its operands, decimal".
/// After an unknown kind word any fields without byte 13 do; no other form has
/// a place for one, so "a byte 13 anywhere else still makes the line malformed".
fn node_of_line(line: &[u8]) -> Result<Node, u8> {
    let fields = fields(line);
    if !is_kind_word(fields[0]) {
        return Err(refusal::RULE_FORM);
    }
    let Some(kind) = KIND_WORDS.iter().position(|word| *word == fields[0]) else {
        let of_form = !line.contains(&RETURN);
        return Err(if of_form { refusal::RULE_LIMIT } else { refusal::RULE_FORM });
    };
    let kind = kind as u32;
    if fields.len() != 1 + rule::operand_count(kind) {
        return Err(refusal::RULE_FORM);
    }
    let mut operands = [0, 0];
    for (operand, field) in operands.iter_mut().zip(&fields[1..]) {
        *operand = decimal(field).ok_or(refusal::RULE_FORM)?;
    }
    Ok(Node { kind, first: operands[0], second: operands[1] })
}

/// A rule text: its lines (1, 2, 3 of each), then the line count (4).
pub fn read_rule(text: &[u8]) -> Result<Rule, RefusedLine> {
    let mut lines = Lines { text, start: 0, form: refusal::RULE_FORM, lines: refusal::RULE_LINES };
    let (controller, count) = lines.read(rule_heading)?;
    let mut nodes = Vec::new();
    for number in 0..count {
        nodes.push(lines.read(|line| {
            let node = node_of_line(line)?;
            rule::check_node(node, number, Language::Rule)?;
            Ok(node)
        })?);
    }
    lines.finish()?;
    Ok(Rule { controller, nodes })
}

/// The line `recording`, C, N.
fn recording_heading(line: &[u8]) -> Result<(usize, usize), u8> {
    let (controllers, length) = heading(line, b"recording").ok_or(refusal::RECORDING_FORM)?;
    recording::check_heading(controllers, length)?;
    Ok((controllers, length))
}

/// The line `owns`, mask.
pub fn mask_of_line(line: &[u8]) -> Result<u32, u8> {
    let fields = fields(line);
    if fields.len() != 2 || fields[0] != b"owns" {
        return Err(refusal::RECORDING_FORM);
    }
    hexadecimal(fields[1], 8).ok_or(refusal::RECORDING_FORM)
}

/// "Run marks are three hexadecimal digits where C is above 8 and two
/// otherwise, in every text."
pub fn mark_digits(controllers: usize) -> usize {
    if controllers > limits::TWO_DIGIT_CONTROLLERS {
        3
    } else {
        2
    }
}

/// The line `gauge`, atom, threshold.
fn gauge_of_line(gauging: &dyn Gauging, line: &[u8]) -> Result<Gauge, u8> {
    let fields = fields(line);
    if fields.len() != 3 || fields[0] != b"gauge" {
        return Err(refusal::RECORDING_FORM);
    }
    let atom = decimal(fields[1]).ok_or(refusal::RECORDING_FORM)?;
    let threshold = gauging.number(fields[2]).ok_or(refusal::RECORDING_FORM)?;
    Ok(Gauge { atom, threshold })
}

/// The line `at`, run marks, word, in a recording of so many controllers; with
/// so many gauges "each `at` line then ends with one value per gauge".
fn measured_of_line(
    gauging: &dyn Gauging,
    controllers: usize,
    gauges: usize,
    line: &[u8],
) -> Result<Measured, u8> {
    let fields = fields(line);
    if fields.len() != 3 + gauges || fields[0] != b"at" {
        return Err(refusal::RECORDING_FORM);
    }
    let scheduled =
        hexadecimal(fields[1], mark_digits(controllers)).ok_or(refusal::RECORDING_FORM)?;
    let atoms = hexadecimal(fields[2], 8).ok_or(refusal::RECORDING_FORM)?;
    let values = fields[3..].iter().map(|field| gauging.number(field));
    let values: Option<Vec<Hundredths>> = values.collect();
    let values = values.ok_or(refusal::RECORDING_FORM)?;
    Ok(Measured { state: State { atoms, scheduled }, values })
}

/// The line `at` of a session, whose "arriving words are finished ones".
pub fn state_of_line(controllers: usize, line: &[u8]) -> Result<State, u8> {
    Ok(measured_of_line(&AsWorded, controllers, 0, line)?.state)
}

/// The lines of a recording text, or of an archive text.
pub(super) fn recording_lines(text: &[u8]) -> Lines<'_> {
    Lines { text, start: 0, form: refusal::RECORDING_FORM, lines: refusal::RECORDING_LINES }
}

/// "the heading and `owns` lines": N and the masks (5, 6, 7 of each line).
pub(super) fn read_opening(lines: &mut Lines) -> Result<(usize, Vec<u32>), RefusedLine> {
    let (controllers, length) = lines.read(recording_heading)?;
    let mut masks = Vec::new();
    for _ in 0..controllers {
        masks.push(lines.read(|line| {
            let mask = mask_of_line(line)?;
            recording::check_mask(&masks, mask)?;
            Ok(mask)
        })?);
    }
    Ok((length, masks))
}

/// "After the `owns` lines a recording may have up to 8 lines `gauge`": 5, 6 and
/// 19 of each.
fn gauges_of_lines(gauging: &dyn Gauging, lines: &mut Lines) -> Result<Vec<Gauge>, RefusedLine> {
    let mut gauges = Vec::new();
    while gauges.len() < gauging.most() && lines.next_is(b"gauge") {
        gauges.push(lines.read(|line| {
            let gauge = gauge_of_line(gauging, line)?;
            gauging.check_gauge(&gauges, gauge)?;
            Ok(gauge)
        })?);
    }
    Ok(gauges)
}

/// "N lines `at`", with their finished words: 5, 6, 20 and 10 of each.
fn states_of_lines(
    gauging: &dyn Gauging,
    lines: &mut Lines,
    length: usize,
    masks: &[u32],
    gauges: &[Gauge],
) -> Result<Vec<State>, RefusedLine> {
    let controllers = masks.len();
    let mut states: Vec<State> = Vec::new();
    for _ in 0..length {
        states.push(lines.read(|line| {
            let measured = measured_of_line(gauging, controllers, gauges.len(), line)?;
            let state = states.last().copied();
            let before = Before { controllers, masks, gauges, state };
            gauging.check_state(before, &measured)
        })?);
    }
    Ok(states)
}

/// A recording text: its lines (5, 6, 7, 19, 20, 10 of each), then the line
/// count (8).
pub fn read_recording(text: &[u8]) -> Result<Recording, RefusedLine> {
    read_recording_by(&AsWorded, text)
}

/// "a recording without gauges": a gauge line is no `at` line.
pub fn read_plain(text: &[u8]) -> Result<Recording, RefusedLine> {
    let mut lines = recording_lines(text);
    let (length, masks) = read_opening(&mut lines)?;
    let states = states_of_lines(&AsWorded, &mut lines, length, &masks, &[])?;
    lines.finish()?;
    Ok(Recording { masks, states })
}

/// The same with gauges read otherwise than they are worded.
pub fn read_recording_by(gauging: &dyn Gauging, text: &[u8]) -> Result<Recording, RefusedLine> {
    let mut lines = recording_lines(text);
    let (length, masks) = read_opening(&mut lines)?;
    let gauges = gauges_of_lines(gauging, &mut lines)?;
    let states = states_of_lines(gauging, &mut lines, length, &masks, &gauges)?;
    lines.finish()?;
    Ok(Recording { masks, states })
}

/// Adds one record to a text.
pub(super) fn put_line(text: &mut Vec<u8>, fields: &[&[u8]]) {
    text.extend(fields.join(&TAB));
    text.push(NEWLINE);
}

/// "A writer gives this text from an accepted table".
pub fn write_rule(rule: &Rule) -> Vec<u8> {
    let mut text = Vec::new();
    let controller = rule.controller.to_string();
    let count = rule.nodes.len().to_string();
    put_line(&mut text, &[b"rule", controller.as_bytes(), count.as_bytes()]);
    for node in &rule.nodes {
        let word = KIND_WORDS[node.kind as usize];
        let first = node.first.to_string();
        let second = node.second.to_string();
        let fields = [word, first.as_bytes(), second.as_bytes()];
        put_line(&mut text, &fields[..1 + rule::operand_count(node.kind)]);
    }
    text
}

/// "split at the first such line; with none, the recording text is empty":
/// the rule text and the recording text around the first closed line `-`.
pub fn split_input(input: &[u8]) -> (&[u8], &[u8]) {
    let mut start = 0;
    while let Some((line, next)) = closed_line(input, start) {
        if input[line] == *b"-" {
            return (&input[..start], &input[next..]);
        }
        start = next;
    }
    (input, &[])
}

/// A line of the program's output.
pub fn printed(fields: &[&[u8]]) -> Vec<u8> {
    let mut line = Vec::new();
    put_line(&mut line, fields);
    line
}

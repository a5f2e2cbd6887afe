//! The readers of texts: lines by their byte 10, with byte 13 before it or not,
//! fields by their tabs.

use super::check;
use super::gauges::{hundredths, Gauges, Numbers};
use super::node::{self, ATOM, END, NEXT, NOT, OR, PREV, RUN, SINCE, TRUE, UNTIL};
use ragyvosin::{full, Joint};
use reference::model::{limits, refusal};

/// A refusal number and where its line starts.
pub struct Refused {
    pub number: u8,
    start: usize,
}

/// The lines of a text, with the numbers for their form and their count.
pub struct Lines<'a> {
    text: &'a [u8],
    start: usize,
    form: u8,
    missing: u8,
}

/// Where a byte first stands, or the end.
fn find(bytes: &[u8], byte: u8) -> Option<usize> {
    bytes.iter().position(|one| *one == byte)
}

/// A closed line without the byte 13 of its ending.
fn without_return(line: &[u8]) -> &[u8] {
    line.strip_suffix(b"\r").unwrap_or(line)
}

impl<'a> Lines<'a> {
    pub fn new(text: &'a [u8], form: u8, missing: u8) -> Lines<'a> {
        Lines { text, start: 0, form, missing }
    }

    pub fn refused(&self, number: u8) -> Refused {
        Refused { number, start: self.start }
    }

    /// Reads the next line.
    pub fn read<T>(&mut self, read: impl FnOnce(&'a [u8]) -> Result<T, u8>) -> Result<T, Refused> {
        let rest = &self.text[self.start..];
        if rest.is_empty() {
            return Err(self.refused(self.missing));
        }
        let end = find(rest, b'\n').ok_or_else(|| self.refused(self.form))?;
        let line = without_return(&rest[..end]);
        let value = read(line).map_err(|number| self.refused(number))?;
        self.start += end + 1;
        Ok(value)
    }

    /// Does the next line have this first field?
    fn next_is(&self, word: &[u8]) -> bool {
        let rest = self.text[self.start..].strip_prefix(word);
        rest.is_some_and(|rest| matches!(rest.first(), Some(b'\t' | b'\r' | b'\n')))
    }

    /// No line may be left.
    pub fn finish(&self) -> Result<(), Refused> {
        if self.start < self.text.len() {
            return Err(self.refused(self.missing));
        }
        Ok(())
    }
}

/// A part before the first tab, and what follows it.
pub fn split(line: &[u8]) -> Option<(&[u8], &[u8])> {
    let tab = find(line, b'\t')?;
    Some((&line[..tab], &line[tab + 1..]))
}

/// Digits without leading zeros; a value past every limit stays past it.
fn decimal(field: &[u8]) -> Option<usize> {
    if field.is_empty() || (field[0] == b'0' && field.len() > 1) {
        return None;
    }
    let mut value = 0usize;
    for byte in field {
        if !byte.is_ascii_digit() {
            return None;
        }
        value = value.saturating_mul(10).saturating_add(usize::from(byte - b'0'));
    }
    Some(value)
}

/// Exactly so many lower-case hexadecimal digits.
fn hexadecimal(field: &[u8], digits: usize) -> Option<u32> {
    if field.len() != digits {
        return None;
    }
    let mut value = 0;
    for byte in field {
        let digit = match byte {
            b'0'..=b'9' => byte - b'0',
            b'a'..=b'f' => byte - b'a' + 10,
            _ => return None,
        };
        value = value << 4 | u32::from(digit);
    }
    Some(value)
}

/// A heading's word and two numbers.
fn heading(line: &[u8], word: &[u8]) -> Option<(usize, usize)> {
    let (first, rest) = split(line)?;
    if first != word {
        return None;
    }
    let (one, two) = split(rest)?;
    Some((decimal(one)?, decimal(two)?))
}

fn kind_of(word: &[u8]) -> Option<u32> {
    Some(match word {
        b"true" => TRUE,
        b"atom" => ATOM,
        b"not" => NOT,
        b"or" => OR,
        b"next" => NEXT,
        b"until" => UNTIL,
        b"prev" => PREV,
        b"since" => SINCE,
        b"run" => RUN,
        b"end" => END,
        _ => return None,
    })
}

/// After an unknown word any fields without byte 13 do.
fn unknown_word(word: &[u8], line: &[u8]) -> u8 {
    let letters = !word.is_empty() && word.iter().all(u8::is_ascii_lowercase);
    if letters && find(line, b'\r').is_none() {
        return refusal::RULE_LIMIT;
    }
    refusal::RULE_FORM
}

/// The operands of a kind, each below the span of a node's word.
fn operands(kind: u32, rest: Option<&[u8]>) -> Option<[usize; 2]> {
    let largest = |value: usize| value.min(0xfff);
    match (kind, rest) {
        (TRUE | RUN | END, None) => Some([0, 0]),
        (ATOM | NOT | NEXT | PREV, Some(rest)) => Some([largest(decimal(rest)?), 0]),
        (OR | UNTIL | SINCE, Some(rest)) => {
            let (one, two) = split(rest)?;
            Some([largest(decimal(one)?), largest(decimal(two)?)])
        }
        _ => None,
    }
}

fn node_line(number: usize, line: &[u8]) -> Result<u32, u8> {
    let (word, rest) = match split(line) {
        Some((word, rest)) => (word, Some(rest)),
        None => (line, None),
    };
    let kind = kind_of(word).ok_or_else(|| unknown_word(word, line))?;
    let [first, second] = operands(kind, rest).ok_or(refusal::RULE_FORM)?;
    let word = node::word(kind, first, second);
    check::node(word, number, false)?;
    Ok(word)
}

/// Controller and count of a rule, its nodes into lent space.
fn scan_rule(text: &[u8], nodes: &mut [u32]) -> Result<[usize; 2], Refused> {
    let mut lines = Lines::new(text, refusal::RULE_FORM, refusal::RULE_LINES);
    let (controller, count) = lines.read(|line| {
        let (controller, count) = heading(line, b"rule").ok_or(refusal::RULE_FORM)?;
        check::rule_heading(controller, count)?;
        Ok((controller, count))
    })?;
    for (number, node) in nodes[..count].iter_mut().enumerate() {
        *node = lines.read(|line| node_line(number, line))?;
    }
    lines.finish()?;
    Ok([controller, count])
}

fn mask_line(seen: u32, line: &[u8]) -> Result<u32, u8> {
    let (word, rest) = split(line).ok_or(refusal::RECORDING_FORM)?;
    if word != b"owns" {
        return Err(refusal::RECORDING_FORM);
    }
    let mask = hexadecimal(rest, 8).ok_or(refusal::RECORDING_FORM)?;
    if seen & mask != 0 {
        return Err(refusal::MASKS_MEET);
    }
    Ok(mask)
}

/// The word of a state line of a recording of so many controllers, and its
/// values, one for each gauge.
fn state_line(controllers: usize, gauges: usize, line: &[u8]) -> Option<(u64, Numbers)> {
    let (word, rest) = split(line)?;
    if word != b"at" {
        return None;
    }
    let (marks, rest) = split(rest)?;
    let mut fields = rest.split(|byte| *byte == b'\t');
    let atoms = fields.next()?;
    let mut values = [0; limits::GAUGES];
    for value in &mut values[..gauges] {
        *value = hundredths(fields.next()?)?;
    }
    if fields.next().is_some() {
        return None;
    }
    let digits = if controllers > limits::TWO_DIGIT_CONTROLLERS { 3 } else { 2 };
    let (marks, atoms) = (hexadecimal(marks, digits)?, hexadecimal(atoms, 8)?);
    Some((u64::from(marks) << 32 | u64::from(atoms), values))
}

/// A gauge line's atom and threshold.
fn gauge_line(line: &[u8]) -> Option<(usize, i32)> {
    let (_, rest) = split(line)?;
    let (atom, threshold) = split(rest)?;
    Some((decimal(atom)?, hundredths(threshold)?))
}

/// The gauges of the lines after the masks, eight at most.
fn scan_gauges(lines: &mut Lines) -> Result<Gauges, Refused> {
    let mut gauges = Gauges::default();
    while gauges.count < limits::GAUGES && lines.next_is(b"gauge") {
        lines.read(|line| {
            let (atom, threshold) = gauge_line(line).ok_or(refusal::RECORDING_FORM)?;
            gauges.take(atom, threshold)
        })?;
    }
    Ok(gauges)
}

/// C and N of a recording, its masks into lent space.
pub fn scan_opening(lines: &mut Lines, masks: &mut [u32]) -> Result<[usize; 2], Refused> {
    let (controllers, count) = lines.read(|line| {
        let (controllers, count) = heading(line, b"recording").ok_or(refusal::RECORDING_FORM)?;
        check::recording_heading(controllers, count)?;
        Ok((controllers, count))
    })?;
    let mut seen = 0;
    for mask in masks[..controllers].iter_mut() {
        *mask = lines.read(|line| mask_line(seen, line))?;
        seen |= *mask;
    }
    Ok([controllers, count])
}

/// So many states of a recording with these gauges into lent space, and then the end.
fn scan_states(
    lines: &mut Lines,
    gauges: &Gauges,
    masks: &[u32],
    states: &mut [u64],
) -> Result<(), Refused> {
    let mut before = None;
    for word in states.iter_mut() {
        *word = lines.read(|line| {
            let line = state_line(masks.len(), gauges.count, line);
            let (state, values) = line.ok_or(refusal::RECORDING_FORM)?;
            check::marks(masks.len(), state)?;
            let state = gauges.finish(state, &values)?;
            check::output(masks, before, state)?;
            Ok(state)
        })?;
        before = Some(*word);
    }
    lines.finish()
}

/// C and N of a recording, its masks and states into lent space; gauge lines are
/// read where it may have gauges.
pub fn scan_recording(
    text: &[u8],
    gauged: bool,
    masks: &mut [u32],
    states: &mut [u64],
) -> Result<[usize; 2], Refused> {
    let mut lines = Lines::new(text, refusal::RECORDING_FORM, refusal::RECORDING_LINES);
    let [controllers, count] = scan_opening(&mut lines, masks)?;
    let gauges = if gauged { scan_gauges(&mut lines)? } else { Gauges::default() };
    scan_states(&mut lines, &gauges, &masks[..controllers], &mut states[..count])?;
    Ok([controllers, count])
}

pub fn read_rule(text: &[u8], nodes: &mut [u32]) -> (u8, [usize; 2]) {
    if nodes.len() < full::RULE_NODES {
        return (refusal::LENT_SPACE, [0; 2]);
    }
    let scanned = scan_rule(text, nodes);
    let used = scanned.as_ref().map_or(0, |[_, count]| *count);
    nodes[used..full::RULE_NODES].fill(0);
    scanned.map_or_else(|refused| (refused.number, [0; 2]), |values| (0, values))
}

pub fn read_recording(text: &[u8], masks: &mut [u32], states: &mut [u64]) -> (u8, [usize; 2]) {
    if masks.len() < full::MASKS || states.len() < full::STATES {
        return (refusal::LENT_SPACE, [0; 2]);
    }
    let scanned = scan_recording(text, true, masks, states);
    let [controllers, count] = *scanned.as_ref().unwrap_or(&[0; 2]);
    masks[controllers..full::MASKS].fill(0);
    states[count..full::STATES].fill(0);
    scanned.map_or_else(|refused| (refused.number, [0; 2]), |values| (0, values))
}

/// The refused line: up to its ending or the end.
fn refused_line<'a>(number: u8, of_rule: bool, text: &'a [u8], start: usize) -> Joint<'a> {
    let rest = &text[start..];
    let part = find(rest, b'\n').map_or(rest, |end| without_return(&rest[..end]));
    Joint { number, values: [0; 4], of_rule, start, part }
}

fn join<'a>(
    rule: &'a [u8],
    recording: &'a [u8],
    nodes: &mut [u32],
    masks: &mut [u32],
    states: &mut [u64],
) -> Joint<'a> {
    let [controller, count] = match scan_rule(rule, nodes) {
        Ok(values) => values,
        Err(refused) => return refused_line(refused.number, true, rule, refused.start),
    };
    let [controllers, length] = match scan_recording(recording, true, masks, states) {
        Ok(values) => values,
        Err(refused) => return refused_line(refused.number, false, recording, refused.start),
    };
    if controller >= controllers {
        return refused_line(refusal::CONTROLLER, true, rule, 0);
    }
    let start = recording.len();
    let values = [controller, count, controllers, length];
    Joint { number: 0, values, of_rule: false, start, part: &recording[start..] }
}

pub fn read_joint<'a>(
    rule: &'a [u8],
    recording: &'a [u8],
    nodes: &mut [u32],
    masks: &mut [u32],
    states: &mut [u64],
) -> Joint<'a> {
    if nodes.len() < full::RULE_NODES || masks.len() < full::MASKS || states.len() < full::STATES {
        return refused_line(refusal::LENT_SPACE, true, &rule[..0], 0);
    }
    let joint = join(rule, recording, nodes, masks, states);
    let [_, count, controllers, length] = joint.values;
    nodes[count..full::RULE_NODES].fill(0);
    masks[controllers..full::MASKS].fill(0);
    states[length..full::STATES].fill(0);
    joint
}

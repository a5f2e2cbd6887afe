//! Rule texts, recording texts and program inputs, and damage of every kind.

use super::endings::any_endings;
use super::gauges::with_or_without;
use super::random::Random;
use super::recordings::{self, RecordingTable};
use super::rules::{self, RuleTable};
use crate::model::limits;
use crate::model::recording::State;
use crate::model::rule::{operand_count, Node, KIND_WORDS};
use crate::model::text::mark_digits;

/// The text of a rule table, accepted or not: a kind that has no word gets an
/// unknown one.
pub fn rule_text(rule: &RuleTable) -> Vec<u8> {
    let mut text = format!("rule\t{}\t{}\n", rule.controller, rule.count).into_bytes();
    for word in &rule.nodes {
        let node = Node::of_word(*word);
        let kind = KIND_WORDS.get(node.kind as usize).copied();
        text.extend(kind.unwrap_or(b"sometimes"));
        for operand in &[node.first, node.second][..operand_count(node.kind)] {
            text.extend(format!("\t{operand}").into_bytes());
        }
        text.push(b'\n');
    }
    text
}

/// The text of a recording table, accepted or not. Run marks above those that
/// the digits hold make the field longer than it may be.
pub fn recording_text(recording: &RecordingTable) -> Vec<u8> {
    recording_text_with(recording, mark_digits(recording.controllers))
}

/// The same with run marks of at least so many digits.
pub fn recording_text_with(recording: &RecordingTable, digits: usize) -> Vec<u8> {
    let mut text = format!("recording\t{}\t{}\n", recording.controllers, recording.length);
    for mask in &recording.masks {
        text.push_str(&format!("owns\t{mask:08x}\n"));
    }
    for word in &recording.states {
        let state = State::of_word(*word);
        text.push_str(&format!("at\t{:0digits$x}\t{:08x}\n", state.scheduled, state.atoms));
    }
    text.into_bytes()
}

/// The input of the program: both texts around the line `-`.
pub fn program_input(rule: &[u8], recording: &[u8]) -> Vec<u8> {
    [rule, b"-\n", recording].concat()
}

/// The kinds of damage that a text is done.
#[derive(Clone, Copy, PartialEq, Eq, Debug)]
pub enum Damage {
    /// A byte becomes any byte.
    ByteChanged,
    /// A byte becomes, or is preceded by, byte 0, 9, 10, 13, 32 or 255.
    OddByte,
    /// A byte is dropped.
    ByteDropped,
    /// The text ends early.
    Cut,
    /// The text starts late.
    FrontCut,
    /// A part of the text, or all of it, comes twice.
    Doubled,
    /// Two lines change places.
    LinesSwapped,
    /// A line is dropped.
    LineDropped,
    /// A line comes twice.
    LineDoubled,
    /// A line too many, closed or not.
    LineAdded,
    /// A number at or beyond a limit.
    NumberChanged,
    /// A count of 99999999999999999999 in the first line.
    HugeCount,
    /// A hexadecimal or decimal digit becomes another.
    DigitChanged,
    /// The run marks of a state, or any field where there is none, with a digit
    /// more or one fewer.
    MarkDigits,
    /// A letter, or a hexadecimal digit, in upper case.
    UpperCase,
    /// A zero before a field.
    LeadingZero,
    /// A tab too many.
    TabAdded,
    /// A tab too few.
    TabDropped,
    /// A space for a tab.
    TabReplaced,
    /// The last byte 10 is missing.
    LastNewlineDropped,
    /// A byte 13 put before any byte.
    ReturnAdded,
    /// A line that ends in 13 13 10.
    ReturnDoubled,
    /// A line that ends in 13 alone.
    ReturnAlone,
    /// The first word of a line becomes another word.
    WordChanged,
    /// More fields after a line's own.
    FieldsAdded,
    /// An unknown kind word with any fields.
    UnknownWord,
    /// The last field of a line is dropped.
    FieldDropped,
    /// A threshold or value, or any field of digits where there is none, becomes
    /// one at or beyond the limits or not of its form.
    GaugeChanged,
}

/// Every kind of damage.
pub const DAMAGES: [Damage; 28] = [
    Damage::ByteChanged,
    Damage::OddByte,
    Damage::ByteDropped,
    Damage::Cut,
    Damage::FrontCut,
    Damage::Doubled,
    Damage::LinesSwapped,
    Damage::LineDropped,
    Damage::LineDoubled,
    Damage::LineAdded,
    Damage::NumberChanged,
    Damage::HugeCount,
    Damage::DigitChanged,
    Damage::MarkDigits,
    Damage::UpperCase,
    Damage::LeadingZero,
    Damage::TabAdded,
    Damage::TabDropped,
    Damage::TabReplaced,
    Damage::LastNewlineDropped,
    Damage::ReturnAdded,
    Damage::ReturnDoubled,
    Damage::ReturnAlone,
    Damage::WordChanged,
    Damage::FieldsAdded,
    Damage::UnknownWord,
    Damage::FieldDropped,
    Damage::GaugeChanged,
];

/// Numbers at and beyond each limit, and beyond what a machine word holds;
/// some would be small ones if they were cut to a word.
pub const NUMBERS: [&str; 39] = [
    "0",
    "1",
    "2",
    "6",
    "7",
    "8",
    "9",
    "10",
    "11",
    "12",
    "30",
    "31",
    "32",
    "33",
    "62",
    "63",
    "64",
    "65",
    "127",
    "128",
    "129",
    "255",
    "256",
    "257",
    "1023",
    "1024",
    "1025",
    "4095",
    "4096",
    "65536",
    "2147483648",
    "4294967295",
    "4294967296",
    "4294967297",
    "9223372036854775808",
    "18446744073709551615",
    "18446744073709551617",
    "99999999999999999999",
    "340282366920938463463374607431768211457",
];

/// Thresholds and values at and beyond each limit, and beyond what a machine word
/// holds, and what is nearly of their form.
pub const GAUGE_NUMBERS: [&str; 48] = [
    "0.00",
    "-0.00",
    "0.01",
    "-0.01",
    "0.09",
    "0.10",
    "9.99",
    "-10.00",
    "327.66",
    "327.67",
    "327.68",
    "-327.67",
    "-327.68",
    "-327.69",
    "328.00",
    "655.35",
    "655.36",
    "-655.36",
    "21474836.48",
    "42949672.96",
    "92233720368547758.08",
    "184467440737095516.16",
    "-184467440737095516.15",
    "18446744073709551616.00",
    "99999999999999999999.00",
    "-99999999999999999999.99",
    "00.50",
    "-00.01",
    "01.00",
    ".50",
    "-.50",
    "+1.00",
    "--1.00",
    "-+1.00",
    "1.5",
    "1.",
    "1",
    "-1",
    "-",
    ".",
    "",
    "1.500",
    "1,50",
    "1.5.0",
    "1.-5",
    "1.5x",
    " 1.50",
    "1e2",
];

/// Words that may or may not be first words of lines.
const WORDS: [&str; 22] = [
    "true",
    "atom",
    "not",
    "or",
    "next",
    "until",
    "prev",
    "since",
    "run",
    "end",
    "rule",
    "recording",
    "owns",
    "gauge",
    "at",
    "unti",
    "untill",
    "a",
    "True",
    "or2",
    "",
    "-",
];

/// The lines of a text, each with its ending if it has one.
fn lines(text: &[u8]) -> Vec<Vec<u8>> {
    text.split_inclusive(|byte| *byte == 10).map(<[u8]>::to_vec).collect()
}

/// The places of the bytes that a condition picks.
fn places(text: &[u8], condition: impl Fn(u8) -> bool) -> Vec<usize> {
    (0..text.len()).filter(|at| condition(text[*at])).collect()
}

/// The starts and ends of the fields that a condition picks; none is empty.
fn picked_fields(text: &[u8], condition: impl Fn(&[u8]) -> bool) -> Vec<(usize, usize)> {
    let mut found = Vec::new();
    let mut start = 0;
    for end in 0..=text.len() {
        if end == text.len() || matches!(text[end], 9 | 10 | 13) {
            if start < end && condition(&text[start..end]) {
                found.push((start, end));
            }
            start = end + 1;
        }
    }
    found
}

/// The starts and ends of the fields that are all digits.
fn numbers(text: &[u8]) -> Vec<(usize, usize)> {
    picked_fields(text, |field| field.iter().all(u8::is_ascii_digit))
}

/// The starts and ends of the fields with a point.
fn pointed(text: &[u8]) -> Vec<(usize, usize)> {
    picked_fields(text, |field| field.contains(&b'.'))
}

/// Puts bytes in place of a part of a text.
fn replace(text: &mut Vec<u8>, start: usize, end: usize, bytes: &[u8]) {
    text.splice(start..end, bytes.iter().copied());
}

/// Damage to single bytes.
fn damage_byte(random: &mut Random, text: &mut Vec<u8>, damage: Damage) {
    let at = random.below(text.len());
    let odd = random.pick(&[0, 9, 10, 13, 32, 255]);
    match damage {
        Damage::ByteChanged => text[at] = random.byte(),
        Damage::OddByte if random.once_in(2) => text[at] = odd,
        Damage::OddByte => text.insert(at, odd),
        Damage::ReturnAdded => text.insert(at, 13),
        Damage::ByteDropped => drop(text.remove(at)),
        Damage::Cut => text.truncate(at),
        Damage::FrontCut => drop(text.drain(..at)),
        _ => {
            let end = random.between(at, text.len());
            let (at, end) = if random.once_in(2) { (0, text.len()) } else { (at, end) };
            let part = text[at..end].to_vec();
            replace(text, end, end, &part);
        }
    }
}

/// Damage to whole lines.
fn damage_lines(random: &mut Random, text: &mut Vec<u8>, damage: Damage) {
    let mut lines = lines(text);
    let (one, other) = (random.below(lines.len()), random.below(lines.len()));
    match damage {
        Damage::LinesSwapped => lines.swap(one, other),
        Damage::LineDropped => drop(lines.remove(one)),
        Damage::LineDoubled => lines.insert(one, lines[one].clone()),
        _ => {
            let gauge: &[u8] = b"gauge\t3\t0.50\n";
            let closed: [&[u8]; 7] =
                [b"\n", b"\r\n", b"true\n", b"at\t00\t00000000\r\n", b"-\n", b"-\r\n", gauge];
            let more: [&[u8]; 7] =
                [b"x", b"\t\r", b"\r", b"x\r", b"x\r\r\n", b"\r\r\n", &gauge[..13]];
            let extra = if random.once_in(2) { closed } else { more };
            lines.push(random.pick(&extra).to_vec());
        }
    }
    *text = lines.concat();
}

/// Damage to a field of digits.
fn damage_number(random: &mut Random, text: &mut Vec<u8>, damage: Damage) {
    let numbers = numbers(text);
    if numbers.is_empty() {
        return;
    }
    let (start, end) = random.pick(&numbers);
    match damage {
        Damage::NumberChanged => {
            let heading = random.once_in(3);
            let (start, end) =
                if heading { numbers[random.below(numbers.len().min(2))] } else { (start, end) };
            replace(text, start, end, random.pick(&NUMBERS).as_bytes());
        }
        Damage::HugeCount => {
            let (start, end) = numbers[numbers.len().min(2) - 1];
            replace(text, start, end, b"99999999999999999999");
        }
        _ => replace(text, start, start, b"0"),
    }
}

/// Damage to a threshold or value, or to a field of digits where there is none.
fn damage_gauge(random: &mut Random, text: &mut Vec<u8>) {
    let pointed = pointed(text);
    let fields = if pointed.is_empty() { numbers(text) } else { pointed };
    if !fields.is_empty() {
        let (start, end) = random.pick(&fields);
        replace(text, start, end, random.pick(&GAUGE_NUMBERS).as_bytes());
    }
}

/// Damage to the number of digits of a state's run marks, or of any field where
/// there is no state.
fn damage_mark_digits(random: &mut Random, text: &mut Vec<u8>) {
    let tabs = places(text, |byte| byte == 9);
    let of_state = |at: &usize| text[..*at].ends_with(b"\nat");
    let states: Vec<usize> = tabs.iter().copied().filter(of_state).collect();
    let tabs = if states.is_empty() { tabs } else { states };
    if tabs.is_empty() {
        return;
    }
    let at = random.pick(&tabs) + 1;
    if at == text.len() || random.once_in(2) {
        text.insert(at, b'0');
    } else {
        text.remove(at);
    }
}

/// Damage to one of the bytes that a condition picks.
fn damage_picked(random: &mut Random, text: &mut Vec<u8>, damage: Damage) {
    let picked = match damage {
        Damage::DigitChanged => places(text, |byte| byte.is_ascii_hexdigit()),
        Damage::UpperCase => places(text, |byte| byte.is_ascii_lowercase()),
        Damage::ReturnDoubled | Damage::ReturnAlone => places(text, |byte| byte == 10),
        _ => places(text, |byte| byte == 9),
    };
    if picked.is_empty() {
        return;
    }
    let at = random.pick(&picked);
    match damage {
        Damage::DigitChanged => text[at] = random.pick(b"0123456789abcdef"),
        Damage::UpperCase => text[at] = text[at].to_ascii_uppercase(),
        Damage::ReturnDoubled => replace(text, at, at, b"\r\r"),
        Damage::ReturnAlone => text[at] = 13,
        Damage::TabAdded => text.insert(at, 9),
        Damage::TabDropped => drop(text.remove(at)),
        _ => text[at] = 32,
    }
}

/// An unknown kind word with fields that may hold anything but byte 10, and
/// now and then byte 13.
fn unknown_line(random: &mut Random) -> Vec<u8> {
    let mut line = random.pick(&["foo", "unti", "z", "rule", "sincee"]).as_bytes().to_vec();
    for _ in 0..random.below(3) {
        let bytes = [0, 9, 32, 48, 97, 127, 255, if random.once_in(3) { 13 } else { 90 }];
        let field = (0..random.below(4)).map(|_| random.pick(&bytes));
        line.extend([9].into_iter().chain(field));
    }
    line
}

/// Damage to the fields of a line.
fn damage_fields(random: &mut Random, text: &mut Vec<u8>, damage: Damage) {
    let mut lines = lines(text);
    let one = random.below(lines.len());
    let endings: [&[u8]; 3] = [b"\r\n", b"\n", b""];
    let ending = endings.into_iter().find(|ending| lines[one].ends_with(ending));
    let ending = ending.expect("every line ends in nothing");
    let mut line = lines[one].clone();
    line.truncate(line.len() - ending.len());
    let word = line.iter().position(|byte| *byte == 9).unwrap_or(line.len());
    match damage {
        Damage::WordChanged => replace(&mut line, 0, word, random.pick(&WORDS).as_bytes()),
        Damage::FieldsAdded => {
            line.extend(random.pick(&["\t", "\t0", "\t1\t2", "\tx", " 0", "\t0.00"]).bytes())
        }
        Damage::UnknownWord => line = unknown_line(random),
        _ => line.truncate(line.iter().rposition(|byte| *byte == 9).unwrap_or(0)),
    }
    line.extend(ending);
    lines[one] = line;
    *text = lines.concat();
}

/// A text with one damage of a kind.
pub fn damage(random: &mut Random, text: &[u8], damage: Damage) -> Vec<u8> {
    let mut text = text.to_vec();
    if text.is_empty() {
        return text;
    }
    match damage {
        Damage::ByteChanged
        | Damage::OddByte
        | Damage::ReturnAdded
        | Damage::ByteDropped
        | Damage::Cut
        | Damage::FrontCut
        | Damage::Doubled => damage_byte(random, &mut text, damage),
        Damage::LinesSwapped | Damage::LineDropped | Damage::LineDoubled | Damage::LineAdded => {
            damage_lines(random, &mut text, damage);
        }
        Damage::NumberChanged | Damage::HugeCount | Damage::LeadingZero => {
            damage_number(random, &mut text, damage);
        }
        Damage::MarkDigits => damage_mark_digits(random, &mut text),
        Damage::GaugeChanged => damage_gauge(random, &mut text),
        Damage::LastNewlineDropped => drop(text.pop()),
        Damage::WordChanged | Damage::FieldsAdded | Damage::UnknownWord | Damage::FieldDropped => {
            damage_fields(random, &mut text, damage)
        }
        _ => damage_picked(random, &mut text, damage),
    }
    text
}

/// A text with one damage or a few, of any kinds.
pub fn damaged(random: &mut Random, text: &[u8]) -> Vec<u8> {
    let mut text = text.to_vec();
    for _ in 0..random.pick(&[1, 1, 1, 1, 2, 3]) {
        let kind = random.pick(&DAMAGES);
        text = damage(random, &text, kind);
    }
    text
}

/// A rule text: of an accepted table, of a damaged one, damaged itself, or
/// any bytes at all.
pub fn any_rule_text(random: &mut Random, most: usize) -> Vec<u8> {
    let valid = rule_text(&rules::rule(random, most));
    let valid = any_endings(random, valid);
    match random.below(12) {
        0..=2 => valid,
        3 | 4 => {
            let rule = rule_text(&rules::damaged_rule(random, most));
            any_endings(random, rule)
        }
        5 => any_bytes(random),
        _ => damaged(random, &valid),
    }
}

/// A recording text, likewise, with gauges or without.
pub fn any_recording_text(
    random: &mut Random,
    most_controllers: usize,
    most_states: usize,
) -> Vec<u8> {
    let valid = recordings::recording(random, most_controllers, most_states);
    let valid = with_or_without(random, &valid);
    let valid = any_endings(random, valid);
    match random.below(12) {
        0..=2 => valid,
        3 | 4 => {
            let damaged = recordings::damaged_recording(random, most_controllers, most_states);
            let damaged = with_or_without(random, &damaged);
            any_endings(random, damaged)
        }
        5 => any_bytes(random),
        _ => damaged(random, &valid),
    }
}

/// A few bytes: any at all, or those that texts are made of.
pub fn any_bytes(random: &mut Random) -> Vec<u8> {
    let common = b"\t\t\n\n01289afrutlenaotwx-.\r\0\xff";
    let any = random.once_in(2);
    (0..random.below(60)).map(|_| if any { random.byte() } else { random.pick(common) }).collect()
}

/// Both texts for a joint reading; the rule's controller is below C most of
/// the time.
pub fn any_pair(random: &mut Random) -> (Vec<u8>, Vec<u8>) {
    let recording = recordings::recording(random, limits::CONTROLLERS, limits::STATES);
    let controller = random.below(recording.controllers);
    let rule = rules::rule_for(random, controller, limits::RULE_NODES);
    let rule = any_endings(random, rule_text(&rule));
    let recording = with_or_without(random, &recording);
    let recording = any_endings(random, recording);
    match random.below(8) {
        0 | 1 => (rule, recording),
        2 => {
            let rule = rule_text(&rules::rule(random, 8));
            (any_endings(random, rule), recording)
        }
        3 | 4 => (any_rule_text(random, limits::RULE_NODES), recording),
        5 | 6 => (rule, any_recording_text(random, limits::CONTROLLERS, limits::STATES)),
        _ => {
            let rule = any_rule_text(random, limits::RULE_NODES);
            (rule, any_recording_text(random, limits::CONTROLLERS, limits::STATES))
        }
    }
}

/// An input of the program: two texts, the parting line damaged now and then,
/// and now and then grown to its limit or beyond.
pub fn any_program_input(random: &mut Random) -> Vec<u8> {
    let (rule, recording) = any_pair(random);
    let odd: [&[u8]; 6] = [b"", b"-", b"-\n-\n", b"-\r", b"-\r\r\n", b"-\r\n-\n"];
    let mut input = match random.below(10) {
        0..=2 => [&rule[..], random.pick(&odd), &recording[..]].concat(),
        3 => [&rule[..], b"-\r\n", &recording[..]].concat(),
        4 => {
            let first: &[u8] = random.pick(&[&b"-\n"[..], b"-\r\n"]);
            [first, &rule, b"-\n", &recording[..]].concat()
        }
        5 => [&rule[..], random.pick(&[&b"-"[..], b"-\r"])].concat(),
        _ => program_input(&rule, &recording),
    };
    if random.once_in(6) {
        input = damaged(random, &input);
    }
    if random.once_in(12) {
        let grown = random.between(limits::PROGRAM_INPUT - 1, limits::PROGRAM_INPUT + 2);
        let with = random.pick(&[0, 9, 10, 13, 48, 97]);
        input.resize(grown, with);
    }
    input
}

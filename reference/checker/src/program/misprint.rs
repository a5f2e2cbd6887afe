//! Wrong printers on purpose: of the programs `why`, `longest` and `watch`.

use reference::model::limits::RULE_NODES;
use reference::model::{longest_program, longest_rule, text};

use crate::program::miswatched::Miswatched;
use crate::program::{Expected, WHY};

/// The wrong printers.
#[derive(Clone, Copy, PartialEq, Eq, Debug)]
pub enum Misprint {
    /// The place for the state.
    StepForState,
    /// The node for the atom.
    NodeForAtom,
    /// The bit turned over.
    BitTurned,
    /// The pairs of the other reading.
    OtherReading,
    /// The first line counted where a refused line stands.
    FirstCounted,
    /// One node above the limit accepted.
    OneMore,
    /// Leading zeros accepted.
    LeadingZeros,
    /// An unclosed line accepted.
    Unclosed,
    /// A line field after a refusal.
    LineField,
    /// A number taken in 64 bits, whatever comes before.
    Wrapped,
    /// A wrong printer of `watch`.
    Watched(Miswatched),
}

/// Where the numbers are among the fields of a pair's line.
const STATE: usize = 1;
const STEP: usize = 3;
const ATOM: usize = 5;
const IS: usize = 7;
const NODE: usize = 9;

/// The lines of a text, each without its ending.
fn lines(text: &[u8]) -> Vec<&[u8]> {
    text.strip_suffix(b"\n").unwrap_or(text).split(|byte| *byte == b'\n').collect()
}

/// The lines as one text again.
fn closed<L: AsRef<[u8]>>(lines: &[L]) -> Vec<u8> {
    lines.iter().flat_map(|line| [line.as_ref(), b"\n"].concat()).collect()
}

/// An output with the fields of each pair's line altered.
fn each_pair(output: &[u8], alter: impl Fn(&mut Vec<Vec<u8>>)) -> Vec<u8> {
    let mut altered = Vec::new();
    for line in lines(output) {
        let mut fields: Vec<Vec<u8>> = line.split(|byte| *byte == b'\t').map(Vec::from).collect();
        if fields.len() > NODE {
            alter(&mut fields);
        }
        altered.push(fields.join(&b'\t'));
    }
    closed(&altered)
}

/// The same input with the other word in its first line; any other as it is.
fn other_reading(input: &[u8]) -> Vec<u8> {
    let words: [[&[u8]; 2]; 2] = [[b"weak\n", b"strong\n"], [b"strong\n", b"weak\n"]];
    let other = |[word, other]: &[&[u8]; 2]| {
        input.strip_prefix(*word).map(|texts| [*other, texts].concat())
    };
    words.iter().find_map(other).unwrap_or(input.to_vec())
}

/// The place of a refused line with the first line counted.
fn counted(errors: &[u8]) -> Vec<u8> {
    let said = String::from_utf8(errors.to_vec()).expect("words and a number");
    let Some((before, number)) = said.trim_end().rsplit_once('\t') else { return Vec::new() };
    let number: usize = number.parse().expect("a number");
    format!("{before}\t{}\n", number + 1).into_bytes()
}

impl Misprint {
    /// The name that `--wrong` takes.
    pub fn name(self) -> &'static str {
        match self {
            Misprint::StepForState => "step_for_state",
            Misprint::NodeForAtom => "node_for_atom",
            Misprint::BitTurned => "bit_turned",
            Misprint::OtherReading => "other_reading",
            Misprint::FirstCounted => "first_counted",
            Misprint::OneMore => "one_more",
            Misprint::LeadingZeros => "leading_zeros",
            Misprint::Unclosed => "unclosed",
            Misprint::LineField => "line_field",
            Misprint::Wrapped => "wrapped",
            Misprint::Watched(miswatched) => miswatched.name(),
        }
    }

    /// The input that the right program `longest` takes as the wrong one takes
    /// this input.
    fn taken(self, input: &[u8]) -> Vec<u8> {
        let zeros = input.iter().take_while(|byte| **byte == b'0').count();
        let digits = input.iter().take_while(|byte| byte.is_ascii_digit()).count();
        let wrapped =
            |value: u64, digit: &u8| value.wrapping_mul(10).wrapping_add(u64::from(digit - b'0'));
        match self {
            Misprint::LeadingZeros if zeros < digits => input[zeros..].to_vec(),
            Misprint::Unclosed if digits > 0 && digits == input.len() => [input, b"\n"].concat(),
            Misprint::Wrapped if zeros == 0 && digits > 0 => {
                let value = input[..digits].iter().fold(0, wrapped);
                [value.to_string().as_bytes(), &input[digits..]].concat()
            }
            _ => input.to_vec(),
        }
    }

    /// What the wrong program writes for an input.
    pub(super) fn of(self, input: &[u8], expected: &Expected) -> Expected {
        let Expected { output, errors } = expected;
        let pairs = |alter: &dyn Fn(&mut Vec<Vec<u8>>)| {
            let output = if errors.is_empty() { each_pair(output, alter) } else { output.clone() };
            Expected { output, errors: errors.clone() }
        };
        match self {
            Misprint::StepForState => pairs(&|fields| fields[STATE] = fields[STEP].clone()),
            Misprint::NodeForAtom => pairs(&|fields| fields[ATOM] = fields[NODE].clone()),
            Misprint::BitTurned => pairs(&|fields| fields[IS][0] ^= 1),
            Misprint::OtherReading => {
                let other = Expected::of(WHY, &other_reading(input)).output;
                let verdict = [lines(output)[0]];
                let lines = [&verdict[..], &lines(&other)[1..]].concat();
                Expected { output: closed(&lines), errors: errors.clone() }
            }
            Misprint::FirstCounted => Expected { output: output.clone(), errors: counted(errors) },
            Misprint::Watched(miswatched) => {
                Expected { output: miswatched.of(input, output), errors: errors.clone() }
            }
            _ => Expected { output: self.longest(input, output), errors: errors.clone() },
        }
    }

    /// What the wrong program `longest` prints where the right one prints this.
    fn longest(self, input: &[u8], output: &[u8]) -> Vec<u8> {
        match self {
            Misprint::LineField if output.starts_with(b"refused") => {
                [&output[..output.len() - 1], b"\t\n"].concat()
            }
            Misprint::OneMore if input == format!("{}\n", RULE_NODES + 1).as_bytes() => {
                text::write_rule(&longest_rule(RULE_NODES + 1))
            }
            _ => longest_program(&self.taken(input)),
        }
    }
}

//! Wrong readers of line endings on purpose: what a library or a program would
//! answer that takes them otherwise than "Lines from the other system" says.
//!
//! Most are told by another text: the one that the right reader reads as the
//! wrong reader reads the text that is given.

use reference::generate::endings::plain_endings;
use reference::model::limits::PROGRAM_INPUT;
use reference::model::text::split_input;

use crate::expected;
use crate::input::Input;
use crate::outcome::Outcome;

/// The wrong readers.
#[derive(Clone, Copy, PartialEq, Eq, Debug)]
pub enum Misreading {
    /// 13 10 is no ending, as before the request.
    NewlineOnly,
    /// The first line's ending is that of every line.
    FirstLine,
    /// Every 13 is left out.
    Stripped,
    /// 13 alone is an ending too.
    Alone,
    /// 13 13 10 is an ending too.
    Swallowed,
    /// The line that is handed back keeps its 13.
    Kept,
    /// An unclosed line is handed back without its 13.
    Trimmed,
    /// The input is split at `-` 13, whatever follows.
    Split,
    /// The input is split at `-` 10 only.
    SplitNewlineOnly,
    /// 14 counts the bytes after 13 10 is made 10.
    Counted,
}

impl Misreading {
    /// Those of a reader of one text.
    pub const READER: [Misreading; 5] = [
        Misreading::NewlineOnly,
        Misreading::FirstLine,
        Misreading::Stripped,
        Misreading::Alone,
        Misreading::Swallowed,
    ];

    /// The name that `--wrong` takes.
    pub fn name(self) -> &'static str {
        match self {
            Misreading::NewlineOnly => "newline_only",
            Misreading::FirstLine => "first_line",
            Misreading::Stripped => "stripped",
            Misreading::Alone => "alone",
            Misreading::Swallowed => "swallowed",
            Misreading::Kept => "kept",
            Misreading::Trimmed => "trimmed",
            Misreading::Split => "split",
            Misreading::SplitNewlineOnly => "split_newline_only",
            Misreading::Counted => "counted",
        }
    }
}

/// A text with bytes for each part of it that a function picks: by what stands
/// before and by what is left it says how long the part is.
fn replaced(text: &[u8], bytes: &[u8], pick: impl Fn(&[u8], &[u8]) -> Option<usize>) -> Vec<u8> {
    let mut made = Vec::new();
    let mut at = 0;
    while at < text.len() {
        match pick(&text[..at], &text[at..]) {
            Some(length) => {
                made.extend(bytes);
                at += length;
            }
            None => {
                made.push(text[at]);
                at += 1;
            }
        }
    }
    made
}

/// 13 10 made 13 13 10, which is malformed.
fn newline_only(text: &[u8]) -> Vec<u8> {
    replaced(text, b"\r\r\n", |_, rest| rest.starts_with(b"\r\n").then_some(2))
}

/// All lines by the first one's ending: 13 10 elsewhere is malformed, or byte
/// 10 alone is a byte like others, here byte 0.
fn first_line(text: &[u8]) -> Vec<u8> {
    let newline = text.iter().position(|byte| *byte == 10);
    if !newline.is_some_and(|at| text[..at].ends_with(b"\r")) {
        return newline_only(text);
    }
    let newline_alone = |before: &[u8], rest: &[u8]| rest[0] == 10 && !before.ends_with(b"\r");
    replaced(text, b"\0", |before, rest| newline_alone(before, rest).then_some(1))
}

/// 13 without 10 after it made 10.
fn alone(text: &[u8]) -> Vec<u8> {
    let alone = |rest: &[u8]| rest[0] == 13 && !rest.starts_with(b"\r\n");
    replaced(text, b"\n", |_, rest| alone(rest).then_some(1))
}

/// Does a line start after these bytes?
fn line_starts(before: &[u8]) -> bool {
    before.is_empty() || before.ends_with(b"\n")
}

/// `-` 13 without 10 after it, where a line starts, made `-` 10.
fn split(text: &[u8]) -> Vec<u8> {
    let parts = |rest: &[u8]| rest.starts_with(b"-\r") && !rest.starts_with(b"-\r\n");
    replaced(text, b"-\n", |before, rest| (line_starts(before) && parts(rest)).then_some(2))
}

/// `-` 13 10, where a line starts, made `-` 13 13 10, which splits nothing.
fn split_newline_only(text: &[u8]) -> Vec<u8> {
    let parts = |rest: &[u8]| rest.starts_with(b"-\r\n");
    replaced(text, b"-\r\r\n", |before, rest| (line_starts(before) && parts(rest)).then_some(3))
}

/// The text that the right reader reads as the wrong one reads this text.
fn text_of(misreading: Misreading, text: &[u8]) -> Vec<u8> {
    match misreading {
        Misreading::NewlineOnly => newline_only(text),
        Misreading::FirstLine => first_line(text),
        Misreading::Stripped => text.iter().copied().filter(|byte| *byte != 13).collect(),
        Misreading::Alone => alone(text),
        Misreading::Swallowed => {
            replaced(text, b"\n", |_, rest| rest.starts_with(b"\r\r\n").then_some(3))
        }
        Misreading::Split => split(text),
        Misreading::SplitNewlineOnly => split_newline_only(text),
        Misreading::Counted if text.len() > PROGRAM_INPUT => plain_endings(text),
        Misreading::Kept | Misreading::Trimmed | Misreading::Counted => text.to_vec(),
    }
}

/// How many bytes of a text the wrong reader hands back for a refused line:
/// one more where 13 10 follows, one less where it is unclosed and ends in 13.
fn handed_back(misreading: Misreading, text: &[u8], start: usize, length: usize) -> usize {
    let (part, rest) = text[start..].split_at(length);
    match misreading {
        Misreading::Kept if rest.starts_with(b"\r\n") => length + 1,
        Misreading::Trimmed if rest.is_empty() && part.ends_with(b"\r") => length - 1,
        _ => length,
    }
}

/// Is the refused line all that these wrong readers get wrong?
fn of_the_line(misreading: Misreading) -> bool {
    matches!(misreading, Misreading::Kept | Misreading::Trimmed)
}

/// What the wrong reader answers and leaves, where it differs from what is
/// expected: in its number, or in the length of the refused line.
pub fn outcome(misreading: Misreading, input: &Input, expected: &Outcome) -> Option<Outcome> {
    if !of_the_line(misreading) {
        let misread = expected::of(&input.with_texts(|text| text_of(misreading, text)));
        return (misread.number != expected.number).then_some(misread);
    }
    let mut misread = expected.clone();
    let [source, start, length] = expected.values[4..] else { unreachable!("a part") };
    misread.values[6] = handed_back(misreading, input.texts()[source], start, length);
    (misread.values != expected.values).then_some(misread)
}

/// The input that the right program takes as the wrong one takes this input;
/// all but one count its bytes as they came.
pub fn program_input(misreading: Misreading, input: &[u8]) -> Vec<u8> {
    let misread = text_of(misreading, input);
    let same_number = (misread.len() > PROGRAM_INPUT) == (input.len() > PROGRAM_INPUT);
    if same_number || misreading == Misreading::Counted {
        misread
    } else {
        input.to_vec()
    }
}

/// What the wrong program prints of a refused line, where the right one prints
/// this: the line is the last field, in front of byte 10.
pub fn printed_line(misreading: Misreading, input: &[u8], mut output: Vec<u8>) -> Vec<u8> {
    if input.len() > PROGRAM_INPUT || !of_the_line(misreading) {
        return output;
    }
    let (rule, recording) = split_input(input);
    let joint = Input::read_joint(rule.to_vec(), recording.to_vec());
    let right = expected::of(&joint);
    if let Some(wrong) = outcome(misreading, &joint, &right) {
        let end = output.len() - 1;
        if wrong.values[6] > right.values[6] {
            output.insert(end, 13);
        } else {
            output.remove(end - 1);
        }
    }
    output
}

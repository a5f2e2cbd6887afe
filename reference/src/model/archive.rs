//! "One line per atom": the archive text of a recording without gauges, and
//! the inverse.

use super::limits;
use super::recording::{self, Recording, State};
use super::refusal;
use super::text::{self, RefusedLine};

/// Adds "the heading and `owns` lines".
fn put_opening(text: &mut Vec<u8>, recording: &Recording) {
    let controllers = recording.masks.len().to_string();
    let length = recording.states.len().to_string();
    text::put_line(text, &[b"recording", controllers.as_bytes(), length.as_bytes()]);
    for mask in &recording.masks {
        text::put_line(text, &[b"owns", format!("{mask:08x}").as_bytes()]);
    }
}

/// The text of a recording: "N lines `at`, run marks, word".
pub fn write_recording(recording: &Recording) -> Vec<u8> {
    let mut text = Vec::new();
    put_opening(&mut text, recording);
    let digits = text::mark_digits(recording.masks.len());
    for state in &recording.states {
        let marks = format!("{:0digits$x}", state.scheduled);
        let word = format!("{:08x}", state.atoms);
        text::put_line(&mut text, &[b"at", marks.as_bytes(), word.as_bytes()]);
    }
    text
}

/// "one field of N digits 0 or 1, state 0 first", of one bit of each state.
fn signal(recording: &Recording, bit: impl Fn(&State) -> bool) -> Vec<u8> {
    recording.states.iter().map(|state| if bit(state) { b'1' } else { b'0' }).collect()
}

/// "then C lines `runs`, controller 0 first, and 32 lines `bits`, atom 0 first".
pub fn write_archive(recording: &Recording) -> Vec<u8> {
    let mut text = Vec::new();
    put_opening(&mut text, recording);
    for controller in 0..recording.masks.len() {
        let runs = signal(recording, |state| state.scheduled >> controller & 1 == 1);
        text::put_line(&mut text, &[b"runs", &runs]);
    }
    for atom in 0..limits::ATOMS {
        let bits = signal(recording, |state| state.atoms >> atom & 1 == 1);
        text::put_line(&mut text, &[b"bits", &bits]);
    }
    text
}

/// A line of a signal: its word, and N digits 0 or 1.
fn signal_of_line(line: &[u8], word: &[u8], length: usize) -> Result<Vec<bool>, u8> {
    let fields = text::fields(line);
    let of_form = fields.len() == 2
        && fields[0] == word
        && fields[1].len() == length
        && fields[1].iter().all(|digit| matches!(digit, b'0' | b'1'));
    if !of_form {
        return Err(refusal::RECORDING_FORM);
    }
    Ok(fields[1].iter().map(|digit| *digit == b'1').collect())
}

/// "5, 6 and 7 line by line, then 8, then the output rule after all lines":
/// for 10 the refused line is the empty end of the text.
pub fn read_archive(text: &[u8]) -> Result<Recording, RefusedLine> {
    let mut lines = text::recording_lines(text);
    let (length, masks) = text::read_opening(&mut lines)?;
    let mut states = vec![State { atoms: 0, scheduled: 0 }; length];
    for controller in 0..masks.len() {
        let runs = lines.read(|line| signal_of_line(line, b"runs", length))?;
        for (state, run) in states.iter_mut().zip(runs) {
            state.scheduled |= u32::from(run) << controller;
        }
    }
    for atom in 0..limits::ATOMS {
        let bits = lines.read(|line| signal_of_line(line, b"bits", length))?;
        for (state, bit) in states.iter_mut().zip(bits) {
            state.atoms |= u32::from(bit) << atom;
        }
    }
    lines.finish()?;
    let mut prior = None;
    for state in &states {
        let end = text.len();
        recording::check_state(masks.len(), &masks, prior, *state)
            .map_err(|number| RefusedLine { number, line: end..end })?;
        prior = Some(*state);
    }
    Ok(Recording { masks, states })
}

/// Leaves a text in lent bytes, or zeros; its length.
fn leave_text(made: Result<Vec<u8>, RefusedLine>, lent: &mut [u8]) -> Result<usize, u8> {
    if lent.len() < limits::ARCHIVE_BYTES {
        return Err(refusal::LENT_SPACE);
    }
    super::leave(lent, limits::ARCHIVE_BYTES, made.as_deref().unwrap_or(&[]));
    made.map(|text| text.len()).map_err(|refused| refused.number)
}

/// "Rearrange a recording without gauges": "A gauge line is refused with 5 here".
pub fn to_archive(text: &[u8], archive: &mut [u8]) -> Result<usize, u8> {
    leave_text(text::read_plain(text).map(|read| write_archive(&read)), archive)
}

/// "the inverse".
pub fn from_archive(archive: &[u8], text: &mut [u8]) -> Result<usize, u8> {
    leave_text(read_archive(archive).map(|read| write_recording(&read)), text)
}

/// What a program prints of an input: the other text, or `refused`, number and
/// line; 14 over 16,384 bytes, with an empty line.
fn printed(input: &[u8], made: Result<Vec<u8>, RefusedLine>) -> Vec<u8> {
    let refused =
        |number: u8, line: &[u8]| text::printed(&[b"refused", number.to_string().as_bytes(), line]);
    if input.len() > limits::PROGRAM_INPUT {
        return refused(refusal::PROGRAM_INPUT, &[]);
    }
    made.unwrap_or_else(|err| refused(err.number, &input[err.line]))
}

/// The program `archive`.
pub fn print_archive(input: &[u8]) -> Vec<u8> {
    printed(input, text::read_plain(input).map(|read| write_archive(&read)))
}

/// The program `unarchive`.
pub fn print_recording(input: &[u8]) -> Vec<u8> {
    printed(input, read_archive(input).map(|read| write_recording(&read)))
}

/// What is said on standard error of a refused text: `line`, `recording`, and
/// the line's number.
fn said(input: &[u8], refused: Option<RefusedLine>) -> Vec<u8> {
    let Some(refused) = refused.filter(|_| input.len() <= limits::PROGRAM_INPUT) else {
        return Vec::new();
    };
    let before = input[..refused.line.start].iter().filter(|byte| **byte == 10).count();
    text::printed(&[b"line", b"recording", (before + 1).to_string().as_bytes()])
}

/// What `archive` says.
pub fn archive_says(input: &[u8]) -> Vec<u8> {
    said(input, text::read_plain(input).err())
}

/// What `unarchive` says.
pub fn recording_says(input: &[u8]) -> Vec<u8> {
    said(input, read_archive(input).err())
}

//! Archive texts, straightforward: the recording read, the other text written.

use super::read::{self, Lines, Refused};
use super::write::Writer;
use super::{check, refused};
use ragyvosin::full;
use reference::model::{limits, refusal};

/// A recording in tables of full size.
struct Held {
    masks: [u32; full::MASKS],
    states: [u64; full::STATES],
}

impl Held {
    fn new() -> Held {
        Held { masks: [0; full::MASKS], states: [0; full::STATES] }
    }
}

/// The heading and the lines `owns`.
fn put_opening(writer: &mut Writer, controllers: usize, count: usize, masks: &[u32]) {
    writer.bytes(b"recording");
    writer.field(controllers);
    writer.field(count);
    writer.byte(b'\n');
    for mask in masks {
        writer.bytes(b"owns\t");
        writer.hexadecimal(u64::from(*mask), 8);
        writer.byte(b'\n');
    }
}

/// One line: a word, and a bit of each state.
fn put_signal(writer: &mut Writer, word: &[u8], states: &[u64], bit: usize) {
    writer.bytes(word);
    for state in states {
        writer.byte(b'0' + (state >> bit & 1) as u8);
    }
    writer.byte(b'\n');
}

pub fn to_archive(text: &[u8], archive: &mut [u8]) -> (u8, [usize; 1]) {
    if archive.len() < full::ARCHIVE_BYTES {
        return (refusal::LENT_SPACE, [0]);
    }
    let mut held = Held::new();
    let scanned = read::scan_recording(text, false, &mut held.masks, &mut held.states);
    let [controllers, count] = match scanned {
        Ok(values) => values,
        Err(stopped) => return refused(stopped.number, archive, full::ARCHIVE_BYTES),
    };
    let mut writer = Writer::new(&mut archive[..full::ARCHIVE_BYTES]);
    put_opening(&mut writer, controllers, count, &held.masks[..controllers]);
    for controller in 0..controllers {
        put_signal(&mut writer, b"runs\t", &held.states[..count], limits::ATOMS + controller);
    }
    for atom in 0..limits::ATOMS {
        put_signal(&mut writer, b"bits\t", &held.states[..count], atom);
    }
    let length = writer.length();
    archive[length..full::ARCHIVE_BYTES].fill(0);
    (0, [length])
}

/// Adds a line to a bit of each state.
fn signal_line(line: &[u8], word: &[u8], states: &mut [u64], bit: usize) -> Result<(), u8> {
    let (first, digits) = read::split(line).ok_or(refusal::RECORDING_FORM)?;
    if first != word || digits.len() != states.len() {
        return Err(refusal::RECORDING_FORM);
    }
    for (state, digit) in states.iter_mut().zip(digits) {
        match digit {
            b'0' => {}
            b'1' => *state |= 1 << bit,
            _ => return Err(refusal::RECORDING_FORM),
        }
    }
    Ok(())
}

/// C and N of an archive text, its masks and states into space that is zero.
fn scan_archive(text: &[u8], held: &mut Held) -> Result<[usize; 2], Refused> {
    let mut lines = Lines::new(text, refusal::RECORDING_FORM, refusal::RECORDING_LINES);
    let [controllers, count] = read::scan_opening(&mut lines, &mut held.masks)?;
    let states = &mut held.states[..count];
    for controller in 0..controllers {
        lines.read(|line| signal_line(line, b"runs", states, limits::ATOMS + controller))?;
    }
    for atom in 0..limits::ATOMS {
        lines.read(|line| signal_line(line, b"bits", states, atom))?;
    }
    lines.finish()?;
    let mut before = None;
    for state in states.iter() {
        let checked = check::state(controllers, &held.masks[..controllers], before, *state);
        checked.map_err(|number| lines.refused(number))?;
        before = Some(*state);
    }
    Ok([controllers, count])
}

pub fn from_archive(archive: &[u8], text: &mut [u8]) -> (u8, [usize; 1]) {
    if text.len() < full::ARCHIVE_BYTES {
        return (refusal::LENT_SPACE, [0]);
    }
    let mut held = Held::new();
    let [controllers, count] = match scan_archive(archive, &mut held) {
        Ok(values) => values,
        Err(stopped) => return refused(stopped.number, text, full::ARCHIVE_BYTES),
    };
    let digits = if controllers > limits::TWO_DIGIT_CONTROLLERS { 3 } else { 2 };
    let mut writer = Writer::new(&mut text[..full::ARCHIVE_BYTES]);
    put_opening(&mut writer, controllers, count, &held.masks[..controllers]);
    for state in &held.states[..count] {
        writer.bytes(b"at\t");
        writer.hexadecimal(state >> 32, digits);
        writer.byte(b'\t');
        writer.hexadecimal(state & 0xffff_ffff, 8);
        writer.byte(b'\n');
    }
    let length = writer.length();
    text[length..full::ARCHIVE_BYTES].fill(0);
    (0, [length])
}

//! Wrong answers of a library in which eight controllers are still assumed
//! somewhere.
//!
//! Most are told by another input: the one that the right library takes as the
//! wrong one takes the input that is given.

use reference::generate::recordings::RecordingTable;
use reference::model::limits::{ATOMS, CONTROLLERS, TWO_DIGIT_CONTROLLERS};
use reference::model::refusal::LENT_SPACE;

use crate::expected;
use crate::input::{Input, Space, GUARD};
use crate::outcome::Outcome;

/// What is still of eight controllers.
#[derive(Clone, Copy, PartialEq, Eq, Debug)]
pub enum OfEight {
    /// The limit: C above 8 is refused with 6.
    Limit,
    /// The digits: run marks have two for every C.
    Digits,
    /// The mark bit 11 isn't seen, where C is 11.
    Marks,
    /// Masks past the eighth aren't held against the earlier ones.
    Masks,
    /// The output rule isn't tested for controllers 8 to 10.
    Output,
    /// Lent masks are zeroed to the eighth.
    Zeroed,
}

impl OfEight {
    /// Those of an operation on tables.
    pub const TABLES: [OfEight; 4] =
        [OfEight::Limit, OfEight::Marks, OfEight::Masks, OfEight::Output];

    /// Those of a reader of texts.
    pub const TEXTS: [OfEight; 4] =
        [OfEight::Limit, OfEight::Digits, OfEight::Marks, OfEight::Zeroed];

    /// The name that `--wrong` takes.
    pub fn name(self) -> &'static str {
        match self {
            OfEight::Limit => "limit_of_eight",
            OfEight::Digits => "digits_of_eight",
            OfEight::Marks => "mark_eleven",
            OfEight::Masks => "masks_of_eight",
            OfEight::Output => "output_of_eight",
            OfEight::Zeroed => "zeroed_to_eight",
        }
    }
}

/// The recording that the right library takes as the wrong one takes this one.
fn recording_of(of_eight: OfEight, recording: &RecordingTable) -> RecordingTable {
    let mut changed = recording.clone();
    let past = TWO_DIGIT_CONTROLLERS.min(recording.masks.len());
    match of_eight {
        OfEight::Limit if recording.controllers > TWO_DIGIT_CONTROLLERS => {
            changed.controllers = CONTROLLERS + 1;
        }
        OfEight::Marks if recording.controllers == CONTROLLERS => {
            changed.states.iter_mut().for_each(|word| *word &= !(1 << (ATOMS + CONTROLLERS)));
        }
        OfEight::Masks => {
            let mut seen = changed.masks[..past].iter().fold(0, |seen, mask| seen | mask);
            for mask in &mut changed.masks[past..] {
                *mask &= !seen;
                seen |= *mask;
            }
        }
        OfEight::Output => changed.masks[past..].fill(0),
        _ => {}
    }
    changed
}

/// C of a recording text, if its first line has one.
fn controllers(text: &[u8]) -> Option<usize> {
    let field = text.strip_prefix(b"recording\t")?.split(|byte| *byte == 9).next()?;
    std::str::from_utf8(field).ok()?.parse().ok()
}

/// The same of a text: a digit more in front of the run marks makes three digits
/// too many and two enough; eight less in their first digit takes bit 11 away.
fn text_of(of_eight: OfEight, text: &[u8]) -> Vec<u8> {
    let Some(count) = controllers(text) else { return text.to_vec() };
    let many = (TWO_DIGIT_CONTROLLERS + 1..=CONTROLLERS).contains(&count);
    let lines = text.split_inclusive(|byte| *byte == 10).map(|line| match of_eight {
        OfEight::Limit if many && line.starts_with(b"recording\t") => {
            b"recording\t12\t1\n".to_vec()
        }
        OfEight::Digits if many && line.starts_with(b"at\t") => [b"at\t0", &line[3..]].concat(),
        OfEight::Marks if count == CONTROLLERS && line.starts_with(b"at\t8") => {
            [b"at\t0", &line[4..]].concat()
        }
        _ => line.to_vec(),
    });
    lines.collect::<Vec<_>>().concat()
}

/// The input that the right library takes as the wrong one takes this one.
fn input_of(of_eight: OfEight, input: &Input) -> Input {
    let mut changed = input.with_texts(|text| text_of(of_eight, text));
    match &mut changed {
        Input::Project { recording, .. }
        | Input::JudgeLocal { recording, .. }
        | Input::JudgeRecording { recording, .. }
        | Input::Evidence { recording, .. } => *recording = recording_of(of_eight, recording),
        _ => {}
    }
    changed
}

/// The masks of the ninth to the eleventh as they were lent, after any refusal
/// but 13.
fn not_zeroed(input: &Input, expected: &Outcome) -> Option<Outcome> {
    let slices = input.slices();
    let masks = slices.iter().position(|slice| slice.name == "masks")?;
    if expected.number == 0 || expected.number == LENT_SPACE {
        return None;
    }
    let before = Space::<u32>::new(slices[masks].lent).words();
    let mut wrong = expected.clone();
    let left = GUARD + TWO_DIGIT_CONTROLLERS..GUARD + CONTROLLERS;
    wrong.lent[masks][left.clone()].copy_from_slice(&before[left]);
    Some(wrong)
}

/// What the wrong library answers and leaves, where it differs from what is
/// expected: in its number, or in what it leaves.
pub fn outcome(of_eight: OfEight, input: &Input, expected: &Outcome) -> Option<Outcome> {
    if of_eight == OfEight::Zeroed {
        return not_zeroed(input, expected);
    }
    let wrong = expected::of(&input_of(of_eight, input));
    (wrong.number != expected.number).then_some(wrong)
}

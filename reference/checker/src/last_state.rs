//! Wrong answers about run marks in the last state: 9 given for them, one counted
//! as a run, or they cleared in the state that is handed back.

use reference::model::limits::{ATOMS, PAIR_WORDS};
use reference::model::rule::{Node, RUN};

use crate::input::{Input, GUARD};
use crate::outcome::Outcome;

/// The last state of a recording that is accepted.
pub struct LastState {
    /// Its number.
    number: usize,
    /// Its word, run marks and all.
    word: u64,
}

impl LastState {
    /// That of an accepted input, if it has run marks. For a text it is taken
    /// from the states that are expected.
    pub fn marked(input: &Input, expected: &Outcome) -> Option<LastState> {
        if expected.number != 0 {
            return None;
        }
        let (length, states) = match input {
            Input::ReadRecording { .. } => (expected.values[1], expected.slice(1)),
            Input::Project { recording, .. }
            | Input::JudgeLocal { recording, .. }
            | Input::Evidence { recording, .. }
            | Input::JudgeRecording { recording, .. } => (recording.length, &recording.states[..]),
            _ => return None,
        };
        let last = LastState { number: length - 1, word: states[length - 1] };
        (last.word >> ATOMS != 0).then_some(last)
    }

    /// Has this controller a mark there?
    fn marks(&self, controller: usize) -> bool {
        self.word >> (ATOMS + controller) & 1 == 1
    }

    /// The place where a run that this state's mark is taken for would show: of
    /// projection the local length, of the whole judge the weak row of the first
    /// node of kind run.
    pub fn run_place(&self, input: &Input) -> Option<RunPlace> {
        match input {
            Input::Project { controller, .. } if self.marks(*controller) => Some(RunPlace::Length),
            Input::JudgeRecording { table, controller, .. } if self.marks(*controller) => {
                let is_run = |word: &u32| Node::of_word(*word).kind == RUN;
                let node = table.nodes[..table.count].iter().position(is_run)?;
                let entry = node * PAIR_WORDS + self.number / 64;
                Some(RunPlace::Row { entry, mark: self.number % 64 })
            }
            _ => None,
        }
    }

    /// The states as a reader that clears the marks would hand them back.
    pub fn clear(&self, expected: &mut Outcome) {
        expected.lent[1][GUARD + self.number] %= 1 << ATOMS;
    }
}

/// Where a run would show.
pub enum RunPlace {
    /// In the first value.
    Length,
    /// In a mark of a lent row.
    Row { entry: usize, mark: usize },
}

impl RunPlace {
    /// What is expected where the mark is taken for a run.
    pub fn count(&self, expected: &mut Outcome) {
        match *self {
            RunPlace::Length => expected.values[0] += 1,
            RunPlace::Row { entry, mark } => expected.lent[0][GUARD + entry] ^= 1 << mark,
        }
    }
}

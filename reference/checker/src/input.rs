//! Inputs of the operations, with the lent space as it is beforehand.

use std::fmt;

use reference::generate::lent;
use reference::generate::random::Random;
use reference::generate::recordings::RecordingTable;
use reference::generate::rules::{JudgeTable, RuleTable};
use reference::model::limits;

use crate::tally::Operation;

/// Entries before and after what is lent that nobody may touch.
pub const GUARD: usize = 4;

/// Entries past the full size that are lent where space is ample.
pub const BEYOND: usize = 3;

/// Lent space before an operation: so many entries, none of them zero.
#[derive(Clone, Copy, PartialEq, Eq, Debug)]
pub struct Lent {
    /// How many entries are lent.
    pub length: usize,
    /// What the pattern starts from.
    pub pattern: u64,
}

impl Lent {
    /// Lent space a little longer than its full size.
    pub fn ample(full: usize) -> Lent {
        Lent { length: full + BEYOND, pattern: full as u64 }
    }

    /// Lent space of a random length for a full size.
    pub fn random(random: &mut Random, full: usize) -> Lent {
        Lent { length: lent::length(random, full), pattern: random.bits() }
    }

    /// The entry at a place, guards counted; odd, so never zero.
    fn entry(self, at: usize) -> u64 {
        (self.pattern ^ (at as u64).wrapping_mul(0x9e37_79b9_7f4a_7c16)) | 1
    }
}

/// The entry types of lent space.
pub trait Entry: Copy {
    /// The entry that has the low bits of a word.
    fn of(word: u64) -> Self;
    /// The entry as a word.
    fn word(self) -> u64;
}

impl Entry for u8 {
    fn of(word: u64) -> u8 {
        word as u8
    }
    fn word(self) -> u64 {
        u64::from(self)
    }
}

impl Entry for u32 {
    fn of(word: u64) -> u32 {
        word as u32
    }
    fn word(self) -> u64 {
        u64::from(self)
    }
}

impl Entry for u64 {
    fn of(word: u64) -> u64 {
        word
    }
    fn word(self) -> u64 {
        self
    }
}

impl Entry for usize {
    fn of(word: u64) -> usize {
        word as usize
    }
    fn word(self) -> u64 {
        self as u64
    }
}

/// The entries of lent space, with guards on both sides.
#[derive(Clone, PartialEq, Eq, Debug)]
pub struct Space<T> {
    entries: Vec<T>,
}

impl<T: Entry> Space<T> {
    /// The entries before an operation.
    pub fn new(lent: Lent) -> Space<T> {
        let entries = (0..lent.length + 2 * GUARD).map(|at| T::of(lent.entry(at))).collect();
        Space { entries }
    }

    /// Space that holds these entries.
    pub fn holding(held: &[T]) -> Space<T> {
        let mut space = Space::new(Lent { length: held.len(), pattern: held.len() as u64 });
        space.lend().copy_from_slice(held);
        space
    }

    /// What is lent.
    pub fn lend(&mut self) -> &mut [T] {
        let end = self.entries.len() - GUARD;
        &mut self.entries[GUARD..end]
    }

    /// What is lent, to be read.
    pub fn held(&self) -> &[T] {
        &self.entries[GUARD..self.entries.len() - GUARD]
    }

    /// All entries, guards included.
    pub fn entries(&self) -> &[T] {
        &self.entries
    }

    /// All entries, guards included, to be altered.
    pub fn entries_mut(&mut self) -> &mut [T] {
        &mut self.entries
    }

    /// All entries as words.
    pub fn words(self) -> Vec<u64> {
        self.entries.into_iter().map(T::word).collect()
    }
}

/// What one operation takes.
#[derive(Clone)]
pub enum Input {
    /// Reading a rule text.
    ReadRule { text: Vec<u8>, nodes: Lent },
    /// Reading a rule in one line.
    ReadLine { controller: usize, line: Vec<u8>, nodes: Lent },
    /// Writing a rule text.
    WriteRule { rule: RuleTable, text: Lent },
    /// Reading a recording text.
    ReadRecording { text: Vec<u8>, masks: Lent, states: Lent },
    /// The joint reading.
    ReadJoint { rule: Vec<u8>, recording: Vec<u8>, nodes: Lent, masks: Lent, states: Lent },
    /// The local trace of a controller.
    Project { recording: RecordingTable, controller: usize, places: Lent },
    /// A rule on its local trace.
    JudgeLocal { rule: RuleTable, recording: RecordingTable },
    /// A rewriting.
    Rewrite { short: bool, rule: RuleTable, mask: u32, table: Lent },
    /// A table over the whole recording.
    JudgeRecording { table: JudgeTable, recording: RecordingTable, controller: usize, rows: Lent },
    /// The readings behind a verdict, the weak or the strong one.
    Evidence { rule: RuleTable, recording: RecordingTable, weak: bool, pairs: Lent },
    /// The archive text of a recording text, or the inverse.
    Archive { back: bool, text: Vec<u8>, made: Lent },
}

/// A lent slice of an input.
#[derive(Clone, Copy, Debug)]
pub struct Slice {
    /// What is lent.
    pub name: &'static str,
    /// Its full size in entries.
    pub full: usize,
    /// How much is lent.
    pub lent: Lent,
}

/// Inputs with ample lent space.
impl Input {
    /// Reading a rule text.
    pub fn read_rule(text: Vec<u8>) -> Input {
        Input::ReadRule { text, nodes: Lent::ample(limits::RULE_NODES) }
    }

    /// Reading a rule in one line.
    pub fn read_line(controller: usize, line: Vec<u8>) -> Input {
        Input::ReadLine { controller, line, nodes: Lent::ample(limits::RULE_NODES) }
    }

    /// Writing a rule text.
    pub fn write_rule(rule: RuleTable) -> Input {
        Input::WriteRule { rule, text: Lent::ample(limits::RULE_TEXT) }
    }

    /// Reading a recording text.
    pub fn read_recording(text: Vec<u8>) -> Input {
        let (masks, states) = (Lent::ample(limits::CONTROLLERS), Lent::ample(limits::STATES));
        Input::ReadRecording { text, masks, states }
    }

    /// The joint reading of two texts.
    pub fn read_joint(rule: Vec<u8>, recording: Vec<u8>) -> Input {
        let nodes = Lent::ample(limits::RULE_NODES);
        let (masks, states) = (Lent::ample(limits::CONTROLLERS), Lent::ample(limits::STATES));
        Input::ReadJoint { rule, recording, nodes, masks, states }
    }

    /// The local trace of a controller.
    pub fn project(recording: RecordingTable, controller: usize) -> Input {
        Input::Project { recording, controller, places: Lent::ample(limits::PLACES) }
    }

    /// A rewriting.
    pub fn rewrite(short: bool, rule: RuleTable, mask: u32) -> Input {
        Input::Rewrite { short, rule, mask, table: Lent::ample(limits::TABLE_NODES) }
    }

    /// A table over the whole recording.
    pub fn judge_recording(
        table: JudgeTable,
        recording: RecordingTable,
        controller: usize,
    ) -> Input {
        let rows = Lent::ample(limits::ROW_WORDS);
        Input::JudgeRecording { table, recording, controller, rows }
    }

    /// The readings behind a verdict.
    pub fn evidence(rule: RuleTable, recording: RecordingTable, weak: bool) -> Input {
        Input::Evidence { rule, recording, weak, pairs: Lent::ample(limits::PAIRS) }
    }

    /// The archive text of a recording text, or the inverse.
    pub fn archive(back: bool, text: Vec<u8>) -> Input {
        Input::Archive { back, text, made: Lent::ample(limits::ARCHIVE_BYTES) }
    }
}

impl Input {
    /// The operation that takes it.
    pub fn operation(&self) -> Operation {
        match self {
            Input::ReadRule { .. } => Operation::ReadRule,
            Input::ReadLine { .. } => Operation::ReadLine,
            Input::WriteRule { .. } => Operation::WriteRule,
            Input::ReadRecording { .. } => Operation::ReadRecording,
            Input::ReadJoint { .. } => Operation::ReadJoint,
            Input::Project { .. } => Operation::Project,
            Input::JudgeLocal { .. } => Operation::JudgeLocal,
            Input::Rewrite { short: false, .. } => Operation::RewritePlain,
            Input::Rewrite { short: true, .. } => Operation::RewriteShort,
            Input::JudgeRecording { .. } => Operation::JudgeRecording,
            Input::Evidence { .. } => Operation::Evidence,
            Input::Archive { back: false, .. } => Operation::ToArchive,
            Input::Archive { back: true, .. } => Operation::FromArchive,
        }
    }

    /// The texts that it has, in the order in which they are read.
    pub fn texts(&self) -> Vec<&[u8]> {
        match self {
            Input::ReadRule { text, .. }
            | Input::ReadRecording { text, .. }
            | Input::Archive { text, .. } => vec![text],
            Input::ReadJoint { rule, recording, .. } => vec![rule, recording],
            _ => vec![],
        }
    }

    /// The same input with other texts.
    pub fn with_texts(&self, other: impl Fn(&[u8]) -> Vec<u8>) -> Input {
        let mut input = self.clone();
        match &mut input {
            Input::ReadRule { text, .. }
            | Input::ReadRecording { text, .. }
            | Input::Archive { text, .. } => *text = other(text),
            Input::ReadJoint { rule, recording, .. } => {
                (*rule, *recording) = (other(rule), other(recording));
            }
            _ => {}
        }
        input
    }

    /// Its lent slices.
    pub fn slices(&self) -> Vec<Slice> {
        let slice = |name, full, lent: &Lent| Slice { name, full, lent: *lent };
        let nodes = |lent| slice("nodes", limits::RULE_NODES, lent);
        let masks = |lent| slice("masks", limits::CONTROLLERS, lent);
        let states = |lent| slice("states", limits::STATES, lent);
        match self {
            Input::ReadRule { nodes: n, .. } | Input::ReadLine { nodes: n, .. } => vec![nodes(n)],
            Input::WriteRule { text, .. } => vec![slice("text", limits::RULE_TEXT, text)],
            Input::ReadRecording { masks: m, states: s, .. } => vec![masks(m), states(s)],
            Input::ReadJoint { nodes: n, masks: m, states: s, .. } => {
                vec![nodes(n), masks(m), states(s)]
            }
            Input::Project { places, .. } => vec![slice("places", limits::PLACES, places)],
            Input::JudgeLocal { .. } => vec![],
            Input::Rewrite { table, .. } => vec![slice("table", limits::TABLE_NODES, table)],
            Input::JudgeRecording { rows, .. } => vec![slice("rows", limits::ROW_WORDS, rows)],
            Input::Evidence { pairs, .. } => vec![slice("pairs", limits::PAIRS, pairs)],
            Input::Archive { made, .. } => vec![slice("made", limits::ARCHIVE_BYTES, made)],
        }
    }

    /// The same slices, to be lent otherwise.
    pub fn lent_mut(&mut self) -> Vec<&mut Lent> {
        match self {
            Input::ReadRule { nodes, .. } | Input::ReadLine { nodes, .. } => vec![nodes],
            Input::WriteRule { text, .. } => vec![text],
            Input::ReadRecording { masks, states, .. } => vec![masks, states],
            Input::ReadJoint { nodes, masks, states, .. } => vec![nodes, masks, states],
            Input::Project { places, .. } => vec![places],
            Input::JudgeLocal { .. } => vec![],
            Input::Rewrite { table, .. } => vec![table],
            Input::JudgeRecording { rows, .. } => vec![rows],
            Input::Evidence { pairs, .. } => vec![pairs],
            Input::Archive { made, .. } => vec![made],
        }
    }

    /// The input with every slice lent anew, of random lengths.
    pub fn lent_anew(mut self, random: &mut Random) -> Input {
        let full: Vec<usize> = self.slices().iter().map(|slice| slice.full).collect();
        for (lent, full) in self.lent_mut().into_iter().zip(full) {
            *lent = Lent::random(random, full);
        }
        self
    }
}

/// A text with its bytes escaped.
fn quoted(text: &[u8]) -> String {
    format!("b\"{}\"", text.escape_ascii())
}

impl fmt::Display for Input {
    /// All of the input, enough to call the operation again.
    fn fmt(&self, out: &mut fmt::Formatter) -> fmt::Result {
        write!(out, "{} ", self.operation().name())?;
        match self {
            Input::ReadRule { text, nodes } => write!(out, "{}, nodes {nodes:?}", quoted(text)),
            Input::ReadLine { controller, line, nodes } => {
                write!(out, "controller {controller}, {}, nodes {nodes:?}", quoted(line))
            }
            Input::WriteRule { rule, text } => write!(out, "{rule:?}, text {text:?}"),
            Input::ReadRecording { text, masks, states } => {
                write!(out, "{}, masks {masks:?}, states {states:?}", quoted(text))
            }
            Input::ReadJoint { rule, recording, nodes, masks, states } => {
                write!(out, "{}, {}, ", quoted(rule), quoted(recording))?;
                write!(out, "nodes {nodes:?}, masks {masks:?}, states {states:?}")
            }
            Input::Project { recording, controller, places } => {
                write!(out, "{recording:?}, controller {controller}, places {places:?}")
            }
            Input::JudgeLocal { rule, recording } => write!(out, "{rule:?}, {recording:?}"),
            Input::Rewrite { rule, mask, table, .. } => {
                write!(out, "{rule:?}, mask {mask:#010x}, table {table:?}")
            }
            Input::JudgeRecording { table, recording, controller, rows } => {
                write!(out, "{table:?}, {recording:?}, controller {controller}, rows {rows:?}")
            }
            Input::Evidence { rule, recording, weak, pairs } => {
                write!(out, "{rule:?}, {recording:?}, weak {weak}, pairs {pairs:?}")
            }
            Input::Archive { text, made, .. } => write!(out, "{}, made {made:?}", quoted(text)),
        }
    }
}

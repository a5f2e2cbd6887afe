//! A safe Rust interface to the proved library.
//!
//! Each function answers the refusal number of document 01, 0 when accepted,
//! and the operation's values, which are zero on a refusal. Nothing that safe
//! code passes is outside what the library takes: it has no precondition.
//!
//! Words of a node, a state, a row pair and a reading are those of `include/ragyvosin.h`.
//!
//! [`Session`] keeps a session in space of its own; [`open_session`], [`arrive`],
//! [`withdraw`], [`replace_rule`] and [`session_verdicts`] are the same calls over
//! any lent space.

#![warn(missing_docs)]

mod session;
mod sys;

pub use session::{
    arrive, open_session, replace_rule, session_verdicts, withdraw, Heading, Session,
};

/// The number of an accepted input.
pub const ACCEPTED: u8 = 0;

/// Full sizes of lent space, in entries.
pub mod full {
    /// Nodes of a rule.
    pub const RULE_NODES: usize = 64;
    /// Masks of a recording.
    pub const MASKS: usize = 11;
    /// States of a recording.
    pub const STATES: usize = 128;
    /// Places of a local trace.
    pub const PLACES: usize = 128;
    /// Nodes of a rewritten table.
    pub const TABLE_NODES: usize = 1024;
    /// Words of 1,024 row pairs.
    pub const ROW_WORDS: usize = 6 * TABLE_NODES;
    /// Bytes of a rule text.
    pub const RULE_BYTES: usize = 1024;
    /// Pairs of a node and a place.
    pub const PAIRS: usize = RULE_NODES * PLACES;
    /// Bytes of an archive text, or of a recording text that is made of one.
    pub const ARCHIVE_BYTES: usize = 8192;
    /// Numbers of a session's heading.
    pub const HEADING: usize = 4;
}

/// A rule as tables have it; `nodes` may have any length.
#[derive(Clone, Copy, Debug)]
pub struct Rule<'a> {
    /// The controller that it is written for.
    pub controller: usize,
    /// How many of the nodes are the rule's.
    pub count: usize,
    /// The words of the nodes.
    pub nodes: &'a [u32],
}

/// A recording as tables have it; `masks` and `states` may have any length.
#[derive(Clone, Copy, Debug)]
pub struct Recording<'a> {
    /// C, the number of controllers.
    pub controllers: usize,
    /// N, the number of states.
    pub count: usize,
    /// The masks of own atoms.
    pub masks: &'a [u32],
    /// The words of the states.
    pub states: &'a [u64],
}

/// A table for the judge of the whole recording; `nodes` may have any length.
#[derive(Clone, Copy, Debug)]
pub struct Table<'a> {
    /// How many of the nodes are the table's.
    pub count: usize,
    /// The words of the nodes.
    pub nodes: &'a [u32],
    /// The node of the weak verdict.
    pub weak_top: usize,
    /// The node of the strong verdict.
    pub strong_top: usize,
}

/// Reads a rule text: controller and node count.
pub fn read_rule(text: &[u8], nodes: &mut [u32]) -> (u8, [usize; 2]) {
    let mut values = [usize::MAX; 2];
    // SAFETY: each pointer comes with the length of its slice, and the library has no precondition.
    let number = unsafe {
        sys::rgv_read_rule(text.as_ptr(), text.len(), nodes.as_mut_ptr(), nodes.len(), &mut values)
    };
    (number, values)
}

/// Reads a rule in one line: its controller and node count.
pub fn read_line(controller: usize, line: &[u8], nodes: &mut [u32]) -> (u8, [usize; 2]) {
    let mut values = [usize::MAX; 2];
    // SAFETY: as in `read_rule`.
    let number = unsafe {
        sys::rgv_read_line(
            controller,
            line.as_ptr(),
            line.len(),
            nodes.as_mut_ptr(),
            nodes.len(),
            &mut values,
        )
    };
    (number, values)
}

/// Writes the text of a rule: its length.
pub fn write_rule(rule: Rule, text: &mut [u8]) -> (u8, [usize; 1]) {
    let mut values = [usize::MAX; 1];
    // SAFETY: as in `read_rule`.
    let number = unsafe {
        sys::rgv_write_rule(
            rule.controller,
            rule.count,
            rule.nodes.as_ptr(),
            rule.nodes.len(),
            text.as_mut_ptr(),
            text.len(),
            &mut values,
        )
    };
    (number, values)
}

/// Makes the archive text of a recording text: its length.
pub fn to_archive(text: &[u8], archive: &mut [u8]) -> (u8, [usize; 1]) {
    let mut values = [usize::MAX; 1];
    // SAFETY: as in `read_rule`.
    let number = unsafe {
        sys::rgv_to_archive(
            text.as_ptr(),
            text.len(),
            archive.as_mut_ptr(),
            archive.len(),
            &mut values,
        )
    };
    (number, values)
}

/// Makes the recording text of an archive text: its length.
pub fn from_archive(archive: &[u8], text: &mut [u8]) -> (u8, [usize; 1]) {
    let mut values = [usize::MAX; 1];
    // SAFETY: as in `read_rule`.
    let number = unsafe {
        sys::rgv_from_archive(
            archive.as_ptr(),
            archive.len(),
            text.as_mut_ptr(),
            text.len(),
            &mut values,
        )
    };
    (number, values)
}

/// Reads a recording text: C and N.
pub fn read_recording(text: &[u8], masks: &mut [u32], states: &mut [u64]) -> (u8, [usize; 2]) {
    let mut values = [usize::MAX; 2];
    // SAFETY: as in `read_rule`.
    let number = unsafe {
        sys::rgv_read_recording(
            text.as_ptr(),
            text.len(),
            masks.as_mut_ptr(),
            masks.len(),
            states.as_mut_ptr(),
            states.len(),
            &mut values,
        )
    };
    (number, values)
}

/// What the joint reading answers.
#[derive(Clone, Copy, PartialEq, Eq, Debug)]
pub struct Joint<'a> {
    /// The refusal number, or 0.
    pub number: u8,
    /// Controller, node count, C and N; zero on a refusal.
    pub values: [usize; 4],
    /// Whether `part` is of the rule text; else it is of the recording text.
    pub of_rule: bool,
    /// Where it starts in that text.
    pub start: usize,
    /// The refused line itself.
    pub part: &'a [u8],
}

/// Reads a rule text and a recording text, and hands back the refused line.
pub fn read_joint<'a>(
    rule: &'a [u8],
    recording: &'a [u8],
    nodes: &mut [u32],
    masks: &mut [u32],
    states: &mut [u64],
) -> Joint<'a> {
    let mut values = [usize::MAX; 7];
    // SAFETY: as in `read_rule`.
    let number = unsafe {
        sys::rgv_read_joint(
            rule.as_ptr(),
            rule.len(),
            recording.as_ptr(),
            recording.len(),
            nodes.as_mut_ptr(),
            nodes.len(),
            masks.as_mut_ptr(),
            masks.len(),
            states.as_mut_ptr(),
            states.len(),
            &mut values,
        )
    };
    let [controller, count, controllers, states_count, text, start, length] = values;
    assert!(text < 2, "there are two texts");
    let of_rule = text == 0;
    let whole = if of_rule { rule } else { recording };
    Joint {
        number,
        values: [controller, count, controllers, states_count],
        of_rule,
        start,
        part: &whole[start..start + length],
    }
}

/// The local trace of controller c: how many places it has.
pub fn project(recording: Recording, c: usize, places: &mut [u32]) -> (u8, [usize; 1]) {
    let mut values = [usize::MAX; 1];
    // SAFETY: as in `read_rule`.
    let number = unsafe {
        sys::rgv_project(
            recording.controllers,
            recording.count,
            recording.masks.as_ptr(),
            recording.masks.len(),
            recording.states.as_ptr(),
            recording.states.len(),
            c,
            places.as_mut_ptr(),
            places.len(),
            &mut values,
        )
    };
    (number, values)
}

/// Judges a rule on its local trace: the weak and the strong verdict, 1 for yes.
pub fn judge_local(rule: Rule, recording: Recording) -> (u8, [usize; 2]) {
    let mut values = [usize::MAX; 2];
    // SAFETY: as in `read_rule`.
    let number = unsafe {
        sys::rgv_judge_local(
            rule.controller,
            rule.count,
            rule.nodes.as_ptr(),
            rule.nodes.len(),
            recording.controllers,
            recording.count,
            recording.masks.as_ptr(),
            recording.masks.len(),
            recording.states.as_ptr(),
            recording.states.len(),
            &mut values,
        )
    };
    (number, values)
}

/// The readings behind the weak or the strong verdict: how many pairs of a node and a place.
pub fn evidence(
    rule: Rule,
    recording: Recording,
    weak: bool,
    pairs: &mut [u32],
) -> (u8, [usize; 1]) {
    evidence_by(rule, recording, weak as u8, pairs)
}

/// `evidence` by the byte that the library takes.
fn evidence_by(rule: Rule, recording: Recording, weak: u8, pairs: &mut [u32]) -> (u8, [usize; 1]) {
    let mut values = [usize::MAX; 1];
    // SAFETY: as in `read_rule`.
    let number = unsafe {
        sys::rgv_evidence(
            rule.controller,
            rule.count,
            rule.nodes.as_ptr(),
            rule.nodes.len(),
            recording.controllers,
            recording.count,
            recording.masks.as_ptr(),
            recording.masks.len(),
            recording.states.as_ptr(),
            recording.states.len(),
            weak,
            pairs.as_mut_ptr(),
            pairs.len(),
            &mut values,
        )
    };
    (number, values)
}

/// Rewrites a rule for an own mask, plain or short: node count, weak top, strong top.
pub fn rewrite(short: bool, rule: Rule, mask: u32, table: &mut [u32]) -> (u8, [usize; 3]) {
    let operation = if short { sys::rgv_rewrite_short } else { sys::rgv_rewrite_plain };
    let mut values = [usize::MAX; 3];
    // SAFETY: as in `read_rule`.
    let number = unsafe {
        operation(
            rule.controller,
            rule.count,
            rule.nodes.as_ptr(),
            rule.nodes.len(),
            mask,
            table.as_mut_ptr(),
            table.len(),
            &mut values,
        )
    };
    (number, values)
}

/// Judges the whole recording: the weak and the strong verdict, 1 for yes.
pub fn judge_recording(
    table: Table,
    recording: Recording,
    c: usize,
    rows: &mut [u64],
) -> (u8, [usize; 2]) {
    let mut values = [usize::MAX; 2];
    // SAFETY: as in `read_rule`.
    let number = unsafe {
        sys::rgv_judge_recording(
            table.count,
            table.nodes.as_ptr(),
            table.nodes.len(),
            table.weak_top,
            table.strong_top,
            recording.controllers,
            recording.count,
            recording.masks.as_ptr(),
            recording.masks.len(),
            recording.states.as_ptr(),
            recording.states.len(),
            c,
            rows.as_mut_ptr(),
            rows.len(),
            &mut values,
        )
    };
    (number, values)
}

#[cfg(test)]
mod tests {
    use super::*;

    /// Behind a weak yes of `a0 U a1` at a lone place stands atom 0, behind the strong no atom 1.
    #[test]
    fn every_byte_but_0_asks_for_the_weak_readings() {
        let mut nodes = [0; full::RULE_NODES];
        let (number, [controller, count]) =
            read_rule(b"rule\t0\t3\natom\t0\natom\t1\nuntil\t0\t1\n", &mut nodes);
        assert_eq!(number, ACCEPTED);
        let rule = Rule { controller, count, nodes: &nodes };
        let recording = Recording { controllers: 1, count: 1, masks: &[u32::MAX], states: &[1] };
        for weak in 0..=u8::MAX {
            let mut pairs = [7; full::PAIRS];
            assert_eq!(evidence_by(rule, recording, weak, &mut pairs), (ACCEPTED, [1]));
            assert_eq!(pairs[0], u32::from(weak == 0));
            assert!(pairs[1..].iter().all(|&pair| pair == 0));
        }
    }
}

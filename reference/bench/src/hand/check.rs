//! The refusals of tables and recordings.

use super::node::{self, ATOM, END, NEXT, NOT, OR, PREV, RUN, SINCE, TRUE, UNTIL};
use ragyvosin::{Recording, Rule, Table};
use reference::model::{limits, refusal};

/// One node: 2, then 3.
pub fn node(word: u32, number: usize, rewritten: bool) -> Result<(), u8> {
    let (first, second) = (node::first(word), node::second(word));
    let (outside, late) = match node::kind(word) {
        TRUE => (first != 0 || second != 0, false),
        ATOM => (first >= limits::ATOMS || second != 0, false),
        NOT | NEXT | PREV => (second != 0, first >= number),
        OR | UNTIL | SINCE => (false, first >= number || second >= number),
        RUN | END => (!rewritten || first != 0 || second != 0, false),
        _ => (true, false),
    };
    if outside {
        return Err(refusal::RULE_LIMIT);
    }
    if late {
        return Err(refusal::OPERAND);
    }
    Ok(())
}

/// The nodes that are there, then 4.
fn nodes(count: usize, words: &[u32], rewritten: bool) -> Result<(), u8> {
    for (number, word) in words.iter().take(count).enumerate() {
        node(*word, number, rewritten)?;
    }
    if words.len() < count {
        return Err(refusal::RULE_LINES);
    }
    Ok(())
}

/// A rule's controller and count.
pub fn rule_heading(controller: usize, count: usize) -> Result<(), u8> {
    if controller >= limits::CONTROLLERS || !(1..=limits::RULE_NODES).contains(&count) {
        return Err(refusal::RULE_LIMIT);
    }
    Ok(())
}

/// A rule's heading, then its nodes.
pub fn rule(rule: Rule) -> Result<(), u8> {
    rule_heading(rule.controller, rule.count)?;
    nodes(rule.count, rule.nodes, false)
}

/// The judge's table: count, nodes, tops.
pub fn table(table: Table) -> Result<(), u8> {
    if !(1..=limits::TABLE_NODES).contains(&table.count) {
        return Err(refusal::RULE_LIMIT);
    }
    nodes(table.count, table.nodes, true)?;
    if table.weak_top >= table.count || table.strong_top >= table.count {
        return Err(refusal::RULE_LIMIT);
    }
    Ok(())
}

/// C and N.
pub fn recording_heading(controllers: usize, count: usize) -> Result<(), u8> {
    let fits = (1..=limits::CONTROLLERS).contains(&controllers);
    if !fits || !(1..=limits::STATES).contains(&count) {
        return Err(refusal::RECORDING_LIMIT);
    }
    Ok(())
}

/// Does an atom of a controller that doesn't run change after this state?
fn output_broken(masks: &[u32], before: u64, state: u64) -> bool {
    let changed = (before ^ state) as u32;
    let idle = |c: usize| before >> (limits::ATOMS + c) & 1 == 0;
    masks.iter().enumerate().any(|(c, mask)| changed & mask != 0 && idle(c))
}

/// One state against the state before it, if there is one: 6, 10.
pub fn state(controllers: usize, masks: &[u32], before: Option<u64>, state: u64) -> Result<(), u8> {
    marks(controllers, state)?;
    output(masks, before, state)
}

/// Run marks of the controllers that there are.
pub fn marks(controllers: usize, state: u64) -> Result<(), u8> {
    if state >> limits::ATOMS >> controllers != 0 {
        return Err(refusal::RECORDING_LIMIT);
    }
    Ok(())
}

/// The output rule against the state before.
pub fn output(masks: &[u32], before: Option<u64>, state: u64) -> Result<(), u8> {
    if before.is_some_and(|before| output_broken(masks, before, state)) {
        return Err(refusal::OUTPUT_RULE);
    }
    Ok(())
}

/// A recording: heading, masks, states, then 8.
pub fn recording(recording: Recording) -> Result<(), u8> {
    let Recording { controllers, count, masks, states } = recording;
    recording_heading(controllers, count)?;
    let there = &masks[..masks.len().min(controllers)];
    let mut seen = 0;
    for mask in there {
        if seen & mask != 0 {
            return Err(refusal::MASKS_MEET);
        }
        seen |= mask;
    }
    let mut before = None;
    for word in states.iter().take(count) {
        state(controllers, there, before, *word)?;
        before = Some(*word);
    }
    if masks.len() < controllers || states.len() < count {
        return Err(refusal::RECORDING_LINES);
    }
    Ok(())
}

/// The recording, then the controller.
pub fn controller(of: Recording, c: usize) -> Result<(), u8> {
    recording(of)?;
    if c >= of.controllers {
        return Err(refusal::CONTROLLER);
    }
    Ok(())
}

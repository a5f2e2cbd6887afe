//! Sessions: the calls test and write as the library's do; the verdicts are
//! those of one of the judges by hand.

use super::check;
use ragyvosin::{full, Heading, Recording, Rule};
use reference::model::{limits, refusal};

/// A judge of a rule on its local trace.
pub type Judge = fn(Rule, Recording) -> (u8, [usize; 2]);

/// C, the masks that are there, then 8 and the rule's controller.
fn masks(controllers: usize, owned: &[u32], controller: usize) -> Result<(), u8> {
    if !(1..=limits::CONTROLLERS).contains(&controllers) {
        return Err(refusal::RECORDING_LIMIT);
    }
    let mut seen = 0;
    for mask in owned.iter().take(controllers) {
        if seen & mask != 0 {
            return Err(refusal::MASKS_MEET);
        }
        seen |= mask;
    }
    if owned.len() < controllers {
        return Err(refusal::RECORDING_LINES);
    }
    if controller >= controllers {
        return Err(refusal::CONTROLLER);
    }
    Ok(())
}

/// A content, then zeros up to the full size.
fn leave<T: Copy + Default>(lent: &mut [T], full: usize, content: &[T]) {
    lent[..content.len()].copy_from_slice(content);
    lent[content.len()..full].fill(T::default());
}

pub fn open_session(
    controllers: usize,
    owned: &[u32],
    rule: Rule,
    heading: &mut Heading,
    lent_masks: &mut [u32],
    nodes: &mut [u32],
    states: &mut [u64],
) -> u8 {
    let short = lent_masks.len() < full::MASKS || nodes.len() < full::RULE_NODES;
    if short || states.len() < full::STATES {
        return refusal::LENT_SPACE;
    }
    let checked = check::rule(rule).and_then(|()| masks(controllers, owned, rule.controller));
    if let Err(number) = checked {
        return number;
    }
    *heading = [controllers, rule.controller, rule.count, 0];
    leave(lent_masks, full::MASKS, &owned[..controllers]);
    leave(nodes, full::RULE_NODES, &rule.nodes[..rule.count]);
    leave(states, full::STATES, &[]);
    0
}

pub fn arrive(state: u64, heading: &mut Heading, masks: &[u32], states: &mut [u64]) -> u8 {
    let [controllers, _, _, held] = *heading;
    if states.len() < full::STATES {
        return refusal::LENT_SPACE;
    }
    if held >= full::STATES {
        return refusal::SESSION_FULL;
    }
    if !(1..=limits::CONTROLLERS).contains(&controllers) {
        return refusal::RECORDING_LIMIT;
    }
    let there = &masks[..masks.len().min(controllers)];
    let before = held.checked_sub(1).map(|last| states[last]);
    if let Err(number) = check::state(controllers, there, before, state) {
        return number;
    }
    states[held] = state;
    heading[3] = held + 1;
    0
}

pub fn replace_rule(rule: Rule, heading: &mut Heading, nodes: &mut [u32]) -> u8 {
    if nodes.len() < full::RULE_NODES {
        return refusal::LENT_SPACE;
    }
    if let Err(number) = check::rule(rule) {
        return number;
    }
    if rule.controller >= heading[0] {
        return refusal::CONTROLLER;
    }
    (heading[1], heading[2]) = (rule.controller, rule.count);
    leave(nodes, full::RULE_NODES, &rule.nodes[..rule.count]);
    0
}

pub fn session_verdicts(
    judge: Judge,
    heading: &Heading,
    masks: &[u32],
    nodes: &[u32],
    states: &[u64],
) -> (u8, [usize; 3]) {
    let [controllers, controller, rule_count, count] = *heading;
    if count == 0 {
        return (0, [0; 3]);
    }
    let rule = Rule { controller, count: rule_count, nodes };
    match judge(rule, Recording { controllers, count, masks, states }) {
        (0, [weak, strong]) => (0, [1, weak, strong]),
        (number, _) => (number, [0; 3]),
    }
}

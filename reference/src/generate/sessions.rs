//! Sessions: openings, arriving states, and what may stand in lent space that
//! no call made.

use super::lent;
use super::random::Random;
use super::recordings::{self, RecordingTable};
use super::rules::{self, RuleTable};
use crate::model::limits::{ATOMS, CONTROLLERS, RULE_NODES, STATES};
use crate::model::session::{Contents, Opening};

/// What a session opens on.
#[derive(Clone, PartialEq, Eq, Debug)]
pub struct OpeningTable {
    /// C.
    pub controllers: usize,
    /// The masks; there may be fewer or more than C.
    pub owned: Vec<u32>,
    /// The rule.
    pub rule: RuleTable,
}

impl OpeningTable {
    /// As the model takes it.
    pub fn opening(&self) -> Opening<'_> {
        let RuleTable { controller, count, nodes } = &self.rule;
        Opening {
            controllers: self.controllers,
            owned: &self.owned,
            controller: *controller,
            count: *count,
            rule: nodes,
        }
    }

    /// The recording of these states.
    pub fn recording(&self, states: &[u64]) -> RecordingTable {
        RecordingTable {
            controllers: self.controllers,
            length: states.len(),
            masks: self.owned.clone(),
            states: states.to_vec(),
        }
    }
}

/// One call of a session; the verdicts may be asked after each.
#[derive(Clone, PartialEq, Eq, Debug)]
pub enum Call {
    /// It opens, over what stood there before.
    Open(OpeningTable),
    /// A state arrives.
    Arrive(u64),
    /// The last state is withdrawn.
    Withdraw,
    /// A new rule.
    Replace(RuleTable),
}

/// An accepted opening with a rule of at most so many nodes.
pub fn opening(random: &mut Random, most: usize) -> OpeningTable {
    let RecordingTable { controllers, masks, .. } = recordings::recording(random, CONTROLLERS, 1);
    let controller = random.below(controllers);
    OpeningTable { controllers, owned: masks, rule: rules::rule_for(random, controller, most) }
}

/// An opening that is most of the time refused: the rule, C, the masks, or more
/// than one of them damaged.
pub fn damaged_opening(random: &mut Random) -> OpeningTable {
    let mut opening = opening(random, RULE_NODES);
    for _ in 0..random.pick(&[1, 1, 2]) {
        let controllers = opening.controllers.clamp(1, CONTROLLERS);
        match random.below(6) {
            0 => opening.rule = rules::damaged_rule(random, RULE_NODES),
            1 if random.once_in(4) => opening.controllers = 0,
            1 => opening.controllers = random.beyond(CONTROLLERS + 1),
            2 => opening.owned.truncate(random.below(controllers)),
            3 => opening.owned.iter_mut().for_each(|mask| *mask |= 1),
            4 => opening.rule.controller = random.beyond(controllers),
            _ => opening.owned.push(random.word()),
        }
    }
    opening
}

/// An accepted opening or a damaged one.
pub fn any_opening(random: &mut Random) -> OpeningTable {
    if random.once_in(2) {
        opening(random, RULE_NODES)
    } else {
        damaged_opening(random)
    }
}

/// A new rule for one of so many controllers, accepted or damaged, or of a
/// controller that may not be there.
pub fn any_new_rule(random: &mut Random, controllers: usize) -> RuleTable {
    let most = random.pick(&[1, 3, 8, RULE_NODES]);
    match random.below(8) {
        0..=4 => {
            let controller = random.below(controllers.clamp(1, CONTROLLERS));
            rules::rule_for(random, controller, most)
        }
        5 => rules::rule(random, most),
        6 => rules::damaged_rule(random, RULE_NODES),
        _ => rules::any_rule(random, RULE_NODES),
    }
}

/// A state that is accepted after the one before it, if there is one.
pub fn arrival(random: &mut Random, masks: &[u32], before: Option<u64>) -> u64 {
    match before {
        Some(before) => recordings::following(random, masks, before),
        None => {
            let atoms = u64::from(random.word());
            recordings::marks(random, masks.len()) << ATOMS | atoms
        }
    }
}

/// The same with a bit turned over now and then, or another word.
pub fn any_arrival(random: &mut Random, masks: &[u32], before: Option<u64>) -> u64 {
    let word = arrival(random, masks, before);
    match random.below(8) {
        0 => word ^ 1 << random.below(64),
        1 => word ^ 1 << random.below(ATOMS),
        2 => random.bits(),
        _ => word,
    }
}

/// Entries in lent space: some after them, zero or any, mostly of the full
/// size or more.
fn lent<T>(random: &mut Random, mut entries: Vec<T>, full: usize, any: fn(u64) -> T) -> Vec<T> {
    let length = lent::length(random, full);
    let zero = random.once_in(2);
    while entries.len() < length {
        let bits = if zero { 0 } else { random.bits() };
        entries.push(any(bits));
    }
    entries.truncate(length);
    entries
}

/// One of the heading's numbers: at its edges, huge, or any.
fn forged_number(random: &mut Random, most: usize) -> usize {
    match random.below(4) {
        0 => random.pick(&[0, 1, most - 1, most, most + 1]),
        1 => random.beyond(most),
        2 => random.between(0, most + 2),
        _ => random.bits() as usize,
    }
}

/// Lent space in which anything stands: a rule and a recording, accepted or
/// damaged, in slices of any length, and a heading that is theirs or isn't.
pub fn contents(random: &mut Random) -> Contents {
    let recording = recordings::any_recording(random, CONTROLLERS, STATES);
    let controllers = recording.controllers.clamp(1, CONTROLLERS);
    let rule = match random.below(3) {
        0 => rules::any_rule(random, RULE_NODES),
        _ => {
            let controller = random.below(controllers);
            rules::rule_for(random, controller, RULE_NODES)
        }
    };
    let mut heading = [recording.controllers, rule.controller, rule.count, recording.length];
    let most = [CONTROLLERS, CONTROLLERS - 1, RULE_NODES, STATES];
    for (number, most) in heading.iter_mut().zip(most) {
        if random.once_in(6) {
            *number = forged_number(random, most);
        }
    }
    Contents {
        heading,
        masks: lent(random, recording.masks, CONTROLLERS, |bits| bits as u32),
        nodes: lent(random, rule.nodes, RULE_NODES, |bits| bits as u32),
        states: lent(random, recording.states, STATES, |bits| bits),
    }
}

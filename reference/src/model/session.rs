//! "The rack as it runs" and "A new rule without stopping the rack": a session
//! as it is worded, and its calls over lent space, on whatever stands there.
//!
//! Made by its own calls, the contents of lent space are the image of accepted
//! masks, an accepted rule and the states that remain; on any other contents
//! the calls test what they need, as the decided readings say.

use super::recording::{check_controllers, check_masks, check_state, project, Recording, State};
use super::rule::{check_rule, Rule};
use super::semantics::local_readings;
use super::{judge_local, leave, limits, node_words, refusal, too_short, verdict, Verdict};

/// C, controller, node count, states held.
pub type Heading = [usize; 4];

/// What a session opens on: "masks, a rule and its controller", as tables have
/// them.
#[derive(Clone, PartialEq, Eq, Debug)]
pub struct Opening<'a> {
    /// C.
    pub controllers: usize,
    /// The masks; there may be fewer or more than C.
    pub owned: &'a [u32],
    /// The rule's controller.
    pub controller: usize,
    /// Its node count.
    pub count: usize,
    /// Its nodes; there may be fewer or more than the count.
    pub rule: &'a [u32],
}

/// A session as it is worded: accepted masks, an accepted rule of one of their
/// controllers, and the states that remain.
#[derive(Clone, PartialEq, Eq, Debug)]
pub struct Session {
    /// The own atoms of each controller.
    pub masks: Vec<u32>,
    /// The rule.
    pub rule: Rule,
    /// The states that arrived and weren't withdrawn.
    pub states: Vec<State>,
}

/// The lent space of a session: its heading and its three slices.
#[derive(Clone, PartialEq, Eq, Debug)]
pub struct Contents {
    /// C, controller, node count, states held.
    pub heading: Heading,
    /// The masks.
    pub masks: Vec<u32>,
    /// The nodes.
    pub nodes: Vec<u32>,
    /// The states.
    pub states: Vec<u64>,
}

impl Session {
    /// "checked as document 01 checks them": the rule (2, 3, 4), C (6), the
    /// masks (7, 8), then the rule's controller (11). It is empty.
    pub fn open(opening: &Opening) -> Result<Session, u8> {
        let rule = check_rule(opening.controller, opening.count, opening.rule)?;
        check_controllers(opening.controllers)?;
        let masks = check_masks(opening.controllers, opening.owned)?;
        if masks.len() < opening.controllers {
            return Err(refusal::RECORDING_LINES);
        }
        if rule.controller >= opening.controllers {
            return Err(refusal::CONTROLLER);
        }
        Ok(Session { masks, rule, states: Vec::new() })
    }

    /// "Take states as they arrive": "17, an arrival when 128 states are held,
    /// tested before 6 and 10", "against the state before".
    pub fn arrive(&mut self, state: State) -> Result<(), u8> {
        if self.states.len() == limits::STATES {
            return Err(refusal::SESSION_FULL);
        }
        check_state(self.masks.len(), &self.masks, self.states.last().copied(), state)?;
        self.states.push(state);
        Ok(())
    }

    /// "let the last one be withdrawn": "18, a withdrawal from an empty
    /// session".
    pub fn withdraw(&mut self) -> Result<(), u8> {
        self.states.pop().map(|_| ()).ok_or(refusal::SESSION_EMPTY)
    }

    /// "take another rule for a controller below C and carry its states over":
    /// the rule (2, 3, 4), then its controller (11); refused it "leaves the
    /// former one in force".
    pub fn replace_rule(
        &mut self,
        controller: usize,
        count: usize,
        nodes: &[u32],
    ) -> Result<(), u8> {
        let rule = check_rule(controller, count, nodes)?;
        if controller >= self.masks.len() {
            return Err(refusal::CONTROLLER);
        }
        self.rule = rule;
        Ok(())
    }

    /// "both verdicts equal those of judging the remaining states from the
    /// start. An empty session has no verdict".
    pub fn verdict(&self) -> Option<Verdict> {
        if self.states.is_empty() {
            return None;
        }
        let recording = Recording { masks: self.masks.clone(), states: self.states.clone() };
        let local = project(&recording, self.rule.controller);
        let last = self.rule.nodes.len() - 1;
        Some(verdict(&local_readings(&self.rule.nodes, &local), last, last))
    }

    /// The heading that it has in lent space.
    pub fn heading(&self) -> Heading {
        [self.masks.len(), self.rule.controller, self.rule.nodes.len(), self.states.len()]
    }

    /// What it is in lent space of the full sizes: "Unused entries are zero".
    pub fn image(&self) -> Contents {
        let mut masks = vec![0; limits::CONTROLLERS];
        let mut nodes = vec![0; limits::RULE_NODES];
        let mut states = vec![0; limits::STATES];
        let words: Vec<u64> = self.states.iter().map(|state| state.word()).collect();
        leave(&mut masks, limits::CONTROLLERS, &self.masks);
        leave(&mut nodes, limits::RULE_NODES, &node_words(&self.rule.nodes));
        leave(&mut states, limits::STATES, &words);
        Contents { heading: self.heading(), masks, nodes, states }
    }
}

/// Opens a session: 13 of masks, nodes and states; a refusal "changes nothing,
/// lent space included".
pub fn open_session(
    opening: &Opening,
    heading: &mut Heading,
    masks: &mut [u32],
    nodes: &mut [u32],
    states: &mut [u64],
) -> Result<(), u8> {
    let short_masks_or_states =
        too_short(masks, limits::CONTROLLERS) || too_short(states, limits::STATES);
    if short_masks_or_states || too_short(nodes, limits::RULE_NODES) {
        return Err(refusal::LENT_SPACE);
    }
    let session = Session::open(opening)?;
    *heading = session.heading();
    leave(masks, limits::CONTROLLERS, &session.masks);
    leave(nodes, limits::RULE_NODES, &node_words(&session.rule.nodes));
    leave(states, limits::STATES, &[]);
    Ok(())
}

/// A state arrives: 13 of the states, 17 (128 or more held), C outside its
/// limits (6), then the state (6, 10) against the first C masks that are there.
/// One entry of the states and the heading's last number are written.
pub fn arrive(
    word: u64,
    heading: &mut Heading,
    masks: &[u32],
    states: &mut [u64],
) -> Result<(), u8> {
    if too_short(states, limits::STATES) {
        return Err(refusal::LENT_SPACE);
    }
    let [controllers, _, _, held] = *heading;
    if held >= limits::STATES {
        return Err(refusal::SESSION_FULL);
    }
    check_controllers(controllers)?;
    let there = &masks[..controllers.min(masks.len())];
    let before = if held == 0 { None } else { Some(State::of_word(states[held - 1])) };
    check_state(controllers, there, before, State::of_word(word))?;
    states[held] = word;
    heading[3] = held + 1;
    Ok(())
}

/// The last state is withdrawn: 13 of the states, 18, then over 128 held (6).
/// "after a withdrawal every entry is what it was before the arrival".
pub fn withdraw(heading: &mut Heading, states: &mut [u64]) -> Result<(), u8> {
    if too_short(states, limits::STATES) {
        return Err(refusal::LENT_SPACE);
    }
    let held = heading[3];
    if held == 0 {
        return Err(refusal::SESSION_EMPTY);
    }
    if held > limits::STATES {
        return Err(refusal::RECORDING_LIMIT);
    }
    states[held - 1] = 0;
    heading[3] = held - 1;
    Ok(())
}

/// A new rule: 13 of the nodes, the rule (2, 3, 4), then 11 by the heading's C,
/// whatever it is. Controller, node count and nodes are written, "every entry as
/// it was" where it is refused.
pub fn replace_rule(
    controller: usize,
    count: usize,
    rule: &[u32],
    heading: &mut Heading,
    nodes: &mut [u32],
) -> Result<(), u8> {
    if too_short(nodes, limits::RULE_NODES) {
        return Err(refusal::LENT_SPACE);
    }
    let rule = check_rule(controller, count, rule)?;
    if controller >= heading[0] {
        return Err(refusal::CONTROLLER);
    }
    (heading[1], heading[2]) = (controller, count);
    leave(nodes, limits::RULE_NODES, &node_words(&rule.nodes));
    Ok(())
}

/// The verdicts: none where no state is held, "whatever else the contents are";
/// else "the query answers as local judging does".
pub fn session_verdicts(
    heading: &Heading,
    masks: &[u32],
    nodes: &[u32],
    states: &[u64],
) -> Result<Option<Verdict>, u8> {
    let [controllers, controller, count, held] = *heading;
    if held == 0 {
        return Ok(None);
    }
    judge_local(controller, count, nodes, controllers, held, masks, states).map(Some)
}

//! Wrong sessions on purpose: what a library would answer and leave that keeps
//! a session otherwise than "The rack as it runs" and "A new rule without
//! stopping the rack" say.
//!
//! Most are told by other contents: those on which the right library answers as
//! the wrong one does on what is given.

use reference::generate::rules::RuleTable;
use reference::generate::sessions::{Call, OpeningTable};
use reference::model::limits::{ATOMS, CONTROLLERS, RULE_NODES, STATES};
use reference::model::recording::{check_controllers, check_masks};
use reference::model::refusal::{
    CONTROLLER, LENT_SPACE, MASKS_MEET, OUTPUT_RULE, RECORDING_LIMIT, RECORDING_LINES,
    SESSION_EMPTY,
};
use reference::model::rule::check_rule;
use reference::model::session::{arrive, replace_rule, session_verdicts, Contents};

use crate::tally::Operation;

/// The wrong sessions.
#[derive(Clone, Copy, PartialEq, Eq, Debug)]
pub enum Miskept {
    /// An opening writes its heading before it refuses.
    OpensFirst,
    /// A refused opening leaves zeros, as other operations do.
    OpensZeroed,
    /// An opening leaves the states of the session before it.
    OpensOnStates,
    /// An opening tests C and the masks before the rule.
    MasksBeforeRule,
    /// An opening tests the rule's controller before the masks.
    ControllerBeforeMasks,
    /// An arrival is checked against the first state.
    AgainstFirst,
    /// A mark of the state before is no run, as while it was the last.
    StillNoRun,
    /// 17 is tested after 6 and 10.
    FullLast,
    /// An arrival at 128 overwrites the last state.
    Overwrites,
    /// 10 is tested before 6.
    OutputFirst,
    /// An arrival writes the state before it refuses.
    ArrivesFirst,
    /// An arriving state loses its marks.
    MarksCleared,
    /// An arrival tests the masks again.
    MasksAgain,
    /// An arrival takes masks below eleven for 13.
    MasksShort,
    /// An arrival reads the states held in 32 bits.
    HeldWrapped,
    /// A withdrawal leaves the state's word.
    LeavesWord,
    /// A withdrawal forgets to lower the count.
    KeepsCount,
    /// 18 is 0.
    EmptyWithdrawn,
    /// A withdrawal tests C.
    WithdrawTestsC,
    /// A withdrawal with over 128 held lowers the count.
    LowersAny,
    /// A new rule leaves nodes of the former one past its count.
    NodesLeft,
    /// A new rule is judged on the former controller.
    KeepsController,
    /// A refused rule is written up to the refused node.
    HalfWritten,
    /// A refused rule writes its heading.
    HeadingFirst,
    /// A new rule drops the states.
    StatesDropped,
    /// 11 is tested of the former controller.
    FormerTested,
    /// A rule for another controller is refused.
    OtherRefused,
    /// 11 is tested before the rule.
    ControllerFirst,
    /// An empty session takes no new rule.
    EmptyKeepsRule,
    /// A new rule tests C.
    ReplaceTestsC,
    /// The verdicts of an empty session are no and no.
    EmptyNo,
    /// An empty session whose contents would be refused is refused.
    EmptyTested,
    /// 128 states and no fewer are judged: those that aren't held are zero.
    AllJudged,
}

/// Each with its operation and the name that `--wrong` takes.
type Listed = (Miskept, Operation, &'static str);

impl Miskept {
    /// All of them.
    pub const ALL: [Listed; 33] = [
        (Miskept::OpensFirst, Operation::OpenSession, "opens_first"),
        (Miskept::OpensZeroed, Operation::OpenSession, "opens_zeroed"),
        (Miskept::OpensOnStates, Operation::OpenSession, "opens_on_states"),
        (Miskept::MasksBeforeRule, Operation::OpenSession, "masks_before_rule"),
        (Miskept::ControllerBeforeMasks, Operation::OpenSession, "controller_before_masks"),
        (Miskept::AgainstFirst, Operation::Arrive, "against_first"),
        (Miskept::StillNoRun, Operation::Arrive, "still_no_run"),
        (Miskept::FullLast, Operation::Arrive, "full_last"),
        (Miskept::Overwrites, Operation::Arrive, "overwrites"),
        (Miskept::OutputFirst, Operation::Arrive, "output_first"),
        (Miskept::ArrivesFirst, Operation::Arrive, "arrives_first"),
        (Miskept::MarksCleared, Operation::Arrive, "marks_cleared"),
        (Miskept::MasksAgain, Operation::Arrive, "masks_again"),
        (Miskept::MasksShort, Operation::Arrive, "masks_short"),
        (Miskept::HeldWrapped, Operation::Arrive, "held_wrapped"),
        (Miskept::LeavesWord, Operation::Withdraw, "leaves_word"),
        (Miskept::KeepsCount, Operation::Withdraw, "keeps_count"),
        (Miskept::EmptyWithdrawn, Operation::Withdraw, "empty_withdrawn"),
        (Miskept::WithdrawTestsC, Operation::Withdraw, "withdraw_tests_c"),
        (Miskept::LowersAny, Operation::Withdraw, "lowers_any"),
        (Miskept::NodesLeft, Operation::ReplaceRule, "nodes_left"),
        (Miskept::KeepsController, Operation::ReplaceRule, "keeps_controller"),
        (Miskept::HalfWritten, Operation::ReplaceRule, "half_written"),
        (Miskept::HeadingFirst, Operation::ReplaceRule, "heading_first"),
        (Miskept::StatesDropped, Operation::ReplaceRule, "states_dropped"),
        (Miskept::FormerTested, Operation::ReplaceRule, "former_tested"),
        (Miskept::OtherRefused, Operation::ReplaceRule, "other_refused"),
        (Miskept::ControllerFirst, Operation::ReplaceRule, "controller_first"),
        (Miskept::EmptyKeepsRule, Operation::ReplaceRule, "empty_keeps_rule"),
        (Miskept::ReplaceTestsC, Operation::ReplaceRule, "replace_tests_c"),
        (Miskept::EmptyNo, Operation::SessionVerdicts, "empty_no"),
        (Miskept::EmptyTested, Operation::SessionVerdicts, "empty_tested"),
        (Miskept::AllJudged, Operation::SessionVerdicts, "all_judged"),
    ];

    /// The name that `--wrong` takes.
    pub fn name(self) -> &'static str {
        let found = Miskept::ALL.into_iter().find(|(miskept, _, _)| *miskept == self);
        found.expect("all are listed").2
    }
}

/// The bits of the atoms of a state word.
const ATOM_BITS: u64 = (1 << ATOMS) - 1;

/// The number of the model's arrival on these contents; they are changed by it.
fn arrived(contents: &mut Contents, word: u64) -> u8 {
    let Contents { heading, masks, states, .. } = contents;
    arrive(word, heading, masks, states).err().unwrap_or(0)
}

/// An arrival on contents whose last state held is another word, which is put
/// back: the number.
fn arrived_after(contents: &mut Contents, other: u64, word: u64) -> u8 {
    let last = contents.heading[3] - 1;
    let before = std::mem::replace(&mut contents.states[last], other);
    let number = arrived(contents, word);
    contents.states[last] = before;
    number
}

/// C and the masks of an opening: 6, 7, 8, then 11; or 11 before the masks.
fn checked(opening: &OpeningTable, controller_first: bool) -> Result<(), u8> {
    let OpeningTable { controllers, owned, rule } = opening;
    check_controllers(*controllers)?;
    let outside = rule.controller >= *controllers;
    if outside && controller_first {
        return Err(CONTROLLER);
    }
    if check_masks(*controllers, owned)?.len() < *controllers {
        return Err(RECORDING_LINES);
    }
    Ok(())
}

/// What the wrong session answers to an opening, and leaves.
fn opened(
    wrong: Miskept,
    mut contents: Contents,
    opening: &OpeningTable,
    number: u8,
) -> Option<(u8, Contents)> {
    let OpeningTable { controllers, owned, rule } = opening;
    match (wrong, number) {
        (_, LENT_SPACE) => None,
        (Miskept::OpensFirst, 1..) => {
            contents.heading = [*controllers, rule.controller, rule.count, 0];
            Some((number, contents))
        }
        (Miskept::OpensZeroed, 1..) => {
            contents.states[..STATES].fill(0);
            Some((number, contents))
        }
        (Miskept::OpensOnStates, 0) => {
            contents.heading = [*controllers, rule.controller, rule.count, 0];
            contents.masks[..CONTROLLERS].fill(0);
            contents.masks[..*controllers].copy_from_slice(&owned[..*controllers]);
            contents.nodes[..RULE_NODES].fill(0);
            contents.nodes[..rule.count].copy_from_slice(&rule.nodes[..rule.count]);
            Some((0, contents))
        }
        (Miskept::MasksBeforeRule, 2..=4) => Some((checked(opening, false).err()?, contents)),
        (Miskept::ControllerBeforeMasks, MASKS_MEET | RECORDING_LINES) => {
            Some((checked(opening, true).err()?, contents))
        }
        _ => None,
    }
}

/// What the wrong session answers to an arrival, and leaves.
fn arriving(
    wrong: Miskept,
    mut contents: Contents,
    word: u64,
    number: u8,
) -> Option<(u8, Contents)> {
    if number == LENT_SPACE {
        return None;
    }
    let held = contents.heading[3];
    let before = held.checked_sub(1).and_then(|last| contents.states.get(last).copied());
    let first = contents.states[0];
    let number = match (wrong, before) {
        (Miskept::AgainstFirst, Some(_)) if held < STATES => {
            arrived_after(&mut contents, first, word)
        }
        (Miskept::StillNoRun, Some(before)) if held < STATES => {
            arrived_after(&mut contents, before & ATOM_BITS, word)
        }
        (Miskept::FullLast, Some(before)) if held == STATES => {
            let mut room = contents.clone();
            room.heading[3] = STATES - 1;
            let refused = arrived_after(&mut room, before, word);
            if refused == 0 {
                number
            } else {
                refused
            }
        }
        (Miskept::Overwrites, _) if held == STATES => {
            contents.states[STATES - 1] = word;
            0
        }
        (Miskept::OutputFirst, Some(_)) if number == RECORDING_LIMIT => {
            let mut other = contents.clone();
            let refused = arrived(&mut other, word & ATOM_BITS);
            if refused == OUTPUT_RULE {
                refused
            } else {
                number
            }
        }
        (Miskept::ArrivesFirst, _) if number != 0 && held < STATES => {
            contents.states[held] = word;
            number
        }
        (Miskept::MarksCleared, _) if number == 0 => arrived(&mut contents, word & ATOM_BITS),
        (Miskept::MasksAgain, _) if number == 0 => {
            let there = contents.heading[0].min(contents.masks.len());
            match check_masks(contents.heading[0], &contents.masks) {
                Err(refused) => refused,
                Ok(_) if there < contents.heading[0] => RECORDING_LINES,
                Ok(_) => return None,
            }
        }
        (Miskept::MasksShort, _) if contents.masks.len() < CONTROLLERS => LENT_SPACE,
        (Miskept::HeldWrapped, _) if held > u32::MAX as usize => {
            let high = held - held % (1 << 32);
            contents.heading[3] = held - high;
            let number = arrived(&mut contents, word);
            contents.heading[3] += high;
            number
        }
        _ => return None,
    };
    Some((number, contents))
}

/// What the wrong session answers to a withdrawal, and leaves.
fn withdrawn(wrong: Miskept, mut contents: Contents, number: u8) -> Option<(u8, Contents)> {
    let [controllers, _, _, held] = contents.heading;
    match (wrong, number) {
        (_, LENT_SPACE) => return None,
        (Miskept::LeavesWord, 0) => contents.heading[3] = held - 1,
        (Miskept::KeepsCount, 0) => contents.states[held - 1] = 0,
        (Miskept::EmptyWithdrawn, _) if held == 0 => {}
        (Miskept::WithdrawTestsC, 0) => {
            return Some((check_controllers(controllers).err()?, contents))
        }
        (Miskept::LowersAny, RECORDING_LIMIT) => contents.heading[3] = held - 1,
        _ => return None,
    }
    Some((0, contents))
}

/// The number of the model's new rule on these contents; they are changed by it.
fn replace(contents: &mut Contents, rule: &RuleTable) -> u8 {
    let RuleTable { controller, count, nodes } = rule;
    let answer =
        replace_rule(*controller, *count, nodes, &mut contents.heading, &mut contents.nodes);
    answer.err().unwrap_or(0)
}

/// What the wrong session answers to a new rule that is to be taken, and leaves.
fn taken(wrong: Miskept, before: Contents, rule: &RuleTable) -> Option<(u8, Contents)> {
    let mut contents = before.clone();
    replace(&mut contents, rule);
    match wrong {
        Miskept::NodesLeft => {
            contents.nodes[rule.count..].copy_from_slice(&before.nodes[rule.count..]);
        }
        Miskept::KeepsController => contents.heading[1] = before.heading[1],
        Miskept::StatesDropped => {
            contents.heading[3] = 0;
            contents.states.fill(0);
        }
        Miskept::OtherRefused if rule.controller != before.heading[1] => {
            return Some((CONTROLLER, before))
        }
        Miskept::EmptyKeepsRule if before.heading[3] == 0 => return Some((SESSION_EMPTY, before)),
        _ => return None,
    }
    Some((0, contents))
}

/// What the wrong session answers to a new rule that is to be refused with this
/// number, and leaves.
fn not_taken(
    wrong: Miskept,
    mut contents: Contents,
    rule: &RuleTable,
    number: u8,
) -> Option<(u8, Contents)> {
    let [controllers, former, _, _] = contents.heading;
    let number = match wrong {
        Miskept::HalfWritten => {
            let there = rule.nodes.len().min(rule.count).min(RULE_NODES);
            let fine = |count: &usize| check_rule(0, *count, &rule.nodes).is_ok();
            let written = (1..=there).rev().find(fine).unwrap_or(0);
            contents.nodes[..written].copy_from_slice(&rule.nodes[..written]);
            number
        }
        Miskept::HeadingFirst => {
            contents.heading[1..3].copy_from_slice(&[rule.controller, rule.count]);
            number
        }
        Miskept::FormerTested if number == CONTROLLER && former < controllers => {
            contents.heading[0] = usize::MAX;
            let accepted = replace(&mut contents, rule);
            contents.heading[0] = controllers;
            accepted
        }
        Miskept::ControllerFirst if rule.controller >= controllers => CONTROLLER,
        _ => return None,
    };
    Some((number, contents))
}

/// What the wrong session answers to a new rule, and leaves.
fn replaced(
    wrong: Miskept,
    contents: Contents,
    rule: &RuleTable,
    number: u8,
) -> Option<(u8, Contents)> {
    match (wrong, number) {
        (_, LENT_SPACE) => None,
        (Miskept::ReplaceTestsC, _) => {
            Some((check_controllers(contents.heading[0]).err()?, contents))
        }
        (_, 0) => taken(wrong, contents, rule),
        _ => not_taken(wrong, contents, rule, number),
    }
}

/// What the wrong session answers to a call on these contents, and leaves, where
/// it may differ from the right one, which answers this number.
pub fn called(
    wrong: Miskept,
    contents: Contents,
    call: &Call,
    number: u8,
) -> Option<(u8, Contents)> {
    match call {
        Call::Open(opening) => opened(wrong, contents, opening, number),
        Call::Arrive(word) => arriving(wrong, contents, *word, number),
        Call::Withdraw => withdrawn(wrong, contents, number),
        Call::Replace(rule) => replaced(wrong, contents, rule, number),
    }
}

/// What the wrong session answers for its verdicts, where the right one answers
/// this.
pub fn asked(wrong: Miskept, contents: &Contents, right: (u8, [usize; 3])) -> (u8, [usize; 3]) {
    let Contents { mut heading, masks, nodes, states } = contents.clone();
    let empty = heading[3] == 0;
    match wrong {
        Miskept::EmptyNo if empty => (0, [1, 0, 0]),
        Miskept::EmptyTested if empty => {
            heading[3] = 1;
            let answer = session_verdicts(&heading, &masks, &nodes, &states);
            (answer.err().unwrap_or(0), [0; 3])
        }
        Miskept::AllJudged if right.1[0] == 1 && states.len() >= STATES => {
            heading[3] = STATES;
            match session_verdicts(&heading, &masks, &nodes, &states) {
                Ok(Some(verdict)) => {
                    (0, [1, usize::from(verdict.weak), usize::from(verdict.strong)])
                }
                Ok(None) => (0, [0; 3]),
                Err(number) => (number, [0; 3]),
            }
        }
        _ => right,
    }
}

//! What a session is kept in, its calls by the library and by the model, and
//! their comparison: the number, all four places entry by entry, the verdicts.

use reference::generate::rules::RuleTable;
use reference::generate::sessions::{Call, OpeningTable};
use reference::model::limits::{RULE_NODES, STATES};
use reference::model::refusal::SESSION_EMPTY;
use reference::model::session::{self, Contents, Heading};

use crate::check::Check;
use crate::difference::Difference;
use crate::expected::verdict_values;
use crate::input::{Entry, Space};
use crate::library::lent_rule;
use crate::outcome::{entry_name, first_difference};
use crate::sessions::miskept::{self, Miskept};
use crate::tally::Operation;
use crate::wrong::Place;

/// The heading, masks, nodes and states of a session, with guards around each.
#[derive(Clone, PartialEq, Eq)]
pub struct Kept {
    heading: Space<usize>,
    masks: Space<u32>,
    nodes: Space<u32>,
    states: Space<u64>,
}

/// The heading that is lent.
fn numbers(heading: &mut Space<usize>) -> &mut Heading {
    heading.lend().try_into().expect("a heading has four numbers")
}

/// The first entry that differs, in words.
fn differing<T: Entry + PartialEq>(
    name: &str,
    expected: &Space<T>,
    found: &Space<T>,
) -> Option<String> {
    let (at, one, other) = first_difference(expected.entries(), found.entries())?;
    let entry = entry_name(at, found.held().len());
    Some(format!("{name} {entry}: expected {:#x}, found {:#x}", one.word(), other.word()))
}

impl Kept {
    /// These contents.
    pub fn of(contents: &Contents) -> Kept {
        Kept {
            heading: Space::holding(&contents.heading),
            masks: Space::holding(&contents.masks),
            nodes: Space::holding(&contents.nodes),
            states: Space::holding(&contents.states),
        }
    }

    /// What it holds, without the guards.
    pub fn contents(&self) -> Contents {
        Contents {
            heading: self.heading(),
            masks: self.masks.held().to_vec(),
            nodes: self.nodes.held().to_vec(),
            states: self.states.held().to_vec(),
        }
    }

    /// The heading.
    pub fn heading(&self) -> Heading {
        self.heading.held().try_into().expect("a heading has four numbers")
    }

    /// The masks of the first C controllers that are there.
    pub fn masks(&self) -> &[u32] {
        let there = self.masks.held();
        &there[..self.heading()[0].min(there.len())]
    }

    /// The last state held, if it is there.
    pub fn last(&self) -> Option<u64> {
        let last = self.heading()[3].checked_sub(1)?;
        self.states.held().get(last).copied()
    }

    /// How many entries are compared, guards included.
    fn entries(&self) -> u64 {
        let words = self.masks.entries().len() + self.nodes.entries().len();
        (self.heading.entries().len() + words + self.states.entries().len()) as u64
    }

    /// A call by the library: its number.
    fn by_library(&mut self, call: &Call) -> u8 {
        let Kept { heading, masks, nodes, states } = self;
        let heading = numbers(heading);
        match call {
            Call::Open(OpeningTable { controllers, owned, rule }) => ragyvosin::open_session(
                *controllers,
                owned,
                lent_rule(rule),
                heading,
                masks.lend(),
                nodes.lend(),
                states.lend(),
            ),
            Call::Arrive(word) => ragyvosin::arrive(*word, heading, masks.held(), states.lend()),
            Call::Withdraw => ragyvosin::withdraw(heading, states.lend()),
            Call::Replace(rule) => ragyvosin::replace_rule(lent_rule(rule), heading, nodes.lend()),
        }
    }

    /// The same by the model.
    fn by_model(&mut self, call: &Call) -> u8 {
        let Kept { heading, masks, nodes, states } = self;
        let heading = numbers(heading);
        let answer = match call {
            Call::Open(table) => session::open_session(
                &table.opening(),
                heading,
                masks.lend(),
                nodes.lend(),
                states.lend(),
            ),
            Call::Arrive(word) => session::arrive(*word, heading, masks.held(), states.lend()),
            Call::Withdraw => session::withdraw(heading, states.lend()),
            Call::Replace(RuleTable { controller, count, nodes: rule }) => {
                session::replace_rule(*controller, *count, rule, heading, nodes.lend())
            }
        };
        answer.err().unwrap_or(0)
    }

    /// The verdicts by the library.
    fn verdicts_by_library(&self) -> (u8, [usize; 3]) {
        let heading = self.heading.held().try_into().expect("a heading has four numbers");
        let [masks, nodes] = [self.masks.held(), self.nodes.held()];
        ragyvosin::session_verdicts(heading, masks, nodes, self.states.held())
    }

    /// The same by the model: a first value 1, or three zeros.
    fn verdicts_by_model(&self) -> (u8, [usize; 3]) {
        let [masks, nodes] = [self.masks.held(), self.nodes.held()];
        match session::session_verdicts(&self.heading(), masks, nodes, self.states.held()) {
            Err(number) => (number, [0; 3]),
            Ok(None) => (0, [0; 3]),
            Ok(Some(verdict)) => {
                let [weak, strong] = verdict_values(verdict);
                (0, [1, weak, strong])
            }
        }
    }

    /// Turns over an entry that an accepted call wrote, when so many were held:
    /// was it there?
    fn turn_written(&mut self, call: &Call, held: usize) -> bool {
        match call {
            Call::Open(_) => turn(&mut self.states, 0),
            Call::Arrive(_) => turn(&mut self.states, held),
            Call::Withdraw => turn(&mut self.states, held.wrapping_sub(1)),
            Call::Replace(_) => turn(&mut self.nodes, 0),
        }
    }

    /// By the library alone: a session that opens here on this and takes these
    /// states.
    pub fn opened(&self, opening: &OpeningTable, states: &[u64]) -> Kept {
        let mut kept = self.clone();
        kept.by_library(&Call::Open(opening.clone()));
        for word in states {
            kept.by_library(&Call::Arrive(*word));
        }
        kept
    }

    /// Where what the library left differs from this, in words.
    pub fn difference(&self, found: &Kept) -> Option<String> {
        differing("heading", &self.heading, &found.heading)
            .or_else(|| differing("masks", &self.masks, &found.masks))
            .or_else(|| differing("nodes", &self.nodes, &found.nodes))
            .or_else(|| differing("states", &self.states, &found.states))
    }
}

/// The operation that a call is of.
pub fn operation(call: &Call) -> Operation {
    match call {
        Call::Open(_) => Operation::OpenSession,
        Call::Arrive(_) => Operation::Arrive,
        Call::Withdraw => Operation::Withdraw,
        Call::Replace(_) => Operation::ReplaceRule,
    }
}

/// A difference at a call, with all that it takes to make it again.
fn at_call(place: String, before: &Kept, call: &Call) -> Difference {
    Difference::new(place, format!("{call:x?} on {:x?}", before.contents()))
}

/// Turns an entry over, if it is there: was it?
fn turn<T: Entry>(space: &mut Space<T>, at: usize) -> bool {
    let entry = space.lend().get_mut(at);
    entry.map(|entry| *entry = T::of(entry.word() ^ 1)).is_some()
}

/// Alters what is expected of a call if the wrong answer belongs here: the
/// number, and what is left.
fn alter(check: &Check, before: &Kept, call: &Call, number: &mut u8, expected: &mut Kept) {
    let operation = operation(call);
    let Some(place) = check.place(operation) else { return };
    let refused = *number != 0;
    let mut other = expected.clone();
    let new_rule = matches!(call, Call::Replace(_));
    let altered = match place {
        Place::Number => refused,
        Place::Content => !refused && other.turn_written(call, before.heading()[3]),
        Place::Unused => !refused && turn(&mut other.nodes, RULE_NODES - 1),
        Place::Untouched if new_rule => refused && turn(&mut other.nodes, RULE_NODES / 2),
        Place::Untouched => refused && turn(&mut other.states, STATES / 2),
        Place::Beyond if new_rule => turn(&mut other.nodes, RULE_NODES),
        Place::Beyond => turn(&mut other.states, STATES),
        Place::Miskept(wrong) => return miskeep(check, wrong, before, call, (number, expected)),
        _ => false,
    };
    if altered && check.wrong(operation, place) {
        *number = if place == Place::Number { *number % SESSION_EMPTY + 1 } else { *number };
        *expected = other;
    }
}

/// Expects what a wrongly kept session answers and leaves, where it differs.
fn miskeep(
    check: &Check,
    wrong: Miskept,
    before: &Kept,
    call: &Call,
    (number, expected): (&mut u8, &mut Kept),
) {
    let Some((other, left)) = miskept::called(wrong, before.contents(), call, *number) else {
        return;
    };
    let left = Kept::of(&left);
    let differs = other != *number || left != *expected;
    if differs && check.wrong(operation(call), Place::Miskept(wrong)) {
        (*number, *expected) = (other, left);
    }
}

/// Compares a call of the library on these contents with the model's: the
/// number, and what is left.
pub fn called(check: &mut Check, before: &Kept, call: &Call) -> Result<(u8, Kept), Difference> {
    let mut expected = before.clone();
    let mut number = expected.by_model(call);
    alter(check, before, call, &mut number, &mut expected);
    let mut found = before.clone();
    let answered = found.by_library(call);
    check.count(operation(call), 1, found.entries());
    if answered != number {
        let place = format!("number: expected {number}, found {answered}");
        return Err(at_call(place, before, call));
    }
    if let Some(place) = expected.difference(&found) {
        return Err(at_call(place, before, call));
    }
    check.tally.met(operation(call), number);
    Ok((number, found))
}

/// Compares the verdicts of the library on these contents with the model's, and
/// that they are left as they were: the number and the three values.
pub fn asked(check: &mut Check, kept: &Kept) -> Result<(u8, [usize; 3]), Difference> {
    let operation = Operation::SessionVerdicts;
    let mut expected = kept.verdicts_by_model();
    match check.place(operation) {
        Some(Place::Number) if expected.0 != 0 && check.wrong(operation, Place::Number) => {
            expected.0 = expected.0 % SESSION_EMPTY + 1;
        }
        Some(Place::Value) if expected.1[0] == 1 && check.wrong(operation, Place::Value) => {
            expected.1[2] ^= 1;
        }
        Some(Place::Miskept(wrong)) => {
            let other = miskept::asked(wrong, &kept.contents(), expected);
            if other != expected && check.wrong(operation, Place::Miskept(wrong)) {
                expected = other;
            }
        }
        _ => {}
    }
    let before = kept.clone();
    let found = kept.verdicts_by_library();
    check.count(operation, 1, kept.entries());
    let left = before.difference(kept).map(|place| format!("after the verdicts, {place}"));
    let place = match left {
        None if found == expected => {
            check.tally.met(operation, found.0);
            return Ok(found);
        }
        None => format!("verdicts: expected {expected:?}, found {found:?}"),
        Some(place) => place,
    };
    Err(Difference::new(place, format!("{:x?}", before.contents())))
}

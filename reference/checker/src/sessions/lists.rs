//! All lists of calls up to a length, over a few openings, arrivals, new rules
//! and the withdrawal, from several starts.

use reference::generate::rules::{listed, RuleTable};
use reference::generate::sessions::{Call, OpeningTable};
use reference::model::limits::{CONTROLLERS, RULE_NODES, STATES};
use reference::model::session::Contents;

use crate::check::Check;
use crate::difference::Difference;
use crate::library::Whole;
use crate::sessions::kept::Kept;
use crate::sessions::{At, Remaining};

/// Lists of some calls from some starts.
pub struct Lists {
    starts: Vec<At>,
    calls: Vec<Call>,
}

/// A state word of run marks and atoms.
pub fn state(marks: u64, atoms: u64) -> u64 {
    (marks << 32) + atoms
}

/// What a session opens on: masks, and a rule of a controller.
pub fn opening(owned: &[u32], controller: usize, list: &str) -> OpeningTable {
    let nodes = listed(list);
    let rule = RuleTable { controller, count: nodes.len(), nodes };
    OpeningTable { controllers: owned.len(), owned: owned.to_vec(), rule }
}

/// Lent space a little longer than its full sizes, no entry zero.
pub fn garbage() -> Contents {
    Contents {
        heading: [usize::MAX, usize::MAX, usize::MAX, 1 << 32],
        masks: vec![0xa5a5_a5a5; CONTROLLERS + 1],
        nodes: vec![0xa5a5_a5a5; RULE_NODES + 1],
        states: vec![0xa5a5_a5a5_a5a5_a5a5; STATES + 1],
    }
}

/// A session that opened on this over `garbage` and holds these states, as the
/// request words it.
pub fn holding(opening: &OpeningTable, states: &[u64]) -> Contents {
    let mut contents = garbage();
    let OpeningTable { controllers, owned, rule } = opening;
    contents.heading = [*controllers, rule.controller, rule.count, states.len()];
    contents.masks[..CONTROLLERS].fill(0);
    contents.masks[..*controllers].copy_from_slice(owned);
    contents.nodes[..RULE_NODES].fill(0);
    contents.nodes[..rule.count].copy_from_slice(&rule.nodes);
    contents.states[..STATES].fill(0);
    contents.states[..states.len()].copy_from_slice(states);
    contents
}

/// A start that the calls of a session made.
fn made(opening: &OpeningTable, states: &[u64]) -> At {
    let kept = Kept::of(&holding(opening, states));
    let remaining = Remaining { states: states.to_vec(), ..Remaining::opened(opening) };
    At { kept, remaining: Some(remaining) }
}

/// A start that no call made.
fn forged(opening: &OpeningTable, states: &[u64], forge: impl Fn(&mut Contents)) -> At {
    let mut contents = holding(opening, states);
    forge(&mut contents);
    At { kept: Kept::of(&contents), remaining: None }
}

/// Openings of two controllers, of one, and one refused for each number.
fn openings() -> Vec<OpeningTable> {
    let fine = opening(&[1, 2], 0, "atom 1; atom 0; until 0 1");
    let with = |change: fn(&mut OpeningTable)| {
        let mut other = fine.clone();
        change(&mut other);
        other
    };
    vec![
        fine.clone(),
        opening(&[3], 0, "atom 0; next 0"),
        with(|table| table.rule.controller = CONTROLLERS),
        with(|table| table.rule.nodes[2] = listed("until 0 2")[0]),
        with(|table| table.rule.count = 4),
        with(|table| table.controllers = 0),
        with(|table| (table.owned[1], table.rule.controller) = (1, 5)),
        with(|table| (table.controllers, table.rule.controller) = (3, 3)),
        with(|table| table.rule.controller = 2),
        // Two at once: the rule before C and the masks.
        with(|table| (table.rule.count, table.controllers) = (0, 12)),
    ]
}

/// Openings good and refused, arrivals good and refused, withdrawals: from lent
/// space in which nothing was opened, from sessions of no state, of a few and
/// of 126 to 128, and from contents that no call made.
fn mixed() -> Lists {
    let openings = openings();
    let words = [
        state(0, 0),
        state(1, 0),
        state(3, 3),
        state(0, 1),
        state(2, 3),
        state(4, 3),
        state(0, 4),
        state(1 << 31, 0),
    ];
    let fine = &openings[0];
    let still = [state(1, 0); STATES];
    let mut starts = vec![
        At { kept: Kept::of(&garbage()), remaining: None },
        made(fine, &[]),
        made(fine, &[state(1, 2), state(3, 3)]),
        made(fine, &still[..STATES - 2]),
        made(fine, &still),
    ];
    starts.extend([
        forged(fine, &[], |contents| contents.heading = [0; 4]),
        forged(fine, &still[..STATES - 1], |contents| contents.heading[0] = 12),
        forged(fine, &[state(1, 0)], |contents| contents.masks[..2].fill(3)),
        forged(fine, &[state(0, 3)], |contents| contents.masks.truncate(1)),
        forged(fine, &still, |contents| contents.heading[3] = STATES + 1),
        forged(fine, &[], |contents| contents.states.fill(state(1, 1))),
    ]);
    let mut calls: Vec<Call> = openings.into_iter().map(Call::Open).collect();
    calls.extend(words.map(Call::Arrive));
    calls.push(Call::Withdraw);
    Lists { starts, calls }
}

/// Every state over two atoms and two controllers, one with a mark too many,
/// and the withdrawal: from an empty session for each of some masks and rules.
fn small() -> Lists {
    let openings = [
        opening(&[1, 2], 0, "atom 1; not 0; atom 0; next 2; or 1 3; not 4; true; until 6 5; not 7"),
        opening(&[1, 2], 1, "atom 0; atom 1; until 0 1"),
        opening(&[0, 3], 0, "atom 0; prev 0; next 1"),
        opening(&[3, 0], 0, "atom 0; atom 1; since 0 1; next 2; next 3"),
    ];
    let words = (0..4).flat_map(|marks| (0..4).map(move |atoms| state(marks, atoms)));
    let mut calls: Vec<Call> = words.map(Call::Arrive).collect();
    calls.extend([Call::Arrive(state(4, 0)), Call::Withdraw]);
    Lists { starts: openings.iter().map(|opening| made(opening, &[])).collect(), calls }
}

/// New rules: shorter and longer than the one before, of either controller, one
/// with entries past its count, and one refused for each number.
fn new_rules() -> Vec<RuleTable> {
    let rule = |controller, list| opening(&[], controller, list).rule;
    let with = |change: fn(&mut RuleTable)| {
        let mut other = rule(0, "atom 0; next 0");
        change(&mut other);
        other
    };
    vec![
        rule(0, "atom 0"),
        rule(1, "atom 0; atom 1; prev 1; since 0 2"),
        with(|rule| rule.nodes.push(u32::MAX)),
        with(|rule| (rule.controller, rule.count) = (CONTROLLERS, 3)),
        with(|rule| rule.nodes[0] = listed("run")[0]),
        with(|rule| (rule.controller, rule.nodes[1]) = (5, listed("next 1")[0])),
        with(|rule| (rule.controller, rule.count) = (2, 3)),
        with(|rule| rule.controller = 2),
    ]
}

/// New rules among arrivals, withdrawals and an opening: from sessions of no
/// state, of two and of 128, and from contents that no call made.
fn renewed() -> Lists {
    let fine = opening(&[1, 2], 0, "atom 1; atom 0; until 0 1");
    let held = [state(1, 2), state(3, 3)];
    let starts = vec![
        At { kept: Kept::of(&garbage()), remaining: None },
        made(&fine, &[]),
        made(&opening(&[1, 2], 1, "true; not 0"), &held),
        made(&fine, &[state(1, 0); STATES]),
        forged(&fine, &held, |contents| contents.heading = [0, 7, 0, 2]),
        forged(&fine, &held, |contents| contents.heading[0] = 12),
        forged(&fine, &held, |contents| contents.heading[2] = usize::MAX),
    ];
    let mut calls: Vec<Call> = new_rules().into_iter().map(Call::Replace).collect();
    calls.extend([state(0, 1), state(2, 3)].map(Call::Arrive));
    calls.extend([Call::Withdraw, Call::Open(opening(&[3], 0, "atom 0; next 0"))]);
    Lists { starts, calls }
}

/// All lists.
pub fn all() -> Vec<Lists> {
    vec![mixed(), small(), renewed()]
}

impl Lists {
    /// The start and the first call of every list.
    pub fn firsts(&self) -> impl Iterator<Item = (usize, usize)> + '_ {
        let calls = self.calls.len();
        (0..self.starts.len()).flat_map(move |start| (0..calls).map(move |call| (start, call)))
    }

    /// Every list of up to so many calls with this start and first call.
    pub fn each(
        &self,
        check: &mut Check,
        (start, first): (usize, usize),
        most: usize,
    ) -> Result<(), Difference> {
        let mut whole = Whole::new();
        let at = &self.starts[start];
        let at = at.after(check, &mut whole, &self.calls[first])?;
        self.extend(check, &mut whole, &at, most - 1)
    }

    /// Every list of up to so many calls more.
    fn extend(
        &self,
        check: &mut Check,
        whole: &mut Whole,
        at: &At,
        more: usize,
    ) -> Result<(), Difference> {
        if more == 0 {
            return Ok(());
        }
        for call in &self.calls {
            let next = at.after(check, whole, call)?;
            self.extend(check, whole, &next, more - 1)?;
        }
        Ok(())
    }
}

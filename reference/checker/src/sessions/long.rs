//! Long random lists of calls, up to and past 128 states held, with
//! withdrawals, new rules, refused calls and openings over an old session; and
//! the same by the safe wrapper's own session.

use ragyvosin::Session;
use reference::generate::random::Random;
use reference::generate::sessions::{
    any_arrival, any_new_rule, any_opening, arrival, opening, Call,
};
use reference::model::limits::RULE_NODES;

use crate::check::Check;
use crate::difference::Difference;
use crate::library::{lent_rule, Whole};
use crate::plan::Plan;
use crate::sessions::kept::{asked, Kept};
use crate::sessions::lists::garbage;
use crate::sessions::At;
use crate::tally::Section;

/// Lists of a batch.
const LISTS: usize = 2;
/// Phases of a list, in turn of more arrivals and of more withdrawals.
const PHASES: usize = 4;

/// The next call.
fn next(random: &mut Random, at: &At, leaving: bool) -> Call {
    let (masks, before) = (at.kept.masks(), at.kept.last());
    match random.below(64) {
        0 => Call::Open(any_opening(random)),
        1 | 2 => Call::Withdraw,
        3..=5 => Call::Replace(any_new_rule(random, masks.len())),
        6..=44 if leaving => Call::Withdraw,
        6..=12 => Call::Arrive(any_arrival(random, masks, before)),
        _ => Call::Arrive(arrival(random, masks, before)),
    }
}

/// The same call by the wrapper's own session: its number.
fn by_wrapper(session: &mut Option<Session>, call: &Call) -> u8 {
    match (call, session) {
        (Call::Open(table), session) => {
            match Session::open(table.controllers, &table.owned, lent_rule(&table.rule)) {
                Ok(opened) => {
                    *session = Some(opened);
                    0
                }
                Err(number) => number,
            }
        }
        (Call::Arrive(word), Some(session)) => session.arrive(*word),
        (Call::Withdraw, Some(session)) => session.withdraw(),
        (Call::Replace(rule), Some(session)) => session.replace_rule(lent_rule(rule)),
        (_, None) => unreachable!("the first call opens it"),
    }
}

/// What the wrapper's own session says after a call, against what the calls
/// over lent space left.
fn same(
    check: &mut Check,
    before: &At,
    (call, number): (&Call, u8),
    after: &At,
    session: &Session,
) -> Result<(), Difference> {
    let (_, values) = asked(check, &after.kept)?;
    let verdicts = (values[0] == 1).then_some([values[1], values[2]]);
    let remaining = after.remaining.as_ref().expect("it is open");
    let changed = before.kept != after.kept;
    let same = session.verdicts() == (0, verdicts) && session.states() == remaining.states;
    if same && (number == 0 || !changed) {
        return Ok(());
    }
    let place = format!("the wrapper's session: {number}, {:?}", session.verdicts());
    Err(Difference::new(place, format!("{call:x?} on {:x?}", before.kept.contents())))
}

/// A long list.
fn list(check: &mut Check, random: &mut Random) -> Result<(), Difference> {
    let mut whole = Whole::new();
    let most = random.pick(&[3, 8, 8, RULE_NODES]);
    let mut at = At { kept: Kept::of(&garbage()), remaining: None };
    let mut session = None;
    let mut call = Call::Open(opening(random, most));
    for phase in 0..PHASES {
        let leaving = phase % 2 == 1;
        for _ in 0..random.between(20, 100) {
            let after = at.after(check, &mut whole, &call)?;
            let number = by_wrapper(&mut session, &call);
            let kept = session.as_ref().expect("the first call opens it");
            same(check, &at, (&call, number), &after, kept)?;
            at = after;
            call = next(random, &at, leaving);
        }
    }
    Ok(())
}

/// A list that fills the session, goes past it, and empties it.
fn full(check: &mut Check, random: &mut Random) -> Result<(), Difference> {
    let mut whole = Whole::new();
    let start = At { kept: Kept::of(&garbage()), remaining: None };
    let mut at = start.after(check, &mut whole, &Call::Open(opening(random, 4)))?;
    while at.kept.heading()[3] < ragyvosin::full::STATES {
        let word = arrival(random, at.kept.masks(), at.kept.last());
        at = at.after(check, &mut whole, &Call::Arrive(word))?;
    }
    for _ in 0..8 {
        let word = any_arrival(random, at.kept.masks(), at.kept.last());
        at = at.after(check, &mut whole, &Call::Arrive(word))?;
    }
    for _ in 0..random.between(1, ragyvosin::full::STATES + 1) {
        at = at.after(check, &mut whole, &Call::Withdraw)?;
    }
    Ok(())
}

/// Some lists.
pub fn batch(check: &mut Check, plan: &Plan, number: usize) -> Result<(), Difference> {
    let mut random = plan.random(Section::Sessions, 2 * number);
    for _ in 0..LISTS {
        list(check, &mut random)?;
    }
    full(check, &mut random)
}

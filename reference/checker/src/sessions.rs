//! Sessions: every short list of calls from several starts, long lists, calls
//! on contents that none made, and lent space of every length. After each call
//! its number, all four places and the verdicts are the model's; and after each
//! list of calls from an empty session the verdicts are those of judging the
//! remaining states from the start, on the local trace and of both rewritings.
//! After a new rule all four places are those of a session that opens on it and
//! takes the remaining states.

mod forged;
pub mod kept;
mod lengths;
mod lists;
mod long;
pub mod miskept;
pub mod trials;

use std::sync::Arc;

use reference::generate::sessions::{Call, OpeningTable};

use crate::check::Check;
use crate::difference::Difference;
use crate::evidence::promise::verdicts;
use crate::library::Whole;
use crate::plan::Plan;
use crate::tally::Operation;
use crate::work::Job;
use crate::wrong::Place;
use kept::{asked, called, Kept};
use lists::Lists;

/// What remains of a list of calls: what the session opened on, and the states
/// that arrived and weren't withdrawn.
#[derive(Clone)]
struct Remaining {
    opening: Arc<OpeningTable>,
    states: Vec<u64>,
}

impl Remaining {
    /// What remains after an accepted opening.
    fn opened(opening: &OpeningTable) -> Remaining {
        Remaining { opening: Arc::new(opening.clone()), states: Vec::new() }
    }

    /// "both verdicts equal those of judging the remaining states from the
    /// start", and of both rewritings.
    fn require(
        &self,
        check: &mut Check,
        whole: &mut Whole,
        found: (u8, [usize; 3]),
    ) -> Result<(), Difference> {
        let Remaining { opening, states } = self;
        let mut expected = [[0; 3]; 3];
        if !states.is_empty() {
            let judged = verdicts(whole, &opening.rule, &opening.recording(states))?;
            expected = judged.map(|[weak, strong]| [1, weak, strong]);
        }
        if check.wrong(Operation::Remaining, Place::Value) {
            expected[1][2] ^= 1;
        }
        check.count(Operation::Remaining, 1, 0);
        if expected.iter().all(|values| found == (0, *values)) {
            return Ok(());
        }
        let place = format!("the remaining states, judged: {expected:?}, the session: {found:?}");
        Err(Difference::new(place, format!("{opening:x?}, {states:x?}")))
    }

    /// "From there its answers are those of a session that had the new rule from
    /// the first state": its entries are.
    fn require_renewed(&self, check: &mut Check, kept: &Kept) -> Result<(), Difference> {
        let Remaining { opening, states } = self;
        let mut states = &states[..];
        if !states.is_empty() && check.wrong(Operation::Renewed, Place::Content) {
            states = &states[1..];
        }
        check.count(Operation::Renewed, 1, 0);
        let Some(place) = kept.opened(opening, states).difference(kept) else { return Ok(()) };
        let place = format!("a session that had the new rule from the first state, {place}");
        Err(Difference::new(place, format!("{opening:x?}, {states:x?}")))
    }
}

/// A session after some calls.
#[derive(Clone)]
struct At {
    kept: Kept,
    /// What remains, if its own calls made it.
    remaining: Option<Remaining>,
}

impl At {
    /// One call more: compared, and the verdicts after it.
    fn after(&self, check: &mut Check, whole: &mut Whole, call: &Call) -> Result<At, Difference> {
        let (number, kept) = called(check, &self.kept, call)?;
        let found = asked(check, &kept)?;
        let mut remaining = self.remaining.clone();
        if number == 0 {
            match (call, &mut remaining) {
                (Call::Open(opening), _) => remaining = Some(Remaining::opened(opening)),
                (Call::Arrive(word), Some(remaining)) => remaining.states.push(*word),
                (Call::Withdraw, Some(remaining)) => drop(remaining.states.pop()),
                (Call::Replace(rule), Some(remaining)) => {
                    Arc::make_mut(&mut remaining.opening).rule = rule.clone();
                    remaining.require_renewed(check, &kept)?;
                }
                (_, None) => {}
            }
        }
        if let Some(remaining) = &remaining {
            remaining.require(check, whole, found)?;
        }
        Ok(At { kept, remaining })
    }
}

/// All sessions of a plan.
pub struct Sessions<'a> {
    plan: &'a Plan,
    lists: Vec<Lists>,
}

impl<'a> Sessions<'a> {
    /// Those of a plan.
    pub fn new(plan: &'a Plan) -> Sessions<'a> {
        Sessions { plan, lists: lists::all() }
    }

    /// All comparisons.
    pub fn jobs(&'a self) -> Vec<Job<'a>> {
        let calls = self.plan.session_calls;
        let mut jobs: Vec<Job> = Vec::new();
        for lists in &self.lists {
            for first in lists.firsts() {
                jobs.push(Box::new(move |check| lists.each(check, first, calls)));
            }
        }
        jobs.extend(lengths::jobs(self.plan));
        for batch in 0..self.plan.session_batches {
            jobs.push(Box::new(move |check| long::batch(check, self.plan, batch)));
            jobs.push(Box::new(move |check| forged::batch(check, self.plan, batch)));
        }
        jobs
    }
}

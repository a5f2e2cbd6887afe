//! Lent space of every length: each slice from none to a few entries past its
//! full size, and all combinations around the full sizes.

use reference::generate::rules::RuleTable;
use reference::generate::sessions::Call;
use reference::model::limits::{CONTROLLERS, RULE_NODES, STATES};
use reference::model::session::Contents;

use crate::check::Check;
use crate::difference::Difference;
use crate::input::BEYOND;
use crate::plan::Plan;
use crate::sessions::kept::{asked, called, Kept};
use crate::sessions::lists::{holding, opening, state};
use crate::work::Job;

/// The full sizes of masks, nodes and states.
const FULL: [usize; 3] = [CONTROLLERS, RULE_NODES, STATES];

/// Sessions of no state, of a few and of 127 and 128; of eleven controllers and
/// 64 nodes, too.
fn sessions() -> Vec<Contents> {
    let small = opening(&[1, 2], 0, "atom 0; next 0");
    let mut large = opening(&[1, 2, 4, 8, 16, 32, 64, 128, 256, 512, 1024], 10, "true");
    (large.rule.count, large.rule.nodes) = (RULE_NODES, vec![0; RULE_NODES]);
    let still = [state(1, 1); STATES];
    vec![
        holding(&small, &[]),
        holding(&small, &[state(1, 0), state(0, 1)]),
        holding(&small, &still[..STATES - 1]),
        holding(&large, &still),
        holding(&large, &still[..1]),
    ]
}

/// Each call, accepted and refused.
fn calls() -> Vec<Call> {
    let fine = opening(&[1, 2], 0, "atom 0; next 0");
    let mut meeting = fine.clone();
    meeting.owned[1] = 1;
    let words = [state(1, 1), state(1 << 11, 0), state(0, 2)];
    let absent = RuleTable { controller: CONTROLLERS - 1, ..fine.rule.clone() };
    let rules = [opening(&[], 1, "atom 1; not 0; or 0 1").rule, absent];
    let mut calls = vec![Call::Open(fine), Call::Open(meeting), Call::Withdraw];
    calls.extend(words.map(Call::Arrive));
    calls.extend(rules.map(Call::Replace));
    calls
}

/// The contents in slices of these lengths; further entries aren't zero.
fn lent(contents: &Contents, [masks, nodes, states]: [usize; 3]) -> Kept {
    let mut contents = contents.clone();
    contents.masks.resize(masks, 0x5a5a_5a5a);
    contents.nodes.resize(nodes, 0x5a5a_5a5a);
    contents.states.resize(states, 0x5a5a_5a5a_5a5a_5a5a);
    Kept::of(&contents)
}

/// Every call in slices of these lengths.
fn each(check: &mut Check, contents: &Contents, lengths: [usize; 3]) -> Result<(), Difference> {
    let kept = lent(contents, lengths);
    asked(check, &kept)?;
    for call in calls() {
        called(check, &kept, &call)?;
    }
    Ok(())
}

/// One slice of every length, the others ample.
fn every_length(check: &mut Check, contents: &Contents, step: usize) -> Result<(), Difference> {
    let ample = FULL.map(|full| full + BEYOND);
    for (slice, full) in FULL.into_iter().enumerate() {
        let edges = full - 1..=full + BEYOND;
        for length in (0..full - 1).step_by(step).chain(edges) {
            let mut lengths = ample;
            lengths[slice] = length;
            each(check, contents, lengths)?;
        }
    }
    Ok(())
}

/// Every combination of no entry, one too few, enough and one more.
fn combinations(check: &mut Check, contents: &Contents) -> Result<(), Difference> {
    let [masks, nodes, states] = FULL.map(|full| [0, full - 1, full, full + 1]);
    for m in masks {
        for n in nodes {
            for s in states {
                each(check, contents, [m, n, s])?;
            }
        }
    }
    Ok(())
}

/// All lengths of all sessions.
pub fn jobs<'a>(plan: &'a Plan) -> Vec<Job<'a>> {
    let mut jobs: Vec<Job> = Vec::new();
    for contents in sessions() {
        let same = contents.clone();
        jobs.push(Box::new(move |check| every_length(check, &contents, plan.lent_step)));
        jobs.push(Box::new(move |check| combinations(check, &same)));
    }
    jobs
}

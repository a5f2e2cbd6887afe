//! Calls on contents that none made: any heading, up to the largest numbers,
//! any masks, nodes and states, in slices of any length.

use reference::generate::random::Random;
use reference::generate::sessions::{any_arrival, any_new_rule, any_opening, contents, Call};
use reference::model::limits::CONTROLLERS;

use crate::check::Check;
use crate::difference::Difference;
use crate::plan::Plan;
use crate::sessions::kept::{asked, called, Kept};
use crate::tally::Section;

/// Contents of a batch.
const CONTENTS: usize = 100;
/// Calls on each, one after the other.
const CALLS: usize = 4;

/// Any call on these contents.
fn any_call(random: &mut Random, kept: &Kept) -> Call {
    let masks = kept.masks();
    let masks = &masks[..masks.len().min(CONTROLLERS)];
    match random.below(10) {
        0 => Call::Open(any_opening(random)),
        1 | 2 => Call::Withdraw,
        3 | 4 => Call::Replace(any_new_rule(random, masks.len())),
        _ => Call::Arrive(any_arrival(random, masks, kept.last())),
    }
}

/// Some contents, each call on them, and a few more after that.
pub fn batch(check: &mut Check, plan: &Plan, number: usize) -> Result<(), Difference> {
    let mut random = plan.random(Section::Sessions, 2 * number + 1);
    for _ in 0..CONTENTS {
        let mut kept = Kept::of(&contents(&mut random));
        asked(check, &kept)?;
        called(check, &kept, &Call::Withdraw)?;
        called(check, &kept, &Call::Open(any_opening(&mut random)))?;
        let controllers = kept.heading()[0];
        called(check, &kept, &Call::Replace(any_new_rule(&mut random, controllers)))?;
        for _ in 0..CALLS {
            let call = any_call(&mut random, &kept);
            kept = called(check, &kept, &call)?.1;
        }
        asked(check, &kept)?;
    }
    Ok(())
}

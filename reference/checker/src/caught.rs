//! That each wrong answer is caught.

use crate::plan::Plan;
use crate::sections;
use crate::tally::Section;
use crate::wrong::{Wrong, WrongAnswer};

/// Runs each wrong answer of some sections, in a small run of its section:
/// how many were caught, or the name of one that wasn't.
pub fn all(seed: u64, only: &[Section]) -> Result<usize, String> {
    let plan = Plan::probe(seed);
    for section in only {
        if let Err(difference) = sections::run(*section, &plan, &WrongAnswer::new(None)) {
            return Err(format!("a difference without a wrong answer: {difference}"));
        }
    }
    let wrongs: Vec<Wrong> =
        Wrong::all().into_iter().filter(|wrong| only.contains(&wrong.section)).collect();
    for wrong in &wrongs {
        if sections::run(wrong.section, &plan, &WrongAnswer::new(Some(*wrong))).is_ok() {
            return Err(format!("the wrong answer {} is not caught", wrong.name()));
        }
    }
    Ok(wrongs.len())
}

//! The sections of a run.

use crate::difference::Difference;
use crate::early::Early;
use crate::evidence::Evidence;
use crate::plan::Plan;
use crate::sessions::Sessions;
use crate::small::Small;
use crate::tally::{Section, Tally};
use crate::wrong::WrongAnswer;
use crate::{archive, endings, gauges, lent, lines, program, sampled, texts, trials, work};

/// Runs a section: what was compared, or the first difference.
pub fn run(section: Section, plan: &Plan, wrong: &WrongAnswer) -> Result<Tally, Difference> {
    match section {
        Section::Trials => work::run(section, wrong, &trials::jobs()),
        Section::Texts => work::run(section, wrong, &texts::jobs(plan)),
        Section::Endings => work::run(section, wrong, &endings::jobs(plan)),
        Section::Lines => work::run(section, wrong, &lines::jobs(plan)),
        Section::Lent => work::run(section, wrong, &lent::jobs(plan)),
        Section::Random => work::run(section, wrong, &sampled::jobs(plan)),
        Section::Program => work::run(section, wrong, &program::jobs(plan, wrong)),
        Section::Small => work::run(section, wrong, &Small::new(plan).jobs()),
        Section::Evidence => work::run(section, wrong, &Evidence::new(plan).jobs()),
        Section::Early => work::run(section, wrong, &Early::new(plan).jobs()),
        Section::Sessions => work::run(section, wrong, &Sessions::new(plan).jobs()),
        Section::Gauges => work::run(section, wrong, &gauges::jobs(plan)),
        Section::Archive => work::run(section, wrong, &archive::jobs(plan)),
    }
}

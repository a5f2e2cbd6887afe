//! "The readings behind a verdict": every small rule on every small local
//! recording, samples of larger ones, random ones up to all limits; and what is
//! promised, that every local trace of the same length and own mask with those
//! bits gets the same verdict: for all small local traces, and for random
//! recordings with the other bits turned over.

pub mod promise;
mod walks;

use reference::generate::exhaustive;
use reference::generate::random::Random;
use reference::generate::recordings::RecordingTable;
use reference::generate::rules::RuleTable;
use reference::generate::{recordings, rules};
use reference::model::limits::{CONTROLLERS, PAIRS, RULE_NODES, STATES};

use crate::check::Check;
use crate::difference::Difference;
use crate::evidence::promise::{keeps, Promised, Small};
use crate::evidence::walks::{telling_recordings, telling_rules, Walker};
use crate::input::Input;
use crate::library;
use crate::plan::Plan;
use crate::small::views::{Member, Views};
use crate::tally::Section;
use crate::work::Job;

/// Rules of a job of small rules.
const RULES: usize = 8;
/// Rules of a job of larger rules.
const LARGER: usize = 500;
/// Rules and recordings of a random batch.
const INPUTS: usize = 10;
/// Rules that look far of which one is taken.
const DRAWS: usize = 16;

/// A small local trace: its own mask, its places and the recordings that have it.
pub struct Local {
    own: u32,
    places: Vec<u32>,
    members: Vec<Member>,
}

/// All small rules and local traces.
pub struct Evidence<'a> {
    plan: &'a Plan,
    rules: Vec<Vec<u32>>,
    /// Rules of one node more.
    larger: Vec<Vec<u32>>,
    recordings: Vec<RecordingTable>,
    locals: Vec<Local>,
}

impl<'a> Evidence<'a> {
    /// Those of a plan.
    pub fn new(plan: &'a Plan) -> Evidence<'a> {
        let most = plan.small.nodes;
        let (rules, larger) =
            exhaustive::rules(most + 1).into_iter().partition(|rule| rule.len() <= most);
        let Views { recordings, views, locals } = Views::new(plan.small.states);
        let local = |first: &Member| {
            let recording = &recordings[first.recording];
            let places = recordings::places(recording, first.controller);
            Local { own: recording.masks[first.controller], places, members: Vec::new() }
        };
        let mut locals: Vec<Local> = locals.iter().map(local).collect();
        for view in views {
            locals[view.local].members.extend(view.members);
        }
        Evidence { plan, rules, larger, recordings, locals }
    }

    /// A rule and a recording of a local trace, another one for each rule.
    fn of(&self, number: usize, nodes: &[u32], local: &Local) -> (RuleTable, &RecordingTable) {
        let Member { recording, controller } = local.members[number % local.members.len()];
        let rule = RuleTable { controller, count: nodes.len(), nodes: nodes.to_vec() };
        (rule, &self.recordings[recording])
    }

    /// The local traces of at most so many places.
    fn short(&self, places: usize) -> Vec<&Local> {
        self.locals.iter().filter(|local| local.places.len() <= places).collect()
    }

    /// Some rules on every one of some local traces, and the promise over all
    /// of these.
    fn small(
        &self,
        check: &mut Check,
        rules: &[Vec<u32>],
        locals: &[&Local],
    ) -> Result<(), Difference> {
        let mut walker = Walker::new();
        let mut small = Small::new(locals);
        for (number, nodes) in rules.iter().enumerate() {
            for (at, local) in locals.iter().enumerate() {
                let (rule, recording) = self.of(number + at, nodes, local);
                small.judge(at, &rule, recording)?;
                for weak in [true, false] {
                    let pairs = walker.compare(check, &rule, recording, weak)?;
                    small.keep(at, nodes, pairs, weak);
                }
            }
            small.require(check, nodes)?;
        }
        Ok(())
    }

    /// Rules of one node more: each on every short local trace, and on some
    /// local traces in turn.
    fn larger(&self, check: &mut Check, first: usize) -> Result<(), Difference> {
        let rules = &self.larger[first..self.larger.len().min(first + LARGER)];
        self.small(check, rules, &self.short(self.plan.small.larger_places))?;
        let mut walker = Walker::new();
        let walks = self.plan.small.larger_walks;
        for (number, nodes) in (first..).zip(rules) {
            for walk in 0..walks {
                let local = &self.locals[(number * walks + walk) * 1009 % self.locals.len()];
                let (rule, recording) = self.of(number, nodes, local);
                for weak in [true, false] {
                    walker.compare(check, &rule, recording, weak)?;
                }
            }
        }
        Ok(())
    }

    /// Random rules and recordings up to all limits, and the promise.
    fn random(&self, check: &mut Check, batch: usize) -> Result<(), Difference> {
        let mut random = self.plan.random(Section::Evidence, batch);
        for _ in 0..INPUTS {
            let far = random.once_in(2);
            let (rule, recording) =
                if far { far_reaching(&mut random) } else { accepted(&mut random) };
            for weak in [true, false] {
                keeps(check, &mut random, &rule, &recording, weak, Promised::AsLong)?;
            }
        }
        Ok(())
    }

    /// All comparisons.
    pub fn jobs(&'a self) -> Vec<Job<'a>> {
        let mut jobs: Vec<Job> = Vec::new();
        for rule in telling_rules() {
            jobs.push(Box::new(move |check| every_case(check, &rule)));
        }
        for rules in self.rules.chunks(RULES) {
            let all = self.short(usize::MAX);
            jobs.push(Box::new(move |check| self.small(check, rules, &all)));
        }
        for first in (0..self.larger.len()).step_by(LARGER) {
            jobs.push(Box::new(move |check| self.larger(check, first)));
        }
        for batch in 0..self.plan.evidence_batches {
            jobs.push(Box::new(move |check| self.random(check, batch)));
        }
        jobs
    }
}

/// A rule and a recording that has its controller, both accepted.
pub fn accepted(random: &mut Random) -> (RuleTable, RecordingTable) {
    let recording = recordings::recording(random, CONTROLLERS, STATES);
    let controller = random.below(recording.controllers);
    (rules::rule_for(random, controller, RULE_NODES), recording)
}

/// How many pairs the library gives for both verdicts.
fn pairs(rule: &RuleTable, recording: &RecordingTable) -> usize {
    let mut lent = vec![0; PAIRS];
    let (rule, recording) = (library::lent_rule(rule), library::lent_recording(recording));
    [true, false]
        .map(|weak| ragyvosin::evidence(rule, recording, weak, &mut lent).1[0])
        .iter()
        .sum()
}

/// Of some rules that look far, on long local traces that seldom change, the one
/// with the most pairs: most have few.
pub fn far_reaching(random: &mut Random) -> (RuleTable, RecordingTable) {
    let draw = |_| {
        let (recording, controller) = recordings::steady(random);
        (rules::far_rule_for(random, controller, RULE_NODES), recording)
    };
    let drawn = (0..DRAWS).map(draw).max_by_key(|(rule, recording)| pairs(rule, recording));
    drawn.expect("some are drawn")
}

/// A rule that tells the cases of a walk apart, on every local trace of up to
/// three places.
fn every_case(check: &mut Check, rule: &RuleTable) -> Result<(), Difference> {
    for recording in telling_recordings() {
        for weak in [true, false] {
            check.compare(&Input::evidence(rule.clone(), recording.clone(), weak))?;
        }
    }
    Ok(())
}

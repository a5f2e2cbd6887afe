//! All small rules on all small recordings: rules of up to 3 nodes, and
//! samples of 4, over two atoms; recordings of up to 4 states and 2
//! controllers. All five operations on tables, every lent entry.

mod judge;
pub mod views;

use std::sync::atomic::{AtomicU8, Ordering};

use reference::generate::exhaustive;
use reference::generate::recordings;
use reference::generate::rules::{JudgeTable, RuleTable};
use reference::model::rule::{Node, ATOM, NEXT, PREV, SINCE, TRUE};
use reference::model::{self, limits};

use crate::beginnings;
use crate::check::Check;
use crate::difference::Difference;
use crate::growth;
use crate::input::Input;
use crate::plan::Plan;
use crate::small::judge::Judge;
use crate::small::views::{Member, View, Views};
use crate::tally::Section;
use crate::work::Job;

/// Own masks over two atoms.
const MASKS: usize = 4;
/// Controllers of a small recording.
const CONTROLLERS: usize = 2;

/// A rule with what the model rewrites it to, for each mask: the plain table,
/// then the short one where it is another.
pub struct SmallRule {
    nodes: Vec<u32>,
    rules: Vec<RuleTable>,
    tables: Vec<Vec<JudgeTable>>,
}

impl SmallRule {
    /// The rule of these nodes. Its rewritings are the library's too:
    /// [`rewritings`] compares them.
    fn new(nodes: Vec<u32>) -> SmallRule {
        let table = |mask, short| {
            let mut words = vec![0; limits::TABLE_NODES];
            let answer = model::rewrite(short, 0, nodes.len(), &nodes, mask, &mut words);
            let answer = answer.expect("a small rule is accepted");
            let model::Rewriting { count, weak_top, strong_top } = answer;
            JudgeTable { count, nodes: words, weak_top, strong_top }
        };
        let both = |mask| {
            let mut tables = vec![table(mask, false), table(mask, true)];
            tables.dedup();
            tables
        };
        let tables = (0..MASKS as u32).map(both).collect();
        let count = nodes.len();
        let rule = |controller| RuleTable { controller, count, nodes: nodes.clone() };
        let rules = (0..CONTROLLERS).map(rule).collect();
        SmallRule { nodes, rules, tables }
    }
}

/// The verdict of each rule on each local trace, as soon as one is known.
pub struct Verdicts {
    rules: usize,
    known: Vec<AtomicU8>,
}

impl Verdicts {
    /// No verdict is known.
    fn new(rules: usize, locals: usize) -> Verdicts {
        Verdicts { rules, known: (0..rules * locals).map(|_| AtomicU8::new(0)).collect() }
    }

    /// Is this the verdict that every recording of the local trace gave?
    fn agree(&self, local: usize, rule: usize, verdict: [usize; 2]) -> bool {
        let code = 1 + verdict[0] as u8 + 2 * verdict[1] as u8;
        let known = &self.known[local * self.rules + rule];
        match known.compare_exchange(0, code, Ordering::Relaxed, Ordering::Relaxed) {
            Ok(_) => true,
            Err(earlier) => earlier == code,
        }
    }
}

/// All small rules and recordings.
pub struct Small<'a> {
    plan: &'a Plan,
    rules: Vec<SmallRule>,
    /// Rules of one node more.
    larger: Vec<Vec<u32>>,
    views: Views,
    verdicts: Verdicts,
}

impl<'a> Small<'a> {
    /// Those of a plan.
    pub fn new(plan: &'a Plan) -> Small<'a> {
        let nodes = plan.small.nodes;
        let mut larger = exhaustive::rules(nodes + 1);
        larger.retain(|rule| rule.len() > nodes);
        let rules: Vec<SmallRule> =
            exhaustive::rules(nodes).into_iter().map(SmallRule::new).collect();
        let views = Views::new(plan.small.states);
        let verdicts = Verdicts::new(rules.len(), views.locals.len());
        Small { plan, rules, larger, views, verdicts }
    }

    /// The recordings of a view that a rule meets: all, or one in turn.
    fn members<'v>(&self, view: &'v View, nodes: usize, number: usize) -> &'v [Member] {
        let plan = &self.plan.small;
        if nodes <= plan.every_recording_nodes || view.length <= plan.every_recording_states {
            return &view.members;
        }
        let at = number % view.members.len();
        &view.members[at..=at]
    }

    /// Every rule on the recordings of some views.
    fn judge_views(&self, check: &mut Check, views: &[View]) -> Result<(), Difference> {
        let mut judge = Judge::new(check, &self.views);
        for view in views {
            for (number, rule) in self.rules.iter().enumerate() {
                let members = self.members(view, rule.nodes.len(), number);
                let known = |verdict| self.verdicts.agree(view.local, number, verdict);
                if rule.nodes.len() > 1 {
                    judge.rule(rule, view, members, &known)?;
                    continue;
                }
                // The model is asked anew for each recording: that it gives
                // one answer for a view is no more than a saving.
                for at in 0..members.len() {
                    judge.rule(rule, view, &members[at..=at], &known)?;
                }
            }
        }
        Ok(())
    }

    /// Every rule on other schedules of the recordings of a local trace, of up
    /// to 128 states and 11 controllers. Rows are compared for a few rules.
    fn judge_schedules(&self, check: &mut Check, local: usize) -> Result<(), Difference> {
        let mut random = self.plan.random(Section::Small, local);
        let Member { recording, controller } = self.views.locals[local];
        let one = &self.views.recordings[recording];
        let mut judge = Judge::new(check, &self.views);
        for _ in 0..self.plan.small.schedules {
            let other = recordings::rescheduled(&mut random, one, controller);
            for (number, rule) in self.rules.iter().enumerate() {
                let known = |verdict| self.verdicts.agree(local, number, verdict);
                let rows = random.once_in(64);
                judge.schedule(rule, &other, controller, rows, &known)?;
            }
        }
        Ok(())
    }

    /// Does a rule of one node more meet this view?
    fn meets(&self, number: usize, view: usize) -> bool {
        let (all, plan) = (self.views.views.len(), &self.plan.small);
        let views = match is_past(&self.larger[number]) {
            true => plan.past_views,
            false => plan.larger_views,
        };
        let turn = (view * 1009 + number * views) % all;
        self.views.views[view].length <= plan.larger_states || turn < views
    }

    /// Rules of one node more, from a number on: each on some views.
    fn judge_larger(&self, check: &mut Check, first: usize) -> Result<(), Difference> {
        let mut judge = Judge::new(check, &self.views);
        let last = self.larger.len().min(first + LARGER);
        for number in first..last {
            let rule = SmallRule::new(self.larger[number].clone());
            for (at, view) in self.views.views.iter().enumerate() {
                if self.meets(number, at) {
                    let member = (number + at) % view.members.len();
                    let verdicts = Verdicts::new(1, 1);
                    let known = |verdict| verdicts.agree(0, 0, verdict);
                    judge.rule(&rule, view, &view.members[member..=member], &known)?;
                }
            }
        }
        Ok(())
    }

    /// All comparisons of small rules and recordings.
    pub fn jobs(&'a self) -> Vec<Job<'a>> {
        let mut jobs: Vec<Job> = growth::jobs();
        for number in (0..self.views.recordings.len()).step_by(PROJECTIONS) {
            jobs.push(Box::new(move |check| self.projections(check, number)));
        }
        for rules in exhaustive::rules(self.plan.small.nodes + 1).chunks(REWRITINGS) {
            let rules = rules.to_vec();
            jobs.push(Box::new(move |check| rewritings(check, &rules)));
        }
        for views in self.views.views.chunks(VIEWS) {
            jobs.push(Box::new(move |check| self.judge_views(check, views)));
        }
        for local in 0..self.views.locals.len() {
            jobs.push(Box::new(move |check| self.judge_schedules(check, local)));
        }
        for first in (0..self.larger.len()).step_by(LARGER) {
            jobs.push(Box::new(move |check| self.judge_larger(check, first)));
        }
        jobs
    }

    /// The local traces of all beginnings of some recordings for every
    /// controller, and those of the recordings for one that they don't have.
    fn projections(&self, check: &mut Check, first: usize) -> Result<(), Difference> {
        let recordings = self.views.recordings.iter().skip(first).take(PROJECTIONS);
        for recording in recordings {
            for controller in 0..recording.controllers {
                beginnings::each(check, recording, controller)?;
            }
            check.compare(&Input::project(recording.clone(), recording.controllers))?;
        }
        Ok(())
    }
}

/// Is a rule about the past: a prev or a since, and besides it true, atoms and
/// next only?
fn is_past(nodes: &[u32]) -> bool {
    let kinds = || nodes.iter().map(|word| Node::of_word(*word).kind);
    kinds().any(|kind| matches!(kind, PREV | SINCE))
        && kinds().all(|kind| matches!(kind, TRUE | ATOM | NEXT | PREV | SINCE))
}

/// Recordings of a job of projections.
const PROJECTIONS: usize = 2000;
/// Rules of a job of rewritings.
const REWRITINGS: usize = 500;
/// Views of a job of judging.
const VIEWS: usize = 8;
/// Rules of a job of larger rules.
const LARGER: usize = 100;

/// Both rewritings of some rules for every mask of two atoms, the other atoms
/// own or foreign.
fn rewritings(check: &mut Check, rules: &[Vec<u32>]) -> Result<(), Difference> {
    for (number, nodes) in rules.iter().enumerate() {
        let controller = number % limits::CONTROLLERS;
        let rule = RuleTable { controller, count: nodes.len(), nodes: nodes.clone() };
        for mask in 0..MASKS as u32 {
            growth::rewritings(check, &rule, mask)?;
            growth::rewritings(check, &rule, mask | !3)?;
        }
    }
    Ok(())
}

//! "Verdicts that may be announced early", by the library: a strong yes or a
//! weak no on a recording stays on every recording that goes on from it, for
//! every two small recordings that begin alike and every small rule, and for
//! random recordings cut after each state; and on every recording with no
//! fewer steps that has the readings behind it.

use reference::generate::exhaustive;
use reference::generate::random::Random;
use reference::generate::recordings::{self, RecordingTable};
use reference::generate::rules::RuleTable;
use reference::model::early::{announced, missing, Asked};
use reference::model::recording::{Recording, State};
use reference::model::Verdict;

use crate::check::Check;
use crate::difference::Difference;
use crate::evidence::promise::{keeps, verdicts, Promised};
use crate::evidence::{accepted, far_reaching};
use crate::input::Input;
use crate::library::{self, Whole};
use crate::plan::Plan;
use crate::small::views::{Member, Views};
use crate::tally::{Operation, Section};
use crate::work::Job;
use crate::wrong::Place;

/// Rules of a job of small rules.
const RULES: usize = 10;
/// Rules and recordings of a random batch.
const INPUTS: usize = 10;

/// Two recordings, by the number of their view, the second of which has all
/// that is asked of one that goes on from the first, or all but one thing.
struct Pair {
    first: usize,
    second: usize,
    lacks: Option<Asked>,
}

/// All small rules and recordings.
pub struct Early<'a> {
    plan: &'a Plan,
    rules: Vec<Vec<u32>>,
    recordings: Vec<RecordingTable>,
    /// For each view the recordings that have it for controller 0.
    views: Vec<Vec<usize>>,
    pairs: Vec<Pair>,
}

/// A recording as the model has it.
fn recording(recording: &RecordingTable) -> Recording {
    let states = recording.states.iter().map(|word| State::of_word(*word)).collect();
    Recording { masks: recording.masks.clone(), states }
}

/// May these verdicts be announced?
fn is_announced(verdicts: [usize; 2]) -> bool {
    announced(Verdict { weak: verdicts[0] == 1, strong: verdicts[1] == 1 })
}

impl<'a> Early<'a> {
    /// Those of a plan. Pairs that lack one thing are gathered of recordings of
    /// up to 2 states, where each wrong answer shows.
    pub fn new(plan: &'a Plan) -> Early<'a> {
        let Views { recordings, views, .. } = Views::new(plan.small.states);
        let first = |members: Vec<Member>| {
            let of_first = members.into_iter().filter(|member| member.controller == 0);
            of_first.map(|member| member.recording).collect()
        };
        let views: Vec<Vec<usize>> = views.into_iter().map(|view| first(view.members)).collect();
        let read: Vec<Recording> =
            views.iter().map(|view| recording(&recordings[view[0]])).collect();
        let mut pairs = Vec::new();
        for (first, a) in read.iter().enumerate() {
            for (second, b) in read.iter().enumerate() {
                let lacks = missing(a, b, 0);
                let few = a.states.len().max(b.states.len()) <= 2;
                if lacks.is_empty() || (lacks.len() == 1 && few) {
                    pairs.push(Pair { first, second, lacks: lacks.first().copied() });
                }
            }
        }
        Early { plan, rules: exhaustive::rules(plan.small.nodes), recordings, views, pairs }
    }

    /// The verdicts of a rule on a recording of each view, another one for each
    /// rule: of small rules local, plain and short, which are one; of the others
    /// local.
    fn verdicts(&self, number: usize, nodes: &[u32]) -> Result<Vec<[usize; 2]>, Difference> {
        let rule = RuleTable { controller: 0, count: nodes.len(), nodes: nodes.to_vec() };
        let mut whole = Whole::new();
        let mut found = Vec::new();
        for members in &self.views {
            let recording = &self.recordings[members[number % members.len()]];
            found.push(if nodes.len() <= self.plan.small.every_recording_nodes {
                one_verdict(&mut whole, &rule, recording)?
            } else {
                ragyvosin::judge_local(
                    library::lent_rule(&rule),
                    library::lent_recording(recording),
                )
                .1
            });
        }
        Ok(found)
    }

    /// Some rules on every two recordings that begin alike.
    fn small(&self, check: &mut Check, first: usize) -> Result<(), Difference> {
        let rules = &self.rules[first..self.rules.len().min(first + RULES)];
        for (number, nodes) in (first..).zip(rules) {
            let found = self.verdicts(number, nodes)?;
            let settled = found.iter().filter(|verdicts| is_announced(**verdicts)).count();
            check.count(Operation::Early, settled as u64, 0);
            for pair in &self.pairs {
                let [mut before, after] = [pair.first, pair.second].map(|view| found[view]);
                if is_announced(before) && pair.lacks.is_none() {
                    check.count(Operation::Early, 0, 1);
                    if check.wrong(Operation::Early, Place::Value) {
                        before[0] ^= 1;
                    }
                } else if before == after || !misjudged(check, pair, before) {
                    continue;
                }
                if before != after {
                    let [one, other] =
                        [pair.first, pair.second].map(|at| &self.recordings[self.views[at][0]]);
                    let place = format!("verdicts {before:?}, and later {after:?}");
                    let input = format!("nodes {nodes:x?}, {one:x?}, {other:x?}");
                    return Err(Difference::new(place, input));
                }
            }
        }
        Ok(())
    }

    /// Random rules and recordings.
    fn random(&self, check: &mut Check, batch: usize) -> Result<(), Difference> {
        let mut random = self.plan.random(Section::Early, batch);
        for _ in 0..INPUTS {
            let far = random.once_in(2);
            let (rule, whole) = if far { far_reaching(&mut random) } else { accepted(&mut random) };
            beginnings(check, &mut random, &rule, &whole)?;
            for weak in [true, false] {
                keeps(check, &mut random, &rule, &whole, weak, Promised::NoShorter)?;
            }
        }
        Ok(())
    }

    /// All comparisons.
    pub fn jobs(&'a self) -> Vec<Job<'a>> {
        let mut jobs: Vec<Job> = Vec::new();
        for first in (0..self.rules.len()).step_by(RULES) {
            jobs.push(Box::new(move |check| self.small(check, first)));
        }
        for batch in 0..self.plan.early_batches {
            jobs.push(Box::new(move |check| self.random(check, batch)));
        }
        jobs
    }
}

/// Is a pair whose verdicts change taken for one that must keep them? Where it
/// lacks one thing that isn't asked, or where open verdicts are announced.
fn misjudged(check: &Check, pair: &Pair, before: [usize; 2]) -> bool {
    match pair.lacks {
        Some(asked) => is_announced(before) && check.wrong(Operation::Early, Place::LeftOut(asked)),
        None => check.wrong(Operation::Early, Place::Open),
    }
}

/// The verdicts of a rule on a recording, local, plain and short, which are one.
fn one_verdict(
    whole: &mut Whole,
    rule: &RuleTable,
    recording: &RecordingTable,
) -> Result<[usize; 2], Difference> {
    let [local, plain, short] = verdicts(whole, rule, recording)?;
    if local == plain && local == short {
        return Ok(local);
    }
    let place = format!("verdicts of one recording: {local:?}, {plain:?}, {short:?}");
    Err(Difference::new(place, format!("{rule:?}, {recording:?}")))
}

/// A rule on a recording that is cut after each state, with any marks in the
/// last one that is left, and on others that it begins like: verdicts that may
/// be announced are those of the whole recording.
fn beginnings(
    check: &mut Check,
    random: &mut Random,
    rule: &RuleTable,
    whole: &RecordingTable,
) -> Result<(), Difference> {
    let mut space = Whole::new();
    let last = one_verdict(&mut space, rule, whole)?;
    for length in 1..=whole.length {
        let cut = recordings::cut(random, whole, length);
        let input = Input::JudgeLocal { rule: rule.clone(), recording: cut };
        let before = check.compare(&input)?.values;
        stays(check, [before[0], before[1]], last, || format!("{input}, {whole:?}"))?;
    }
    for _ in 0..4 {
        let length = random.between(1, whole.length);
        let alike = recordings::begun_alike(random, whole, rule.controller, length);
        let before = one_verdict(&mut space, rule, &alike)?;
        stays(check, before, last, || format!("{rule:?}, {alike:?}, {whole:?}"))?;
    }
    Ok(())
}

/// Verdicts that may be announced stay.
fn stays(
    check: &mut Check,
    mut before: [usize; 2],
    after: [usize; 2],
    input: impl Fn() -> String,
) -> Result<(), Difference> {
    if !is_announced(before) {
        return Ok(());
    }
    check.count(Operation::Early, 1, 1);
    if check.wrong(Operation::Early, Place::Value) {
        before[0] ^= 1;
    }
    if before == after {
        return Ok(());
    }
    Err(Difference::new(format!("verdicts {before:?}, and later {after:?}"), input()))
}

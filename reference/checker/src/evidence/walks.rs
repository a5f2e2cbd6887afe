//! The library's walk against the model's.

use reference::generate::recordings::RecordingTable;
use reference::generate::rules::RuleTable;
use reference::model::limits;
use reference::model::rule::{ATOM, NEXT, NOT, OR, PREV, SINCE, TRUE, UNTIL};

use crate::check::Check;
use crate::difference::Difference;
use crate::expected;
use crate::input::Input;
use crate::library;
use crate::misstep;
use crate::reused::Reused;
use crate::tally::Operation;
use crate::trials::{rule, steps, Listed};
use crate::wrong::Place;

/// The lent pairs of a worker.
pub struct Walker {
    pairs: Reused<u32>,
}

impl Walker {
    /// A worker's pairs.
    pub fn new() -> Walker {
        Walker { pairs: Reused::new(limits::PAIRS) }
    }

    /// How many pairs the model gives for an accepted input; they are kept.
    fn expect(
        &mut self,
        check: &Check,
        rule: &RuleTable,
        recording: &RecordingTable,
        weak: bool,
    ) -> usize {
        let lent = self.pairs.lend_model();
        let mut count = expected::evidence(rule, recording, weak, lent).expect("both are accepted");
        if let Some(Place::Misstep(misstep)) = check.place(Operation::Evidence) {
            let wrong = misstep::numbers(misstep, rule, recording, weak);
            let differs = wrong != lent[..count];
            if differs && check.wrong(Operation::Evidence, Place::Misstep(misstep)) {
                lent[..count].fill(0);
                lent[..wrong.len()].copy_from_slice(&wrong);
                count = wrong.len();
            }
        }
        if check.wrong(Operation::Evidence, Place::Value) {
            count ^= 1;
        }
        self.pairs.expect(check, Operation::Evidence);
        count
    }

    /// Compares the library's pairs for an accepted input with the model's.
    pub fn compare(
        &mut self,
        check: &mut Check,
        rule: &RuleTable,
        recording: &RecordingTable,
        weak: bool,
    ) -> Result<&[u32], Difference> {
        let count = self.expect(check, rule, recording, weak);
        let (lent_rule, lent_recording) =
            (library::lent_rule(rule), library::lent_recording(recording));
        let found = ragyvosin::evidence(lent_rule, lent_recording, weak, self.pairs.lend());
        check.count(Operation::Evidence, 1, self.pairs.entries());
        let input = || Input::evidence(rule.clone(), recording.clone(), weak);
        self.pairs.require([count], found, input)?;
        check.tally.met(Operation::Evidence, found.0);
        Ok(&self.pairs.expected()[..count])
    }
}

/// Rules over two atoms on which each wrong step shows.
pub fn telling_rules() -> Vec<RuleTable> {
    let [p, q]: [Listed; 2] = [(ATOM, 0, 0), (ATOM, 1, 0)];
    let later = [(NEXT, 2, 0), (NEXT, 3, 0)];
    let at_2 = |node: Listed| [&[p, q, node][..], &later].concat();
    let rules: [&[Listed]; 12] = [
        &[p, q, (OR, 0, 1)],
        &[p, q, (OR, 1, 0)],
        &[p, q, (UNTIL, 0, 1)],
        &[p, q, (UNTIL, 1, 0), (NEXT, 2, 0)],
        &[p, q, (UNTIL, 0, 1), (NOT, 2, 0)],
        &[p, q, (SINCE, 0, 1), (NEXT, 2, 0)],
        &at_2((SINCE, 0, 1)),
        &at_2((PREV, 1, 0)),
        &[p, (PREV, 0, 0)],
        &[p, (NOT, 0, 0), (NEXT, 1, 0), (NEXT, 2, 0), (NEXT, 3, 0)],
        &[p, p, (OR, 0, 1)],
        &[(TRUE, 0, 0), p, q, (OR, 2, 1), (UNTIL, 0, 3)],
    ];
    rules.iter().map(|nodes| rule(nodes)).collect()
}

/// Recordings with each local trace of one to three places over two atoms, of
/// each own mask.
pub fn telling_recordings() -> Vec<RecordingTable> {
    let mut all = Vec::new();
    for own in 0..4 {
        for length in 1..=3u32 {
            for number in 0..4u64.pow(length) {
                let words: Vec<u64> = (0..length).map(|at| number >> (2 * at) & 3).collect();
                all.push(steps(own, &words));
            }
        }
    }
    all
}

//! Judging small rules without a new allocation for each comparison: there
//! are tens of millions.

use reference::generate::recordings::RecordingTable;
use reference::generate::rules::{JudgeTable, RuleTable};
use reference::model::limits;

use crate::check::Check;
use crate::difference::Difference;
use crate::expected;
use crate::input::Input;
use crate::library;
use crate::reused::Reused;
use crate::small::views::{Member, View, Views};
use crate::small::SmallRule;
use crate::tally::Operation;
use crate::wrong::Place;

/// Remembers a verdict of the library for a rule and a local trace; no if
/// another is remembered.
pub type Known<'a> = &'a dyn Fn([usize; 2]) -> bool;

/// The lent rows of a worker.
pub struct Judge<'a, 'b> {
    check: &'a mut Check<'b>,
    views: &'a Views,
    rows: Reused<u64>,
}

impl<'a, 'b> Judge<'a, 'b> {
    /// A worker's judge.
    pub fn new(check: &'a mut Check<'b>, views: &'a Views) -> Judge<'a, 'b> {
        Judge { check, views, rows: Reused::new(limits::ROW_WORDS) }
    }

    /// A rule on some recordings of a view: local verdicts, and both
    /// rewritings over the whole recording, with all rows.
    pub fn rule(
        &mut self,
        rule: &SmallRule,
        view: &View,
        members: &[Member],
        known: Known,
    ) -> Result<(), Difference> {
        let recordings = &self.views.recordings;
        let first = &recordings[members[0].recording];
        let expected = self.expect_local(&rule.rules[members[0].controller], first);
        for Member { recording, controller } in members {
            let (rule, recording) = (&rule.rules[*controller], &recordings[*recording]);
            let found = self.local(rule, recording, expected)?;
            self.agree(rule, recording, found, known)?;
        }
        for table in &rule.tables[view.own as usize] {
            let expected = self.expect_whole(table, first, members[0].controller);
            for Member { recording, controller } in members {
                let recording = &recordings[*recording];
                let found = self.whole(table, recording, *controller, expected)?;
                self.agree(&rule.rules[*controller], recording, found, known)?;
            }
        }
        Ok(())
    }

    /// A rule on another recording of a local trace: its verdicts are those
    /// already known, and its rows the model's where they are asked for.
    pub fn schedule(
        &mut self,
        rule: &SmallRule,
        recording: &RecordingTable,
        controller: usize,
        rows: bool,
        known: Known,
    ) -> Result<(), Difference> {
        let of_controller = &rule.rules[controller];
        let expected = self.expect_local(of_controller, recording);
        let found = self.local(of_controller, recording, expected)?;
        self.agree(of_controller, recording, found, known)?;
        for table in &rule.tables[recording.masks[controller] as usize] {
            let found = if rows {
                let expected = self.expect_whole(table, recording, controller);
                self.whole(table, recording, controller, expected)?
            } else {
                self.verdict(table, recording, controller)?
            };
            self.agree(of_controller, recording, found, known)?;
        }
        Ok(())
    }

    /// The library's verdict for a table, accepted as the model accepts it.
    fn verdict(
        &mut self,
        table: &JudgeTable,
        recording: &RecordingTable,
        controller: usize,
    ) -> Result<[usize; 2], Difference> {
        let (nodes, lent) = (library::table(table), library::lent_recording(recording));
        let found = ragyvosin::judge_recording(nodes, lent, controller, self.rows.lend());
        self.rows.drop_found();
        match found {
            (0, verdict) => Ok(verdict),
            (number, _) => {
                let place = format!("number: expected 0, found {number}");
                let (table, recording) = (table.clone(), recording.clone());
                let input = Input::judge_recording(table, recording, controller);
                Err(Difference::new(place, input.to_string()))
            }
        }
    }

    /// The local verdict that the model gives.
    fn expect_local(&self, rule: &RuleTable, recording: &RecordingTable) -> [usize; 2] {
        let verdict = expected::judge_local(rule, recording).expect("both are accepted");
        let mut values = expected::verdict_values(verdict);
        if self.check.wrong(Operation::JudgeLocal, Place::Value) {
            values[0] ^= 1;
        }
        values
    }

    /// Compares the library's local verdict with the model's.
    fn local(
        &mut self,
        rule: &RuleTable,
        recording: &RecordingTable,
        expected: [usize; 2],
    ) -> Result<[usize; 2], Difference> {
        self.check.count(Operation::JudgeLocal, 1, 0);
        let (number, values) =
            ragyvosin::judge_local(library::lent_rule(rule), library::lent_recording(recording));
        if (number, values) == (0, expected) {
            self.check.tally.met(Operation::JudgeLocal, number);
            return Ok(values);
        }
        let place = format!("expected 0 {expected:?}, found {number} {values:?}");
        let input = Input::JudgeLocal { rule: rule.clone(), recording: recording.clone() };
        Err(Difference::new(place, input.to_string()))
    }

    /// The verdict that the model gives for a table; its rows are kept.
    fn expect_whole(
        &mut self,
        table: &JudgeTable,
        recording: &RecordingTable,
        controller: usize,
    ) -> [usize; 2] {
        let lent = self.rows.lend_model();
        let verdict = expected::judge_recording(table, recording, controller, lent);
        let mut values = expected::verdict_values(verdict.expect("both are accepted"));
        if self.check.wrong(Operation::JudgeRecording, Place::Value) {
            values[1] ^= 1;
        }
        self.rows.expect(self.check, Operation::JudgeRecording);
        values
    }

    /// Compares the library's verdict and rows for a table with the model's.
    fn whole(
        &mut self,
        table: &JudgeTable,
        recording: &RecordingTable,
        controller: usize,
        expected: [usize; 2],
    ) -> Result<[usize; 2], Difference> {
        let (nodes, lent) = (library::table(table), library::lent_recording(recording));
        let found = ragyvosin::judge_recording(nodes, lent, controller, self.rows.lend());
        self.check.count(Operation::JudgeRecording, 1, self.rows.entries());
        self.rows.require(expected, found, || {
            Input::judge_recording(table.clone(), recording.clone(), controller)
        })?;
        self.check.tally.met(Operation::JudgeRecording, found.0);
        Ok(found.1)
    }

    /// Demand 3: the verdict is the one of every recording of the local trace.
    fn agree(
        &mut self,
        rule: &RuleTable,
        recording: &RecordingTable,
        mut found: [usize; 2],
        known: Known,
    ) -> Result<(), Difference> {
        if self.check.wrong(Operation::Schedules, Place::Value) {
            known(found);
            found[0] ^= 1;
        }
        self.check.count(Operation::Schedules, 1, 0);
        if known(found) {
            return Ok(());
        }
        let place = format!("verdict {found:?}, unlike another of the same local trace");
        Err(Difference::new(place, format!("{rule:?}, {recording:?}")))
    }
}

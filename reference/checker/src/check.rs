//! One worker's comparisons: the library's outcome against the model's.

use std::panic::{catch_unwind, AssertUnwindSafe};

use reference::model::refusal::{BRACKETS_DEEP, LENT_SPACE};

use crate::difference::Difference;
use crate::expected;
use crate::gauges::misgauge;
use crate::input::{Input, GUARD};
use crate::last_state::LastState;
use crate::library;
use crate::misread;
use crate::misrewrite;
use crate::misstep;
use crate::of_eight;
use crate::outcome::Outcome;
use crate::tally::{Operation, Section, Tally};
use crate::wrong::{Place, WrongAnswer};

/// What a worker compares with and counts into.
pub struct Check<'a> {
    section: Section,
    wrong: &'a WrongAnswer,
    /// What was compared so far.
    pub tally: Tally,
}

impl<'a> Check<'a> {
    /// A worker of a section.
    pub fn new(section: Section, wrong: &'a WrongAnswer) -> Check<'a> {
        Check { section, wrong, tally: Tally::default() }
    }

    /// Is this the place of the wrong answer? Yes at most once in a run.
    pub fn wrong(&self, operation: Operation, place: Place) -> bool {
        self.wrong.take(self.section, operation, place)
    }

    /// The place of the wrong answer that is still to come, if it is one of this
    /// operation.
    pub fn place(&self, operation: Operation) -> Option<Place> {
        self.wrong.place(self.section, operation)
    }

    /// Counts inputs of an operation and the entries compared for them.
    pub fn count(&mut self, operation: Operation, inputs: u64, entries: u64) {
        self.tally.add(self.section, operation, inputs, entries);
    }

    /// Compares the library with the model on an input.
    pub fn compare(&mut self, input: &Input) -> Result<Outcome, Difference> {
        let mut expected = expected::of(input);
        if self.wrong.pending() {
            self.alter(input, &mut expected);
            self.misread(input, &mut expected);
            self.misrewritten(input, &mut expected);
            self.misstepped(input, &mut expected);
            self.of_eight(input, &mut expected);
            self.misgauged(input, &mut expected);
        }
        // The wrapper panics where a part isn't within its text.
        let found = catch_unwind(AssertUnwindSafe(|| library::of(input)));
        let panicked = |_| Difference::new("a panic".to_string(), input.to_string());
        let found = found.map_err(panicked)?;
        self.count(input.operation(), 1, found.entries());
        expected.require(input, &found)?;
        self.tally.met(input.operation(), found.number);
        Ok(found)
    }

    /// Alters an expected outcome if the wrong answer belongs here.
    fn alter(&self, input: &Input, expected: &mut Outcome) {
        let operation = input.operation();
        let refused = expected.number != 0;
        if refused && self.wrong(operation, Place::Number) {
            expected.number = expected.number % BRACKETS_DEEP + 1;
        }
        if !refused && self.wrong(operation, Place::Value) {
            expected.values[0] ^= 1;
        }
        if refused && operation == Operation::ReadJoint && self.wrong(operation, Place::Line) {
            expected.values[5] += 1;
        }
        if let Some(last) = LastState::marked(input, expected) {
            self.alter_last(&last, input, expected);
        }
        for (number, slice) in input.slices().iter().enumerate() {
            let length = slice.lent.length;
            let place = self.altered_entry(operation, expected, number, slice.full, length);
            if let Some(at) = place {
                expected.lent[number][GUARD + at] ^= 1;
            }
        }
    }

    /// Expects what a wrong reader of line endings answers, if it belongs here
    /// and is another answer.
    fn misread(&self, input: &Input, expected: &mut Outcome) {
        let operation = input.operation();
        let Some(Place::Misread(misreading)) = self.place(operation) else { return };
        let misread = misread::outcome(misreading, input, expected);
        if let Some(misread) = misread.filter(|_| self.wrong(operation, Place::Misread(misreading)))
        {
            *expected = misread;
        }
    }

    /// Expects the table of a wrong rewriter, if it belongs here and is another
    /// one.
    fn misrewritten(&self, input: &Input, expected: &mut Outcome) {
        let operation = input.operation();
        let Some(Place::Misrewrite(misrewriting)) = self.place(operation) else { return };
        let wrong = misrewrite::outcome(misrewriting, input, expected);
        let place = Place::Misrewrite(misrewriting);
        if let Some(wrong) = wrong.filter(|_| self.wrong(operation, place)) {
            *expected = wrong;
        }
    }

    /// Expects what a wrong walk leaves, if it belongs here and is another
    /// answer.
    fn misstepped(&self, input: &Input, expected: &mut Outcome) {
        let operation = input.operation();
        let Some(Place::Misstep(misstep)) = self.place(operation) else { return };
        let wrong = misstep::outcome(misstep, input, expected);
        if let Some(wrong) = wrong.filter(|_| self.wrong(operation, Place::Misstep(misstep))) {
            *expected = wrong;
        }
    }

    /// Expects what a library of eight controllers answers, if it belongs here
    /// and is another answer.
    fn of_eight(&self, input: &Input, expected: &mut Outcome) {
        let operation = input.operation();
        let Some(Place::OfEight(of_eight)) = self.place(operation) else { return };
        let wrong = of_eight::outcome(of_eight, input, expected);
        if let Some(wrong) = wrong.filter(|_| self.wrong(operation, Place::OfEight(of_eight))) {
            *expected = wrong;
        }
    }

    /// Expects what a wrong reader of gauges answers, if it belongs here and is
    /// another answer.
    fn misgauged(&self, input: &Input, expected: &mut Outcome) {
        let operation = input.operation();
        let Some(Place::Misgauge(misgauge)) = self.place(operation) else { return };
        let wrong = misgauge::outcome(misgauge, input, expected);
        if let Some(wrong) = wrong.filter(|_| self.wrong(operation, Place::Misgauge(misgauge))) {
            *expected = wrong;
        }
    }

    /// Alters what is expected of run marks in the last state.
    fn alter_last(&self, last: &LastState, input: &Input, expected: &mut Outcome) {
        let operation = input.operation();
        if let Some(place) = last.run_place(input) {
            if self.wrong(operation, Place::LastRun) {
                place.count(expected);
            }
        }
        if operation == Operation::ReadRecording && self.wrong(operation, Place::Cleared) {
            last.clear(expected);
        }
        if self.wrong(operation, Place::Nine) {
            expected.number = 9;
            expected.values.fill(0);
        }
    }

    /// The lent entry to alter in a slice, if the wrong answer is of it.
    fn altered_entry(
        &self,
        operation: Operation,
        expected: &Outcome,
        slice: usize,
        full: usize,
        length: usize,
    ) -> Option<usize> {
        let accepted = expected.number == 0;
        let untouched = expected.number == LENT_SPACE;
        let unused = accepted && expected.slice(slice)[full - 1] == 0;
        let places = [
            (Place::Content, accepted, 0),
            (Place::Unused, unused, full - 1),
            (Place::Zero, !accepted && !untouched, full / 2),
            (Place::Untouched, untouched && length > 0, length / 2),
            (Place::Beyond, !untouched && length > full, full),
        ];
        let mut fitting = places.iter().filter(|(_, fits, _)| *fits);
        fitting.find(|(place, _, _)| self.wrong(operation, *place)).map(|(_, _, at)| *at)
    }
}

//! Wrong walks on purpose: what a library would answer that takes one step
//! otherwise than "The readings behind a verdict" says, or that leaves the
//! pairs in another order or form.

use reference::generate::recordings::RecordingTable;
use reference::generate::rules::RuleTable;
use reference::model::evidence::{walk, AsWorded, Operand, Pair, Steps, Taken};
use reference::model::limits::{PAIRS, PLACES};
use reference::model::recording::{check_recording, project};
use reference::model::rule::{check_rule, Node};
use reference::model::semantics::Reading;

use crate::input::{Input, GUARD};
use crate::outcome::Outcome;

/// The wrong walks.
#[derive(Clone, Copy, PartialEq, Eq, Debug)]
pub enum Misstep {
    /// A not keeps its reading.
    SameReading,
    /// An or with two yes operands takes the second.
    SecondYes,
    /// An or that is yes takes both operands.
    BothOfYes,
    /// An or that is no takes its first operand only.
    OneOfNo,
    /// An until that is yes takes the last fitting k.
    LastFitting,
    /// An until that is yes takes q alone.
    WitnessAlone,
    /// By its weak ending an until takes p at the last place only.
    EndingAlone,
    /// An until that is no takes q before the place where p fails, not at it.
    BeforeFailing,
    /// An until that is no takes p at every place up to the failing one.
    EveryFailing,
    /// An until that is no takes the last place where p fails.
    LastFailing,
    /// An until that is no while p never fails takes q at its own place only.
    OwnPlace,
    /// A since that is yes takes the earliest fitting k.
    EarliestFitting,
    /// A since that is no takes q after the place where p fails, not at it.
    AfterFailing,
    /// A since that is no takes the earliest place where p fails.
    EarliestFailing,
    /// A since that is no while p never fails takes q at its own place only.
    SinceOwnPlace,
    /// Next takes its own place where there is no next one.
    NextHere,
    /// Prev takes its own place where there is no earlier one.
    PrevHere,
    /// A foreign atom at the last place adds a pair.
    LastForeign,
    /// An own atom at the last place adds nothing.
    LastOwn,
    /// The pairs come by node, then place.
    ByNode,
    /// A pair appears twice.
    Doubled,
    /// Two nodes of one atom are one pair.
    ByAtom,
    /// The place is the low part of a pair's number.
    PlaceLow,
}

impl Misstep {
    /// Each with the name that `--wrong` takes.
    pub const ALL: [(Misstep, &'static str); 23] = [
        (Misstep::SameReading, "same_reading"),
        (Misstep::SecondYes, "second_yes"),
        (Misstep::BothOfYes, "both_of_yes"),
        (Misstep::OneOfNo, "one_of_no"),
        (Misstep::LastFitting, "last_fitting"),
        (Misstep::WitnessAlone, "witness_alone"),
        (Misstep::EndingAlone, "ending_alone"),
        (Misstep::BeforeFailing, "before_failing"),
        (Misstep::EveryFailing, "every_failing"),
        (Misstep::LastFailing, "last_failing"),
        (Misstep::OwnPlace, "own_place"),
        (Misstep::EarliestFitting, "earliest_fitting"),
        (Misstep::AfterFailing, "after_failing"),
        (Misstep::EarliestFailing, "earliest_failing"),
        (Misstep::SinceOwnPlace, "since_own_place"),
        (Misstep::NextHere, "next_here"),
        (Misstep::PrevHere, "prev_here"),
        (Misstep::LastForeign, "last_foreign"),
        (Misstep::LastOwn, "last_own"),
        (Misstep::ByNode, "by_node"),
        (Misstep::Doubled, "doubled"),
        (Misstep::ByAtom, "by_atom"),
        (Misstep::PlaceLow, "place_low"),
    ];

    /// The name that `--wrong` takes.
    pub fn name(self) -> &'static str {
        let found = Misstep::ALL.into_iter().find(|(misstep, _)| *misstep == self);
        found.expect("all are listed").1
    }

    /// The numbers that the wrong walk leaves for the pairs that it found.
    fn numbers(self, nodes: &[Node], mut pairs: Vec<Pair>) -> Vec<u32> {
        match self {
            Misstep::ByNode => pairs.sort_by_key(|pair| (pair.node, pair.place)),
            Misstep::Doubled => pairs.extend_from_within(pairs.len().saturating_sub(1)..),
            Misstep::ByAtom => {
                pairs.dedup_by_key(|pair| (pair.place, nodes[pair.node].first));
            }
            Misstep::PlaceLow => {
                return pairs.iter().map(|pair| (pair.node * PLACES + pair.place) as u32).collect();
            }
            _ => {}
        }
        pairs.into_iter().map(Pair::number).collect()
    }
}

impl Steps for Misstep {
    fn not(&self, reading: Reading) -> Reading {
        match self {
            Misstep::SameReading => reading,
            _ => AsWorded.not(reading),
        }
    }

    fn or(&self, p: Operand, q: Operand, i: usize) -> Taken {
        let worded = AsWorded.or(p, q, i);
        match (self, p(i), q(i)) {
            (Misstep::SecondYes, true, true) => Taken { first: 0..0, second: i..i + 1 },
            (Misstep::BothOfYes, _, _) => Taken { first: i..i + 1, second: i..i + 1 },
            (Misstep::OneOfNo, false, false) => Taken { second: 0..0, ..worded },
            _ => worded,
        }
    }

    fn until_yes(&self, p: Operand, q: Operand, i: usize, length: usize) -> Taken {
        let worded = AsWorded.until_yes(p, q, i, length);
        let by_ending = worded.second.is_empty();
        let fitting = |k: &usize| q(*k) && (i..*k).all(p);
        match (self, (i..length).rev().find(fitting)) {
            (Misstep::LastFitting, Some(k)) => Taken { first: i..k, second: k..k + 1 },
            (Misstep::WitnessAlone, Some(_)) => Taken { first: 0..0, ..worded },
            (Misstep::EndingAlone, _) if by_ending => Taken { first: length - 1..length, ..worded },
            _ => worded,
        }
    }

    fn until_no(&self, p: Operand, i: usize, length: usize) -> Taken {
        let worded = AsWorded.until_no(p, i, length);
        match (self, (i..length).rev().find(|k| !p(*k))) {
            (Misstep::BeforeFailing, Some(_)) => {
                Taken { second: i..worded.second.end - 1, ..worded }
            }
            (Misstep::EveryFailing, Some(_)) => Taken { first: i..worded.first.end, ..worded },
            (Misstep::LastFailing, Some(k)) => Taken { first: k..k + 1, second: i..k + 1 },
            (Misstep::OwnPlace, None) => Taken { second: i..i + 1, ..worded },
            _ => worded,
        }
    }

    fn since_yes(&self, p: Operand, q: Operand, i: usize) -> Taken {
        let fitting = |k: &usize| q(*k) && (k + 1..=i).all(p);
        match (self, (0..=i).find(fitting)) {
            (Misstep::EarliestFitting, Some(k)) => Taken { first: k + 1..i + 1, second: k..k + 1 },
            _ => AsWorded.since_yes(p, q, i),
        }
    }

    fn since_no(&self, p: Operand, i: usize) -> Taken {
        let worded = AsWorded.since_no(p, i);
        match (self, (0..=i).find(|k| !p(*k))) {
            (Misstep::AfterFailing, Some(_)) => {
                Taken { second: worded.second.start + 1..i + 1, ..worded }
            }
            (Misstep::EarliestFailing, Some(k)) => Taken { first: k..k + 1, second: k..i + 1 },
            (Misstep::SinceOwnPlace, None) => Taken { second: i..i + 1, ..worded },
            _ => worded,
        }
    }

    fn next(&self, i: usize, length: usize) -> Taken {
        let worded = AsWorded.next(i, length);
        match self {
            Misstep::NextHere if i + 1 == length => Taken { first: i..i + 1, ..worded },
            _ => worded,
        }
    }

    fn prev(&self, i: usize) -> Taken {
        let worded = AsWorded.prev(i);
        match self {
            Misstep::PrevHere if i == 0 => Taken { first: 0..1, ..worded },
            _ => worded,
        }
    }

    fn adds(&self, own: bool, last: bool) -> bool {
        match self {
            Misstep::LastForeign => true,
            Misstep::LastOwn => !last,
            _ => AsWorded.adds(own, last),
        }
    }
}

/// The numbers that the wrong walk leaves of an accepted rule and recording.
pub fn numbers(
    misstep: Misstep,
    rule: &RuleTable,
    recording: &RecordingTable,
    weak: bool,
) -> Vec<u32> {
    let RecordingTable { controllers, length, masks, states } = recording;
    let rule = check_rule(rule.controller, rule.count, &rule.nodes);
    let recording = check_recording(*controllers, *length, masks, states);
    let (Ok(rule), Ok(recording)) = (rule, recording) else { unreachable!("both are accepted") };
    let local = project(&recording, rule.controller);
    let pairs = walk(&misstep, &rule.nodes, &local, Reading::chosen(weak));
    misstep.numbers(&rule.nodes, pairs)
}

/// What the wrong walk answers and leaves, where it differs from what is
/// expected of an accepted input.
pub fn outcome(misstep: Misstep, input: &Input, expected: &Outcome) -> Option<Outcome> {
    let Input::Evidence { rule, recording, weak, .. } = input else { return None };
    if expected.number != 0 {
        return None;
    }
    let numbers = numbers(misstep, rule, recording, *weak);
    let mut wrong = expected.clone();
    let left = numbers.iter().copied().chain(std::iter::repeat(0)).map(u64::from);
    wrong.lent[0][GUARD..].iter_mut().take(PAIRS).zip(left).for_each(|(entry, word)| *entry = word);
    wrong.values = vec![numbers.len()];
    (wrong != *expected).then_some(wrong)
}

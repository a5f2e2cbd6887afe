//! "The readings behind a verdict": the walk from the rule, as it is worded.

use std::collections::{BTreeSet, HashSet};
use std::ops::Range;

use super::limits;
use super::recording::{bit, LocalTrace};
use super::rule::{Node, ATOM, NEXT, NOT, OR, PREV, SINCE, TRUE, UNTIL};
use super::semantics::{local_readings, Reading, Readings};

/// "a node of kind atom and a local place", in order "by place, then node".
#[derive(Clone, Copy, PartialEq, Eq, PartialOrd, Ord, Debug)]
pub struct Pair {
    /// The place of the local trace.
    pub place: usize,
    /// The number of the node.
    pub node: usize,
}

impl Pair {
    /// The number of lent space that a pair is.
    pub fn number(self) -> u32 {
        (self.place * limits::RULE_NODES + self.node) as u32
    }
}

/// Whether an operand holds at a place, in the reading of its node.
pub type Operand<'a> = &'a dyn Fn(usize) -> bool;

/// At which places a node takes its first operand and its second.
#[derive(Clone, PartialEq, Eq, Debug)]
pub struct Taken {
    /// Places of the first operand.
    pub first: Range<usize>,
    /// Places of the second operand.
    pub second: Range<usize>,
}

/// No place.
const NOWHERE: Range<usize> = 0..0;

/// One place.
fn only(place: usize) -> Range<usize> {
    place..place + 1
}

/// The steps of the walk, from a node at its own place `i` of a trace of
/// `length` places. They are the request's words; a comparison that must find
/// a wrong step overrides one.
pub trait Steps {
    /// "a not passes on": to its operand in the other reading.
    fn not(&self, reading: Reading) -> Reading {
        reading.opposite()
    }

    /// "an or that is yes takes its first yes operand, one that is no takes
    /// both."
    fn or(&self, p: Operand, q: Operand, i: usize) -> Taken {
        match (p(i), q(i)) {
            (true, _) => Taken { first: only(i), second: NOWHERE },
            (false, true) => Taken { first: NOWHERE, second: only(i) },
            (false, false) => Taken { first: only(i), second: only(i) },
        }
    }

    /// "An until that is yes takes q at the first fitting k and p before it,
    /// or, where only the weak ending makes it yes, p at every place from its
    /// own on."
    fn until_yes(&self, p: Operand, q: Operand, i: usize, length: usize) -> Taken {
        let fitting = |k: &usize| q(*k) && (i..*k).all(p);
        match (i..length).find(fitting) {
            Some(k) => Taken { first: i..k, second: only(k) },
            None => Taken { first: i..length, second: NOWHERE },
        }
    }

    /// "One that is no takes p where it first fails and q up to and at that
    /// place, or q at every place from its own on if p never fails."
    fn until_no(&self, p: Operand, i: usize, length: usize) -> Taken {
        match (i..length).find(|k| !p(*k)) {
            Some(fails) => Taken { first: only(fails), second: i..fails + 1 },
            None => Taken { first: NOWHERE, second: i..length },
        }
    }

    /// "Since is the mirror image, with the latest k": one that is yes.
    fn since_yes(&self, p: Operand, q: Operand, i: usize) -> Taken {
        let fitting = |k: &usize| q(*k) && (k + 1..=i).all(p);
        let k = (0..=i).rev().find(fitting).expect("a since that is yes has a fitting place");
        Taken { first: k + 1..i + 1, second: only(k) }
    }

    /// "Since is the mirror image": one that is no.
    fn since_no(&self, p: Operand, i: usize) -> Taken {
        match (0..=i).rev().find(|k| !p(*k)) {
            Some(fails) => Taken { first: only(fails), second: fails..i + 1 },
            None => Taken { first: NOWHERE, second: 0..i + 1 },
        }
    }

    /// "Next and prev take their operand's place if there is one": next.
    fn next(&self, i: usize, length: usize) -> Taken {
        let first = if i + 1 < length { only(i + 1) } else { NOWHERE };
        Taken { first, second: NOWHERE }
    }

    /// "Next and prev take their operand's place if there is one": prev.
    fn prev(&self, i: usize) -> Taken {
        let first = if i > 0 { only(i - 1) } else { NOWHERE };
        Taken { first, second: NOWHERE }
    }

    /// "A foreign atom at the last place adds nothing."
    fn adds(&self, own: bool, last: bool) -> bool {
        own || !last
    }
}

/// The request's steps.
pub struct AsWorded;

impl Steps for AsWorded {}

/// The walk: where it has been, and the pairs that it has added.
struct Walk<'a> {
    steps: &'a dyn Steps,
    nodes: &'a [Node],
    local: &'a LocalTrace,
    readings: &'a Readings,
    visited: HashSet<(usize, usize, Reading)>,
    found: BTreeSet<Pair>,
}

impl Walk<'_> {
    /// What the node at a place takes, in a reading.
    fn taken(&self, number: usize, place: usize, reading: Reading) -> Taken {
        let Node { kind, first, second } = self.nodes[number];
        let length = self.local.positions.len();
        let yes = self.readings.at(number, reading, place);
        let p = |k| self.readings.at(first, reading, k);
        let q = |k| self.readings.at(second, reading, k);
        match kind {
            OR => self.steps.or(&p, &q, place),
            NEXT => self.steps.next(place, length),
            UNTIL if yes => self.steps.until_yes(&p, &q, place, length),
            UNTIL => self.steps.until_no(&p, place, length),
            PREV => self.steps.prev(place),
            SINCE if yes => self.steps.since_yes(&p, &q, place),
            SINCE => self.steps.since_no(&p, place),
            _ => unreachable!("a checked rule has the eight kinds only"),
        }
    }

    /// The node at a place, in a reading, and all that it takes; once.
    fn visit(&mut self, number: usize, place: usize, reading: Reading) {
        if !self.visited.insert((number, place, reading)) {
            return;
        }
        let Node { kind, first, second } = self.nodes[number];
        match kind {
            TRUE => {}
            ATOM => {
                let last = place == self.local.positions.len() - 1;
                if self.steps.adds(bit(self.local.own, first), last) {
                    self.found.insert(Pair { place, node: number });
                }
            }
            NOT => self.visit(first, place, self.steps.not(reading)),
            _ => {
                let taken = self.taken(number, place, reading);
                taken.first.for_each(|k| self.visit(first, k, reading));
                taken.second.for_each(|k| self.visit(second, k, reading));
            }
        }
    }
}

/// The pairs that a walk by these steps adds: "Walk from the rule", at place 0.
/// "Each pair appears a single time, by place, then node."
pub fn walk(steps: &dyn Steps, nodes: &[Node], local: &LocalTrace, reading: Reading) -> Vec<Pair> {
    let readings = &local_readings(nodes, local);
    let (visited, found) = (HashSet::new(), BTreeSet::new());
    let mut walk = Walk { steps, nodes, local, readings, visited, found };
    walk.visit(nodes.len() - 1, 0, reading);
    walk.found.into_iter().collect()
}

//! "Weak and strong": the two readings of every node at every place, by the
//! quantified definitions. They are kept per node and place, nothing more.

use super::recording::{bit, LocalTrace, Recording};
use super::rule::{Node, ATOM, END, NEXT, NOT, OR, PREV, RUN, SINCE, TRUE, UNTIL};

/// One of the two readings.
#[derive(Clone, Copy, PartialEq, Eq, Hash, Debug)]
pub enum Reading {
    /// For recordings that stop early.
    Weak,
    /// For what has happened already.
    Strong,
}

impl Reading {
    /// The weak reading, or the strong one.
    pub fn chosen(weak: bool) -> Reading {
        if weak {
            Reading::Weak
        } else {
            Reading::Strong
        }
    }

    /// The reading that a not hands to its operand.
    pub fn opposite(self) -> Reading {
        match self {
            Reading::Weak => Reading::Strong,
            Reading::Strong => Reading::Weak,
        }
    }
}

/// The readings of the first nodes of a table at each of `length` places.
pub struct Readings {
    length: usize,
    marks: Vec<bool>,
}

impl Readings {
    /// The readings of a node at all places.
    fn row(&self, node: usize, reading: Reading) -> &[bool] {
        let row = match reading {
            Reading::Weak => 2 * node,
            Reading::Strong => 2 * node + 1,
        };
        &self.marks[row * self.length..][..self.length]
    }

    /// The reading of a node at a place.
    pub fn at(&self, node: usize, reading: Reading, i: usize) -> bool {
        self.row(node, reading)[i]
    }

    /// "p until q: q at some k ≥ i below L and p at i to k-1; weak also if p
    /// holds at i to L-1."
    fn until(&self, p: usize, q: usize, reading: Reading, i: usize) -> bool {
        let (p, q) = (self.row(p, reading), self.row(q, reading));
        let fulfilled = (i..self.length).any(|k| q[k] && (i..k).all(|j| p[j]));
        let kept = (i..self.length).all(|j| p[j]);
        fulfilled || (reading == Reading::Weak && kept)
    }

    /// "p since q: q at some k ≤ i and p at k+1 to i."
    fn since(&self, p: usize, q: usize, reading: Reading, i: usize) -> bool {
        let (p, q) = (self.row(p, reading), self.row(q, reading));
        (0..=i).any(|k| q[k] && (k + 1..=i).all(|j| p[j]))
    }

    /// "next p: p at i+1 if i < L-1; else weak yes, strong no."
    fn next(&self, p: usize, reading: Reading, i: usize) -> bool {
        if i < self.length - 1 {
            self.at(p, reading, i + 1)
        } else {
            reading == Reading::Weak
        }
    }

    /// "prev p: i > 0 and p at i-1."
    fn prev(&self, p: usize, reading: Reading, i: usize) -> bool {
        i > 0 && self.at(p, reading, i - 1)
    }

    /// Adds a row, place by place.
    fn add(&mut self, mark: impl Fn(&Readings, usize) -> bool) {
        for i in 0..self.length {
            let mark = mark(self, i);
            self.marks.push(mark);
        }
    }

    /// Adds the row of this node by its clause of "Weak and strong"; `literal`
    /// reads atom, run and end.
    fn add_node(&mut self, node: Node, literal: &impl Literal, reading: Reading) {
        let (p, q) = (node.first, node.second);
        match node.kind {
            TRUE => self.add(|_, _| true),
            ATOM | RUN | END => self.add(|_, i| literal(node, reading, i)),
            NOT => self.add(|known, i| !known.at(p, reading.opposite(), i)),
            OR => self.add(|known, i| known.at(p, reading, i) || known.at(q, reading, i)),
            NEXT => self.add(|known, i| known.next(p, reading, i)),
            UNTIL => self.add(|known, i| known.until(p, q, reading, i)),
            PREV => self.add(|known, i| known.prev(p, reading, i)),
            SINCE => self.add(|known, i| known.since(p, q, reading, i)),
            _ => unreachable!("a checked table has the ten kinds only"),
        }
    }
}

/// How atom, run and end are read at a place.
trait Literal: Fn(Node, Reading, usize) -> bool {}

impl<F: Fn(Node, Reading, usize) -> bool> Literal for F {}

/// The readings of all nodes of a checked table over `length` places.
fn readings(nodes: &[Node], length: usize, literal: &impl Literal) -> Readings {
    let marks = Vec::with_capacity(2 * nodes.len() * length);
    let mut known = Readings { length, marks };
    for node in nodes {
        for reading in [Reading::Weak, Reading::Strong] {
            known.add_node(*node, literal, reading);
        }
    }
    known
}

/// The readings of a rule on a local trace. "Own atom: its bit. Foreign atom:
/// its bit if i < L-1, else weak yes, strong no."
pub fn local_readings(nodes: &[Node], local: &LocalTrace) -> Readings {
    let length = local.positions.len();
    readings(nodes, length, &|node, reading, i| {
        if bit(local.own, node.first) || i < length - 1 {
            bit(local.positions[i], node.first)
        } else {
            reading == Reading::Weak
        }
    })
}

/// The readings over the whole recording: "every atom, run and end (of c) is
/// read as recorded, in both readings and in the last state too."
pub fn whole_readings(nodes: &[Node], recording: &Recording, controller: usize) -> Readings {
    readings(nodes, recording.states.len(), &|node, _, k| match node.kind {
        RUN => recording.runs(controller, k),
        END => recording.ended(controller, k),
        _ => bit(recording.states[k].atoms, node.first),
    })
}

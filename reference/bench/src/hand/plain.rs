//! Straightforward Rust: a row is a `u128`, an operator works on whole rows,
//! an atom's column is gathered where it occurs, and until and since double
//! the reach that they look over, seven times for 128 marks.

use super::node::{self, ATOM, END, NEXT, NOT, OR, PREV, RUN, SINCE, TRUE, UNTIL};
use super::{check, refused};
use ragyvosin::{full, Recording, Rule, Table};
use reference::model::{limits, refusal};

/// A node's weak and strong row.
#[derive(Clone, Copy)]
pub struct Pair {
    pub weak: u128,
    pub strong: u128,
}

impl Pair {
    fn both(row: u128) -> Pair {
        Pair { weak: row, strong: row }
    }
}

/// Where the pairs of earlier nodes are kept.
trait Rows {
    fn pair(&self, node: usize) -> Pair;
    fn put(&mut self, node: usize, pair: Pair);
}

/// Row pairs in lent space: low word, high word and count, twice.
struct Lent<'a> {
    words: &'a mut [u64],
    marks: usize,
}

fn joined(low: u64, high: u64) -> u128 {
    u128::from(high) << 64 | u128::from(low)
}

impl Rows for Lent<'_> {
    fn pair(&self, node: usize) -> Pair {
        let words = &self.words[6 * node..6 * node + 6];
        Pair { weak: joined(words[0], words[1]), strong: joined(words[3], words[4]) }
    }

    fn put(&mut self, node: usize, pair: Pair) {
        let Pair { weak, strong } = pair;
        let marks = self.marks as u64;
        let words = [weak as u64, (weak >> 64) as u64, marks];
        self.words[6 * node..6 * node + 3].copy_from_slice(&words);
        let words = [strong as u64, (strong >> 64) as u64, marks];
        self.words[6 * node + 3..6 * node + 6].copy_from_slice(&words);
    }
}

impl Rows for [Pair; limits::RULE_NODES] {
    fn pair(&self, node: usize) -> Pair {
        self[node]
    }

    fn put(&mut self, node: usize, pair: Pair) {
        self[node] = pair;
    }
}

/// The row of so many yes.
pub fn ones(marks: usize) -> u128 {
    u128::MAX >> (128 - marks)
}

/// Bit `bit` of each word.
fn column<W: Copy + Into<u64>>(words: &[W], bit: usize) -> u128 {
    words.iter().rev().fold(0, |row, word| row << 1 | u128::from((*word).into() >> bit & 1))
}

fn until(p: u128, q: u128) -> u128 {
    let (mut held, mut found) = (p, q);
    for reach in [1, 2, 4, 8, 16, 32, 64] {
        found |= held & found >> reach;
        held &= held >> reach;
    }
    found
}

fn since(p: u128, q: u128) -> u128 {
    let (mut held, mut found) = (p, q);
    for reach in [1, 2, 4, 8, 16, 32, 64] {
        found |= held & found << reach;
        held &= held << reach;
    }
    found
}

/// A trace of words, state words or places.
struct Trace<'a, W> {
    words: &'a [W],
    own: u32,
    c: usize,
}

impl<W: Copy + Into<u64>> Trace<'_, W> {
    fn last(&self) -> u128 {
        1 << (self.words.len() - 1)
    }

    fn atom(&self, atom: usize) -> Pair {
        let row = column(self.words, atom);
        if self.own >> atom & 1 == 1 {
            return Pair::both(row);
        }
        Pair { weak: row | self.last(), strong: row & !self.last() }
    }

    /// The run marks, but for the last state's.
    fn run(&self) -> u128 {
        column(self.words, limits::ATOMS + self.c) & !self.last()
    }

    /// Where no run comes any more.
    fn end(&self) -> u128 {
        let run = self.run();
        let ended = ones(self.words.len());
        if run == 0 {
            ended
        } else {
            ended & !(u128::MAX >> run.leading_zeros())
        }
    }

    fn node(&self, word: u32, rows: &impl Rows) -> Pair {
        let all = ones(self.words.len());
        let p = || rows.pair(node::first(word));
        let q = || rows.pair(node::second(word));
        match node::kind(word) {
            TRUE => Pair::both(all),
            ATOM => self.atom(node::first(word)),
            NOT => Pair { weak: all & !p().strong, strong: all & !p().weak },
            OR => Pair { weak: p().weak | q().weak, strong: p().strong | q().strong },
            NEXT => Pair { weak: p().weak >> 1 | self.last(), strong: p().strong >> 1 },
            UNTIL => {
                let (p, q) = (p(), q());
                let weak = until(p.weak, q.weak | (p.weak & self.last()));
                Pair { weak, strong: until(p.strong, q.strong) }
            }
            PREV => Pair { weak: p().weak << 1 & all, strong: p().strong << 1 & all },
            SINCE => {
                let (p, q) = (p(), q());
                Pair { weak: since(p.weak, q.weak), strong: since(p.strong, q.strong) }
            }
            RUN => Pair::both(self.run()),
            END => Pair::both(self.end()),
            _ => unreachable!("checked before"),
        }
    }

    fn evaluate(&self, nodes: &[u32], rows: &mut impl Rows) {
        for (number, word) in nodes.iter().enumerate() {
            let pair = self.node(*word, rows);
            rows.put(number, pair);
        }
    }
}

pub fn judge_recording(
    table: Table,
    recording: Recording,
    c: usize,
    rows: &mut [u64],
) -> (u8, [usize; 2]) {
    if rows.len() < full::ROW_WORDS {
        return (refusal::LENT_SPACE, [0; 2]);
    }
    if let Err(number) = check::table(table).and_then(|()| check::controller(recording, c)) {
        return refused(number, rows, full::ROW_WORDS);
    }
    let trace = Trace { words: &recording.states[..recording.count], own: u32::MAX, c };
    let mut lent = Lent { words: rows, marks: recording.count };
    trace.evaluate(&table.nodes[..table.count], &mut lent);
    let weak = lent.pair(table.weak_top).weak & 1;
    let strong = lent.pair(table.strong_top).strong & 1;
    rows[6 * table.count..full::ROW_WORDS].fill(0);
    (0, [weak as usize, strong as usize])
}

/// The places of the local trace, and how many there are.
fn places_into(recording: Recording, c: usize, places: &mut [u32]) -> usize {
    let states = &recording.states[..recording.count];
    let (mut placed, mut next) = (0, 0);
    for (k, state) in states[..states.len() - 1].iter().enumerate() {
        if state >> (limits::ATOMS + c) & 1 == 1 {
            places[placed] = *state as u32;
            placed += 1;
            next = k + 1;
        }
    }
    places[placed] = states[next] as u32 & recording.masks[c];
    placed + 1
}

/// The rows of an accepted rule on its local trace.
pub struct Local {
    pub own: u32,
    pub length: usize,
    pub rows: [Pair; limits::RULE_NODES],
}

pub fn local(rule: Rule, recording: Recording) -> Local {
    let (c, own) = (rule.controller, recording.masks[rule.controller]);
    let mut places = [0; limits::PLACES];
    let length = places_into(recording, c, &mut places);
    let mut rows = [Pair::both(0); limits::RULE_NODES];
    Trace { words: &places[..length], own, c }.evaluate(&rule.nodes[..rule.count], &mut rows);
    Local { own, length, rows }
}

pub fn judge_local(rule: Rule, recording: Recording) -> (u8, [usize; 2]) {
    let c = rule.controller;
    if let Err(number) = check::rule(rule).and_then(|()| check::controller(recording, c)) {
        return (number, [0; 2]);
    }
    let Pair { weak, strong } = local(rule, recording).rows[rule.count - 1];
    (0, [weak as usize & 1, strong as usize & 1])
}

pub fn project(recording: Recording, c: usize, places: &mut [u32]) -> (u8, [usize; 1]) {
    if places.len() < full::PLACES {
        return (refusal::LENT_SPACE, [0]);
    }
    if let Err(number) = check::controller(recording, c) {
        return refused(number, places, full::PLACES);
    }
    let length = places_into(recording, c, places);
    places[length..full::PLACES].fill(0);
    (0, [length])
}

//! The fastest that portable safe Rust gave: table and recording are checked
//! on a short path (a refused input is checked again, slowly, for its
//! number), nodes in the same turn as they are evaluated; each column is
//! gathered at most once; since is the carries of a sum.

use super::node::{self, ATOM, END, NEXT, NOT, OR, PREV, RUN, SINCE, TRUE, UNTIL};
use super::{check, refused};
use ragyvosin::{full, Recording, Rule, Table};
use reference::model::{limits, refusal};

/// Row words in lent space: low, high and count, twice.
type LentPair = [u64; 6];

/// A node's weak and strong row, both words of each.
type Pair = [u128; 2];

const RUN_COLUMN: usize = limits::ATOMS;
const END_COLUMN: usize = limits::ATOMS + 1;

/// The rows of leaves, each made when it is first asked for.
struct Columns<'a, W> {
    words: &'a [W],
    c: usize,
    made: u64,
    rows: [u128; limits::ATOMS + 2],
}

/// Bit `bit` of at most 64 words.
fn half_column<W: Copy + Into<u64>>(words: &[W], bit: usize) -> u64 {
    words.iter().rev().fold(0, |row, word| row << 1 | (*word).into() >> bit & 1)
}

fn column<W: Copy + Into<u64>>(words: &[W], bit: usize) -> u128 {
    let (low, high) = words.split_at(words.len().min(64));
    u128::from(half_column(high, bit)) << 64 | u128::from(half_column(low, bit))
}

fn ones(marks: usize) -> u128 {
    u128::MAX >> (128 - marks)
}

impl<'a, W: Copy + Into<u64>> Columns<'a, W> {
    fn new(words: &'a [W], c: usize) -> Self {
        Columns { words, c, made: 0, rows: [0; limits::ATOMS + 2] }
    }

    #[cold]
    #[inline(never)]
    fn make(&mut self, index: usize) {
        self.rows[index] = match index {
            // A mark in the last state is no run.
            RUN_COLUMN => {
                column(self.words, limits::ATOMS + self.c) & !(1 << (self.words.len() - 1))
            }
            END_COLUMN => {
                let run = self.get(RUN_COLUMN);
                ones(self.words.len()) & !u128::MAX.checked_shr(run.leading_zeros()).unwrap_or(0)
            }
            _ => column(self.words, index),
        };
        self.made |= 1 << index;
    }

    #[inline]
    fn get(&mut self, index: usize) -> u128 {
        if self.made >> index & 1 == 0 {
            self.make(index);
        }
        self.rows[index]
    }
}

fn until(p: u128, q: u128) -> u128 {
    let (low, high) = (p as u64, (p >> 64) as u64);
    let high_found = until_word(high, (q >> 64) as u64);
    let low_found = until_word(low, q as u64 | (low & high_found << 63));
    u128::from(high_found) << 64 | u128::from(low_found)
}

#[inline]
fn until_word(p: u64, q: u64) -> u64 {
    let (mut held, mut found) = (p, q);
    for reach in [1, 2, 4, 8, 16] {
        found |= held & found >> reach;
        held &= held >> reach;
    }
    found | (held & found >> 32)
}

/// A carry of this sum runs from each q through the places of p above it.
fn since(p: u128, q: u128) -> u128 {
    let sum = q.wrapping_add(p | q);
    q | (p & (p ^ sum))
}

/// The held atoms of every four controllers' run marks.
fn held_atoms(masks: &[u32]) -> [u32; 16] {
    let mut held = [0; 16];
    for (c, mask) in masks.iter().enumerate() {
        for (marks, atoms) in held.iter_mut().enumerate() {
            *atoms |= if marks >> c & 1 == 0 { *mask } else { 0 };
        }
    }
    held
}

fn masks_fine(masks: &[u32]) -> bool {
    let (mut seen, mut meet) = (0, 0);
    for mask in masks {
        meet |= seen & mask;
        seen |= mask;
    }
    meet == 0
}

/// All states at once: no branch but the loop's.
fn states_fine(controllers: usize, masks: &[u32], states: &[u64]) -> bool {
    let group = |first: usize| held_atoms(masks.chunks(4).nth(first).unwrap_or(&[]));
    let (low, high, top) = (group(0), group(1), group(2));
    let many = controllers > 8;
    let mut bad = states[states.len() - 1] >> limits::ATOMS >> controllers;
    for pair in states.windows(2) {
        let marks = (pair[0] >> limits::ATOMS) as usize;
        let mut held = low[marks & 15] | high[marks >> 4 & 15];
        if many {
            held |= top[marks >> 8 & 15];
        }
        bad |= (pair[0] ^ pair[1]) & u64::from(held) | (marks >> controllers) as u64;
    }
    bad == 0
}

fn recording_fine(recording: Recording, c: usize) -> bool {
    let Recording { controllers, count, masks, states } = recording;
    let fits = (1..=limits::CONTROLLERS).contains(&controllers)
        && (1..=limits::STATES).contains(&count)
        && controllers <= masks.len()
        && count <= states.len()
        && c < controllers;
    fits && masks_fine(&masks[..controllers])
        && states_fine(controllers, &masks[..controllers], &states[..count])
}

/// Where the pairs of earlier nodes are kept.
trait Rows {
    /// The pair of a node, if it is before node `number`.
    fn earlier(&self, number: usize, node: usize) -> Option<Pair>;
    fn put(&mut self, number: usize, pair: Pair);
}

/// Row pairs in lent space, all of one count.
struct Lent<'a> {
    pairs: &'a mut [LentPair],
    count: u64,
}

impl Rows for Lent<'_> {
    #[inline]
    fn earlier(&self, number: usize, node: usize) -> Option<Pair> {
        let [low, high, _, strong_low, strong_high, _] = self.pairs[..number].get(node)?;
        let row = |low: &u64, high: &u64| u128::from(*high) << 64 | u128::from(*low);
        Some([row(low, high), row(strong_low, strong_high)])
    }

    #[inline]
    fn put(&mut self, number: usize, pair: Pair) {
        let [weak, strong] = pair.map(|row| [row as u64, (row >> 64) as u64]);
        self.pairs[number] = [weak[0], weak[1], self.count, strong[0], strong[1], self.count];
    }
}

impl Rows for [Pair; limits::RULE_NODES] {
    #[inline]
    fn earlier(&self, number: usize, node: usize) -> Option<Pair> {
        self[..number].get(node).copied()
    }

    #[inline]
    fn put(&mut self, number: usize, pair: Pair) {
        self[number] = pair;
    }
}

/// An atom's rows: foreign atoms aren't read at the last place.
#[inline]
fn atom(row: u128, own: bool, last: u128) -> Pair {
    if own {
        return [row; 2];
    }
    [row | last, row & !last]
}

/// Evaluates the nodes in order; nothing if one of them is refused.
#[inline]
fn evaluate<W: Copy + Into<u64>, const REWRITTEN: bool>(
    nodes: &[u32],
    own: u32,
    columns: &mut Columns<W>,
    rows: &mut impl Rows,
) -> Option<()> {
    let (all, last) = (ones(columns.words.len()), 1 << (columns.words.len() - 1));
    for (number, word) in nodes.iter().enumerate() {
        let (first, second) = (node::first(*word), node::second(*word));
        let p = || rows.earlier(number, first);
        let q = || rows.earlier(number, second);
        let pair = match (node::kind(*word), second) {
            (NOT, 0) => p().map(|[weak, strong]| [all ^ strong, all ^ weak])?,
            (NEXT, 0) => p().map(|[weak, strong]| [weak >> 1 | last, strong >> 1])?,
            (PREV, 0) => p()?.map(|row| row << 1 & all),
            (OR, _) => {
                let (p, q) = (p()?, q()?);
                [p[0] | q[0], p[1] | q[1]]
            }
            (UNTIL, _) => {
                let (p, q) = (p()?, q()?);
                [until(p[0], q[0] | (p[0] & last)), until(p[1], q[1])]
            }
            (SINCE, _) => {
                let (p, q) = (p()?, q()?);
                [since(p[0], q[0]), since(p[1], q[1])]
            }
            (ATOM, 0) if first < limits::ATOMS => {
                atom(columns.get(first), own >> first & 1 == 1, last)
            }
            (TRUE, 0) if first == 0 => [all; 2],
            (RUN, 0) if REWRITTEN && first == 0 => [columns.get(RUN_COLUMN); 2],
            (END, 0) if REWRITTEN && first == 0 => [columns.get(END_COLUMN); 2],
            _ => return None,
        };
        rows.put(number, pair);
    }
    Some(())
}

fn table_fits(table: Table) -> bool {
    (1..=limits::TABLE_NODES).contains(&table.count)
        && table.count <= table.nodes.len()
        && table.weak_top < table.count
        && table.strong_top < table.count
}

/// The verdicts, unless something is refused.
fn judged_recording(
    table: Table,
    recording: Recording,
    c: usize,
    pairs: &mut [LentPair],
) -> Option<[usize; 2]> {
    let Table { count, nodes, weak_top, strong_top } = table;
    if !table_fits(table) || !recording_fine(recording, c) {
        return None;
    }
    let mut columns = Columns::new(&recording.states[..recording.count], c);
    let mut rows = Lent { pairs, count: recording.count as u64 };
    evaluate::<_, true>(&nodes[..count], u32::MAX, &mut columns, &mut rows)?;
    let verdicts = [pairs[weak_top][0], pairs[strong_top][3]];
    pairs[count..].as_flattened_mut().fill(0);
    Some(verdicts.map(|word| word as usize & 1))
}

pub fn judge_recording(
    table: Table,
    recording: Recording,
    c: usize,
    rows: &mut [u64],
) -> (u8, [usize; 2]) {
    if rows.len() < full::ROW_WORDS {
        return (refusal::LENT_SPACE, [0; 2]);
    }
    let (pairs, _) = rows[..full::ROW_WORDS].as_chunks_mut::<6>();
    match judged_recording(table, recording, c, pairs) {
        Some(verdicts) => (0, verdicts),
        None => {
            let checked = check::table(table).and_then(|()| check::controller(recording, c));
            refused(checked.unwrap_err(), rows, full::ROW_WORDS)
        }
    }
}

/// Each word is written to the next place and kept where c runs.
fn places_into(recording: Recording, c: usize, places: &mut [u32; limits::PLACES]) -> usize {
    let states = &recording.states[..recording.count];
    let (mut placed, mut next) = (0, 0);
    for (k, state) in states[..states.len() - 1].iter().enumerate() {
        places[placed % limits::PLACES] = *state as u32;
        let runs = state >> (limits::ATOMS + c) & 1 == 1;
        placed += usize::from(runs);
        next = if runs { k + 1 } else { next };
    }
    places[placed % limits::PLACES] = states[next] as u32 & recording.masks[c];
    placed + 1
}

fn judged_local(rule: Rule, recording: Recording) -> Option<[usize; 2]> {
    let Rule { controller: c, count, nodes } = rule;
    if check::rule_heading(c, count).is_err() || nodes.len() < count {
        return None;
    }
    if !recording_fine(recording, c) {
        return None;
    }
    let mut places = [0; limits::PLACES];
    let length = places_into(recording, c, &mut places);
    let mut columns = Columns::new(&places[..length], c);
    let mut rows = [[0; 2]; limits::RULE_NODES];
    evaluate::<_, false>(&nodes[..count], recording.masks[c], &mut columns, &mut rows)?;
    Some(rows[count - 1].map(|row| row as usize & 1))
}

pub fn judge_local(rule: Rule, recording: Recording) -> (u8, [usize; 2]) {
    match judged_local(rule, recording) {
        Some(verdicts) => (0, verdicts),
        None => {
            let checked = check::rule(rule);
            let checked = checked.and_then(|()| check::controller(recording, rule.controller));
            (checked.unwrap_err(), [0; 2])
        }
    }
}

pub fn project(recording: Recording, c: usize, places: &mut [u32]) -> (u8, [usize; 1]) {
    let Some(full) = places.first_chunk_mut::<{ limits::PLACES }>() else {
        return (refusal::LENT_SPACE, [0]);
    };
    if !recording_fine(recording, c) {
        let number = check::controller(recording, c).unwrap_err();
        return refused(number, full, full::PLACES);
    }
    let length = places_into(recording, c, full);
    full[length..].fill(0);
    (0, [length])
}

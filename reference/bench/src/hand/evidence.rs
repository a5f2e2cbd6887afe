//! The readings behind a verdict, in straightforward Rust: the rows of every
//! node first, then rows of wanted places from the last node to the first, one
//! for each reading. Until and since are walked place by place.

use super::node::{self, ATOM, NEXT, NOT, OR, PREV, SINCE, UNTIL};
use super::plain::{local, ones, Local};
use super::{check, refused};
use ragyvosin::{full, Recording, Rule};
use reference::model::{limits, refusal};

/// The wanted places of a node, of the weak reading and of the strong one.
type Wanted = [u128; 2];

/// The places from one to another, the second left out.
fn between(from: usize, to: usize) -> u128 {
    let below = |place| if place == 0 { 0 } else { ones(place) };
    below(to) & !below(from)
}

/// The places of a row, lowest first.
fn places(mut row: u128) -> impl Iterator<Item = usize> {
    std::iter::from_fn(move || {
        let place = row.trailing_zeros() as usize;
        row &= row.wrapping_sub(1);
        (place < 128).then_some(place)
    })
}

/// The lowest place of a row at or after one.
fn first_from(row: u128, place: usize) -> Option<usize> {
    let row = row >> place << place;
    (row != 0).then(|| row.trailing_zeros() as usize)
}

/// The highest place of a row at or before one.
fn last_to(row: u128, place: usize) -> Option<usize> {
    let row = row & ones(place + 1);
    (row != 0).then(|| 127 - row.leading_zeros() as usize)
}

/// The places at which an until at some places takes p and q.
fn until(wanted: u128, yes: u128, p: u128, q: u128, length: usize) -> [u128; 2] {
    let (mut first, mut second) = (0, 0);
    for i in places(wanted) {
        let holds = yes >> i & 1 == 1;
        match first_from(if holds { q } else { !p & ones(length) }, i) {
            Some(k) if holds => (first, second) = (first | between(i, k), second | 1 << k),
            Some(k) => (first, second) = (first | 1 << k, second | between(i, k + 1)),
            None if holds => first |= between(i, length),
            None => second |= between(i, length),
        }
    }
    [first, second]
}

/// The places at which a since at some places takes p and q.
fn since(wanted: u128, yes: u128, p: u128, q: u128) -> [u128; 2] {
    let (mut first, mut second) = (0, 0);
    for i in places(wanted) {
        let holds = yes >> i & 1 == 1;
        match last_to(if holds { q } else { !p }, i) {
            Some(k) if holds => (first, second) = (first | between(k + 1, i + 1), second | 1 << k),
            Some(k) => (first, second) = (first | 1 << k, second | between(k, i + 1)),
            None => second |= between(0, i + 1),
        }
    }
    [first, second]
}

/// The wanted places of every node before this one that it takes.
fn pass_on(word: u32, number: usize, local: &Local, wanted: &mut [Wanted]) {
    let (a, b) = (node::first(word), node::second(word));
    let all = ones(local.length);
    for reading in [0, 1] {
        let own = wanted[number][reading];
        let row = |node: usize| match reading {
            0 => local.rows[node].weak,
            _ => local.rows[node].strong,
        };
        let [first, second] = match node::kind(word) {
            NOT => {
                wanted[a][1 - reading] |= own;
                continue;
            }
            OR => [own & (row(a) | !row(b)), own & !row(a)],
            NEXT => [own << 1 & all, 0],
            PREV => [own >> 1, 0],
            UNTIL => until(own, row(number), row(a), row(b), local.length),
            SINCE => since(own, row(number), row(a), row(b)),
            _ => continue,
        };
        wanted[a][reading] |= first;
        wanted[b][reading] |= second;
    }
}

/// Leaves the pairs, by place, then node: how many.
fn leave(nodes: &[u32], local: &Local, wanted: &[Wanted], pairs: &mut [u32]) -> usize {
    let last = 1 << (local.length - 1);
    let mut atoms = Vec::new();
    for (number, word) in nodes.iter().enumerate().filter(|(_, word)| node::kind(**word) == ATOM) {
        let own = local.own >> node::first(*word) & 1 == 1;
        let both = wanted[number][0] | wanted[number][1];
        atoms.push((number, if own { both } else { both & !last }));
    }
    let mut count = 0;
    for place in 0..local.length {
        for (number, _) in atoms.iter().filter(|(_, row)| row >> place & 1 == 1) {
            pairs[count] = (place * limits::RULE_NODES + number) as u32;
            count += 1;
        }
    }
    pairs[count..full::PAIRS].fill(0);
    count
}

pub fn evidence(
    rule: Rule,
    recording: Recording,
    weak: bool,
    pairs: &mut [u32],
) -> (u8, [usize; 1]) {
    if pairs.len() < full::PAIRS {
        return (refusal::LENT_SPACE, [0]);
    }
    let checked = check::rule(rule).and_then(|()| check::controller(recording, rule.controller));
    if let Err(number) = checked {
        return refused(number, pairs, full::PAIRS);
    }
    let nodes = &rule.nodes[..rule.count];
    let local = local(rule, recording);
    let mut wanted = [[0; 2]; limits::RULE_NODES];
    wanted[rule.count - 1][usize::from(!weak)] = 1;
    for (number, word) in nodes.iter().enumerate().rev() {
        pass_on(*word, number, &local, &mut wanted);
    }
    (0, [leave(nodes, &local, &wanted, pairs)])
}

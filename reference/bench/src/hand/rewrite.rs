//! The rewritings: one pass over the nodes, images kept in an array.

use super::node::{self, ATOM, END, NEXT, NOT, OR, PREV, RUN, SINCE, TRUE, UNTIL};
use super::{check, refused};
use ragyvosin::{full, Rule};
use reference::model::{limits, refusal};

/// Numbers of opening nodes.
const IDLE: usize = 1;
const ENDING: usize = 3;
const BETWEEN: usize = 8;
const ENDED: usize = 9;

/// The numbers of a node's images, and whether it is tolerant.
#[derive(Clone, Copy, Default)]
struct Image {
    weak: usize,
    strong: usize,
    tolerant: bool,
}

/// The table and how many nodes were emitted.
struct Emitter<'a> {
    table: &'a mut [u32],
    count: usize,
}

impl Emitter<'_> {
    /// Emits a node and answers its number.
    fn emit(&mut self, kind: u32, first: usize, second: usize) -> usize {
        self.table[self.count] = node::word(kind, first, second);
        self.count += 1;
        self.count - 1
    }

    fn not(&mut self, a: usize) -> usize {
        self.emit(NOT, a, 0)
    }

    fn or(&mut self, a: usize, b: usize) -> usize {
        self.emit(OR, a, b)
    }

    fn opening(&mut self) {
        self.emit(RUN, 0, 0);
        self.not(0);
        self.emit(PREV, 1, 0);
        self.emit(END, 0, 0);
        self.not(3);
        self.or(2, 4);
        self.not(5);
        self.or(0, 6);
        self.not(7);
        self.emit(PREV, 3, 0);
        self.not(9);
    }

    /// not a; or x ·; not ·: a and not x.
    fn and_not(&mut self, x: usize, a: usize) -> usize {
        let node = self.not(a);
        let node = self.or(x, node);
        self.not(node)
    }

    fn foreign_atom(&mut self, atom: usize) -> (usize, usize) {
        let itself = self.emit(ATOM, atom, 0);
        let weak = self.or(IDLE, itself);
        (weak, self.and_not(IDLE, itself))
    }

    /// At the next place, if there is one.
    fn weak_place(&mut self, a: usize) -> usize {
        let node = self.or(BETWEEN, a);
        let node = self.not(node);
        let node = self.emit(UNTIL, BETWEEN, node);
        self.not(node)
    }

    /// At the next place, which there is.
    fn strong_place(&mut self, a: usize) -> usize {
        let node = self.and_not(BETWEEN, a);
        self.emit(UNTIL, BETWEEN, node)
    }

    fn plain_next(&mut self, p: Image) -> (usize, usize) {
        let node = self.weak_place(p.weak);
        let weak = self.emit(NEXT, node, 0);
        let node = self.strong_place(p.strong);
        (weak, self.emit(NEXT, node, 0))
    }

    fn short_next(&mut self, p: Image) -> (usize, usize) {
        let node = self.emit(NEXT, p.weak, 0);
        let weak = self.or(ENDING, node);
        let node = self.emit(NEXT, p.strong, 0);
        (weak, self.and_not(ENDING, node))
    }

    fn plain_until(&mut self, p: Image, q: Image) -> (usize, usize) {
        let reach = self.or(BETWEEN, p.weak);
        let node = self.and_not(BETWEEN, q.weak);
        let node = self.or(node, ENDED);
        let weak = self.emit(UNTIL, reach, node);
        let reach = self.or(BETWEEN, p.strong);
        let node = self.and_not(BETWEEN, q.strong);
        (weak, self.emit(UNTIL, reach, node))
    }

    fn short_until(&mut self, p: Image, q: Image) -> (usize, usize) {
        let node = self.or(ENDED, q.weak);
        let weak = self.emit(UNTIL, p.weak, node);
        let node = self.and_not(ENDED, q.strong);
        (weak, self.emit(UNTIL, p.strong, node))
    }

    fn prev(&mut self, a: usize) -> usize {
        let node = self.and_not(IDLE, a);
        let node = self.emit(SINCE, IDLE, node);
        self.emit(PREV, node, 0)
    }

    fn since(&mut self, a: usize, b: usize) -> usize {
        let reach = self.or(BETWEEN, a);
        let node = self.and_not(BETWEEN, b);
        self.emit(SINCE, reach, node)
    }

    fn short_since(&mut self, p: Image, q: Image) -> (usize, usize) {
        (self.emit(SINCE, p.weak, q.weak), self.emit(SINCE, p.strong, q.strong))
    }

    fn images(&mut self, word: u32, images: &[Image], own: u32, short: bool) -> Image {
        let (first, second) = (node::first(word), node::second(word));
        let (p, q) = (images[first], images[second]);
        let ((weak, strong), tolerant) = match node::kind(word) {
            TRUE => {
                let itself = self.emit(TRUE, 0, 0);
                ((itself, itself), true)
            }
            ATOM if own >> first & 1 == 1 => {
                let itself = self.emit(ATOM, first, 0);
                ((itself, itself), true)
            }
            ATOM => (self.foreign_atom(first), false),
            NOT => ((self.not(p.strong), self.not(p.weak)), p.tolerant),
            OR => {
                let images = (self.or(p.weak, q.weak), self.or(p.strong, q.strong));
                (images, p.tolerant && q.tolerant)
            }
            NEXT if short && p.tolerant => (self.short_next(p), false),
            NEXT => (self.plain_next(p), false),
            UNTIL if short && p.tolerant && q.tolerant => (self.short_until(p, q), true),
            UNTIL => (self.plain_until(p, q), true),
            PREV => ((self.prev(p.weak), self.prev(p.strong)), true),
            _ if short && p.tolerant && q.tolerant => (self.short_since(p, q), true),
            _ => {
                let images = (self.since(p.weak, q.weak), self.since(p.strong, q.strong));
                (images, p.tolerant && q.tolerant)
            }
        };
        Image { weak, strong, tolerant }
    }
}

pub fn rewrite(short: bool, rule: Rule, mask: u32, table: &mut [u32]) -> (u8, [usize; 3]) {
    if table.len() < full::TABLE_NODES {
        return (refusal::LENT_SPACE, [0; 3]);
    }
    if let Err(number) = check::rule(rule) {
        return refused(number, table, full::TABLE_NODES);
    }
    let mut emitter = Emitter { table: &mut table[..full::TABLE_NODES], count: 0 };
    emitter.opening();
    let mut images = [Image::default(); limits::RULE_NODES];
    for (number, word) in rule.nodes[..rule.count].iter().enumerate() {
        images[number] = emitter.images(*word, &images, mask, short);
    }
    let mut top = images[rule.count - 1];
    if !(short && top.tolerant) {
        top.weak = emitter.weak_place(top.weak);
        top.strong = emitter.strong_place(top.strong);
    }
    let count = emitter.count;
    table[count..full::TABLE_NODES].fill(0);
    (0, [count, top.weak, top.strong])
}

//! "The plain rewriting" and "The short rewriting", as literal node lists.

use super::recording::bit;
use super::rule::{Node, Rule, ATOM, END, NEXT, NOT, OR, PREV, RUN, SINCE, TRUE, UNTIL};

/// "·": the node just emitted, as an operand in a node list.
const JUST: usize = usize::MAX;

/// A node list: kind, first operand, second operand.
type List<'a> = &'a [(u32, usize, usize)];

/// The opening, numbers 0 to 10; number 7 is *state*.
const OPENING: List = &[
    (RUN, 0, 0),
    (NOT, 0, 0),
    (PREV, 1, 0),
    (END, 0, 0),
    (NOT, 3, 0),
    (OR, 2, 4),
    (NOT, 5, 0),
    (OR, 0, 6),
    (NOT, 7, 0),
    (PREV, 3, 0),
    (NOT, 9, 0),
];

/// The numbers of the weak and the strong image of a rule node.
#[derive(Clone, Copy)]
struct Images {
    weak: usize,
    strong: usize,
}

/// "The result carries node count and both tops."
pub struct Rewritten {
    /// The nodes.
    pub nodes: Vec<Node>,
    /// The number of the top weak node.
    pub weak_top: usize,
    /// The number of the top strong node.
    pub strong_top: usize,
}

/// The nodes emitted so far.
struct Emitter {
    nodes: Vec<Node>,
}

/// What a rewriting decides by tolerance; `p` and `q` say whether the operands
/// of a node are tolerant. What stands here is as the documents have it: a
/// wrong rewriter decides one thing otherwise.
pub trait Decisions {
    /// "Tolerant: true, own atom, every until; not and or of tolerant operands;
    /// nothing else"; and by document 02 "Prev becomes tolerant", "Since of two
    /// tolerant operands becomes tolerant".
    fn tolerant(&self, kind: u32, own: bool, p: bool, q: bool) -> bool {
        match kind {
            TRUE | UNTIL | PREV => true,
            ATOM => own,
            NOT => p,
            OR | SINCE => p && q,
            _ => false,
        }
    }

    /// "Since of two tolerant operands .. with image since a b for each reading
    /// (2 nodes)", in the short rewriting.
    fn short_since(&self, short: bool, p: bool, q: bool) -> bool {
        short && p && q
    }

    /// "with its present image": no prev is shorter.
    fn short_prev(&self, _short: bool, _p: bool) -> bool {
        false
    }

    /// "a tolerant rule has no closing", in the short rewriting.
    fn unclosed(&self, short: bool, _kind: u32, tolerant: bool) -> bool {
        short && tolerant
    }
}

/// As the documents have it.
pub struct AsWorded;

impl Decisions for AsWorded {}

/// Which nodes of a rule are tolerant.
fn stutter_tolerant(decisions: &dyn Decisions, nodes: &[Node], own: u32) -> Vec<bool> {
    let mut tolerant: Vec<bool> = Vec::new();
    for node in nodes {
        let of = |operand: usize| tolerant.get(operand).copied().unwrap_or(false);
        let (p, q) = (of(node.first), of(node.second));
        let own = node.kind == ATOM && bit(own, node.first);
        tolerant.push(decisions.tolerant(node.kind, own, p, q));
    }
    tolerant
}

impl Emitter {
    /// Emits a list and gives the number of its last node.
    fn emit(&mut self, list: List) -> usize {
        for &(kind, first, second) in list {
            let emitted = self.nodes.len();
            let number = |operand| {
                if operand == JUST {
                    emitted - 1
                } else {
                    operand
                }
            };
            self.nodes.push(Node { kind, first: number(first), second: number(second) });
        }
        self.nodes.len() - 1
    }

    /// "true, own atom: itself, w and s the same (1 node)."
    fn itself(&mut self, node: Node) -> Images {
        let same = self.emit(&[(node.kind, node.first, node.second)]);
        Images { weak: same, strong: same }
    }

    /// "foreign atom: atom; or 1 · (w); not of the atom; or 1 ·; not · (s) (5)."
    fn input_atom(&mut self, atom: usize) -> Images {
        let itself = self.emit(&[(ATOM, atom, 0)]);
        let weak = self.emit(&[(OR, 1, JUST)]);
        let strong = self.emit(&[(NOT, itself, 0), (OR, 1, JUST), (NOT, JUST, 0)]);
        Images { weak, strong }
    }

    /// "not: not of the operand's s (w); not of its w (s) (2)."
    fn not(&mut self, a: Images) -> Images {
        let weak = self.emit(&[(NOT, a.strong, 0)]);
        let strong = self.emit(&[(NOT, a.weak, 0)]);
        Images { weak, strong }
    }

    /// "or: or a b, twice (2)."
    fn or(&mut self, a: Images, b: Images) -> Images {
        let weak = self.emit(&[(OR, a.weak, b.weak)]);
        let strong = self.emit(&[(OR, a.strong, b.strong)]);
        Images { weak, strong }
    }

    /// "next: w: or 8 a; not ·; until 8 ·; not ·; next ·. s: not a; or 8 ·;
    /// not ·; until 8 ·; next · (10)."
    fn next(&mut self, a: Images) -> Images {
        let weak = self.emit(&[
            (OR, 8, a.weak),
            (NOT, JUST, 0),
            (UNTIL, 8, JUST),
            (NOT, JUST, 0),
            (NEXT, JUST, 0),
        ]);
        let strong = self.emit(&[
            (NOT, a.strong, 0),
            (OR, 8, JUST),
            (NOT, JUST, 0),
            (UNTIL, 8, JUST),
            (NEXT, JUST, 0),
        ]);
        Images { weak, strong }
    }

    /// "until: w: or 8 a (call it g); not b; or 8 ·; not ·; or · 9; until g ·.
    /// s: the same without "or · 9" (11)."
    fn until(&mut self, a: Images, b: Images) -> Images {
        let g = self.emit(&[(OR, 8, a.weak)]);
        let weak = self.emit(&[
            (NOT, b.weak, 0),
            (OR, 8, JUST),
            (NOT, JUST, 0),
            (OR, JUST, 9),
            (UNTIL, g, JUST),
        ]);
        let g = self.emit(&[(OR, 8, a.strong)]);
        let strong =
            self.emit(&[(NOT, b.strong, 0), (OR, 8, JUST), (NOT, JUST, 0), (UNTIL, g, JUST)]);
        Images { weak, strong }
    }

    /// "prev: not a; or 1 ·; not ·; since 1 ·; prev ·", of one reading.
    fn prev(&mut self, a: usize) -> usize {
        self.emit(&[(NOT, a, 0), (OR, 1, JUST), (NOT, JUST, 0), (SINCE, 1, JUST), (PREV, JUST, 0)])
    }

    /// "since: or 8 a (g); not b; or 8 ·; not ·; since g ·", of one reading.
    fn since(&mut self, a: usize, b: usize) -> usize {
        let g = self.emit(&[(OR, 8, a)]);
        self.emit(&[(NOT, b, 0), (OR, 8, JUST), (NOT, JUST, 0), (SINCE, g, JUST)])
    }

    /// "next of a tolerant operand: w: next a; or 3 ·. s: next a; not ·;
    /// or 3 ·; not · (6)."
    fn short_next(&mut self, a: Images) -> Images {
        let weak = self.emit(&[(NEXT, a.weak, 0), (OR, 3, JUST)]);
        let strong =
            self.emit(&[(NEXT, a.strong, 0), (NOT, JUST, 0), (OR, 3, JUST), (NOT, JUST, 0)]);
        Images { weak, strong }
    }

    /// "until of two tolerant operands: w: or 9 b; until a ·. s: not b;
    /// or 9 ·; not ·; until a · (6)."
    fn short_until(&mut self, a: Images, b: Images) -> Images {
        let weak = self.emit(&[(OR, 9, b.weak), (UNTIL, a.weak, JUST)]);
        let strong = self.emit(&[
            (NOT, b.strong, 0),
            (OR, 9, JUST),
            (NOT, JUST, 0),
            (UNTIL, a.strong, JUST),
        ]);
        Images { weak, strong }
    }

    /// "since a b", of one reading.
    fn short_since(&mut self, a: usize, b: usize) -> usize {
        self.emit(&[(SINCE, a, b)])
    }

    /// Prev as the neighbouring recorded state, which no right rewriter emits.
    fn neighbour(&mut self, a: usize) -> usize {
        self.emit(&[(PREV, a, 0)])
    }

    /// "Closing, from the rule's w: or 8 w; not ·; until 8 ·; not · (top
    /// weak); from its s: not s; or 8 ·; not ·; until 8 · (top strong) (8)."
    fn closing(&mut self, rule: Images) -> Images {
        let weak =
            self.emit(&[(OR, 8, rule.weak), (NOT, JUST, 0), (UNTIL, 8, JUST), (NOT, JUST, 0)]);
        let strong =
            self.emit(&[(NOT, rule.strong, 0), (OR, 8, JUST), (NOT, JUST, 0), (UNTIL, 8, JUST)]);
        Images { weak, strong }
    }
}

/// A rewriting: plain or short, for an own mask, with its decisions.
struct Rewriter<'a> {
    decisions: &'a dyn Decisions,
    short: bool,
    own: u32,
    tolerant: Vec<bool>,
}

/// One image of a node of two operands, one after the other for both readings.
fn both(
    emitter: &mut Emitter,
    a: Images,
    b: Images,
    image: fn(&mut Emitter, usize, usize) -> usize,
) -> Images {
    let weak = image(emitter, a.weak, b.weak);
    Images { weak, strong: image(emitter, a.strong, b.strong) }
}

/// The images of one rule node.
fn rewrite_node(by: &Rewriter, emitter: &mut Emitter, node: Node, images: &[Images]) -> Images {
    let Rewriter { decisions, short, own, ref tolerant } = *by;
    let (p, q) = (node.first, node.second);
    match node.kind {
        TRUE => emitter.itself(node),
        ATOM if bit(own, p) => emitter.itself(node),
        ATOM => emitter.input_atom(p),
        NOT => emitter.not(images[p]),
        OR => emitter.or(images[p], images[q]),
        NEXT if short && tolerant[p] => emitter.short_next(images[p]),
        NEXT => emitter.next(images[p]),
        UNTIL if short && tolerant[p] && tolerant[q] => emitter.short_until(images[p], images[q]),
        UNTIL => emitter.until(images[p], images[q]),
        PREV if decisions.short_prev(short, tolerant[p]) => {
            both(emitter, images[p], images[p], |emitter, a, _| emitter.neighbour(a))
        }
        PREV => both(emitter, images[p], images[p], |emitter, a, _| emitter.prev(a)),
        SINCE if decisions.short_since(short, tolerant[p], tolerant[q]) => {
            both(emitter, images[p], images[q], Emitter::short_since)
        }
        SINCE => both(emitter, images[p], images[q], Emitter::since),
        _ => unreachable!("an accepted rule has the first eight kinds only"),
    }
}

/// The plain or the short rewriting of an accepted rule.
pub fn rewrite(short: bool, rule: &Rule, own: u32) -> Rewritten {
    rewrite_by(&AsWorded, short, rule, own)
}

/// The rewriting of an accepted rule with these decisions.
pub fn rewrite_by(decisions: &dyn Decisions, short: bool, rule: &Rule, own: u32) -> Rewritten {
    let tolerant = stutter_tolerant(decisions, &rule.nodes, own);
    let by = Rewriter { decisions, short, own, tolerant };
    let mut emitter = Emitter { nodes: Vec::new() };
    emitter.emit(OPENING);
    let mut images: Vec<Images> = Vec::new();
    for node in &rule.nodes {
        let image = rewrite_node(&by, &mut emitter, *node, &images);
        images.push(image);
    }
    let last = rule.nodes.len() - 1;
    let unclosed = decisions.unclosed(short, rule.nodes[last].kind, by.tolerant[last]);
    let tops = if unclosed { images[last] } else { emitter.closing(images[last]) };
    Rewritten { nodes: emitter.nodes, weak_top: tops.weak, strong_top: tops.strong }
}

//! "Rules in one line": every way to spell a line and every derivation of its
//! signs in the grammar, by trying all splits. That there is at most one of
//! each is found here, not assumed.

use std::collections::HashMap;
use std::rc::Rc;

use super::rule::{Node, ATOM, NEXT, NOT, OR, PREV, SINCE, TRUE, UNTIL};
use super::{limits, refusal};

/// "`->`, `true` and `a` with its number are one sign each".
#[derive(Clone, Copy, PartialEq, Eq, Debug)]
pub enum Sign {
    /// `true`.
    True,
    /// `a` and its number; a number too large for this type is outside every
    /// limit, as the largest one is.
    Atom(usize),
    /// One of `! X Y F G`.
    Prefix(u8),
    /// One of `| & U S`, or `>` for `->`.
    Infix(u8),
    /// `(`.
    Open,
    /// `)`.
    Close,
}

/// The prefixes.
pub const PREFIXES: [u8; 5] = *b"!XYFG";
/// The signs between two operands, loosest first.
pub const INFIXES: [u8; 5] = *b">|&US";

/// The signs but for atoms, and how they are spelled.
const WORDS: [(Sign, &[u8]); 13] = [
    (Sign::True, b"true"),
    (Sign::Open, b"("),
    (Sign::Close, b")"),
    (Sign::Prefix(b'!'), b"!"),
    (Sign::Prefix(b'X'), b"X"),
    (Sign::Prefix(b'Y'), b"Y"),
    (Sign::Prefix(b'F'), b"F"),
    (Sign::Prefix(b'G'), b"G"),
    (Sign::Infix(b'>'), b"->"),
    (Sign::Infix(b'|'), b"|"),
    (Sign::Infix(b'&'), b"&"),
    (Sign::Infix(b'U'), b"U"),
    (Sign::Infix(b'S'), b"S"),
];

impl Sign {
    /// The sign's bytes.
    pub fn bytes(self) -> Vec<u8> {
        match WORDS.iter().find(|(sign, _)| *sign == self) {
            Some((_, word)) => word.to_vec(),
            None => {
                let Sign::Atom(number) = self else { unreachable!("every other sign has a word") };
                format!("a{number}").into_bytes()
            }
        }
    }
}

/// The signs with which some bytes begin, each with its number of bytes: all
/// numbers that the digits after `a` begin with, too.
fn signs_at(bytes: &[u8]) -> Vec<(Sign, usize)> {
    // The first byte tells most words apart.
    let begins =
        |(_, word): &&(Sign, &[u8])| bytes.first() == word.first() && bytes.starts_with(word);
    let mut found: Vec<(Sign, usize)> =
        WORDS.iter().filter(begins).map(|(sign, word)| (*sign, word.len())).collect();
    if bytes.first() == Some(&b'a') {
        let digits = bytes[1..].iter().take_while(|byte| byte.is_ascii_digit()).count();
        for length in 1..=digits {
            let number = &bytes[1..1 + length];
            if length == 1 || number[0] != b'0' {
                found.push((Sign::Atom(value(number)), 1 + length));
            }
        }
    }
    found
}

/// The value of digits, the largest number where it is larger.
fn value(digits: &[u8]) -> usize {
    digits.iter().fold(0usize, |value, digit| {
        value.saturating_mul(10).saturating_add(usize::from(digit - b'0'))
    })
}

/// All lists of signs that the line spells: "Single spaces may stand between
/// signs". From the last byte to the first, what can be spelled from each on.
pub fn spellings(line: &[u8]) -> Vec<Vec<Sign>> {
    let mut from: Vec<Vec<Vec<Sign>>> = vec![Vec::new(); line.len() + 1];
    for at in (0..line.len()).rev() {
        let mut all = Vec::new();
        for (sign, length) in signs_at(&line[at..]) {
            let next = at + length;
            if next == line.len() {
                all.push(vec![sign]);
            }
            let spaced = line.get(next) == Some(&b' ');
            for start in [Some(next), spaced.then_some(next + 1)].into_iter().flatten() {
                for rest in &from[start] {
                    all.push([&[sign], &rest[..]].concat());
                }
            }
        }
        from[at] = all;
    }
    from.swap_remove(0)
}

/// A rule as it is typed.
#[derive(PartialEq, Eq, Debug)]
pub enum Tree {
    /// `true`.
    True,
    /// An atom.
    Atom(usize),
    /// A prefix and its operand.
    One(u8, Rc<Tree>),
    /// A sign between two operands.
    Two(u8, Rc<Tree>, Rc<Tree>),
}

/// "Loosest first": the levels of the grammar.
#[derive(Clone, Copy, PartialEq, Eq, Hash, Debug)]
enum Level {
    Arrow,
    Or,
    And,
    Until,
    Prefix,
    Primary,
}

/// A level's binary productions: the sign, the level of its left and of its
/// right operand; and the level that it holds as it is.
fn productions(level: Level) -> (&'static [(u8, Level, Level)], Option<Level>) {
    use Level::{And, Arrow, Or, Prefix, Primary, Until};
    match level {
        Arrow => (&[(b'>', Or, Arrow)], Some(Or)),
        Or => (&[(b'|', Or, And)], Some(And)),
        And => (&[(b'&', And, Until)], Some(Until)),
        Until => (&[(b'U', Prefix, Until), (b'S', Prefix, Until)], Some(Prefix)),
        Prefix => (&[], Some(Primary)),
        Primary => (&[], None),
    }
}

/// Parts of at most so many signs are not worth keeping.
const FEW: usize = 8;

/// The derivations of all longer parts of a list of signs that were asked for.
struct Chart<'a> {
    signs: &'a [Sign],
    found: HashMap<(Level, usize, usize), Vec<Rc<Tree>>>,
}

impl Chart<'_> {
    /// The trees of the signs from `start` to `end` as a phrase of the level; no
    /// phrase is empty.
    fn trees(&mut self, level: Level, start: usize, end: usize) -> Vec<Rc<Tree>> {
        if start == end {
            return Vec::new();
        }
        if end - start <= FEW {
            return self.derived(level, start, end);
        }
        if let Some(trees) = self.found.get(&(level, start, end)) {
            return trees.clone();
        }
        let trees = self.derived(level, start, end);
        self.found.insert((level, start, end), trees.clone());
        trees
    }

    /// The same, by the productions of the level.
    fn derived(&mut self, level: Level, start: usize, end: usize) -> Vec<Rc<Tree>> {
        let (binary, held) = productions(level);
        let mut trees = Vec::new();
        for (sign, left, right) in binary {
            for at in (start..end).filter(|at| self.signs[*at] == Sign::Infix(*sign)) {
                for q in self.trees(*right, at + 1, end) {
                    for p in self.trees(*left, start, at) {
                        trees.push(Rc::new(Tree::Two(*sign, p, q.clone())));
                    }
                }
            }
        }
        if let Some(level) = held {
            trees.extend(self.trees(level, start, end));
        }
        trees.extend(self.alone(level, start, end));
        trees
    }

    /// Prefixes, `true`, atoms and bracketed rules.
    fn alone(&mut self, level: Level, start: usize, end: usize) -> Vec<Rc<Tree>> {
        let signs = self.signs;
        match (level, &signs[start..end]) {
            (Level::Prefix, [Sign::Prefix(sign), _, ..]) => {
                let operands = self.trees(Level::Prefix, start + 1, end);
                operands.into_iter().map(|p| Rc::new(Tree::One(*sign, p))).collect()
            }
            (Level::Primary, [Sign::True]) => vec![Rc::new(Tree::True)],
            (Level::Primary, [Sign::Atom(number)]) => vec![Rc::new(Tree::Atom(*number))],
            (Level::Primary, [Sign::Open, .., Sign::Close]) => {
                self.trees(Level::Arrow, start + 1, end - 1)
            }
            _ => Vec::new(),
        }
    }
}

/// All trees of a list of signs.
pub fn derivations(signs: &[Sign]) -> Vec<Rc<Tree>> {
    Chart { signs, found: HashMap::new() }.trees(Level::Arrow, 0, signs.len())
}

/// "brackets open at once".
fn open_at_once(signs: &[Sign]) -> usize {
    let count = |end: usize, sign| signs[..end].iter().filter(|found| **found == sign).count();
    let open = |end| count(end, Sign::Open).saturating_sub(count(end, Sign::Close));
    let openings = (0..signs.len()).filter(|at| signs[*at] == Sign::Open);
    openings.map(|at| open(at + 1)).max().unwrap_or(0)
}

/// The largest atom number.
fn largest_atom(signs: &[Sign]) -> usize {
    let atom = |sign: &Sign| if let Sign::Atom(number) = sign { *number } else { 0 };
    signs.iter().map(atom).max().unwrap_or(0)
}

/// The tree with `F`, `G`, `&` and `->` replaced: "`F p` becomes true, p,
/// until; `G p` is `!F!p`; `p & q` is `!(!p|!q)`; `p -> q` is `!p|q`".
fn replaced(tree: &Rc<Tree>) -> Rc<Tree> {
    let not = |p: Rc<Tree>| Rc::new(Tree::One(b'!', p));
    let or = |p, q| Rc::new(Tree::Two(b'|', p, q));
    let future = |p| Rc::new(Tree::Two(b'U', Rc::new(Tree::True), p));
    match &**tree {
        Tree::True | Tree::Atom(_) => tree.clone(),
        Tree::One(b'F', p) => future(replaced(p)),
        Tree::One(b'G', p) => not(future(not(replaced(p)))),
        Tree::One(sign, p) => Rc::new(Tree::One(*sign, replaced(p))),
        Tree::Two(b'&', p, q) => not(or(not(replaced(p)), not(replaced(q)))),
        Tree::Two(b'>', p, q) => or(not(replaced(p)), replaced(q)),
        Tree::Two(sign, p, q) => Rc::new(Tree::Two(*sign, replaced(p), replaced(q))),
    }
}

/// "`! | X Y U S` are not, or, next, prev, until and since, in this order".
fn kind(sign: u8) -> u32 {
    let kinds = [(b'!', NOT), (b'|', OR), (b'X', NEXT), (b'Y', PREV), (b'U', UNTIL), (b'S', SINCE)];
    kinds.iter().find(|(byte, _)| *byte == sign).expect("a kind of its own").1
}

/// "Operands come out before their operator, left first": the last node's
/// number.
fn emit(tree: &Tree, nodes: &mut Vec<Node>) -> usize {
    let node = match tree {
        Tree::True => Node { kind: TRUE, first: 0, second: 0 },
        Tree::Atom(number) => Node { kind: ATOM, first: *number, second: 0 },
        Tree::One(sign, p) => Node { kind: kind(*sign), first: emit(p, nodes), second: 0 },
        Tree::Two(sign, p, q) => {
            let (first, second) = (emit(p, nodes), emit(q, nodes));
            Node { kind: kind(*sign), first, second }
        }
    };
    nodes.push(node);
    nodes.len() - 1
}

/// The nodes of a tree.
pub fn nodes(tree: &Rc<Tree>) -> Vec<Node> {
    let mut nodes = Vec::new();
    emit(&replaced(tree), &mut nodes);
    nodes
}

/// The one sentence that a line is, if it is one: its signs and its tree.
fn sentence(line: &[u8]) -> Option<(Vec<Sign>, Rc<Tree>)> {
    let mut sentences = Vec::new();
    for signs in spellings(line) {
        for tree in derivations(&signs) {
            sentences.push((signs.clone(), tree));
        }
    }
    assert!(sentences.len() <= 1, "the reading of {:?} is unique", line.escape_ascii());
    sentences.pop()
}

/// "Refused: 15, over 1,024 bytes or no sentence of the grammar; 16, a
/// sentence with over 16 brackets open at once; then 2, over 64 nodes, an atom
/// above 31 or a controller above its limit".
pub fn read(controller: usize, line: &[u8]) -> Result<Vec<Node>, u8> {
    if line.len() > limits::LINE_BYTES {
        return Err(refusal::LINE_FORM);
    }
    let (signs, tree) = sentence(line).ok_or(refusal::LINE_FORM)?;
    if open_at_once(&signs) > limits::OPEN_BRACKETS {
        return Err(refusal::BRACKETS_DEEP);
    }
    let nodes = nodes(&tree);
    let outside = nodes.len() > limits::RULE_NODES || largest_atom(&signs) >= limits::ATOMS;
    if outside || controller >= limits::CONTROLLERS {
        return Err(refusal::RULE_LIMIT);
    }
    Ok(nodes)
}

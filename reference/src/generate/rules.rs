//! Rules and rewritten tables, valid and damaged, as words of lent space.

use super::random::Random;
use crate::model::limits;
use crate::model::rule::{
    operand_count, Node, ATOM, END, KIND_WORDS, NEXT, NOT, OR, PREV, RUN, SINCE, TRUE, UNTIL,
};

/// A rule as an operation on tables takes it.
#[derive(Clone, PartialEq, Eq, Debug)]
pub struct RuleTable {
    /// The rule's controller.
    pub controller: usize,
    /// The node count.
    pub count: usize,
    /// The nodes; there may be fewer or more than the count.
    pub nodes: Vec<u32>,
}

/// The words of a node list such as "or 8 12; not 17".
pub fn listed(list: &str) -> Vec<u32> {
    let word = |node: &str| {
        let fields: Vec<&str> = node.split_whitespace().collect();
        let kind = KIND_WORDS.iter().position(|word| *word == fields[0].as_bytes());
        let operand = |at| fields.get(at).map_or(0, |field: &&str| field.parse().unwrap());
        let kind = kind.expect("one of the ten kinds") as u32;
        Node { kind, first: operand(1), second: operand(2) }.word()
    };
    list.split(';').map(word).collect()
}

/// A table as the whole judge takes it.
#[derive(Clone, PartialEq, Eq, Debug)]
pub struct JudgeTable {
    /// The node count.
    pub count: usize,
    /// The nodes; there may be fewer or more than the count.
    pub nodes: Vec<u32>,
    /// The top weak node.
    pub weak_top: usize,
    /// The top strong node.
    pub strong_top: usize,
}

/// Kinds without nodes for operands, in a rule.
const RULE_LEAVES: &[u32] = &[TRUE, ATOM, ATOM, ATOM];
/// Kinds without nodes for operands, in a rewritten table.
const TABLE_LEAVES: &[u32] = &[TRUE, ATOM, ATOM, RUN, END];
/// Kinds with nodes for operands.
const OPERATORS: &[u32] = &[NOT, NOT, OR, OR, NEXT, NEXT, UNTIL, UNTIL, PREV, SINCE];

/// An operand of the node at a number: the node just before it, half of the
/// time, so that rules are deep.
fn operand(random: &mut Random, number: usize) -> usize {
    if random.once_in(2) {
        number - 1
    } else {
        random.below(number)
    }
}

/// A valid node for a number, with atoms below `atoms`.
fn node(random: &mut Random, number: usize, leaves: &[u32], leaf: bool, atoms: usize) -> Node {
    let kind = random.pick(if leaf { leaves } else { OPERATORS });
    let mut node = Node { kind, first: 0, second: 0 };
    if kind == ATOM {
        node.first = random.below(atoms);
    } else if operand_count(kind) > 0 {
        node.first = operand(random, number);
    }
    if operand_count(kind) > 1 {
        node.second = operand(random, number);
    }
    node
}

/// Valid nodes of which the last is an operator if it can be.
fn nodes(random: &mut Random, count: usize, leaves: &[u32]) -> Vec<u32> {
    let atoms = random.pick(&[2, 4, 4, limits::ATOMS]);
    let often = random.between(2, 5);
    let mut words = Vec::new();
    for number in 0..count {
        let leaf = number == 0 || (number + 1 < count && random.once_in(often));
        words.push(node(random, number, leaves, leaf, atoms).word());
    }
    words
}

/// An accepted rule of at most `most` nodes for a controller.
pub fn rule_for(random: &mut Random, controller: usize, most: usize) -> RuleTable {
    let count = random.size(1, most);
    let nodes = nodes(random, count, RULE_LEAVES);
    RuleTable { controller, count, nodes }
}

/// An operator on the node before for a number, of a rule that looks far: it
/// joins another atom, passes on, or looks over the places, the last ones from
/// the first place on.
fn far_node(random: &mut Random, number: usize, atoms: &mut Vec<usize>, last: bool) -> Node {
    let before = number - 1;
    let other = if random.once_in(2) { 0 } else { random.below(number) };
    let ahead = [NOT, NEXT, UNTIL, UNTIL];
    let any = [NOT, OR, OR, OR, OR, NEXT, PREV, UNTIL, UNTIL, SINCE, SINCE];
    let kind = if last { random.pick(&ahead) } else { random.pick(&any) };
    match kind {
        OR => Node { kind, first: before, second: atoms.pop().unwrap_or(other) },
        UNTIL | SINCE if random.once_in(4) => Node { kind, first: before, second: other },
        UNTIL | SINCE => Node { kind, first: other, second: before },
        _ => Node { kind, first: before, second: 0 },
    }
}

/// An accepted rule of at most `most` nodes, three or more, that looks far: after
/// `true` come atoms, then operators, each on the node before it.
pub fn far_rule_for(random: &mut Random, controller: usize, most: usize) -> RuleTable {
    let count = random.between(3, most);
    let leaves = random.between(2, count / 2 + 1);
    let leaf = |number| match number {
        0 => Node { kind: TRUE, first: 0, second: 0 },
        _ => Node { kind: ATOM, first: number % limits::ATOMS, second: 0 },
    };
    let mut nodes: Vec<u32> = (0..leaves).map(|number| leaf(number).word()).collect();
    let mut atoms: Vec<usize> = (1..leaves - 1).collect();
    for number in leaves..count {
        let last = number + 3 > count;
        nodes.push(far_node(random, number, &mut atoms, last).word());
    }
    RuleTable { controller, count, nodes }
}

/// An accepted rule of at most `most` nodes.
pub fn rule(random: &mut Random, most: usize) -> RuleTable {
    let controller = random.below(limits::CONTROLLERS);
    rule_for(random, controller, most)
}

/// An accepted table of at most `most` nodes of all ten kinds.
pub fn table(random: &mut Random, most: usize) -> JudgeTable {
    let count = random.size(1, most);
    let nodes = nodes(random, count, TABLE_LEAVES);
    let tops = [random.below(count), random.below(count), count - 1];
    let (weak_top, strong_top) = (random.pick(&tops), random.pick(&tops));
    JudgeTable { count, nodes, weak_top, strong_top }
}

/// Adds entries past the count: they aren't read.
fn grow(random: &mut Random, nodes: &mut Vec<u32>) {
    for _ in 0..random.between(1, 5) {
        nodes.push(random.word());
    }
}

/// One node made wrong, most of the time, in one of the ways of 2 and 3.
fn damage_node(random: &mut Random, number: usize, word: u32) -> u32 {
    let mut node = Node::of_word(word);
    match random.below(9) {
        0 => node.kind = random.between(END as usize + 1, 255) as u32,
        1 => node.kind = random.pick(&[RUN, END]),
        2 => (node.kind, node.first) = (ATOM, random.between(limits::ATOMS - 1, 33)),
        3 => (node.kind, node.first) = (ATOM, random.below(4096)),
        4 => node.second = random.between(1, 4095),
        5 => node.first = number,
        6 => node.second = number,
        7 => node.first = random.below(4096),
        _ => return random.word(),
    }
    node.word()
}

/// Damages a few nodes that are there, or takes some away.
fn damage_nodes(random: &mut Random, nodes: &mut Vec<u32>) {
    if random.once_in(5) {
        nodes.truncate(random.below(nodes.len()));
        return;
    }
    for _ in 0..random.pick(&[1, 1, 1, 2, 4]) {
        let number = random.below(nodes.len());
        nodes[number] = damage_node(random, number, nodes[number]);
    }
}

/// A count made wrong for nodes of a limit.
fn damage_count(random: &mut Random, count: usize, limit: usize) -> usize {
    match random.below(4) {
        0 => 0,
        1 => count + 1,
        2 => random.between(1, count),
        _ => random.beyond(limit + 1),
    }
}

/// A rule that is most of the time refused: heading, nodes or both damaged.
pub fn damaged_rule(random: &mut Random, most: usize) -> RuleTable {
    let mut rule = rule(random, most);
    let what = random.below(8);
    if what < 5 {
        damage_nodes(random, &mut rule.nodes);
    }
    if what == 4 || what == 5 {
        rule.count = damage_count(random, rule.count, limits::RULE_NODES);
    }
    if what == 6 {
        rule.controller = random.beyond(limits::CONTROLLERS);
    }
    if random.once_in(4) {
        grow(random, &mut rule.nodes);
    }
    rule
}

/// A table that is most of the time refused: nodes, count or tops damaged.
pub fn damaged_table(random: &mut Random, most: usize) -> JudgeTable {
    let mut table = table(random, most);
    let what = random.below(10);
    if what < 5 {
        damage_nodes(random, &mut table.nodes);
    }
    if what == 4 || what == 5 {
        table.count = damage_count(random, table.count, limits::TABLE_NODES);
    }
    if what == 6 || what == 7 {
        table.weak_top = random.beyond(table.count);
    }
    if what == 7 || what == 8 {
        table.strong_top = random.beyond(table.count);
    }
    if random.once_in(4) {
        grow(random, &mut table.nodes);
    }
    table
}

/// An accepted rule or a damaged one.
pub fn any_rule(random: &mut Random, most: usize) -> RuleTable {
    if random.once_in(3) {
        rule(random, most)
    } else {
        damaged_rule(random, most)
    }
}

/// An accepted table or a damaged one.
pub fn any_table(random: &mut Random, most: usize) -> JudgeTable {
    if random.once_in(2) {
        table(random, most)
    } else {
        damaged_table(random, most)
    }
}

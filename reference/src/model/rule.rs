//! "The rule table": nodes, their words in lent space, and the row of the
//! refusal table for "a rule line or node" and "rule line count".

use super::{limits, refusal};

/// The kind `true`.
pub const TRUE: u32 = 0;
/// The kind `atom`.
pub const ATOM: u32 = 1;
/// The kind `not`.
pub const NOT: u32 = 2;
/// The kind `or`.
pub const OR: u32 = 3;
/// The kind `next`.
pub const NEXT: u32 = 4;
/// The kind `until`.
pub const UNTIL: u32 = 5;
/// The kind `prev`.
pub const PREV: u32 = 6;
/// The kind `since`.
pub const SINCE: u32 = 7;
/// The kind `run`, only in rewritten tables.
pub const RUN: u32 = 8;
/// The kind `end`, only in rewritten tables.
pub const END: u32 = 9;

/// The ten kind words, each at its kind's number.
pub const KIND_WORDS: [&[u8]; 10] =
    [b"true", b"atom", b"not", b"or", b"next", b"until", b"prev", b"since", b"run", b"end"];

/// One node: a kind and two operands, an unused one 0.
#[derive(Clone, Copy, PartialEq, Eq, Debug)]
pub struct Node {
    /// The kind's number.
    pub kind: u32,
    /// The first operand, or the atom's number.
    pub first: usize,
    /// The second operand.
    pub second: usize,
}

impl Node {
    /// The node that a word of lent space is.
    pub fn of_word(word: u32) -> Node {
        Node {
            kind: word % 256,
            first: (word / 256 % 4096) as usize,
            second: (word / 1048576) as usize,
        }
    }

    /// The word of lent space that a node is; its operands are below 4,096.
    pub fn word(self) -> u32 {
        self.kind + 256 * self.first as u32 + 1048576 * self.second as u32
    }
}

/// How many operands a kind uses: they are its fields in a rule text.
pub fn operand_count(kind: u32) -> usize {
    match kind {
        ATOM | NOT | NEXT | PREV => 1,
        OR | UNTIL | SINCE => 2,
        _ => 0,
    }
}

/// Which tables are meant: the rules, or what the whole judge takes.
#[derive(Clone, Copy, PartialEq, Eq, Debug)]
pub enum Language {
    /// "1 to 64 nodes", without run and end.
    Rule,
    /// "The judge's table may hold 1,024 nodes, run and end."
    Rewritten,
}

impl Language {
    /// The largest node count.
    fn most_nodes(self) -> usize {
        match self {
            Language::Rule => limits::RULE_NODES,
            Language::Rewritten => limits::TABLE_NODES,
        }
    }

    /// Is this number a kind of the language?
    fn has_kind(self, kind: u32) -> bool {
        match self {
            Language::Rule => kind <= SINCE,
            Language::Rewritten => kind <= END,
        }
    }
}

/// A rule: its controller and its nodes, the last of which is the rule.
#[derive(Clone, PartialEq, Eq, Debug)]
pub struct Rule {
    /// The rule's controller.
    pub controller: usize,
    /// The nodes.
    pub nodes: Vec<Node>,
}

/// Refusal 2 of a controller: 0 to 7.
pub fn check_controller(controller: usize) -> Result<(), u8> {
    if controller >= limits::CONTROLLERS {
        return Err(refusal::RULE_LIMIT);
    }
    Ok(())
}

/// Refusal 2 of a node count: 1 to 64, or to 1,024 for the judge's table.
pub fn check_count(count: usize, language: Language) -> Result<(), u8> {
    if count < 1 || count > language.most_nodes() {
        return Err(refusal::RULE_LIMIT);
    }
    Ok(())
}

/// Refusals 2, then 3, of the node that stands at a number.
pub fn check_node(node: Node, number: usize, language: Language) -> Result<(), u8> {
    if !language.has_kind(node.kind) {
        return Err(refusal::RULE_LIMIT);
    }
    if node.kind == ATOM && node.first >= limits::ATOMS {
        return Err(refusal::RULE_LIMIT);
    }
    let used = operand_count(node.kind);
    if (used < 1 && node.first != 0) || (used < 2 && node.second != 0) {
        return Err(refusal::RULE_LIMIT);
    }
    if used >= 1 && node.kind != ATOM && node.first >= number {
        return Err(refusal::OPERAND);
    }
    if used >= 2 && node.second >= number {
        return Err(refusal::OPERAND);
    }
    Ok(())
}

/// The nodes of a table: those that are there in order (2, 3), then 4 if
/// there are fewer than the count. Entries past the count aren't read.
pub fn check_nodes(count: usize, words: &[u32], language: Language) -> Result<Vec<Node>, u8> {
    check_count(count, language)?;
    let mut nodes = Vec::new();
    for (number, word) in words.iter().take(count).enumerate() {
        let node = Node::of_word(*word);
        check_node(node, number, language)?;
        nodes.push(node);
    }
    if nodes.len() < count {
        return Err(refusal::RULE_LINES);
    }
    Ok(nodes)
}

/// A rule as a table: the heading (2), then its nodes.
pub fn check_rule(controller: usize, count: usize, words: &[u32]) -> Result<Rule, u8> {
    check_controller(controller)?;
    let nodes = check_nodes(count, words, Language::Rule)?;
    Ok(Rule { controller, nodes })
}

//! The reader of rules in one line: signs first, then a function for each
//! level, which writes the nodes as it goes; the limits are asked at the end.

use super::node::{self, ATOM, NEXT, NOT, OR, PREV, SINCE, TRUE, UNTIL};
use super::refused;
use ragyvosin::full;
use reference::model::{limits, refusal};

#[derive(Clone, Copy, PartialEq, Eq)]
enum Sign {
    True,
    Atom(u32),
    Not,
    Next,
    Prev,
    Future,
    Always,
    Implies,
    Or,
    And,
    Until,
    Since,
    Open,
    Close,
}

/// The sign with which some bytes begin, and its number of bytes. An atom above
/// the limit counts as the limit.
fn sign(bytes: &[u8]) -> Option<(Sign, usize)> {
    let one = |sign| Some((sign, 1));
    match *bytes.first()? {
        b'!' => one(Sign::Not),
        b'X' => one(Sign::Next),
        b'Y' => one(Sign::Prev),
        b'F' => one(Sign::Future),
        b'G' => one(Sign::Always),
        b'|' => one(Sign::Or),
        b'&' => one(Sign::And),
        b'U' => one(Sign::Until),
        b'S' => one(Sign::Since),
        b'(' => one(Sign::Open),
        b')' => one(Sign::Close),
        b'-' if bytes.get(1) == Some(&b'>') => Some((Sign::Implies, 2)),
        b't' if bytes.starts_with(b"true") => Some((Sign::True, 4)),
        b'a' => {
            let digits = bytes[1..].iter().take_while(|byte| byte.is_ascii_digit()).count();
            if digits == 0 || (digits > 1 && bytes[1] == b'0') {
                return None;
            }
            let next = |value: u32, digit: &u8| (value * 10 + u32::from(digit - b'0')).min(32);
            Some((Sign::Atom(bytes[1..=digits].iter().fold(0, next)), 1 + digits))
        }
        _ => None,
    }
}

/// The signs of a line.
fn signs(line: &[u8]) -> Option<Vec<Sign>> {
    let mut signs = Vec::with_capacity(line.len());
    let mut at = 0;
    loop {
        let (sign, length) = sign(&line[at..])?;
        signs.push(sign);
        at += length;
        match line.get(at) {
            None => return Some(signs),
            Some(b' ') => at += 1,
            Some(_) => {}
        }
    }
}

/// A reader at a place of the signs, with the nodes so far.
struct Reader<'a> {
    signs: &'a [Sign],
    at: usize,
    open: usize,
    deepest: usize,
    nodes: Vec<u32>,
}

impl Reader<'_> {
    fn takes(&mut self, sign: Sign) -> bool {
        let there = self.signs.get(self.at) == Some(&sign);
        self.at += usize::from(there);
        there
    }

    /// Writes a node; its number.
    fn put(&mut self, kind: u32, first: usize, second: usize) -> usize {
        self.nodes.push(node::word(kind, first, second));
        self.nodes.len() - 1
    }

    fn not(&mut self, p: usize) -> usize {
        self.put(NOT, p, 0)
    }

    fn arrows(&mut self) -> Option<usize> {
        let p = self.ors()?;
        if !self.takes(Sign::Implies) {
            return Some(p);
        }
        let p = self.not(p);
        let q = self.arrows()?;
        Some(self.put(OR, p, q))
    }

    fn ors(&mut self) -> Option<usize> {
        let mut p = self.ands()?;
        while self.takes(Sign::Or) {
            let q = self.ands()?;
            p = self.put(OR, p, q);
        }
        Some(p)
    }

    fn ands(&mut self) -> Option<usize> {
        let mut p = self.untils()?;
        while self.takes(Sign::And) {
            let not_p = self.not(p);
            let q = self.untils()?;
            let not_q = self.not(q);
            let either = self.put(OR, not_p, not_q);
            p = self.not(either);
        }
        Some(p)
    }

    fn untils(&mut self) -> Option<usize> {
        let p = self.prefixes()?;
        for (sign, kind) in [(Sign::Until, UNTIL), (Sign::Since, SINCE)] {
            if self.takes(sign) {
                let q = self.untils()?;
                return Some(self.put(kind, p, q));
            }
        }
        Some(p)
    }

    fn prefixes(&mut self) -> Option<usize> {
        for (sign, kind) in [(Sign::Not, NOT), (Sign::Next, NEXT), (Sign::Prev, PREV)] {
            if self.takes(sign) {
                let p = self.prefixes()?;
                return Some(self.put(kind, p, 0));
            }
        }
        if self.takes(Sign::Future) {
            let truth = self.put(TRUE, 0, 0);
            let p = self.prefixes()?;
            return Some(self.put(UNTIL, truth, p));
        }
        if self.takes(Sign::Always) {
            let truth = self.put(TRUE, 0, 0);
            let p = self.prefixes()?;
            let p = self.not(p);
            let future = self.put(UNTIL, truth, p);
            return Some(self.not(future));
        }
        self.primaries()
    }

    fn primaries(&mut self) -> Option<usize> {
        let sign = *self.signs.get(self.at)?;
        self.at += 1;
        match sign {
            Sign::True => Some(self.put(TRUE, 0, 0)),
            Sign::Atom(number) => Some(self.put(ATOM, number as usize, 0)),
            Sign::Open => {
                self.open += 1;
                self.deepest = self.deepest.max(self.open);
                let p = self.arrows()?;
                self.open -= 1;
                self.takes(Sign::Close).then_some(p)
            }
            _ => None,
        }
    }
}

/// The number that refuses a line, or its nodes.
fn read(controller: usize, line: &[u8]) -> Result<Vec<u32>, u8> {
    if line.len() > limits::LINE_BYTES {
        return Err(refusal::LINE_FORM);
    }
    let signs = signs(line).ok_or(refusal::LINE_FORM)?;
    let nodes = Vec::with_capacity(full::RULE_NODES);
    let mut reader = Reader { signs: &signs, at: 0, open: 0, deepest: 0, nodes };
    if reader.arrows().is_none() || reader.at < signs.len() {
        return Err(refusal::LINE_FORM);
    }
    if reader.deepest > limits::OPEN_BRACKETS {
        return Err(refusal::BRACKETS_DEEP);
    }
    let high = signs.iter().any(|sign| matches!(sign, Sign::Atom(32)));
    if reader.nodes.len() > full::RULE_NODES || high || controller >= limits::CONTROLLERS {
        return Err(refusal::RULE_LIMIT);
    }
    Ok(reader.nodes)
}

/// Reads a rule in one line.
pub fn read_line(controller: usize, line: &[u8], nodes: &mut [u32]) -> (u8, [usize; 2]) {
    if nodes.len() < full::RULE_NODES {
        return (refusal::LENT_SPACE, [0; 2]);
    }
    match read(controller, line) {
        Err(number) => refused(number, nodes, full::RULE_NODES),
        Ok(read) => {
            nodes[..read.len()].copy_from_slice(&read);
            nodes[read.len()..full::RULE_NODES].fill(0);
            (0, [controller, read.len()])
        }
    }
}

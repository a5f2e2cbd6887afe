//! The writer of rule texts.

use super::node::{self, ATOM, KIND_WORDS, NEXT, NOT, OR, PREV, SINCE, UNTIL};
use super::{check, refused};
use ragyvosin::{full, Rule};
use reference::model::refusal;

/// The text and how many bytes of it were written.
pub struct Writer<'a> {
    text: &'a mut [u8],
    length: usize,
}

impl<'a> Writer<'a> {
    pub fn new(text: &'a mut [u8]) -> Writer<'a> {
        Writer { text, length: 0 }
    }

    pub fn length(&self) -> usize {
        self.length
    }

    pub fn bytes(&mut self, bytes: &[u8]) {
        self.text[self.length..self.length + bytes.len()].copy_from_slice(bytes);
        self.length += bytes.len();
    }

    pub fn byte(&mut self, byte: u8) {
        self.text[self.length] = byte;
        self.length += 1;
    }

    /// So many hexadecimal digits, highest first.
    pub fn hexadecimal(&mut self, value: u64, digits: usize) {
        for place in (0..digits).rev() {
            self.byte(b"0123456789abcdef"[(value >> (4 * place) & 15) as usize]);
        }
    }

    /// A tab and a number, which here is below 1,000.
    pub fn field(&mut self, number: usize) {
        self.byte(b'\t');
        if number >= 100 {
            self.byte(b'0' + (number / 100) as u8);
        }
        if number >= 10 {
            self.byte(b'0' + (number / 10 % 10) as u8);
        }
        self.byte(b'0' + (number % 10) as u8);
    }

    fn node(&mut self, word: u32) {
        let kind = node::kind(word);
        self.bytes(KIND_WORDS[kind as usize]);
        if matches!(kind, ATOM | NOT | NEXT | PREV | OR | UNTIL | SINCE) {
            self.field(node::first(word));
        }
        if matches!(kind, OR | UNTIL | SINCE) {
            self.field(node::second(word));
        }
        self.byte(b'\n');
    }
}

pub fn write_rule(rule: Rule, text: &mut [u8]) -> (u8, [usize; 1]) {
    if text.len() < full::RULE_BYTES {
        return (refusal::LENT_SPACE, [0]);
    }
    if let Err(number) = check::rule(rule) {
        return refused(number, text, full::RULE_BYTES);
    }
    let mut writer = Writer::new(&mut text[..full::RULE_BYTES]);
    writer.bytes(b"rule");
    writer.field(rule.controller);
    writer.field(rule.count);
    writer.byte(b'\n');
    for word in &rule.nodes[..rule.count] {
        writer.node(*word);
    }
    let length = writer.length();
    text[length..full::RULE_BYTES].fill(0);
    (0, [length])
}

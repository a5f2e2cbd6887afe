//! Rules in one line: every short list of signs, random sentences around every
//! limit, and damage of every kind.

use super::random::Random;
use crate::model::limits;
use crate::model::one_line::{Sign, INFIXES, PREFIXES};

/// The signs of which all short lists are made, with one atom.
pub fn alphabet() -> Vec<Sign> {
    let mut signs = vec![Sign::True, Sign::Atom(0), Sign::Open, Sign::Close];
    signs.extend(PREFIXES.map(Sign::Prefix));
    signs.extend(INFIXES.map(Sign::Infix));
    signs
}

/// The list of signs of a number: its digits in the base of the alphabet.
pub fn short_list(alphabet: &[Sign], length: usize, mut number: usize) -> Vec<Sign> {
    let mut signs = Vec::with_capacity(length);
    for _ in 0..length {
        signs.push(alphabet[number % alphabet.len()]);
        number /= alphabet.len();
    }
    signs
}

/// The line of some signs; bit i of `spaces` puts a space after sign i, but
/// for the last.
pub fn spelled(signs: &[Sign], spaces: u64) -> Vec<u8> {
    let mut line = Vec::new();
    for (number, sign) in signs.iter().enumerate() {
        line.extend(sign.bytes());
        if number + 1 < signs.len() && spaces >> (number % 64) & 1 == 1 {
            line.push(b' ');
        }
    }
    line
}

/// An atom's number: mostly small, sometimes at or beyond the limit.
fn atom(random: &mut Random) -> usize {
    match random.below(40) {
        0 => limits::ATOMS - 1,
        1 => random.beyond(limits::ATOMS),
        _ => random.below(4),
    }
}

/// The signs of a random sentence with so many operands, in up to `depth`
/// brackets.
fn sentence(random: &mut Random, operands: usize, depth: usize, signs: &mut Vec<Sign>) {
    while random.once_in(3) {
        signs.push(Sign::Prefix(random.pick(&PREFIXES)));
    }
    if depth > 0 && random.once_in(3) {
        signs.push(Sign::Open);
        sentence(random, operands, depth - 1, signs);
        signs.push(Sign::Close);
        return;
    }
    if operands == 1 {
        let leaf = if random.once_in(4) { Sign::True } else { Sign::Atom(atom(random)) };
        signs.push(leaf);
        return;
    }
    let left = random.between(1, operands - 1);
    sentence(random, left, depth, signs);
    signs.push(Sign::Infix(random.pick(&INFIXES)));
    sentence(random, operands - left, depth, signs);
}

/// A random sentence in so many brackets more: often around a limit.
pub fn line(random: &mut Random) -> Vec<u8> {
    let mut signs = Vec::new();
    let operands = random.size(1, 24);
    let depth = random.size(0, limits::OPEN_BRACKETS + 2);
    sentence(random, operands, depth, &mut signs);
    if random.once_in(4) {
        let around = random.between(0, limits::OPEN_BRACKETS + 2);
        let closed = vec![Sign::Close; around];
        signs = [vec![Sign::Open; around], signs, closed].concat();
    }
    let spaces = if random.once_in(3) { 0 } else { random.bits() };
    spelled(&signs, spaces)
}

/// How many nodes a list of signs adds, at most.
fn weight(signs: &[Sign]) -> usize {
    let nodes = |sign: &Sign| match sign {
        Sign::Open | Sign::Close => 0,
        Sign::Prefix(b'G') | Sign::Infix(b'&') => 4,
        Sign::Prefix(b'F') | Sign::Infix(b'>') => 2,
        _ => 1,
    };
    signs.iter().map(nodes).sum()
}

/// How many brackets are open before the sign at `at`.
fn open_before(signs: &[Sign], at: usize) -> usize {
    let count = |sign| signs[..at].iter().filter(|other| **other == sign).count();
    count(Sign::Open) - count(Sign::Close)
}

/// The sentence with brackets around the operand at `at`.
fn bracketed(signs: &[Sign], at: usize) -> Vec<Sign> {
    [&signs[..at], &[Sign::Open, signs[at], Sign::Close], &signs[at + 1..]].concat()
}

/// An accepted line of so many bytes, with a sixteenth as many nodes at most:
/// brackets around operands, and spaces, make it as long.
pub fn full(random: &mut Random, bytes: usize) -> Vec<u8> {
    let mut signs = Vec::new();
    while signs.is_empty() || weight(&signs) > bytes / 16 || weight(&signs) + 6 < bytes / 16 {
        signs.clear();
        sentence(random, 1 + bytes / 48, 2, &mut signs);
        signs.iter_mut().for_each(|sign| {
            if let Sign::Atom(number) = sign {
                *number %= limits::ATOMS;
            }
        });
    }
    let room = |signs: &[Sign]| bytes.saturating_sub(spelled(signs, 0).len());
    while room(&signs) >= signs.len() {
        let has_room = |at: &usize| {
            matches!(signs[*at], Sign::True | Sign::Atom(_))
                && open_before(&signs, *at) < limits::OPEN_BRACKETS
        };
        let operands: Vec<usize> = (0..signs.len()).filter(has_room).collect();
        signs = bracketed(&signs, random.pick(&operands));
    }
    let spaces = room(&signs);
    let mut line = Vec::new();
    for (number, sign) in signs.iter().enumerate() {
        line.extend(sign.bytes());
        if number < spaces {
            line.push(b' ');
        }
    }
    line
}

/// The bytes that damage puts into a line.
const BYTES: &[u8] = b"()!XYFG|&US->truea0123456789 \t\n\r\0A";

/// A line with a few bytes changed, put in, dropped or doubled, or cut.
pub fn damaged(random: &mut Random, line: &[u8]) -> Vec<u8> {
    let mut line = line.to_vec();
    for _ in 0..random.between(1, 3) {
        let at = random.below(line.len() + 1);
        let byte = if random.once_in(8) { random.byte() } else { random.pick(BYTES) };
        match random.below(5) {
            0 => line.insert(at, byte),
            1 if at < line.len() => line[at] = byte,
            2 if at < line.len() => drop(line.remove(at)),
            3 => line.truncate(at),
            _ => line = [&line[..at], &line[at / 2..]].concat(),
        }
    }
    line
}

/// A random line: a sentence, a damaged one, or one of the edges.
pub fn any_line(random: &mut Random) -> Vec<u8> {
    let sentence = line(random);
    match random.below(40) {
        0 => {
            let edges = edges();
            edges[random.below(edges.len())].clone()
        }
        1..=10 => damaged(random, &sentence),
        _ => sentence,
    }
}

/// Lines at the edges of every limit: 64 and 65 nodes, 16 and 17 brackets,
/// atoms 31 and 32 by numbers of any length, 1,024 and 1,025 bytes.
pub fn edges() -> Vec<Vec<u8>> {
    let times = |word: &str, count: usize| word.repeat(count);
    let nested = |count: usize, inside: &str| times("(", count) + inside + &times(")", count);
    let mut lines: Vec<String> =
        ["", " ", "a", "a0 ", " a0", "a0  U a1", "a 0", "- >", "a01"].map(String::from).to_vec();
    lines.extend(
        ["a0\n", "a0\r", "A0", "trueUtrue", "Xa0", "GFa0", "a1U a0", "tru"].map(String::from),
    );
    for depth in [15, 16, 17, 18, 100] {
        lines.extend([nested(depth, "true"), nested(depth, "a32"), nested(depth, "true") + ")"]);
        lines.push(nested(depth, "true") + "|" + &nested(depth, "a0"));
    }
    for count in 60..=66 {
        lines.extend([times("!", count - 1) + "a0", times("X ", count - 1) + "true"]);
    }
    for count in 12..=17 {
        lines.extend([times("G", count) + "a0", times("a0&", count) + "a1"]);
        lines.extend([times("a0->", count + 8) + "a1", times("F", count + 16) + "a1"]);
        lines.extend([times("a0|", count + 16) + "a1", times("a0 U ", count + 16) + "a1"]);
    }
    for number in ["31", "32", "255", "256", "4294967296", "18446744073709551616"] {
        lines.extend([format!("a{number}"), format!("a{number} |")]);
    }
    lines.push(format!("a{}", times("9", 1000)));
    let long = |joint: &str, count: usize| (nested(16, "true") + joint).repeat(count);
    let item = nested(16, "true");
    lines.push(long(" | ", 13) + &long("|", 13) + &item);
    lines.push(long(" | ", 13) + &item + " |" + &long("|", 12) + &item);
    for length in [1023, 1024, 1025, 5000] {
        lines.extend([times("!", length), times("!", length - 1) + "a", times("(", length)]);
        lines.extend([times("!", length - 2) + "a0", times("a0|", length / 3) + "a0"]);
        lines.push(times("G", length - 2) + "a0");
    }
    lines.into_iter().map(String::into_bytes).collect()
}

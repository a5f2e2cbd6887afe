//! Line endings: bytes 13 and 10 at some lines of a text, and byte 10 alone at
//! each again.

use super::random::Random;

/// The text with a byte 13 before each byte 10 whose number is picked.
pub fn with_returns(text: &[u8], mut picked: impl FnMut(usize) -> bool) -> Vec<u8> {
    let mut returned = Vec::with_capacity(2 * text.len());
    let mut line = 0;
    for byte in text {
        if *byte == 10 {
            returned.extend(picked(line).then_some(13));
            line += 1;
        }
        returned.push(*byte);
    }
    returned
}

/// The text with 13 10 at every line, at one, at all but one, at each by
/// chance, or at each but the last by chance.
pub fn mixed_endings(random: &mut Random, text: &[u8]) -> Vec<u8> {
    let lines = text.iter().filter(|byte| **byte == 10).count();
    let one = random.below(lines + 1);
    match random.below(5) {
        0 => with_returns(text, |_| true),
        1 => with_returns(text, |line| line == one),
        2 => with_returns(text, |line| line != one),
        3 => with_returns(text, |_| random.once_in(2)),
        _ => with_returns(text, |line| line + 1 < lines && random.once_in(2)),
    }
}

/// The text as it is, or with other endings.
pub fn any_endings(random: &mut Random, text: Vec<u8>) -> Vec<u8> {
    if random.once_in(2) {
        mixed_endings(random, &text)
    } else {
        text
    }
}

/// The text with byte 10 for each ending 13 10. Where another 13 stands before
/// it both stay: that line is malformed, and with byte 10 alone it wouldn't be.
pub fn plain_endings(text: &[u8]) -> Vec<u8> {
    let ending = |at: usize| text[at..].starts_with(b"\r\n") && !text[..at].ends_with(b"\r");
    (0..text.len()).filter(|at| !ending(*at)).map(|at| text[at]).collect()
}

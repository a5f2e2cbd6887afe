//! Gauges: thresholds and values in hundredths, and the bits that they make.

use reference::model::{limits, refusal};

/// The thresholds or values of a line, as many as there are gauges.
pub type Numbers = [i32; limits::GAUGES];

/// The gauges of a recording.
#[derive(Default)]
pub struct Gauges {
    /// How many there are.
    pub count: usize,
    atoms: [u32; limits::GAUGES],
    thresholds: Numbers,
    /// The bits of their atoms.
    bits: u32,
}

/// A whole part past every limit stays past it.
const FAR: i32 = 10_000;

/// A sign, digits without leading zeros, a point and two decimals.
pub fn hundredths(field: &[u8]) -> Option<i32> {
    let (negative, digits) = match field {
        [b'-', digits @ ..] => (true, digits),
        digits => (false, digits),
    };
    let [whole @ .., b'.', tenths, rest] = digits else { return None };
    if whole.is_empty() || (whole[0] == b'0' && whole.len() > 1) {
        return None;
    }
    let mut value = 0;
    for byte in whole {
        if !byte.is_ascii_digit() {
            return None;
        }
        value = (value * 10 + i32::from(byte - b'0')).min(FAR);
    }
    if !tenths.is_ascii_digit() || !rest.is_ascii_digit() {
        return None;
    }
    value = value * 100 + i32::from(tenths - b'0') * 10 + i32::from(rest - b'0');
    if negative && value == 0 {
        return None;
    }
    Some(if negative { -value } else { value })
}

/// Is it a number that a threshold or value may be?
fn within(number: i32) -> bool {
    (limits::LEAST as i32..=limits::MOST as i32).contains(&number)
}

impl Gauges {
    /// Takes a gauge line of its form: 6, then 19.
    pub fn take(&mut self, atom: usize, threshold: i32) -> Result<(), u8> {
        if atom >= limits::ATOMS || !within(threshold) {
            return Err(refusal::RECORDING_LIMIT);
        }
        if self.bits >> atom & 1 == 1 {
            return Err(refusal::GAUGE_TWICE);
        }
        self.atoms[self.count] = atom as u32;
        self.thresholds[self.count] = threshold;
        self.bits |= 1 << atom;
        self.count += 1;
        Ok(())
    }

    /// The word with the bits that its values make: 6, then 20.
    pub fn finish(&self, state: u64, values: &Numbers) -> Result<u64, u8> {
        if !values[..self.count].iter().all(|value| within(*value)) {
            return Err(refusal::RECORDING_LIMIT);
        }
        if state & u64::from(self.bits) != 0 {
            return Err(refusal::GAUGE_SET);
        }
        let mut state = state;
        let gauges = self.atoms.iter().zip(&self.thresholds).zip(values);
        for ((atom, threshold), value) in gauges.take(self.count) {
            state |= u64::from(value >= threshold) << atom;
        }
        Ok(state)
    }
}

//! Recordings with gauges: those without, some of whose bits become values.

use super::random::Random;
use super::recordings::RecordingTable;
use super::texts::recording_text;
use crate::model::limits;

/// A recording with gauges, accepted or not.
#[derive(Clone, PartialEq, Eq, Debug)]
pub struct GaugedTable {
    /// What stands in its words, without the gauges' bits.
    pub recording: RecordingTable,
    /// Atom and threshold of each gauge, in hundredths.
    pub gauges: Vec<(usize, i64)>,
    /// The values of each state; there may be fewer or more than the gauges.
    pub values: Vec<Vec<i64>>,
}

/// The least threshold or value, in hundredths.
pub const LEAST: i64 = limits::LEAST as i64;
/// The most.
pub const MOST: i64 = limits::MOST as i64;

/// A number of hundredths as it is spelt.
pub fn spelt(hundredths: i64) -> String {
    let sign = if hundredths < 0 { "-" } else { "" };
    let size = hundredths.unsigned_abs();
    format!("{sign}{}.{:02}", size / 100, size % 100)
}

/// The text of a recording with gauges, accepted or not.
pub fn gauged_text(gauged: &GaugedTable) -> Vec<u8> {
    let plain = String::from_utf8(recording_text(&gauged.recording)).expect("letters and digits");
    let lines: Vec<&str> = plain.lines().collect();
    let (before, states) = lines.split_at(1 + gauged.recording.masks.len());
    let mut text: String = before.iter().map(|line| format!("{line}\n")).collect();
    text.push_str(&gauge_lines(&gauged.gauges));
    for (line, values) in states.iter().zip(&gauged.values) {
        text.push_str(line);
        text.extend(values.iter().map(|value| format!("\t{}", spelt(*value))));
        text.push('\n');
    }
    text.into_bytes()
}

/// The gauge lines.
fn gauge_lines(gauges: &[(usize, i64)]) -> String {
    let line = |(atom, threshold): &(usize, i64)| format!("gauge\t{atom}\t{}\n", spelt(*threshold));
    gauges.iter().map(line).collect()
}

/// A number within the limits: at an end, at or around zero, or any.
pub fn number(random: &mut Random) -> i64 {
    let any = random.between(0, 65_535) as i64 + LEAST;
    random.pick(&[LEAST, LEAST + 1, -1, 0, 1, MOST - 1, MOST, any, any, any, any])
}

/// A value that makes this bit by this threshold: right at it, at the end of
/// the limits, or any between. None is below the least threshold.
fn value(random: &mut Random, threshold: i64, bit: bool) -> i64 {
    let (least, most) = if bit { (threshold, MOST) } else { (LEAST, threshold - 1) };
    let any = least + random.below((most - least + 1) as usize) as i64;
    random.pick(&[least, most, any])
}

/// So many distinct atoms, in any order.
fn atoms(random: &mut Random, count: usize) -> Vec<usize> {
    let mut atoms: Vec<usize> = (0..limits::ATOMS).collect();
    for at in 0..count {
        atoms.swap(at, random.between(at, limits::ATOMS - 1));
    }
    atoms.truncate(count);
    atoms
}

/// A recording with so many gauges which, finished, is this recording.
pub fn gauged_by(random: &mut Random, recording: &RecordingTable, count: usize) -> GaugedTable {
    let atoms = atoms(random, count);
    let has = |word: u64, atom: usize| word >> atom & 1 == 1;
    let always = |atom: usize| recording.states.iter().all(|word| has(*word, atom));
    let threshold = |atom: &usize| {
        let threshold = number(random);
        (*atom, if always(*atom) { threshold } else { threshold.max(LEAST + 1) })
    };
    let gauges: Vec<(usize, i64)> = atoms.iter().map(threshold).collect();
    let measured = |word: &u64| {
        let value = |(atom, threshold): &(usize, i64)| value(random, *threshold, has(*word, *atom));
        gauges.iter().map(value).collect()
    };
    let values = recording.states.iter().map(measured).collect();
    let bits = atoms.iter().fold(0, |bits, atom| bits | 1 << atom);
    let states = recording.states.iter().map(|word| word & !bits).collect();
    GaugedTable { recording: RecordingTable { states, ..recording.clone() }, gauges, values }
}

/// The same with any number of gauges.
pub fn gauged(random: &mut Random, recording: &RecordingTable) -> GaugedTable {
    let count = random.size(1, limits::GAUGES);
    gauged_by(random, recording, count)
}

/// A number at or beyond the limits, or one that a narrower number would take
/// for one within them.
fn beyond(random: &mut Random) -> i64 {
    let wide = [MOST + 1, LEAST - 1, 65_536, -65_536, 1 << 32, (1 << 32) - 1, -(1 << 40), i64::MAX];
    random.pick(&wide)
}

/// Puts a value in place of another, if there is one.
fn put(values: &mut [i64], at: usize, value: i64) {
    if let Some(old) = values.get_mut(at) {
        *old = value;
    }
}

/// One thing of a recording with gauges made wrong: a bit that is already set, a
/// value on the other side of its threshold, a value or threshold beyond the
/// limits, a value too many or missing, an atom twice or beyond its limit, a
/// gauge too many.
fn damage(random: &mut Random, gauged: &mut GaugedTable) {
    let state = random.below(gauged.values.len());
    let gauge = random.below(gauged.gauges.len());
    let (atom, threshold) = gauged.gauges[gauge];
    let values = &mut gauged.values[state];
    match random.below(10) {
        0 | 1 => gauged.recording.states[state] |= 1 << (atom % 64),
        2 => {
            let above = values.get(gauge).is_some_and(|value| *value >= threshold);
            put(values, gauge, if above { threshold - 1 } else { threshold });
        }
        3 => put(values, gauge, beyond(random)),
        4 => values.push(number(random)),
        5 => drop(values.pop()),
        6 => gauged.gauges[gauge].1 = beyond(random),
        7 => gauged.gauges[gauge].0 = random.pick(&[32, 33, 63, 64, 256, 1 << 32, usize::MAX]),
        8 => gauged.gauges.push((random.below(limits::ATOMS), threshold)),
        _ => gauged.gauges[gauge].0 = random.pick(&gauged.gauges).0,
    }
}

/// A recording with gauges that is most of the time refused, for the gauges'
/// sake or for another.
pub fn damaged_gauges(random: &mut Random, recording: &RecordingTable) -> GaugedTable {
    let mut gauged = gauged(random, recording);
    if !gauged.values.is_empty() {
        for _ in 0..random.pick(&[1, 1, 1, 2]) {
            damage(random, &mut gauged);
        }
    }
    gauged
}

/// The text of a recording, as it is or with gauges.
pub fn with_or_without(random: &mut Random, recording: &RecordingTable) -> Vec<u8> {
    match random.below(8) {
        0..=2 => gauged_text(&gauged(random, recording)),
        3 => gauged_text(&damaged_gauges(random, recording)),
        _ => recording_text(recording),
    }
}

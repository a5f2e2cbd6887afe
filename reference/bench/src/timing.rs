//! Interleaved timing: the sides take turns on the same few inputs, and the
//! fastest turn of each side on them counts, for the machine may be shared.

use crate::case::{Side, Timed};
use std::ops::Range;
use std::time::Instant;

/// Turns of each side on the same inputs.
const TURNS: usize = 200;

/// How long a turn should be, in nanoseconds: long for the clock, short for
/// the scheduler.
const TURN: f64 = 200_000.0;

/// How the inputs are shared out to turns: so many at a time, so many times.
struct Share {
    inputs: usize,
    times: usize,
}

/// Nanoseconds that a side takes for these inputs, so many times.
fn turn(case: &mut dyn Timed, side: Side, inputs: Range<usize>, times: usize) -> f64 {
    let start = Instant::now();
    for _ in 0..times {
        case.call(side, inputs.clone());
    }
    start.elapsed().as_nanos() as f64
}

/// Shares for turns of about the wanted length.
fn share(case: &mut dyn Timed) -> Share {
    let all = case.inputs();
    let pass = (0..10).map(|_| turn(case, Side::Proved, 0..all, 1)).fold(f64::MAX, f64::min);
    let calls = (TURN * all as f64 / pass) as usize;
    Share { inputs: calls.clamp(1, all), times: (calls / all).max(1) }
}

/// The fastest turn of each side on each part of the inputs; all other parts
/// come between two turns on the same part.
fn fastest(case: &mut dyn Timed, sides: &[Side], share: &Share) -> Vec<f64> {
    let all = case.inputs();
    let starts: Vec<usize> = (0..all).step_by(share.inputs).collect();
    let mut least = vec![vec![f64::MAX; starts.len()]; sides.len()];
    for round in 0..TURNS {
        for (part, start) in starts.iter().enumerate() {
            let inputs = *start..all.min(start + share.inputs);
            // Each side is first in its turn: the first finds the inputs cold.
            for place in 0..sides.len() {
                let side = (round + place) % sides.len();
                let ns = turn(case, sides[side], inputs.clone(), share.times);
                least[side][part] = least[side][part].min(ns);
            }
        }
    }
    least.iter().map(|parts| parts.iter().sum()).collect()
}

/// Nanoseconds per call of each side of a case.
pub fn time(case: &mut dyn Timed) -> Vec<(Side, f64)> {
    let (share, sides) = (share(case), case.sides());
    let calls = (case.inputs() * share.times) as f64;
    let totals = fastest(case, &sides, &share);
    sides.into_iter().zip(totals.into_iter().map(|total| total / calls)).collect()
}

//! How long a rewritten interlock takes to be judged: rules about the past, by
//! the tables of the library that is linked. `turns.sh` runs two benchmarks,
//! linked with two libraries, in turn.

use crate::case::{Case, Side};
use crate::inputs::TableInput;
use crate::timing;
use ragyvosin::full;
use reference::generate::random::Random;

/// Recordings that each rule is judged over in turn.
const INPUTS: usize = 64;

/// The interlocks, p and q for their atoms; p is own, q is own or foreign.
const RULES: [&str; 4] = ["Y q", "G (p -> Y q)", "G (p -> Y (!p S q))", "G (p -> Y !p S Y q)"];

/// The same interlock so many times over, joined by `&`: 52 nodes.
const MANY: usize = 4;

/// Prints nodes and nanoseconds of judging over 128 states by the table of a
/// rule.
fn line(rule: &str, shown: &str, own: bool, short: bool) {
    let mut random = Random::new(8);
    let inputs: Vec<TableInput> =
        (0..INPUTS).map(|_| TableInput::interlock(&mut random, rule, own, short)).collect();
    let nodes = inputs[0].table().count;
    let mut case = Case {
        name: shown.to_string(),
        inputs,
        lent: vec![0; full::ROW_WORDS],
        sides: vec![(Side::Proved, |i: &TableInput, l: &mut Vec<u64>| {
            ragyvosin::judge_recording(i.table(), i.recording(), i.c, l)
        })],
    };
    let ns = timing::time(&mut case)[0].1;
    let (q, table) = (if own { "own" } else { "foreign" }, if short { "short" } else { "plain" });
    println!("{shown}\t{q}\t{table}\t{nodes}\t{ns:.0}");
}

/// A line for each interlock, q own and foreign, by the plain and the short
/// table.
pub fn time() {
    let [.., last] = RULES;
    let inner = &last[2..];
    let many = format!("G ({})", [inner; MANY].join(" & "));
    let shown = format!("{MANY} of the last");
    let rules = RULES.map(|rule| (rule, rule)).into_iter().chain([(&many[..], &shown[..])]);
    for (rule, shown) in rules {
        for own in [true, false] {
            for short in [false, true] {
                line(rule, shown, own, short);
            }
        }
    }
}

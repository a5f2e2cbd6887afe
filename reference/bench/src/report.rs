//! The table of `docs/PERFORMANCE.md`.

use crate::case::Side;
use crate::cases::Plan;

/// Instructions per call, as `count.sh` writes them.
pub struct Counts {
    lines: Vec<String>,
}

impl Counts {
    pub fn none() -> Counts {
        Counts { lines: Vec::new() }
    }

    pub fn of_file(path: &str) -> Counts {
        let text = std::fs::read_to_string(path).expect("a file of counts");
        Counts { lines: text.lines().map(String::from).collect() }
    }

    /// The count of a side, or a dash.
    fn get(&self, plan: Plan, side: Side) -> String {
        let start = format!("{}\t{}\t{}\t", plan.operation, plan.size(), side.name());
        let count = self.lines.iter().find_map(|line| line.strip_prefix(&start));
        count.map_or("-".into(), |count| thousands(count.parse().expect("a count")))
    }
}

/// A number with a comma before every three digits.
fn thousands(number: u64) -> String {
    let digits = number.to_string();
    let mut text = String::new();
    for (place, digit) in digits.chars().enumerate() {
        if place > 0 && (digits.len() - place).is_multiple_of(3) {
            text.push(',');
        }
        text.push(digit);
    }
    text
}

/// The largest ratio that is wanted.
fn target(plan: Plan, side: Side) -> f64 {
    let judges = [
        "judge_recording",
        "judge_rewritten",
        "judge_local",
        "project",
        "session_verdicts",
        "session",
    ];
    match side {
        Side::Tuned => 1.3,
        Side::JudgeLocal if plan.operation == "session_verdicts" => 1.05,
        Side::JudgeLocal if plan.operation == "replace_rule" => 1.0,
        Side::JudgeLocal => 10.0,
        Side::OneState | Side::RuleAlone => 2.0,
        _ if judges.contains(&plan.operation) => 1.0,
        _ => 1.5,
    }
}

const COLUMNS: [&str; 10] = [
    "operation",
    "size",
    "against",
    "proved ns",
    "by hand ns",
    "ratio",
    "proved instructions",
    "by hand instructions",
    "target",
    "",
];

pub fn heading() {
    println!("| {} |", COLUMNS.join(" | "));
    println!("|---|---|---|--:|--:|--:|--:|--:|--:|---|");
}

/// A line for each side but the proved one, which comes first.
pub fn lines(plan: Plan, times: &[(Side, f64)], counts: &Counts) {
    let (proved, proved_ns) = times[0];
    for (side, ns) in &times[1..] {
        let (ratio, target) = (proved_ns / ns, target(plan, *side));
        let verdict = if ratio <= target { "met" } else { "missed" };
        println!(
            "| {} | {} | {} | {} | {} | {ratio:.2} | {} | {} | {target:?} | {verdict} |",
            plan.operation,
            plan.size(),
            side.name(),
            thousands(proved_ns.round() as u64),
            thousands(ns.round() as u64),
            counts.get(plan, proved),
            counts.get(plan, *side),
        );
    }
}

//! Times the proved library against the same operations written by hand.
//!
//! `bench` compares all sides and then times them in one run; with the file
//! that `count.sh` writes it reports instructions too. `bench --compare` only
//! compares. `bench --only OPERATION` compares and times one operation.
//! `bench --count OPERATION SIZE SIDE PASSES` only calls one side,
//! for a profiler that counts instructions; `bench --list` lists what it takes.
//! `bench --interlocks` times judging by rewritten interlocks, for `turns.sh`.

mod case;
mod cases;
mod hand;
mod inputs;
mod interlocks;
mod report;
mod sessions;
mod timing;

use report::Counts;

/// Asserts that all sides agree, on refused inputs too.
fn compare() {
    for plan in cases::any().into_iter().chain(cases::sized()) {
        plan.build().assert_agreement();
    }
}

/// Times all sides and prints the table.
fn time(counts: Counts) {
    report::heading();
    for plan in cases::sized() {
        let times = timing::time(plan.build().as_mut());
        report::lines(plan, &times, &counts);
    }
}

/// Compares and times the sides of one operation.
fn only(operation: &str) {
    let concerned = |plan: &cases::Plan| plan.operation == operation;
    for plan in cases::any().into_iter().chain(cases::sized()).filter(concerned) {
        plan.build().assert_agreement();
    }
    report::heading();
    for plan in cases::sized().into_iter().filter(concerned) {
        report::lines(plan, &timing::time(plan.build().as_mut()), &Counts::none());
    }
}

/// Lists what `--count` takes.
fn list() {
    for plan in cases::sized() {
        for side in plan.build().sides() {
            println!("{}\t{}\t{}", plan.operation, plan.size(), side.name());
        }
    }
}

/// Calls one side of one case so many times for each input.
fn count(operation: &str, size: &str, side: &str, passes: usize) {
    let mut plans = cases::sized().into_iter();
    let plan = plans.find(|plan| plan.operation == operation && plan.size() == size);
    let mut case = plan.expect("an operation and a size of the benchmark").build();
    let side = case.sides().into_iter().find(|one| one.name() == side).expect("a side of the case");
    for _ in 0..passes {
        case.call(side, 0..case.inputs());
    }
}

fn main() {
    let arguments: Vec<String> = std::env::args().skip(1).collect();
    let words: Vec<&str> = arguments.iter().map(String::as_str).collect();
    match words[..] {
        ["--compare"] => compare(),
        ["--list"] => list(),
        ["--only", operation] => only(operation),
        ["--interlocks"] => interlocks::time(),
        ["--count", operation, size, side, passes] => {
            count(operation, size, side, passes.parse().expect("a number of passes"));
        }
        [] | [_] => {
            compare();
            time(words.first().map_or(Counts::none(), |path| Counts::of_file(path)));
        }
        _ => panic!(
            "usage: bench [COUNTS | --compare | --list | --interlocks | --only OPERATION | \
             --count OPERATION SIZE SIDE PASSES]"
        ),
    }
}

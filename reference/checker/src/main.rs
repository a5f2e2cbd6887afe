//! Compares every answer and every lent entry of every operation of the proved
//! library, and the output of the program, with the reference model.
//!
//! The first difference ends the run with exit status 1 and the whole input.

#![forbid(unsafe_code)]
#![warn(missing_docs)]

mod archive;
mod beginnings;
mod caught;
mod check;
mod difference;
mod early;
mod endings;
mod evidence;
mod expected;
mod gauges;
mod growth;
mod input;
mod last_state;
mod lent;
mod library;
mod lines;
mod misread;
mod misrewrite;
mod misstep;
mod of_eight;
mod options;
mod outcome;
mod plan;
mod program;
mod reused;
mod sampled;
mod sections;
mod sessions;
mod small;
mod tally;
mod texts;
mod trials;
mod work;
mod wrong;

use std::env;
use std::process::ExitCode;
use std::time::Instant;

use options::Options;
use plan::Plan;
use tally::{Section, Tally};
use wrong::WrongAnswer;

/// Runs the sections and prints what each compared.
fn compare(options: &Options) -> Result<Tally, String> {
    let seed = options.seed;
    let plan = if options.long { Plan::long(seed) } else { Plan::ordinary(seed) };
    let wrong = WrongAnswer::new(options.wrong);
    let mut total = Tally::default();
    for section in &options.sections {
        let start = Instant::now();
        let failed = |difference| format!("{}: {difference}", section.name());
        let tally = sections::run(*section, &plan, &wrong).map_err(failed)?;
        print!("{tally}");
        println!("{:8} {:.1} s", section.name(), start.elapsed().as_secs_f64());
        total.merge(&tally);
    }
    Ok(total)
}

/// Prints what a run without a difference compared. A wrong answer that made
/// no difference is a failure, and so is a number that no input met.
fn report(options: &Options, tally: &Tally) -> Result<(), String> {
    print!("{}", tally.numbers());
    if let Some(wrong) = options.wrong {
        return Err(format!("the wrong answer {} made no difference", wrong.name()));
    }
    let unmet = tally.unmet();
    if options.sections == Section::ALL && !unmet.is_empty() {
        return Err(format!("no input met {}", unmet.join(", ")));
    }
    Ok(())
}

/// The whole run: the comparisons, then the wrong answers.
fn run(options: &Options) -> Result<(), String> {
    let runs_program = options.sections.contains(&Section::Program);
    if let Some(why) = program::missing().filter(|_| runs_program) {
        return Err(why);
    }
    println!("seed {}", options.seed);
    if options.show_caught {
        let caught = caught::all(options.seed, &options.sections)?;
        println!("checker: {caught} wrong answers caught");
        return Ok(());
    }
    let tally = compare(options)?;
    report(options, &tally)?;
    let caught = caught::all(options.seed, &options.sections)?;
    let total = tally.total();
    println!("checker: {} entries beside the answers", total.entries);
    println!("checker: {caught} wrong answers caught");
    println!("checker: {} comparisons, 0 differences", total.inputs);
    Ok(())
}

fn main() -> ExitCode {
    let options = match Options::read(env::args().skip(1)) {
        Ok(options) => options,
        Err(message) => {
            eprintln!("{message}");
            return ExitCode::from(2);
        }
    };
    match run(&options) {
        Ok(()) => ExitCode::SUCCESS,
        Err(message) => {
            println!("{message}");
            println!("checker: failed");
            ExitCode::FAILURE
        }
    }
}

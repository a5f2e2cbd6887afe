//! Inputs of the program `rule`.

use reference::generate::endings::any_endings;
use reference::generate::lines;
use reference::generate::random::Random;
use reference::model::limits::{CONTROLLERS, PROGRAM_INPUT};

use crate::check::Check;
use crate::difference::Difference;
use crate::plan::Plan;
use crate::program::{listed, random, require, Expected, RULE};
use crate::tally::Operation;
use crate::work::Job;
use crate::wrong::Place;

/// The line of the request for rules in one line, against the nodes that it
/// names, with either ending.
fn typed_example(check: &mut Check) -> Result<(), Difference> {
    let text = "rule 0 9\ntrue\natom 1\nnot 1\natom 0\nnext 3\nor 2 4\nnot 5\nuntil 0 6\nnot 7\n";
    let text = text.replace(' ', "\t").into_bytes();
    let mut expected = Expected { output: text, errors: Vec::new() };
    if check.wrong(Operation::RuleProgram, Place::Named) {
        expected.output[5] ^= 1;
    }
    require(check, RULE, b"0\tG (a1 -> X a0)\n", &expected, &[])?;
    require(check, RULE, b"0\tG (a1 -> X a0)\r\n", &expected, &[])
}

/// Inputs that are or aren't one line of a controller and a rule; inputs of
/// any length.
fn typed_edges() -> Vec<Vec<u8>> {
    let returned = ["0\ta0\r\n", "0\ta0\r\r\n", "0\ta0\r", "0\r\ta0\r\n", "0\r\n", "\r\n"];
    let odd = ["", "\n", "0", "0\n", "0\ta0", "a0\n", "0 a0\n", "00\ta0\n", "\ta0\n", "0\ta0\n\n"];
    let more =
        ["0\ta0\na", "0\t\n", "11\ta0\n", "65536\ta0\n", "99999999999999999999\ta0\n", "11\t(\n"];
    let mut inputs: Vec<Vec<u8>> =
        returned.iter().chain(&odd).chain(&more).map(|input| input.as_bytes().to_vec()).collect();
    for length in [PROGRAM_INPUT + 1, PROGRAM_INPUT, PROGRAM_INPUT - 1, 70_000] {
        for byte in [b'(', b'\n', b'9'] {
            inputs.push([&vec![byte; length - 2][..], b"\r\n"].concat());
            inputs.push(vec![byte; length]);
        }
    }
    inputs.extend(lines::edges().iter().map(|line| typed(7, line)));
    inputs
}

/// The input of the program `rule`.
fn typed(controller: usize, line: &[u8]) -> Vec<u8> {
    [format!("{controller}\t").as_bytes(), line, b"\n"].concat()
}

/// A line of any kind, with damage now and then.
fn any_input(random: &mut Random) -> Vec<u8> {
    let line = lines::any_line(random);
    let input = typed(random.below(CONTROLLERS + 1), &line);
    let input = any_endings(random, input);
    if random.once_in(8) {
        return lines::damaged(random, &input);
    }
    input
}

/// All runs of the program.
pub fn jobs(plan: &Plan) -> Vec<Job<'_>> {
    let mut jobs: Vec<Job> = vec![Box::new(typed_example)];
    jobs.extend(listed(RULE, typed_edges()));
    jobs.extend(random(plan, RULE, plan.program_runs, any_input));
    jobs
}

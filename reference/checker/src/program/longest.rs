//! Inputs of the program `longest`.

use reference::generate::endings::any_endings;
use reference::generate::random::Random;
use reference::generate::texts::{self, NUMBERS};
use reference::model::limits::PROGRAM_INPUT;

use crate::check::Check;
use crate::difference::Difference;
use crate::plan::Plan;
use crate::program::{listed, random, require, Expected, LONGEST};
use crate::tally::Operation;
use crate::work::Job;
use crate::wrong::Place;

/// The rule that the request names, for n = 4, with either ending.
fn example(check: &mut Check) -> Result<(), Difference> {
    let text = "rule 0 4\natom 0\nuntil 0 0\nuntil 0 0\nuntil 0 0\n";
    let output = text.replace(' ', "\t").into_bytes();
    let mut expected = Expected { output, errors: Vec::new() };
    if check.wrong(Operation::LongestProgram, Place::Named) {
        expected.output[5] ^= 1;
    }
    require(check, LONGEST, b"4\n", &expected, &[])?;
    require(check, LONGEST, b"4\r\n", &expected, &[])?;
    require(check, LONGEST, b"4\r\n", &expected, &[1, 1])
}

/// Every n up to twice its limit, numbers that a narrower one would take for a
/// small one, other forms, and inputs at the limit of their size.
fn edges() -> Vec<Vec<u8>> {
    let odd: [&[u8]; 22] = [
        b"", b"\n", b"\r\n", b"5", b"64", b"5\r", b"5\n\n", b"5\n6\n", b"5\n6", b"\n5\n",
        b"5\r\r\n", b"\r5\n", b"00\n", b"01\n", b"065\n", b" 5\n", b"5 \n", b"5\t\n", b"\t5\n",
        b"+5\n", b"-5\n", b"5x\n",
    ];
    let mut inputs: Vec<Vec<u8>> = odd.iter().map(|input| input.to_vec()).collect();
    let small = (0..=130).map(|n| n.to_string());
    let limits = NUMBERS.iter().map(|number| number.to_string());
    let wrapped = [8, 16, 31, 32, 63, 64, 127].map(|bits| ((1u128 << bits) + 5).to_string());
    for number in small.chain(limits).chain(wrapped) {
        inputs.push(format!("{number}\n").into_bytes());
        inputs.push(format!("{number}\r\n").into_bytes());
    }
    for length in [PROGRAM_INPUT - 1, PROGRAM_INPUT, PROGRAM_INPUT + 1, 70_000] {
        for byte in [b'0', b'5', b'\n', b'\r', 0] {
            inputs.push(vec![byte; length]);
            inputs.push([&vec![byte; length - 1][..], b"\n"].concat());
            inputs.push([&vec![byte; length - 2][..], b"\r\n"].concat());
            inputs.push([b"5\n", &vec![byte; length - 2][..]].concat());
        }
    }
    inputs
}

/// A decimal line now and then of many digits, with damage, or any bytes.
fn any_input(random: &mut Random) -> Vec<u8> {
    let digits = random.pick(&[1, 2, 2, 2, 3, 20, 400]);
    let number = match random.below(3) {
        0 => random.between(1, 64).to_string(),
        1 => random.beyond(64).to_string(),
        _ => (0..digits).map(|_| char::from(b'0' + random.below(10) as u8)).collect(),
    };
    let line = any_endings(random, format!("{number}\n").into_bytes());
    match random.below(6) {
        0 => texts::any_bytes(random),
        1 | 2 => texts::damaged(random, &line),
        _ => line,
    }
}

/// All runs of the program.
pub fn jobs(plan: &Plan) -> Vec<Job<'_>> {
    let mut jobs: Vec<Job> = vec![Box::new(example)];
    jobs.extend(listed(LONGEST, edges()));
    jobs.extend(random(plan, LONGEST, plan.program_runs / 4, any_input));
    jobs
}

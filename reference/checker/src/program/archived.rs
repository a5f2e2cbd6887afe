//! Inputs of the programs `archive` and `unarchive`.

use reference::generate::endings::{any_endings, with_returns};
use reference::generate::random::Random;
use reference::generate::recordings;
use reference::generate::texts::{any_bytes, any_recording_text, damaged, recording_text};
use reference::model::archive::write_archive;
use reference::model::limits::{CONTROLLERS, PROGRAM_INPUT, STATES};
use reference::model::text::read_recording;

use crate::check::Check;
use crate::difference::Difference;
use crate::plan::Plan;
use crate::program::{listed, random, require, Expected, Program, ARCHIVE, UNARCHIVE};
use crate::trials::recording_r;
use crate::work::Job;
use crate::wrong::Place;

/// The example's recording text, and its archive text.
fn examples() -> [Vec<u8>; 2] {
    let recording = recording_text(&recording_r());
    let archive = write_archive(&read_recording(&recording).expect("an accepted recording"));
    [recording, archive]
}

/// The example of one text is the other, with either ending, and in pieces.
fn example(
    check: &mut Check,
    program: Program,
    [from, to]: [Vec<u8>; 2],
) -> Result<(), Difference> {
    let mut expected = Expected { output: to, errors: Vec::new() };
    if check.wrong(program.operation, Place::Named) {
        expected.output[5] ^= 1;
    }
    require(check, program, &from, &expected, &[])?;
    require(check, program, &from, &expected, &[1, 40])?;
    require(check, program, &with_returns(&from, |_| true), &expected, &[])
}

/// The texts cut after each line, with a line too many, and inputs at the limit
/// of their size.
fn edges(text: &[u8]) -> Vec<Vec<u8>> {
    let mut inputs: Vec<Vec<u8>> = examples().to_vec();
    let ends = (0..=text.len()).filter(|at| *at == 0 || text[at - 1] == b'\n');
    inputs.extend(ends.map(|at| text[..at].to_vec()));
    inputs.extend([&b"x"[..], b"gauge\t3\t1.00\n", b"\n"].map(|line| [text, line].concat()));
    for length in [PROGRAM_INPUT - 1, PROGRAM_INPUT, PROGRAM_INPUT + 1, 70_000] {
        for byte in [b'0', b'\n', b'\r', 0] {
            inputs.push(vec![byte; length]);
            inputs.push([text, &vec![byte; length - text.len()]].concat());
        }
    }
    inputs
}

/// A recording text or an archive text, with any endings, now and then damaged,
/// or any bytes.
fn any_input(random: &mut Random) -> Vec<u8> {
    let recording = recording_text(&recordings::recording(random, CONTROLLERS, STATES));
    let archive = write_archive(&read_recording(&recording).expect("an accepted recording"));
    let text = if random.once_in(2) { recording } else { archive };
    let text = any_endings(random, text);
    match random.below(6) {
        0 => any_bytes(random),
        1 => any_recording_text(random, CONTROLLERS, STATES),
        2 | 3 => damaged(random, &text),
        _ => text,
    }
}

/// The runs of one of them, of which this is the example.
fn jobs(plan: &Plan, program: Program, texts: [Vec<u8>; 2]) -> Vec<Job<'_>> {
    let edges = edges(&texts[0]);
    let mut jobs: Vec<Job> = vec![Box::new(move |check| example(check, program, texts.clone()))];
    jobs.extend(listed(program, edges));
    jobs.extend(random(plan, program, plan.program_runs / 4, any_input));
    jobs
}

/// All runs of `archive`.
pub fn there(plan: &Plan) -> Vec<Job<'_>> {
    jobs(plan, ARCHIVE, examples())
}

/// All runs of `unarchive`.
pub fn back(plan: &Plan) -> Vec<Job<'_>> {
    let [recording, archive] = examples();
    jobs(plan, UNARCHIVE, [archive, recording])
}

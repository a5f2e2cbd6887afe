//! The programs themselves, through their standard input.

mod archived;
mod asked;
mod judged;
mod longest;
pub mod misprint;
pub mod miswatched;
mod typed;
mod watched;

use std::env;
use std::io::{self, Read, Write};
use std::path::{Path, PathBuf};
use std::process::{Child, Command, ExitStatus, Output, Stdio};
use std::thread::{self, JoinHandle};
use std::time::{Duration, Instant};

use reference::generate::random::Random;
use reference::model::{
    archive, longest_program, program, program_says, rule_program, watching, why,
};

use crate::check::Check;
use crate::difference::Difference;
use crate::misread;
use crate::outcome::first_difference;
use crate::plan::Plan;
use crate::tally::{Operation, Section};
use crate::work::Job;
use crate::wrong::{Place, WrongAnswer};

/// A program: what it is counted as, its binary's name, the variable that
/// names another binary, and the model's output.
#[derive(Clone, Copy)]
struct Program {
    operation: Operation,
    name: &'static str,
    variable: &'static str,
    model: fn(&[u8]) -> Vec<u8>,
    says: fn(&[u8]) -> Vec<u8>,
}

/// The program of document 01.
const JUDGE: Program = Program {
    operation: Operation::Program,
    name: "judge",
    variable: "RAGYVOSIN_JUDGE",
    model: program,
    says: program_says,
};

/// The program that makes a rule text of a rule in one line.
const RULE: Program = Program {
    operation: Operation::RuleProgram,
    name: "rule",
    variable: "RAGYVOSIN_RULE",
    model: rule_program,
    says: |_| Vec::new(),
};

/// The program that prints the readings behind a verdict.
const WHY: Program = Program {
    operation: Operation::WhyProgram,
    name: "why",
    variable: "RAGYVOSIN_WHY",
    model: why::program,
    says: why::says,
};

/// The program that prints the rule that grows most.
const LONGEST: Program = Program {
    operation: Operation::LongestProgram,
    name: "longest",
    variable: "RAGYVOSIN_LONGEST",
    model: longest_program,
    says: |_| Vec::new(),
};

/// The program that follows a session.
const WATCH: Program = Program {
    operation: Operation::WatchProgram,
    name: "watch",
    variable: "RAGYVOSIN_WATCH",
    model: watching::program,
    says: |_| Vec::new(),
};

/// The program that makes an archive text.
const ARCHIVE: Program = Program {
    operation: Operation::ArchiveProgram,
    name: "archive",
    variable: "RAGYVOSIN_ARCHIVE",
    model: archive::print_archive,
    says: archive::archive_says,
};

/// The program that makes a recording text of an archive text.
const UNARCHIVE: Program = Program {
    operation: Operation::UnarchiveProgram,
    name: "unarchive",
    variable: "RAGYVOSIN_UNARCHIVE",
    model: archive::print_recording,
    says: archive::recording_says,
};

/// Makes the runs of a program.
type Runs = fn(&Plan) -> Vec<Job<'_>>;

/// All programs, each with its runs.
const PROGRAMS: [(Program, Runs); 7] = [
    (JUDGE, judged::jobs),
    (RULE, typed::jobs),
    (WHY, asked::jobs),
    (LONGEST, longest::jobs),
    (WATCH, watched::jobs),
    (ARCHIVE, archived::there),
    (UNARCHIVE, archived::back),
];

/// Runs of one job.
const RUNS: usize = 25;

/// How long a run may take.
const LIMIT: Duration = Duration::from_secs(60);

impl Program {
    /// Where the program's binary is to be.
    fn binary(self) -> PathBuf {
        let crates = Path::new(env!("CARGO_MANIFEST_DIR")).join("../../crates");
        let built = crates.join(self.name).join("out").join(self.name);
        env::var_os(self.variable).map_or(built, PathBuf::from)
    }

    /// Why the program can't be run, if it can't.
    fn missing(self) -> Option<String> {
        let (binary, variable) = (self.binary(), self.variable);
        let path = binary.display();
        let why = format!("the program {path} is missing: build it, or name it in {variable}");
        (!binary.is_file()).then_some(why)
    }
}

/// Why the programs can't be run, if one can't.
pub fn missing() -> Option<String> {
    PROGRAMS.into_iter().find_map(|(program, _)| program.missing())
}

/// Writes the input in pieces of these sizes, the last of all that is left;
/// a pause lets the program read each alone. It may stop reading early, at
/// 14, so a closed pipe is no fault.
fn feed(child: &mut Child, input: &[u8], pieces: &[usize]) -> io::Result<()> {
    let mut pipe = child.stdin.take().expect("a pipe");
    let mut rest = input;
    for size in pieces {
        let (piece, after) = rest.split_at(rest.len().min(*size));
        pipe.write_all(piece)?;
        thread::sleep(Duration::from_millis(1));
        rest = after;
    }
    pipe.write_all(rest)
}

/// Reads all of a stream while the program runs: its output may be longer than
/// a pipe holds.
fn drain(mut stream: impl Read + Send + 'static) -> JoinHandle<io::Result<Vec<u8>>> {
    thread::spawn(move || {
        let mut bytes = Vec::new();
        stream.read_to_end(&mut bytes).map(|_| bytes)
    })
}

/// Waits for the program's end, not for ever.
fn wait(child: &mut Child) -> io::Result<ExitStatus> {
    let start = Instant::now();
    loop {
        if let Some(status) = child.try_wait()? {
            return Ok(status);
        }
        if start.elapsed() > LIMIT {
            child.kill()?;
            return Err(io::Error::other("the program doesn't end"));
        }
        thread::sleep(Duration::from_micros(100));
    }
}

/// Runs the program on an input.
fn run(program: Program, input: &[u8], pieces: &[usize]) -> io::Result<Output> {
    let mut command = Command::new(program.binary());
    command.stdin(Stdio::piped()).stdout(Stdio::piped()).stderr(Stdio::piped());
    let mut child = command.spawn()?;
    let output = drain(child.stdout.take().expect("a pipe"));
    let errors = drain(child.stderr.take().expect("a pipe"));
    if let Err(error) = feed(&mut child, input, pieces) {
        if error.kind() != io::ErrorKind::BrokenPipe {
            return Err(error);
        }
    }
    let status = wait(&mut child)?;
    let [stdout, stderr] = [output, errors].map(|stream| stream.join().expect("no panic"));
    Ok(Output { status, stdout: stdout?, stderr: stderr? })
}

/// What the program is to write: to standard output and to standard error.
#[derive(Clone, PartialEq, Eq)]
struct Expected {
    output: Vec<u8>,
    errors: Vec<u8>,
}

impl Expected {
    /// What the model says that a program is to write.
    fn of(program: Program, input: &[u8]) -> Expected {
        Expected { output: (program.model)(input), errors: (program.says)(input) }
    }

    /// Expects what a wrong reader of line endings writes, if it belongs here
    /// and is another refusal or another line.
    fn misread(&mut self, check: &Check, program: Program, input: &[u8]) {
        let Some(Place::Misread(misreading)) = check.place(program.operation) else { return };
        let misread = Expected::of(program, &misread::program_input(misreading, input));
        let output = misread::printed_line(misreading, input, misread.output);
        let misread = Expected { output, ..misread };
        let differs = if misread.errors == self.errors {
            misread.output != self.output
        } else {
            refusal(&misread.output) != refusal(&self.output)
        };
        if differs && check.wrong(program.operation, Place::Misread(misreading)) {
            *self = misread;
        }
    }

    /// Expects what a wrong printer writes, if it belongs here and is something
    /// else.
    fn misprint(&mut self, check: &Check, program: Program, input: &[u8]) {
        let Some(Place::Misprint(misprint)) = check.place(program.operation) else { return };
        let misprinted = misprint.of(input, self);
        if misprinted != *self && check.wrong(program.operation, Place::Misprint(misprint)) {
            *self = misprinted;
        }
    }
}

/// Sizes of the pieces that some inputs arrive in.
fn some_pieces(random: &mut Random, input: &[u8]) -> Vec<usize> {
    match random.below(4) {
        0 => (0..random.between(1, 4)).map(|_| random.below(input.len() + 1)).collect(),
        _ => Vec::new(),
    }
}

/// Where a stream differs from the expected one, in words.
fn difference(stream: &str, expected: &[u8], found: &[u8]) -> Option<String> {
    let quoted = format!("expected \"{}\"", expected.escape_ascii());
    let quoted = format!("{quoted}, found \"{}\"", found.escape_ascii());
    if let Some((at, _, _)) = first_difference(expected, found) {
        return Some(format!("{stream} byte {at}: {quoted}"));
    }
    (expected.len() != found.len()).then(|| format!("{stream} length: {quoted}"))
}

/// Where a run differs from the expected one, in words.
fn run_difference(expected: &Expected, output: &Output) -> Option<String> {
    let killed = output.status.code().is_none();
    difference("output", &expected.output, &output.stdout)
        .or_else(|| difference("errors", &expected.errors, &output.stderr))
        .or_else(|| killed.then(|| format!("the end of the program: {output:?}")))
}

/// Compares all that the program writes with what is expected.
fn require(
    check: &mut Check,
    program: Program,
    input: &[u8],
    expected: &Expected,
    pieces: &[usize],
) -> Result<(), Difference> {
    let failed = |place| {
        let input = format!("{} b\"{}\", in pieces {pieces:?}", program.name, input.escape_ascii());
        Difference::new(place, input)
    };
    let output =
        run(program, input, pieces).map_err(|error| failed(format!("running: {error}")))?;
    check.count(program.operation, 1, output.stdout.len() as u64);
    for answer in answers(program, &expected.output) {
        check.tally.met(program.operation, refusal(answer));
    }
    run_difference(expected, &output).map_or(Ok(()), |place| Err(failed(place)))
}

/// The answers of an output: all of it, or of `watch` each line.
fn answers(program: Program, output: &[u8]) -> Vec<&[u8]> {
    match program.operation {
        Operation::WatchProgram => output.split_inclusive(|byte| *byte == b'\n').collect(),
        _ => vec![output],
    }
}

/// The refusal number of an output, 0 if it isn't a refusal.
fn refusal(output: &[u8]) -> u8 {
    let number = output.strip_prefix(b"refused\t").unwrap_or_default();
    let digits = number.iter().take_while(|byte| byte.is_ascii_digit());
    digits.fold(0, |number, digit| number * 10 + (digit - b'0'))
}

/// Compares the program with the model on an input.
fn compare(
    check: &mut Check,
    program: Program,
    input: &[u8],
    pieces: &[usize],
) -> Result<(), Difference> {
    let mut expected = Expected::of(program, input);
    expected.misread(check, program, input);
    expected.misprint(check, program, input);
    if check.wrong(program.operation, Place::Content) {
        expected.output[0] ^= 1;
    }
    if check.wrong(program.operation, Place::Length) {
        expected.output.pop();
    }
    if check.wrong(program.operation, Place::Line) {
        expected.errors.push(10);
    }
    require(check, program, input, &expected, pieces)
}

/// Runs of a program on some inputs, so many in each job.
fn listed<'a>(program: Program, inputs: Vec<Vec<u8>>) -> Vec<Job<'a>> {
    let mut jobs: Vec<Job> = Vec::new();
    for inputs in inputs.chunks(RUNS) {
        let inputs = inputs.to_vec();
        jobs.push(Box::new(move |check| {
            inputs.iter().try_for_each(|input| compare(check, program, input, &[]))
        }));
    }
    jobs
}

/// Random runs of a program, so many in each job; some in pieces.
fn random<'a>(
    plan: &'a Plan,
    program: Program,
    runs: usize,
    input: fn(&mut Random) -> Vec<u8>,
) -> Vec<Job<'a>> {
    let first = (program.operation as usize) << 20;
    let job = move |number| -> Job<'a> {
        Box::new(move |check| {
            let mut random = plan.random(Section::Program, first + number);
            for _ in 0..RUNS.min(runs) {
                let input = input(&mut random);
                let pieces = some_pieces(&mut random, &input);
                compare(check, program, &input, &pieces)?;
            }
            Ok(())
        })
    };
    (0..runs.div_ceil(RUNS)).map(job).collect()
}

/// All runs of the programs, or of the one that is expected to answer wrongly.
pub fn jobs<'a>(plan: &'a Plan, wrong: &WrongAnswer) -> Vec<Job<'a>> {
    let concerned = |(program, _): &(Program, Runs)| wrong.concerns(program.operation);
    PROGRAMS.into_iter().filter(concerned).flat_map(|(_, runs)| runs(plan)).collect()
}

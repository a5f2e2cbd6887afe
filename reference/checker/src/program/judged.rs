//! Inputs of the program of document 01.

use reference::generate::endings::{any_endings, with_returns};
use reference::generate::gauge_trials::{text, TRIALS};
use reference::generate::gauges::{gauged_by, gauged_text, with_or_without, LEAST};
use reference::generate::random::Random;
use reference::generate::recordings::RecordingTable;
use reference::generate::texts::{self, program_input, recording_text, rule_text};
use reference::generate::{recordings, rules};
use reference::model::limits::{CONTROLLERS, GAUGES, PROGRAM_INPUT, RULE_NODES, STATES};
use reference::model::longest_rule;
use reference::model::text::write_rule;

use crate::check::Check;
use crate::difference::Difference;
use crate::plan::Plan;
use crate::program::{listed, random, require, Expected, JUDGE};
use crate::tally::Operation;
use crate::trials::{example_rule, marked_r, recording_r};
use crate::work::Job;
use crate::wrong::Place;

/// The example of document 01, against the output that it names.
fn example(check: &mut Check) -> Result<(), Difference> {
    let input = program_input(&rule_text(&example_rule()), &recording_text(&recording_r()));
    let output = "local 3\nown yes no\nplain 55 yes no\nshort 43 yes no\n".replace(' ', "\t");
    let mut expected = Expected { output: output.into_bytes(), errors: Vec::new() };
    if check.wrong(Operation::Program, Place::Named) {
        expected.output[6] ^= 1;
    }
    require(check, JUDGE, &input, &expected, &[])?;
    let bytewise = vec![1; input.len()];
    require(check, JUDGE, &input, &expected, &bytewise)?;
    let returned = with_returns(&input, |_| true);
    let between_13_and_10 = [b"rule\t0\t9\r".len()];
    require(check, JUDGE, &returned, &expected, &[])?;
    require(check, JUDGE, &returned, &expected, &between_13_and_10)
}

/// Inputs whose lines end in 13 10: the example's, with a line refused, too
/// many or unclosed, with every other ending, and too long only as it came.
pub fn ending_edges() -> Vec<Vec<u8>> {
    let (rule, recording) = (rule_text(&example_rule()), recording_text(&recording_r()));
    let returned = with_returns(&program_input(&rule, &recording), |_| true);
    let mut inputs = vec![
        with_returns(&program_input(&rule, &recording), |line| line % 2 == 0),
        with_returns(&program_input(&rule, &recording), |line| line % 2 == 1),
        with_returns(&program_input(b"rule\t2\t1\ntrue\n", &recording), |_| true),
        [&returned[..], b"x\r\n"].concat(),
        [&returned[..], b"x\r"].concat(),
        [&returned[..returned.len() - 1], b"\r\n"].concat(),
        returned[..returned.len() - 1].to_vec(),
        returned[..returned.len() - 2].to_vec(),
        [&rule[..], b"-\r"].concat(),
        b"rule\t0\t2\r\ntrue\r\nfoo\t1\r\n".to_vec(),
        b"rule\t0\t2\r\ntrue\r\nfoo\t1\r\r\n".to_vec(),
        b"rule\t0\t1\r\ntrue\r".to_vec(),
        b"rule\t0\t1\rtrue\r-\rrecording\t1\t1\r".to_vec(),
    ];
    for length in PROGRAM_INPUT - 1..=PROGRAM_INPUT + 2 {
        for byte in [10, 13, 97] {
            let mut long = returned.clone();
            long.resize(length, byte);
            inputs.push(long);
        }
    }
    inputs
}

/// All lists of up to four of the bytes `-`, 13 and 10, after the rule text of
/// the example and between its two texts.
pub fn partings() -> Vec<Vec<u8>> {
    let (rule, recording) = (rule_text(&example_rule()), recording_text(&recording_r()));
    let mut lists = vec![Vec::new()];
    let mut longest = lists.clone();
    for _ in 0..4 {
        let longer = |list: &Vec<u8>| b"-\r\n".map(|byte| [&list[..], &[byte]].concat());
        longest = longest.iter().flat_map(longer).collect();
        lists.extend(longest.clone());
    }
    let around = |list: &Vec<u8>| {
        let after = [&rule[..], list].concat();
        [[&after[..], &recording].concat(), after]
    };
    lists.iter().flat_map(around).collect()
}

/// The example with marks in its last state, which prints what it printed, and
/// its beginnings.
fn mid_step(check: &mut Check) -> Result<(), Difference> {
    let beginning = |length: usize| {
        let whole = recording_r();
        RecordingTable { length, states: whole.states[..length].to_vec(), ..whole }
    };
    let trials = [(marked_r(), 3)].into_iter();
    let trials = trials.chain((1..).zip([1, 2, 2, 3]).map(|(k, places)| (beginning(k), places)));
    for (recording, places) in trials {
        let input = program_input(&rule_text(&example_rule()), &recording_text(&recording));
        let output = format!("local {places}\nown yes no\nplain 55 yes no\nshort 43 yes no\n");
        let output = output.replace(' ', "\t").into_bytes();
        let expected = Expected { output, errors: Vec::new() };
        require(check, JUDGE, &input, &expected, &[])?;
    }
    Ok(())
}

/// Inputs at the edges: without parting line, with an unclosed one, at the
/// limit of its size and far beyond.
pub fn edges() -> Vec<Vec<u8>> {
    let (rule, recording) = (rule_text(&example_rule()), recording_text(&recording_r()));
    let accepted = program_input(&rule, &recording);
    let mut inputs = vec![
        Vec::new(),
        b"-".to_vec(),
        b"-\n".to_vec(),
        b"\n-\n".to_vec(),
        b"-\n-\n".to_vec(),
        rule.clone(),
        [&rule[..], &recording[..]].concat(),
        [&rule[..], b"-"].concat(),
        [&rule[..], b"-", &recording[..]].concat(),
        [&rule[..], b"-\n"].concat(),
        [&accepted[..], b"-\n"].concat(),
        program_input(&recording, &rule),
        accepted[..accepted.len() - 1].to_vec(),
    ];
    for length in [PROGRAM_INPUT - 1, PROGRAM_INPUT, PROGRAM_INPUT + 1, 20_000, 70_000, 300_000] {
        for byte in [0, 9, 10, 45, 97, 255] {
            let mut long = accepted.clone();
            long.resize(length, byte);
            inputs.extend([vec![byte; length], long]);
        }
    }
    inputs
}

/// The example with gauges for both atoms, whose finished words are its own: it
/// prints what it printed.
fn gauged_example(check: &mut Check) -> Result<(), Difference> {
    let recording = "recording 2 5; owns 00000001; owns 00000002; gauge 1 -0.50; gauge 0 5.00; \
        at 01 00000000 -0.50 4.99; at 02 00000000 0.00 5.00; at 01 00000000 -0.51 327.67; \
        at 02 00000000 -327.68 0.00; at 00 00000000 1.00 -5.00";
    let input = program_input(&rule_text(&example_rule()), &text(recording));
    let output = "local 3\nown yes no\nplain 55 yes no\nshort 43 yes no\n".replace(' ', "\t");
    let expected = Expected { output: output.into_bytes(), errors: Vec::new() };
    require(check, JUDGE, &input, &expected, &[])?;
    require(check, JUDGE, &with_returns(&input, |_| true), &expected, &[])
}

/// The trials of gauges, after a rule; and the longest recording text that is
/// accepted.
pub fn gauge_edges() -> Vec<Vec<u8>> {
    let rule = b"rule\t0\t1\natom\t3\n";
    let mut inputs: Vec<Vec<u8>> =
        TRIALS.iter().map(|(lines, _)| program_input(rule, &text(lines))).collect();
    let (masks, states) = (vec![0; CONTROLLERS], vec![0; STATES]);
    let table = RecordingTable { controllers: CONTROLLERS, length: STATES, masks, states };
    let mut longest = gauged_by(&mut Random::new(1), &table, GAUGES);
    longest.gauges = (24..32).map(|atom| (atom, LEAST + 1)).collect();
    longest.values = vec![vec![LEAST; GAUGES]; STATES];
    let rule = write_rule(&longest_rule(RULE_NODES));
    let accepted = program_input(&rule, &gauged_text(&longest));
    inputs.extend([with_returns(&accepted, |_| true), accepted]);
    inputs
}

/// An input up to all limits, accepted but for now and then a gauge.
pub fn accepted_input(random: &mut Random) -> Vec<u8> {
    let recording = recordings::recording(random, CONTROLLERS, STATES);
    let controller = random.below(recording.controllers);
    let rule = rules::rule_for(random, controller, RULE_NODES);
    let recording = with_or_without(random, &recording);
    any_endings(random, program_input(&rule_text(&rule), &recording))
}

/// An accepted input with a few damages of any kinds.
pub fn damaged_input(random: &mut Random) -> Vec<u8> {
    let recording = recordings::recording(random, CONTROLLERS, 6);
    let controller = random.below(recording.controllers);
    let rule = rules::rule_for(random, controller, 6);
    let recording = with_or_without(random, &recording);
    let input = any_endings(random, program_input(&rule_text(&rule), &recording));
    texts::damaged(random, &input)
}

/// An input of any kind, accepted or damaged.
fn any_input(random: &mut Random) -> Vec<u8> {
    match random.below(6) {
        0 | 1 => accepted_input(random),
        2 => damaged_input(random),
        _ => texts::any_program_input(random),
    }
}

/// All runs of the program.
pub fn jobs(plan: &Plan) -> Vec<Job<'_>> {
    let mut jobs: Vec<Job> = vec![Box::new(mid_step)];
    jobs.push(Box::new(gauged_example));
    for inputs in [ending_edges(), partings(), edges(), gauge_edges()] {
        jobs.extend(listed(JUDGE, inputs));
    }
    jobs.push(Box::new(example));
    jobs.extend(random(plan, JUDGE, plan.program_runs, any_input));
    jobs
}

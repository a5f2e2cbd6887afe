//! Inputs of the program `watch`: a rule, and a session with its events.

use reference::generate::endings::{any_endings, with_returns};
use reference::generate::random::Random;
use reference::generate::sessions::any_new_rule;
use reference::generate::texts::{self, program_input, recording_text, rule_text};
use reference::generate::{recordings, rules};
use reference::model::limits::{CONTROLLERS, PROGRAM_INPUT, RULE_NODES, STATES};
use reference::model::longest_program;

use crate::check::Check;
use crate::difference::Difference;
use crate::plan::Plan;
use crate::program::judged::{ending_edges, partings};
use crate::program::{listed, random, require, Expected, WATCH};
use crate::tally::Operation;
use crate::trials::{example_rule, recording_r};
use crate::work::Job;
use crate::wrong::Place;

/// A recording text as the events of a session: its first line is `session`, C.
/// Any other text as it is.
fn as_session(text: &[u8]) -> Vec<u8> {
    let end = text.iter().position(|byte| *byte == b'\n').unwrap_or(text.len());
    let (first, rest) = text.split_at(end);
    let fields: Vec<&[u8]> = first.split(|byte| *byte == b'\t').collect();
    match fields[..] {
        [b"recording", controllers, length] => {
            let ending: &[u8] = if length.ends_with(b"\r") { b"\r" } else { b"" };
            [b"session\t", controllers, ending, rest].concat()
        }
        _ => text.to_vec(),
    }
}

/// The same of an input of the program of document 01.
fn of_session(input: &[u8]) -> Vec<u8> {
    let parting = input.windows(2).position(|bytes| bytes == b"-\n" || bytes == b"-\r");
    let Some(at) = parting else { return input.to_vec() };
    let next = at + input[at..].iter().take_while(|byte| **byte != b'\n').count() + 1;
    let (before, after) = input.split_at(next.min(input.len()));
    [before, &as_session(after)].concat()
}

/// Text with tabs for spaces.
fn tabbed(text: &str) -> Vec<u8> {
    text.replace(' ', "\t").into_bytes()
}

/// The rule of the example.
fn example_text() -> Vec<u8> {
    rule_text(&example_rule())
}

/// The example of document 01 as it runs, with a state that is withdrawn, a new
/// rule and refused calls, against what it is to print; with either ending and in pieces.
fn example(check: &mut Check) -> Result<(), Difference> {
    let events = "session 2\nowns 00000001\nowns 00000002\nwithdraw\nat 01 00000002\n\
        at 02 00000003\nat 01 00000001\nat 00 00000000\nwithdraw\nat 04 00000000\n\
        at 01 00000002\nat 02 00000000\nat 00 00000002\nwithdraw\nwithdraw\nrule 0 2\natom 0\n\
        next 0\nrule 0 2\ntrue\nwithdraw\nrule 2 1\ntrue\nwithdraw\nwithdraw\nwithdraw\nat 00\n";
    let answers = "states 0\nrefused 18 withdraw\nstates 1 yes no open\nstates 2 yes no open\n\
        states 3 yes no open\nstates 4 yes no open\nstates 3 yes no open\n\
        refused 6 at 04 00000000\nrefused 10 at 01 00000002\nstates 4 yes no open\n\
        states 5 yes no open\nstates 4 yes no open\nstates 3 yes no open\n\
        states 3 yes yes kept\nrefused 2 withdraw\nrefused 11 rule 2 1\n\
        states 2 yes yes kept\nstates 1 yes no open\nstates 0\nrefused 5 at 00\n";
    let mut expected = Expected { output: tabbed(answers), errors: Vec::new() };
    if check.wrong(Operation::WatchProgram, Place::Named) {
        expected.output[7] ^= 1;
    }
    let input = program_input(&example_text(), &tabbed(events));
    let returned = with_returns(&input, |_| true);
    require(check, WATCH, &input, &expected, &[])?;
    require(check, WATCH, &input, &expected, &vec![1; input.len()])?;
    require(check, WATCH, &returned, &expected, &[])?;
    require(check, WATCH, &returned, &expected, &[b"rule\t0\t9\r".len()])
}

/// Openings that are refused with each number, or that stop early.
fn openings() -> Vec<Vec<u8>> {
    let sessions = [
        "",
        "\n",
        "session",
        "session 2",
        "session 2\n",
        "session 2\n\n",
        "session 02\n",
        "session\n",
        "session \n",
        "session 2 1\n",
        "Session 2\n",
        "session 0\n",
        "session 12\n",
        "session 99999999999999999999\n",
        "recording 2 1\nowns 00000001\nowns 00000002\n",
        "session 1\nowns 00000001",
        "session 1\nowns 00000001\n",
        "session 1\nowns 1\n",
        "session 2\nowns 00000001\nowns 00000003\n",
        "session 2\nowns 00000001\nowns 00000002",
        "session 2\nowns 00000001\nat 00 00000000\n",
        "session 2\nowns 00000001\nwithdraw\n",
        "session 2\nowns 00000001\nowns 00000002\n",
        "-\nsession 1\nowns 00000001\n",
    ];
    let rules = [
        "rule 0 1\ntrue\n",
        "rule 1 1\ntrue\n",
        "rule 0 1\nrun\n",
        "rule 0 1\nnot 0\n",
        "rule 0 2\ntrue\n",
        "rule 0 1\ntrue\ntrue\n",
        "rule 0 1\n\n",
        "",
    ];
    let mut inputs: Vec<Vec<u8>> = Vec::new();
    for rule in rules.map(tabbed) {
        inputs.extend(sessions.map(|session| program_input(&rule, &tabbed(session))));
        inputs.extend([rule.clone(), [&rule[..], b"-"].concat(), [&rule[..], b"-\r"].concat()]);
    }
    inputs
}

/// Openings at the limit of their size, in one line or in many.
fn long_openings() -> Vec<Vec<u8>> {
    let mut inputs = Vec::new();
    for length in [PROGRAM_INPUT - 1, PROGRAM_INPUT, PROGRAM_INPUT + 1, 20_000, 70_000] {
        for byte in [0, b'\n', b'\r', b'-', b'a'] {
            for start in
                ["", "rule 0 1\ntrue\n-\n", "rule 0 1\ntrue\n-\nsession 2\nowns 00000001\n"]
            {
                let mut input = tabbed(start);
                input.resize(length, byte);
                inputs.extend([[&input[..length - 1], b"\n"].concat(), input]);
            }
        }
    }
    inputs
}

/// Events at the limits: a full session, long lines, odd lines and line ends.
fn events() -> Vec<Vec<u8>> {
    let opening = tabbed("session 2\nowns 00000001\nowns 00000002\n");
    let state = tabbed("at 00 00000000\n");
    let full = state.repeat(STATES);
    let after = tabbed(
        "at 00 00000000\nat 04 00000001\nat 00 00000001\nx\nwithdraw\nat 04 00000000\n\
        at 00 00000001\nat 01 00000000\nat 00 00000001\nwithdraw\nat 00 00000001\n",
    );
    let mut texts = vec![[full, after].concat(), [&state[..], &b"withdraw\n".repeat(3)].concat()];
    for length in [1, 1023, 1024, 1025, 1026, 1027, 2048, 20_000] {
        for end in ["\n", "\r\n", "\r\r\n", "", "\r"] {
            texts.push([&vec![b'a'; length][..], end.as_bytes(), b"withdraw\n"].concat());
            texts.push([b"withdraw\nat", &vec![b'0'; length][..], end.as_bytes()].concat());
        }
    }
    let odd = [
        "withdraw",
        "withdraw\r",
        "withdraw\r\r\n",
        "Withdraw\n",
        "withdraw \n",
        "withdraw 1\n",
        " withdraw\n",
        "\n\n\r\n",
        "-\n",
        "session 2\n",
        "owns 00000001\n",
        "at 00 00000000",
        "at 000 00000000\n",
        "at 0 00000000\n",
        "at 00 0000000\n",
        "at 00 0000000A\n",
        "at 00 00000000 \n",
        "at 00 00000000\r\r\n",
        "\rat 00 00000000\n",
        "at 00\r00000000\n",
        "at 00 00000000\rwithdraw\n",
        "at 00 00000000\n\r\nwithdraw\r",
        "at ff 00000000\n",
        "gauge 3 0.00\n",
        "at 00 00000000 0.00\n",
    ];
    texts.extend(odd.map(|line| [&state[..], &tabbed(line)].concat()));
    texts
        .iter()
        .map(|text| program_input(&example_text(), &[&opening[..], text].concat()))
        .collect()
}

/// New rules in mid session, each between two states: accepted, refused with each
/// number, with lines among them that can't be part of them, and with any ending.
fn new_rules() -> Vec<Vec<u8>> {
    let opening = tabbed("session 2\nowns 00000001\nowns 00000002\nat 01 00000000\n");
    let after = tabbed("at 00 00000001\nwithdraw\n");
    let rules = [
        "rule 0 2\natom 0\nnext 0\n",
        "rule 1 1\natom 1\n",
        "rule 0 1\r\ntrue\r\n",
        "rule 0 1\r\ntrue\n",
        "rule 2 1\ntrue\n",
        "rule 10 1\ntrue\n",
        "rule 11 1\ntrue\n",
        "rule 0 0\n",
        "rule 0 65\n",
        "rule 0 01\n",
        "rule\n",
        "rule \n",
        "rule 0\n",
        "rule 0 1 \n",
        "rule\r 0 1\n",
        "rule\r\r\n",
        "Rule 0 1\ntrue\n",
        "rules 0 1\ntrue\n",
        " rule 0 1\ntrue\n",
        "rule 0 3\natom 0\nnot 1\nnext 0\n",
        "rule 0 3\natom 0\nrun\nnext 0\n",
        "rule 0 3\natom 0\natom 32\nnext 0\n",
        "rule 0 3\natom 0\n\nnext 0\n",
        "rule 0 2\natom 0\nnext 0\nnext 0\n",
        "rule 0 2\natom 0\nat 00 00000001\n",
        "rule 0 2\natom 0\nwithdraw\n",
        "rule 0 2\nwithdraw\nwithdraw\n",
        "rule 0 2\natom 0\nrule 0 1\ntrue\n",
        "rule 0 2\natom 0\n-\n",
        "rule 0 2\natom 0\nsession 2\n",
        "rule 0 2\natom 0\r\r\nnext 0\n",
        "-\nrule 0 1\ntrue\n-\n",
    ];
    let mut texts: Vec<Vec<u8>> = rules.iter().map(|rule| tabbed(rule)).collect();
    let longest = longest_program(format!("{RULE_NODES}\n").as_bytes());
    for length in [1, 1019, 1020, 1021, 1022, 2000, 16_360, 16_367, 16_368, 16_369, 16_374, 16_375, 16_376, 20_000] {
        let long = vec![b'a'; length];
        texts.push([b"rule\t", &long[..], b"\n"].concat());
        texts.push([b"rule\t0\t2\ntrue\nnot\t", &long[..], b"\r\nx\n"].concat());
        texts.push([b"rule\t0\t2\ntrue\n", &long[..], b"\r\nx\n"].concat());
        // What is past the first 1,024 bytes tells which of 1, 2 and 3 it is.
        let digits = vec![b'1'; length];
        texts.push([b"rule\t0\t1\n", &long[..], b"\x01\n"].concat());
        texts.push([b"rule\t0\t1\nor\t", &digits[..], b"\t1\n"].concat());
        texts.push([b"rule\t0\t", &digits[..], b"x\n"].concat());
    }
    texts.extend([longest.clone(), longest.repeat(20)]);
    texts.push([&longest[..longest.len() - 1], b"x\n"].concat());
    let texts = texts.iter().map(|text| [&opening[..], text, &after].concat());
    texts.map(|text| program_input(&example_text(), &text)).collect()
}

/// The example's session, with a new rule, cut after every byte.
fn cut() -> Vec<Vec<u8>> {
    let input =
        program_input(b"rule\t0\t1\r\natom\t0\n", &as_session(&recording_text(&recording_r())));
    let rule = b"rule\t1\t3\ntrue\r\natom\t1\nuntil\t0\t1\nrule\t0\t1\r\nwithdraw\n";
    let input = [&input[..], b"withdraw\r\n", rule, b"withdraw\n"].concat();
    (0..input.len()).map(|length| input[..length].to_vec()).collect()
}

/// The lines of a text, each with its ending.
fn lines(text: &[u8]) -> Vec<Vec<u8>> {
    text.split_inclusive(|byte| *byte == b'\n').map(Vec::from).collect()
}

/// A new rule's text: accepted, refused, damaged or cut after a line.
fn new_rule(random: &mut Random, controllers: usize) -> Vec<u8> {
    let text = rule_text(&any_new_rule(random, controllers));
    match random.below(8) {
        0 => texts::damaged(random, &text),
        1 => {
            let lines = lines(&text);
            lines[..random.between(1, lines.len())].concat()
        }
        _ => text,
    }
}

/// The events of a recording with withdrawals and new rules: some states are
/// taken back and arrive again, some other states are tried and mostly refused.
fn with_withdrawals(random: &mut Random, opening: usize, lines: &[Vec<u8>]) -> Vec<u8> {
    let controllers = opening - 1;
    let (opening, states) = lines.split_at(opening);
    let mut text = opening.concat();
    let often = random.pick(&[2, 4, 16, 200]);
    for (held, state) in states.iter().enumerate() {
        if random.once_in(often) {
            text.extend(new_rule(random, controllers));
        }
        text.extend(state);
        if random.once_in(often) {
            text.extend(&states[random.below(states.len())]);
        }
        if random.once_in(often) {
            let back = random.between(1, held + 2);
            text.extend(b"withdraw\n".repeat(back));
            text.extend(states[(held + 1).saturating_sub(back)..=held].concat());
        }
    }
    if random.once_in(4) {
        text.extend(states[states.len() - 1].repeat(random.below(STATES)));
    }
    text
}

/// A session that is opened, of up to so many controllers, states and nodes.
fn session_input(random: &mut Random, states: usize, nodes: usize) -> Vec<u8> {
    let recording = recordings::recording(random, CONTROLLERS, states);
    let controller = random.below(recording.controllers);
    let rule = rules::rule_for(random, controller, nodes);
    let text = lines(&as_session(&recording_text(&recording)));
    let session = with_withdrawals(random, 1 + recording.controllers, &text);
    any_endings(random, program_input(&rule_text(&rule), &session))
}

/// An input of any kind, accepted or damaged.
fn any_input(random: &mut Random) -> Vec<u8> {
    match random.below(8) {
        0..=2 => session_input(random, STATES, RULE_NODES),
        3 | 4 => {
            let input = session_input(random, 6, 6);
            texts::damaged(random, &input)
        }
        5 => {
            let input = session_input(random, STATES, 6);
            texts::damaged(random, &input)
        }
        6 => of_session(&texts::any_program_input(random)),
        _ => texts::any_program_input(random),
    }
}

/// All runs of the program.
pub fn jobs(plan: &Plan) -> Vec<Job<'_>> {
    let mut jobs: Vec<Job> = vec![Box::new(example)];
    let judged = [ending_edges(), partings()].concat();
    let judged = judged.iter().map(|input| of_session(input)).collect();
    for inputs in [openings(), long_openings(), events(), new_rules(), cut(), judged] {
        jobs.extend(listed(WATCH, inputs));
    }
    jobs.extend(random(plan, WATCH, plan.program_runs / 4, any_input));
    jobs
}

//! The trials of document 01, on the library, against the numbers and verdicts
//! that the document names.

use reference::generate::endings::with_returns;
use reference::generate::recordings::RecordingTable;
use reference::generate::rules::{JudgeTable, RuleTable};
use reference::generate::texts::{recording_text, rule_text};
use reference::model::limits::{CONTROLLERS, TWO_DIGIT_CONTROLLERS};
use reference::model::rule::{Node, ATOM, END, NEXT, NOT, OR, PREV, RUN, SINCE, TRUE, UNTIL};

use crate::check::Check;
use crate::difference::Difference;
use crate::gauges;
use crate::input::Input;
use crate::outcome::Outcome;
use crate::sessions;
use crate::work::Job;
use crate::wrong::Place;

/// The kind and operands of a node.
pub type Listed = (u32, usize, usize);

/// A rule of controller 0 from kinds and operands.
pub fn rule(nodes: &[Listed]) -> RuleTable {
    let word = |&(kind, first, second): &Listed| Node { kind, first, second }.word();
    RuleTable { controller: 0, count: nodes.len(), nodes: nodes.iter().map(word).collect() }
}

/// The rule of the program's example.
pub fn example_rule() -> RuleTable {
    let next = [(ATOM, 1, 0), (NOT, 0, 0), (ATOM, 0, 0), (NEXT, 2, 0), (OR, 1, 3)];
    let always = [(NOT, 4, 0), (TRUE, 0, 0), (UNTIL, 6, 5), (NOT, 7, 0)];
    rule(&[&next[..], &always].concat())
}

/// The recording R of the program's example.
pub fn recording_r() -> RecordingTable {
    let states = [(1, 2), (2, 3), (1, 1), (2, 0), (0, 2)];
    let states = states.iter().map(|(runs, word)| (runs << 32) + word).collect();
    RecordingTable { controllers: 2, length: 5, masks: vec![1, 2], states }
}

/// A recording of one controller that runs in every state but the last, so that
/// its places are these words.
pub fn steps(own: u32, words: &[u64]) -> RecordingTable {
    let (last, before) = words.split_last().expect("a state");
    let states = before.iter().map(|word| (1 << 32) + word).chain([*last]).collect();
    RecordingTable { controllers: 1, length: words.len(), masks: vec![own], states }
}

/// A recording of these words in which controller 0, the owner of atom 0,
/// never runs. With the single word 0 it is Z.
fn never_runs(words: &[u64]) -> RecordingTable {
    RecordingTable { controllers: 1, length: words.len(), masks: vec![1], states: words.to_vec() }
}

/// Compares an outcome with the number that document 01 names, and with its
/// values when it is accepted.
pub fn named(
    check: &mut Check,
    input: Input,
    number: u8,
    values: &[usize],
) -> Result<(), Difference> {
    let found = check.compare(&input)?;
    let values = if number == 0 { values.to_vec() } else { vec![0; found.values.len()] };
    answered(check, input, found, number, values)
}

/// Compares what was answered with the number and the values that are named.
fn answered(
    check: &mut Check,
    input: Input,
    found: Outcome,
    number: u8,
    mut values: Vec<usize>,
) -> Result<(), Difference> {
    if check.wrong(input.operation(), Place::Named) {
        values[0] ^= 1;
    }
    if found.number == number && found.values == values {
        return Ok(());
    }
    let place = format!("the trial: named {number} {values:?}");
    let place = format!("{place}, found {} {:?}", found.number, found.values);
    Err(Difference::new(place, input.to_string()))
}

/// A rule's verdicts on its local trace and, rewritten, over the whole
/// recording: all those that document 01 names.
fn verdict(
    check: &mut Check,
    rule: &RuleTable,
    recording: &RecordingTable,
    verdict: [usize; 2],
) -> Result<(), Difference> {
    let local = Input::JudgeLocal { rule: rule.clone(), recording: recording.clone() };
    named(check, local, 0, &verdict)?;
    for short in [false, true] {
        let mask = recording.masks[rule.controller];
        let rewritten = check.compare(&Input::rewrite(short, rule.clone(), mask))?;
        let table = rewritten.rewritten_table();
        let whole = Input::judge_recording(table, recording.clone(), rule.controller);
        named(check, whole, 0, &verdict)?;
    }
    Ok(())
}

/// The plain and the short node count of a rule.
fn node_counts(
    check: &mut Check,
    rule: &RuleTable,
    mask: u32,
    counts: [usize; 2],
) -> Result<(), Difference> {
    for (short, count) in [(false, counts[0]), (true, counts[1])] {
        let input = Input::rewrite(short, rule.clone(), mask);
        let found = check.compare(&input)?;
        if found.values[0] != count {
            let place = format!("the trial: named {count} nodes, found {:?}", found.values);
            return Err(Difference::new(place, input.to_string()));
        }
    }
    Ok(())
}

/// The starred trials.
fn starred(check: &mut Check) -> Result<(), Difference> {
    let (r, z) = (recording_r(), never_runs(&[0]));
    let next = rule(&[(ATOM, 1, 0), (NEXT, 0, 0)]);
    verdict(check, &next, &r, [0, 0])?;
    node_counts(check, &next, 1, [34, 34])?;
    verdict(check, &rule(&[(TRUE, 0, 0), (PREV, 0, 0)]), &r, [0, 0])?;
    verdict(check, &rule(&[(ATOM, 1, 0)]), &z, [1, 0])?;
    verdict(check, &rule(&[(ATOM, 0, 0)]), &z, [0, 0])?;
    verdict(check, &rule(&[(TRUE, 0, 0), (NEXT, 0, 0)]), &z, [1, 0])?;
    named(check, Input::project(z, 0), 0, &[1])?;
    node_counts(check, &rule(&[(TRUE, 0, 0)]), 1, [20, 12])?;
    let until = rule(&[(ATOM, 0, 0), (ATOM, 1, 0), (UNTIL, 0, 1)]);
    node_counts(check, &until, 3, [32, 19])?;
    node_counts(check, &until, 0, [40, 32])?;
    named(check, Input::read_rule(b"rule\t0\t1\nnot\t0\n".to_vec()), 3, &[])?;
    let later_first = b"rule\t0\t3\natom\t0\natom\t1\nuntil\t1\t0\n".to_vec();
    named(check, Input::read_rule(later_first), 0, &[0, 3])?;
    verdict(check, &example_rule(), &r, [1, 0])?;
    node_counts(check, &example_rule(), 1, [55, 43])
}

/// The node limit: 64 accepted, 65 refused with 2, as text and as tables.
fn node_limit(check: &mut Check) -> Result<(), Difference> {
    let trues = |count| RuleTable { controller: 7, count, nodes: vec![TRUE; count] };
    let [plain, short] = [[83, 78, 82], [75, 74, 74]];
    for (count, number) in [(64, 0), (65, 2)] {
        let rule = trues(count);
        named(check, Input::read_rule(rule_text(&rule)), number, &[7, 64])?;
        named(check, Input::write_rule(rule.clone()), number, &[10 + 64 * 5])?;
        named(check, Input::rewrite(false, rule.clone(), 0), number, &plain)?;
        named(check, Input::rewrite(true, rule.clone(), 0), number, &short)?;
        let (rule, recording) = (RuleTable { controller: 0, ..rule }, never_runs(&[0]));
        named(check, Input::JudgeLocal { rule, recording }, number, &[1, 1])?;
    }
    Ok(())
}

/// The limits of the judge's table: 1,024 nodes, and tops below the count.
fn table_limit(check: &mut Check) -> Result<(), Difference> {
    let trials = [(1024, 0, 1023, 0), (1025, 0, 0, 2), (1024, 1024, 0, 2), (1024, 0, 1024, 2)];
    for (count, weak_top, strong_top, number) in trials {
        let table = JudgeTable { count, nodes: vec![TRUE; count], weak_top, strong_top };
        named(check, Input::judge_recording(table, never_runs(&[0]), 0), number, &[1, 1])?;
    }
    Ok(())
}

/// The state limit: 128 accepted, 129 refused with 6, as text and as tables.
fn state_limit(check: &mut Check) -> Result<(), Difference> {
    for (length, number) in [(128, 0), (129, 6)] {
        let recording = never_runs(&vec![0; length]);
        named(check, Input::read_recording(recording_text(&recording)), number, &[1, 128])?;
        named(check, Input::project(recording.clone(), 0), number, &[1])?;
        let rule = rule(&[(TRUE, 0, 0)]);
        let table = JudgeTable { count: 1, nodes: vec![TRUE], weak_top: 0, strong_top: 0 };
        let local = Input::JudgeLocal { rule, recording: recording.clone() };
        named(check, local, number, &[1, 1])?;
        named(check, Input::judge_recording(table, recording, 0), number, &[1, 1])?;
    }
    Ok(())
}

/// The atom limit: 31 accepted, 32 refused with 2, as text and as tables.
fn atom_limit(check: &mut Check) -> Result<(), Difference> {
    for (atom, number) in [(31, 0), (32, 2)] {
        let rule = rule(&[(ATOM, atom, 0)]);
        named(check, Input::read_rule(rule_text(&rule)), number, &[0, 1])?;
        named(check, Input::write_rule(rule.clone()), number, &[9 + 8])?;
        let recording = never_runs(&[0]);
        named(check, Input::JudgeLocal { rule, recording }, number, &[1, 0])?;
    }
    Ok(())
}

/// The empty rule text: 4, with the empty end of that text from the joint
/// reading; and the example, which is accepted.
fn joint_readings(check: &mut Check) -> Result<(), Difference> {
    let recording = recording_text(&recording_r());
    named(check, Input::read_rule(Vec::new()), 4, &[])?;
    named(check, Input::read_joint(Vec::new(), recording.clone()), 4, &[])?;
    let accepted = [0, 9, 2, 5, 1, recording.len(), 0];
    named(check, Input::read_joint(rule_text(&example_rule()), recording), 0, &accepted)
}

/// A refused text, rule or recording: the number, and the part of it that is
/// handed back.
pub fn handed_back(
    check: &mut Check,
    texts: [&[u8]; 2],
    number: u8,
    (source, start, line): (usize, usize, &[u8]),
) -> Result<(), Difference> {
    let input = Input::read_joint(texts[0].to_vec(), texts[1].to_vec());
    let found = check.compare(&input)?;
    answered(check, input, found, number, vec![0, 0, 0, 0, source, start, line.len()])?;
    let part = &texts[source][start..start + line.len()];
    assert_eq!(part, line, "the trial names a part of its text");
    Ok(())
}

/// Lines from the other system: the example with either ending, line by line.
fn either_ending(check: &mut Check) -> Result<(), Difference> {
    let (rule, recording) = (rule_text(&example_rule()), recording_text(&recording_r()));
    let choices: [fn(usize) -> bool; 3] = [|_| true, |line| line % 2 == 0, |line| line == 3];
    for returned in choices {
        let texts = [&rule, &recording].map(|text| with_returns(text, returned));
        let accepted = [0, 9, 2, 5, 1, texts[1].len(), 0];
        let [rule, recording] = texts;
        named(check, Input::read_rule(rule.clone()), 0, &[0, 9])?;
        named(check, Input::read_recording(recording.clone()), 0, &[2, 5])?;
        named(check, Input::read_joint(rule, recording), 0, &accepted)?;
    }
    Ok(())
}

/// 13 elsewhere, and what is handed back of a rule text.
fn rule_endings(check: &mut Check) -> Result<(), Difference> {
    let recording = recording_text(&recording_r());
    let rules: [(&[u8], u8, usize, &[u8]); 12] = [
        (b"rule\t0\t1\ntrue\r\r\n", 1, 9, b"true\r"),
        (b"rule\t0\t1\ntrue\r", 1, 9, b"true\r"),
        (b"rule\t0\t1\r\ntr\rue\r\n", 1, 10, b"tr\rue"),
        (b"rule\t0\t1\rtrue\r", 1, 0, b"rule\t0\t1\rtrue\r"),
        (b"rule\t0\t1\r\n\r\n", 1, 10, b""),
        (b"rule\t0\t1\nfoo\t1\r\n", 2, 9, b"foo\t1"),
        (b"rule\t0\t1\nfoo\t1\r\r\n", 1, 9, b"foo\t1\r"),
        (b"rule\t0\t1\r\n", 4, 10, b""),
        (b"rule\t0\t1\ntrue\nx\r\n", 4, 14, b"x"),
        (b"rule\t0\t1\ntrue\nx\r", 4, 14, b"x\r"),
        (b"rule\t0\t1\ntrue\nx\r\r\n", 4, 14, b"x\r"),
        (b"rule\t2\t1\r\ntrue\n", 11, 0, b"rule\t2\t1"),
    ];
    for (text, number, start, line) in rules {
        handed_back(check, [text, &recording], number, (0, start, line))?;
    }
    Ok(())
}

/// The same of a recording text.
fn recording_endings(check: &mut Check) -> Result<(), Difference> {
    let rule = rule_text(&example_rule());
    let recordings: [(&[u8], u8, usize, &[u8]); 5] = [
        (b"recording\t1\t1\r\r\n", 5, 0, b"recording\t1\t1\r"),
        (b"recording\t1\t1\r\nowns\t00000001\r", 5, 15, b"owns\t00000001\r"),
        (b"recording\t1\t1\r\nowns\t00000001\r\n", 8, 30, b""),
        (b"recording\t1\t1\nowns\t00000001\nat\t00\t00000000\nx\r\n", 8, 43, b"x"),
        (b"recording\t1\t1\nowns\t00000001\nat\t00\t00000000\nx\r", 8, 43, b"x\r"),
    ];
    for (text, number, start, line) in recordings {
        handed_back(check, [&rule, text], number, (1, start, line))?;
    }
    Ok(())
}

/// Reads a line that is accepted with these nodes.
fn typed(check: &mut Check, line: &str, nodes: &[Listed]) -> Result<(), Difference> {
    let input = Input::read_line(0, line.as_bytes().to_vec());
    let found = check.compare(&input)?;
    named(check, input.clone(), 0, &[0, nodes.len()])?;
    let words: Vec<u64> = rule(nodes).nodes.iter().map(|word| u64::from(*word)).collect();
    if found.slice(0)[..nodes.len()] != words {
        let place = format!("the trial: named nodes {nodes:?}");
        return Err(Difference::new(place, input.to_string()));
    }
    Ok(())
}

/// Rules in one line: nodes, associativity, strength, and the limits.
fn one_line(check: &mut Check) -> Result<(), Difference> {
    let atoms = [(ATOM, 0, 0), (ATOM, 1, 0), (ATOM, 2, 0)];
    let [p, q, r] = atoms;
    let always = [(TRUE, 0, 0), q, (NOT, 1, 0), p, (NEXT, 3, 0), (OR, 2, 4), (NOT, 5, 0)];
    typed(check, "G (a1 -> X a0)", &[&always[..], &[(UNTIL, 0, 6), (NOT, 7, 0)]].concat())?;
    typed(check, "a0 U a1 S a2", &[p, q, r, (SINCE, 1, 2), (UNTIL, 0, 3)])?;
    typed(check, "a0 S a1 U a2", &[p, q, r, (UNTIL, 1, 2), (SINCE, 0, 3)])?;
    let arrows = [p, (NOT, 0, 0), q, (NOT, 2, 0), r, (OR, 3, 4), (OR, 1, 5)];
    typed(check, "a0 -> a1 -> a2", &arrows)?;
    typed(check, "a0 | a1 | a2", &[p, q, (OR, 0, 1), r, (OR, 2, 3)])?;
    typed(check, "!a0 U a1", &[p, (NOT, 0, 0), q, (UNTIL, 1, 2)])?;
    typed(check, "a0&a1", &[p, (NOT, 0, 0), q, (NOT, 2, 0), (OR, 1, 3), (NOT, 4, 0)])?;
    typed(check, "F Y true", &[(TRUE, 0, 0), (TRUE, 0, 0), (PREV, 1, 0), (UNTIL, 0, 2)])?;
    let nested = |depth| "(".repeat(depth) + "true" + &")".repeat(depth);
    let long = |joint: &str, count: usize| (nested(16) + joint).repeat(count);
    let bytes = |joint: &str| long(" | ", 13) + &nested(16) + joint + &long("|", 12) + &nested(16);
    let trials = [
        (nested(16), 0, 1),
        (nested(17), 16, 0),
        (nested(17) + ")", 15, 0),
        ("!".repeat(63) + "a0", 0, 64),
        ("!".repeat(64) + "a0", 2, 0),
        ("a31".to_string(), 0, 1),
        ("a32".to_string(), 2, 0),
        (String::new(), 15, 0),
        (bytes("|"), 0, 53),
        (bytes(" |"), 15, 0),
    ];
    for (line, number, count) in trials {
        named(check, Input::read_line(0, line.into_bytes()), number, &[0, count])?;
    }
    named(check, Input::read_line(CONTROLLERS, b"a0".to_vec()), 2, &[])?;
    named(check, Input::read_line(CONTROLLERS, b"(".to_vec()), 15, &[])
}

/// The traps, each by a rule and a recording on which its victim answers
/// another verdict.
fn traps(check: &mut Check) -> Result<(), Difference> {
    let atom = [(ATOM, 0, 0), (ATOM, 1, 0)];
    let r = recording_r();
    // Next or prev taken as the neighbouring recorded state.
    verdict(check, &rule(&[atom[1], (NEXT, 0, 0)]), &r, [0, 0])?;
    verdict(check, &rule(&[atom[0], (PREV, 0, 0), (NEXT, 1, 0)]), &r, [0, 0])?;
    // Foreign atoms read at the last place, recorded there or not.
    verdict(check, &rule(&[atom[1]]), &never_runs(&[0]), [1, 0])?;
    verdict(check, &rule(&[atom[1]]), &never_runs(&[2, 0]), [1, 0])?;
    // One reading kept under not.
    verdict(check, &rule(&[atom[1], (NOT, 0, 0)]), &never_runs(&[0]), [1, 0])?;
    // A *state* with no first state for a controller that never runs.
    verdict(check, &rule(&[atom[0], (NOT, 0, 0)]), &never_runs(&[1, 1, 1]), [0, 0])?;
    verdict(check, &rule(&[atom[0]]), &never_runs(&[1, 1, 1]), [1, 1])?;
    // Short next without `end`.
    verdict(check, &rule(&[atom[0], (NEXT, 0, 0)]), &never_runs(&[0, 0, 0]), [1, 0])?;
    verdict(check, &rule(&[atom[0], (NEXT, 0, 0)]), &never_runs(&[1, 1, 1]), [1, 0])
}

/// The example's recording with both marks put into its last state.
pub fn marked_r() -> RecordingTable {
    let mut recording = recording_r();
    recording.states[4] |= 3 << 32;
    recording
}

/// Document 02, recordings that stop in mid step: a mark in the last state is
/// no run, by projection, by end and by run; 6 at C or above; the state as read
/// still holds it; and each beginning of the example is accepted.
fn mid_step(check: &mut Check) -> Result<(), Difference> {
    let marked = never_runs(&[1 << 32]);
    named(check, Input::project(marked.clone(), 0), 0, &[1])?;
    named(check, Input::project(never_runs(&[2 << 32]), 0), 6, &[])?;
    verdict(check, &rule(&[(ATOM, 1, 0)]), &marked, [1, 0])?;
    let nodes = rule(&[(RUN, 0, 0), (END, 0, 0)]).nodes;
    let table = JudgeTable { count: 2, nodes, weak_top: 0, strong_top: 1 };
    named(check, Input::judge_recording(table, marked.clone(), 0), 0, &[0, 1])?;
    let text = Input::read_recording(recording_text(&marked));
    named(check, text.clone(), 0, &[1, 1])?;
    if check.compare(&text)?.slice(1)[0] != 1 << 32 {
        let place = "the trial: the state as read still holds the mark".to_string();
        return Err(Difference::new(place, text.to_string()));
    }
    let next = [(ATOM, 0, 0), (NEXT, 0, 0), (NEXT, 1, 0), (NEXT, 2, 0)];
    verdict(check, &rule(&next), &marked_r(), [1, 0])?;
    verdict(check, &example_rule(), &marked_r(), [1, 0])?;
    for (length, places) in (1..).zip([1, 2, 2, 3, 3]) {
        let lowered = RecordingTable { length, ..recording_r() };
        named(check, Input::project(lowered.clone(), 0), 0, &[places])?;
        verdict(check, &example_rule(), &lowered, [1, 0])?;
    }
    Ok(())
}

/// A recording of so many controllers, controller c with atom c.
fn among(controllers: usize, states: &[(u64, u64)]) -> RecordingTable {
    let masks = (0..controllers).map(|c| 1 << c).collect();
    let words = states.iter().map(|(runs, word)| (runs << 32) + word).collect();
    RecordingTable { controllers, length: states.len(), masks, states: words }
}

/// Document 02, eleven controllers, in texts: the digits of run marks by C, a
/// mark at C, C of 12, and the controllers of rules.
fn eleven_in_texts(check: &mut Check) -> Result<(), Difference> {
    let trials: [(usize, &str, u8); 11] = [
        (11, "7ff", 0),
        (11, "800", 6),
        (11, "00", 5),
        (11, "0000", 5),
        (9, "1ff", 0),
        (9, "200", 6),
        (9, "00", 5),
        (8, "ff", 0),
        (8, "000", 5),
        (1, "001", 5),
        (12, "000", 6),
    ];
    for (controllers, marks, number) in trials {
        let mut text = format!("recording\t{controllers}\t1\n");
        text.push_str(&"owns\t00000000\n".repeat(controllers));
        text.push_str(&format!("at\t{marks}\t00000000\n"));
        let text = text.into_bytes();
        named(check, Input::read_recording(text.clone()), number, &[controllers, 1])?;
        let rule = b"rule\t0\t1\ntrue\n".to_vec();
        let joint = check.compare(&Input::read_joint(rule, text.clone()))?;
        if joint.number != number {
            let place = format!("the trial: {} for {number}", joint.number);
            return Err(Difference::new(place, text.escape_ascii().to_string()));
        }
    }
    for (controller, number) in [(8, 0), (10, 0), (11, 2)] {
        let text = format!("rule\t{controller}\t1\ntrue\n").into_bytes();
        named(check, Input::read_rule(text), number, &[controller, 1])?;
    }
    Ok(())
}

/// Document 02, eleven controllers, in tables: the limits, a mark at C, masks
/// that meet and the output rule past the eighth, and one local trace in a
/// recording of eight and in one of eleven.
fn eleven_in_tables(check: &mut Check) -> Result<(), Difference> {
    let mut meeting = among(CONTROLLERS, &[(0, 0)]);
    meeting.masks[10] |= 1 << 8;
    let trials = [
        (among(CONTROLLERS, &[(2047, 0), (0, 2047)]), 0),
        (among(CONTROLLERS + 1, &[(0, 0)]), 6),
        (among(CONTROLLERS, &[(2048, 0)]), 6),
        (meeting, 7),
        (among(CONTROLLERS, &[(1791, 0), (0, 256)]), 10),
        (among(CONTROLLERS, &[(1023, 0), (0, 1024)]), 10),
    ];
    let fine = rule(&[(TRUE, 0, 0)]);
    let table = JudgeTable { count: 1, nodes: vec![0], weak_top: 0, strong_top: 0 };
    for (recording, number) in trials {
        let places = if number == 0 { recording.length } else { 0 };
        named(check, Input::project(recording.clone(), 0), number, &[places])?;
        let local = Input::JudgeLocal { rule: fine.clone(), recording: recording.clone() };
        named(check, local, number, &[1, 1])?;
        let whole = Input::judge_recording(table.clone(), recording.clone(), 0);
        named(check, whole, number, &[1, 1])?;
        named(check, Input::evidence(fine.clone(), recording, true), number, &[0])?;
    }
    let eight = among(TWO_DIGIT_CONTROLLERS, &[(1, 1026), (0, 1027)]);
    let eleven = among(CONTROLLERS, &[(1024, 2), (1, 1026), (0, 1027)]);
    let next = rule(&[(ATOM, 1, 0), (NEXT, 0, 0)]);
    verdict(check, &next, &eight, [1, 0])?;
    verdict(check, &next, &eleven, [1, 0])?;
    named(check, Input::project(eleven.clone(), 10), 0, &[2])?;
    let last = RuleTable { controller: 10, ..rule(&[(ATOM, 10, 0), (NEXT, 0, 0)]) };
    verdict(check, &last, &eleven, [1, 1])
}

/// "The full size of lent mask space is eleven masks".
fn eleven_masks_lent(check: &mut Check) -> Result<(), Difference> {
    let text = recording_text(&recording_r());
    for (masks, number) in [(8, 13), (10, 13), (11, 0), (12, 0)] {
        let mut input = Input::read_recording(text.clone());
        input.lent_mut()[0].length = masks;
        named(check, input, number, &[2, 5])?;
    }
    Ok(())
}

/// The places of a recording for a controller.
fn projected(
    check: &mut Check,
    recording: RecordingTable,
    controller: usize,
    places: &[u64],
) -> Result<(), Difference> {
    let input = Input::project(recording, controller);
    named(check, input.clone(), 0, &[places.len()])?;
    if check.compare(&input)?.slice(0)[..places.len()] != *places {
        let place = format!("the trial: named places {places:?}");
        return Err(Difference::new(place, input.to_string()));
    }
    Ok(())
}

/// Document 02, project while counting: the local traces of each beginning of
/// six states, in three of which controller 0 runs one after the other.
fn each_beginning(check: &mut Check) -> Result<(), Difference> {
    let states = [(1, 2), (3, 3), (1, 2), (2, 3), (1, 1), (3, 0)];
    let states: Vec<u64> = states.iter().map(|(marks, word)| (marks << 32) + word).collect();
    let whole = RecordingTable { controllers: 2, length: 6, masks: vec![1, 2], states };
    let first: [&[u64]; 6] =
        [&[0], &[2, 1], &[2, 3, 0], &[2, 3, 2, 1], &[2, 3, 2, 1], &[2, 3, 2, 1, 0]];
    let second: [&[u64]; 6] = [&[2], &[2], &[3, 2], &[3, 2], &[3, 3, 0], &[3, 3, 0]];
    for (controller, named) in [first, second].iter().enumerate() {
        for (length, places) in (1..).zip(named) {
            let lowered = RecordingTable { length, ..whole.clone() };
            projected(check, lowered, controller, places)?;
        }
    }
    Ok(())
}

/// Document 02, shorter rules about the past: counts with atom 0 own and atom 1
/// foreign, and the verdicts on R and Z.
fn past(check: &mut Check) -> Result<(), Difference> {
    let [own, foreign] = [(ATOM, 0, 0), (ATOM, 1, 0)];
    let trials: [(&[Listed], [usize; 2], [usize; 2], [usize; 2]); 12] = [
        (&[foreign, (PREV, 0, 0)], [34, 26], [0, 0], [0, 0]),
        (&[(TRUE, 0, 0), (PREV, 0, 0)], [30, 22], [0, 0], [0, 0]),
        (&[(TRUE, 0, 0), (PREV, 0, 0), (NEXT, 1, 0)], [40, 36], [1, 1], [1, 0]),
        (&[foreign, (PREV, 0, 0), (NEXT, 1, 0)], [44, 40], [1, 1], [1, 0]),
        (&[own, (PREV, 0, 0), (NEXT, 1, 0)], [40, 36], [0, 0], [1, 0]),
        (&[own, (SINCE, 0, 0)], [30, 14], [0, 0], [0, 0]),
        (&[own, foreign, (SINCE, 1, 0)], [35, 35], [0, 0], [0, 0]),
        (&[own, foreign, (SINCE, 0, 1)], [35, 35], [1, 1], [1, 0]),
        (&[foreign, (SINCE, 0, 0), (NEXT, 1, 0)], [44, 44], [0, 0], [1, 0]),
        (&[own, foreign, (SINCE, 0, 1), (NEXT, 2, 0)], [45, 45], [1, 1], [1, 0]),
        (&[foreign, (PREV, 0, 0), own, (OR, 1, 2)], [37, 29], [0, 0], [0, 0]),
        (&[own, (PREV, 0, 0), (NOT, 1, 0), (SINCE, 0, 2), (NEXT, 3, 0)], [52, 40], [1, 1], [1, 0]),
    ];
    for (nodes, counts, on_r, on_z) in trials {
        let rule = rule(nodes);
        node_counts(check, &rule, 1, counts)?;
        verdict(check, &rule, &recording_r(), on_r)?;
        verdict(check, &rule, &never_runs(&[0]), on_z)?;
    }
    // In state 0, before the first step of its controller, a since of what holds.
    let rule = RuleTable { controller: 1, ..rule(&[foreign, (SINCE, 0, 0)]) };
    node_counts(check, &rule, 2, [30, 14])?;
    verdict(check, &rule, &recording_r(), [1, 1])
}

/// An input with as many pairs as we know of: at each of 128 places each of 31
/// own atoms, since strong it is never so that one of them holds.
pub fn widest() -> Input {
    let atoms = (0..31).map(|atom| (ATOM, atom, 0));
    let ors = (31..61).map(|node| (OR, node - 31 + usize::from(node > 31) * 30, node - 30));
    let nodes: Vec<Listed> = atoms.chain(ors).chain([(TRUE, 0, 0), (UNTIL, 61, 60)]).collect();
    Input::evidence(rule(&nodes), steps(u32::MAX, &[0; 128]), false)
}

/// A rule, the words at its places, and its pairs: place and node of each.
type Walked<'a> = (&'a RuleTable, &'a [u64], &'a [(usize, usize)]);

/// The pairs of a rule on a recording, by place and node.
fn evidence(
    check: &mut Check,
    (rule, recording): (&RuleTable, &RecordingTable),
    weak: bool,
    pairs: &[(usize, usize)],
) -> Result<(), Difference> {
    let input = Input::evidence(rule.clone(), recording.clone(), weak);
    named(check, input.clone(), 0, &[pairs.len()])?;
    let found = check.compare(&input)?;
    let numbers = pairs.iter().map(|(place, node)| (place * 64 + node) as u64);
    if !found.slice(0)[..pairs.len()].iter().copied().eq(numbers) {
        let place = format!("the trial: named pairs {pairs:?}");
        return Err(Difference::new(place, input.to_string()));
    }
    Ok(())
}

/// Document 02, the readings behind a verdict: each step of the walk where one
/// of its readings would be another, and the example.
fn walked(check: &mut Check) -> Result<(), Difference> {
    let [p, q] = [(ATOM, 0, 0), (ATOM, 1, 0)];
    let example = example_rule();
    evidence(check, (&example, &recording_r()), true, &[(1, 0), (1, 2)])?;
    evidence(check, (&example, &recording_r()), false, &[])?;
    let until = rule(&[p, q, (UNTIL, 0, 1)]);
    let never = rule(&[p, q, (UNTIL, 0, 1), (NOT, 2, 0)]);
    let kept = steps(3, &[1, 1]);
    evidence(check, (&until, &kept), true, &[(0, 0), (1, 0)])?;
    evidence(check, (&until, &kept), false, &[(0, 1), (1, 1)])?;
    evidence(check, (&never, &kept), true, &[(0, 1), (1, 1)])?;
    evidence(check, (&never, &kept), false, &[(0, 0), (1, 0)])?;
    let since = rule(&[p, q, (SINCE, 0, 1), (NEXT, 2, 0), (NEXT, 3, 0)]);
    let same = rule(&[p, p, (OR, 0, 1)]);
    for weak in [true, false] {
        let both: [Walked; 7] = [
            (&until, &[1, 3, 3, 2], &[(0, 0), (1, 1)]),
            (&until, &[1, 1, 0, 2], &[(0, 1), (1, 1), (2, 0), (2, 1)]),
            (&since, &[2, 3, 1, 0], &[(1, 1), (2, 0)]),
            (&since, &[2, 0, 1, 3], &[(1, 0), (1, 1), (2, 1)]),
            (&since, &[1, 1, 1, 3], &[(0, 1), (1, 1), (2, 1)]),
            (&same, &[1], &[(0, 0)]),
            (&same, &[0], &[(0, 0), (0, 1)]),
        ];
        for (rule, words, pairs) in both {
            evidence(check, (rule, &steps(3, words)), weak, pairs)?;
        }
        evidence(check, (&rule(&[q]), &steps(1, &[2])), weak, &[])?;
        evidence(check, (&rule(&[p, (NEXT, 0, 0)]), &steps(3, &[1])), weak, &[])?;
    }
    named(check, widest(), 0, &[31 * 128])
}

/// All trials.
pub fn jobs<'a>() -> Vec<Job<'a>> {
    let mut jobs: Vec<Job> = vec![
        Box::new(starred),
        Box::new(node_limit),
        Box::new(table_limit),
        Box::new(state_limit),
        Box::new(atom_limit),
        Box::new(joint_readings),
        Box::new(either_ending),
        Box::new(rule_endings),
        Box::new(recording_endings),
        Box::new(one_line),
        Box::new(traps),
        Box::new(mid_step),
        Box::new(each_beginning),
        Box::new(past),
        Box::new(walked),
        Box::new(eleven_in_texts),
        Box::new(eleven_in_tables),
        Box::new(eleven_masks_lent),
    ];
    jobs.extend(sessions::trials::jobs());
    jobs.extend(gauges::trials::jobs());
    jobs
}

//! Recordings with gauges: every number spelt and read, every short text as a
//! field, every small recording, gauge lines and values of every number and in
//! every place, and random ones, accepted and damaged.

pub mod misgauge;
pub mod trials;

use reference::generate::endings::any_endings;
use reference::generate::gauge_trials::text;
use reference::generate::gauges::{damaged_gauges, gauged, gauged_text, spelt, LEAST, MOST};
use reference::generate::recordings::{self, RecordingTable};
use reference::generate::rules;
use reference::generate::texts::{damaged, rule_text, GAUGE_NUMBERS, NUMBERS};
use reference::model::limits::{CONTROLLERS, GAUGES, RULE_NODES, STATES};

use crate::check::Check;
use crate::difference::Difference;
use crate::endings::compare;
use crate::input::Input;
use crate::plan::Plan;
use crate::tally::{Operation, Section};
use crate::texts::{read, Kind};
use crate::work::Job;
use crate::wrong::Place;

/// Numbers of one job.
const CHUNK: usize = 4096;
/// Texts of one random batch.
const TEXTS: usize = 50;

/// Reads a text with gauges, which is accepted, and requires that it leaves these
/// finished states.
fn finished(check: &mut Check, text: Vec<u8>, table: &RecordingTable) -> Result<(), Difference> {
    let input = Input::read_recording(text);
    let found = compare(check, &input)?;
    let mut states = table.states.clone();
    if check.wrong(Operation::Finished, Place::Content) {
        states[0] ^= 1;
    }
    check.count(Operation::Finished, 1, states.len() as u64);
    let same = found.number == 0
        && found.values == [table.controllers, table.length]
        && found.slice(1)[..table.length] == states;
    if same {
        return Ok(());
    }
    Err(Difference::new(format!("the finished states {states:x?}"), input.to_string()))
}

/// A recording of one state with a gauge at each of the first atoms, and the bits
/// that these thresholds and values make.
fn one_state(check: &mut Check, pairs: &[(i64, i64)]) -> Result<(), Difference> {
    let mut lines = "recording 1 1; owns 00000001".to_string();
    for (atom, (threshold, _)) in pairs.iter().enumerate() {
        lines.push_str(&format!("; gauge {atom} {}", spelt(*threshold)));
    }
    lines.push_str("; at 00 00000000");
    for (_, value) in pairs {
        lines.push_str(&format!(" {}", spelt(*value)));
    }
    let bits = pairs.iter().enumerate();
    let bits = bits.map(|(atom, (threshold, value))| u64::from(value >= threshold) << atom);
    let table =
        RecordingTable { controllers: 1, length: 1, masks: vec![1], states: vec![bits.sum()] };
    finished(check, text(&lines), &table)
}

/// Numbers, each as a value and as a threshold, against those at the ends, at zero
/// and right beside it.
fn every_number(check: &mut Check, numbers: &[i64]) -> Result<(), Difference> {
    for &number in numbers {
        let (below, above) = ((number - 1).max(LEAST), (number + 1).min(MOST));
        let others = [LEAST, below, number, above, MOST, -1, 0, 1];
        one_state(check, &others.map(|other| (other, number)))?;
        one_state(check, &others.map(|other| (number, other)))?;
    }
    Ok(())
}

/// All lists of up to so many of these bytes.
fn lists(bytes: &[u8], most: usize) -> Vec<Vec<u8>> {
    let mut all = vec![Vec::new()];
    let mut longest = all.clone();
    for _ in 0..most {
        let longer = |list: &Vec<u8>| {
            let list = list.clone();
            bytes.iter().map(move |byte| [&list[..], &[*byte]].concat())
        };
        longest = longest.iter().flat_map(longer).collect();
        all.extend(longest.clone());
    }
    all
}

/// A field as a threshold, as a value, and as an atom.
fn as_field(check: &mut Check, field: &[u8]) -> Result<(), Difference> {
    let start = b"recording\t1\t1\nowns\t00000001\ngauge\t";
    let parts: [[&[u8]; 2]; 3] = [
        [b"3\t", b"\nat\t00\t00000000\t0.00\n"],
        [b"3\t0.00\nat\t00\t00000000\t", b"\n"],
        [b"", b"\t0.00\nat\t00\t00000000\t0.00\n"],
    ];
    for [before, after] in parts {
        check.compare(&Input::read_recording([start, before, field, after].concat()))?;
    }
    Ok(())
}

/// Thresholds and values of small recordings.
const SMALL: [&str; 3] = ["-0.01", "0.00", "0.01"];

/// All lists of so many of the small numbers, each after a tab.
fn small_values(count: usize) -> Vec<String> {
    let longer = |lists: Vec<String>| {
        let with = |list: &String| SMALL.map(|value| format!("{list}\t{value}"));
        lists.iter().flat_map(with).collect()
    };
    (0..count).fold(vec![String::new()], |lists, _| longer(lists))
}

/// Every list of up to two gauges at two atoms, the same one twice too.
fn small_gauges() -> Vec<(usize, String)> {
    let lines: Vec<String> = (0..2)
        .flat_map(|atom| SMALL.map(|threshold| format!("gauge\t{atom}\t{threshold}\n")))
        .collect();
    let mut all = vec![(0, String::new())];
    all.extend(lines.iter().map(|line| (1, line.clone())));
    for first in &lines {
        all.extend(lines.iter().map(|second| (2, format!("{first}{second}"))));
    }
    all
}

/// Every recording of two states, two atoms and one controller with these gauges:
/// every mask, word and value, with and without a run between the two.
fn small(check: &mut Check, count: usize, gauges: &str) -> Result<(), Difference> {
    let values = small_values(count);
    for choice in 0..4 * 2 * 4 * 4 {
        let (mask, marks) = (choice % 4, choice / 4 % 2);
        let (first, second) = (choice / 8 % 4, choice / 32);
        let start = format!("recording\t1\t2\nowns\t{mask:08x}\n{gauges}at\t{marks:02x}");
        for before in &values {
            for after in &values {
                let states = format!("\t{first:08x}{before}\nat\t00\t{second:08x}{after}\n");
                let text = format!("{start}{states}").into_bytes();
                check.compare(&Input::read_recording(text))?;
            }
        }
    }
    Ok(())
}

/// So many gauge lines, and so many values in either state.
fn counts(check: &mut Check, gauges: usize) -> Result<(), Difference> {
    let lines: String = (0..gauges).map(|atom| format!("gauge\t{atom}\t0.00\n")).collect();
    let state = |values: usize| format!("at\t00\t00000000{}\n", "\t0.50".repeat(values));
    for first in 0..=GAUGES + 2 {
        for second in 0..=GAUGES + 2 {
            let states = state(first) + &state(second);
            let text = format!("recording\t1\t2\nowns\t00000001\n{lines}{states}");
            read(check, Kind::Gauges, text.into_bytes())?;
        }
    }
    Ok(())
}

/// Lines that may or may not be gauge lines, put before every line of a recording
/// with so many gauges, and after the last.
fn places(check: &mut Check, gauges: usize) -> Result<(), Difference> {
    let mut lines = vec!["recording 2 2".to_string()];
    lines.extend(["owns 00000001", "owns 00000002"].map(String::from));
    lines.extend((0..gauges).map(|atom| format!("gauge {} 0.00", atom + 8)));
    lines.extend(vec![format!("at 00 00000000{}", " 0.50".repeat(gauges)); 2]);
    let put = ["gauge 20 0.00", "gauge 8 0.00", "gauge 8 327.68", "gauge 32 0.00", "gauge 20 0.0"];
    let more = ["gauge 20", "gauge", "gauges 20 0.00", "Gauge 20 0.00", " gauge 20 0.00", "owns 0"];
    for line in put.into_iter().chain(more) {
        for at in 0..=lines.len() {
            let mut longer = lines.clone();
            longer.insert(at, line.to_string());
            read(check, Kind::Gauges, text(&longer.join("; ")))?;
            let open = text(&longer[..=at].join("; "));
            read(check, Kind::Gauges, open[..open.len() - 1].to_vec())?;
        }
    }
    Ok(())
}

/// Every two odd numbers beside each other: as two values, as an atom and a
/// threshold, and as a threshold and a value, with the bit set or not.
fn number_pairs(check: &mut Check, first: &str) -> Result<(), Difference> {
    let start = "recording\t1\t1\nowns\t00000001\ngauge\t3\t";
    for second in GAUGE_NUMBERS {
        for word in ["00000000", "00000008"] {
            let values = format!("0.00\ngauge\t4\t0.00\nat\t00\t{word}\t{first}\t{second}\n");
            read(check, Kind::Gauges, format!("{start}{values}").into_bytes())?;
            let both = format!("{first}\nat\t00\t{word}\t{second}\n");
            read(check, Kind::Gauges, format!("{start}{both}").into_bytes())?;
        }
        for atom in NUMBERS.into_iter().take(16) {
            let twice = format!("0.00\ngauge\t{atom}\t{first}\nat\t00\t00000000\t0.00\t{second}\n");
            read(check, Kind::Gauges, format!("{start}{twice}").into_bytes())?;
        }
    }
    Ok(())
}

/// Random recordings with gauges: accepted, refused for the gauges' sake, and
/// damaged as texts; alone, jointly, and with lent space of any length.
fn random_gauges(check: &mut Check, plan: &Plan, batch: usize) -> Result<(), Difference> {
    let mut random = plan.random(Section::Gauges, batch);
    for _ in 0..TEXTS {
        let states = if random.once_in(4) { STATES } else { 8 };
        let table = recordings::recording(&mut random, CONTROLLERS, states);
        let controller = random.below(table.controllers);
        let rule = rule_text(&rules::rule_for(&mut random, controller, RULE_NODES));
        let valid = gauged_text(&gauged(&mut random, &table));
        let valid = any_endings(&mut random, valid);
        finished(check, valid.clone(), &table)?;
        let wrong = gauged_text(&damaged_gauges(&mut random, &table));
        let wrong = any_endings(&mut random, wrong);
        let broken = damaged(&mut random, &valid);
        for text in [valid, wrong, broken] {
            compare(check, &Input::read_recording(text.clone()))?;
            let joint = Input::read_joint(rule.clone(), text);
            compare(check, &joint)?;
            check.compare(&joint.lent_anew(&mut random))?;
        }
    }
    Ok(())
}

/// Jobs for all texts as a field.
fn field_jobs<'a>(plan: &Plan) -> Vec<Job<'a>> {
    let every_byte: Vec<u8> = (0..=255).collect();
    let mut fields = lists(&every_byte, plan.field_bytes.min(2));
    fields.extend(lists(b"-.0237", plan.field_bytes));
    fields.extend(lists(b"-+.,01", plan.field_bytes));
    let mut jobs: Vec<Job> = Vec::new();
    for fields in fields.chunks(CHUNK) {
        let fields = fields.to_vec();
        jobs.push(Box::new(move |check| {
            fields.iter().try_for_each(|field| as_field(check, field))
        }));
    }
    jobs
}

/// All texts with gauges.
pub fn jobs(plan: &Plan) -> Vec<Job<'_>> {
    let mut jobs: Vec<Job> = Vec::new();
    for batch in 0..plan.gauge_batches {
        jobs.push(Box::new(move |check| random_gauges(check, plan, batch)));
    }
    for gauges in 0..=GAUGES + 1 {
        jobs.push(Box::new(move |check| counts(check, gauges)));
        jobs.push(Box::new(move |check| places(check, gauges)));
    }
    for number in GAUGE_NUMBERS.into_iter().step_by(plan.gauge_step) {
        jobs.push(Box::new(move |check| number_pairs(check, number)));
    }
    for (count, gauges) in small_gauges().into_iter().step_by(plan.gauge_step) {
        jobs.push(Box::new(move |check| small(check, count, &gauges)));
    }
    let numbers: Vec<i64> = (LEAST..=MOST).step_by(plan.gauge_step).collect();
    for numbers in numbers.chunks(CHUNK) {
        let numbers = numbers.to_vec();
        jobs.push(Box::new(move |check| every_number(check, &numbers)));
    }
    jobs.extend(field_jobs(plan));
    jobs
}

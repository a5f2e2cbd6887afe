//! Document 02, gauges: the form of a number, the trials at each number, edge and
//! trap, and that a recording with gauges is the recording of its finished words.

use std::collections::BTreeMap;

use reference::generate::gauge_trials::{one_gauge, text, MALFORMED, OUTSIDE, READ, TRIALS};
use reference::generate::gauges::{
    damaged_gauges, gauged, gauged_by, gauged_text, spelt, LEAST, MOST,
};
use reference::generate::random::Random;
use reference::generate::recordings;
use reference::generate::texts::{recording_text, GAUGE_NUMBERS};
use reference::model::gauges::{check_limits, hundredths};
use reference::model::{self, limits, text as model_text};

/// The states that a recording text leaves, or its refusal.
fn states(text: &[u8]) -> Result<Vec<u64>, u8> {
    let (mut masks, mut states) = (vec![1; limits::CONTROLLERS], vec![1; limits::STATES]);
    let answer = model::read_recording(text, &mut masks, &mut states);
    let unused = answer.map_or(0, |heading| heading.states);
    assert!(states[unused..].iter().all(|word| *word == 0), "unused entries are zero");
    states.truncate(answer?.states);
    Ok(states)
}

/// A number within the limits that a field is, if it is one.
fn accepted(field: &[u8]) -> Option<i64> {
    let number = hundredths(field)?;
    check_limits(number).ok().map(|()| number as i64)
}

#[test]
fn every_number_has_one_spelling() {
    let spellings: BTreeMap<Vec<u8>, i64> =
        (LEAST..=MOST).map(|number| (spelt(number).into_bytes(), number)).collect();
    assert_eq!(spellings.len(), 65_536);
    for (field, number) in &spellings {
        assert_eq!(accepted(field), Some(*number));
    }
    let mut fields = vec![Vec::new()];
    let mut longest = fields.clone();
    for _ in 0..7 {
        let longer = |field: &Vec<u8>| b"-.0237".map(|byte| [&field[..], &[byte]].concat());
        longest = longest.iter().flat_map(longer).collect();
        fields.extend(longest.clone());
    }
    for field in &fields {
        assert_eq!(accepted(field), spellings.get(field).copied(), "{}", field.escape_ascii());
    }
}

#[test]
fn a_number_at_zero_and_at_both_ends() {
    assert_eq!(accepted(b"0.00"), Some(0));
    assert_eq!(accepted(b"327.67"), Some(32_767));
    assert_eq!(accepted(b"-327.68"), Some(-32_768));
    for (threshold, value, set) in READ {
        let expected = vec![u64::from(set) << 3];
        assert_eq!(states(&one_gauge("3", threshold, value)), Ok(expected), "{threshold} {value}");
    }
}

#[test]
fn numbers_that_are_refused() {
    for (fields, number) in [(&MALFORMED[..], 5), (&OUTSIDE[..], 6)] {
        for field in fields {
            assert_eq!(states(&one_gauge("3", field, "0.00")), Err(number), "threshold {field}");
            assert_eq!(states(&one_gauge("3", "0.00", field)), Err(number), "value {field}");
        }
    }
    let within = GAUGE_NUMBERS.iter().filter(|field| accepted(field.as_bytes()).is_some());
    assert_eq!(within.count(), 11);
}

#[test]
fn trials() {
    for (lines, answer) in TRIALS {
        assert_eq!(states(&text(lines)), answer.map(<[u64]>::to_vec), "{lines}");
    }
}

#[test]
fn either_ending_at_a_gauge_line() {
    let plain = one_gauge("3", "0.00", "0.00");
    let returned = String::from_utf8(plain.clone()).expect("letters").replace('\n', "\r\n");
    assert_eq!(states(returned.as_bytes()), Ok(vec![8]));
    for wrong in ["gauge\t3\t0.00\r\r\n", "gauge\t3\t0.00\r", "gauge\t3\r\t0.00\n"] {
        let text = String::from_utf8(plain.clone()).expect("letters");
        let text = text.replace("gauge\t3\t0.00\n", wrong);
        assert_eq!(states(text.as_bytes()), Err(5), "{}", wrong.escape_debug());
    }
    let unclosed = &plain[..plain.len() - b"\nat\t00\t00000000\t0.00\n".len()];
    assert_eq!(states(unclosed), Err(5));
    let refused = model_text::read_recording(unclosed).expect_err("unclosed");
    assert_eq!(&unclosed[refused.line], b"gauge\t3\t0.00");
}

#[test]
fn the_longest_recording() {
    let (masks, states) = (vec![0; 11], vec![0; 128]);
    let table = recordings::RecordingTable { controllers: 11, length: 128, masks, states };
    let mut gauged = gauged_by(&mut Random::new(1), &table, 8);
    gauged.gauges = (24..32).map(|atom| (atom, -30_000)).collect();
    gauged.values = vec![vec![LEAST; 8]; 128];
    let text = gauged_text(&gauged);
    assert_eq!(text.len(), 10_547);
    assert!(self::states(&text).is_ok());
}

#[test]
fn finished_words_are_the_recording() {
    let mut random = Random::new(12);
    for _ in 0..3000 {
        let recording = recordings::recording(&mut random, limits::CONTROLLERS, limits::STATES);
        let text = gauged_text(&gauged(&mut random, &recording));
        assert_eq!(states(&text), Ok(recording.states.clone()));
        assert_eq!(states(&recording_text(&recording)), Ok(recording.states));
    }
}

#[test]
fn damaged_gauges_meet_every_number() {
    let mut random = Random::new(20);
    let mut met = BTreeMap::new();
    for _ in 0..3000 {
        let recording = recordings::recording(&mut random, limits::CONTROLLERS, 20);
        let answer = states(&gauged_text(&damaged_gauges(&mut random, &recording)));
        *met.entry(answer.err().unwrap_or(0)).or_insert(0) += 1;
    }
    for number in [0, 5, 6, 10, 19, 20] {
        assert!(met.get(&number).copied().unwrap_or(0) > 50, "{number}: {met:?}");
    }
}

#[test]
fn sessions_have_no_gauges() {
    let session = |events: &str| {
        let opening = "rule 0 1; true; -; session 1; owns 00000001; ";
        let output = model::watching::program(&text(&format!("{opening}{events}")));
        String::from_utf8(output).expect("letters").replace('\t', " ")
    };
    let held = "states 1 yes yes kept\n";
    assert_eq!(session("at 00 00000008"), format!("states 0\n{held}"));
    assert_eq!(session("gauge 3 0.00"), "states 0\nrefused 5 gauge 3 0.00\n");
    let valued = "at 00 00000000 0.00";
    assert_eq!(session(valued), format!("states 0\nrefused 5 {valued}\n"));
}

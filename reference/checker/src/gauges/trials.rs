//! The trials of "Gauges", against the numbers and the finished states that are
//! named.

use reference::generate::endings::with_returns;
use reference::generate::gauge_trials::{one_gauge, text, Trial, MALFORMED, OUTSIDE, READ, TRIALS};
use reference::generate::texts::rule_text;

use crate::check::Check;
use crate::difference::Difference;
use crate::input::Input;
use crate::trials::{example_rule, handed_back, named};
use crate::work::Job;

/// A text, and the finished states or the number that it is named to answer, with
/// either ending.
fn answers(check: &mut Check, text: &[u8], answer: Result<&[u64], u8>) -> Result<(), Difference> {
    let heading = String::from_utf8_lossy(text).lines().next().unwrap_or_default().to_string();
    let sizes: Vec<usize> = heading.split('\t').filter_map(|field| field.parse().ok()).collect();
    for text in [text.to_vec(), with_returns(text, |_| true)] {
        let input = Input::read_recording(text);
        named(check, input.clone(), answer.err().unwrap_or(0), &sizes)?;
        let states = answer.unwrap_or_default();
        if check.compare(&input)?.slice(1)[..states.len()] != *states {
            let place = format!("the trial: named states {states:x?}");
            return Err(Difference::new(place, input.to_string()));
        }
    }
    Ok(())
}

/// Numbers: at zero and at both ends, malformed, and outside the limits.
fn numbers(check: &mut Check) -> Result<(), Difference> {
    for (threshold, value, set) in READ {
        answers(check, &one_gauge("3", threshold, value), Ok(&[u64::from(set) << 3]))?;
    }
    for (fields, number) in [(&MALFORMED[..], 5), (&OUTSIDE[..], 6)] {
        for field in fields {
            answers(check, &one_gauge("3", field, "0.00"), Err(number))?;
            answers(check, &one_gauge("3", "0.00", field), Err(number))?;
        }
    }
    Ok(())
}

/// Order, places and numbers of refusals.
fn listed(check: &mut Check) -> Result<(), Difference> {
    TRIALS.iter().try_for_each(|(lines, answer): &Trial| answers(check, &text(lines), *answer))
}

/// The joint reading hands back the gauge line or the `at` line.
fn lines(check: &mut Check) -> Result<(), Difference> {
    let rule = rule_text(&example_rule());
    let start = "recording 1 1; owns 00000001; gauge 3 0.00";
    let refused = [("gauge 3 1.00", 19), ("gauge 4 327.68", 6), ("at 00 00000008 1.00", 20)];
    for (line, number) in refused {
        let text = text(&format!("{start}; {line}; at 00 00000000 0.00"));
        let (at, line) = (start.len() - 1, line.replace(' ', "\t"));
        handed_back(check, [&rule, &text], number, (1, at, line.as_bytes()))?;
    }
    Ok(())
}

/// All trials of gauges.
pub fn jobs<'a>() -> Vec<Job<'a>> {
    vec![Box::new(numbers), Box::new(listed), Box::new(lines)]
}

//! Wrong printers of the program `watch` on purpose.

use reference::model::{text, watching};

/// The wrong printers.
#[derive(Clone, Copy, PartialEq, Eq, Debug)]
pub enum Miswatched {
    /// `kept` where only the weak verdict is yes.
    OpenKept,
    /// An empty session is open.
    EmptyOpen,
    /// Nothing is printed of an event that is refused.
    Silent,
    /// It ends with the first event that is refused.
    GivesUp,
    /// It doesn't end with an opening that is refused.
    GoesOn,
    /// All of a long line is printed.
    WholeLine,
    /// The last line is an event though it isn't closed.
    UnclosedEvent,
    /// The last event has no answer.
    LastIgnored,
    /// The line that ends a refused rule is read as an event, too.
    ReadAgain,
    /// A new rule is taken one line early.
    RuleEarly,
    /// After a new rule the verdict of the former one is printed.
    FormerVerdict,
}

impl Miswatched {
    /// The name that `--wrong` takes.
    pub fn name(self) -> &'static str {
        match self {
            Miswatched::OpenKept => "open_kept",
            Miswatched::EmptyOpen => "empty_open",
            Miswatched::Silent => "silent",
            Miswatched::GivesUp => "gives_up",
            Miswatched::GoesOn => "goes_on",
            Miswatched::WholeLine => "whole_line",
            Miswatched::UnclosedEvent => "unclosed_event",
            Miswatched::LastIgnored => "last_ignored",
            Miswatched::ReadAgain => "read_again",
            Miswatched::RuleEarly => "rule_early",
            Miswatched::FormerVerdict => "former_verdict",
        }
    }

    /// What the wrong program prints where the right one prints this.
    pub(super) fn of(self, input: &[u8], output: &[u8]) -> Vec<u8> {
        let answers: Vec<&[u8]> = output.split_inclusive(|byte| *byte == b'\n').collect();
        let refused = |answer: &&[u8]| answer.starts_with(b"refused");
        let opened = !refused(&answers[0]);
        match self {
            Miswatched::OpenKept => replaced(&answers, b"\tyes\tno\topen\n", b"\tyes\tno\tkept\n"),
            Miswatched::EmptyOpen => {
                replaced(&answers, b"states\t0\n", b"states\t0\tyes\tno\topen\n")
            }
            Miswatched::Silent if opened => {
                answers.into_iter().filter(|answer| !refused(answer)).collect::<Vec<_>>().concat()
            }
            Miswatched::GivesUp if opened => {
                let last = answers.iter().position(refused);
                answers[..last.map_or(answers.len(), |last| last + 1)].concat()
            }
            Miswatched::GoesOn if !opened => [output, output].concat(),
            Miswatched::WholeLine => whole_lines(input, &answers),
            Miswatched::UnclosedEvent if opened => watching::program(&[input, b"\n"].concat()),
            Miswatched::LastIgnored if opened => answers[..answers.len() - 1].concat(),
            Miswatched::ReadAgain => other_events(input, read_again),
            Miswatched::RuleEarly => other_events(input, one_early),
            Miswatched::FormerVerdict => former_verdicts(input, &answers),
            _ => output.to_vec(),
        }
    }
}

/// The answers with another end for those that end so.
fn replaced(answers: &[&[u8]], end: &[u8], other: &[u8]) -> Vec<u8> {
    let answer = |answer: &&[u8]| match answer.strip_suffix(end) {
        Some(start) => [start, other].concat(),
        None => answer.to_vec(),
    };
    answers.iter().map(answer).collect::<Vec<_>>().concat()
}

/// The answers with all of a refused line that is longer than it is printed.
fn whole_lines(input: &[u8], answers: &[&[u8]]) -> Vec<u8> {
    let long = |answer: &&[u8]| {
        let printed = answer.strip_prefix(b"refused\t5\t")?.strip_suffix(b"\n")?;
        let lines = input.split(|byte| *byte == b'\n');
        let mut longer = lines.filter(|line| line.len() > printed.len() && printed.len() == 1024);
        let line = longer.find(|line| line.starts_with(printed))?;
        Some([b"refused\t5\t", line, b"\n"].concat())
    };
    let answer = |answer: &&[u8]| long(answer).unwrap_or(answer.to_vec());
    answers.iter().map(answer).collect::<Vec<_>>().concat()
}

/// What is printed where each event is another one.
fn other_events(input: &[u8], other: impl Fn(&[u8]) -> Vec<u8>) -> Vec<u8> {
    let (opening, events) = watching::events(input);
    let events: Vec<Vec<u8>> = events.iter().map(|event| other(event)).collect();
    watching::program(&[opening, &events.concat()].concat())
}

/// A refused rule of more than one line, with its last line once more.
fn read_again(event: &[u8]) -> Vec<u8> {
    let lines: Vec<&[u8]> = event.split_inclusive(|byte| *byte == b'\n').collect();
    match lines[..] {
        [_, .., last] if text::read_rule(event).is_err() && last.ends_with(b"\n") => {
            [event, last].concat()
        }
        _ => event.to_vec(),
    }
}

/// A rule whose heading says one line fewer.
fn one_early(event: &[u8]) -> Vec<u8> {
    let (_, nodes) = event.split_at(event.iter().take_while(|byte| **byte != b'\n').count());
    match text::read_rule(event) {
        Ok(rule) => {
            let heading = format!("rule\t{}\t{}", rule.controller, rule.nodes.len() - 1);
            [heading.as_bytes(), nodes].concat()
        }
        Err(_) => event.to_vec(),
    }
}

/// The answers, to each new rule the one before it that isn't a refusal.
fn former_verdicts(input: &[u8], answers: &[&[u8]]) -> Vec<u8> {
    let (_, events) = watching::events(input);
    let mut former = answers[0];
    let mut printed = former.to_vec();
    for (event, answer) in events.iter().zip(&answers[1..]) {
        if answer.starts_with(b"refused") {
            printed.extend(*answer);
            continue;
        }
        if text::read_rule(event).is_err() {
            former = answer;
        }
        printed.extend(former);
    }
    printed
}

//! The program `watch`: what it prints of a session, line by line.

use reference::generate::endings::with_returns;
use reference::generate::random::Random;
use reference::generate::recordings;
use reference::generate::rules;
use reference::generate::texts::{program_input, recording_text, rule_text};
use reference::model::limits::{CONTROLLERS, PROGRAM_INPUT, STATES};
use reference::model::program as judge;
use reference::model::watching::{answers, program};

/// Text with tabs for spaces.
fn tabbed(text: &str) -> Vec<u8> {
    text.replace(' ', "\t").into_bytes()
}

/// What it prints of a rule and the events of a session.
fn watched(rule: &str, events: &str) -> String {
    let output = program(&program_input(&tabbed(rule), &tabbed(events)));
    String::from_utf8(output).expect("words").replace('\t', " ")
}

const OWN_ATOM: &str = "rule 0 1\natom 0\n";
const OPENING: &str = "session 2\nowns 00000001\nowns 00000002\n";

#[test]
fn a_state_is_withdrawn() {
    let events = format!("{OPENING}at 01 00000001\nwithdraw\nat 01 00000000\nat 00 00000001\n");
    let printed = "states 0\nstates 1 yes yes kept\nstates 0\nstates 1 no no broken\n\
        states 2 no no broken\n";
    assert_eq!(watched(OWN_ATOM, &events), printed);
    let input = program_input(&tabbed(OWN_ATOM), &tabbed(&events));
    assert_eq!(program(&with_returns(&input, |_| true)), tabbed(printed));
}

#[test]
fn a_refused_event_changes_nothing() {
    let events = format!(
        "{OPENING}withdraw\nat 00 00000001\nat 04 00000001\nat 00 00000000\n\
        at 0 00000001\n\nat 00 00000001\nwithdraw"
    );
    let printed = "states 0\nrefused 18 withdraw\nstates 1 yes yes kept\n\
        refused 6 at 04 00000001\nrefused 10 at 00 00000000\nrefused 5 at 0 00000001\n\
        refused 5 \nstates 2 yes yes kept\nrefused 5 withdraw\n";
    assert_eq!(watched(OWN_ATOM, &events), printed);
}

#[test]
fn a_refused_opening_is_the_end() {
    let refused = |rule: &str, events: &str, line: &str| {
        assert_eq!(watched(rule, events), format!("refused {line}\n"), "{rule}{events}");
    };
    refused("rule 0 1\nnot 0\n", "session 0\n", "3 not 0");
    refused(OWN_ATOM, "session 0\nowns 1\n", "6 session 0");
    refused(OWN_ATOM, "session 12\n", "6 session 12");
    refused(OWN_ATOM, "session 2 3\n", "5 session 2 3");
    refused(OWN_ATOM, "session 2\nat 00 00000000\n", "5 at 00 00000000");
    refused(OWN_ATOM, "session 2\nowns 00000001\nowns 00000001\nx\n", "7 owns 00000001");
    refused(OWN_ATOM, "session 2\nowns 00000001\n", "8 ");
    refused(OWN_ATOM, "", "8 ");
    refused("rule 2 1\ntrue\n", OPENING, "11 rule 2 1");
    assert_eq!(program(&tabbed(OWN_ATOM)), b"refused\t8\t\n");
    assert_eq!(program(&tabbed("rule 0 1\natom 0\n-")), b"refused\t4\t-\n");
    assert_eq!(program(b""), b"refused\t4\t\n");
    assert_eq!(program(&vec![b'a'; PROGRAM_INPUT + 1]), b"refused\t14\t\n");
    assert_eq!(program(&vec![b'a'; PROGRAM_INPUT])[..10], b"refused\t1\ta"[..10]);
}

#[test]
fn a_new_rule_is_one_event() {
    let opening = format!("{OPENING}at 01 00000000\nat 00 00000001\n");
    let before = "states 0\nstates 1 no no broken\nstates 2 no no broken\n";
    let answered = |events: &str, printed: &str| {
        let events = format!("{opening}{events}");
        assert_eq!(watched(OWN_ATOM, &events), format!("{before}{printed}"), "{events}");
    };
    answered(
        "rule 0 2\natom 0\nnext 0\nwithdraw\n",
        "states 2 yes yes kept\nstates 1 yes no open\n",
    );
    answered("rule 1 1\r\ntrue\r\n", "states 2 yes yes kept\n");
    let former = "states 1 no no broken\n";
    answered("rule 2 1\ntrue\nwithdraw\n", &format!("refused 11 rule 2 1\n{former}"));
    answered("rule 11 1\nwithdraw\n", &format!("refused 2 rule 11 1\n{former}"));
    answered("rule 0 0\nwithdraw\n", &format!("refused 2 rule 0 0\n{former}"));
    answered("rule\nwithdraw\n", &format!("refused 1 rule\n{former}"));
    answered("rules\nwithdraw\n", &format!("refused 5 rules\n{former}"));
    answered("rule 0 2\nnot 0\nwithdraw\n", &format!("refused 3 not 0\n{former}"));
    answered("rule 0 2\nwithdraw\nwithdraw\n", &format!("refused 2 withdraw\n{former}"));
    let among = "rule 0 2\ntrue\nat 00 00000001\nwithdraw\n";
    answered(among, &format!("refused 2 at 00 00000001\n{former}"));
    let rule_among = "rule 0 2\ntrue\nrule 0 1\ntrue\nwithdraw\n";
    answered(rule_among, &format!("refused 2 rule 0 1\nrefused 5 true\n{former}"));
    answered("rule 0 1\n\nwithdraw\n", &format!("refused 1 \n{former}"));
    answered("rule 0 2\ntrue\n", "refused 4 \n");
    answered("rule 0 2\ntrue\nnot", "refused 1 not\n");
    answered("rule 0 2", "refused 1 rule 0 2\n");
    answered("rule", "refused 1 rule\n");
    answered("rul", "refused 5 rul\n");
    for length in [1023, 1024, 1025, 3000] {
        let line = "a".repeat(length);
        let shown = &line[..length.min(1024)];
        answered(&format!("rule 0 1\n{line}\nwithdraw\n"), &format!("refused 2 {shown}\n{former}"));
    }
}

#[test]
fn sizes_at_the_limits() {
    let full = "at 00 00000000\n".repeat(STATES);
    let events = format!("{OPENING}{full}at 04 00000001\nwithdraw\nat 04 00000000\n");
    let printed = watched(OWN_ATOM, &events);
    let end = "states 128 no no broken\nrefused 17 at 04 00000001\nstates 127 no no broken\n\
        refused 6 at 04 00000000\n";
    assert!(printed.ends_with(end), "{printed}");
    for length in [1023, 1024, 1025, 3000] {
        let line = "a".repeat(length);
        let shown = &line[..length.min(1024)];
        let events = format!("{OPENING}{line}\r\nwithdraw\n");
        let printed = format!("states 0\nrefused 5 {shown}\nrefused 18 withdraw\n");
        assert_eq!(watched(OWN_ATOM, &events), printed);
    }
    let long_after = format!("{OPENING}{}", "withdraw\n".repeat(PROGRAM_INPUT));
    assert_eq!(watched(OWN_ATOM, &long_after).lines().count(), 1 + PROGRAM_INPUT);
}

/// The events of a random session: the states of a recording with withdrawals,
/// new rules, and states that may be refused between them.
fn random_events(random: &mut Random, opening: usize, text: &[u8]) -> Vec<Vec<u8>> {
    let lines: Vec<&[u8]> = text.split_inclusive(|byte| *byte == 10).collect();
    let mut events = Vec::new();
    for state in &lines[opening..] {
        events.push(state.to_vec());
        if random.once_in(3) {
            events.push(b"withdraw\n".to_vec());
        }
        if random.once_in(3) {
            events.push(lines[random.between(opening, lines.len() - 1)].to_vec());
        }
        if random.once_in(3) {
            let controller = random.below(opening.min(CONTROLLERS));
            events.push(rule_text(&rules::rule_for(random, controller, 8)));
        }
    }
    events
}

/// A session: the rule's text, its `owns` lines, C, and the states that remain.
struct Remaining {
    rule: Vec<u8>,
    owns: Vec<u8>,
    controllers: usize,
    held: Vec<Vec<u8>>,
}

impl Remaining {
    /// What is held after an event that was accepted.
    fn take(&mut self, event: &[u8]) {
        if event.starts_with(b"withdraw") {
            self.held.pop().expect("one is held");
        } else if event.starts_with(b"rule") {
            self.rule = event.to_vec();
        } else {
            self.held.push(event.to_vec());
        }
    }

    /// The line `own` of judging the remaining states from the start.
    fn own(&self) -> Vec<u8> {
        let heading = format!("recording\t{}\t{}\n", self.controllers, self.held.len());
        let recording = [heading.as_bytes(), &self.owns, &self.held.concat()].concat();
        let judged = judge(&program_input(&self.rule, &recording));
        judged.split_inclusive(|byte| *byte == 10).nth(1).expect("accepted").to_vec()
    }

    /// Is this the answer where these states remain? The word, if they are any.
    fn answered(&self, answer: &[u8]) -> Option<Vec<u8>> {
        let fields: Vec<&[u8]> = answer.trim_ascii_end().split(|byte| *byte == 9).collect();
        assert_eq!(fields[1], self.held.len().to_string().as_bytes());
        if self.held.is_empty() {
            assert_eq!(fields.len(), 2);
            return None;
        }
        assert_eq!(self.own(), [b"own\t", fields[2], b"\t", fields[3], b"\n"].concat());
        Some(fields[4].to_vec())
    }
}

/// Follows a random session.
fn followed(random: &mut Random) {
    let recording = recordings::recording(random, CONTROLLERS, 12);
    let controllers = recording.controllers;
    let controller = random.below(controllers);
    let rule = rule_text(&rules::rule_for(random, controller, 8));
    let text = recording_text(&recording);
    let events = random_events(random, 1 + controllers, &text);
    let owns = recording.masks.iter().map(|mask| format!("owns\t{mask:08x}\n"));
    let owns = owns.collect::<String>().into_bytes();
    let heading = format!("session\t{controllers}\n");
    let session = [heading.as_bytes(), &owns, &events.concat()].concat();
    let printed = answers(&program_input(&rule, &session));
    assert_eq!(printed.len(), 1 + events.len());
    let mut remaining = Remaining { rule, owns, controllers, held: Vec::new() };
    assert_eq!(remaining.answered(&printed[0]), None);
    let mut before: Option<Vec<u8>> = None;
    for (event, answer) in events.iter().zip(&printed[1..]) {
        if answer.starts_with(b"refused") {
            continue;
        }
        remaining.take(event);
        let word = remaining.answered(answer);
        let arrived = event.starts_with(b"at");
        if arrived && before.as_ref().is_some_and(|word| word != b"open") {
            assert_eq!(word, before);
        }
        before = word;
    }
}

/// "After every list of arrivals and withdrawals from an empty session, refused
/// ones included, both verdicts equal those of judging the remaining states
/// from the start", by the rule that is then in force; and a settled one stays
/// so while nothing is withdrawn and no new rule comes.
#[test]
fn the_remaining_states_from_the_start() {
    let mut random = Random::new(10);
    (0..300).for_each(|_| followed(&mut random));
}

/// What is printed of a beginning is a beginning of what is printed, up to the
/// line that was cut.
#[test]
fn a_beginning_prints_a_beginning() {
    let events = format!("{OPENING}at 01 00000001\nwithdraw\r\nat 01 00000000\n");
    let input = program_input(&tabbed(OWN_ATOM), &tabbed(&events));
    let whole = answers(&input);
    for length in 0..input.len() {
        let printed = answers(&input[..length]);
        let closed = input[..length].iter().filter(|byte| **byte == 10).count();
        let answered = closed.saturating_sub(5);
        assert_eq!(printed[..answered], whole[..answered]);
        let cut = input[..length].last() != Some(&10);
        assert_eq!(printed.len(), answered + usize::from(cut || closed < 6));
        assert!(printed[answered..].iter().all(|answer| answer.starts_with(b"refused")));
    }
}

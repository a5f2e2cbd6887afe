//! Sessions: an arrival, a new rule, the verdicts, and a whole session as it
//! runs, each with its inputs and its sides.

use crate::case::{Side, Sides};
use crate::hand::session::{self, Judge};
use crate::hand::{check, plain, tuned};
use crate::inputs::RuleInput;
use ragyvosin::{full, Recording, Rule};
use reference::generate::random::Random;
use reference::generate::rules::RuleTable;
use reference::generate::sessions;
use reference::model::limits;
use reference::model::session::Contents;

/// Sessions that arrivals are of.
const SESSIONS: usize = 16;

/// Lent space is longer than its full size, and not zero at first.
pub fn space() -> Contents {
    Contents {
        heading: [0; full::HEADING],
        masks: vec![0xa5a5_a5a5; full::MASKS + 3],
        nodes: vec![0xa5a5_a5a5; full::RULE_NODES + 3],
        states: vec![0xa5a5_a5a5_a5a5_a5a5; full::STATES + 3],
    }
}

/// A session that holds all states of an accepted recording.
fn holding(input: &RuleInput) -> Contents {
    let mut contents = space();
    let (number, _) = run(input, &mut contents, &BY_LIBRARY);
    assert_eq!(number, 0, "the session opens");
    assert_eq!(contents.heading[3], input.recording().count, "every state is taken");
    contents
}

/// The contents of sessions of exactly this size.
pub fn exact(random: &mut Random, nodes: usize, states: usize) -> Contents {
    holding(&RuleInput::exact(random, nodes, states))
}

/// A state that arrives in one of the sessions when it holds so many.
pub struct Arrival {
    session: usize,
    held: usize,
    state: u64,
}

/// Sessions, and arrivals of states that each has at that place: they leave it
/// as it was.
pub fn arrivals(nodes: usize, states: usize, count: usize) -> (Vec<Contents>, Vec<Arrival>) {
    let mut random = Random::new(7);
    let all: Vec<Contents> = (0..SESSIONS).map(|_| exact(&mut random, nodes, states)).collect();
    let mut draw = |number: usize| {
        let (session, held) = (number % SESSIONS, random.below(states));
        Arrival { session, held, state: all[session].states[held] }
    };
    let arrivals = (0..count).map(&mut draw).collect();
    (all, arrivals)
}

/// Any contents, and any arrivals.
pub fn any_arrivals(count: usize) -> (Vec<Contents>, Vec<Arrival>) {
    let mut random = Random::new(7);
    let all: Vec<Contents> = (0..SESSIONS).map(|_| sessions::contents(&mut random)).collect();
    let mut draw = |number: usize| {
        let session = number % SESSIONS;
        let contents = &all[session];
        let held = match random.below(3) {
            0 => contents.heading[3],
            1 => random.below(limits::STATES + 2),
            _ => random.beyond(limits::STATES),
        };
        let there = contents.masks.len().min(contents.heading[0]).min(limits::CONTROLLERS);
        let last = held.checked_sub(1).and_then(|last| contents.states.get(last).copied());
        let state = sessions::any_arrival(&mut random, &contents.masks[..there], last);
        Arrival { session, held, state }
    };
    let arrivals = (0..count).map(&mut draw).collect();
    (all, arrivals)
}

/// The session of an arrival, holding as many as it then does.
fn at<'a>(arrival: &Arrival, all: &'a mut [Contents]) -> &'a mut Contents {
    let contents = &mut all[arrival.session];
    contents.heading[3] = arrival.held;
    contents
}

pub fn arrive() -> Sides<Arrival, Vec<Contents>, u8> {
    vec![
        (Side::Proved, |i, l| {
            let Contents { heading, masks, states, .. } = at(i, l);
            ragyvosin::arrive(i.state, heading, masks, states)
        }),
        (Side::Plain, |i, l| {
            let Contents { heading, masks, states, .. } = at(i, l);
            session::arrive(i.state, heading, masks, states)
        }),
        (Side::OneState, |i, l| {
            let Contents { heading, masks, states, .. } = at(i, l);
            let there = &masks[..heading[0].min(masks.len())];
            let before = heading[3].checked_sub(1).map(|last| states[last]);
            check::state(heading[0], there, before, i.state).err().unwrap_or(0)
        }),
    ]
}

/// A new rule for one of the sessions.
pub struct NewRule {
    session: usize,
    rule: RuleTable,
}

impl NewRule {
    fn rule(&self) -> Rule<'_> {
        Rule { controller: self.rule.controller, count: self.rule.count, nodes: &self.rule.nodes }
    }
}

/// Sessions, and rules of exactly this size for their controllers.
pub fn new_rules(nodes: usize, states: usize, count: usize) -> (Vec<Contents>, Vec<NewRule>) {
    let mut random = Random::new(7);
    let all: Vec<Contents> = (0..SESSIONS).map(|_| exact(&mut random, nodes, states)).collect();
    let mut draw = |number: usize| {
        let session = number % SESSIONS;
        let contents = exact(&mut random, nodes, 1);
        let [_, _, count, _] = contents.heading;
        let rule = RuleTable { controller: all[session].heading[1], count, nodes: contents.nodes };
        let new_rule = NewRule { session, rule };
        let Contents { mut heading, mut nodes, .. } = all[session].clone();
        let number = ragyvosin::replace_rule(new_rule.rule(), &mut heading, &mut nodes);
        assert_eq!(number, 0, "the new rule is taken");
        new_rule
    };
    let rules = (0..count).map(&mut draw).collect();
    (all, rules)
}

/// Any contents, and any rules.
pub fn any_new_rules(count: usize) -> (Vec<Contents>, Vec<NewRule>) {
    let mut random = Random::new(7);
    let all: Vec<Contents> = (0..SESSIONS).map(|_| sessions::contents(&mut random)).collect();
    let mut draw = |number: usize| {
        let session = number % SESSIONS;
        NewRule { session, rule: sessions::any_new_rule(&mut random, all[session].heading[0]) }
    };
    let rules = (0..count).map(&mut draw).collect();
    (all, rules)
}

/// A recording that is refused before any of it is read, once the rule is checked.
const NOTHING: Recording = Recording { controllers: 0, count: 0, masks: &[], states: &[] };

pub fn replace_rule() -> Sides<NewRule, Vec<Contents>, u8> {
    vec![
        (Side::Proved, |i, l| {
            let Contents { heading, nodes, .. } = &mut l[i.session];
            ragyvosin::replace_rule(i.rule(), heading, nodes)
        }),
        (Side::Plain, |i, l| {
            let Contents { heading, nodes, .. } = &mut l[i.session];
            session::replace_rule(i.rule(), heading, nodes)
        }),
        (Side::RuleAlone, |i, _| ragyvosin::judge_local(i.rule(), NOTHING).0),
        (Side::JudgeLocal, |i, l| {
            let Contents { heading, masks, states, .. } = &l[i.session];
            let [controllers, _, _, count] = *heading;
            ragyvosin::judge_local(i.rule(), Recording { controllers, count, masks, states }).0
        }),
    ]
}

fn by_hand(judge: Judge, contents: &Contents) -> (u8, [usize; 3]) {
    let Contents { heading, masks, nodes, states } = contents;
    session::session_verdicts(judge, heading, masks, nodes, states)
}

pub fn verdicts() -> Sides<Contents, (), (u8, [usize; 3])> {
    vec![
        (Side::Proved, |i, _| {
            ragyvosin::session_verdicts(&i.heading, &i.masks, &i.nodes, &i.states)
        }),
        (Side::Plain, |i, _| by_hand(plain::judge_local, i)),
        (Side::Tuned, |i, _| by_hand(tuned::judge_local, i)),
        (Side::JudgeLocal, |i, _| {
            let [controllers, controller, rule_count, count] = i.heading;
            let rule = Rule { controller, count: rule_count, nodes: &i.nodes };
            let recording = Recording { controllers, count, masks: &i.masks, states: &i.states };
            let (number, [weak, strong]) = ragyvosin::judge_local(rule, recording);
            (number, [1, weak, strong])
        }),
    ]
}

/// The calls of a session, by the library or by hand.
struct Calls {
    open: fn(&RuleInput, &mut Contents) -> u8,
    arrive: fn(u64, &mut Contents) -> u8,
    verdicts: fn(&Contents) -> (u8, [usize; 3]),
}

const BY_LIBRARY: Calls = Calls {
    open: |i, l| {
        let (controllers, owned) = (i.recording().controllers, i.recording().masks);
        let Contents { heading, masks, nodes, states } = l;
        ragyvosin::open_session(controllers, owned, i.rule(), heading, masks, nodes, states)
    },
    arrive: |state, l| ragyvosin::arrive(state, &mut l.heading, &l.masks, &mut l.states),
    verdicts: |l| ragyvosin::session_verdicts(&l.heading, &l.masks, &l.nodes, &l.states),
};

const PLAIN: Calls = Calls {
    open: |i, l| {
        let (controllers, owned) = (i.recording().controllers, i.recording().masks);
        let Contents { heading, masks, nodes, states } = l;
        session::open_session(controllers, owned, i.rule(), heading, masks, nodes, states)
    },
    arrive: |state, l| session::arrive(state, &mut l.heading, &l.masks, &mut l.states),
    verdicts: |l| by_hand(plain::judge_local, l),
};

const TUNED: Calls = Calls { verdicts: |l| by_hand(tuned::judge_local, l), ..PLAIN };

/// A session opens, every state of the recording arrives, and the verdicts are
/// asked after each: the number of the opening, states taken, weak yeses and
/// strong ones.
fn run(input: &RuleInput, lent: &mut Contents, calls: &Calls) -> (u8, [usize; 3]) {
    let number = (calls.open)(input, lent);
    let mut sums = [0; 3];
    if number == 0 {
        for state in input.recording().states {
            sums[0] += usize::from((calls.arrive)(*state, lent) == 0);
            let (_, [_, weak, strong]) = (calls.verdicts)(lent);
            sums[1] += weak;
            sums[2] += strong;
        }
    }
    (number, sums)
}

pub fn as_it_runs() -> Sides<RuleInput, Contents, (u8, [usize; 3])> {
    vec![
        (Side::Proved, |i, l| run(i, l, &BY_LIBRARY)),
        (Side::Plain, |i, l| run(i, l, &PLAIN)),
        (Side::Tuned, |i, l| run(i, l, &TUNED)),
    ]
}

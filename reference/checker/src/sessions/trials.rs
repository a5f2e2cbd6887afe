//! The trials of "The rack as it runs" and "A new rule without stopping the
//! rack": calls and the numbers that the requests name for them, and the
//! verdicts after them.

use reference::generate::rules::{listed, RuleTable};
use reference::generate::sessions::{Call, OpeningTable};
use reference::model::limits::{CONTROLLERS, RULE_NODES, STATES};
use reference::model::session::Contents;

use crate::check::Check;
use crate::difference::Difference;
use crate::sessions::kept::{asked, called, operation, Kept};
use crate::sessions::lists::{garbage, holding, opening, state};
use crate::tally::Operation;
use crate::work::Job;
use crate::wrong::Place;

/// A call and its number.
type Named = (Call, u8);

/// The verdicts, if there are any.
type Verdicts = Option<[usize; 2]>;

/// What is mended of an opening.
type Mend = fn(&mut OpeningTable);

/// An arrival and its number.
fn arrives(marks: u64, atoms: u64, number: u8) -> Named {
    (Call::Arrive(state(marks, atoms)), number)
}

/// Makes the calls, each with the number that is named: what they leave.
fn numbered(check: &mut Check, start: &Contents, calls: &[Named]) -> Result<Kept, Difference> {
    let mut kept = Kept::of(start);
    for (call, number) in calls {
        let (found, after) = called(check, &kept, call)?;
        let number = number + u8::from(check.wrong(operation(call), Place::Named));
        if found != number {
            let place = format!("the trial: named {number}, found {found}");
            return Err(Difference::new(place, format!("{call:x?} of {calls:x?}")));
        }
        kept = after;
    }
    Ok(kept)
}

/// The same; then the verdicts are those that are named, or there are none.
fn named(
    check: &mut Check,
    start: &Contents,
    calls: &[Named],
    verdicts: Verdicts,
) -> Result<Kept, Difference> {
    let kept = numbered(check, start, calls)?;
    let mut values = verdicts.map_or([0; 3], |[weak, strong]| [1, weak, strong]);
    if check.wrong(Operation::SessionVerdicts, Place::Named) {
        values[0] ^= 1;
    }
    let found = asked(check, &kept)?;
    if found == (0, values) {
        return Ok(kept);
    }
    let place = format!("the trial: named {values:?}, found {found:?}");
    Err(Difference::new(place, format!("{calls:x?}")))
}

/// The first call of a session of two controllers, atom 0 and atom 1.
fn open(list: &str) -> Named {
    (Call::Open(opening(&[1, 2], 0, list)), 0)
}

/// States arrive, the last is withdrawn, another arrives, and all are withdrawn:
/// the verdicts after each call, and what is kept.
fn bench_test(check: &mut Check) -> Result<(), Difference> {
    let next = opening(&[1, 2], 0, "atom 0; next 0");
    let (run, result) = (state(1, 0), state(0, 1));
    let (open, withdrawn) = ((Call::Open(next.clone()), 0), (Call::Withdraw, 0));
    let steps: [(Named, Verdicts, &[u64]); 8] = [
        (open, None, &[]),
        (arrives(1, 0, 0), Some([1, 0]), &[run]),
        (arrives(0, 0, 0), Some([0, 0]), &[run, 0]),
        (withdrawn.clone(), Some([1, 0]), &[run]),
        (arrives(0, 1, 0), Some([1, 1]), &[run, result]),
        (withdrawn.clone(), Some([1, 0]), &[run]),
        (withdrawn, None, &[]),
        ((Call::Withdraw, 18), None, &[]),
    ];
    let mut contents = garbage();
    for (call, verdicts, states) in steps {
        let call = [call];
        let after = named(check, &contents, &call, verdicts)?.contents();
        let expected = holding(&next, states);
        if after != expected {
            let place = format!("the trial: named {expected:x?}");
            return Err(Difference::new(place, format!("{call:x?} on {contents:x?}")));
        }
        contents = after;
    }
    Ok(())
}

/// The example of document 01 as it runs: open after each state.
fn example(check: &mut Check) -> Result<(), Difference> {
    let rule = "atom 1; not 0; atom 0; next 2; or 1 3; not 4; true; until 6 5; not 7";
    let states = [(1, 2), (2, 3), (1, 1), (2, 0), (0, 2)];
    let mut calls = vec![open(rule)];
    for (marks, atoms) in states {
        calls.push(arrives(marks, atoms, 0));
        named(check, &garbage(), &calls, Some([1, 0]))?;
    }
    Ok(())
}

/// Refused openings, each number and which comes first; over an old session all
/// is as it was.
fn openings(check: &mut Check) -> Result<(), Difference> {
    let mut table = opening(&[1, 1], 0, "atom 0; next 1");
    table.controllers = 12;
    (table.rule.controller, table.rule.count) = (CONTROLLERS, 3);
    let steps: [(Mend, u8); 7] = [
        (|_| {}, 2),
        (|table| table.rule.controller = 5, 3),
        (|table| table.rule.nodes[1] = 4, 4),
        (|table| table.rule.count = 2, 6),
        (|table| table.controllers = 3, 7),
        (|table| table.owned[1] = 2, 8),
        (|table| table.controllers = 2, 11),
    ];
    let old = holding(&opening(&[1, 2], 0, "atom 0; next 0"), &[state(1, 0), state(0, 1)]);
    for (mend, number) in steps {
        mend(&mut table);
        named(check, &old, &[(Call::Open(table.clone()), number)], Some([1, 1]))?;
    }
    table.rule.controller = 1;
    named(check, &old, &[(Call::Open(table), 0)], None)?;
    Ok(())
}

/// 17 before 6 and 10, 6 before 10, the state before and not the first, a mark
/// that becomes a run; and eleven controllers.
fn arrivals(check: &mut Check) -> Result<(), Difference> {
    let of_two = opening(&[1, 2], 0, "atom 0");
    let full = holding(&of_two, &[0; STATES]);
    let refused = [arrives(4, 1, 17), arrives(0, 1, 17), arrives(0, 0, 17)];
    named(check, &full, &refused, Some([0, 0]))?;
    let room = holding(&of_two, &[0; STATES - 1]);
    let last = [arrives(4, 1, 6), arrives(0, 1, 10), arrives(3, 0, 0), arrives(0, 0, 17)];
    named(check, &room, &last, Some([0, 0]))?;
    let calls = [open("atom 0"), arrives(1, 0, 0), arrives(0, 1, 0), arrives(0, 0, 10)];
    named(check, &garbage(), &calls, Some([0, 0]))?;
    let calls = [open("atom 0"), arrives(2, 0, 0), arrives(0, 1, 10), arrives(0, 2, 0)];
    named(check, &garbage(), &calls, Some([0, 0]))?;
    let eleven = (Call::Open(opening(&[0; CONTROLLERS], 10, "true")), 0);
    let calls = [eleven, arrives(2047, 5, 0), arrives(2048, 0, 6)];
    named(check, &garbage(), &calls, Some([1, 1]))?;
    Ok(())
}

/// An empty session has no verdict, of a rule that is always no and of one that
/// is always yes.
fn no_verdict(check: &mut Check) -> Result<(), Difference> {
    for (list, yes) in [("true; not 0", 0), ("true", 1)] {
        named(check, &garbage(), &[open(list)], None)?;
        named(check, &garbage(), &[open(list), arrives(0, 0, 0)], Some([yes, yes]))?;
        let calls = [open(list), arrives(0, 0, 0), (Call::Withdraw, 0), (Call::Withdraw, 18)];
        named(check, &garbage(), &calls, None)?;
    }
    Ok(())
}

/// Contents that no call made: over 128 held, C outside its limits, masks that
/// meet or aren't there, states past those held; and none held, whatever else.
fn forged(check: &mut Check) -> Result<(), Difference> {
    let fine = holding(&opening(&[1, 2], 0, "true"), &[state(1, 0), state(0, 1)]);
    let with = |change: &dyn Fn(&mut Contents)| {
        let mut contents = fine.clone();
        change(&mut contents);
        contents
    };
    let (withdrawn, empty) = ((Call::Withdraw, 0), (Call::Withdraw, 18));
    for controllers in [0, 12, usize::MAX] {
        let outside = with(&|contents| contents.heading[0] = controllers);
        let calls = [arrives(0, 1, 6), withdrawn.clone(), withdrawn.clone(), empty.clone()];
        named(check, &outside, &calls, None)?;
    }
    for held in [STATES + 1, 1 << 32, usize::MAX] {
        let over = with(&|contents| contents.heading = [12, 0, 1, held]);
        numbered(check, &over, &[arrives(0, 1, 17), (Call::Withdraw, 6)])?;
    }
    let meeting = with(&|contents| contents.masks[..2].fill(3));
    numbered(check, &meeting, &[arrives(0, 3, 10), arrives(1, 1, 0), arrives(0, 0, 10)])?;
    let few = with(&|contents| contents.masks.truncate(1));
    numbered(check, &few, &[arrives(0, 2, 10), arrives(0, 3, 0), withdrawn])?;
    let filled = with(&|contents| contents.states.fill(state(0, 1)));
    named(check, &filled, &[arrives(0, 1, 0)], Some([1, 1]))?;
    let nothing = Contents { heading: [99, 99, 99, 0], ..garbage() };
    named(check, &nothing, &[empty], None)?;
    Ok(())
}

/// Lent space: 13 of what a call writes, at one entry too few.
fn lent(check: &mut Check) -> Result<(), Difference> {
    let fine = holding(&opening(&[1, 2], 0, "true"), &[state(1, 0), state(0, 1)]);
    let fresh = Call::Open(opening(&[1, 2], 0, "true"));
    for (masks, nodes, states, [opens, other]) in [
        (11, 64, 128, [0, 0]),
        (10, 64, 128, [13, 0]),
        (11, 63, 128, [13, 0]),
        (11, 64, 127, [13, 13]),
    ] {
        let mut short = fine.clone();
        short.masks.truncate(masks);
        short.nodes.truncate(nodes);
        short.states.truncate(states);
        let after = if opens == 0 { None } else { Some([1, 1]) };
        named(check, &short, &[(fresh.clone(), opens)], after)?;
        named(check, &short, &[arrives(0, 1, other)], Some([1, 1]))?;
        named(check, &short, &[(Call::Withdraw, other)], Some([1, 1]))?;
    }
    Ok(())
}

/// A new rule in mid trial: each number and which comes first, the former rule
/// in force after it; then the verdict of the new one on the states held, of
/// either controller, with no node of the former past its own.
fn new_rule(check: &mut Check) -> Result<(), Difference> {
    let next = opening(&[1, 2], 0, "atom 0; next 0");
    let held = [state(1, 0), state(0, 1)];
    let old = holding(&next, &held);
    let mut rule = RuleTable { controller: CONTROLLERS, count: 4, nodes: listed("atom 0; not 1") };
    let steps: [(fn(&mut RuleTable), u8); 4] = [
        (|_| {}, 2),
        (|rule| rule.controller = 2, 3),
        (|rule| rule.nodes = listed("atom 0; not 0; next 1"), 4),
        (|rule| rule.count = 3, 11),
    ];
    for (mend, number) in steps {
        mend(&mut rule);
        named(check, &old, &[(Call::Replace(rule.clone()), number)], Some([1, 1]))?;
    }
    rule.controller = 0;
    let calls = [(Call::Replace(rule), 0)];
    named(check, &old, &calls, Some([0, 0]))?;
    let other = opening(&[1, 2], 1, "atom 0");
    let calls = [&calls[..], &[(Call::Replace(other.rule.clone()), 0)]].concat();
    let after = named(check, &old, &calls, Some([1, 0]))?.contents();
    if after == holding(&other, &held) {
        return Ok(());
    }
    let place = format!("the trial: named {:x?}", holding(&other, &held));
    Err(Difference::new(place, format!("{calls:x?} on {old:x?}")))
}

/// A new rule of an empty session, of a full one, and by the heading's C,
/// whatever it is; 13 of the nodes alone.
fn new_rule_anywhere(check: &mut Check) -> Result<(), Difference> {
    let table = opening(&[1, 2], 0, "true; not 0");
    let replace = |controller| Call::Replace(opening(&[], controller, "true").rule);
    named(check, &holding(&table, &[]), &[(replace(1), 0)], None)?;
    named(check, &holding(&table, &[0; STATES]), &[(replace(1), 0)], Some([1, 1]))?;
    for (controllers, controller, number) in
        [(0, 0, 11), (1, 1, 11), (12, 10, 0), (usize::MAX, 10, 0), (usize::MAX, 11, 2)]
    {
        let mut contents = holding(&table, &[0]);
        contents.heading[0] = controllers;
        numbered(check, &contents, &[(replace(controller), number)])?;
    }
    for (nodes, number) in [(RULE_NODES, 0), (RULE_NODES - 1, 13), (0, 13)] {
        let mut contents = holding(&table, &[0]);
        contents.masks.clear();
        contents.states.clear();
        contents.nodes.truncate(nodes);
        numbered(check, &contents, &[(replace(1), number)])?;
    }
    Ok(())
}

/// All of them.
pub fn jobs<'a>() -> Vec<Job<'a>> {
    vec![
        Box::new(bench_test),
        Box::new(example),
        Box::new(openings),
        Box::new(arrivals),
        Box::new(no_verdict),
        Box::new(forged),
        Box::new(lent),
        Box::new(new_rule),
        Box::new(new_rule_anywhere),
    ]
}

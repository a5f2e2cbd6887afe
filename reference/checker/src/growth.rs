//! "The rule that grows most": with n nodes and atom 0 foreign its plain table
//! has 13 + 11 times n nodes, no rule of n nodes has more under any masks, and
//! "the short count is never above the plain one". By the library's counts.

use reference::generate::rules::RuleTable;
use reference::model::limits::RULE_NODES;
use reference::model::longest_rule;

use crate::check::Check;
use crate::difference::Difference;
use crate::input::Input;
use crate::tally::Operation;
use crate::work::Job;
use crate::wrong::Place;

/// The most nodes of a plain table of a rule of n nodes.
fn most(n: usize) -> usize {
    13 + 11 * n
}

/// Compares both rewritings of an accepted rule with the model's, and their
/// counts with the limit: the plain count.
pub fn rewritings(check: &mut Check, rule: &RuleTable, mask: u32) -> Result<usize, Difference> {
    let mut count = |short| {
        let outcome = check.compare(&Input::rewrite(short, rule.clone(), mask))?;
        Ok(outcome.values[0])
    };
    let (plain, mut short) = (count(false)?, count(true)?);
    let mut most = most(rule.count);
    if check.wrong(Operation::Growth, Place::Value) {
        most = plain - 1;
    }
    if check.wrong(Operation::Growth, Place::Length) {
        short = plain + 1;
    }
    check.count(Operation::Growth, 1, 0);
    if plain <= most && short <= plain {
        return Ok(plain);
    }
    let place = format!("at most {most} nodes: plain {plain}, short {short}");
    Err(Difference::new(place, format!("{rule:?}, mask {mask:#010x}")))
}

/// The rule that grows most reaches the limit with atom 0 foreign, for every n.
fn reached(check: &mut Check) -> Result<(), Difference> {
    for n in 1..=RULE_NODES {
        let nodes = longest_rule(n).nodes.iter().map(|node| node.word()).collect();
        let rule = RuleTable { controller: 0, count: n, nodes };
        for (mask, fewer) in [(0, 0), (!1, 0), (2, 0), (1, 4), (u32::MAX, 4)] {
            let plain = rewritings(check, &rule, mask)?;
            let mut expected = most(n) - fewer;
            if check.wrong(Operation::Growth, Place::Named) {
                expected -= 1;
            }
            if plain != expected {
                let place = format!("expected {expected} plain nodes, found {plain}");
                return Err(Difference::new(place, format!("{rule:?}, mask {mask:#010x}")));
            }
        }
    }
    Ok(())
}

/// The rule that grows most, for every n.
pub fn jobs<'a>() -> Vec<Job<'a>> {
    vec![Box::new(reached)]
}

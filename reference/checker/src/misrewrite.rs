//! Wrong rewriters on purpose: what a library would answer that decides one
//! thing of "Shorter rules about the past" otherwise.

use reference::model::limits::TABLE_NODES;
use reference::model::rewriting::{rewrite_by, AsWorded, Decisions};
use reference::model::rule::{check_rule, PREV, SINCE};

use crate::input::{Input, GUARD};
use crate::outcome::Outcome;

/// The wrong rewriters.
#[derive(Clone, Copy, PartialEq, Eq, Debug)]
pub enum Misrewriting {
    /// Prev isn't tolerant, as before.
    FormerPrev,
    /// Since is neither short nor tolerant, as before.
    FormerSince,
    /// A prev is tolerant only where its operand is.
    PrevAsOperand,
    /// A since is tolerant where its first operand is.
    SinceByFirst,
    /// A since is tolerant where its second operand is.
    SinceBySecond,
    /// A since is short where only one of its operands is tolerant.
    ShortByOne,
    /// Every since is short.
    ShortAlways,
    /// The image of a prev is shortened too.
    PrevShortened,
    /// A tolerant prev or since is closed all the same.
    PastClosed,
    /// The plain rewriting is shortened too.
    PlainSince,
}

impl Misrewriting {
    /// Those of the short rewriting, each with the name that `--wrong` takes.
    pub const SHORT: [(Misrewriting, &'static str); 9] = [
        (Misrewriting::FormerPrev, "former_prev"),
        (Misrewriting::FormerSince, "former_since"),
        (Misrewriting::PrevAsOperand, "prev_as_operand"),
        (Misrewriting::SinceByFirst, "since_by_first"),
        (Misrewriting::SinceBySecond, "since_by_second"),
        (Misrewriting::ShortByOne, "short_by_one"),
        (Misrewriting::ShortAlways, "short_always"),
        (Misrewriting::PrevShortened, "prev_shortened"),
        (Misrewriting::PastClosed, "past_closed"),
    ];

    /// That of the plain one.
    pub const PLAIN: [(Misrewriting, &'static str); 1] =
        [(Misrewriting::PlainSince, "plain_since")];

    /// The name that `--wrong` takes.
    pub fn name(self) -> &'static str {
        let mut all = Misrewriting::SHORT.into_iter().chain(Misrewriting::PLAIN);
        all.find(|(wrong, _)| *wrong == self).expect("all are listed").1
    }
}

impl Decisions for Misrewriting {
    fn tolerant(&self, kind: u32, own: bool, p: bool, q: bool) -> bool {
        match (self, kind) {
            (Misrewriting::FormerPrev, PREV) | (Misrewriting::FormerSince, SINCE) => false,
            (Misrewriting::PrevAsOperand, PREV) | (Misrewriting::SinceByFirst, SINCE) => p,
            (Misrewriting::SinceBySecond, SINCE) => q,
            _ => AsWorded.tolerant(kind, own, p, q),
        }
    }

    fn short_since(&self, short: bool, p: bool, q: bool) -> bool {
        match self {
            Misrewriting::FormerSince => false,
            Misrewriting::ShortByOne => short && (p || q),
            Misrewriting::ShortAlways => short,
            Misrewriting::PlainSince => p && q,
            _ => AsWorded.short_since(short, p, q),
        }
    }

    fn short_prev(&self, short: bool, p: bool) -> bool {
        *self == Misrewriting::PrevShortened && short && p
    }

    fn unclosed(&self, short: bool, kind: u32, tolerant: bool) -> bool {
        let closed = *self == Misrewriting::PastClosed && matches!(kind, PREV | SINCE);
        !closed && AsWorded.unclosed(short, kind, tolerant)
    }
}

/// What the wrong rewriter answers and leaves, where it differs from what is
/// expected of an accepted input.
pub fn outcome(wrong: Misrewriting, input: &Input, expected: &Outcome) -> Option<Outcome> {
    let Input::Rewrite { short, rule, mask, .. } = input else { return None };
    if expected.number != 0 {
        return None;
    }
    let rule = check_rule(rule.controller, rule.count, &rule.nodes);
    let Ok(rule) = rule else { unreachable!("the rule is accepted") };
    let table = rewrite_by(&wrong, *short, &rule, *mask);
    let mut altered = expected.clone();
    let words = table.nodes.iter().map(|node| u64::from(node.word()));
    let left = words.chain(std::iter::repeat(0)).take(TABLE_NODES);
    altered.lent[0][GUARD..].iter_mut().zip(left).for_each(|(entry, word)| *entry = word);
    altered.values = vec![table.nodes.len(), table.weak_top, table.strong_top];
    (altered != *expected).then_some(altered)
}

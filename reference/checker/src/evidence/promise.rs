//! What the readings behind a verdict promise: "Every local trace of the same
//! length and own mask with those bits must get the same verdict." By the
//! library alone: its pairs, and its verdicts on the local trace and of both
//! rewritings over the whole recording.

use reference::generate::random::Random;
use reference::generate::recordings::{self, RecordingTable};
use reference::generate::rules::RuleTable;
use reference::model::limits::RULE_NODES;
use reference::model::rule::Node;

use crate::check::Check;
use crate::difference::Difference;
use crate::evidence::Local;
use crate::input::Input;
use crate::library::Whole;
use crate::tally::Operation;
use crate::wrong::Place;

/// Other recordings for each verdict of a random rule.
const OTHERS: usize = 4;

/// The bits that pairs name, at each of so many places.
fn named_bits(nodes: &[u32], pairs: &[u32], places: usize) -> Vec<u32> {
    let mut bits = vec![0; places];
    for pair in pairs {
        let (place, node) = (*pair as usize / RULE_NODES, *pair as usize % RULE_NODES);
        bits[place] |= 1 << Node::of_word(nodes[node]).first;
    }
    bits
}

/// The three verdicts of a reading, the first value of a pair or the second.
fn chosen(verdicts: [[usize; 2]; 3], weak: bool) -> [usize; 3] {
    verdicts.map(|verdict| verdict[usize::from(!weak)])
}

/// The library's verdicts, accepted as the model accepts them.
pub fn verdicts(
    whole: &mut Whole,
    rule: &RuleTable,
    recording: &RecordingTable,
) -> Result<[[usize; 2]; 3], Difference> {
    whole.verdicts(rule, recording).map_err(|number| {
        let place = format!("number: expected 0, found {number}");
        Difference::new(place, format!("{rule:?}, {recording:?}"))
    })
}

/// The words of a local trace over two atoms, or bits at its places, as one.
fn packed(words: &[u32]) -> u32 {
    words.iter().rev().fold(0, |packed, word| packed << 2 | word)
}

/// What the library says of one rule on each small local trace: both verdicts,
/// and the bits that its pairs name for each.
pub struct Small<'a> {
    locals: &'a [&'a Local],
    /// The local traces of the same length and own mask, for each.
    alike: Vec<Vec<usize>>,
    words: Vec<u32>,
    verdicts: Vec<[usize; 2]>,
    kept: Vec<[u32; 2]>,
    whole: Whole,
}

impl<'a> Small<'a> {
    /// Nothing is known.
    pub fn new(locals: &'a [&'a Local]) -> Small<'a> {
        let like = |one: &Local, other: &Local| {
            one.own == other.own && one.places.len() == other.places.len()
        };
        let alike = |one: &&Local| {
            let same = locals.iter().enumerate().filter(|(_, other)| like(one, other));
            same.map(|(at, _)| at).collect()
        };
        Small {
            locals,
            alike: locals.iter().map(alike).collect(),
            words: locals.iter().map(|local| packed(&local.places)).collect(),
            verdicts: vec![[0; 2]; locals.len()],
            kept: vec![[0; 2]; locals.len()],
            whole: Whole::new(),
        }
    }

    /// Asks for the verdicts of a rule on a local trace: three that are one.
    pub fn judge(
        &mut self,
        at: usize,
        rule: &RuleTable,
        recording: &RecordingTable,
    ) -> Result<(), Difference> {
        let [local, plain, short] = verdicts(&mut self.whole, rule, recording)?;
        self.verdicts[at] = local;
        if local == plain && local == short {
            return Ok(());
        }
        let place = format!("verdicts of one local trace: {local:?}, {plain:?}, {short:?}");
        Err(Difference::new(place, format!("{rule:?}, {recording:?}")))
    }

    /// Keeps the bits that pairs name on a local trace.
    pub fn keep(&mut self, at: usize, nodes: &[u32], pairs: &[u32], weak: bool) {
        let places = self.locals[at].places.len();
        self.kept[at][usize::from(!weak)] = packed(&named_bits(nodes, pairs, places));
    }

    /// Requires one verdict of a reading of all local traces that agree with
    /// one in the bits that are kept for it: how many there are, or one with
    /// another verdict.
    fn agree(&self, check: &Check, at: usize, reading: usize) -> Result<u64, usize> {
        let mut verdict = self.verdicts[at][reading];
        let mut kept = self.kept[at][reading];
        let disputed = self.alike[at].iter().any(|one| self.verdicts[*one][reading] != verdict);
        if disputed && check.wrong(Operation::Promise, Place::Content) {
            kept = 0;
        }
        if check.wrong(Operation::Promise, Place::Value) {
            verdict ^= 1;
        }
        let mut count = 0;
        for other in &self.alike[at] {
            if (self.words[at] ^ self.words[*other]) & kept == 0 {
                count += 1;
                if self.verdicts[*other][reading] != verdict {
                    return Err(*other);
                }
            }
        }
        Ok(count)
    }

    /// Requires the promise of every verdict of a rule.
    pub fn require(&self, check: &mut Check, nodes: &[u32]) -> Result<(), Difference> {
        for at in 0..self.locals.len() {
            for reading in 0..2 {
                let agreeing = self.agree(check, at, reading);
                check.count(Operation::Promise, 1, *agreeing.as_ref().unwrap_or(&0));
                agreeing.map_err(|other| {
                    let [one, other] = [at, other].map(|at| &self.locals[at].places);
                    let weak = reading == 0;
                    let place =
                        format!("the verdict, weak {weak}, of another recording with those bits");
                    let own = self.locals[at].own;
                    let input = format!("nodes {nodes:x?}, own {own:#x}, {one:x?} and {other:x?}");
                    Difference::new(place, input)
                })?;
            }
        }
        Ok(())
    }
}

/// Which other recordings are promised the verdict.
#[derive(Clone, Copy, PartialEq, Eq)]
pub enum Promised {
    /// Those with as many steps.
    AsLong,
    /// Those with no fewer: a strong yes or a weak no, which stays.
    NoShorter,
}

/// The pairs of a random rule and recording, compared with the model's; then
/// other recordings whose local trace agrees in those bits, with the same
/// verdict on the local trace and of both rewritings.
pub fn keeps(
    check: &mut Check,
    random: &mut Random,
    rule: &RuleTable,
    recording: &RecordingTable,
    weak: bool,
    promised: Promised,
) -> Result<(), Difference> {
    let input = Input::evidence(rule.clone(), recording.clone(), weak);
    let found = check.compare(&input)?;
    let pairs: Vec<u32> =
        found.slice(0)[..found.values[0]].iter().map(|pair| *pair as u32).collect();
    let places = recordings::places(recording, rule.controller).len();
    let mut kept = named_bits(&rule.nodes, &pairs, places);
    let mut whole = Whole::new();
    let mut expected = chosen(verdicts(&mut whole, rule, recording)?, weak);
    if promised == Promised::NoShorter && expected[0] != usize::from(!weak) {
        return Ok(());
    }
    if check.wrong(Operation::Promise, Place::Value) {
        expected[0] ^= 1;
    }
    if check.place(Operation::Promise) == Some(Place::Content) {
        kept.fill(0);
    }
    for _ in 0..OTHERS {
        let other = match promised {
            Promised::AsLong => recordings::varied(random, recording, rule.controller, &kept),
            Promised::NoShorter => {
                recordings::lengthened(random, recording, rule.controller, &kept)
            }
        };
        let found = chosen(verdicts(&mut whole, rule, &other)?, weak);
        check.count(Operation::Promise, 1, 0);
        if found != expected || found.iter().any(|verdict| *verdict != found[0]) {
            let place =
                format!("verdicts of another recording with those bits: {expected:?}, {found:?}");
            return Err(Difference::new(place, format!("{input}, {other:?}")));
        }
    }
    Ok(())
}

//! One operation at one size: its inputs, its lent space and its sides.

use std::fmt::Debug;
use std::hint::black_box;
use std::ops::Range;

/// Who does the work.
#[derive(Clone, Copy, PartialEq, Eq, Debug)]
pub enum Side {
    /// The proved library.
    Proved,
    /// Straightforward Rust.
    Plain,
    /// Rust tuned for speed.
    Tuned,
    /// The proved library's judge of the same rule and recording: to tell how
    /// much more an operation costs.
    JudgeLocal,
    /// The check of one state by hand, and no more: likewise.
    OneState,
    /// The proved library's check of a rule, and no more: likewise.
    RuleAlone,
}

impl Side {
    pub fn name(self) -> &'static str {
        match self {
            Side::Proved => "proved",
            Side::Plain => "plain",
            Side::Tuned => "tuned",
            Side::JudgeLocal => "judge_local",
            Side::OneState => "one_state",
            Side::RuleAlone => "rule_alone",
        }
    }

    /// Does it do the same as the proved side? Else it does less, and answers
    /// otherwise.
    fn same(self) -> bool {
        !matches!(self, Side::JudgeLocal | Side::OneState | Side::RuleAlone)
    }
}

/// An operation on an input and lent space.
pub type Call<I, L, A> = fn(&I, &mut L) -> A;

/// The sides of an operation, the proved one first.
pub type Sides<I, L, A> = Vec<(Side, Call<I, L, A>)>;

/// Inputs of one size for an operation.
pub struct Case<I, L, A> {
    pub name: String,
    pub inputs: Vec<I>,
    pub lent: L,
    pub sides: Sides<I, L, A>,
}

/// A case with its types forgotten.
pub trait Timed {
    fn sides(&self) -> Vec<Side>;
    /// How many inputs there are.
    fn inputs(&self) -> usize;
    /// One call of a side for each of these inputs.
    fn call(&mut self, side: Side, inputs: Range<usize>);
    /// Asserts that all sides of the operation answer the same and leave the same.
    fn assert_agreement(&self);
}

impl<I, L, A> Timed for Case<I, L, A>
where
    L: Clone + PartialEq + Debug,
    A: PartialEq + Debug,
{
    fn sides(&self) -> Vec<Side> {
        self.sides.iter().map(|(side, _)| *side).collect()
    }

    fn inputs(&self) -> usize {
        self.inputs.len()
    }

    fn call(&mut self, side: Side, inputs: Range<usize>) {
        let call = self.sides.iter().find(|(one, _)| *one == side).expect("a side of the case").1;
        for input in &self.inputs[inputs] {
            black_box(call(black_box(input), black_box(&mut self.lent)));
        }
    }

    fn assert_agreement(&self) {
        for (number, input) in self.inputs.iter().enumerate() {
            let mut expected = self.lent.clone();
            let answer = self.sides[0].1(input, &mut expected);
            let others = self.sides[1..].iter().filter(|(side, _)| side.same());
            for (side, call) in others {
                let mut lent = self.lent.clone();
                let what = format!("{}, {}, input {number}", self.name, side.name());
                assert_eq!(call(input, &mut lent), answer, "{what}");
                assert!(lent == expected, "lent space of {what}");
            }
        }
    }
}

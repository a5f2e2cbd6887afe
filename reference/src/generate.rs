//! Inputs for the comparison: deterministic pseudo-random tables, texts and
//! lent space, valid and damaged, with gauges or without, every small rule and
//! recording, every short list of signs, and the calls of sessions.

pub mod endings;
pub mod exhaustive;
pub mod gauge_trials;
pub mod gauges;
pub mod lent;
pub mod lines;
pub mod random;
pub mod recordings;
pub mod rules;
pub mod sessions;
pub mod texts;

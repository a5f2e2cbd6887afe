//! How much a run compares.

use reference::generate::random::Random;

use crate::tally::Section;

/// The sizes of a run.
#[derive(Clone, Debug)]
pub struct Plan {
    /// What all random inputs depend on.
    pub seed: u64,
    /// Batches of random inputs of all operations.
    pub random_batches: usize,
    /// Texts for each kind of damage.
    pub damaged_texts: usize,
    /// Batches of texts with other line endings.
    pub ending_batches: usize,
    /// All lists of signs of a rule in one line up to this length.
    pub list_length: usize,
    /// Batches of random rules in one line.
    pub line_batches: usize,
    /// From one lent length to the next.
    pub lent_step: usize,
    /// Runs of the program on random inputs.
    pub program_runs: usize,
    /// Batches of the readings behind a verdict and what they promise.
    pub evidence_batches: usize,
    /// Batches of verdicts that may be announced early.
    pub early_batches: usize,
    /// All lists of calls of a session up to this length.
    pub session_calls: usize,
    /// Batches of long lists, and of calls on any contents.
    pub session_batches: usize,
    /// All texts of gauges' fields over a few bytes up to this length.
    pub field_bytes: usize,
    /// From one number, or small list of gauges, to the next.
    pub gauge_step: usize,
    /// Batches of random recordings with gauges.
    pub gauge_batches: usize,
    /// Batches of archive texts.
    pub archive_batches: usize,
    /// All small rules on all small recordings.
    pub small: SmallPlan,
}

/// The sizes of the small rules and recordings.
#[derive(Clone, Debug)]
pub struct SmallPlan {
    /// Rules of at most so many nodes meet every view of the recordings.
    pub nodes: usize,
    /// Recordings have at most so many states.
    pub states: usize,
    /// Rules of at most so many nodes meet every recording.
    pub every_recording_nodes: usize,
    /// Rules of up to `nodes` meet every recording of so many states.
    pub every_recording_states: usize,
    /// On how many views each rule of one node more is judged.
    pub larger_views: usize,
    /// Rules of one node more are judged on every view of so many states.
    pub larger_states: usize,
    /// On how many views each of them that is about the past is judged.
    pub past_views: usize,
    /// Other schedules of each local trace, of up to 128 states.
    pub schedules: usize,
    /// Rules of one node more are walked on every local trace of so many places.
    pub larger_places: usize,
    /// On how many others each of them is walked.
    pub larger_walks: usize,
}

impl Plan {
    /// What a run compares by default.
    pub fn ordinary(seed: u64) -> Plan {
        Plan {
            seed,
            random_batches: 800,
            damaged_texts: 1000,
            ending_batches: 200,
            list_length: 6,
            line_batches: 400,
            lent_step: 1,
            program_runs: 3000,
            evidence_batches: 200,
            early_batches: 100,
            session_calls: 4,
            session_batches: 100,
            field_bytes: 6,
            gauge_step: 1,
            gauge_batches: 200,
            archive_batches: 100,
            small: SmallPlan {
                nodes: 3,
                states: 4,
                every_recording_nodes: 2,
                every_recording_states: 3,
                larger_views: 16,
                larger_states: 0,
                past_views: 64,
                schedules: 2,
                larger_places: 2,
                larger_walks: 8,
            },
        }
    }

    /// The longer run: every rule of 3 nodes on every recording.
    pub fn long(seed: u64) -> Plan {
        let ordinary = Plan::ordinary(seed);
        Plan {
            random_batches: 8000,
            damaged_texts: 10_000,
            ending_batches: 2000,
            line_batches: 4000,
            program_runs: 30_000,
            evidence_batches: 2000,
            early_batches: 1000,
            session_batches: 1000,
            field_bytes: 7,
            gauge_batches: 2000,
            archive_batches: 1000,
            small: SmallPlan {
                every_recording_nodes: 3,
                every_recording_states: 4,
                larger_views: 64,
                past_views: 800,
                larger_states: 3,
                schedules: 8,
                larger_places: 3,
                larger_walks: 64,
                ..ordinary.small
            },
            ..ordinary
        }
    }

    /// Just enough to meet every wrong answer.
    pub fn probe(seed: u64) -> Plan {
        Plan {
            seed,
            random_batches: 5,
            damaged_texts: 1,
            ending_batches: 2,
            list_length: 2,
            line_batches: 2,
            lent_step: 61,
            program_runs: 2,
            evidence_batches: 2,
            early_batches: 2,
            session_calls: 2,
            session_batches: 1,
            field_bytes: 1,
            gauge_step: 7,
            gauge_batches: 2,
            archive_batches: 1,
            small: SmallPlan {
                nodes: 1,
                states: 2,
                every_recording_nodes: 1,
                every_recording_states: 2,
                larger_views: 1,
                larger_states: 0,
                past_views: 1,
                schedules: 1,
                larger_places: 1,
                larger_walks: 1,
            },
        }
    }

    /// The source of random numbers for a job of a section.
    pub fn random(&self, section: Section, job: usize) -> Random {
        let section = (section as u64 + 1) << 40;
        Random::new(self.seed.wrapping_mul(0x5851_f42d_4c95_7f2d) ^ section ^ job as u64)
    }
}

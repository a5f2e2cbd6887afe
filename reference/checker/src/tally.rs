//! How many answers and how many lent entries were compared, of each kind.

use std::collections::BTreeMap;
use std::fmt;

/// The parts of a run, in their order.
#[derive(Clone, Copy, PartialEq, Eq, PartialOrd, Ord, Debug)]
pub enum Section {
    /// The trials of document 01, against the numbers that it names.
    Trials,
    /// Texts: round trips and every kind of damage.
    Texts,
    /// Line endings: every choice, 13 at every place, and at random.
    Endings,
    /// Rules in one line: every short list of signs, and every kind of damage.
    Lines,
    /// Lent space of every length.
    Lent,
    /// Random inputs up to every limit.
    Random,
    /// The program, through its standard input.
    Program,
    /// All small rules on all small recordings.
    Small,
    /// The readings behind a verdict, and what they promise.
    Evidence,
    /// Verdicts that may be announced early.
    Early,
    /// Sessions: lists of calls, and calls on any contents.
    Sessions,
    /// Recordings with gauges.
    Gauges,
    /// Archive texts: there and back, and every kind of damage.
    Archive,
}

impl Section {
    /// Every section, in order.
    pub const ALL: [Section; 13] = [
        Section::Trials,
        Section::Texts,
        Section::Endings,
        Section::Lines,
        Section::Lent,
        Section::Random,
        Section::Program,
        Section::Small,
        Section::Evidence,
        Section::Early,
        Section::Sessions,
        Section::Gauges,
        Section::Archive,
    ];

    /// The name that is printed and that `--only` takes.
    pub fn name(self) -> &'static str {
        match self {
            Section::Trials => "trials",
            Section::Texts => "texts",
            Section::Endings => "endings",
            Section::Lines => "lines",
            Section::Lent => "lent",
            Section::Random => "random",
            Section::Program => "program",
            Section::Small => "small",
            Section::Evidence => "evidence",
            Section::Early => "early",
            Section::Sessions => "sessions",
            Section::Gauges => "gauges",
            Section::Archive => "archive",
        }
    }
}

/// What is compared: the operations, the calls of a session, nine laws and the
/// programs.
#[derive(Clone, Copy, PartialEq, Eq, PartialOrd, Ord, Debug)]
pub enum Operation {
    /// Reading a rule text.
    ReadRule,
    /// Reading a rule in one line.
    ReadLine,
    /// Writing a rule text.
    WriteRule,
    /// Reading a recording text.
    ReadRecording,
    /// The joint reading.
    ReadJoint,
    /// The local trace of a controller.
    Project,
    /// A rule on its local trace.
    JudgeLocal,
    /// The plain rewriting.
    RewritePlain,
    /// The short rewriting.
    RewriteShort,
    /// A table over the whole recording.
    JudgeRecording,
    /// The readings behind a verdict.
    Evidence,
    /// A session opens.
    OpenSession,
    /// A state arrives in a session.
    Arrive,
    /// The last state of a session is withdrawn.
    Withdraw,
    /// A session takes another rule.
    ReplaceRule,
    /// The verdicts of a session.
    SessionVerdicts,
    /// The archive text of a recording text.
    ToArchive,
    /// The recording text of an archive text.
    FromArchive,
    /// An accepted text, read and written, is the same text with byte 10 at
    /// each line.
    RoundTrip,
    /// A text and that text with byte 10 at each line answer the same.
    Endings,
    /// Recordings of one local trace give one verdict (demand 3).
    Schedules,
    /// A beginning of an accepted recording is accepted, and its local trace,
    /// carried on by one state, is that of the next beginning.
    Beginnings,
    /// Local recordings that agree in the readings behind a verdict have it.
    Promise,
    /// Announced verdicts stay on a recording that goes on.
    Early,
    /// A session's verdicts are those of judging the remaining states from the
    /// start.
    Remaining,
    /// A session with a new rule is one that had it from the first state.
    Renewed,
    /// A recording with gauges is read as that of its finished words.
    Finished,
    /// No rule's rewritings exceed those of the rule that grows most.
    Growth,
    /// The program.
    Program,
    /// The program `rule`.
    RuleProgram,
    /// The program `why`.
    WhyProgram,
    /// The program `longest`.
    LongestProgram,
    /// The program `watch`.
    WatchProgram,
    /// The program `archive`.
    ArchiveProgram,
    /// The program `unarchive`.
    UnarchiveProgram,
}

impl Operation {
    /// The operations on texts and tables.
    pub const ALL: [Operation; 11] = [
        Operation::ReadRule,
        Operation::ReadLine,
        Operation::WriteRule,
        Operation::ReadRecording,
        Operation::ReadJoint,
        Operation::Project,
        Operation::JudgeLocal,
        Operation::RewritePlain,
        Operation::RewriteShort,
        Operation::JudgeRecording,
        Operation::Evidence,
    ];

    /// The calls of a session.
    pub const OF_SESSIONS: [Operation; 5] = [
        Operation::OpenSession,
        Operation::Arrive,
        Operation::Withdraw,
        Operation::ReplaceRule,
        Operation::SessionVerdicts,
    ];

    /// The name that is printed.
    pub fn name(self) -> &'static str {
        match self {
            Operation::ReadRule => "read_rule",
            Operation::ReadLine => "read_line",
            Operation::WriteRule => "write_rule",
            Operation::ReadRecording => "read_recording",
            Operation::ReadJoint => "read_joint",
            Operation::Project => "project",
            Operation::JudgeLocal => "judge_local",
            Operation::RewritePlain => "rewrite_plain",
            Operation::RewriteShort => "rewrite_short",
            Operation::JudgeRecording => "judge_recording",
            Operation::Evidence => "evidence",
            Operation::OpenSession => "open_session",
            Operation::Arrive => "arrive",
            Operation::Withdraw => "withdraw",
            Operation::ReplaceRule => "replace_rule",
            Operation::SessionVerdicts => "session_verdicts",
            Operation::ToArchive => "to_archive",
            Operation::FromArchive => "from_archive",
            Operation::RoundTrip => "round_trip",
            Operation::Endings => "endings",
            Operation::Schedules => "schedules",
            Operation::Beginnings => "beginnings",
            Operation::Promise => "promise",
            Operation::Early => "early",
            Operation::Remaining => "remaining",
            Operation::Renewed => "renewed",
            Operation::Finished => "finished",
            Operation::Growth => "growth",
            Operation::Program => "judge",
            Operation::RuleProgram => "rule",
            Operation::WhyProgram => "why",
            Operation::LongestProgram => "longest",
            Operation::WatchProgram => "watch",
            Operation::ArchiveProgram => "archive",
            Operation::UnarchiveProgram => "unarchive",
        }
    }
}

/// What was compared of one kind.
#[derive(Clone, Copy, Default, Debug)]
pub struct Counts {
    /// Inputs whose whole answer was compared.
    pub inputs: u64,
    /// Entries compared beside the answers' numbers and values: lent entries
    /// with the guards around them, or bytes.
    pub entries: u64,
}

/// How many refusal numbers there are, with 0 for accepted.
const NUMBERS: usize = 21;

/// What was compared of all kinds, and how often each number was answered.
#[derive(Default, Debug)]
pub struct Tally {
    kinds: BTreeMap<(Section, Operation), Counts>,
    numbers: BTreeMap<Operation, [u64; NUMBERS]>,
}

/// The numbers that each operation can answer; 9 and 12 are no longer given.
const ANSWERABLE: &[(Operation, &[usize])] = &[
    (Operation::ReadRule, &[0, 1, 2, 3, 4, 13]),
    (Operation::ReadLine, &[0, 2, 13, 15, 16]),
    (Operation::WriteRule, &[0, 2, 3, 4, 13]),
    (Operation::ReadRecording, &[0, 5, 6, 7, 8, 10, 13, 19, 20]),
    (Operation::ReadJoint, &[0, 1, 2, 3, 4, 5, 6, 7, 8, 10, 11, 13, 19, 20]),
    (Operation::Project, &[0, 6, 7, 8, 10, 11, 13]),
    (Operation::JudgeLocal, &[0, 2, 3, 4, 6, 7, 8, 10, 11]),
    (Operation::RewritePlain, &[0, 2, 3, 4, 13]),
    (Operation::RewriteShort, &[0, 2, 3, 4, 13]),
    (Operation::JudgeRecording, &[0, 2, 3, 4, 6, 7, 8, 10, 11, 13]),
    (Operation::Evidence, &[0, 2, 3, 4, 6, 7, 8, 10, 11, 13]),
    (Operation::OpenSession, &[0, 2, 3, 4, 6, 7, 8, 11, 13]),
    (Operation::Arrive, &[0, 6, 10, 13, 17]),
    (Operation::Withdraw, &[0, 6, 13, 18]),
    (Operation::ReplaceRule, &[0, 2, 3, 4, 11, 13]),
    (Operation::SessionVerdicts, &[0, 2, 3, 4, 6, 7, 8, 10, 11]),
    (Operation::ToArchive, &[0, 5, 6, 7, 8, 10, 13]),
    (Operation::FromArchive, &[0, 5, 6, 7, 8, 10, 13]),
    (Operation::Program, &[0, 1, 2, 3, 4, 5, 6, 7, 8, 10, 11, 14, 19, 20]),
    (Operation::RuleProgram, &[0, 1, 2, 14, 15, 16]),
    (Operation::WhyProgram, &[0, 1, 2, 3, 4, 5, 6, 7, 8, 10, 11, 14, 19, 20]),
    (Operation::LongestProgram, &[0, 1, 2, 14]),
    (Operation::WatchProgram, &[0, 1, 2, 3, 4, 5, 6, 7, 8, 10, 11, 14, 17, 18]),
    (Operation::ArchiveProgram, &[0, 5, 8, 14]),
    (Operation::UnarchiveProgram, &[0, 5, 8, 14]),
];

impl Tally {
    /// Counts inputs of a kind and the entries that were compared for them.
    pub fn add(&mut self, section: Section, operation: Operation, inputs: u64, entries: u64) {
        let counts = self.kinds.entry((section, operation)).or_default();
        counts.inputs += inputs;
        counts.entries += entries;
    }

    /// Counts an answer's number.
    pub fn met(&mut self, operation: Operation, number: u8) {
        self.numbers.entry(operation).or_default()[usize::from(number)] += 1;
    }

    /// Numbers that an operation can answer and that no input met.
    pub fn unmet(&self) -> Vec<String> {
        let mut unmet = Vec::new();
        for (operation, numbers) in ANSWERABLE {
            let met = self.numbers.get(operation).copied().unwrap_or_default();
            let missed = numbers.iter().filter(|number| met[**number] == 0);
            unmet.extend(missed.map(|number| format!("{} {number}", operation.name())));
        }
        unmet
    }

    /// One line per operation: each number that was met, and how often.
    pub fn numbers(&self) -> String {
        let mut lines = String::new();
        for (operation, counts) in &self.numbers {
            let met = counts.iter().enumerate().filter(|(_, count)| **count > 0);
            let met: Vec<String> =
                met.map(|(number, count)| format!("{number}: {count}")).collect();
            lines.push_str(&format!("numbers  {:16} {}\n", operation.name(), met.join(", ")));
        }
        lines
    }

    /// Counts what another tally counted.
    pub fn merge(&mut self, other: &Tally) {
        for (operation, counts) in &other.numbers {
            let sums = self.numbers.entry(*operation).or_default();
            sums.iter_mut().zip(counts).for_each(|(sum, count)| *sum += count);
        }
        for ((section, operation), counts) in &other.kinds {
            self.add(*section, *operation, counts.inputs, counts.entries);
        }
    }

    /// The sums over all kinds.
    pub fn total(&self) -> Counts {
        let mut total = Counts::default();
        for counts in self.kinds.values() {
            total.inputs += counts.inputs;
            total.entries += counts.entries;
        }
        total
    }
}

impl fmt::Display for Tally {
    /// One line per kind.
    fn fmt(&self, out: &mut fmt::Formatter) -> fmt::Result {
        for ((section, operation), Counts { inputs, entries }) in &self.kinds {
            let (section, operation) = (section.name(), operation.name());
            writeln!(out, "{section:8} {operation:16} {inputs:>12} inputs {entries:>16} entries")?;
        }
        Ok(())
    }
}

//! Wrong answers on purpose: an expected answer altered in one place, to show
//! that the comparison there is real.

use std::sync::atomic::{AtomicBool, Ordering};

use reference::model::early::Asked;

use crate::gauges::misgauge::Misgauge;
use crate::misread::Misreading;
use crate::misrewrite::Misrewriting;
use crate::misstep::Misstep;
use crate::of_eight::OfEight;
use crate::program::misprint::Misprint;
use crate::program::miswatched::Miswatched;
use crate::sessions::miskept::Miskept;
use crate::tally::{Operation, Section};

/// The places of an expected answer that can be altered.
#[derive(Clone, Copy, PartialEq, Eq, Debug)]
pub enum Place {
    /// The number of a refusal.
    Number,
    /// A value of an accepted answer: a count, a top, a verdict.
    Value,
    /// Where the refused line starts.
    Line,
    /// A lent entry that an accepted answer fills, or an output byte.
    Content,
    /// An unused entry after acceptance.
    Unused,
    /// An entry after a refusal that isn't 13.
    Zero,
    /// An entry after 13, or after any refusal of a session's call.
    Untouched,
    /// An entry lent past the full size.
    Beyond,
    /// The length of an output.
    Length,
    /// The number or a value that document 01 names in a trial.
    Named,
    /// All of it, by a wrong reader of line endings.
    Misread(Misreading),
    /// A rewritten table, by a wrong rewriter of rules about the past.
    Misrewrite(Misrewriting),
    /// The pairs, by a wrong walk.
    Misstep(Misstep),
    /// What the program `why`, `longest` or `watch` writes, by a wrong printer.
    Misprint(Misprint),
    /// All of it, by a library that still assumes eight controllers.
    OfEight(OfEight),
    /// A mark in the last state taken for a run.
    LastRun,
    /// The marks of the last state, as they are handed back.
    Cleared,
    /// An accepted recording with marks in its last state, refused with 9.
    Nine,
    /// A recording that goes on, with this left out of what is asked of it.
    LeftOut(Asked),
    /// A weak yes or a strong no, announced.
    Open,
    /// What a session answers or leaves, by one that is kept wrongly.
    Miskept(Miskept),
    /// What is read of a recording, by a wrong reader of gauges.
    Misgauge(Misgauge),
}

impl Place {
    /// The name that `--wrong` takes.
    fn name(self) -> &'static str {
        match self {
            Place::Number => "number",
            Place::Value => "value",
            Place::Line => "line",
            Place::Content => "content",
            Place::Unused => "unused",
            Place::Zero => "zero",
            Place::Untouched => "untouched",
            Place::Beyond => "beyond",
            Place::Length => "length",
            Place::Named => "named",
            Place::Misread(misreading) => misreading.name(),
            Place::Misrewrite(misrewriting) => misrewriting.name(),
            Place::Misstep(misstep) => misstep.name(),
            Place::Misprint(misprint) => misprint.name(),
            Place::OfEight(of_eight) => of_eight.name(),
            Place::LastRun => "last_run",
            Place::Cleared => "cleared",
            Place::Nine => "nine",
            Place::LeftOut(Asked::Longer) => "shorter",
            Place::LeftOut(Asked::Mask) => "another_mask",
            Place::LeftOut(Asked::Marks) => "another_mark",
            Place::LeftOut(Asked::Words) => "another_word",
            Place::LeftOut(Asked::OwnAtoms) => "another_own_atom",
            Place::Open => "open",
            Place::Miskept(miskept) => miskept.name(),
            Place::Misgauge(misgauge) => misgauge.name(),
        }
    }
}

/// One wrong answer: in which section, of what, and where.
#[derive(Clone, Copy, PartialEq, Eq, Debug)]
pub struct Wrong {
    /// The section that expects it.
    pub section: Section,
    /// The operation that is expected to answer it.
    pub operation: Operation,
    /// The altered place.
    pub place: Place,
}

impl Wrong {
    /// The name that `--wrong` takes.
    pub fn name(&self) -> String {
        let Wrong { section, operation, place } = self;
        format!("{}.{}.{}", section.name(), operation.name(), place.name())
    }

    /// The wrong answer of a name.
    pub fn named(name: &str) -> Option<Wrong> {
        Wrong::all().into_iter().find(|wrong| wrong.name() == name)
    }

    /// Every wrong answer that the checker can expect.
    pub fn all() -> Vec<Wrong> {
        let mut all = Vec::new();
        for (section, operation, places) in lists() {
            all.extend(places.iter().map(|place| Wrong { section, operation, place: *place }));
        }
        for (section, operation, misreadings) in misreaders() {
            let place = |misreading: &Misreading| Place::Misread(*misreading);
            let places = misreadings.iter().map(place);
            all.extend(places.map(|place| Wrong { section, operation, place }));
        }
        let (section, operation) = (Section::Evidence, Operation::Evidence);
        let misstep = |(misstep, _)| Wrong { section, operation, place: Place::Misstep(misstep) };
        all.extend(Misstep::ALL.map(misstep));
        for (operation, libraries) in of_eight() {
            let place = |of_eight| Place::OfEight(of_eight);
            let wrong = |place| Wrong { section: Section::Trials, operation, place };
            all.extend(libraries.map(place).map(wrong));
        }
        all.extend(misrewriters());
        all.extend(Miskept::ALL.map(|(miskept, operation, _)| {
            let section = Section::Sessions;
            Wrong { section, operation, place: Place::Miskept(miskept) }
        }));
        for operation in [Operation::ReadRecording, Operation::ReadJoint] {
            let place = |misgauge| Place::Misgauge(misgauge);
            let wrong = |place| Wrong { section: Section::Gauges, operation, place };
            all.extend(Misgauge::ALL.map(|(misgauge, _)| wrong(place(misgauge))));
        }
        all
    }
}

/// The wrong rewriters of rules about the past: the trials have a rule for each.
fn misrewriters() -> Vec<Wrong> {
    let section = Section::Trials;
    let wrong =
        |operation| move |(wrong, _)| Wrong { section, operation, place: Place::Misrewrite(wrong) };
    let short = Misrewriting::SHORT.map(wrong(Operation::RewriteShort));
    let plain = Misrewriting::PLAIN.map(wrong(Operation::RewritePlain));
    short.into_iter().chain(plain).collect()
}

/// The wrong printers of the program `why`.
const WHY_PRINTERS: &[Place] = &[
    Place::Misprint(Misprint::StepForState),
    Place::Misprint(Misprint::NodeForAtom),
    Place::Misprint(Misprint::BitTurned),
    Place::Misprint(Misprint::OtherReading),
    Place::Misprint(Misprint::FirstCounted),
];

/// The wrong printers of the program `longest`.
const LONGEST_PRINTERS: &[Place] = &[
    Place::Misprint(Misprint::OneMore),
    Place::Misprint(Misprint::LeadingZeros),
    Place::Misprint(Misprint::Unclosed),
    Place::Misprint(Misprint::LineField),
    Place::Misprint(Misprint::Wrapped),
];

/// The wrong printers of the program `watch`.
const WATCH_PRINTERS: &[Place] = &[
    Place::Misprint(Misprint::Watched(Miswatched::OpenKept)),
    Place::Misprint(Misprint::Watched(Miswatched::EmptyOpen)),
    Place::Misprint(Misprint::Watched(Miswatched::Silent)),
    Place::Misprint(Misprint::Watched(Miswatched::GivesUp)),
    Place::Misprint(Misprint::Watched(Miswatched::GoesOn)),
    Place::Misprint(Misprint::Watched(Miswatched::WholeLine)),
    Place::Misprint(Misprint::Watched(Miswatched::UnclosedEvent)),
    Place::Misprint(Misprint::Watched(Miswatched::LastIgnored)),
    Place::Misprint(Misprint::Watched(Miswatched::ReadAgain)),
    Place::Misprint(Misprint::Watched(Miswatched::RuleEarly)),
    Place::Misprint(Misprint::Watched(Miswatched::FormerVerdict)),
];

/// What of a recording that goes on isn't asked.
const LEFT_OUT: &[Place] = &[
    Place::LeftOut(Asked::Longer),
    Place::LeftOut(Asked::Mask),
    Place::LeftOut(Asked::Marks),
    Place::LeftOut(Asked::Words),
    Place::LeftOut(Asked::OwnAtoms),
];

/// The wrong answers by section and operation.
fn lists() -> Vec<(Section, Operation, &'static [Place])> {
    use Place::{Beyond, Content, Length, Line, Named, Number, Untouched, Unused, Value, Zero};
    use Place::{Cleared, LastRun, Nine, Open};
    let mut lists: Vec<(Section, Operation, &[Place])> = Vec::new();
    for operation in Operation::ALL {
        lists.push((Section::Trials, operation, &[Named]));
        lists.push((Section::Random, operation, &[Number, Value]));
        if operation != Operation::JudgeLocal {
            lists.push((Section::Random, operation, &[Content, Unused, Zero, Untouched, Beyond]));
            lists.push((Section::Lent, operation, &[Number, Content, Zero, Untouched, Beyond]));
        }
    }
    for operation in Operation::OF_SESSIONS {
        lists.push((Section::Trials, operation, &[Named]));
        lists.push((Section::Sessions, operation, &[Number]));
    }
    lists.extend([
        (Section::Random, Operation::ReadJoint, &[Line][..]),
        (Section::Random, Operation::Schedules, &[Value]),
        (Section::Random, Operation::Beginnings, &[Number, Content]),
        (Section::Random, Operation::Growth, &[Value, Length]),
        (Section::Random, Operation::ReadRecording, &[Nine, Cleared]),
        (Section::Random, Operation::Project, &[Nine, LastRun]),
        (Section::Random, Operation::JudgeLocal, &[Nine]),
        (Section::Random, Operation::JudgeRecording, &[Nine, LastRun]),
        (Section::Random, Operation::Evidence, &[Nine]),
        (Section::Texts, Operation::ReadRule, &[Number, Value, Content]),
        (Section::Texts, Operation::ReadRecording, &[Number, Value, Content]),
        (Section::Texts, Operation::ReadJoint, &[Number, Value, Line]),
        (Section::Texts, Operation::RoundTrip, &[Content]),
        (Section::Endings, Operation::ReadRule, &[Number, Value, Content]),
        (Section::Endings, Operation::ReadRecording, &[Number, Value, Content]),
        (Section::Endings, Operation::ReadJoint, &[Number, Value, Line]),
        (Section::Endings, Operation::RoundTrip, &[Content]),
        (Section::Endings, Operation::Endings, &[Value, Line]),
        (Section::Lines, Operation::ReadLine, &[Number, Value, Content, Unused, Zero]),
        (Section::Lines, Operation::RoundTrip, &[Content]),
        (Section::Program, Operation::Program, &[Named, Content, Length, Line]),
        (Section::Program, Operation::RuleProgram, &[Named, Content, Length]),
        (Section::Program, Operation::WhyProgram, &[Named, Content, Length, Line]),
        (Section::Program, Operation::WhyProgram, WHY_PRINTERS),
        (Section::Program, Operation::LongestProgram, &[Named, Content, Length]),
        (Section::Program, Operation::LongestProgram, LONGEST_PRINTERS),
        (Section::Program, Operation::WatchProgram, &[Named, Content, Length]),
        (Section::Program, Operation::WatchProgram, WATCH_PRINTERS),
        (Section::Program, Operation::ArchiveProgram, &[Named, Content, Length, Line]),
        (Section::Program, Operation::UnarchiveProgram, &[Named, Content, Length, Line]),
        (Section::Small, Operation::Project, &[Number, Value, Content]),
        (Section::Small, Operation::Beginnings, &[Number, Content]),
        (Section::Small, Operation::RewritePlain, &[Value, Content]),
        (Section::Small, Operation::RewriteShort, &[Value, Content]),
        (Section::Small, Operation::JudgeLocal, &[Value]),
        (Section::Small, Operation::JudgeRecording, &[Value, Content, Unused, Beyond]),
        (Section::Small, Operation::Schedules, &[Value]),
        (Section::Small, Operation::Growth, &[Value, Length, Named]),
        (Section::Evidence, Operation::Evidence, &[Value, Content, Unused, Beyond]),
        (Section::Evidence, Operation::Promise, &[Value, Content]),
        (Section::Early, Operation::Early, &[Value, Open]),
        (Section::Early, Operation::Early, LEFT_OUT),
        (Section::Early, Operation::Promise, &[Value, Content]),
        (Section::Sessions, Operation::OpenSession, &[Content, Unused, Untouched, Beyond]),
        (Section::Sessions, Operation::Arrive, &[Content, Unused, Untouched, Beyond]),
        (Section::Sessions, Operation::Withdraw, &[Content, Unused, Untouched, Beyond]),
        (Section::Sessions, Operation::ReplaceRule, &[Content, Unused, Untouched, Beyond]),
        (Section::Sessions, Operation::SessionVerdicts, &[Value]),
        (Section::Sessions, Operation::Remaining, &[Value]),
        (Section::Sessions, Operation::Renewed, &[Content]),
        (Section::Gauges, Operation::ReadRecording, &[Number, Value, Content, Unused, Zero]),
        (Section::Gauges, Operation::ReadJoint, &[Number, Value, Line, Content, Untouched]),
        (Section::Gauges, Operation::Finished, &[Content]),
        (Section::Archive, Operation::ToArchive, &[Named, Number, Value]),
        (Section::Archive, Operation::ToArchive, &[Content, Unused, Zero, Untouched, Beyond]),
        (Section::Archive, Operation::FromArchive, &[Named, Number, Value]),
        (Section::Archive, Operation::FromArchive, &[Content, Unused, Zero, Untouched, Beyond]),
        (Section::Archive, Operation::RoundTrip, &[Content]),
        (Section::Archive, Operation::Endings, &[Value]),
    ]);
    lists
}

/// The libraries that still assume eight controllers, by operation.
fn of_eight() -> [(Operation, [OfEight; 4]); 6] {
    [
        (Operation::ReadRecording, OfEight::TEXTS),
        (Operation::ReadJoint, OfEight::TEXTS),
        (Operation::Project, OfEight::TABLES),
        (Operation::JudgeLocal, OfEight::TABLES),
        (Operation::JudgeRecording, OfEight::TABLES),
        (Operation::Evidence, OfEight::TABLES),
    ]
}

/// The wrong readers of line endings by section and operation.
fn misreaders() -> Vec<(Section, Operation, Vec<Misreading>)> {
    use Misreading::{Alone, Counted, Kept, NewlineOnly, Split, SplitNewlineOnly};
    use Misreading::{Stripped, Swallowed, Trimmed};
    let reader = Misreading::READER.to_vec();
    let joint = [&reader[..], &[Kept, Trimmed]].concat();
    let program = [&joint[..], &[Split, SplitNewlineOnly, Counted]].concat();
    let why = [&reader[..], &[Split, SplitNewlineOnly, Counted]].concat();
    let line_program = vec![NewlineOnly, Stripped, Alone, Swallowed, Counted];
    let watch = [&reader[..], &[Split, SplitNewlineOnly]].concat();
    vec![
        (Section::Endings, Operation::ReadRule, reader.clone()),
        (Section::Endings, Operation::ReadRecording, reader),
        (Section::Endings, Operation::ReadJoint, joint),
        (Section::Program, Operation::Program, program),
        (Section::Program, Operation::RuleProgram, line_program.clone()),
        (Section::Program, Operation::LongestProgram, line_program),
        (Section::Program, Operation::WhyProgram, why),
        (Section::Program, Operation::WatchProgram, watch),
    ]
}

/// The wrong answer of a run, if it has one; it is expected once only.
#[derive(Default, Debug)]
pub struct WrongAnswer {
    wrong: Option<Wrong>,
    spent: AtomicBool,
}

impl WrongAnswer {
    /// A run that expects this wrong answer, once.
    pub fn new(wrong: Option<Wrong>) -> WrongAnswer {
        WrongAnswer { wrong, spent: AtomicBool::new(false) }
    }

    /// Does the run have a wrong answer that is still to come?
    pub fn pending(&self) -> bool {
        self.wrong.is_some() && !self.spent.load(Ordering::Relaxed)
    }

    /// Is the run of this operation, or of all?
    pub fn concerns(&self, operation: Operation) -> bool {
        self.wrong.is_none_or(|wrong| wrong.operation == operation)
    }

    /// The place of the wrong answer that is still to come, if it is one of this
    /// section and operation.
    pub fn place(&self, section: Section, operation: Operation) -> Option<Place> {
        let wrong = self.wrong.filter(|_| self.pending())?;
        (wrong == Wrong { section, operation, ..wrong }).then_some(wrong.place)
    }

    /// Is this the place to alter? Yes at most once.
    pub fn take(&self, section: Section, operation: Operation, place: Place) -> bool {
        self.wrong == Some(Wrong { section, operation, place })
            && !self.spent.swap(true, Ordering::Relaxed)
    }
}

//! Jobs on all cores, ended by the first difference.

use std::sync::atomic::{AtomicUsize, Ordering};
use std::sync::Mutex;
use std::thread;

use crate::check::Check;
use crate::difference::Difference;
use crate::tally::{Section, Tally};
use crate::wrong::WrongAnswer;

/// A part of a section's work; its inputs depend on nothing but the seed.
pub type Job<'a> = Box<dyn Fn(&mut Check) -> Result<(), Difference> + Send + Sync + 'a>;

/// What the workers share.
struct Shared<'a> {
    jobs: &'a [Job<'a>],
    next: AtomicUsize,
    /// The difference of the earliest job that has one.
    first: Mutex<Option<(usize, Difference)>>,
    tally: Mutex<Tally>,
}

impl Shared<'_> {
    /// Takes jobs until there are none, or one has a difference.
    fn work(&self, section: Section, wrong: &WrongAnswer) {
        let mut check = Check::new(section, wrong);
        loop {
            let number = self.next.fetch_add(1, Ordering::Relaxed);
            let Some(job) = self.jobs.get(number) else { break };
            if let Err(difference) = job(&mut check) {
                self.next.store(self.jobs.len(), Ordering::Relaxed);
                self.keep(number, difference);
                break;
            }
        }
        self.tally.lock().expect("no worker panics").merge(&check.tally);
    }

    /// Keeps the difference of the earlier job.
    fn keep(&self, number: usize, difference: Difference) {
        let mut first = self.first.lock().expect("no worker panics");
        if first.as_ref().is_none_or(|(earlier, _)| number < *earlier) {
            *first = Some((number, difference));
        }
    }
}

/// Does all jobs of a section: what was compared, or a difference.
pub fn run(section: Section, wrong: &WrongAnswer, jobs: &[Job]) -> Result<Tally, Difference> {
    let next = AtomicUsize::new(0);
    let (first, tally) = (Mutex::new(None), Mutex::new(Tally::default()));
    let shared = Shared { jobs, next, first, tally };
    let workers = thread::available_parallelism().map_or(1, usize::from).min(jobs.len());
    thread::scope(|scope| {
        for _ in 0..workers {
            scope.spawn(|| shared.work(section, wrong));
        }
    });
    match shared.first.into_inner().expect("no worker panics") {
        Some((_, difference)) => Err(difference),
        None => Ok(shared.tally.into_inner().expect("no worker panics")),
    }
}

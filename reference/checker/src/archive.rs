//! "One line per atom": archive texts there and back, every damage of one byte
//! or line, the refusals in their order, and lent space of every length.
//!
//! What one direction leaves, handed to the other, gives back the text with
//! byte 10 at each line.

use reference::generate::endings::{mixed_endings, plain_endings, with_returns};
use reference::generate::random::Random;
use reference::generate::recordings::{self, RecordingTable};
use reference::generate::texts::{any_recording_text, damaged, recording_text};
use reference::model::archive::write_archive;
use reference::model::limits::{ARCHIVE_BYTES, CONTROLLERS, STATES};
use reference::model::text;

use crate::check::Check;
use crate::difference::Difference;
use crate::endings::compare;
use crate::input::{Input, Lent};
use crate::outcome::Outcome;
use crate::plan::Plan;
use crate::tally::{Operation, Section};
use crate::trials::{named, recording_r};
use crate::work::Job;
use crate::wrong::Place;

/// Recordings of one random batch.
const TEXTS: usize = 20;

/// The text that an accepted call left.
fn made(outcome: &Outcome) -> Vec<u8> {
    outcome.slice(0)[..outcome.values[0]].iter().map(|byte| *byte as u8).collect()
}

/// Makes the other text of an accepted one and that of it again, which is the
/// first with byte 10 at each line; of a refused one nothing more.
fn there_and_back(check: &mut Check, back: bool, text: Vec<u8>) -> Result<(), Difference> {
    let found = compare(check, &Input::archive(back, text.clone()))?;
    if found.number != 0 {
        return Ok(());
    }
    let input = Input::archive(!back, made(&found));
    let mut again = made(&check.compare(&input)?);
    if check.wrong(Operation::RoundTrip, Place::Content) {
        again[0] ^= 1;
    }
    check.count(Operation::RoundTrip, 1, again.len() as u64);
    if again == plain_endings(&text) {
        return Ok(());
    }
    let place = format!("the text that came back: \"{}\"", again.escape_ascii());
    Err(Difference::new(place, input.to_string()))
}

/// The archive text of a recording text that is accepted.
fn archived(recording: &[u8]) -> Vec<u8> {
    write_archive(&text::read_plain(recording).expect("an accepted recording"))
}

/// The example's two texts.
fn examples() -> [Vec<u8>; 2] {
    let recording = recording_text(&recording_r());
    let archive = archived(&recording);
    [recording, archive]
}

/// One text with a line changed, put in or dropped.
fn with_line(text: &[u8], at: usize, lines: &[&[u8]]) -> Vec<u8> {
    let mut all: Vec<&[u8]> = text.split_inclusive(|byte| *byte == b'\n').collect();
    all.splice(at..at + 1, lines.iter().copied());
    all.concat()
}

/// A recording with gauges that is accepted as such.
const GAUGED: &[u8] = b"recording\t1\t1\nowns\t00000001\ngauge\t3\t1.00\nat\t00\t00000000\t1.00\n";

/// The refusals of archive texts in their order, the last state's mark, gauge
/// lines, and the longest texts.
fn edges(check: &mut Check) -> Result<(), Difference> {
    let [recording, archive] = examples();
    let refused = |lines: &[(usize, &[&[u8]])]| {
        let changed = lines.iter().rev();
        changed.fold(archive.clone(), |text, (at, lines)| with_line(&text, *at, lines))
    };
    let broken: (usize, &[&[u8]]) = (6, &[b"bits\t10001\n"]);
    let lines: [(&[(usize, &[&[u8]])], u8); 12] = [
        (&[(4, &[b"runs\t01210\n"])], 5),
        (&[(4, &[b"runs\t0101\n"])], 5),
        (&[(4, &[b"runs\t010100\n"])], 5),
        (&[(4, &[b"bits\t01010\n"])], 5),
        (&[(0, &[b"recording\t0\t5\n"])], 6),
        (&[(2, &[b"owns\t00000003\n"])], 7),
        (&[(36, &[])], 8),
        (&[(36, &[b"bits\t00000\n", b"bits\t00000\n"])], 8),
        (&[broken], 10),
        (&[broken, (36, &[])], 8),
        (&[broken, (36, &[b"bits\t00000\n", b"x\n"])], 8),
        (&[broken, (36, &[b"bits\t0000x\n"])], 5),
    ];
    for (lines, number) in lines {
        named(check, Input::archive(true, refused(lines)), number, &[])?;
    }
    named(check, Input::archive(false, recording.clone()), 0, &[archive.len()])?;
    named(check, Input::archive(true, archive.clone()), 0, &[recording.len()])?;
    let gauge: &[u8] = b"gauge\t3\t1.00\n";
    let first = [&recording[..recording.len() - 5 * 15], gauge].concat();
    named(check, Input::archive(false, first), 5, &[])?;
    named(check, Input::archive(false, [&recording[..], gauge].concat()), 8, &[])?;
    named(check, Input::archive(false, GAUGED.to_vec()), 5, &[])?;
    let most = RecordingTable {
        controllers: CONTROLLERS,
        length: STATES,
        masks: (0..CONTROLLERS).map(|atom| 1 << atom).collect(),
        states: (0..STATES as u64).map(|_| (2047 << 32) + 7).collect(),
    };
    let longest = recording_text(&most);
    named(check, Input::archive(true, archived(&longest)), 0, &[2219])?;
    named(check, Input::archive(false, longest.clone()), 0, &[5933])?;
    there_and_back(check, false, longest)
}

/// The bytes that are put into a text.
const BYTES: [&[u8]; 8] = [b"0", b"1", b"2", b"\t", b"\n", b"\r", b"\r\n", b"a"];

/// At every place of an example's text bytes put in or put there, the byte
/// dropped, and the text cut.
fn at_every_place(check: &mut Check, back: bool, returned: bool) -> Result<(), Difference> {
    let text = with_returns(&examples()[usize::from(back)], |_| returned);
    for at in 0..=text.len() {
        let after = (at + 1).min(text.len());
        for bytes in BYTES {
            there_and_back(check, back, [&text[..at], bytes, &text[at..]].concat())?;
            there_and_back(check, back, [&text[..at], bytes, &text[after..]].concat())?;
        }
        there_and_back(check, back, [&text[..at], &text[after..]].concat())?;
        there_and_back(check, back, text[..at].to_vec())?;
    }
    Ok(())
}

/// Lent space of many lengths, and of every one around the full size.
fn lengths(check: &mut Check, plan: &Plan, back: bool) -> Result<(), Difference> {
    let texts = [&examples()[usize::from(back)][..], b"x"];
    let near = ARCHIVE_BYTES - 20..=ARCHIVE_BYTES + 20;
    for length in (0..ARCHIVE_BYTES).step_by(31 * plan.lent_step).chain(near) {
        for text in texts {
            let made = Lent { length, pattern: length as u64 };
            check.compare(&Input::Archive { back, text: text.to_vec(), made })?;
        }
    }
    Ok(())
}

/// A signal of an archive text turned, so that the output rule may be broken.
fn turned(random: &mut Random, archive: &[u8]) -> Vec<u8> {
    let mut text = archive.to_vec();
    let digits: Vec<usize> =
        (0..text.len()).filter(|at| matches!(text[*at], b'0' | b'1')).collect();
    for _ in 0..random.below(4) + 1 {
        let at = digits[random.below(digits.len())];
        text[at] ^= 1;
    }
    text
}

/// Random texts up to all limits, there and back: accepted, with other endings,
/// and damaged.
fn random_texts(check: &mut Check, plan: &Plan, batch: usize) -> Result<(), Difference> {
    let mut random = plan.random(Section::Archive, batch);
    for _ in 0..TEXTS {
        let recording = recording_text(&recordings::recording(&mut random, CONTROLLERS, STATES));
        let archive = archived(&recording);
        for (back, text) in [(false, &recording), (true, &archive)] {
            there_and_back(check, back, text.clone())?;
            there_and_back(check, back, mixed_endings(&mut random, text))?;
            there_and_back(check, back, damaged(&mut random, text))?;
            there_and_back(check, !back, text.clone())?;
        }
        there_and_back(check, true, turned(&mut random, &archive))?;
        let any = any_recording_text(&mut random, CONTROLLERS, STATES);
        check.compare(&Input::archive(false, any.clone()).lent_anew(&mut random))?;
        check.compare(&Input::archive(true, any).lent_anew(&mut random))?;
        check.compare(&Input::archive(true, archive).lent_anew(&mut random))?;
    }
    Ok(())
}

/// All texts.
pub fn jobs(plan: &Plan) -> Vec<Job<'_>> {
    let mut jobs: Vec<Job> = vec![Box::new(edges)];
    for back in [false, true] {
        for returned in [false, true] {
            jobs.push(Box::new(move |check| at_every_place(check, back, returned)));
        }
        jobs.push(Box::new(move |check| lengths(check, plan, back)));
    }
    for batch in 0..plan.archive_batches {
        jobs.push(Box::new(move |check| random_texts(check, plan, batch)));
    }
    jobs
}

//! "One line per atom": the model's archive texts.

use reference::generate::random::Random;
use reference::generate::recordings::recording;
use reference::generate::texts::recording_text;
use reference::model::archive::{
    from_archive, print_archive, print_recording, read_archive, to_archive, write_archive,
    write_recording,
};
use reference::model::limits::{ARCHIVE_BYTES, CONTROLLERS, STATES};
use reference::model::text::{read_plain, read_recording};

const RECORDING: &[u8] = b"recording\t2\t5\nowns\t00000001\nowns\t00000002\nat\t01\t00000002\n\
at\t02\t00000003\nat\t01\t00000001\nat\t02\t00000000\nat\t00\t00000002\n";

/// The example's archive: four signals, and thirty of atoms that are 0.
fn archive() -> Vec<u8> {
    let opening = b"recording\t2\t5\nowns\t00000001\nowns\t00000002\n";
    let signals = b"runs\t10100\nruns\t01010\nbits\t01100\nbits\t11001\n";
    [&opening[..], signals, &b"bits\t00000\n".repeat(30)].concat()
}

#[test]
fn the_example_there_and_back() {
    assert_eq!(print_archive(RECORDING), archive());
    assert_eq!(print_recording(&archive()), RECORDING);
}

#[test]
fn random_recordings_there_and_back() {
    let mut random = Random::new(14);
    for _ in 0..200 {
        let text = recording_text(&recording(&mut random, CONTROLLERS, STATES));
        let read = read_plain(&text).expect("an accepted recording");
        assert_eq!(write_recording(&read), text);
        let archive = write_archive(&read);
        assert_eq!(read_archive(&archive), Ok(read));
        assert!(archive.len() <= 5933 && text.len() <= 2219);
    }
}

#[test]
fn refusals_in_their_order() {
    let text = String::from_utf8(archive()).expect("ASCII");
    let number = |text: &str| read_archive(text.as_bytes()).expect_err("refused").number;
    let broken = text.replace("bits\t11001", "bits\t10001");
    assert_eq!(number(&broken), 10);
    assert_eq!(number(&format!("{broken}x\n")), 8);
    assert_eq!(number(&broken.replacen("bits\t00000\n", "", 1)), 8);
    assert_eq!(number(&broken.replacen("bits\t00000\n", "bits\t00002\n", 1)), 5);
    assert_eq!(number(&text.replacen("runs\t01010", "bits\t01010", 1)), 5);
    assert_eq!(number(&text.replacen("runs\t01010", "runs\t0101", 1)), 5);
}

#[test]
fn a_gauge_line_is_refused() {
    let opening = "recording\t1\t1\nowns\t00000001\n";
    let gauged = format!("{opening}gauge\t3\t1.00\nat\t00\t00000000\t1.00\n");
    assert!(read_recording(gauged.as_bytes()).is_ok());
    assert_eq!(print_archive(gauged.as_bytes()), b"refused\t5\tgauge\t3\t1.00\n");
    let after = format!("{opening}at\t00\t00000000\ngauge\t3\t1.00\n");
    assert_eq!(print_archive(after.as_bytes()), b"refused\t8\tgauge\t3\t1.00\n");
}

#[test]
fn lent_space() {
    let mut short = vec![7; ARCHIVE_BYTES - 1];
    assert_eq!(to_archive(RECORDING, &mut short), Err(13));
    assert_eq!(from_archive(&archive(), &mut short), Err(13));
    assert!(short.iter().all(|byte| *byte == 7));
    let mut ample = vec![7; ARCHIVE_BYTES + 1];
    assert_eq!(to_archive(RECORDING, &mut ample), Ok(archive().len()));
    assert_eq!(ample[..archive().len()], archive());
    assert!(ample[archive().len()..ARCHIVE_BYTES].iter().all(|byte| *byte == 0));
    assert_eq!(to_archive(b"x", &mut ample), Err(5));
    assert!(ample[..ARCHIVE_BYTES].iter().all(|byte| *byte == 0));
    assert_eq!(ample[ARCHIVE_BYTES], 7);
}

//! The trials of "Gauges": texts at each number, edge and trap that the request
//! names, with what they are named to answer.

/// A trial: its lines, each closed, a tab for each space and a byte 10 for each
/// `; `; and the finished states, or the number that it is refused with.
pub type Trial = (&'static str, Result<&'static [u64], u8>);

/// The bytes of a trial's text.
pub fn text(lines: &str) -> Vec<u8> {
    let mut text = lines.replace("; ", "\n").replace(' ', "\t").into_bytes();
    text.push(b'\n');
    text
}

/// Thresholds and values that aren't of their form, 5.
pub const MALFORMED: [&str; 24] = [
    "-0.00",
    "00.50",
    "-00.01",
    "01.00",
    ".50",
    "-.50",
    "+1.00",
    "1.5",
    "1.500",
    "1.",
    "1",
    "-1",
    "100",
    "1,50",
    "1.5,",
    "--1.00",
    "1.-5",
    "1.5.0",
    "-",
    ".",
    "",
    "1.5x",
    "0x1.00",
    "99999999999999999999",
];

/// Thresholds and values of their form, but outside the limits, 6.
pub const OUTSIDE: [&str; 14] = [
    "327.68",
    "-327.69",
    "328.00",
    "-328.00",
    "655.35",
    "655.36",
    "-655.36",
    "1000.00",
    "42949672.96",
    "92233720368547758.08",
    "184467440737095516.16",
    "18446744073709551616.00",
    "99999999999999999999.00",
    "-99999999999999999999.99",
];

/// "The reading of such a number is shown exact at zero and at both ends": atom
/// 3, a threshold, a value, and the bit.
pub const READ: [(&str, &str, bool); 16] = [
    ("0.00", "0.00", true),
    ("0.00", "-0.01", false),
    ("0.00", "0.01", true),
    ("0.01", "0.00", false),
    ("-0.01", "0.00", true),
    ("-0.01", "-0.01", true),
    ("-0.01", "-0.02", false),
    ("327.67", "327.67", true),
    ("327.67", "327.66", false),
    ("-327.68", "-327.68", true),
    ("-327.67", "-327.68", false),
    ("-327.68", "327.67", true),
    ("327.67", "-327.68", false),
    ("5.00", "10.00", true),
    ("-5.00", "-10.00", false),
    ("0.10", "0.09", false),
];

/// The text of one state with one gauge.
pub fn one_gauge(atom: &str, threshold: &str, value: &str) -> Vec<u8> {
    let lines = format!("recording 1 1; owns 00000001; gauge {atom} {threshold}; at 00 00000000");
    text(&format!("{lines} {value}"))
}

/// A state with a run mark of controller 0.
const RAN: u64 = 1 << 32;

/// Order, places and numbers.
pub const TRIALS: &[Trial] = &[
    // no gauge, and up to 8
    ("recording 1 1; owns 00000001; at 00 00000008", Ok(&[8])),
    (
        "recording 1 1; owns 00000001; gauge 0 0.00; gauge 1 0.00; gauge 2 0.00; gauge 3 0.00; gauge 4 0.00; \
         gauge 5 0.00; gauge 6 0.00; gauge 31 0.00; at 00 00000100 0.00 -0.01 0.00 0.00 -1.00 0.00 0.00 0.00",
        Ok(&[0x8000_016d]),
    ),
    // "in the same order", which is that of the lines and not of the atoms
    ("recording 1 1; owns 00000001; gauge 3 0.00; gauge 1 0.00; at 00 00000000 1.00 -1.00", Ok(&[8])),
    ("recording 1 1; owns 00000001; gauge 3 0.00; gauge 1 0.00; at 00 00000000 -1.00 1.00", Ok(&[2])),
    ("recording 1 1; owns 00000001; gauge 3 2.00; gauge 1 1.00; at 00 00000001 1.50 1.50", Ok(&[3])),
    // "A ninth `gauge` line is 5", whatever it holds
    (
        "recording 1 1; owns 00000001; gauge 0 0.00; gauge 1 0.00; gauge 2 0.00; gauge 3 0.00; gauge 4 0.00; \
         gauge 5 0.00; gauge 6 0.00; gauge 7 0.00; gauge 8 0.00; \
         at 00 00000000 0.00 0.00 0.00 0.00 0.00 0.00 0.00 0.00 0.00",
        Err(5),
    ),
    (
        "recording 1 1; owns 00000001; gauge 0 0.00; gauge 1 0.00; gauge 2 0.00; gauge 3 0.00; gauge 4 0.00; \
         gauge 5 0.00; gauge 6 0.00; gauge 7 0.00; gauge 7 0.00; at 00 00000000 0.00 0.00 0.00 0.00 0.00 0.00 0.00 0.00",
        Err(5),
    ),
    (
        "recording 1 1; owns 00000001; gauge 0 0.00; gauge 1 0.00; gauge 2 0.00; gauge 3 0.00; gauge 4 0.00; \
         gauge 5 0.00; gauge 6 0.00; gauge 7 0.00; gauge 99 327.68; at 00 00000000 0.00 0.00 0.00 0.00 0.00 0.00 0.00 0.00",
        Err(5),
    ),
    // where a gauge line may stand
    ("gauge 3 0.00; recording 1 1; owns 00000001; at 00 00000000 0.00", Err(5)),
    ("recording 1 1; gauge 3 0.00; owns 00000001; at 00 00000000 0.00", Err(5)),
    ("recording 2 1; owns 00000001; gauge 3 0.00; owns 00000002; at 00 00000000 0.00", Err(5)),
    ("recording 1 2; owns 00000001; at 00 00000000; gauge 3 0.00; at 00 00000000", Err(5)),
    ("recording 1 2; owns 00000001; gauge 3 0.00; at 00 00000000 0.00; gauge 4 0.00; at 00 00000000 0.00", Err(5)),
    ("recording 1 1; owns 00000001; at 00 00000000; gauge 3 0.00", Err(8)),
    ("recording 1 1; owns 00000001; gauge 3 0.00; at 00 00000000 0.00; gauge 3 0.00", Err(8)),
    ("recording 1 1; owns 00000001; gauge 3 0.00", Err(8)),
    ("recording 1 2; owns 00000001; gauge 3 0.00; at 00 00000000 0.00", Err(8)),
    // the first line that is no gauge line is an `at` line
    ("recording 1 1; owns 00000001; gauge 3 0.00; owns 00000002; at 00 00000000 0.00", Err(5)),
    ("recording 1 1; owns 00000001; gauges 3 0.00; at 00 00000000 0.00", Err(5)),
    ("recording 1 1; owns 00000001; gauge 3; at 00 00000000", Err(5)),
    ("recording 1 1; owns 00000001; gauge 3 0.00 0.00; at 00 00000000 0.00", Err(5)),
    ("recording 1 1; owns 00000001; gauge; at 00 00000000", Err(5)),
    // "one value per gauge"
    ("recording 1 1; owns 00000001; gauge 3 0.00; at 00 00000000", Err(5)),
    ("recording 1 1; owns 00000001; gauge 3 0.00; at 00 00000000 0.00 0.00", Err(5)),
    ("recording 1 1; owns 00000001; gauge 3 0.00; gauge 4 0.00; at 00 00000000 0.00", Err(5)),
    ("recording 1 1; owns 00000001; at 00 00000000 0.00", Err(5)),
    ("recording 1 2; owns 00000001; gauge 3 0.00; at 00 00000000 0.00; at 00 00000000", Err(5)),
    // an atom
    ("recording 1 1; owns 00000001; gauge 31 0.00; at 00 00000000 0.00", Ok(&[0x8000_0000])),
    ("recording 1 1; owns 00000001; gauge 32 0.00; at 00 00000000 0.00", Err(6)),
    ("recording 1 1; owns 00000001; gauge 99999999999999999999 0.00; at 00 00000000 0.00", Err(6)),
    ("recording 1 1; owns 00000001; gauge 03 0.00; at 00 00000000 0.00", Err(5)),
    ("recording 1 1; owns 00000001; gauge -3 0.00; at 00 00000000 0.00", Err(5)),
    ("recording 1 1; owns 00000001; gauge 3.00 0.00; at 00 00000000 0.00", Err(5)),
    // a gauge line: 5, 6, 19
    ("recording 1 1; owns 00000001; gauge 3 0.00; gauge 3 1.00; at 00 00000000 0.00 0.00", Err(19)),
    ("recording 1 1; owns 00000001; gauge 3 0.00; gauge 4 0.00; gauge 3 0.00; at 00 00000000 0.00 0.00 0.00", Err(19)),
    ("recording 1 1; owns 00000001; gauge 3 0.00; gauge 3 327.68; at 00 00000000 0.00 0.00", Err(6)),
    ("recording 1 1; owns 00000001; gauge 3 0.00; gauge 3 -0.00; at 00 00000000 0.00 0.00", Err(5)),
    ("recording 1 1; owns 00000001; gauge 32 1.5; at 00 00000000 0.00", Err(5)),
    ("recording 1 1; owns 00000001; gauge 3 0.00; gauge 3 0.00; at 00 00000008 x", Err(19)),
    // "20, a gauge's bit already set in the word", also where the value would set it
    ("recording 1 1; owns 00000001; gauge 3 0.00; at 00 00000008 -1.00", Err(20)),
    ("recording 1 1; owns 00000001; gauge 3 0.00; at 00 00000008 1.00", Err(20)),
    ("recording 1 1; owns 00000001; gauge 3 0.00; gauge 31 0.00; at 00 80000000 0.00 0.00", Err(20)),
    ("recording 1 1; owns 00000001; gauge 3 0.00; at 00 00000010 1.00", Ok(&[0x18])),
    // an `at` line: 5, 6 (marks, values), 20, 10
    ("recording 1 1; owns 00000001; gauge 3 0.00; gauge 4 0.00; at 00 00000000 327.68 -0.00", Err(5)),
    ("recording 1 1; owns 00000001; gauge 3 0.00; at 02 00000000 1.5", Err(5)),
    ("recording 1 1; owns 00000001; gauge 3 0.00; at 00 00000008 1.5", Err(5)),
    ("recording 1 1; owns 00000001; gauge 3 0.00; at 02 00000008 0.00", Err(6)),
    ("recording 1 1; owns 00000001; gauge 3 0.00; at 00 00000008 327.68", Err(6)),
    ("recording 1 1; owns 00000001; gauge 3 0.00; gauge 4 0.00; at 00 00000008 0.00 -327.69", Err(6)),
    ("recording 1 2; owns 00000001; gauge 3 0.00; at 00 00000000 0.00; at 00 00000009 0.00", Err(20)),
    ("recording 1 2; owns 00000001; gauge 3 0.00; at 00 00000000 0.00; at 00 00000001 327.68", Err(6)),
    ("recording 1 2; owns 00000001; gauge 3 0.00; at 00 00000000 0.00; at 00 00000001 0.00", Err(10)),
    // an own atom with a gauge: "The output rule is tested after that"
    ("recording 1 2; owns 00000001; gauge 0 5.00; at 00 00000000 4.99; at 00 00000000 5.00", Err(10)),
    ("recording 1 2; owns 00000001; gauge 0 5.00; at 00 00000000 5.00; at 00 00000000 4.99", Err(10)),
    ("recording 1 2; owns 00000001; gauge 0 5.00; at 00 00000000 5.00; at 00 00000000 9.00", Ok(&[1, 1])),
    ("recording 1 2; owns 00000001; gauge 0 5.00; at 01 00000000 4.99; at 00 00000000 5.00", Ok(&[RAN, 1])),
    ("recording 1 2; owns 00000001; gauge 1 5.00; at 00 00000000 4.99; at 00 00000000 5.00", Ok(&[0, 2])),
    // a mask is no gauge's: a foreign or unowned atom may change at any time
    ("recording 2 2; owns 00000001; owns 00000002; gauge 1 5.00; at 01 00000000 4.99; at 00 00000000 5.00", Err(10)),
];

//! "Gauges": lines `gauge` after the `owns` lines, and a value for each at the
//! end of every `at` line, which makes the gauge's bit.

use super::recording::{bit, check_marks, check_output, State};
use super::{limits, refusal, text};

/// A number in hundredths. A form may hold any, the limits are tested after it.
pub type Hundredths = i128;

/// A line `gauge`: its atom and its threshold.
#[derive(Clone, Copy, PartialEq, Eq, Debug)]
pub struct Gauge {
    /// The atom.
    pub atom: usize,
    /// The threshold.
    pub threshold: Hundredths,
}

/// A line `at` as it stands: a word in which "a gauge's bit is 0", and "one
/// value per gauge, in the same order".
#[derive(Clone, PartialEq, Eq, Debug)]
pub struct Measured {
    /// The run marks and the word.
    pub state: State,
    /// The values.
    pub values: Vec<Hundredths>,
}

/// "always with at least one digit, the point and two decimals, no leading
/// zeros but one right before the point; `-0.00` is malformed".
pub fn hundredths(field: &[u8]) -> Option<Hundredths> {
    let (negative, digits) = match field.strip_prefix(b"-") {
        Some(digits) => (true, digits),
        None => (false, field),
    };
    let point = digits.iter().position(|byte| *byte == b'.')?;
    let whole = text::decimal(&digits[..point])? as Hundredths;
    let [tenths, rest] = digits[point + 1..] else { return None };
    if !tenths.is_ascii_digit() || !rest.is_ascii_digit() {
        return None;
    }
    let decimals = Hundredths::from(tenths - b'0') * 10 + Hundredths::from(rest - b'0');
    let size = whole * 100 + decimals;
    if negative && size == 0 {
        return None;
    }
    Some(if negative { -size } else { size })
}

/// Refusal 6 of a threshold or value: "from -327.68 to 327.67".
pub fn check_limits(number: Hundredths) -> Result<(), u8> {
    if !(limits::LEAST..=limits::MOST).contains(&number) {
        return Err(refusal::RECORDING_LIMIT);
    }
    Ok(())
}

/// Refusal 6 of a gauge's atom and of its threshold.
pub fn check_gauge_limits(gauge: Gauge) -> Result<(), u8> {
    if gauge.atom >= limits::ATOMS {
        return Err(refusal::RECORDING_LIMIT);
    }
    check_limits(gauge.threshold)
}

/// "19, a second gauge for an atom".
pub fn check_atom(earlier: &[Gauge], gauge: Gauge) -> Result<(), u8> {
    if earlier.iter().any(|other| other.atom == gauge.atom) {
        return Err(refusal::GAUGE_TWICE);
    }
    Ok(())
}

/// "20, a gauge's bit already set in the word", whatever the value.
pub fn check_bits(gauges: &[Gauge], state: State) -> Result<(), u8> {
    if gauges.iter().any(|gauge| bit(state.atoms, gauge.atom)) {
        return Err(refusal::GAUGE_SET);
    }
    Ok(())
}

/// "A gauge's bit .. becomes 1 exactly when the value is at least the
/// threshold."
pub fn finished(gauges: &[Gauge], measured: &Measured) -> State {
    let mut state = measured.state;
    for (gauge, value) in gauges.iter().zip(&measured.values) {
        if *value >= gauge.threshold {
            state.atoms |= 1 << gauge.atom;
        }
    }
    state
}

/// What a state is checked by: C, the masks, the gauges, and the finished state
/// before it, if there is one.
#[derive(Clone, Copy, Debug)]
pub struct Before<'a> {
    /// C.
    pub controllers: usize,
    /// The masks.
    pub masks: &'a [u32],
    /// The gauges.
    pub gauges: &'a [Gauge],
    /// The state before.
    pub state: Option<State>,
}

/// How gauges are read. It is the request's words; a comparison that must find
/// a wrong reader overrides one.
pub trait Gauging {
    /// How many gauge lines there may be: "A ninth `gauge` line is 5."
    fn most(&self) -> usize {
        limits::GAUGES
    }

    /// The form of a threshold or value.
    fn number(&self, field: &[u8]) -> Option<Hundredths> {
        hundredths(field)
    }

    /// A gauge line of its form: 6, then 19, "tested after 6 on its line".
    fn check_gauge(&self, earlier: &[Gauge], gauge: Gauge) -> Result<(), u8> {
        check_gauge_limits(gauge)?;
        check_atom(earlier, gauge)
    }

    /// An `at` line of its form, and the finished state: 6 of the marks and of
    /// the values, 20 "tested after 6 and before 10", and 10: "The output rule
    /// is tested after that".
    fn check_state(&self, before: Before, measured: &Measured) -> Result<State, u8> {
        check_marks(before.controllers, measured.state)?;
        measured.values.iter().try_for_each(|value| check_limits(*value))?;
        check_bits(before.gauges, measured.state)?;
        let state = finished(before.gauges, measured);
        check_output(before.masks, before.state, state)?;
        Ok(state)
    }
}

/// The request as it is worded.
#[derive(Clone, Copy, Debug)]
pub struct AsWorded;

impl Gauging for AsWorded {}

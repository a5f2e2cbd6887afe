//! Wrong readers of gauges on purpose: what a library would answer that takes one
//! thing otherwise than "Gauges" says.

use reference::model::gauges::{
    check_atom, check_bits, check_gauge_limits, check_limits, finished, hundredths, Before, Gauge,
    Gauging, Hundredths, Measured,
};
use reference::model::limits::{GAUGES, LEAST, MOST};
use reference::model::recording::{bit, check_marks, check_output, State};
use reference::model::refusal;

use crate::expected;
use crate::input::Input;
use crate::outcome::Outcome;

/// The wrong readers.
#[derive(Clone, Copy, PartialEq, Eq, Debug)]
pub enum Misgauge {
    /// Zeros before the others are taken: `00.50`.
    LeadingZeros,
    /// `-0.00` is zero.
    NegativeZero,
    /// A number may begin with its point: `.50`.
    NoDigit,
    /// A plus sign is taken: `+1.00`.
    Plus,
    /// One decimal is enough: `1.5`.
    OneDecimal,
    /// Decimals may be missing with their point: `1`.
    NoPoint,
    /// A comma is a point.
    Comma,
    /// The minus is read and forgotten.
    Unsigned,
    /// Only the whole part is negated: -0.01 is 0.01, -1.50 is -0.50.
    WholeNegated,
    /// Numbers are kept in 16 bits, and what is outside them wraps around.
    Wrapped,
    /// What is outside the limits is taken for the nearest end.
    Clamped,
    /// -327.68 is outside.
    LeastOutside,
    /// 327.68 is inside.
    MoreInside,
    /// Seven gauge lines are the most.
    Seven,
    /// Nine gauge lines are taken.
    Nine,
    /// A second gauge for an atom is taken.
    Twice,
    /// 19 is tested before 6.
    TwiceFirst,
    /// A gauge's bit that is set in the word stays.
    SetBefore,
    /// 20 is answered only where the value wouldn't set the bit.
    SetInVain,
    /// 20 is tested before 6.
    SetFirst,
    /// 20 is tested after 10.
    SetLast,
    /// The bit is 1 where the value is above the threshold.
    Above,
    /// The bit is 1 where the value is below the threshold.
    Below,
    /// Values and thresholds are compared without their signs' order.
    UnsignedOrder,
    /// The values come in the opposite order.
    Reversed,
    /// The values come in the order of the atoms.
    ByAtom,
    /// The output rule is tested on the word as it stands.
    Unfinished,
    /// The word is handed back as it stands.
    NotKept,
}

impl Misgauge {
    /// Each with the name that `--wrong` takes.
    pub const ALL: [(Misgauge, &'static str); 28] = [
        (Misgauge::LeadingZeros, "gauge_leading_zeros"),
        (Misgauge::NegativeZero, "gauge_negative_zero"),
        (Misgauge::NoDigit, "gauge_no_digit"),
        (Misgauge::Plus, "gauge_plus"),
        (Misgauge::OneDecimal, "gauge_one_decimal"),
        (Misgauge::NoPoint, "gauge_no_point"),
        (Misgauge::Comma, "gauge_comma"),
        (Misgauge::Unsigned, "gauge_unsigned"),
        (Misgauge::WholeNegated, "gauge_whole_negated"),
        (Misgauge::Wrapped, "gauge_wrapped"),
        (Misgauge::Clamped, "gauge_clamped"),
        (Misgauge::LeastOutside, "gauge_least_outside"),
        (Misgauge::MoreInside, "gauge_more_inside"),
        (Misgauge::Seven, "gauge_seven"),
        (Misgauge::Nine, "gauge_nine"),
        (Misgauge::Twice, "gauge_twice"),
        (Misgauge::TwiceFirst, "gauge_twice_first"),
        (Misgauge::SetBefore, "gauge_set_before"),
        (Misgauge::SetInVain, "gauge_set_in_vain"),
        (Misgauge::SetFirst, "gauge_set_first"),
        (Misgauge::SetLast, "gauge_set_last"),
        (Misgauge::Above, "gauge_above"),
        (Misgauge::Below, "gauge_below"),
        (Misgauge::UnsignedOrder, "gauge_unsigned_order"),
        (Misgauge::Reversed, "gauge_reversed"),
        (Misgauge::ByAtom, "gauge_by_atom"),
        (Misgauge::Unfinished, "gauge_unfinished"),
        (Misgauge::NotKept, "gauge_not_kept"),
    ];

    /// The name that `--wrong` takes.
    pub fn name(self) -> &'static str {
        let found = Misgauge::ALL.into_iter().find(|(misgauge, _)| *misgauge == self);
        found.expect("all are listed").1
    }

    /// The field that the right reader reads as the wrong one reads this field.
    fn field(self, field: &[u8]) -> Vec<u8> {
        let (sign, digits) = match field.strip_prefix(b"-") {
            Some(digits) => (&b"-"[..], digits),
            None => (&b""[..], field),
        };
        let zeros = digits.iter().take_while(|byte| **byte == b'0').count();
        match self {
            Misgauge::LeadingZeros if zeros > 1 => [sign, &digits[zeros - 1..]].concat(),
            Misgauge::NegativeZero if field == b"-0.00" => b"0.00".to_vec(),
            Misgauge::NoDigit if digits.starts_with(b".") => [sign, b"0", digits].concat(),
            Misgauge::Plus => field.strip_prefix(b"+").unwrap_or(field).to_vec(),
            Misgauge::OneDecimal if digits.iter().rposition(|byte| *byte == b'.').is_some() => {
                let point = digits.iter().rposition(|byte| *byte == b'.').expect("a point");
                let short = point + 2 == digits.len();
                [field, if short { b"0" } else { b"" }].concat()
            }
            Misgauge::NoPoint if !digits.contains(&b'.') => [field, b".00"].concat(),
            Misgauge::Comma => {
                field.iter().map(|byte| if *byte == b',' { b'.' } else { *byte }).collect()
            }
            _ => field.to_vec(),
        }
    }

    /// The number that the wrong reader takes for this one.
    fn taken(self, number: Hundredths) -> Hundredths {
        match self {
            Misgauge::Unsigned => number.abs(),
            Misgauge::WholeNegated => number / 100 * 100 + (number % 100).abs(),
            Misgauge::Wrapped => (number + 32_768).rem_euclid(65_536) - 32_768,
            Misgauge::Clamped => number.clamp(LEAST, MOST),
            Misgauge::LeastOutside if number == LEAST => LEAST - 1,
            Misgauge::MoreInside if number == MOST + 1 => MOST,
            _ => number,
        }
    }

    /// The values in the order in which the wrong reader takes them.
    fn ordered(self, gauges: &[Gauge], measured: &Measured) -> Measured {
        let mut measured = measured.clone();
        match self {
            Misgauge::Reversed => measured.values.reverse(),
            Misgauge::ByAtom => {
                let place =
                    |gauge: &Gauge| gauges.iter().filter(|other| other.atom < gauge.atom).count();
                let values = gauges.iter().map(|gauge| measured.values[place(gauge)]);
                measured.values = values.collect();
            }
            _ => {}
        }
        measured
    }

    /// 20, as the wrong reader tests it.
    fn bits(self, before: Before, measured: &Measured) -> Result<(), u8> {
        let set = |(gauge, value): &(&Gauge, &Hundredths)| {
            bit(measured.state.atoms, gauge.atom)
                && (self != Misgauge::SetInVain || **value < gauge.threshold)
        };
        let mut pairs = before.gauges.iter().zip(&measured.values);
        match self {
            Misgauge::SetBefore => Ok(()),
            _ if pairs.any(|pair| set(&pair)) => Err(refusal::GAUGE_SET),
            _ => Ok(()),
        }
    }

    /// The state with its gauges' bits, as the wrong reader makes them.
    fn finish(self, gauges: &[Gauge], measured: &Measured) -> State {
        let mut state = measured.state;
        for (gauge, value) in gauges.iter().zip(&measured.values) {
            let [value, threshold] = [*value, gauge.threshold];
            let set = match self {
                Misgauge::Above => value > threshold,
                Misgauge::Below => value < threshold,
                Misgauge::UnsignedOrder => value.rem_euclid(65_536) >= threshold.rem_euclid(65_536),
                _ => value >= threshold,
            };
            state.atoms |= u32::from(set) << gauge.atom;
        }
        state
    }
}

impl Gauging for Misgauge {
    fn most(&self) -> usize {
        match self {
            Misgauge::Seven => GAUGES - 1,
            Misgauge::Nine => GAUGES + 1,
            _ => GAUGES,
        }
    }

    fn number(&self, field: &[u8]) -> Option<Hundredths> {
        hundredths(&self.field(field)).map(|number| self.taken(number))
    }

    fn check_gauge(&self, earlier: &[Gauge], gauge: Gauge) -> Result<(), u8> {
        if *self == Misgauge::TwiceFirst {
            check_atom(earlier, gauge)?;
        }
        check_gauge_limits(gauge)?;
        if *self == Misgauge::Twice {
            return Ok(());
        }
        check_atom(earlier, gauge)
    }

    fn check_state(&self, before: Before, measured: &Measured) -> Result<State, u8> {
        let measured = &self.ordered(before.gauges, measured);
        if *self == Misgauge::SetFirst {
            check_bits(before.gauges, measured.state)?;
        }
        check_marks(before.controllers, measured.state)?;
        measured.values.iter().try_for_each(|value| check_limits(*value))?;
        if *self != Misgauge::SetLast {
            self.bits(before, measured)?;
        }
        let state = self.finish(before.gauges, measured);
        let tested = if *self == Misgauge::Unfinished { measured.state } else { state };
        check_output(before.masks, before.state, tested)?;
        self.bits(before, measured)?;
        let kept = finished(&[], measured);
        Ok(if *self == Misgauge::NotKept { kept } else { state })
    }
}

/// What the wrong library answers and leaves, where it differs from what is
/// expected.
pub fn outcome(misgauge: Misgauge, input: &Input, expected: &Outcome) -> Option<Outcome> {
    let wrong = expected::of_by(&misgauge, input);
    (wrong != *expected).then_some(wrong)
}

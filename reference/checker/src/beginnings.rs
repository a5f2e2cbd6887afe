//! Projection of every beginning of a recording, of one state or more and with
//! N lowered, the other states still there. What the library answers for K
//! states, carried on by one state, is what it answers for K + 1.

use reference::generate::recordings::RecordingTable;
use reference::model::limits::ATOMS;

use crate::check::Check;
use crate::difference::Difference;
use crate::input::Input;
use crate::tally::Operation;
use crate::wrong::Place;

/// The places of K states carried on by state K: if the controller has a mark
/// in the state before it, that step now has its result. Its whole word stands
/// in the last place, and the own atoms of state K in a new one.
fn carried(mut places: Vec<u64>, recording: &RecordingTable, c: usize, k: usize) -> Vec<u64> {
    let word = |k: usize| recording.states[k] % (1 << ATOMS);
    if recording.states[k - 1] >> (ATOMS + c) & 1 == 1 {
        places.pop();
        places.push(word(k - 1));
        places.push(word(k) & u64::from(recording.masks[c]));
    }
    places
}

/// All beginnings of an accepted recording, for one of its controllers.
pub fn each(
    check: &mut Check,
    recording: &RecordingTable,
    controller: usize,
) -> Result<(), Difference> {
    let mut before = Vec::new();
    for length in 1..=recording.length {
        let input = Input::project(RecordingTable { length, ..recording.clone() }, controller);
        let found = check.compare(&input)?;
        check.count(Operation::Beginnings, 1, 0);
        let refused = u8::from(check.wrong(Operation::Beginnings, Place::Number));
        if found.number != refused {
            let place = format!("a beginning of an accepted recording: {}", found.number);
            return Err(Difference::new(place, input.to_string()));
        }
        let places = found.slice(0)[..found.values[0]].to_vec();
        if length > 1 {
            let mut expected = carried(before, recording, controller, length - 1);
            if check.wrong(Operation::Beginnings, Place::Content) {
                expected[0] ^= 1;
            }
            if places != expected {
                let place = format!("the places before, carried on by one state: {expected:?}");
                return Err(Difference::new(place, input.to_string()));
            }
        }
        before = places;
    }
    Ok(())
}

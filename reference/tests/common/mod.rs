//! What several tests ask of the model.

use reference::generate::recordings::RecordingTable;
use reference::model::{self, limits};

/// The places of a controller's local trace, or the refusal.
pub fn places(recording: &RecordingTable, controller: usize) -> Result<Vec<u32>, u8> {
    let RecordingTable { controllers, length, masks, states } = recording;
    let mut places = vec![1; limits::PLACES];
    let count = model::project(*controllers, *length, masks, states, controller, &mut places)?;
    places.truncate(count);
    Ok(places)
}

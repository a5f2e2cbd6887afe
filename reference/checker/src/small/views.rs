//! Small recordings gathered by what a rule of one controller can see.

use std::collections::HashMap;
use std::hash::Hash;

use reference::generate::exhaustive;
use reference::generate::recordings::RecordingTable;
use reference::model::{self, limits};

/// A recording, by number, and one of its controllers.
#[derive(Clone, Copy, Debug)]
pub struct Member {
    /// The recording's number.
    pub recording: usize,
    /// The controller.
    pub controller: usize,
}

/// The recordings that have one own mask, the same words and the same runs of
/// the controller, whatever the last state's marks: by both documents every
/// verdict and row is the same for all of them, so the model is asked once.
pub struct View {
    /// The controller's own mask.
    pub own: u32,
    /// N.
    pub length: usize,
    /// The number of the local trace.
    pub local: usize,
    /// The recordings.
    pub members: Vec<Member>,
}

/// All small recordings.
pub struct Views {
    /// The recordings.
    pub recordings: Vec<RecordingTable>,
    /// The views.
    pub views: Vec<View>,
    /// For each local trace the first recording that has it.
    pub locals: Vec<Member>,
}

/// What a view is known by: the own mask, the word of each state, and whether
/// the controller runs there.
fn view_key(recording: &RecordingTable, controller: usize) -> (u32, Vec<(u32, bool)>) {
    let seen = |(k, state): (usize, &u64)| {
        let runs = k + 1 < recording.length && state >> (32 + controller) & 1 == 1;
        (*state as u32, runs)
    };
    (recording.masks[controller], recording.states.iter().enumerate().map(seen).collect())
}

/// What a local trace is known by: the own mask and the places.
fn local_key(recording: &RecordingTable, controller: usize) -> (u32, Vec<u32>) {
    let RecordingTable { controllers, length, masks, states } = recording;
    let mut places = vec![0; limits::PLACES];
    let count = model::project(*controllers, *length, masks, states, controller, &mut places);
    places.truncate(count.expect("a small recording is accepted"));
    (masks[controller], places)
}

/// The number of a key, in the order of first appearance.
fn number_of<K: Eq + Hash>(known: &mut HashMap<K, usize>, key: K) -> usize {
    let next = known.len();
    *known.entry(key).or_insert(next)
}

impl Views {
    /// All recordings of up to 2 controllers and so many states.
    pub fn new(states: usize) -> Views {
        let recordings = exhaustive::recordings(2, states);
        let (mut views, mut locals): (Vec<View>, Vec<Member>) = (Vec::new(), Vec::new());
        let (mut known_views, mut known_locals) = (HashMap::new(), HashMap::new());
        for (recording, table) in recordings.iter().enumerate() {
            for controller in 0..table.controllers {
                let member = Member { recording, controller };
                let at = number_of(&mut known_views, view_key(table, controller));
                if at == views.len() {
                    let local = number_of(&mut known_locals, local_key(table, controller));
                    if local == locals.len() {
                        locals.push(member);
                    }
                    let (own, length) = (table.masks[controller], table.length);
                    views.push(View { own, length, local, members: Vec::new() });
                }
                views[at].members.push(member);
            }
        }
        Views { recordings, views, locals }
    }
}

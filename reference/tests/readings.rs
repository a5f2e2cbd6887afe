//! Laws of the weak and the strong reading, as the rows of the whole judge
//! show them.

use std::time::Instant;

use reference::generate::random::Random;
use reference::generate::recordings::{self, RecordingTable};
use reference::generate::rules::{self, JudgeTable};
use reference::model::rule::{Node, ATOM, END, NEXT, NOT, OR, PREV, RUN, SINCE, TRUE, UNTIL};
use reference::model::{self, limits};

/// Rows of one table over one recording.
struct Rows {
    words: Vec<u64>,
    length: usize,
}

impl Rows {
    /// The mark of a node, strong or weak, in a state.
    fn mark(&self, node: usize, strong: bool, k: usize) -> bool {
        let row = node * limits::PAIR_WORDS + 3 * usize::from(strong);
        self.words[row + k / 64] >> (k % 64) & 1 == 1
    }

    /// The recursive form of a node's clause.
    fn unfolded(&self, node: Node, strong: bool, k: usize, number: usize) -> bool {
        let (p, q) = (node.first, node.second);
        let last = k + 1 == self.length;
        let now = |operand| self.mark(operand, strong, k);
        match node.kind {
            TRUE => true,
            NOT => !self.mark(p, !strong, k),
            OR => now(p) || now(q),
            NEXT if last => !strong,
            NEXT => self.mark(p, strong, k + 1),
            UNTIL if last => now(q) || (now(p) && !strong),
            UNTIL => now(q) || (now(p) && self.mark(number, strong, k + 1)),
            PREV => k > 0 && self.mark(p, strong, k - 1),
            SINCE => now(q) || (now(p) && k > 0 && self.mark(number, strong, k - 1)),
            _ => unreachable!(),
        }
    }
}

/// Is the literal as recorded? A mark in the last state is no run.
fn recorded(node: Node, recording: &RecordingTable, controller: usize, k: usize) -> bool {
    let last = recording.length - 1;
    let runs = |j: usize| j < last && recording.states[j] >> (32 + controller) & 1 == 1;
    match node.kind {
        ATOM => recording.states[k] >> node.first & 1 == 1,
        RUN => runs(k),
        END => !(k..=last).any(runs),
        _ => unreachable!(),
    }
}

/// The rows of a table over a recording for a controller.
fn judge(table: &JudgeTable, recording: &RecordingTable, controller: usize) -> Rows {
    let mut words = vec![1; limits::ROW_WORDS];
    let JudgeTable { count, nodes, weak_top, strong_top } = table;
    let RecordingTable { controllers, length, masks, states } = recording;
    let verdict = model::judge_recording(
        *count,
        nodes,
        *weak_top,
        *strong_top,
        *controllers,
        *length,
        masks,
        states,
        controller,
        &mut words,
    )
    .expect("both are accepted");
    let rows = Rows { words, length: *length };
    assert_eq!(verdict.weak, rows.mark(*weak_top, false, 0));
    assert_eq!(verdict.strong, rows.mark(*strong_top, true, 0));
    rows
}

/// Every mark unfolds, strong implies weak, and marks past the states are no.
fn check_rows(table: &JudgeTable, recording: &RecordingTable, controller: usize) {
    let rows = judge(table, recording, controller);
    for number in 0..table.count {
        let node = Node::of_word(table.nodes[number]);
        for k in 0..recording.length {
            for strong in [false, true] {
                let expected = match node.kind {
                    ATOM | RUN | END => recorded(node, recording, controller, k),
                    _ => rows.unfolded(node, strong, k, number),
                };
                assert_eq!(rows.mark(number, strong, k), expected, "{node:?} {k}");
            }
            assert!(rows.mark(number, false, k) || !rows.mark(number, true, k));
        }
        for k in recording.length..limits::STATES {
            assert!(!rows.mark(number, false, k) && !rows.mark(number, true, k));
        }
    }
}

#[test]
fn rows_unfold() {
    let mut random = Random::new(21);
    for _ in 0..400 {
        let table = rules::table(&mut random, 200);
        let recording = recordings::recording(&mut random, limits::CONTROLLERS, limits::STATES);
        let controller = random.below(recording.controllers);
        check_rows(&table, &recording, controller);
    }
}

#[test]
fn largest_table_over_the_longest_recording() {
    let mut random = Random::new(22);
    let mut table = rules::table(&mut random, limits::TABLE_NODES);
    while table.count < limits::TABLE_NODES {
        table = rules::table(&mut random, limits::TABLE_NODES);
    }
    let mut recording = recordings::recording(&mut random, limits::CONTROLLERS, limits::STATES);
    while recording.length < limits::STATES {
        recording = recordings::recording(&mut random, limits::CONTROLLERS, limits::STATES);
    }
    let start = Instant::now();
    judge(&table, &recording, 0);
    println!("1,024 nodes over 128 states: {:?}", start.elapsed());
    check_rows(&table, &recording, 0);
}

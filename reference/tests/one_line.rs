//! Rules in one line: the trials, and that every short list of signs has at
//! most one reading.

use reference::generate::lines::{alphabet, damaged, full, line, short_list, spelled};
use reference::generate::random::Random;
use reference::model::one_line::{derivations, read, spellings};
use reference::model::rule::{Node, ATOM, NEXT, NOT, OR, SINCE, TRUE, UNTIL};
use reference::model::{read_line, rule_program};

/// The nodes of a line, as kinds and operands.
fn nodes(line: &str) -> Vec<(u32, usize, usize)> {
    let listed = |node: Node| (node.kind, node.first, node.second);
    read(0, line.as_bytes()).expect("accepted").into_iter().map(listed).collect()
}

#[test]
fn the_requests_line_has_its_nine_nodes() {
    let expected = [
        (TRUE, 0, 0),
        (ATOM, 1, 0),
        (NOT, 1, 0),
        (ATOM, 0, 0),
        (NEXT, 3, 0),
        (OR, 2, 4),
        (NOT, 5, 0),
        (UNTIL, 0, 6),
        (NOT, 7, 0),
    ];
    assert_eq!(nodes("G (a1 -> X a0)"), expected);
    assert_eq!(nodes("G !a0").len(), 6);
}

#[test]
fn signs_bind_to_their_sides() {
    assert_eq!(nodes("a0 U a1 S a2")[3..], [(SINCE, 1, 2), (UNTIL, 0, 3)]);
    assert_eq!(nodes("a0 | a1 | a2"), nodes("(a0 | a1) | a2"));
    assert_eq!(nodes("a0 & a1 & a2"), nodes("(a0 & a1) & a2"));
    assert_eq!(nodes("a0 -> a1 -> a2"), nodes("a0 -> (a1 -> a2)"));
    assert_eq!(nodes("!a0 U a1"), nodes("(!a0) U a1"));
    assert_eq!(nodes("a0->a1|a2&a3U!a4"), nodes("a0 -> (a1 | (a2 & (a3 U (!a4))))"));
}

#[test]
fn numbers_come_in_their_order() {
    let nested = |depth: usize, inside: &str| "(".repeat(depth) + inside + &")".repeat(depth);
    let trials = [
        ("a0 |".to_string(), 15),
        (nested(16, "a0"), 0),
        (nested(17, "a0"), 16),
        (nested(17, "a0") + ")", 15),
        (nested(17, "a32"), 16),
        ("a32 |".to_string(), 15),
        ("a32".to_string(), 2),
        ("!".repeat(63) + "a0", 0),
        ("!".repeat(64) + "a0", 2),
        (" a0".to_string(), 15),
        ("a0 ".to_string(), 15),
        ("a0  |a1".to_string(), 15),
        ("a0 - > a1".to_string(), 15),
        ("a01".to_string(), 15),
        (String::new(), 15),
    ];
    for (line, number) in trials {
        assert_eq!(read(0, line.as_bytes()).err().unwrap_or(0), number, "{line}");
    }
    assert_eq!(read(11, b"a0"), Err(2));
    assert_eq!(read(11, b"("), Err(15));
}

#[test]
fn lent_nodes_are_left_as_after_reading_a_rule() {
    let mut nodes = [7; 65];
    assert!(read_line(3, b"!a0", &mut nodes).is_ok());
    assert_eq!(nodes[2..], [&[0; 62][..], &[7]].concat());
    let deep = "(".repeat(17) + "a0" + &")".repeat(17);
    for (line, number) in [("!", 15), (&deep, 16), ("a32", 2)] {
        nodes = [7; 65];
        assert_eq!(read_line(3, line.as_bytes(), &mut nodes), Err(number));
        assert_eq!(nodes[..], [&[0; 64][..], &[7]].concat());
    }
    let mut short = [7; 63];
    assert_eq!(read_line(3, b"!", &mut short), Err(13));
    assert_eq!(short, [7; 63]);
}

#[test]
fn the_program_prints_a_rule_text_or_a_refusal() {
    assert_eq!(rule_program(b"2\tX a31\n"), b"rule\t2\t2\natom\t31\nnext\t0\n");
    assert_eq!(rule_program(b"2\tX a31 )\n"), b"refused\t15\n");
    assert_eq!(rule_program(b"2\tX a31"), b"refused\t1\n");
    assert_eq!(rule_program(b"2\tX a31\n\n"), b"refused\t1\n");
    assert_eq!(rule_program(&[b'!'; 16385]), b"refused\t14\n");
}

#[test]
fn every_list_of_up_to_five_signs_has_one_reading_at_most() {
    let alphabet = alphabet();
    let mut sentences = 0;
    for length in 1..=5 {
        for number in 0..alphabet.len().pow(length as u32) {
            let signs = short_list(&alphabet, length, number);
            let trees = derivations(&signs);
            assert!(trees.len() <= 1, "{signs:?}");
            sentences += trees.len();
            let spaces = Random::new(number as u64).bits();
            assert_eq!(spellings(&spelled(&signs, spaces)), [signs]);
        }
    }
    // 2, 10, 72, 470 and 3,162: S(n) = P(n) + 5 (P(1) S(n-2) + .. + P(n-2) S(1)), P(n) = 5 P(n-1) + S(n-2).
    assert_eq!(sentences, 3716);
}

#[test]
fn random_lines_have_one_reading_at_most() {
    let mut random = Random::new(1);
    for _ in 0..2000 {
        let line = line(&mut random);
        assert_eq!(spellings(&line).len(), 1);
        let damaged = damaged(&mut random, &line);
        assert!(spellings(&damaged).len() <= 1);
        let _ = read(0, &damaged);
    }
}

#[test]
fn full_lines_are_accepted() {
    let mut random = Random::new(1);
    for bytes in [256, 512, 1024] {
        for _ in 0..50 {
            let line = full(&mut random, bytes);
            assert_eq!(line.len(), bytes);
            assert!(read(0, &line).is_ok(), "{}", line.escape_ascii());
        }
    }
}

//! "The rule that grows most": the program `longest`, and that no rule exceeds
//! what it prints.

use reference::generate::exhaustive;
use reference::generate::random::Random;
use reference::generate::rules;
use reference::model::limits::{PROGRAM_INPUT, RULE_NODES, TABLE_NODES};
use reference::model::rule::Node;
use reference::model::{longest_program, longest_rule, read_rule, rewrite, RuleHeading};

/// The plain and the short node count of a rule for an own mask.
fn counts(nodes: &[u32], own: u32) -> [usize; 2] {
    [false, true].map(|short| {
        let mut table = [0; TABLE_NODES];
        rewrite(short, 0, nodes.len(), nodes, own, &mut table).expect("accepted").count
    })
}

/// The words of nodes.
fn words(nodes: &[Node]) -> Vec<u32> {
    nodes.iter().map(|node| node.word()).collect()
}

/// No rule may exceed it, and the short count is never above the plain one.
fn within(nodes: &[u32], own: u32) {
    let [plain, short] = counts(nodes, own);
    assert!(plain <= 13 + 11 * nodes.len(), "{nodes:x?}");
    assert!(short <= plain, "{nodes:x?}");
}

#[test]
fn what_it_prints() {
    assert_eq!(longest_program(b"1\n"), b"rule\t0\t1\natom\t0\n");
    assert_eq!(longest_program(b"3\n"), b"rule\t0\t3\natom\t0\nuntil\t0\t0\nuntil\t0\t0\n");
    assert_eq!(longest_program(b"5\r\n"), longest_program(b"5\n"));
    for n in 1..=RULE_NODES {
        let text = longest_program(format!("{n}\n").as_bytes());
        let mut nodes = [0; RULE_NODES];
        assert_eq!(read_rule(&text, &mut nodes), Ok(RuleHeading { controller: 0, count: n }));
        assert_eq!(nodes[..n], words(&longest_rule(n).nodes));
    }
}

#[test]
fn what_it_refuses() {
    let form: [&[u8]; 16] = [
        b"", b"\n", b"\r\n", b"5", b"5\r", b"5\n\n", b"5\n6\n", b"5\n6", b"065\n", b"00\n",
        b" 5\n", b"5 \n", b"5\t\n", b"+5\n", b"-1\n", b"5\r\r\n",
    ];
    for input in form {
        assert_eq!(longest_program(input), b"refused\t1\n", "{}", input.escape_ascii());
    }
    for input in
        ["0\n", "65\n", "100\n", "0\r\n", "18446744073709551617\n", "36893488147419103233\n"]
    {
        assert_eq!(longest_program(input.as_bytes()), b"refused\t2\n", "{input}");
    }
    let nines = |length: usize| [&vec![b'9'; length - 1][..], b"\n"].concat();
    assert_eq!(longest_program(&nines(PROGRAM_INPUT)), b"refused\t2\n");
    assert_eq!(longest_program(&nines(PROGRAM_INPUT + 1)), b"refused\t14\n");
    assert_eq!(longest_program(&vec![b'9'; PROGRAM_INPUT]), b"refused\t1\n");
}

#[test]
fn its_plain_table() {
    assert_eq!(counts(&words(&longest_rule(1).nodes), 0)[0], 24);
    assert_eq!(counts(&words(&longest_rule(RULE_NODES).nodes), 0)[0], 717);
    for n in 1..=RULE_NODES {
        let nodes = words(&longest_rule(n).nodes);
        assert_eq!(counts(&nodes, 0)[0], 13 + 11 * n);
        assert_eq!(counts(&nodes, !1)[0], 13 + 11 * n);
        assert_eq!(counts(&nodes, 1)[0], 9 + 11 * n);
    }
}

#[test]
fn no_rule_exceeds_it() {
    exhaustive::each_rule(4, &mut |nodes| (0..4).for_each(|own| within(nodes, own)));
    let mut random = Random::new(41);
    for _ in 0..6000 {
        let rule = rules::rule(&mut random, RULE_NODES);
        for own in [0, u32::MAX, random.word()] {
            within(&rule.nodes, own);
        }
    }
}

//! The Quay case, worked out by hand: the tables by both rules, depths, changes
//! and ways.

mod common;
#[path = "common/plain.rs"]
mod plain;

use common::*;
use second::answers::answers;
use second::change::{change, Change};
use second::forward::{forward, Asked, Kind, Measure};
use second::limits::WHOLE;
use second::map::map;
use second::network::Rows;
use second::probe::Case;
use second::table::{entry_of, table};

const ROOT: [u64; 10] = [0, NONE, NONE, NONE, 0, 0, 0, 0, 0, 0];
const BEYOND: [u64; 10] = [2, NONE, NONE, NONE, 0, 0, 0, 0, 0, 0];

/// The entries of nodes 2 to 5, which no rule changes.
const OTHERS: [[u64; 10]; 4] = [
    [1, 3, 3, 3, 7, 2, 4, 1, 1, 1],
    [1, 5, 5, 5, 5, 2, 3, 1, 1, 1],
    [1, 5, 5, 5, 2, 0, 2, 1, 1, 1],
    [1, 3, 3, 3, 3, 0, 3, 1, 1, 1],
];

/// The entry of node 1 by either rule.
const NODE_1: [[u64; 10]; 2] = [
    [1, 3, 5, 3, 12, 2, 5, 1, 0, 1],
    [1, 5, 5, 5, 12, 2, 5, 0, 0, 0],
];

/// 0 - 1 - 2 over 3 - 4 - 5, every link 1 long.
fn quay() -> Rows {
    let links = [
        [0, 1, 1],
        [1, 2, 1],
        [3, 4, 1],
        [4, 5, 1],
        [0, 3, 1],
        [1, 4, 1],
        [2, 5, 1],
    ];
    rows(&[65_535, 0, 1, 4, 2, 6], &links, 0)
}

/// The table of a network by a rule.
fn table_by(rows: &Rows, rule: u16, depth: u16) -> Vec<u64> {
    let mut row = vec![7; 10 * rows.parents.len()];
    table(&rows.lend(), by(rule, depth), &mut row).unwrap();
    row
}

/// Quay's table with these entries of nodes 1 to 5.
fn of(node_1: [u64; 10], others: [[u64; 10]; 4]) -> Vec<u64> {
    [&[ROOT, node_1][..], &others].concat().concat()
}

#[test]
fn the_network() {
    assert_eq!(second::quay::quay(), quay());
    let d: Vec<u64> = (0..6).map(|u| plain::d(&quay(), u)).collect();
    assert_eq!(d, [0, 1, 2, 1, 2, 3]);
    assert_eq!(plain::below(&quay(), 1), [1, 2, 5]);
}

/// Link 3 ends at node 5, two steps below 1, and link 5 at node 1; both lead to
/// node 4. By link 3 the new distances of 1, 2 and 5 are 5, 4 and 3, by link 5
/// they are 3, 4 and 5.
#[test]
fn the_two_candidates_of_node_1() {
    assert_eq!(plain::crossing(&quay(), 1), [(3, 5, 4), (5, 1, 4)]);
    let right = [(3, [12, 4, 5]), (5, [12, 2, 5])];
    assert_eq!(plain::priced(&quay(), WHOLE, 1), right);
}

#[test]
fn the_tables() {
    for rule in [0, 1] {
        let right = of(NODE_1[usize::from(rule)], OTHERS);
        for depth in [WHOLE, 510, 2] {
            assert_eq!(table_by(&quay(), rule, depth), right);
        }
        for x in 0..6 {
            let entry = entry_of(&quay().lend(), by(rule, WHOLE), x).unwrap();
            assert_eq!(entry.numbers(), right[10 * x as usize..][..10]);
        }
    }
}

/// Within one hop link 5 is node 1's only candidate, by either rule.
#[test]
fn depths_without_a_tie() {
    let [_, _, four, five] = OTHERS;
    for rule in [0, 1] {
        assert_eq!(table_by(&quay(), rule, 1), of(NODE_1[1], OTHERS));
        let right = of(NODE_1[1], [BEYOND, BEYOND, four, five]);
        assert_eq!(table_by(&quay(), rule, 0), right);
        let mut words = [7; 9];
        let none = map(&quay().lend(), by(rule, 1), &mut words).unwrap();
        assert_eq!((none.count, none.lowest), (0, 65_535));
        let two_three = map(&quay().lend(), by(rule, 0), &mut words).unwrap();
        assert_eq!(words, [12, 0, 0, 0, 0, 0, 0, 0, 7]);
        assert_eq!((two_three.count, two_three.lowest), (2, 2));
    }
}

/// What changes leave of the table by a rule, made one after the other.
fn after(rule: u16, changes: &[[u16; 3]]) -> Vec<u64> {
    let mut rows = quay();
    let mut row = table_by(&rows, rule, WHOLE);
    for &[link, mark, length] in changes {
        let wanted = Change { link, mark, length };
        change(&mut rows, by(rule, WHOLE), &mut row, &wanted).unwrap();
    }
    row
}

/// Link 5 at length 2 costs node 1 15, 3 and 6: there is no tie, and rule 1
/// takes link 3 as rule 0 does, but for incr. Back at length 1 it ties again.
#[test]
fn a_change_ends_the_tie_and_another_makes_it() {
    let [two, _, _, five] = OTHERS;
    let three = [1, 5, 5, 5, 7, 3, 4, 1, 1, 1];
    let four = [1, 5, 5, 5, 3, 1, 3, 1, 1, 1];
    let untied = of([1, 3, 5, 3, 12, 3, 5, 1, 0, 1], [two, three, four, five]);
    for rule in [0, 1] {
        assert_eq!(after(rule, &[[5, 1, 2]]), untied);
        let right = of(NODE_1[usize::from(rule)], OTHERS);
        assert_eq!(after(rule, &[[5, 1, 2], [5, 1, 1]]), right);
    }
}

/// Link 3 at length 2 costs node 1 15, 5 and 6; with link 5 withdrawn it is the
/// only candidate.
#[test]
fn either_link_alone() {
    let [two, three, four, five] = OTHERS;
    let longer = of(
        NODE_1[1],
        [
            [1, 3, 3, 3, 9, 3, 5, 1, 1, 1],
            three,
            four,
            [1, 3, 3, 3, 4, 1, 4, 1, 1, 1],
        ],
    );
    let alone = of(
        [1, 3, 3, 3, 12, 4, 5, 1, 1, 1],
        [
            two,
            [1, 3, 3, 3, 9, 4, 5, 0, 0, 0],
            [1, 3, 3, 3, 4, 2, 4, 0, 0, 0],
            five,
        ],
    );
    for rule in [0, 1] {
        assert_eq!(after(rule, &[[3, 1, 2]]), longer);
        assert_eq!(after(rule, &[[5, 0, 1]]), alone);
    }
}

/// Link 5 at length 3 ties with link 3 for nodes 3 and 4, in cost and in incr: the
/// lowest number decides by both rules.
#[test]
fn a_tie_in_incr_too() {
    for rule in [0, 1] {
        let row = after(rule, &[[5, 1, 3]]);
        assert_eq!(row[30..40], [1, 3, 3, 3, 9, 4, 5, 0, 0, 0]);
        assert_eq!(row[40..50], [1, 3, 3, 3, 4, 2, 4, 0, 0, 0]);
    }
}

/// The nodes of the way past node 1 by a rule.
fn way(rule: u16, start: u16, measure: Measure) -> Vec<u16> {
    let asked = Asked {
        start,
        failed: 1,
        measure,
    };
    let (mut ordinary, mut detour) = ([7; 1_022], [7; 1_022]);
    let lent = [&mut ordinary[..], &mut detour[..]];
    let told = forward(&quay().lend(), by(rule, WHOLE), &asked, lent).unwrap();
    let row = match told.kind {
        Kind::Ordinary => ordinary,
        Kind::Detour => detour,
    };
    row[..told.count].to_vec()
}

#[test]
fn the_ways_past_node_1() {
    for measure in [Measure::Sum, Measure::Max] {
        assert_eq!(way(0, 1, measure), [1, 2, 5, 4, 3, 0]);
        assert_eq!(way(0, 2, measure), [2, 1, 2, 5, 4, 3, 0]);
        assert_eq!(way(0, 5, measure), [5, 2, 1, 2, 5, 4, 3, 0]);
    }
    for (rule, measure) in [
        (1, Measure::Sum),
        (1, Measure::Max),
        (0, Measure::Incr),
        (1, Measure::Incr),
    ] {
        assert_eq!(way(rule, 1, measure), [1, 4, 3, 0]);
        assert_eq!(way(rule, 2, measure), [2, 1, 4, 3, 0]);
        assert_eq!(way(rule, 5, measure), [5, 2, 1, 4, 3, 0]);
        assert_eq!(way(rule, 4, measure), [4, 3, 0]);
    }
}

/// What must be printed for a case of Quay by a rule.
fn printed(op: u16, room: usize, abc: [u16; 3], rule: u16) -> String {
    let mut case = Case::over(op, &quay(), WHOLE, room).by(rule);
    case.abc = abc;
    answers(&case.encode())
}

/// Word 11 of the head is the rule, and ops that take no search do not look at it.
#[test]
fn the_probe() {
    let head = Case::over(1, &quay(), WHOLE, 0).by(0x1234).encode();
    assert_eq!(head[22..24], [0x12, 0x34]);
    let entry = |rule| printed(104, 0, [1, 0, 0], rule);
    assert_eq!(entry(0), "entry ok\n1 1 3 5 3 12 2 5 1 0 1\n");
    assert_eq!(entry(1), "entry ok\n1 1 5 5 5 12 2 5 0 0 0\n");
    for rule in [2, 256, 257, 65_535] {
        assert_eq!(entry(rule), "entry refused 14 0\n");
        assert_eq!(printed(105, 0, [9; 3], rule), "node refused 14 0\n");
        assert_eq!(printed(1, 0, [0; 3], rule), "check refused 14 0\n");
        let right = "table refused 14 0\nrest kept\n";
        assert_eq!(printed(2, 59, [0; 3], rule), right);
        let right = "map refused 14 0\nrest kept\n";
        assert_eq!(printed(3, 8, [0; 3], rule), right);
        assert_eq!(printed(4, 60, [5, 1, 2], rule), "table refused 14 0\n");
        let sevens: String = (0..2)
            .map(|x| format!("{x}{}\n", " 7".repeat(10)))
            .collect();
        let right = format!("change refused 14 0\nlink 1 4 1 1\n{sevens}links kept\nrest kept\n");
        assert_eq!(printed(5, 20, [5, 2, 2], rule), right);
        let right = "forward refused 14 0\nordinary kept\ndetour kept\n";
        assert_eq!(printed(9, 0, [9, 9, 0], rule), right);
        for (op, room) in [(6, 1_536), (101, 6), (102, 0), (103, 0)] {
            let abc = [5, 1, 0];
            assert_eq!(printed(op, room, abc, rule), printed(op, room, abc, 0));
            assert!(printed(op, room, abc, rule).contains(" ok "));
        }
    }
}

//! The six readings that SCOPE calls wrong, each told apart from the right one on
//! a network that is named; and wrong readings of the tie rule, each told apart by
//! cases that are kept.

mod common;
#[path = "common/plain.rs"]
mod plain;

use common::*;
use second::answers::answer;
use second::cases::kept;
use second::check::check;
use second::limits::WHOLE;
use second::named::small;
use second::network::Rows;
use second::probe::{next, Case, Next};
use second::table::table;

/// The entry of node x that the program gives. The network is one of those
/// that every run goes through.
fn entry(rows: &Rows, depth: u16, x: usize) -> Vec<u64> {
    assert!(small().iter().any(|named| named.rows == *rows));
    let mut row = vec![7; 10 * rows.parents.len()];
    table(&rows.lend(), at(depth), &mut row).unwrap();
    row[10 * x..10 * x + 10].to_vec()
}

/// Harbour's candidates for node 1: links 3 and 4.
const LINK_3: (usize, usize, usize) = (3, 2, 0);
const LINK_4: (usize, usize, usize) = (4, 3, 0);

/// Wrong: the farthest node from z, plus w and d(z'), less d(z) once.
fn incr_by_lemma_4(rows: &Rows, x: usize, (e, z, outer): (usize, usize, usize)) -> u64 {
    let far = plain::below(rows, x)
        .into_iter()
        .map(|u| plain::t(rows, u, z));
    far.max().unwrap() + plain::link(rows, e).2 + plain::d(rows, outer) - plain::d(rows, z)
}

#[test]
fn incr_by_lemma_4_on_harbour() {
    let rows = harbour();
    assert_eq!(plain::crossing(&rows, 1), [LINK_3, LINK_4]);
    let wrong = [LINK_3, LINK_4].map(|c| incr_by_lemma_4(&rows, 1, c));
    assert_eq!(wrong, [5, 8]);
    let right = [LINK_3, LINK_4].map(|c| plain::costs(&rows, 1, c)[1]);
    assert_eq!(right, [7, 6]);
    let given = entry(&rows, WHOLE, 1);
    assert_eq!([given[2], given[5]], [4, 6]);
}

/// Wrong: the weight of the part of T(x) behind z, seen from `from`, as it
/// is printed after lemma 1: each child's weight plus w once.
fn printed_weight(rows: &Rows, inside: &[usize], z: usize, from: Option<usize>) -> u64 {
    let mut weight = 0;
    for &v in inside {
        let joined =
            plain::route(rows, v).get(1) == Some(&z) || plain::route(rows, z).get(1) == Some(&v);
        if joined && Some(v) != from {
            weight += printed_weight(rows, inside, v, Some(z)) + plain::t(rows, v, z);
        }
    }
    weight
}

fn sum_by_printed_weight(rows: &Rows, x: usize, (e, z, outer): (usize, usize, usize)) -> u64 {
    let inside = plain::below(rows, x);
    let beyond = plain::link(rows, e).2 + plain::d(rows, outer);
    printed_weight(rows, &inside, z, None) + inside.len() as u64 * beyond
}

/// For link 3 the weight as printed is 3 + 1; the nodes of T(1) are 3, 0 and
/// 4 away from node 2, which makes 7.
#[test]
fn weight_without_the_node_count_on_harbour() {
    let rows = harbour();
    assert_eq!(sum_by_printed_weight(&rows, 1, LINK_3), 4 + 3 * 6);
    assert_eq!(plain::costs(&rows, 1, LINK_3)[0], 7 + 3 * 6);
    let given = entry(&rows, WHOLE, 1);
    assert_eq!([given[1], given[4]], [3, 25]);
}

/// A path 0-1-2-3 with lengths 9, 1, 9 and two far links, 0-3 of length 19
/// and 0-2 of length 20. The printed weight is the same for both, so it
/// picks link 3 for node 1; by the definition link 4 is best.
#[test]
fn weight_without_the_node_count_on_a_path_of_four() {
    let links = [[0, 1, 9], [1, 2, 1], [2, 3, 9], [0, 3, 19], [0, 2, 20]];
    let rows = rows(&[65_535, 0, 1, 2], &links, 0);
    let both = [(3, 3, 0), (4, 2, 0)];
    let wrong = both.map(|c| sum_by_printed_weight(&rows, 1, c));
    assert_eq!(wrong, [10 + 3 * 19, 10 + 3 * 20]);
    let given = entry(&rows, WHOLE, 1);
    assert_eq!([given[1], given[4]], [4, 20 + 21 + 29]);
}

/// Numbers of the nodes in a preorder visit; children in node order or in
/// the inverted one.
fn preorder(rows: &Rows, inverted: bool) -> Vec<usize> {
    fn visit(rows: &Rows, u: usize, inverted: bool, next: &mut usize, label: &mut [usize]) {
        *next += 1;
        label[u] = *next;
        let nodes = 0..rows.parents.len();
        let mut children: Vec<usize> = nodes
            .filter(|&v| plain::route(rows, v).get(1) == Some(&u))
            .collect();
        if inverted {
            children.reverse();
        }
        for v in children {
            visit(rows, v, inverted, next, label);
        }
    }
    let mut label = vec![0; rows.parents.len()];
    visit(rows, rows.root as usize, inverted, &mut 0, &mut label);
    label
}

/// Wrong: T(u) by property 1 as printed, those v with a pair not larger.
fn below_as_printed(rows: &Rows, u: usize) -> Vec<usize> {
    let (a, b) = (preorder(rows, false), preorder(rows, true));
    let nodes = 0..rows.parents.len();
    nodes.filter(|&v| a[u] >= a[v] && b[u] >= b[v]).collect()
}

/// The links with one end in a set, but for x's tree link.
fn leaving(rows: &Rows, x: usize, inside: &[usize]) -> Vec<usize> {
    let crosses = |&e: &usize| {
        let (a, b, _, _) = plain::link(rows, e);
        e != rows.parents[x] as usize && inside.contains(&a) != inside.contains(&b)
    };
    (0..plain::links(rows)).filter(crosses).collect()
}

/// Harbour's labels are (1,1), (2,3), (3,5), (4,4), (5,2). Node 1's pair is
/// not smaller than those of 0 and 1 alone.
#[test]
fn property_1_as_printed_on_harbour() {
    let rows = harbour();
    assert_eq!(preorder(&rows, false), [1, 2, 3, 4, 5]);
    assert_eq!(preorder(&rows, true), [1, 3, 5, 4, 2]);
    assert_eq!(below_as_printed(&rows, 1), [0, 1]);
    assert_eq!(leaving(&rows, 1, &[0, 1]), [1, 2, 3, 4, 6]);
    let net = rows.lend();
    let tree = check(&net, at(WHOLE)).unwrap();
    assert_eq!(tree.below(1), [1, 2, 3]);
    let links = second::table::crossings(&net, &tree, 1);
    let links: Vec<usize> = links.iter().map(|c| c.link).collect();
    assert_eq!(links, [3, 4]);
}

/// Wrong: the best under a measure among x's own crossing links and those
/// that its children chose, where they cross x.
fn extended_upward(rows: &Rows, x: usize, measure: usize) -> Option<(u64, u64)> {
    let nodes = 0..rows.parents.len();
    let children = nodes.filter(|&v| plain::route(rows, v).get(1) == Some(&x));
    let chosen = children.filter_map(|v| extended_upward(rows, v, measure));
    let chosen: Vec<usize> = chosen.map(|(e, _)| e as usize).collect();
    let links = plain::crossing(rows, x).into_iter();
    let kept = links.filter(|&(e, z, _)| z == x || chosen.contains(&e));
    let priced: Vec<_> = kept.map(|c| (c.0, plain::costs(rows, x, c))).collect();
    (!priced.is_empty()).then(|| plain::best(&priced, measure, 0))
}

/// The spur: a path 0-1-2-3 with lengths 20, 1, 10, link 3 from 0 to 3 of
/// length 33 and link 4 from 0 to 2 of length 34. For node 2 link 3 gives
/// 33 + 43 and link 4 gives 34 + 44; for node 1 they give 44 and 35 more.
#[test]
fn the_best_below_need_not_be_best_above_on_the_spur() {
    let links = [[0, 1, 20], [1, 2, 1], [2, 3, 10], [0, 3, 33], [0, 2, 34]];
    let rows = rows(&[65_535, 0, 1, 2], &links, 0);
    assert_eq!(extended_upward(&rows, 1, 0), Some((3, 33 + 43 + 44)));
    let above = entry(&rows, WHOLE, 1);
    assert_eq!([above[1], above[4]], [4, 34 + 44 + 35]);
    let below = entry(&rows, WHOLE, 2);
    assert_eq!([below[1], below[4]], [3, 33 + 43]);
}

/// Harbour with link 5 at length 2: node 2 chose link 5, which does not
/// cross node 1, and link 3 is lost on the way up.
#[test]
fn the_best_below_may_not_cross_above_on_harbour() {
    let mut rows = harbour();
    rows.links[22] = 2;
    assert_eq!(extended_upward(&rows, 1, 0), Some((4, 26)));
    let given = entry(&rows, WHOLE, 1);
    assert_eq!([given[1], given[4]], [3, 25]);
}

/// Wrong: no link with the ends of the tree link crosses.
fn crossing_by_ends(rows: &Rows, x: usize) -> usize {
    let (a, b, _, _) = plain::link(rows, rows.parents[x] as usize);
    let same = |e: usize| {
        let (p, q, _, _) = plain::link(rows, e);
        (p, q) == (a, b) || (p, q) == (b, a)
    };
    let links = plain::crossing(rows, x).into_iter();
    links.filter(|&(e, _, _)| !same(e)).count()
}

/// Two nodes with two parallel links of lengths 5 and 7.
#[test]
fn the_tree_link_is_known_by_its_number_on_two_nodes() {
    let rows = rows(&[65_535, 0], &[[0, 1, 5], [1, 0, 7]], 0);
    assert_eq!(crossing_by_ends(&rows, 1), 0);
    assert_eq!(entry(&rows, WHOLE, 1), [1, 1, 1, 1, 7, 2, 7, 0, 0, 0]);
}

/// Wrong: a node with no candidate is a bridge.
fn state_by_candidates(rows: &Rows, depth: u16, x: usize) -> u64 {
    match plain::candidates(rows, depth, x).len() {
        0 => 3,
        _ => 1,
    }
}

/// Harbour at depth 0: links 3 and 4 cross node 1, both from one hop below.
#[test]
fn state_2_is_no_bridge_on_harbour() {
    let rows = harbour();
    assert_eq!(state_by_candidates(&rows, 0, 1), 3);
    assert_eq!(entry(&rows, 0, 1)[0], 2);
    assert_eq!(entry(&rows, 0, 4)[0], 3);
}

/// A way to read the tie rule: the right one, and wrong ones.
#[derive(Clone, Copy, PartialEq, Eq, Debug)]
enum Reading {
    Right,
    /// The rule is not looked at where candidates are compared.
    NoRule,
    /// By rule 1 incr decides before the cost does.
    IncrFirst,
    /// By rule 1 equal cost is decided by the incr of the other candidate.
    OtherIncr,
    /// By rule 1 the highest number is taken where incr ties too.
    HighestNumber,
    /// Any number that is not 0 is rule 1.
    AnyIsRule1,
    /// 14 before 4.
    RuleBeforeDepth,
    /// 14 after 5.
    RuleAfterEnds,
}

/// The wrong readings that take other links, or none.
const WRONG_CHOICES: [Reading; 5] = [
    Reading::NoRule,
    Reading::IncrFirst,
    Reading::OtherIncr,
    Reading::HighestNumber,
    Reading::AnyIsRule1,
];

/// The wrong readings that refuse otherwise.
const WRONG_REFUSALS: [Reading; 3] = [
    Reading::AnyIsRule1,
    Reading::RuleBeforeDepth,
    Reading::RuleAfterEnds,
];

/// Whether a candidate is taken rather than another by a reading.
fn is_better_as(
    one: plain::Priced,
    other: plain::Priced,
    k: usize,
    rule: u16,
    how: Reading,
) -> bool {
    let ((e, costs), (f, others)) = (one, other);
    let ties = costs[k] == others[k];
    match how {
        _ if rule == 0 => plain::is_better(one, other, k, 0),
        Reading::NoRule => plain::is_better(one, other, k, 0),
        Reading::IncrFirst => (costs[1], costs[k], e) < (others[1], others[k], f),
        Reading::OtherIncr if ties && costs[1] != others[1] => others[1] < costs[1],
        Reading::HighestNumber if ties && costs[1] == others[1] => f < e,
        _ => plain::is_better(one, other, k, 1),
    }
}

/// The entry of a node as plain numbers, by a reading.
fn entry_as(rows: &Rows, depth: u16, rule: u16, x: usize, how: Reading) -> [u64; 10] {
    let mut entry = plain::entry(rows, depth, 0, x);
    if entry[0] != 1 {
        return entry;
    }
    let priced = plain::priced(rows, depth, x);
    for k in 0..3 {
        let mut best = priced[0];
        for &link in &priced {
            if is_better_as(link, best, k, rule, how) {
                best = link;
            }
        }
        entry[1 + k] = best.0 as u64;
        entry[4 + k] = best.1[k];
        entry[7 + k] = plain::lower(rows, x, best.0);
    }
    entry
}

/// The refusal of a case by a reading, by what a check refuses whatever the rule.
fn refusal_as(case: &Case, how: Reading) -> Option<(u16, usize)> {
    let by_0 = told(check(&case.rows().lend(), at(case.depth)).map(|_| ())).err();
    let no_rule = case.rule > 1 && how != Reading::AnyIsRule1;
    let before = match how {
        Reading::RuleBeforeDepth => 3,
        Reading::RuleAfterEnds => 5,
        _ => 4,
    };
    match by_0 {
        Some((number, _)) if number <= before => by_0,
        _ if no_rule => Some((14, 0)),
        _ => by_0,
    }
}

/// What is printed for a table, or for one entry of a node, by a reading. The room
/// is enough.
fn printed_as(case: &Case, how: Reading) -> String {
    let one = case.op == 104;
    let (call, rest) = if one {
        ("entry", "")
    } else {
        ("table", "rest kept\n")
    };
    if let Some((number, place)) = refusal_as(case, how) {
        return format!("{call} refused {number} {place}\n{rest}");
    }
    let nodes = match one {
        true => usize::from(case.abc[0])..usize::from(case.abc[0]) + 1,
        false => 0..case.parents.len(),
    };
    let mut text = format!("{call} ok\n");
    for x in nodes {
        let entry = entry_as(&case.rows(), case.depth, case.rule.min(1), x, how);
        let words: Vec<String> = entry.iter().map(u64::to_string).collect();
        text += &format!("{x} {}\n", words.join(" "));
    }
    text + rest
}

/// The kept cases of some ops, but for those of large networks.
fn kept_of(ops: &[u16]) -> Vec<Case> {
    let (bytes, mut cases) = (kept(), Vec::new());
    let mut input = &bytes[..];
    while let Next::Case(case) = next(&mut input) {
        cases.push(case);
    }
    assert!(input.is_empty());
    cases.retain(|case| ops.contains(&case.op) && case.parents.len() < 40);
    cases
}

/// The kept tables with room, and the kept entries of nodes, by the right reading
/// and by wrong ones.
#[test]
fn the_kept_entries_tell_wrong_readings_of_the_rule_apart() {
    for op in [2, 104] {
        let mut cases = kept_of(&[op]);
        cases.retain(|case| match op {
            2 => case.room >= 10 * case.parents.len(),
            _ => usize::from(case.abc[0]) < case.parents.len(),
        });
        assert!(cases.len() > 60, "{op}: {}", cases.len());
        let right: Vec<String> = cases.iter().map(answer).collect();
        for (case, right) in cases.iter().zip(&right) {
            assert_eq!(printed_as(case, Reading::Right), *right, "{case:?}");
        }
        for wrong in WRONG_CHOICES {
            let mut pairs = cases.iter().zip(&right);
            let apart = |(case, right): (&Case, &String)| printed_as(case, wrong) != *right;
            assert!(pairs.any(apart), "{op}: {wrong:?}");
        }
    }
}

/// The refusal that must be printed for a case.
fn refused(case: &Case) -> Option<(u16, usize)> {
    let text = answer(case);
    let words: Vec<&str> = text.split_whitespace().collect();
    (words[1] == "refused").then(|| (words[2].parse().unwrap(), words[3].parse().unwrap()))
}

/// The kept cases of every op with a search that a check refuses, by the right
/// order and by wrong ones.
#[test]
fn the_kept_refusals_tell_wrong_readings_of_the_rule_apart() {
    for op in [1, 2, 3, 4, 5, 9, 104, 105] {
        let mut cases = kept_of(&[op]);
        cases.retain(|case| refusal_as(case, Reading::Right).is_some());
        for case in &cases {
            assert_eq!(refusal_as(case, Reading::Right), refused(case), "{case:?}");
        }
        for wrong in WRONG_REFUSALS {
            let apart = |case: &Case| refusal_as(case, wrong) != refused(case);
            assert!(cases.iter().any(apart), "{op}: {wrong:?}");
        }
    }
}

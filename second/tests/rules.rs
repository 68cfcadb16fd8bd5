//! The tie rule: laws over random networks, networks worked out by hand, files of
//! edition 1, and how often the two rules choose apart.

mod common;
#[path = "common/plain.rs"]
mod plain;

use common::*;
use second::answers::answer;
use second::cases::{random, tied};
use second::check::check;
use second::file::{stored, write};
use second::limits::WHOLE;
use second::map::map;
use second::network::Rows;
use second::probe::{next, Case, Next};
use second::random;
use second::reader::read;
use second::rng::Rng;
use second::table::{entries, table};
use second::ties::{self, doubled_quay, ladder, of_kind, parting, untied_quay, Kind, KINDS};
use std::collections::BTreeMap;

/// The entries of a network by a rule, one a node.
fn entries_by(rows: &Rows, rule: u16, depth: u16) -> Vec<Vec<u64>> {
    let mut row = vec![7; 10 * rows.parents.len()];
    table(&rows.lend(), by(rule, depth), &mut row).unwrap();
    row.chunks(10).map(|entry| entry.to_vec()).collect()
}

/// Random networks with a depth, one in three with many ties.
fn networks(seed: u64, count: usize) -> Vec<(Rows, u16)> {
    let mut rng = Rng::new(seed);
    let mut list = Vec::new();
    for i in 0..count {
        let n = rng.from_to(1, 30);
        let rows = match i % 3 {
            0 => ties::network(&mut rng),
            _ => random::draft(&mut rng, n).with_tree(&mut rng),
        };
        list.push((rows, rng.pick(&[WHOLE, WHOLE, 0, 1, 2, 510])));
    }
    list
}

/// States, costs and what incr chooses are the same by both rules, and so is the
/// map. What sum and max choose is not.
#[test]
fn the_rule_moves_nothing_but_the_links_of_sum_and_max() {
    let mut apart = [0; 3];
    for (rows, depth) in networks(81, 600) {
        let [by_0, by_1] = [0, 1].map(|rule| entries_by(&rows, rule, depth));
        for (one, other) in by_0.iter().zip(&by_1) {
            assert_eq!(one[0], other[0]);
            assert_eq!(one[4..7], other[4..7]);
            assert_eq!((one[2], one[8]), (other[2], other[8]));
            for k in 0..3 {
                apart[k] += usize::from(one[1 + k] != other[1 + k]);
            }
        }
        let maps = [0, 1].map(|rule| map(&rows.lend(), by(rule, depth), &mut [0; 8]).unwrap());
        assert_eq!(maps[0], maps[1]);
    }
    assert!(
        apart[0] > 100 && apart[1] == 0 && apart[2] > 1_000,
        "{apart:?}"
    );
}

/// Of the candidates that cost as much as the one that rule 1 takes none has a
/// lower incr, and of those with its incr none has a lower number. Rule 0 takes the
/// lowest number of those that cost as much.
#[test]
fn no_candidate_comes_before_the_chosen() {
    for (rows, depth) in networks(82, 200) {
        let [by_0, by_1] = [0, 1].map(|rule| entries_by(&rows, rule, depth));
        for x in (0..rows.parents.len()).filter(|&x| by_0[x][0] == 1) {
            let priced = plain::priced(&rows, depth, x);
            for k in 0..3 {
                let least = priced.iter().map(|link| link.1[k]).min().unwrap();
                let equals = || priced.iter().filter(|link| link.1[k] == least);
                let lowest = equals().map(|link| link.0 as u64).min();
                assert_eq!(Some(by_0[x][1 + k]), lowest);
                let incr = equals().map(|link| link.1[1]).min().unwrap();
                let nearest = equals().filter(|link| link.1[1] == incr);
                let lowest = nearest.map(|link| link.0 as u64).min();
                assert_eq!(Some(by_1[x][1 + k]), lowest);
                assert_eq!([by_0[x][4 + k], by_1[x][4 + k]], [least; 2]);
            }
        }
    }
}

/// Incr is N(x) - d(x) of the failed node itself, so rule 1 raises its own
/// distance least.
#[test]
fn the_nearer_one_is_nearer_for_the_failed_node() {
    for (rows, depth) in networks(83, 150) {
        for (x, entry) in entries_by(&rows, 1, depth).iter().enumerate() {
            for c in plain::candidates(&rows, depth, x) {
                if entry[0] == 1 {
                    let (e, z, beyond) = c;
                    let new =
                        plain::t(&rows, x, z) + plain::link(&rows, e).2 + plain::d(&rows, beyond);
                    let rise = new - plain::d(&rows, x);
                    assert_eq!(plain::costs(&rows, x, c)[1], rise);
                }
            }
        }
    }
}

/// The links that node x takes for sum, incr and max by a rule.
fn chosen(rows: &Rows, rule: u16, x: usize) -> [u64; 3] {
    let entry = &entries_by(rows, rule, WHOLE)[x];
    [entry[1], entry[2], entry[3]]
}

/// The nodes of T(1) are at 1, 4, 7 and 9. By link 4 their new distances are 9,
/// 12, 15, 17; by 5 they are 17, 14, 11, 9; by 6 they are 16, 13, 10, 12; by 7 they
/// are 14, 11, 14, 16.
#[test]
fn sum_and_max_part() {
    let rows = parting();
    let right = [
        (4, [53, 8, 17]),
        (5, [51, 16, 17]),
        (6, [51, 15, 16]),
        (7, [55, 13, 16]),
    ];
    assert_eq!(plain::priced(&rows, WHOLE, 1), right);
    assert_eq!(chosen(&rows, 0, 1), [5, 4, 6]);
    assert_eq!(chosen(&rows, 1, 1), [6, 4, 7]);
}

/// For node 1 the links of length 0 cost 10, 0, 4 at node 1, 12, 2, 4 at node 2,
/// 16, 4, 5 at node 3 and 22, 6, 7 at node 4.
#[test]
fn a_ladder_of_lengths_of_0() {
    let rows = ladder();
    let right = [
        (8, [22, 6, 7]),
        (9, [16, 4, 5]),
        (10, [12, 2, 4]),
        (11, [10, 0, 4]),
    ];
    assert_eq!(plain::priced(&rows, WHOLE, 1), right);
    for (x, by_0) in [(1, 10), (2, 9), (5, 10), (6, 9)] {
        assert_eq!(chosen(&rows, 0, x), [by_0 + 1, by_0 + 1, by_0]);
        assert_eq!(chosen(&rows, 1, x), [by_0 + 1; 3]);
    }
    for (x, only) in [(3, 9), (4, 8), (7, 9), (8, 8)] {
        assert_eq!([0, 1].map(|rule| chosen(&rows, rule, x)), [[only; 3]; 2]);
    }
}

/// Links 5 and 7 tie in cost and in incr: the lower number is taken, also where it
/// is withdrawn and the other is left.
#[test]
fn a_parallel_link_ties_in_incr_too() {
    assert_eq!(chosen(&doubled_quay(), 0, 1), [3, 5, 3]);
    assert_eq!(chosen(&doubled_quay(), 1, 1), [5, 5, 5]);
    let mut other = doubled_quay();
    other.links[4 * 5 + 3] = 0;
    assert_eq!(chosen(&other, 0, 1), [3, 7, 3]);
    assert_eq!(chosen(&other, 1, 1), [7, 7, 7]);
    let both = [0, 1].map(|rule| chosen(&untied_quay(), rule, 1));
    assert_eq!(both, [[3, 5, 3]; 2]);
}

/// 14 comes directly behind 4 and before 5, and stands in the way of any search.
#[test]
fn the_place_of_refusal_14() {
    let rows = parting();
    let verdict = |rows: &Rows, terms| told(check(&rows.lend(), terms).map(|_| ()));
    for rule in [0, 1] {
        assert_eq!(verdict(&rows, by(rule, 510)), Ok(()));
        assert_eq!(verdict(&rows, by(rule, 511)), Err((4, 0)));
    }
    let mut no_ends = rows.clone();
    no_ends.links[13] = 3;
    for rule in [2, 3, 255, 256, 257, 65_534, 65_535] {
        assert_eq!(verdict(&rows, by(rule, 510)), Err((14, 0)));
        assert_eq!(verdict(&rows, by(rule, 511)), Err((4, 0)));
        assert_eq!(verdict(&no_ends, by(rule, WHOLE)), Err((14, 0)));
    }
    assert_eq!(verdict(&no_ends, by(1, WHOLE)), Err((5, 3)));
}

/// What is written is the table of rule 0 and reads back so. A file that has the
/// table of rule 1 is refused by 24 at the first node where that differs.
#[test]
fn a_file_means_rule_0() {
    let mut refused = 0;
    for (rows, depth) in networks(84, 300) {
        let (net, n) = (rows.lend(), rows.parents.len());
        let mut file = vec![0; 32_256];
        let length = write(&net, depth, &mut file).unwrap();
        let (mut links, mut parents) = (vec![7; rows.links.len()], vec![7; n]);
        let mut row = vec![7; 10 * n];
        let said = read(&file[..length], &mut links, &mut parents, &mut row).unwrap();
        assert_eq!(said.terms(), by(0, depth));
        let [by_0, by_1] = [0, 1].map(|rule| entries_by(&rows, rule, depth));
        assert_eq!(row, by_0.concat());
        let terms = by(1, depth);
        let tree = check(&net, terms).unwrap();
        let other = stored(&net, depth, &entries(&net, &tree, terms));
        let answer = told(read(&other, &mut links, &mut parents, &mut row));
        match (0..n).find(|&x| by_0[x] != by_1[x]) {
            Some(x) => {
                assert_eq!(answer, Err((24, x)));
                refused += 1;
            }
            None => assert!(answer.is_ok()),
        }
    }
    assert!(refused > 80, "{refused}");
}

/// Entries, those in state 1, and those that differ between the rules: in all,
/// under sum, and under max.
#[derive(Clone, Copy, Default, Debug)]
struct Count {
    all: usize,
    swaps: usize,
    apart: usize,
    sum: usize,
    max: usize,
}

fn count(rows: &Rows, count: &mut Count) {
    let [by_0, by_1] = [0, 1].map(|rule| entries_by(rows, rule, WHOLE));
    for (one, other) in by_0.iter().zip(&by_1) {
        count.all += 1;
        count.swaps += usize::from(one[0] == 1);
        count.apart += usize::from(one != other);
        count.sum += usize::from(one[1] != other[1]);
        count.max += usize::from(one[3] != other[3]);
    }
}

/// At least a third of all entries of the family differ between the rules, and so
/// it is for each kind of network in it. Its networks have 8 to 96 nodes, and 36 on
/// the mean.
#[test]
fn a_third_of_the_entries_differ() {
    let mut rng = Rng::new(85);
    let mut family = Count::default();
    for _ in 0..400 {
        let rows = ties::network(&mut rng);
        assert!((8..=96).contains(&rows.parents.len()));
        count(&rows, &mut family);
    }
    assert!(3 * family.apart >= family.all, "{family:?}");
    assert!(20 * family.sum >= family.all, "{family:?}");
    assert!(3 * family.max >= family.all, "{family:?}");
    assert!(family.all > 30 * 400, "{family:?}");
    for kind in KINDS {
        let mut of_one = Count::default();
        for _ in 0..100 {
            count(&of_kind(&mut rng, kind), &mut of_one);
        }
        assert!(3 * of_one.apart >= of_one.all, "{kind:?} {of_one:?}");
        if kind == Kind::Fanned {
            assert!(4 * of_one.sum >= of_one.all, "{of_one:?}");
        }
    }
}

/// The cases of an input.
fn cases_of(mut input: &[u8]) -> Vec<Case> {
    let mut met = Vec::new();
    while let Next::Case(case) = next(&mut input) {
        met.push(case);
    }
    assert!(input.is_empty());
    met
}

/// The input of the family has each table by rule 0 and then by rule 1, and of the
/// lines printed for the first at least a third is another for the second.
#[test]
fn the_input_of_the_family() {
    let cases = cases_of(&tied(3, 120));
    assert_eq!(cases.len(), 240);
    let (mut lines, mut apart) = (0, 0);
    for pair in cases.chunks(2) {
        assert_eq!((pair[0].op, pair[0].rule, pair[1].rule), (2, 0, 1));
        assert_eq!(pair[0].clone().by(1), pair[1]);
        let [one, other] = [answer(&pair[0]), answer(&pair[1])];
        assert!(one.starts_with("table ok\n"));
        lines += one.lines().count() - 2;
        apart += one
            .lines()
            .zip(other.lines())
            .filter(|(a, b)| a != b)
            .count();
    }
    assert!(3 * apart >= lines, "{apart} of {lines}");
}

/// Random cases have both rules in about as many cases, and seldom one that is
/// none; tables of both rules are answered with entries that the rule decides.
#[test]
fn random_cases_have_every_rule() {
    let mut rng = Rng::new(86);
    let mut decided = 0;
    for op in (1..=9).chain(101..=105) {
        let mut rules = BTreeMap::new();
        for _ in 0..600 {
            let case = random(&mut rng, op);
            *rules.entry(case.rule.min(2)).or_insert(0) += 1;
            let other = case.clone().by(1 - case.rule.min(1));
            decided += usize::from(op == 2 && case.rule < 2 && answer(&case) != answer(&other));
        }
        assert!(rules[&0] > 200 && rules[&1] > 200, "{op}: {rules:?}");
        assert!((10..100).contains(&rules[&2]), "{op}: {rules:?}");
    }
    assert!(decided > 60, "{decided}");
}

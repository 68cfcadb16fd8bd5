//! The made cases reach what they are made for.

mod common;

use second::answers::{answer, answers};
use second::cases::{fixed, input, kept, ops, random, ENDINGS};
use second::change::{set as set_link, Change};
use second::listing::listing;
use second::network::Rows;
use second::probe::{next, Case, Next};
use second::rng::Rng;
use second::samples::samples;
use second::table::table;
use std::collections::BTreeSet;

/// The verdict printed for a case: the number and place, or 0 for `ok`.
fn verdict(case: &Case) -> (u16, u16) {
    let text = answer(case);
    let words: Vec<&str> = text.split_whitespace().collect();
    match words[1] {
        "refused" => (words[2].parse().unwrap(), words[3].parse().unwrap()),
        _ => (0, 0),
    }
}

/// The numbers of the verdicts printed for cases.
fn verdicts(cases: &[Case]) -> BTreeSet<u16> {
    cases.iter().map(|case| verdict(case).0).collect()
}

/// The cases that an input holds, and what is left behind them.
fn cases_of(mut input: &[u8]) -> (Vec<Case>, &[u8]) {
    let mut met = Vec::new();
    while let Next::Case(case) = next(&mut input) {
        met.push(case);
    }
    (met, input)
}

/// The cases that are kept with the probe.
fn kept_cases() -> Vec<Case> {
    let bytes = kept();
    let (cases, rest) = cases_of(&bytes);
    assert!(rest.is_empty());
    cases
}

/// The cases of an op among others.
fn of(op: u16, cases: &[Case]) -> Vec<Case> {
    let of_op = cases.iter().filter(|case| case.op == op);
    of_op.cloned().collect()
}

/// The cases of an op that are kept with the probe.
fn kept_of(op: u16) -> Vec<Case> {
    of(op, &kept_cases())
}

fn set(numbers: &[u16]) -> BTreeSet<u16> {
    numbers.iter().copied().collect()
}

#[test]
fn every_refusal_of_every_op_is_met() {
    let all = kept_cases();
    let network: Vec<u16> = (0..=10).collect();
    let checked = [&network[..10], &[14]].concat();
    let searched = [&network[..], &[14]].concat();
    for cases in [fixed(1), of(1, &all)] {
        assert_eq!(verdicts(&cases), set(&checked));
    }
    for op in [2, 3] {
        assert_eq!(verdicts(&fixed(op)), set(&searched));
        assert_eq!(verdicts(&of(op, &all)), set(&searched));
    }
    assert_eq!(verdicts(&fixed(6)), set(&network));
    let change: Vec<u16> = (0..=14).collect();
    for op in [4, 5] {
        assert_eq!(verdicts(&fixed(op)), set(&change));
        assert_eq!(verdicts(&of(op, &all)), set(&change));
    }
    let file = [&network[..], &[20, 21, 22, 24]].concat();
    assert_eq!(verdicts(&fixed(7)), set(&file));
    assert_eq!(verdicts(&fixed(8)), set(&[0, 20, 21, 22]));
    assert_eq!(verdicts(&fixed(9)), forward_verdicts());
    assert_eq!(verdicts(&of(9, &all)), forward_verdicts());
}

/// The verdicts of the forwarder.
fn forward_verdicts() -> BTreeSet<u16> {
    (0..=10).chain(14..=17).collect()
}

/// The verdicts of the project's own ops.
fn own_verdicts(op: u16) -> BTreeSet<u16> {
    match op {
        101 => set(&[0, 1, 8, 10]),
        102 | 103 => set(&[0, 1, 8]),
        _ => (0..=9).chain([14]).collect(),
    }
}

#[test]
fn every_refusal_of_every_own_op_is_kept() {
    for op in 101..=105 {
        let (cases, all) = (kept_of(op), fixed(op));
        assert!((40..=150).contains(&cases.len()), "{op}: {}", cases.len());
        assert_eq!(verdicts(&cases), own_verdicts(op), "{op}");
        assert_eq!(verdicts(&all), own_verdicts(op), "{op}");
        assert!(cases.iter().all(|case| all.contains(case)));
    }
}

/// Of random cases, too; and a third at least is answered.
#[test]
fn every_refusal_of_every_own_op_is_met_at_random() {
    let mut rng = Rng::new(41);
    for op in 101..=105 {
        let cases: Vec<Case> = (0..2_000).map(|_| random(&mut rng, op)).collect();
        assert_eq!(verdicts(&cases), own_verdicts(op), "{op}");
        let taken = cases.iter().filter(|case| verdict(case).0 == 0).count();
        assert!(taken > 2_000 / 3, "{op}: {taken}");
        let no_node = |case: &&Case| usize::from(case.abc[0]) >= case.parents.len();
        let none = cases.iter().filter(no_node).count();
        assert!((20..400).contains(&none), "{op}: {none}");
    }
}

/// For both nodes of ops 102 and 103: no node, and a node without a route.
#[test]
fn either_node_is_refused_among_the_kept() {
    for op in [102, 103] {
        let met: BTreeSet<(usize, bool)> = kept_of(op)
            .iter()
            .filter(|case| verdict(case).0 == 8)
            .map(|case| {
                let place = verdict(case).1;
                let which = case.abc.iter().position(|&x| x == place);
                (which.unwrap(), usize::from(place) < case.parents.len())
            })
            .collect();
        assert_eq!(met.len(), 4, "{met:?}");
    }
}

/// Each refusal of a network, asked of a node and of no node; 8 also where
/// only what is asked is no node.
#[test]
fn the_network_comes_before_the_node_among_the_kept() {
    for op in [104, 105] {
        let cases = kept_of(op);
        let met: BTreeSet<(u16, bool)> = cases
            .iter()
            .filter(|case| causes(case).contains(&verdict(case).0))
            .map(|case| {
                let is_node = usize::from(case.abc[0]) < case.parents.len();
                (verdict(case).0, is_node)
            })
            .collect();
        assert_eq!(met.len(), 20, "{met:?}");
        let alone = cases.iter().filter(|case| causes(case).is_empty());
        assert_eq!(verdicts(&alone.cloned().collect::<Vec<_>>()), set(&[0, 8]));
    }
}

#[test]
fn every_state_is_among_the_kept_entries() {
    let state = |case: &Case| {
        let text = answer(case);
        let words: Vec<&str> = text.split_whitespace().collect();
        (words[1] == "ok").then(|| words[3].to_string())
    };
    let met: BTreeSet<String> = kept_of(104).iter().filter_map(state).collect();
    assert_eq!(met.into_iter().collect::<String>(), "0123");
}

/// The other end of a parent link, where it is one at all.
fn parent(case: &Case, x: usize) -> Option<usize> {
    let record = case.links.chunks_exact(4).nth(case.parents[x] as usize)?;
    match (record[0] as usize, record[1] as usize) {
        (a, b) if a == x => Some(b),
        (a, b) if b == x => Some(a),
        _ => None,
    }
}

/// d(x), where x has a route.
fn distance(case: &Case, x: usize) -> Option<u64> {
    let (mut here, mut sum) = (x, 0);
    for _ in 0..=case.parents.len() {
        if here == case.root as usize {
            return Some(sum);
        }
        let e = *case.parents.get(here)? as usize;
        sum += u64::from(*case.links.get(4 * e + 2)?);
        here = parent(case, here)?;
    }
    None
}

/// The refusals of a check in their order.
const ORDER: [u16; 10] = [1, 2, 3, 4, 14, 5, 6, 7, 8, 9];

/// The refusals of a check that have a cause in a case, each asked alone.
fn causes(case: &Case) -> BTreeSet<u16> {
    let (n, records) = (case.parents.len(), case.links.chunks_exact(4));
    let root = case.root as usize;
    let mut found = BTreeSet::new();
    let mut put = |number: u16, cause: bool| {
        if cause {
            found.insert(number);
        }
    };
    put(1, n == 0 || n > 512);
    put(2, case.links.len() / 4 > 2_048);
    put(3, root >= n);
    put(4, case.depth > 510 && case.depth < 65_535);
    put(14, case.rule > 1);
    put(
        5,
        records
            .clone()
            .any(|r| r[0] == r[1] || r[..2].iter().any(|&e| e as usize >= n)),
    );
    put(6, records.clone().any(|r| r[3] > 1));
    put(7, (0..n).any(|x| !parent_is_sound(case, x)));
    put(8, (0..n).any(|x| leads_round(case, x)));
    put(9, records.clone().any(|r| breaks(case, r)));
    found
}

fn parent_is_sound(case: &Case, x: usize) -> bool {
    let e = case.parents[x] as usize;
    if x == case.root as usize {
        return e == 65_535;
    }
    parent(case, x).is_some() && case.links[4 * e + 3] == 1
}

/// Whether parents lead from x back to x and not to the root.
fn leads_round(case: &Case, x: usize) -> bool {
    let mut here = x;
    for _ in 0..case.parents.len().min(20) {
        match parent(case, here) {
            Some(next) if here != case.root as usize && next < case.parents.len() => here = next,
            _ => return false,
        }
        if here == x {
            return true;
        }
    }
    false
}

fn breaks(case: &Case, record: &[u16]) -> bool {
    let ends = [record[0], record[1]].map(|end| distance(case, end as usize));
    match ends {
        [Some(a), Some(b)] => record[3] == 1 && a.abs_diff(b) > u64::from(record[2]),
        _ => false,
    }
}

/// For every two refusals of a check some fixed case has a cause of both. Only 3
/// with 9 cannot be: where the root is no node, no node has a route. The first
/// cause in order is told.
#[test]
fn every_pair_of_network_faults_is_met() {
    let cases = fixed(1);
    let found: Vec<BTreeSet<u16>> = cases.iter().map(causes).collect();
    for (i, one) in ORDER.iter().enumerate() {
        for two in &ORDER[i + 1..] {
            let met = found.iter().any(|f| f.contains(one) && f.contains(two));
            assert_eq!(met, (*one, *two) != (3, 9), "{one} with {two}");
        }
    }
    for (case, found) in cases.iter().zip(&found) {
        let first = ORDER.into_iter().find(|number| found.contains(number));
        assert_eq!(verdict(case).0, first.unwrap_or(0), "{case:?}");
    }
}

/// The ops that take a search.
const SEARCHES: [u16; 8] = [1, 2, 3, 4, 5, 9, 104, 105];

/// Among the kept cases of every op that takes a search 14 is met alone, with
/// every refusal that comes before it, which is told, and with every refusal of a
/// check behind it, which is not.
#[test]
fn refusal_14_is_kept_with_every_other() {
    let all = kept_cases();
    for op in SEARCHES {
        let cases = of(op, &all);
        let bad: Vec<(u16, BTreeSet<u16>)> = cases
            .iter()
            .map(|case| (verdict(case).0, causes(case)))
            .filter(|(_, found)| found.contains(&14))
            .collect();
        assert!(bad.contains(&(14, set(&[14]))), "{op}");
        for other in ORDER.into_iter().filter(|&number| number != 14) {
            let told = if other < 5 { other } else { 14 };
            let met = |(number, found): &(u16, _)| {
                let found: &BTreeSet<u16> = found;
                *number == told && found.contains(&other)
            };
            assert!(bad.iter().any(met), "{op}: {other}");
        }
    }
}

/// The kept cases of an op with a rule that is none: what they say by it, and what
/// they would say by rule 0.
fn ruled_out(op: u16, kept: &[Case]) -> Vec<(u16, u16)> {
    let mut cases = of(op, kept);
    cases.retain(|case| case.rule > 1);
    let both = |case: &Case| (verdict(case).0, verdict(&case.clone().by(0)).0);
    cases.iter().map(both).collect()
}

/// 14 is told before the room, before the refusals of a change and of a way, and
/// before 8 at what is no node; never in an op that takes no search.
#[test]
fn refusal_14_is_kept_before_what_comes_last() {
    let all = kept_cases();
    for (op, later) in [
        (2, &[10][..]),
        (3, &[10]),
        (4, &[10, 11, 6, 12, 13]),
        (5, &[10, 11, 6, 12, 13]),
        (9, &[10, 15, 16, 17]),
        (104, &[8]),
        (105, &[8]),
    ] {
        let told = ruled_out(op, &all);
        for &number in [0].iter().chain(later) {
            assert!(told.contains(&(14, number)), "{op}: {number}");
        }
    }
    for op in [6, 7, 8, 101, 102, 103] {
        let told = ruled_out(op, &all);
        assert!(told.contains(&(0, 0)), "{op}");
        assert!(told.iter().all(|(by_none, by_0)| by_none == by_0), "{op}");
    }
}

/// Every op has the two rules among its kept cases, and 2 and 65,535.
#[test]
fn every_rule_is_kept_for_every_op() {
    let all = kept_cases();
    for op in (1..=9).chain(101..=105) {
        let rules: BTreeSet<u16> = of(op, &all).iter().map(|case| case.rule).collect();
        for rule in [0, 1, 2, 65_535] {
            assert!(rules.contains(&rule), "{op}: {rule}");
        }
    }
}

/// Among the kept cases some by either rule say otherwise by the other: tables,
/// changes and entries of nodes; and ways under sum and under max. Checks, maps and
/// ways under incr never do, nor does any op that takes no search.
#[test]
fn the_rules_part_among_the_kept() {
    let all = kept_cases();
    let parts = |op: u16, rule: u16, measure: Option<u16>| {
        let mut cases = of(op, &all);
        cases.retain(|case| case.rule == rule && measure.map_or(true, |c| case.abc[2] % 3 == c));
        let differs = |case: &Case| answer(case) != answer(&case.clone().by(1 - rule));
        cases.iter().filter(|case| differs(case)).count()
    };
    for rule in [0, 1] {
        for op in [2, 4, 5, 104] {
            assert!(parts(op, rule, None) > 4, "{op} by {rule}");
        }
        for measure in [0, 2] {
            assert!(parts(9, rule, Some(measure)) > 4, "{measure} by {rule}");
        }
        assert_eq!(parts(9, rule, Some(1)), 0);
        for op in [1, 3, 6, 7, 8, 101, 102, 103, 105] {
            assert_eq!(parts(op, rule, None), 0, "{op} by {rule}");
        }
    }
}

/// Whether the rules choose apart somewhere in the table of a network.
fn choose_apart(rows: &Rows, depth: u16) -> bool {
    let table_by = |rule: u16| {
        let mut row = vec![7; 10 * rows.parents.len()];
        table(&rows.lend(), common::by(rule, depth), &mut row).unwrap();
        row
    };
    table_by(0) != table_by(1)
}

/// Among the kept changes by either rule are such after which the rules choose
/// apart and did not before, the other way about, and both before and after.
#[test]
fn changes_make_and_end_ties_among_the_kept() {
    for op in [4, 5] {
        let mut met = BTreeSet::new();
        let cases = kept_of(op);
        for case in cases.iter().filter(|case| verdict(case).0 == 0) {
            let [link, mark, length] = case.abc;
            let (before, mut after) = (case.rows(), case.rows());
            set_link(&mut after, &Change { link, mark, length });
            let apart = [before, after].map(|rows| choose_apart(&rows, case.depth));
            met.insert((case.rule, apart));
        }
        assert_eq!(met.len(), 8, "{op}: {met:?}");
    }
}

/// Whether the parents lead from u to x, with the hops; 0 where u is x.
fn hops_to(case: &Case, u: usize, x: usize) -> Option<usize> {
    let (n, mut here) = (case.parents.len(), u);
    for hops in 0..=n {
        if here == x {
            return Some(hops);
        }
        if here >= n || here == case.root as usize {
            return None;
        }
        here = parent(case, here)?;
    }
    None
}

/// Whether a link in service, but for the parent link of x, has one end from
/// which parents lead to x, within the depth, and one from which they do not.
fn has_swap(case: &Case, x: usize) -> bool {
    let own = case.parents.get(x).map(|&e| e as usize);
    let mut records = case.links.chunks_exact(4).enumerate();
    records.any(|(e, r)| {
        let ends = [r[0], r[1]].map(|end| hops_to(case, end as usize, x));
        let hops = match ends {
            [Some(hops), None] | [None, Some(hops)] => hops,
            _ => return false,
        };
        r[3] == 1 && Some(e) != own && (case.depth == 65_535 || hops <= case.depth as usize)
    })
}

/// What two nodes with routes are to each other.
fn pair(case: &Case) -> &'static str {
    let [a, b, _] = case.abc.map(usize::from);
    let root = case.root as usize;
    match [hops_to(case, a, b), hops_to(case, b, a)] {
        _ if a == b => "equal",
        _ if a == root => "the first is the root",
        _ if b == root => "the second is the root",
        [Some(_), _] => "the second is above",
        [_, Some(_)] => "the first is above",
        _ => "neither is above",
    }
}

/// Why a number may have no route.
fn loss(case: &Case, x: usize) -> &'static str {
    match x {
        _ if x >= case.parents.len() => "no node",
        _ if x == case.root as usize => "",
        _ if leads_round(case, x) => "on a cycle",
        _ if hops_to(case, x, case.root as usize).is_none() => "below a cycle",
        _ => "",
    }
}

/// Among the kept cases of ops 102 and 103 two nodes are everything that they
/// can be to each other. Each loss is met of the first alone and of the second
/// alone; no node and a cycle also of both.
#[test]
fn every_pair_is_among_the_kept() {
    for op in [102, 103] {
        let cases = kept_of(op);
        let of = |number: u16| cases.iter().filter(move |case| verdict(case).0 == number);
        let pairs: BTreeSet<&str> = of(0).map(pair).collect();
        assert_eq!(pairs.len(), 6, "{pairs:?}");
        let losses: BTreeSet<[&str; 2]> = of(8)
            .map(|case| [0, 1].map(|i| loss(case, case.abc[i].into())))
            .collect();
        for why in ["no node", "on a cycle", "below a cycle"] {
            assert!(losses.contains(&[why, ""]), "{why}");
            assert!(losses.contains(&["", why]), "{why}");
        }
        for why in ["no node", "on a cycle"] {
            assert!(losses.contains(&[why, why]), "{why}");
        }
    }
}

/// A cause for the forwarder to refuse, beside those of a network.
#[derive(Clone, Copy, PartialEq, Eq, PartialOrd, Ord, Debug)]
enum Cause {
    Network(u16),
    OrdinaryRow,
    DetourRow,
    Start,
    NoFailed,
    RootFailed,
    NoSwap,
}

const OWN_CAUSES: [Cause; 6] = [
    Cause::OrdinaryRow,
    Cause::DetourRow,
    Cause::Start,
    Cause::NoFailed,
    Cause::RootFailed,
    Cause::NoSwap,
];

impl Cause {
    fn number(self) -> u16 {
        match self {
            Cause::Network(number) => number,
            Cause::OrdinaryRow | Cause::DetourRow => 10,
            Cause::Start => 15,
            Cause::NoFailed | Cause::RootFailed => 16,
            Cause::NoSwap => 17,
        }
    }

    /// Where it stands in the order.
    fn place(&self) -> usize {
        let own = OWN_CAUSES.iter().position(|cause| cause == self);
        match self {
            Cause::Network(number) => place(*number),
            _ => ORDER.len() + own.unwrap(),
        }
    }
}

/// Where a refusal of a check stands in their order.
fn place(number: u16) -> usize {
    ORDER.iter().position(|&other| other == number).unwrap()
}

/// The causes that a case gives the forwarder, each asked alone. No link
/// crosses the root, nor what is no node; and where the start or the failed node
/// is none, the start has no way without a swap link.
fn forward_causes(case: &Case) -> BTreeSet<Cause> {
    let n = case.parents.len();
    let [start, failed, _] = case.abc.map(usize::from);
    let cut = start.max(failed) >= n || hops_to(case, start, failed).is_some();
    let own = OWN_CAUSES.into_iter().filter(|cause| match cause {
        Cause::OrdinaryRow => case.room >> 16 < 1_022,
        Cause::DetourRow => case.room & 0xFFFF < 1_022,
        Cause::Start => start >= n,
        Cause::NoFailed => failed >= n,
        Cause::RootFailed => failed == case.root as usize,
        _ => cut && !has_swap(case, failed),
    });
    let network = causes(case).into_iter().map(Cause::Network);
    network.chain(own).collect()
}

/// Of the causes of each case the first in order is told, and where there is
/// none the case is answered.
#[test]
fn the_first_cause_is_told() {
    let mut rng = Rng::new(42);
    let mut cases = fixed(9);
    cases.extend((0..2_000).map(|_| random(&mut rng, 9)));
    for case in cases {
        let first = forward_causes(&case).into_iter().min_by_key(Cause::place);
        let told = first.map_or(0, Cause::number);
        assert_eq!(verdict(&case).0, told, "{case:?}");
    }
}

/// For every cause of the forwarder, and every other of it or of a network,
/// some fixed case has both, and the first of them in order is told; and some
/// has it alone. Only where the root is no node the failed node can be both the
/// root and none, and neither has a swap link.
#[test]
fn every_pair_of_forward_faults_is_met() {
    let cases = fixed(9);
    let found: Vec<(u16, BTreeSet<Cause>)> = cases
        .iter()
        .map(|case| (verdict(case).0, forward_causes(case)))
        .collect();
    let network = ORDER.into_iter().map(Cause::Network);
    let all: Vec<Cause> = network.chain(OWN_CAUSES).collect();
    let mut pairs = 0;
    for (i, &two) in all.iter().enumerate().skip(ORDER.len()) {
        for &one in &all[..i] {
            let met = found.iter().any(|(told, causes)| {
                *told == one.number() && causes.contains(&one) && causes.contains(&two)
            });
            let never = (one, two) == (Cause::NoFailed, Cause::RootFailed);
            assert_eq!(met, !never, "{one:?} with {two:?}");
            pairs += usize::from(met);
        }
        let alone = |causes: &BTreeSet<Cause>| causes.iter().all(|&cause| cause == two);
        let met = found
            .iter()
            .any(|(told, causes)| *told == two.number() && alone(causes));
        let never = [Cause::NoFailed, Cause::RootFailed].contains(&two);
        assert_eq!(met, !never, "{two:?} alone");
    }
    assert_eq!(pairs, ORDER.len() * 6 + 14);
}

/// The way of a case of the forwarder that is answered: whether it is a detour,
/// and its nodes.
fn way(case: &Case) -> Option<(bool, Vec<u16>)> {
    let text = answer(case);
    let (first, rest) = text.split_once('\n').unwrap();
    let nodes = rest.lines().next().unwrap().strip_prefix("route ")?;
    let nodes = nodes.split(' ').map(|word| word.parse().unwrap());
    Some((first == "forward ok detour", nodes.collect()))
}

/// Of random cases of the forwarder a sixth at least has an ordinary way and a
/// quarter a detour, some of these with a node twice; and every refusal is met.
#[test]
fn the_forwarder_at_random() {
    let mut rng = Rng::new(43);
    let cases: Vec<Case> = (0..3_000).map(|_| random(&mut rng, 9)).collect();
    let told: Vec<u16> = cases.iter().map(|case| verdict(case).0).collect();
    assert_eq!(set(&told), forward_verdicts());
    let count = |number: u16| told.iter().filter(|&&told| told == number).count();
    for (number, least) in [(10, 150), (15, 100), (16, 100), (17, 200)] {
        assert!(count(number) > least, "{number}: {}", count(number));
    }
    for number in ORDER {
        assert!(count(number) > 10, "{number}: {}", count(number));
    }
    let (mut ordinary, mut detours, mut twice) = (0, 0, 0);
    for (is_detour, nodes) in cases.iter().filter_map(way) {
        ordinary += usize::from(!is_detour);
        detours += usize::from(is_detour);
        let once: BTreeSet<u16> = nodes.iter().copied().collect();
        twice += usize::from(once.len() < nodes.len());
    }
    assert!(ordinary > 3_000 / 6, "{ordinary}");
    assert!(detours > 3_000 / 4 && twice > 100, "{detours} {twice}");
    let measures = cases.iter().map(|case| case.abc[2]);
    let measures: BTreeSet<(bool, u16)> = measures.map(|c| (c > 2, c % 3)).collect();
    assert_eq!(measures.len(), 6);
}

/// The longest way that there is stands among the kept, and a way of one node.
#[test]
fn the_longest_way_is_among_the_kept() {
    let ways: Vec<(bool, Vec<u16>)> = kept_of(9).iter().filter_map(way).collect();
    let most = |detour: bool| {
        let of_kind = ways.iter().filter(|way| way.0 == detour);
        of_kind.map(|way| way.1.len()).max()
    };
    assert_eq!((most(true), most(false)), (Some(1_022), Some(511)));
    assert!(ways.contains(&(false, vec![0])));
}

#[test]
fn the_same_arguments_give_the_same_cases() {
    let ops = [1, 4, 7, 8];
    assert_eq!(input(&ops, 5, 40), input(&ops, 5, 40));
    assert_ne!(input(&ops, 5, 40), input(&ops, 6, 40));
}

/// A seed whose ending is no case: the input holds the fixed cases, then as
/// many random ones as asked, over the ops in turn.
#[test]
fn an_input_holds_what_was_asked() {
    let bytes = input(&[3, 8], ENDINGS, 6);
    let (met, rest) = cases_of(&bytes);
    assert!(rest.is_empty());
    let both = [fixed(3), fixed(8)].concat();
    assert_eq!(met[..both.len()], both);
    let after: Vec<u16> = met[both.len()..].iter().map(|case| case.op).collect();
    assert_eq!(after, [3, 8, 3, 8, 3, 8]);
}

/// Over all endings: five stop as unknown, thirteen as too long.
#[test]
fn every_ending_is_met() {
    let last = |seed: u64| {
        let text = answers(&input(&[8], seed, 0));
        text.lines().last().unwrap().to_string()
    };
    let lines: Vec<String> = (0..ENDINGS).map(last).collect();
    let count = |line: &str| lines.iter().filter(|l| l.as_str() == line).count();
    assert_eq!((count("unknown"), count("too long")), (5, 13));
}

#[test]
fn lists_of_ops() {
    assert_eq!(ops("1,3-5"), Some(vec![1, 3, 4, 5]));
    assert_eq!(ops("1-8").map(|list| list.len()), Some(8));
    let own = Some(vec![8, 101, 102, 103, 104, 105]);
    assert_eq!(ops("8,101-105"), own);
    assert_eq!(ops("9,8"), Some(vec![9, 8]));
    for wrong in ["", "0", "10", "1-10", "5-3", "x", "1,,2"] {
        assert_eq!(ops(wrong), None);
    }
    for wrong in ["100", "106", "8-101", "101-106"] {
        assert_eq!(ops(wrong), None);
    }
}

/// The sample files list as swap, none and bridge, with and without an
/// unprotected node, and give every refusal that a file can give.
#[test]
fn the_sample_files_meet_every_listing() {
    let texts: Vec<String> = samples(1, 60).iter().map(|s| listing(&s.bytes)).collect();
    let all = texts.concat();
    for word in [
        " swap ",
        " none\n",
        " bridge\n",
        " lowest -\n",
        " depth whole\n",
        " depth 510\n",
    ] {
        assert!(all.contains(word), "{word}");
    }
    for number in [1, 2, 3, 4, 5, 6, 7, 8, 9, 20, 21, 22, 24] {
        assert!(all.contains(&format!("refused {number} ")), "{number}");
    }
    assert!(texts
        .iter()
        .any(|text| text.starts_with("nodes 512 links 2048 ")));
}

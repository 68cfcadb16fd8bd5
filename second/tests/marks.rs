//! Which end of a swap link is the lower: on networks worked out by hand, on
//! links recorded from either end, after changes, and in files.

mod common;
#[path = "common/plain.rs"]
mod plain;

use common::*;
use second::cases::{fixed, kept};
use second::change::{change, Change};
use second::check::check;
use second::ends::{branches, opposite, recorded, spare, turned, ways, WAYS};
use second::file::write;
use second::limits::WHOLE;
use second::network::Rows;
use second::probe::{next, Case, Next};
use second::random;
use second::reader::read;
use second::rng::Rng;
use second::table::{entry_of, table};
use second::terms::Terms;
use std::collections::BTreeSet;

type Entry = [u64; 10];

const BRIDGE: Entry = [3, NONE, NONE, NONE, 0, 0, 0, 0, 0, 0];
const BEYOND: Entry = [2, NONE, NONE, NONE, 0, 0, 0, 0, 0, 0];

/// The entries of a network by rule 0, one a node.
fn entries(rows: &Rows, depth: u16) -> Vec<Entry> {
    entries_by(rows, at(depth))
}

/// The entries of a network by any rule.
fn entries_by(rows: &Rows, terms: Terms) -> Vec<Entry> {
    let mut row = vec![7; 10 * rows.parents.len()];
    table(&rows.lend(), terms, &mut row).unwrap();
    row.chunks(10)
        .map(|entry| entry.try_into().unwrap())
        .collect()
}

/// An entry in state 1.
fn swap(links: [u64; 3], costs: [u64; 3], marks: [u64; 3]) -> Entry {
    let [s, i, m] = links;
    let [cs, ci, cm] = costs;
    let [ls, li, lm] = marks;
    [1, s, i, m, cs, ci, cm, ls, li, lm]
}

/// T(1) is a path with nodes 1 to 5 at 0, 1, 2, 4 and 9, and a link from node
/// z to the root is 5 long. So for node 1 the sum is 25 and the ways to z, 16
/// from 1, 12 from 3 and 14 from 4; incr is 5 and how far z is from 1, less
/// the 1 from 1 to the root; max is 5 and the farthest from z, 9, 7 and 5.
#[test]
fn three_measures_take_links_of_any_direction() {
    for (label, marks) in WAYS {
        let rows = ways(marks);
        let [s, i, m] = marks.map(u64::from);
        let whole = entries(&rows, WHOLE);
        assert_eq!(whole[1], swap([6, 5, 7], [37, 4, 10], [s, i, m]), "{label}");
        assert_eq!(whole[2], swap([6, 6, 7], [30, 4, 10], [s, s, m]), "{label}");
        assert_eq!(whole[3], swap([7, 6, 7], [22, 2, 10], [m, s, m]), "{label}");
        assert_eq!(whole[4], swap([7, 7, 7], [15, 0, 10], [m, m, m]), "{label}");
        assert_eq!(whole[5], BRIDGE);
        let near = entries(&rows, 0);
        assert_eq!(near[1], swap([5, 5, 5], [41, 4, 14], [i, i, i]), "{label}");
        assert_eq!(near[2], BEYOND);
        assert_eq!(near[3], swap([6, 6, 6], [24, 2, 12], [s, s, s]), "{label}");
        let two = entries(&rows, 2);
        assert_eq!(two[1], swap([6, 5, 6], [37, 4, 12], [s, i, s]), "{label}");
    }
}

/// Parallel links of opposite direction: of equals the lowest number, whatever
/// its direction; else the shorter one.
#[test]
fn parallel_links_of_opposite_direction() {
    let node_1 = |rows: &Rows| entries(rows, WHOLE)[1];
    let tie = opposite([9, 9]);
    let turn = turned(tie.clone());
    assert_eq!(node_1(&tie), swap([2; 3], [22, 10, 13], [1; 3]));
    assert_eq!(node_1(&turn), swap([2; 3], [22, 10, 13], [0; 3]));
    let shorter = opposite([9, 8]);
    assert_eq!(node_1(&shorter), swap([3; 3], [20, 9, 12], [0; 3]));
    assert_eq!(node_1(&turned(shorter)), swap([3; 3], [20, 9, 12], [1; 3]));
}

/// Link 3 has its first end below node 1, and its second below 2 and 3.
#[test]
fn a_mark_belongs_to_a_node_and_not_to_a_link() {
    for (rows, first) in [(branches(), 0), (turned(branches()), 1)] {
        let list = entries(&rows, WHOLE);
        assert_eq!(list[1], swap([3; 3], [30, 29, 30], [first; 3]));
        assert_eq!(list[2], swap([3; 3], [47, 21, 26], [1 - first; 3]));
        assert_eq!(list[3], swap([3; 3], [21, 11, 21], [1 - first; 3]));
    }
}

#[test]
fn harbour_from_the_other_ends() {
    let mut right = harbour_table();
    for at in [17, 18, 19, 27, 28, 29, 37, 38, 39] {
        right[at] = 0;
    }
    assert_eq!(entries(&turned(harbour()), WHOLE).concat(), right);
}

/// Some links recorded from their other ends: the marks of those turn, in
/// every entry that has them, and nothing else does.
#[test]
fn a_turned_link_turns_its_marks_alone() {
    let mut rng = Rng::new(61);
    let (mut turns, mut stays) = (0, 0);
    for _ in 0..1_500 {
        let n = rng.from_to(1, 14);
        let rows = random::draft(&mut rng, n).with_tree(&mut rng);
        let mut other = rows.clone();
        let chosen: Vec<bool> = (0..plain::links(&rows)).map(|_| rng.chance(50)).collect();
        for (link, &turn) in other.links.chunks_exact_mut(4).zip(&chosen) {
            if turn {
                link.swap(0, 1);
            }
        }
        let depth = rng.pick(&[WHOLE, 0, 1, 2]);
        let mut right = entries(&rows, depth);
        for entry in right.iter_mut().filter(|entry| entry[0] == 1) {
            for k in 0..3 {
                if chosen[entry[1 + k] as usize] {
                    entry[7 + k] = 1 - entry[7 + k];
                    turns += 1;
                } else {
                    stays += 1;
                }
            }
        }
        assert_eq!(entries(&other, depth), right, "{rows:?} {chosen:?}");
    }
    assert!(turns > 3_000 && stays > 3_000, "{turns} {stays}");
}

/// What a change leaves in the entry of node 1.
fn after(rows: &Rows, [link, mark, length]: [u16; 3]) -> Entry {
    let mut rows = rows.clone();
    let mut row = entries(&rows, WHOLE).concat();
    let wanted = Change { link, mark, length };
    change(&mut rows, at(WHOLE), &mut row, &wanted).unwrap();
    assert_eq!(row, entries(&rows, WHOLE).concat());
    row[10..20].try_into().unwrap()
}

#[test]
fn changes_that_turn_marks() {
    let tie = opposite([9, 9]);
    assert_eq!(after(&tie, [2, 0, 9]), swap([3; 3], [22, 10, 13], [0; 3]));
    assert_eq!(after(&tie, [2, 1, 10]), swap([3; 3], [22, 10, 13], [0; 3]));
    assert_eq!(after(&tie, [3, 1, 8]), swap([3; 3], [20, 9, 12], [0; 3]));
    assert_eq!(after(&tie, [3, 0, 9]), swap([2; 3], [22, 10, 13], [1; 3]));
    for (label, marks) in WAYS {
        let rows = ways(marks);
        let [s, i, m] = marks.map(u64::from);
        let right = swap([6, 6, 7], [37, 6, 10], [s, s, m]);
        assert_eq!(after(&rows, [5, 0, 5]), right, "{label}");
        let right = swap([7, 5, 7], [39, 4, 10], [m, i, m]);
        assert_eq!(after(&rows, [6, 0, 5]), right, "{label}");
        assert_eq!(after(&rows, [6, 1, 6]), right, "{label}");
        let right = swap([6, 5, 6], [37, 4, 12], [s, i, s]);
        assert_eq!(after(&rows, [7, 0, 5]), right, "{label}");
    }
}

/// An entry that loses its swap loses its marks; one that gets its first swap
/// gets its marks.
#[test]
fn no_swap_has_no_mark() {
    for (rows, mark) in [(spare(), 1), (turned(spare()), 0)] {
        assert_eq!(after(&rows, [1, 0, 7]), BRIDGE);
        let mut withdrawn = rows.clone();
        withdrawn.links[7] = 0;
        let right = swap([1; 3], [6, 1, 6], [mark; 3]);
        assert_eq!(after(&withdrawn, [1, 1, 6]), right);
    }
    let mut rng = Rng::new(62);
    let mut met = [0; 4];
    for _ in 0..500 {
        let rows = random::network(&mut rng);
        for entry in entries(&rows, rng.pick(&[WHOLE, 0, 1])) {
            met[entry[0] as usize] += 1;
            if entry[0] != 1 {
                assert_eq!(entry[7..], [0; 3]);
            }
        }
    }
    assert!(met.iter().all(|&count| count > 100), "{met:?}");
}

/// Wrong ways to say which end is the lower of link e for node x.
const WRONG: [fn(&Rows, usize, usize) -> u64; 8] = [
    // The other one.
    |rows, x, e| 1 - plain::lower(rows, x, e),
    // Always the first, always the second.
    |_, _, _| 0,
    |_, _, _| 1,
    // The one that is farther from the root.
    |rows, _, e| u64::from(by(rows, e, plain::d)),
    // The one that has more hops to the root.
    |rows, _, e| u64::from(by(rows, e, |rows, u| plain::route(rows, u).len() as u64)),
    // The one with the higher number, the one with the lower.
    |rows, _, e| u64::from(by(rows, e, |_, u| u as u64)),
    |rows, _, e| 1 - u64::from(by(rows, e, |_, u| u as u64)),
    // The one that is nearer to x in the tree.
    |rows, x, e| 1 - u64::from(by(rows, e, |rows, u| plain::t(rows, u, x))),
];

/// Whether the second end of link e has more than the first.
fn by(rows: &Rows, e: usize, much: impl Fn(&Rows, usize) -> u64) -> bool {
    let (first, second, _, _) = plain::link(rows, e);
    much(rows, first) < much(rows, second)
}

/// The cases that an input holds.
fn cases_of(mut input: &[u8]) -> Vec<Case> {
    let mut met = Vec::new();
    while let Next::Case(case) = next(&mut input) {
        met.push(case);
    }
    met
}

/// Kept single entries by the right reading, and by wrong ones.
#[test]
fn the_kept_entries_tell_wrong_readings_apart() {
    let mut told = 0;
    let mut differs = [false; WRONG.len()];
    for case in cases_of(&kept()).iter().filter(|case| case.op == 104) {
        let (rows, x) = (case.rows(), case.abc[0]);
        let entry = match entry_of(&rows.lend(), case.terms(), x) {
            Ok(entry) if entry.numbers()[0] == 1 => entry.numbers(),
            _ => continue,
        };
        let x = usize::from(x);
        for k in 0..3 {
            let (e, mark) = (entry[1 + k] as usize, entry[7 + k]);
            assert_eq!(mark, plain::lower(&rows, x, e));
            for (wrong, differs) in WRONG.iter().zip(&mut differs) {
                *differs |= wrong(&rows, x, e) != mark;
            }
            told += 1;
        }
    }
    assert!(told > 60, "{told}");
    assert_eq!(differs, [true; WRONG.len()]);
}

/// Among the kept tables every triple of marks stands.
#[test]
fn every_triple_of_marks_is_among_the_kept() {
    let mut met = BTreeSet::new();
    for case in cases_of(&kept()).iter().filter(|case| case.op == 2) {
        if check(&case.rows().lend(), case.terms()).is_ok() {
            let list = entries_by(&case.rows(), case.terms());
            let swaps = list.iter().filter(|entry| entry[0] == 1);
            met.extend(swaps.map(|entry| entry[7..].to_vec()));
        }
    }
    assert_eq!(met.len(), 8);
}

/// The marks for each measure, before and after, that the changes of an op
/// turn in an entry that has a swap both times; and the states between which
/// an entry goes.
#[test]
fn changes_turn_every_mark_among_the_kept() {
    for op in [4, 5] {
        let (mut turns, mut states) = (BTreeSet::new(), BTreeSet::new());
        for case in cases_of(&kept()).iter().filter(|case| case.op == op) {
            let mut rows = case.rows();
            if check(&rows.lend(), case.terms()).is_err() {
                continue;
            }
            let before = entries_by(&rows, case.terms());
            let [link, mark, length] = case.abc;
            let wanted = Change { link, mark, length };
            let mut row = before.concat();
            if change(&mut rows, case.terms(), &mut row, &wanted).is_err() {
                continue;
            }
            for (old, new) in before.iter().zip(row.chunks(10)) {
                states.insert((old[0], new[0]));
                let swaps = old[0] == 1 && new[0] == 1;
                for k in 0..3 {
                    if swaps && old[7 + k] != new[7 + k] {
                        turns.insert((k, old[7 + k]));
                    }
                }
            }
        }
        assert_eq!(turns.len(), 6, "{op}: {turns:?}");
        assert!(states.contains(&(1, 3)) && states.contains(&(3, 1)));
    }
}

/// The file of a network at the whole search.
fn file_of(rows: &Rows) -> Vec<u8> {
    let mut room = vec![0; 32_256];
    let length = write(&rows.lend(), WHOLE, &mut room).unwrap();
    room.truncate(length);
    room
}

/// A file knows no marks: from the other ends its links differ, and its table
/// does not. What is read back has the marks all the same.
#[test]
fn files_have_no_marks_and_what_is_read_has_them() {
    for named in recorded() {
        let rows = named.rows;
        let (file, other) = (file_of(&rows), file_of(&turned(rows.clone())));
        assert_ne!(file[512..1_024], other[512..1_024]);
        assert_eq!(file[..512], other[..512]);
        assert_eq!(file[1_024..], other[1_024..]);
        let (n, m) = (rows.parents.len(), plain::links(&rows));
        let (mut links, mut parents) = (vec![7; 4 * m], vec![7; n]);
        let mut row = vec![7; 10 * n];
        read(&file, &mut links, &mut parents, &mut row).unwrap();
        assert_eq!(row, plain::table(&rows, WHOLE, 0), "{}", named.label);
    }
}

/// The network that an op 7 case stores, and byte 3 of each entry. None where
/// it has not the three blocks that a small network needs.
fn stored(case: &Case) -> Option<(Rows, Vec<u8>)> {
    let bytes = &case.bytes;
    if bytes.len() != 1_536 || bytes[512] != 0x4C || bytes[1_024] != 0x54 {
        return None;
    }
    let word = |at: usize| u16::from_be_bytes([bytes[at], bytes[at + 1]]);
    let (n, m) = (word(8) as usize, word(10) as usize);
    if n > 18 || m > 63 {
        return None;
    }
    let rows = Rows {
        parents: (0..n).map(|x| word(1_032 + 28 * x)).collect(),
        links: (0..4 * m).map(|i| word(520 + 2 * i)).collect(),
        root: word(12),
    };
    let third = (0..n).map(|x| bytes[1_032 + 28 * x + 3]).collect();
    Some((rows, third))
}

/// Of the files that are refused by 22 there are some with each number from 1
/// to 7 where the mark would stand, as the right marks of that node and as
/// others; also among the kept.
#[test]
fn right_marks_in_a_file_are_met_as_22() {
    for cases in [fixed(7), cases_of(&kept())] {
        let (mut right, mut wrong) = (BTreeSet::new(), BTreeSet::new());
        for case in cases.iter().filter(|case| case.op == 7) {
            let text = second::answers::answer(case);
            let (rows, third) = match stored(case) {
                Some(both) if text.starts_with("read refused 22 2\n") => both,
                _ => continue,
            };
            if check(&rows.lend(), at(WHOLE)).is_err() {
                continue;
            }
            for (x, entry) in entries(&rows, WHOLE).iter().enumerate() {
                let bits = entry[7] | entry[8] << 1 | entry[9] << 2;
                match u64::from(third[x]) {
                    0 => continue,
                    byte if byte == bits => right.insert(byte),
                    byte => wrong.insert(byte),
                };
            }
        }
        assert_eq!(right, (1..8).collect(), "right");
        assert!(wrong.len() >= 4, "{wrong:?}");
    }
}

//! P1 to P12, and the limits named beside them.

mod common;

use common::*;
use second::change::{change, Change};
use second::check::check;
use second::limits::WHOLE;
use second::map::map;
use second::network::Rows;
use second::table::table;

/// The table of a network at a depth.
fn table_of(rows: &Rows, depth: u16) -> Vec<u64> {
    let mut row = vec![7; 10 * rows.parents.len()];
    table(&rows.lend(), at(depth), &mut row).unwrap();
    row
}

/// A change of Harbour on a row that is all 7.
fn changed(link: u16, mark: u16, length: u16) -> (Result<(), (u16, usize)>, Rows, Vec<u64>) {
    let mut rows = harbour();
    let mut row = vec![7; 50];
    let wanted = Change { link, mark, length };
    let answer = told(change(&mut rows, at(WHOLE), &mut row, &wanted));
    (answer, rows, row)
}

/// A refused change leaves rows and entries as they were.
fn refused(link: u16, mark: u16, length: u16) -> (u16, usize) {
    let (answer, rows, row) = changed(link, mark, length);
    assert_eq!(rows, harbour());
    assert_eq!(row, vec![7; 50]);
    answer.unwrap_err()
}

#[test]
fn p1_to_p4_the_four_entries() {
    assert_eq!(table_of(&harbour(), WHOLE), harbour_table());
}

#[test]
fn p5_depth_0() {
    let mut right = harbour_table();
    right[10..20].copy_from_slice(&[2, NONE, NONE, NONE, 0, 0, 0, 0, 0, 0]);
    assert_eq!(table_of(&harbour(), 0), right);
}

#[test]
fn p6_depth_1() {
    assert_eq!(table_of(&harbour(), 1), harbour_table());
}

#[test]
fn p7_a_tie_keeps_the_lowest_link() {
    let (answer, rows, row) = changed(5, 1, 2);
    assert_eq!(answer, Ok(()));
    let mut links = harbour().links;
    links[22] = 2;
    assert_eq!(rows.links, links);
    assert_eq!(row[..20], [7; 20]);
    assert_eq!(row[20..30], [1, 5, 5, 5, 5, 0, 5, 0, 0, 0]);
    assert_eq!(row[30..40], [1, 4, 4, 4, 7, 4, 7, 1, 1, 1]);
    assert_eq!(row[40..], [7; 10]);
}

#[test]
fn p8_shortness_broken() {
    assert_eq!(refused(5, 1, 1), (13, 5));
}

#[test]
fn p9_a_link_withdrawn() {
    let (answer, rows, row) = changed(3, 0, 6);
    assert_eq!(answer, Ok(()));
    let mut links = harbour().links;
    links[15] = 0;
    assert_eq!(rows.links, links);
    assert_eq!(row[..10], [7; 10]);
    assert_eq!(row[10..20], [1, 4, 4, 4, 26, 6, 11, 1, 1, 1]);
    assert_eq!(row[20..30], [1, 5, 5, 5, 7, 2, 7, 0, 0, 0]);
    assert_eq!(row[30..], [7; 20]);
}

#[test]
fn p10_a_tree_link() {
    assert_eq!(refused(0, 1, 2), (12, 0));
    assert_eq!(refused(6, 0, 9), (12, 6));
}

#[test]
fn p11_one_node() {
    let one = rows(&[65_535], &[], 0);
    let root = [0, NONE, NONE, NONE, 0, 0, 0, 0, 0, 0];
    assert_eq!(table_of(&one, WHOLE), root);
}

#[test]
fn p12_no_such_link() {
    assert_eq!(refused(7, 1, 2), (11, 0));
    assert_eq!(refused(65_535, 2, 2), (11, 0));
}

#[test]
fn a_bad_mark_comes_before_tree_link_and_shortness() {
    assert_eq!(refused(0, 2, 2), (6, 0));
    assert_eq!(refused(5, 3, 1), (6, 5));
}

#[test]
fn withdrawing_needs_no_shortness_and_stores_the_length() {
    let (answer, rows, row) = changed(5, 0, 1);
    assert_eq!(answer, Ok(()));
    assert_eq!(rows.links[20..24], [2, 3, 1, 0]);
    assert_eq!(row[20..30], [1, 3, 3, 3, 6, 1, 6, 1, 1, 1]);
}

#[test]
fn the_map_of_harbour() {
    let mut row = [7; 9];
    let whole = map(&harbour().lend(), at(WHOLE), &mut row).unwrap();
    assert_eq!(row, [16, 0, 0, 0, 0, 0, 0, 0, 7]);
    assert_eq!((whole.count, whole.lowest), (1, 4));
    let near = map(&harbour().lend(), at(0), &mut row).unwrap();
    assert_eq!(row, [18, 0, 0, 0, 0, 0, 0, 0, 7]);
    assert_eq!((near.count, near.lowest), (2, 1));
    let one = rows(&[65_535], &[], 0);
    let none = map(&one.lend(), at(WHOLE), &mut row).unwrap();
    assert_eq!((none.count, none.lowest), (0, 65_535));
    assert_eq!(
        told(map(&one.lend(), at(WHOLE), &mut row[..7])),
        Err((10, 0))
    );
}

/// Every node joined to node 0.
fn star(n: u16) -> Rows {
    let links: Vec<[u16; 3]> = (1..n).map(|x| [0, x, 1]).collect();
    let parents: Vec<u16> = (0..n).map(|x| x.wrapping_sub(1)).collect();
    rows(&parents, &links, 0)
}

#[test]
fn the_limits() {
    let verdict = |rows: &Rows, depth| told(check(&rows.lend(), at(depth)).map(|_| ()));
    let two = |m: usize| rows(&[65_535, 0], &vec![[0, 1, 3]; m], 0);
    assert_eq!(verdict(&star(512), WHOLE), Ok(()));
    assert_eq!(verdict(&star(513), WHOLE), Err((1, 0)));
    assert_eq!(verdict(&star(0), WHOLE), Err((1, 0)));
    assert_eq!(verdict(&two(2_048), WHOLE), Ok(()));
    assert_eq!(verdict(&two(2_049), WHOLE), Err((2, 0)));
    assert_eq!(verdict(&harbour(), 510), Ok(()));
    for depth in [511, 512, 65_534] {
        assert_eq!(verdict(&harbour(), depth), Err((4, 0)));
    }
    let mut elsewhere = harbour();
    elsewhere.root = 5;
    assert_eq!(verdict(&elsewhere, 511), Err((3, 0)));
}

#[test]
fn refusals_5_to_9_and_their_places() {
    let verdict = |edit: &dyn Fn(&mut Rows)| {
        let mut rows = harbour();
        edit(&mut rows);
        told(check(&rows.lend(), at(WHOLE)).map(|_| ())).unwrap_err()
    };
    assert_eq!(verdict(&|r| r.links[13] = 5), (5, 3));
    assert_eq!(verdict(&|r| r.links[8] = 3), (5, 2));
    assert_eq!(verdict(&|r| r.links[19] = 2), (6, 4));
    assert_eq!(verdict(&|r| r.parents[0] = 0), (7, 0));
    assert_eq!(verdict(&|r| r.parents[3] = 7), (7, 3));
    assert_eq!(verdict(&|r| r.parents[4] = 5), (7, 4));
    assert_eq!(verdict(&|r| r.links[11] = 0), (7, 3));
    assert_eq!(verdict(&|r| r.parents[2..4].fill(5)), (8, 2));
    assert_eq!(verdict(&|r| r.parents[1..3].fill(1)), (8, 1));
    assert_eq!(verdict(&|r| r.links[22] = 1), (9, 5));
    assert_eq!(verdict(&|r| r.links[14] = 4), (9, 3));
}

/// Faults are put into Harbour one after the other, from 9 down to 5, 14, and from
/// 4 down to 1; the last one put in is the one told. Short room, 10, comes after
/// all of them.
#[test]
fn the_order_of_a_network() {
    let mut rows = harbour();
    let mut terms = at(WHOLE);
    for number in [9, 8, 7, 6, 5, 14, 4, 3, 2, 1] {
        match number {
            9 => rows.links[22] = 1,
            8 => rows.parents[2..4].fill(5),
            7 => rows.parents[4] = 5,
            6 => rows.links[19] = 2,
            5 => rows.links[13] = 700,
            14 => terms.rule = 2,
            4 => terms.depth = 511,
            3 => rows.root = 600,
            2 => rows.links.resize(4 * 2_049, 9),
            _ => rows.parents.resize(513, 9),
        }
        let place = match number {
            5..=9 => [3, 4, 4, 2, 5][number - 5],
            _ => 0,
        };
        let right = Err((number as u16, place));
        assert_eq!(told(check(&rows.lend(), terms).map(|_| ())), right);
        assert_eq!(told(table(&rows.lend(), terms, &mut [7; 49])), right);
        assert_eq!(
            told(map(&rows.lend(), terms, &mut [7; 7]).map(|_| ())),
            right
        );
        let wanted = Change {
            link: 7,
            mark: 2,
            length: 1,
        };
        let answer = told(change(&mut rows, terms, &mut [7; 49], &wanted));
        assert_eq!(answer, right);
    }
    let mut rows = harbour();
    for (link, mark, length, right) in [(7, 2, 1, (10, 0)), (0, 2, 1, (10, 0))] {
        let wanted = Change { link, mark, length };
        let answer = told(change(&mut rows, at(WHOLE), &mut [7; 49], &wanted));
        assert_eq!(answer, Err(right));
    }
}

/// Nodes 2 and 3 name one link; node 1 hangs below them.
#[test]
fn the_lowest_node_without_a_route_need_not_lie_on_the_cycle() {
    let links = [[0, 1, 0], [1, 2, 0], [2, 3, 0]];
    let below = rows(&[65_535, 1, 2, 2], &links, 0);
    assert_eq!(told(check(&below.lend(), at(0)).map(|_| ())), Err((8, 1)));
}

/// A path of 512 with every link twice, all of length 65,535. For node 1
/// the farthest node is 511 links away, and the sum is 65,535 x 130,816.
#[test]
fn the_longest_path_reaches_the_bounds() {
    let links: Vec<[u16; 3]> = (0..1_022).map(|e| [e % 511, e % 511 + 1, 65_535]).collect();
    let parents: Vec<u16> = (0..512u16).map(|x| x.wrapping_sub(1)).collect();
    let row = table_of(&rows(&parents, &links, 0), 510);
    let right = [1, 511, 511, 511, 8_573_026_560, 0, 33_488_385, 1, 1, 1];
    assert_eq!(row[10..20], right);
}

/// Depth 510 reaches the end of a path of 512 from node 1; 509 does not.
#[test]
fn depth_510_is_as_good_as_the_whole_search() {
    let mut links: Vec<[u16; 3]> = (0..511).map(|e| [e, e + 1, 1]).collect();
    links.push([0, 511, 511]);
    let parents: Vec<u16> = (0..512u16).map(|x| x.wrapping_sub(1)).collect();
    let path = rows(&parents, &links, 0);
    assert_eq!(table_of(&path, 510), table_of(&path, WHOLE));
    assert_eq!(table_of(&path, 510)[10..14], [1, 511, 511, 511]);
    let nearer = table_of(&path, 509);
    assert_eq!(nearer[10..20], [2, NONE, NONE, NONE, 0, 0, 0, 0, 0, 0]);
    assert_eq!(nearer[20..24], [1, 511, 511, 511]);
}

/// With lengths of 0 a swap may cost nothing under every measure.
#[test]
fn a_cost_of_0_is_lawful() {
    let zero = rows(&[65_535, 0], &[[0, 1, 0], [1, 0, 0]], 0);
    assert_eq!(table_of(&zero, 0)[10..20], [1, 1, 1, 1, 0, 0, 0, 0, 0, 0]);
}

/// A part of a record at the end of the row is no link.
#[test]
fn only_whole_records_count() {
    let mut partial = harbour();
    partial.links.extend([9, 9, 9]);
    assert_eq!(table_of(&partial, WHOLE), harbour_table());
    partial.links.push(9);
    assert_eq!(
        told(check(&partial.lend(), at(WHOLE)).map(|_| ())),
        Err((5, 7))
    );
    let mut row = [7; 49];
    assert_eq!(
        told(table(&harbour().lend(), at(0), &mut row)),
        Err((10, 0))
    );
    assert_eq!(row, [7; 49]);
}

//! Chosen cases of ops 101 to 103: rows that need not be a sound network, and
//! the nodes that are asked of them.

use super::asked::{bare, need};
use super::networks::{cycles, wrong_parents};
use crate::harbour::harbour;
use crate::limits::*;
use crate::network::Rows;
use crate::probe::*;
use crate::rng::Rng;
use crate::shapes::Draft;

/// Rows, and the pairs of nodes that are asked of them.
type Scene = (Rows, Vec<[u16; 2]>);

/// Depths right and wrong: these ops do not look at them.
const DEPTHS: [u16; 4] = [WHOLE, 0, DEEPEST + 1, WHOLE - 1];

/// The chosen cases of an op. Op 101 asks the first node of each pair, once.
pub fn chosen(op: u16) -> Vec<Case> {
    let mut cases = Vec::new();
    for (rows, pairs) in scenes() {
        for [a, b] in pairs {
            let b = if op == ROUTE { 0 } else { b };
            let case = case(op, &rows, [a, b]);
            if !cases.contains(&case) {
                cases.push(case);
            }
        }
    }
    if op == ROUTE {
        cases.extend(rooms());
    }
    cases
}

/// A case with exactly the room that op 101 needs.
fn case(op: u16, rows: &Rows, [a, b]: [u16; 2]) -> Case {
    let room = if op == ROUTE { need(rows, a) } else { 0 };
    let depth = DEPTHS[(a ^ b) as usize % DEPTHS.len()];
    let mut case = Case::over(op, rows, depth, room);
    case.abc = [a, b, 0];
    case
}

fn scenes() -> Vec<Scene> {
    let mut list = vec![(harbour(), every_pair(5))];
    list.extend(no_nodes());
    list.extend(round());
    list.extend(sizes());
    list.extend(longest());
    list.push(two_chains());
    list.extend(strange_parents());
    list.extend(strange_ends());
    list.extend(not_looked_at());
    list
}

fn every_pair(n: u16) -> Vec<[u16; 2]> {
    let pairs = |a: u16| (0..n).map(move |b| [a, b]);
    (0..n).flat_map(pairs).collect()
}

/// A network after an edit.
fn edited(mut rows: Rows, edit: impl Fn(&mut Rows)) -> Rows {
    edit(&mut rows);
    rows
}

/// What is asked is no node: the first, the second, both.
fn no_nodes() -> Vec<Scene> {
    let none = NO_NODE;
    let pairs = vec![[5, 0], [0, 5], [none, 1], [1, none], [5, none], [none, 5]];
    vec![(harbour(), pairs), (bare(1), vec![[0, 0], [1, 0]])]
}

/// Parents that lead round: nodes on the cycle, below it, and beside it.
fn round() -> Vec<Scene> {
    let list = cycles();
    let beside = vec![[1, 0], [2, 1], [1, 3], [4, 0], [1, 5], [2, 3], [3, 3]];
    vec![
        (list[4].clone(), beside),
        (list[1].clone(), vec![[0, 0], [1, 0], [0, 5]]),
        (list[5].clone(), vec![[2, 1], [5, 2]]),
    ]
}

/// No node at all, the most nodes, one more. With no link every node is below
/// node 0.
fn sizes() -> Vec<Scene> {
    let most = MOST_NODES as u16;
    let last = most - 1;
    let at_most = vec![[last, last - 1], [most, 0], [last, most]];
    vec![
        (bare(0), vec![[0, 0], [NO_NODE, 1]]),
        (bare(MOST_NODES), at_most),
        (bare(MOST_NODES + 1), vec![[0, 0], [most, most + 1]]),
    ]
}

/// The longest path, with the root at an end and in the middle.
fn longest_path(root: usize) -> Rows {
    let path = Draft::path(MOST_NODES, LONGEST).rooted(root);
    path.with_tree(&mut Rng::new(0))
}

fn longest() -> Vec<Scene> {
    let last = MOST_NODES as u16 - 1;
    vec![
        (longest_path(0), vec![[last, 0]]),
        (longest_path(MOST_NODES / 2), vec![[0, last]]),
    ]
}

/// Two chains that lead to a root which is no node: the longest way that a
/// case can have between two nodes.
fn two_chains() -> Scene {
    let (half, most, root) = (MOST_NODES as u16 / 2, MOST_NODES as u16, 600);
    let above = |x: u16| if x % half == 0 { root } else { x - 1 };
    let link = |x: u16| [x, above(x), LONGEST, IN_SERVICE];
    let rows = Rows {
        parents: (0..most).collect(),
        links: (0..most).flat_map(link).collect(),
        root,
    };
    (rows, vec![[half - 1, most - 1], [most - 1, half - 1]])
}

/// Parent links that are no link, withdrawn, or do not touch the node; the
/// root names a link; the root is elsewhere.
fn strange_parents() -> Vec<Scene> {
    let wrong = wrong_parents();
    let pairs = [
        vec![[0, 2]],
        vec![[0, 3]],
        vec![[1, 0], [3, 2], [2, 4]],
        vec![[4, 1]],
        vec![[4, 2]],
        vec![[4, 3]],
        vec![[4, 4], [0, 4], [4, 1]],
    ];
    let mut list: Vec<Scene> = wrong.into_iter().zip(pairs).collect();
    let far = edited(harbour(), |rows| rows.parents[4] = 5);
    list.push((far, vec![[4, 3], [4, 2]]));
    let low = edited(harbour(), |rows| {
        rows.root = 1;
        rows.parents = vec![0, 3, 1, 2, NO_LINK];
    });
    list.push((low, vec![[4, 0], [3, 4]]));
    list
}

/// Ends that are no node: the root itself, or on the way to it. A link with
/// both ends at the node that names it.
fn strange_ends() -> Vec<Scene> {
    let rows = |root: u16, first: [u16; 2]| Rows {
        parents: vec![NO_LINK, 0, 1],
        links: vec![first[0], first[1], 4, IN_SERVICE, 2, 1, 3, IN_SERVICE],
        root,
    };
    let pairs = vec![[2, 1], [1, 0], [600, 1], [1, 600]];
    vec![
        (rows(600, [1, 600]), pairs),
        (rows(0, [600, 1]), vec![[1, 0], [2, 1]]),
        (rows(0, [1, 1]), vec![[1, 0]]),
    ]
}

/// Faults of a network that these ops do not look at, and rows cut off inside
/// the record of the link that node 4 names.
fn not_looked_at() -> Vec<Scene> {
    let with = |e: usize, at: usize, number: u16| {
        edited(harbour(), |rows| rows.links[LINK_WIDTH * e + at] = number)
    };
    let cut = edited(harbour(), |rows| rows.links.truncate(LINK_WIDTH * 7 - 1));
    vec![
        (with(0, MARK_AT, 65_535), vec![[3, 2]]),
        (with(5, LENGTH_AT, 1), vec![[2, 3]]),
        (with(5, 0, 3), vec![[3, 4]]),
        (cut, vec![[4, 2]]),
    ]
}

/// Rooms for the routes of nodes 3 and 0 of Harbour, of the longest path, and
/// none at all where the node is refused.
fn rooms() -> Vec<Case> {
    let mut cases = Vec::new();
    let mut put = |rows: &Rows, a: u16, room: usize| {
        let mut case = case(ROUTE, rows, [a, 0]);
        case.room = room;
        cases.push(case);
    };
    for room in [0, 1, 2, 4, 9, PROBE_ROOM] {
        put(&harbour(), 3, room);
    }
    put(&harbour(), 0, 0);
    put(&harbour(), 0, 2);
    put(&harbour(), 5, 0);
    put(&cycles()[4], 2, 0);
    put(&bare(MOST_NODES + 1), 0, 0);
    for room in [MOST_NODES - 1, MOST_NODES + 1] {
        put(&longest_path(0), MOST_NODES as u16 - 1, room);
    }
    cases
}

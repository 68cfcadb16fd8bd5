//! Chosen cases of ops 104 and 105: a network, a depth, and the node that is
//! asked.

use super::asked::bare;
use super::networks::cycles;
use crate::ends::{branches, ways, WAYS};
use crate::faults::{Faulty, NETWORK_FAULTS};
use crate::harbour::harbour;
use crate::limits::*;
use crate::named::{nearer, spur, weighed};
use crate::network::Rows;
use crate::probe::*;
use crate::rng::Rng;
use crate::shapes::Draft;

/// A network, a depth, and the number that is asked.
type Asked = (Rows, u16, u16);

/// The chosen cases of an op.
pub fn chosen(op: u16) -> Vec<Case> {
    let mut list = nodes();
    list.extend(no_nodes());
    list.extend(at_most());
    let sound = list
        .iter()
        .map(|(rows, depth, a)| case(op, rows, *depth, *a));
    sound.chain(faulty(op)).collect()
}

/// A case that asks a number.
pub fn case(op: u16, rows: &Rows, depth: u16, a: u16) -> Case {
    let mut case = Case::over(op, rows, depth, 0);
    case.abc[0] = a;
    case
}

/// Every node of Harbour at every kind of depth, and of the networks that
/// tell wrong readings apart at the whole search; and nodes whose swap links
/// are recorded from either end.
fn nodes() -> Vec<Asked> {
    let mut list = Vec::new();
    for depth in [WHOLE, 0, 1, DEEPEST, DEEPEST + 1] {
        list.extend((0..5).map(|x| (harbour(), depth, x)));
    }
    for rows in [spur(), weighed(), nearer()] {
        let n = rows.parents.len() as u16;
        list.extend((1..n).map(|x| (rows.clone(), WHOLE, x)));
    }
    list.extend(WAYS.map(|(_, marks)| (ways(marks), WHOLE, 1)));
    list.extend([1, 2].map(|x| (branches(), WHOLE, x)));
    list
}

/// What is asked is no node, of five nodes, of one, of none and of too many.
fn no_nodes() -> Vec<Asked> {
    let over = MOST_NODES + 1;
    vec![
        (harbour(), WHOLE, 5),
        (harbour(), 0, 6),
        (harbour(), DEEPEST, NO_NODE),
        (harbour(), WHOLE - 1, NO_NODE),
        (bare(1), WHOLE, 0),
        (bare(1), WHOLE, 1),
        (bare(0), WHOLE, 0),
        (bare(0), WHOLE, NO_NODE),
        (bare(over), WHOLE, 0),
        (bare(over), WHOLE, over as u16),
    ]
}

/// The most nodes: a path whose last node is joined to the root, at the depth
/// from which node 1 has a swap and one below; and the longest path twice.
fn at_most() -> Vec<Asked> {
    let most = MOST_NODES as u16;
    let joined = Draft::path(MOST_NODES, 1).join(0, MOST_NODES - 1, most);
    let joined = joined.with_tree(&mut Rng::new(0));
    let mut twice = Draft::path(MOST_NODES, LONGEST).with_tree(&mut Rng::new(0));
    let links = twice.links.clone();
    twice.links.extend(links);
    vec![
        (joined.clone(), DEEPEST, 1),
        (joined.clone(), DEEPEST - 1, 1),
        (joined, WHOLE, most),
        (twice, WHOLE, 1),
    ]
}

/// Harbour with a fault for each refusal of a check, asked of node 3 and of
/// the first number that is no node; and a cycle, asked beside it.
fn faulty(op: u16) -> Vec<Case> {
    let mut rng = Rng::new(0);
    let sound = harbour();
    let mut list = Vec::new();
    for why in NETWORK_FAULTS {
        let faulty = Faulty::new(&sound, WHOLE).with(&mut rng, &[why]);
        let n = faulty.rows.parents.len() as u16;
        let asked = [3, n].map(|a| case(op, &faulty.rows, faulty.depth, a));
        list.extend(asked.map(|case| case.by(faulty.rule)));
    }
    list.push(case(op, &cycles().swap_remove(4), WHOLE, 1));
    list
}

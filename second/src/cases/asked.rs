//! Cases of ops 101 to 105: a network, and the nodes a and b that are asked.

use super::{entries, networks, routes};
use crate::limits::*;
use crate::network::Rows;
use crate::probe::*;
use crate::random;
use crate::rng::Rng;
use crate::routes::{route_of, up};

/// The room that the route of node a needs; n where it has none.
pub fn need(rows: &Rows, a: u16) -> usize {
    let nodes = route_of(&rows.lend(), a as usize);
    nodes.map_or(rows.parents.len(), |nodes| nodes.len())
}

/// n nodes without a link, root 0.
pub fn bare(n: usize) -> Rows {
    Rows {
        parents: vec![NO_LINK; n],
        links: Vec::new(),
        root: 0,
    }
}

/// The chosen cases of an op, which are kept with the probe.
pub fn chosen(op: u16) -> Vec<Case> {
    match op {
        ENTRY | NODE => entries::chosen(op),
        _ => routes::chosen(op),
    }
}

/// All fixed cases of an op: the chosen ones, then nodes asked of every
/// network that ops 1 to 6 go through.
pub fn fixed(op: u16) -> Vec<Case> {
    let mut rng = Rng::new(u64::from(op));
    let mut cases = chosen(op);
    let mut more = networks::fixed(op);
    more.push(Case::over(op, &last_link_named(), WHOLE, 0));
    cases.extend(more.into_iter().map(|case| ask(&mut rng, case)));
    cases
}

/// As many links as a case has, and node 1 names the last.
fn last_link_named() -> Rows {
    let last = PROBE_LINKS / LINK_WIDTH - 1;
    let mut links = vec![[0, 1, 4, IN_SERVICE]; last];
    links.push([1, 0, 3, IN_SERVICE]);
    Rows {
        parents: vec![NO_LINK, last as u16],
        links: links.concat(),
        root: 0,
    }
}

/// The case with nodes asked, and for op 101 a room near what is needed. The
/// second node is at times the first, or its parent.
fn ask(rng: &mut Rng, mut case: Case) -> Case {
    let rows = case.rows();
    let a = some_node(rng, &rows);
    let b = match rng.below(10) {
        0 => a,
        1 => up(&rows.lend(), a as usize) as u16,
        _ => some_node(rng, &rows),
    };
    case.abc = [a, b, rng.word()];
    if case.op == ROUTE {
        case.room = random::room(rng, need(&rows, a));
    }
    case
}

/// Mostly a node, at times the root, seldom no node.
fn some_node(rng: &mut Rng, rows: &Rows) -> u16 {
    let n = rows.parents.len();
    match rng.below(20) {
        0 => rng.pick(&[n as u16, n as u16 + 1, NO_NODE]),
        1 => rows.root,
        _ => rng.below(n.max(1)) as u16,
    }
}

/// A random network, sound or with faults, and for ops that do not check it
/// at times rows that are none, few or many; with nodes asked.
pub fn random(rng: &mut Rng, op: u16) -> Case {
    let unchecked = matches!(op, ROUTE | DISTANCE | MEET);
    let case = if unchecked && rng.chance(40) {
        let rows = match rng.below(8) {
            0 => random::long_rows(rng),
            _ => random::wild_rows(rng),
        };
        Case::over(op, &rows, random::depth(rng), 0)
    } else {
        networks::random(rng, op)
    };
    ask(rng, case)
}

//! The forwarder: the list of nodes by which a start reaches the root while the
//! tree link of one node has failed.

use crate::check::check;
use crate::limits::*;
use crate::network::Network;
use crate::refusal::{refuse, Refusal, Why};
use crate::routes::{rise, route_of};
use crate::table::{Search, State};
use crate::terms::Terms;
use crate::tree::Tree;

/// What is least under a measure. The value is its place in an entry.
#[derive(Clone, Copy, PartialEq, Eq, Debug)]
pub enum Measure {
    Sum = 0,
    Incr = 1,
    Max = 2,
}

/// The measures in their order, by the words that name them.
pub const NAMED_MEASURES: [(&str, Measure); MEASURES] = [
    ("sum", Measure::Sum),
    ("incr", Measure::Incr),
    ("max", Measure::Max),
];

/// What is asked: the way of a start while the tree link of a node has failed.
#[derive(Clone, Copy, PartialEq, Eq, Debug)]
pub struct Asked {
    pub start: u16,
    pub failed: u16,
    pub measure: Measure,
}

/// Which of the two rows a way is put into.
#[derive(Clone, Copy, PartialEq, Eq, Debug)]
pub enum Kind {
    /// The start is not cut off.
    Ordinary,
    /// The start is cut off.
    Detour,
}

impl Kind {
    /// The word for it.
    pub fn word(self) -> &'static str {
        match self {
            Kind::Ordinary => "ordinary",
            Kind::Detour => "detour",
        }
    }
}

/// The nodes of a way in the order of passing, and the length of each step.
#[derive(Clone, PartialEq, Eq, Debug)]
struct Way {
    kind: Kind,
    nodes: Vec<usize>,
    steps: Vec<u64>,
}

/// What is said of a way: its row, how many nodes it has, how long it is.
#[derive(Clone, Copy, PartialEq, Eq, Debug)]
pub struct Told {
    pub kind: Kind,
    pub count: usize,
    pub length: u64,
}

/// The route of a node of a checked network.
fn route(net: &Network, u: usize) -> Vec<usize> {
    route_of(net, u).expect("every node has a route")
}

/// The way up a route, all of it.
fn ordinary(net: &Network, nodes: Vec<usize>) -> Way {
    let climbed = &nodes[..nodes.len() - 1];
    Way {
        kind: Kind::Ordinary,
        steps: climbed.iter().map(|&u| rise(net, u)).collect(),
        nodes,
    }
}

/// The swap link of x under a measure, or 17 at x.
fn swap_link(net: &Network, tree: &Tree, terms: Terms, asked: &Asked) -> Result<usize, Refusal> {
    let x = usize::from(asked.failed);
    let entry = Search::new(net, tree, terms).entry(x);
    match entry.state {
        State::Swap => Ok(usize::from(entry.links[asked.measure as usize])),
        _ => refuse(Why::NoSwap, x),
    }
}

/// Up the route to x, down the tree to z, across link e to z', and by the
/// route of z'. z is the end of e whose route has x.
fn detour(net: &Network, from: &[usize], x: usize, e: usize) -> Way {
    let link = net.link(e);
    let [a, b] = link.ends.map(usize::from);
    let (z, beyond) = match route(net, a).contains(&x) {
        true => (a, b),
        false => (b, a),
    };
    let below = |nodes: &[usize]| -> Vec<usize> {
        let part = nodes.iter().take_while(|&&u| u != x);
        part.copied().collect()
    };
    let up = below(from);
    let mut down = below(&route(net, z));
    down.reverse();
    let last = ordinary(net, route(net, beyond));
    let steps = |nodes: &[usize]| -> Vec<u64> { nodes.iter().map(|&u| rise(net, u)).collect() };
    let across = vec![u64::from(link.length)];
    Way {
        kind: Kind::Detour,
        steps: [steps(&up), steps(&down), across, last.steps].concat(),
        nodes: [up, vec![x], down, last.nodes].concat(),
    }
}

/// The way, with refusals 15 to 17 in their order. The network is checked.
fn way(net: &Network, tree: &Tree, terms: Terms, asked: &Asked) -> Result<Way, Refusal> {
    let [start, x] = [asked.start, asked.failed].map(usize::from);
    if start >= net.n() {
        return refuse(Why::Start, 0);
    }
    if x >= net.n() || net.is_root(x) {
        return refuse(Why::Failed, 0);
    }
    let nodes = route(net, start);
    if !nodes.contains(&x) {
        return Ok(ordinary(net, nodes));
    }
    let e = swap_link(net, tree, terms, asked)?;
    Ok(detour(net, &nodes, x, e))
}

/// Writes the way into the first numbers of the row that applies, of the
/// ordinary row and the detour row. The refusals of a check, 10 where either row
/// is short, 15, 16, 17. A refusal writes nothing.
pub fn forward(
    net: &Network,
    terms: Terms,
    asked: &Asked,
    rows: [&mut [u16]; 2],
) -> Result<Told, Refusal> {
    let tree = check(net, terms)?;
    if rows.iter().any(|row| row.len() < ROUTE_ROW) {
        return refuse(Why::Room, 0);
    }
    let way = way(net, &tree, terms, asked)?;
    let [first, second] = rows;
    let row = match way.kind {
        Kind::Ordinary => first,
        Kind::Detour => second,
    };
    let used = &mut row[..way.nodes.len()];
    for (place, &u) in used.iter_mut().zip(&way.nodes) {
        *place = u as u16;
    }
    Ok(Told {
        kind: way.kind,
        count: way.nodes.len(),
        length: way.steps.iter().sum(),
    })
}

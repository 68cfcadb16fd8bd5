//! The tree that rows name, asked without a check of the network: routes,
//! their lengths, and where two of them meet.

use crate::limits::*;
use crate::network::Network;
use crate::refusal::{refuse, Refusal, Why};

/// The parent of u by the link that it names; the root's is the root.
pub fn up(net: &Network, u: usize) -> usize {
    if net.is_root(u) {
        return u;
    }
    net.named_link(u).other_end(u)
}

/// The length of the step from u to its parent; 0 at the root.
pub fn rise(net: &Network, u: usize) -> u64 {
    if net.is_root(u) {
        return 0;
    }
    u64::from(net.named_link(u).length)
}

/// The route of u: u, its parent and so on, the root included. None where the
/// first n of these nodes have no root among them.
pub fn route_of(net: &Network, u: usize) -> Option<Vec<usize>> {
    let mut nodes = vec![u];
    let mut here = u;
    while !net.is_root(here) {
        if nodes.len() >= net.n() {
            return None;
        }
        here = up(net, here);
        nodes.push(here);
    }
    Some(nodes)
}

/// The length of the way up a route to one of its nodes.
fn length_to(net: &Network, route: &[usize], top: usize) -> u64 {
    let below = route.iter().take_while(|&&x| x != top);
    below.map(|&x| rise(net, x)).sum()
}

/// The route of u, or refusal 1, or 8 at u.
fn way(net: &Network, u: u16) -> Result<Vec<usize>, Refusal> {
    let (n, u) = (net.n(), usize::from(u));
    if n == 0 || n > MOST_NODES {
        return refuse(Why::NodeCount, 0);
    }
    match route_of(net, u) {
        Some(nodes) if u < n => Ok(nodes),
        _ => refuse(Why::NoRoute, u),
    }
}

/// What is said of a route: d(u), and how many nodes it has.
#[derive(Clone, Copy, PartialEq, Eq, Debug)]
pub struct Route {
    pub length: u64,
    pub count: usize,
}

/// Writes the route of u into the first numbers of the row. Refusals 1, 8 at
/// u, 10.
pub fn route(net: &Network, u: u16, row: &mut [u16]) -> Result<Route, Refusal> {
    let nodes = way(net, u)?;
    if row.len() < nodes.len() {
        return refuse(Why::Room, 0);
    }
    for (place, &x) in row.iter_mut().zip(&nodes) {
        *place = x as u16;
    }
    Ok(Route {
        length: length_to(net, &nodes, net.root as usize),
        count: nodes.len(),
    })
}

/// The first node of one route that is on the other. Both end at the root.
fn first_on(one: &[usize], other: &[usize]) -> usize {
    let both = one.iter().find(|x| other.contains(x));
    *both.expect("the root is on both")
}

/// t(u, z): up from both nodes to where their routes first meet. Refusals 1,
/// 8 at u, 8 at z.
pub fn tree_distance(net: &Network, u: u16, z: u16) -> Result<u64, Refusal> {
    let (one, other) = (way(net, u)?, way(net, z)?);
    let meet = first_on(&one, &other);
    Ok(length_to(net, &one, meet) + length_to(net, &other, meet))
}

/// The first node of the route of u that is on the route of z. Refusals as
/// for the tree distance.
pub fn meet_of(net: &Network, u: u16, z: u16) -> Result<usize, Refusal> {
    let (one, other) = (way(net, u)?, way(net, z)?);
    Ok(first_on(&one, &other))
}

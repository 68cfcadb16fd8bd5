//! The check of a network, its tree and the terms of a search: refusals 1 to 4,
//! 14 and 5 to 9, in this order.

use crate::limits::*;
use crate::network::Network;
use crate::refusal::{refuse, refuse_lowest, Refusal, Why};
use crate::terms::Terms;
use crate::tree::Tree;

/// Refusals 1 to 4, from the four numbers alone.
pub fn check_numbers(n: usize, m: usize, root: u16, depth: u16) -> Result<(), Refusal> {
    if n == 0 || n > MOST_NODES {
        return refuse(Why::NodeCount, 0);
    }
    if m > MOST_LINKS {
        return refuse(Why::LinkCount, 0);
    }
    if root as usize >= n {
        return refuse(Why::Root, 0);
    }
    if depth > DEEPEST && depth != WHOLE {
        return refuse(Why::Depth, 0);
    }
    Ok(())
}

/// Refusal 14.
fn check_rule(rule: u16) -> Result<(), Refusal> {
    match rule {
        LOWEST_NUMBER | NEARER_FIRST => Ok(()),
        _ => refuse(Why::Rule, 0),
    }
}

/// Both ends are nodes and differ.
fn ends_are_sound(net: &Network, e: usize) -> bool {
    let [a, b] = net.link(e).ends.map(usize::from);
    a < net.n() && b < net.n() && a != b
}

/// The service mark is 0 or 1.
pub fn is_mark(mark: u16) -> bool {
    mark == WITHDRAWN || mark == IN_SERVICE
}

/// The root names no link; another node names a link in service touching it.
fn parent_link_is_sound(net: &Network, x: usize) -> bool {
    let e = net.parents[x];
    if net.is_root(x) {
        return e == NO_LINK;
    }
    if e as usize >= net.m() {
        return false;
    }
    let link = net.link(e as usize);
    link.in_service() && link.touches(x)
}

/// d(a) <= d(b)+w and d(b) <= d(a)+w.
pub fn is_short(tree: &Tree, ends: [u16; 2], length: u16) -> bool {
    let [a, b] = ends.map(|end| tree.distance[end as usize]);
    let w = u64::from(length);
    a <= b + w && b <= a + w
}

/// Refusals 5 to 9. What 1 to 4 look at must be sound.
pub fn check_rows(net: &Network) -> Result<Tree, Refusal> {
    refuse_lowest(Why::Ends, net.m(), |e| !ends_are_sound(net, e))?;
    refuse_lowest(Why::Mark, net.m(), |e| !is_mark(net.link(e).mark))?;
    refuse_lowest(Why::ParentLink, net.n(), |x| !parent_link_is_sound(net, x))?;
    let tree = match Tree::of(net) {
        Ok(tree) => tree,
        Err(node) => return refuse(Why::NoRoute, node),
    };
    refuse_lowest(Why::Shortness, net.m(), |e| {
        let link = net.link(e);
        link.in_service() && !is_short(&tree, link.ends, link.length)
    })?;
    Ok(tree)
}

/// Refusals 1 to 4, 14 and 5 to 9; the tree where there is none.
pub fn check(net: &Network, terms: Terms) -> Result<Tree, Refusal> {
    check_numbers(net.n(), net.m(), net.root, terms.depth)?;
    check_rule(terms.rule)?;
    check_rows(net)
}

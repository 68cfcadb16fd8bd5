//! The swap table, from the definitions of crossing, candidate, cost and best.

use crate::check::check;
use crate::limits::*;
use crate::network::Network;
use crate::refusal::{refuse, Refusal, Why};
use crate::terms::Terms;
use crate::tree::{PathLengths, Tree};

/// The state of an entry. The value is the state's number.
#[derive(Clone, Copy, PartialEq, Eq, Debug)]
pub enum State {
    Root = 0,
    Swap = 1,
    /// Links cross but none within the depth.
    Beyond = 2,
    Bridge = 3,
}

/// An entry: the state, and for sum, incr, max the links, the costs and the
/// marks of the links' lower ends.
#[derive(Clone, Copy, PartialEq, Eq, Debug)]
pub struct Entry {
    pub state: State,
    pub links: [u16; MEASURES],
    pub costs: [u64; MEASURES],
    pub lower: [u16; MEASURES],
}

impl Entry {
    /// An entry of a state other than swap.
    pub fn without_swap(state: State) -> Entry {
        Entry {
            state,
            links: [NO_LINK; MEASURES],
            costs: [0; MEASURES],
            lower: [FIRST_END; MEASURES],
        }
    }

    /// The entry as plain numbers, in the order of the row.
    pub fn numbers(&self) -> [u64; ENTRY_WIDTH] {
        let [s, i, m] = self.links.map(u64::from);
        let [cs, ci, cm] = self.costs;
        let [ls, li, lm] = self.lower.map(u64::from);
        [self.state as u64, s, i, m, cs, ci, cm, ls, li, lm]
    }

    /// Whether the node of this entry belongs in the unprotected map.
    pub fn unprotected(&self) -> bool {
        matches!(self.state, State::Beyond | State::Bridge)
    }
}

/// A crossing link with z, its end in T(x), and z', the other.
#[derive(Clone, Copy)]
pub struct Crossing {
    pub link: usize,
    pub inner: usize,
    pub outer: usize,
}

/// The links that cross x: in service, not x's tree link, one end in T(x).
pub fn crossings(net: &Network, tree: &Tree, x: usize) -> Vec<Crossing> {
    let mut found = Vec::new();
    for e in 0..net.m() {
        let link = net.link(e);
        if !link.in_service() || e == net.parents[x] as usize {
            continue;
        }
        let [a, b] = link.ends.map(usize::from);
        let (inner, outer) = match (tree.is_below(a, x), tree.is_below(b, x)) {
            (true, false) => (a, b),
            (false, true) => (b, a),
            _ => continue,
        };
        found.push(Crossing {
            link: e,
            inner,
            outer,
        });
    }
    found
}

/// A candidate: its link, and its costs for sum, incr, max.
pub type Priced = (usize, [u64; MEASURES]);

/// What the costs need of z alone, over u in T(x).
#[derive(Clone, Copy)]
struct Reach {
    /// The t(u,z) added.
    sum: u64,
    /// The largest t(u,z) - d(u).
    rise: i64,
    /// The largest t(u,z).
    far: u64,
}

fn reach(tree: &Tree, t: &PathLengths, below: &[usize], z: usize) -> Reach {
    let mut reach = Reach {
        sum: 0,
        rise: i64::MIN,
        far: 0,
    };
    for &u in below {
        let length = t.between(z, u);
        reach.sum += length;
        reach.rise = reach.rise.max(length as i64 - tree.distance[u] as i64);
        reach.far = reach.far.max(length);
    }
    reach
}

/// The costs of a candidate for sum, incr, max.
/// With N(u) = t(u,z) + w + d(z') the last two terms are the same for every u.
fn costs(reach: Reach, nodes: usize, beyond: u64) -> [u64; MEASURES] {
    let incr = reach.rise + beyond as i64;
    [
        reach.sum + nodes as u64 * beyond,
        u64::try_from(incr).expect("no route is shorter than the tree's"),
        reach.far + beyond,
    ]
}

/// Whether z is at most depth hops below x.
fn within(tree: &Tree, depth: u16, x: usize, z: usize) -> bool {
    depth == WHOLE || tree.hops[z] - tree.hops[x] <= depth as usize
}

/// A checked network with its tree and tree paths, ready to give entries.
pub struct Search<'a> {
    pub net: &'a Network<'a>,
    pub tree: &'a Tree,
    pub t: PathLengths,
    pub terms: Terms,
}

impl<'a> Search<'a> {
    pub fn new(net: &'a Network<'a>, tree: &'a Tree, terms: Terms) -> Search<'a> {
        let t = PathLengths::of(net, tree);
        Search {
            net,
            tree,
            t,
            terms,
        }
    }

    /// The costs of each candidate of x, in link order.
    pub fn priced(&self, x: usize, candidates: &[Crossing]) -> Vec<Priced> {
        let below = self.tree.below(x);
        let mut reaches: Vec<Option<Reach>> = vec![None; self.net.n()];
        let mut price = |c: &Crossing| {
            let z = c.inner;
            let known = reaches[z].unwrap_or_else(|| reach(self.tree, &self.t, &below, z));
            reaches[z] = Some(known);
            let w = u64::from(self.net.link(c.link).length);
            let beyond = w + self.tree.distance[c.outer];
            (c.link, costs(known, below.len(), beyond))
        };
        candidates.iter().map(&mut price).collect()
    }

    /// The entry of node x.
    pub fn entry(&self, x: usize) -> Entry {
        if self.net.is_root(x) {
            return Entry::without_swap(State::Root);
        }
        let mut links = crossings(self.net, self.tree, x);
        if links.is_empty() {
            return Entry::without_swap(State::Bridge);
        }
        links.retain(|c| within(self.tree, self.terms.depth, x, c.inner));
        if links.is_empty() {
            return Entry::without_swap(State::Beyond);
        }
        let priced = self.priced(x, &links);
        let mut entry = Entry::without_swap(State::Swap);
        for k in 0..MEASURES {
            let (link, costs) = best(&priced, k, self.terms.rule);
            entry.links[k] = link as u16;
            entry.costs[k] = costs[k];
            entry.lower[k] = self.lower_end(x, link);
        }
        entry
    }

    /// Which end of a link that crosses x is cut off with x, the one in T(x).
    fn lower_end(&self, x: usize, link: usize) -> u16 {
        let [first, second] = self.net.link(link).ends.map(usize::from);
        let cut = [first, second].map(|end| self.tree.is_below(end, x));
        match cut {
            [true, false] => FIRST_END,
            [false, true] => SECOND_END,
            _ => panic!("link {link} does not cross {x}"),
        }
    }
}

/// The candidates that have the least of a measure.
fn least(priced: &[Priced], k: usize) -> Vec<Priced> {
    let least = priced.iter().map(|(_, costs)| costs[k]).min();
    let equals = priced.iter().filter(|(_, costs)| Some(costs[k]) == least);
    equals.copied().collect()
}

/// The best under measure k: of those that cost least under it, by rule 1 of
/// those among them that have the lowest incr, the one with the lowest number.
fn best(priced: &[Priced], k: usize, rule: u16) -> Priced {
    let mut equals = least(priced, k);
    if rule == NEARER_FIRST {
        equals = least(&equals, INCR);
    }
    let lowest = equals.into_iter().min_by_key(|&(link, _)| link);
    lowest.expect("there is a candidate")
}

/// The entries of all nodes of a checked network.
pub fn entries(net: &Network, tree: &Tree, terms: Terms) -> Vec<Entry> {
    let search = Search::new(net, tree, terms);
    (0..net.n()).map(|x| search.entry(x)).collect()
}

/// Stores the entry of node x.
pub fn store(row: &mut [u64], x: usize, entry: &Entry) {
    row[ENTRY_WIDTH * x..ENTRY_WIDTH * (x + 1)].copy_from_slice(&entry.numbers());
}

/// Refusal 10 where fewer than n whole entries are lent.
pub fn check_room(n: usize, row: &[u64]) -> Result<(), Refusal> {
    if row.len() / ENTRY_WIDTH < n {
        return refuse(Why::Room, 0);
    }
    Ok(())
}

/// The refusals of a check, then 8 at x where x is no node; the tree where
/// there is none.
pub fn check_entry(net: &Network, terms: Terms, x: u16) -> Result<Tree, Refusal> {
    let tree = check(net, terms)?;
    if usize::from(x) >= net.n() {
        return refuse(Why::NoRoute, usize::from(x));
    }
    Ok(tree)
}

/// The entry of node x by value, with the refusals of its check.
pub fn entry_of(net: &Network, terms: Terms, x: u16) -> Result<Entry, Refusal> {
    let tree = check_entry(net, terms, x)?;
    Ok(Search::new(net, &tree, terms).entry(usize::from(x)))
}

/// Writes the table into the first n entries of the row.
pub fn table(net: &Network, terms: Terms, row: &mut [u64]) -> Result<(), Refusal> {
    let tree = check(net, terms)?;
    check_room(net.n(), row)?;
    for (x, entry) in entries(net, &tree, terms).iter().enumerate() {
        store(row, x, entry);
    }
    Ok(())
}

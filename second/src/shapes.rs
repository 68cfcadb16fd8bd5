//! Shapes of networks, and the shortest-path tree that makes rows of them.

use crate::limits::*;
use crate::network::{Link, Rows};
use crate::rng::Rng;

/// Nodes, links and a root, not yet a tree.
#[derive(Clone)]
pub struct Draft {
    pub n: usize,
    pub links: Vec<Link>,
    pub root: usize,
}

impl Draft {
    /// n nodes, root 0, no links.
    pub fn nodes(n: usize) -> Draft {
        Draft {
            n,
            links: Vec::new(),
            root: 0,
        }
    }

    /// The same with one more link in service.
    pub fn join(mut self, a: usize, b: usize, length: u16) -> Draft {
        self.add(a, b, length, IN_SERVICE);
        self
    }

    /// Adds a link.
    pub fn add(&mut self, a: usize, b: usize, length: u16, mark: u16) {
        let ends = [a as u16, b as u16];
        self.links.push(Link { ends, length, mark });
    }

    /// 0 - 1 - 2 and so on.
    pub fn path(n: usize, length: u16) -> Draft {
        (1..n).fold(Draft::nodes(n), |d, x| d.join(x - 1, x, length))
    }

    /// A path whose last node is joined to node 0.
    pub fn ring(n: usize, length: u16) -> Draft {
        Draft::path(n, length).join(n - 1, 0, length)
    }

    /// Every node joined to node 0.
    pub fn star(n: usize, length: u16) -> Draft {
        (1..n).fold(Draft::nodes(n), |d, x| d.join(0, x, length))
    }

    /// A path of `spine` nodes, each with `legs` more.
    pub fn caterpillar(spine: usize, legs: usize, length: u16) -> Draft {
        let mut draft = Draft::path(spine, length);
        draft.n = spine * (legs + 1);
        for leg in 0..spine * legs {
            draft.add(leg % spine, spine + leg, length, IN_SERVICE);
        }
        draft
    }

    /// Rows and columns, each node joined to its neighbours.
    pub fn grid(rows: usize, columns: usize, length: u16) -> Draft {
        let mut draft = Draft::nodes(rows * columns);
        for x in 0..draft.n {
            if x % columns + 1 < columns {
                draft.add(x, x + 1, length, IN_SERVICE);
            }
            if x + columns < draft.n {
                draft.add(x, x + columns, length, IN_SERVICE);
            }
        }
        draft
    }

    /// Every two nodes joined.
    pub fn complete(n: usize, length: u16) -> Draft {
        let pairs = (0..n).flat_map(|b| (0..b).map(move |a| (a, b)));
        pairs.fold(Draft::nodes(n), |d, (a, b)| d.join(a, b, length))
    }

    /// Nodes joined at random, each to an earlier one.
    pub fn sprawl(rng: &mut Rng, n: usize) -> Draft {
        (1..n).fold(Draft::nodes(n), |d, x| d.join(rng.below(x), x, 1))
    }

    /// The same with the root elsewhere.
    pub fn rooted(mut self, root: usize) -> Draft {
        self.root = root;
        self
    }

    /// The same with `count` more links between random nodes.
    pub fn with_more(mut self, rng: &mut Rng, count: usize) -> Draft {
        for _ in 0..if self.n < 2 { 0 } else { count } {
            let a = rng.below(self.n);
            let b = (a + 1 + rng.below(self.n - 1)) % self.n;
            self.add(a, b, 1, IN_SERVICE);
        }
        self
    }

    /// The same with `count` copies of links.
    pub fn with_parallels(mut self, rng: &mut Rng, count: usize) -> Draft {
        for _ in 0..if self.links.is_empty() { 0 } else { count } {
            let mut link = rng.pick(&self.links);
            if rng.chance(50) {
                link.ends.reverse();
            }
            self.links.push(link);
        }
        self
    }

    /// The same with `count` withdrawn links, which no tree can use.
    pub fn with_withdrawn(mut self, rng: &mut Rng, count: usize) -> Draft {
        let from = self.links.len();
        self = self.with_more(rng, count);
        for link in &mut self.links[from..] {
            link.mark = WITHDRAWN;
            link.length = rng.word() % 8;
        }
        self
    }

    /// The same with each link recorded from either end.
    pub fn turned(mut self, rng: &mut Rng) -> Draft {
        for link in &mut self.links {
            if rng.chance(50) {
                link.ends.reverse();
            }
        }
        self
    }

    /// The same with new lengths.
    pub fn with_lengths(mut self, mut length: impl FnMut(usize) -> u16) -> Draft {
        for (e, link) in self.links.iter_mut().enumerate() {
            link.length = length(e);
        }
        self
    }

    /// The same network with nodes and links numbered anew.
    pub fn shuffled(mut self, rng: &mut Rng) -> Draft {
        rng.shuffle(&mut self.links);
        self.renamed(rng)
    }

    /// The same network with nodes numbered anew.
    pub fn renamed(mut self, rng: &mut Rng) -> Draft {
        let mut names: Vec<u16> = (0..self.n as u16).collect();
        rng.shuffle(&mut names);
        for link in &mut self.links {
            link.ends = link.ends.map(|end| names[end as usize]);
        }
        self.root = names[self.root] as usize;
        self
    }

    /// The rows, with a shortest-path tree from the root. Nodes are settled
    /// by distance; a node takes any link that gives its distance from a
    /// settled node. Every node must be reachable over links in service.
    pub fn with_tree(&self, rng: &mut Rng) -> Rows {
        let mut settled: Vec<Option<u64>> = vec![None; self.n];
        let mut parents = vec![NO_LINK; self.n];
        settled[self.root] = Some(0);
        for _ in 1..self.n {
            let steps = self.steps(&settled);
            let least = steps.iter().map(|step| step.0).min();
            let least = least.expect("every node is reachable");
            let (_, node, _) = rng.pick(&nearest(&steps, least));
            let mut fitting = nearest(&steps, least);
            fitting.retain(|step| step.1 == node);
            settled[node] = Some(least);
            parents[node] = rng.pick(&fitting).2 as u16;
        }
        Rows {
            parents,
            links: self.links.iter().flat_map(|l| l.numbers()).collect(),
            root: self.root as u16,
        }
    }

    /// Distance, node and link of each step from a settled node to another.
    fn steps(&self, settled: &[Option<u64>]) -> Vec<(u64, usize, usize)> {
        let mut steps = Vec::new();
        for (e, link) in self.links.iter().enumerate() {
            let [a, b] = link.ends.map(usize::from);
            let step = match (settled[a], settled[b]) {
                (Some(d), None) => (d, b),
                (None, Some(d)) => (d, a),
                _ => continue,
            };
            if link.in_service() {
                steps.push((step.0 + u64::from(link.length), step.1, e));
            }
        }
        steps
    }
}

fn nearest(steps: &[(u64, usize, usize)], least: u64) -> Vec<(u64, usize, usize)> {
    let fits = |step: &&(u64, usize, usize)| step.0 == least;
    steps.iter().filter(fits).copied().collect()
}

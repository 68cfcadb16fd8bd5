//! Routes, distances from the root, T(x), and the lengths of tree paths.

use crate::network::Network;

/// The rooted tree of a network whose parent links are sound.
pub struct Tree {
    /// The parent of each node; the root has none.
    pub parent: Vec<Option<usize>>,
    /// Hops from each node to the root.
    pub hops: Vec<usize>,
    /// d(u), the length of the route of u.
    pub distance: Vec<u64>,
    /// Whether a node lies in T(x), by x and node.
    inside: Vec<Vec<bool>>,
}

/// The parent of each node. Every parent link must be sound.
fn parents(net: &Network) -> Vec<Option<usize>> {
    let parent = |x: usize| (!net.is_root(x)).then(|| net.tree_link(x).other_end(x));
    (0..net.n()).map(parent).collect()
}

/// The route from u to the root: u followed by the route of its parent.
/// None where the parents lead round and never reach the root.
fn route(parent: &[Option<usize>], u: usize) -> Option<Vec<usize>> {
    let mut nodes = vec![u];
    let mut here = u;
    while let Some(next) = parent[here] {
        if nodes.len() == parent.len() {
            return None;
        }
        nodes.push(next);
        here = next;
    }
    Some(nodes)
}

impl Tree {
    /// The tree, or the lowest node that has no route.
    pub fn of(net: &Network) -> Result<Tree, usize> {
        let parent = parents(net);
        let n = net.n();
        let mut tree = Tree {
            parent: parent.clone(),
            hops: vec![0; n],
            distance: vec![0; n],
            inside: vec![vec![false; n]; n],
        };
        for u in 0..n {
            let nodes = route(&parent, u).ok_or(u)?;
            tree.hops[u] = nodes.len() - 1;
            for x in nodes {
                tree.inside[x][u] = true;
                if !net.is_root(x) {
                    tree.distance[u] += u64::from(net.tree_link(x).length);
                }
            }
        }
        Ok(tree)
    }

    /// Whether u lies in T(x).
    pub fn is_below(&self, u: usize, x: usize) -> bool {
        self.inside[x][u]
    }

    /// T(x): x and all below it, in node order.
    pub fn below(&self, x: usize) -> Vec<usize> {
        (0..self.parent.len())
            .filter(|&u| self.is_below(u, x))
            .collect()
    }
}

/// t(u, v) for all pairs of nodes.
pub struct PathLengths(Vec<Vec<u64>>);

impl PathLengths {
    /// Nodes are met by hops. A node met later is not above one met before,
    /// so the path between the two goes through its parent.
    pub fn of(net: &Network, tree: &Tree) -> PathLengths {
        let n = net.n();
        let mut order: Vec<usize> = (0..n).collect();
        order.sort_by_key(|&x| tree.hops[x]);
        let mut t = vec![vec![0; n]; n];
        for (met, &v) in order.iter().enumerate() {
            if let Some(p) = tree.parent[v] {
                let w = u64::from(net.tree_link(v).length);
                for &u in &order[..met] {
                    t[u][v] = t[u][p] + w;
                    t[v][u] = t[u][v];
                }
            }
        }
        PathLengths(t)
    }

    /// The length of the tree path from u to v.
    pub fn between(&self, u: usize, v: usize) -> u64 {
        self.0[u][v]
    }
}

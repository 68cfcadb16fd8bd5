//! A network over flat rows. Only whole records count.

use crate::limits::*;

/// One link's record.
#[derive(Clone, Copy, PartialEq, Eq, Debug)]
pub struct Link {
    pub ends: [u16; 2],
    pub length: u16,
    pub mark: u16,
}

impl Link {
    /// The record as plain numbers, in the order of the row.
    pub fn numbers(&self) -> [u16; LINK_WIDTH] {
        [self.ends[0], self.ends[1], self.length, self.mark]
    }

    /// The record that plain numbers hold.
    pub fn from_numbers(row: &[u16]) -> Link {
        Link {
            ends: [row[0], row[1]],
            length: row[2],
            mark: row[3],
        }
    }

    /// Whether the link is in service.
    pub fn in_service(&self) -> bool {
        self.mark == IN_SERVICE
    }

    /// Whether the node is an end of the link.
    pub fn touches(&self, node: usize) -> bool {
        self.ends.iter().any(|&end| end as usize == node)
    }

    /// The end that is not the node, of a link that touches it; the first end
    /// of a link that does not.
    pub fn other_end(&self, node: usize) -> usize {
        let [a, b] = self.ends.map(usize::from);
        if a == node {
            b
        } else {
            a
        }
    }
}

/// A network as it is lent: a row of parents, a row of links, the root.
#[derive(Clone, Copy)]
pub struct Network<'a> {
    pub parents: &'a [u16],
    pub links: &'a [u16],
    pub root: u16,
}

impl Network<'_> {
    /// The number of nodes.
    pub fn n(&self) -> usize {
        self.parents.len()
    }

    /// The number of links: the whole records of the row.
    pub fn m(&self) -> usize {
        self.links.len() / LINK_WIDTH
    }

    /// The record of link `e`.
    pub fn link(&self, e: usize) -> Link {
        Link::from_numbers(&self.links[LINK_WIDTH * e..LINK_WIDTH * (e + 1)])
    }

    /// Whether the node is the root.
    pub fn is_root(&self, x: usize) -> bool {
        x == self.root as usize
    }

    /// The link that any number names as its parent link, in rows that nobody
    /// checked. No node, and a node that names no link, have ends 0 and 0,
    /// length 0 and mark 0.
    pub fn named_link(&self, x: usize) -> Link {
        match self.parents.get(x).map(|&e| e as usize) {
            Some(e) if e < self.m() => self.link(e),
            _ => Link::from_numbers(&[0; LINK_WIDTH]),
        }
    }

    /// The tree link of a node other than the root, in a checked network.
    pub fn tree_link(&self, x: usize) -> Link {
        self.link(self.parents[x] as usize)
    }
}

/// The rows of a network, owned.
#[derive(Clone, PartialEq, Eq, Debug)]
pub struct Rows {
    pub parents: Vec<u16>,
    pub links: Vec<u16>,
    pub root: u16,
}

impl Rows {
    /// The rows, lent.
    pub fn lend(&self) -> Network<'_> {
        Network {
            parents: &self.parents,
            links: &self.links,
            root: self.root,
        }
    }

    /// Stores the record of link `e`.
    pub fn set_link(&mut self, e: usize, link: Link) {
        self.links[LINK_WIDTH * e..LINK_WIDTH * (e + 1)].copy_from_slice(&link.numbers());
    }
}

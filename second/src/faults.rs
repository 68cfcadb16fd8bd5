//! Faults put into an accepted network, one for each refusal of a network.

use crate::limits::*;
use crate::network::{Network, Rows};
use crate::refusal::Why;
use crate::rng::Rng;
use crate::tree::Tree;

/// The refusals of a check that a fault in the rows, the root, the depth or the
/// tie rule can bring about, in their order.
pub const NETWORK_FAULTS: [Why; 10] = [
    Why::NodeCount,
    Why::LinkCount,
    Why::Root,
    Why::Depth,
    Why::Rule,
    Why::Ends,
    Why::Mark,
    Why::ParentLink,
    Why::NoRoute,
    Why::Shortness,
];

/// A network, a depth and a rule with faults. `sound` is what the network was.
pub struct Faulty<'a> {
    pub sound: &'a Rows,
    pub rows: Rows,
    pub depth: u16,
    pub rule: u16,
}

impl<'a> Faulty<'a> {
    pub fn new(sound: &'a Rows, depth: u16) -> Faulty<'a> {
        Faulty {
            sound,
            rows: sound.clone(),
            depth,
            rule: LOWEST_NUMBER,
        }
    }

    /// Puts the faults in. A later refusal's fault goes in first, so that an
    /// earlier one's may cover it.
    pub fn with(mut self, rng: &mut Rng, faults: &[Why]) -> Faulty<'a> {
        let mut order = faults.to_vec();
        let place = |why: &Why| NETWORK_FAULTS.iter().position(|other| other == why);
        order.sort_by_key(|why| std::cmp::Reverse(place(why)));
        for why in order {
            self.put(rng, why);
        }
        self
    }

    fn put(&mut self, rng: &mut Rng, why: Why) {
        match why {
            Why::NodeCount => self.spoil_node_count(rng),
            Why::LinkCount => self.spoil_link_count(),
            Why::Root => self.rows.root = self.no_node(rng),
            Why::Depth => {
                let wrong = [DEEPEST + 1, DEEPEST + 2, 40_000, WHOLE - 1];
                self.depth = rng.pick(&wrong);
            }
            Why::Rule => self.rule = rng.pick(&[2, 3, 256, 257, 65_535]),
            Why::Ends => self.spoil_ends(rng),
            Why::Mark => self.set_field(rng, MARK_AT, &[2, 3, 256, 257, 65_535]),
            Why::ParentLink => self.spoil_parent(rng),
            Why::NoRoute => self.close_cycle(rng),
            Why::Shortness => self.break_shortness(rng),
            _ => {}
        }
    }

    fn no_node(&self, rng: &mut Rng) -> u16 {
        let n = self.rows.parents.len() as u16;
        rng.pick(&[n, n + 1, MOST_NODES as u16 + 88, NO_NODE])
    }

    fn spoil_node_count(&mut self, rng: &mut Rng) {
        let count = rng.pick(&[0, MOST_NODES + 1, MOST_NODES + 1, PROBE_PARENTS]);
        let filler = rng.pick(&[0, 1, NO_LINK]);
        self.rows.parents.resize(count, filler);
    }

    fn spoil_link_count(&mut self) {
        let last = self.rows.links.len() - LINK_WIDTH;
        let record = self.rows.links[last..].to_vec();
        while self.rows.links.len() <= LINK_WIDTH * MOST_LINKS {
            self.rows.links.extend(&record);
        }
    }

    fn spoil_ends(&mut self, rng: &mut Rng) {
        if rng.chance(50) {
            let node = self.no_node(rng);
            let end = rng.below(2);
            self.set_field(rng, end, &[node]);
        } else {
            let e = rng.below(self.rows.links.len() / LINK_WIDTH);
            self.rows.links[LINK_WIDTH * e + 1] = self.rows.links[LINK_WIDTH * e];
        }
    }

    /// Sets one number of a random link to one of the values.
    fn set_field(&mut self, rng: &mut Rng, at: usize, values: &[u16]) {
        let e = rng.below(self.rows.links.len() / LINK_WIDTH);
        self.rows.links[LINK_WIDTH * e + at] = rng.pick(values);
    }

    fn spoil_parent(&mut self, rng: &mut Rng) {
        let net = self.sound.lend();
        let x = rng.below(net.n());
        let m = net.m() as u16;
        let strange: Vec<u16> = (0..m)
            .filter(|&e| !net.link(e as usize).touches(x))
            .collect();
        self.rows.parents[x] = match rng.below(4) {
            _ if net.is_root(x) => rng.pick(&[0, m - 1, m, NO_LINK - 1]),
            0 => rng.pick(&[m, m + 1, NO_LINK, NO_LINK - 1]),
            1 if !strange.is_empty() => rng.pick(&strange),
            _ => {
                let e = self.rows.parents[x] as usize;
                self.withdraw(e);
                e as u16
            }
        };
    }

    fn withdraw(&mut self, e: usize) {
        if let Some(mark) = self.rows.links.get_mut(LINK_WIDTH * e + MARK_AT) {
            *mark = WITHDRAWN;
        }
    }

    /// Two nodes below the root name one link between them.
    fn close_cycle(&mut self, rng: &mut Rng) {
        let net = self.sound.lend();
        let closes =
            |e: &usize| net.link(*e).in_service() && !net.link(*e).touches(net.root as usize);
        let links: Vec<usize> = (0..net.m()).filter(closes).collect();
        if links.is_empty() {
            return;
        }
        let e = rng.pick(&links);
        for end in net.link(e).ends {
            self.rows.parents[end as usize] = e as u16;
        }
    }

    /// A link outside the tree too short by one, or a tree link so long that
    /// another breaks.
    fn break_shortness(&mut self, rng: &mut Rng) {
        let net = self.sound.lend();
        let tree = Tree::of(&net).expect("the network was sound");
        let in_tree = |e: usize| net.parents.contains(&(e as u16));
        let short = |e: usize| net.link(e).in_service() && least_length(&net, &tree, e) > 0;
        let (inner, outer): (Vec<usize>, Vec<usize>) = (0..net.m())
            .filter(|&e| in_tree(e) || short(e))
            .partition(|&e| in_tree(e));
        if !outer.is_empty() && rng.chance(80) {
            let e = rng.pick(&outer);
            let length = least_length(&net, &tree, e) as u16 - 1;
            self.rows.links[LINK_WIDTH * e + LENGTH_AT] = length;
        } else if !inner.is_empty() {
            self.rows.links[LINK_WIDTH * rng.pick(&inner) + LENGTH_AT] = LONGEST;
        }
    }
}

/// The least length with which link e keeps shortness.
pub fn least_length(net: &Network, tree: &Tree, e: usize) -> u64 {
    let [a, b] = net.link(e).ends.map(|end| tree.distance[end as usize]);
    a.abs_diff(b)
}

//! Random networks, depths and rooms.

use crate::limits::*;
use crate::network::Rows;
use crate::rng::Rng;
use crate::shapes::Draft;
use crate::ties;

/// Mostly few nodes, at times some dozens, seldom up to the limit.
fn size(rng: &mut Rng) -> usize {
    match rng.below(100) {
        0..=79 => rng.from_to(1, 12),
        80..=96 => rng.from_to(13, 70),
        _ => rng.from_to(71, MOST_NODES),
    }
}

fn shape(rng: &mut Rng, n: usize) -> Draft {
    match rng.below(9) {
        0 => Draft::path(n, 1),
        1 => Draft::star(n, 1),
        2 => Draft::caterpillar((n / 3).max(1), 2.min(n - 1), 1),
        3 => Draft::grid((n / 4).max(1), 4.min(n), 1),
        4 if n > 1 => Draft::ring(n, 1),
        5 => Draft::complete(n.min(20), 1),
        _ => Draft::sprawl(rng, n),
    }
}

/// A way to choose lengths: short ones tie, long ones come near the limit.
fn lengths(rng: &mut Rng, draft: Draft) -> Draft {
    let most = rng.pick(&[0, 0, 1, 1, 2, 3, 5, 9, 40, 1_000, LONGEST]);
    match rng.below(10) {
        0 => draft.with_lengths(|_| LONGEST),
        1 => draft.with_lengths(|_| most),
        _ => draft.with_lengths(|_| rng.from_to(0, most as usize) as u16),
    }
}

/// A path, and links from its beginning to some nodes, all about as long as the
/// whole path: the measures often take different links.
fn fan(rng: &mut Rng, n: usize) -> Draft {
    let most = rng.pick(&[1, 3, 9, 40]);
    let mut draft = Draft::path(n, 0).with_lengths(|_| rng.from_to(0, most) as u16);
    let far: u16 = draft.links.iter().map(|link| link.length).sum();
    for _ in 0..rng.from_to(2, 6) {
        let z = rng.from_to(1, n - 1);
        draft.add(0, z, far + rng.below(2) as u16, IN_SERVICE);
    }
    draft
}

/// A draft of n nodes with a shape, more links, parallels and lengths, mostly
/// with links recorded from either end.
pub fn draft(rng: &mut Rng, n: usize) -> Draft {
    if n > 3 && rng.chance(15) {
        return fan(rng, n).turned(rng).shuffled(rng);
    }
    let mut draft = shape(rng, n);
    let more = rng.pick(&[0, 0, 1, 2, n / 4, n, 2 * n]);
    draft = draft.with_more(rng, more);
    let parallels = rng.pick(&[0, 0, 0, 1, 2, n / 2]);
    draft = draft.with_parallels(rng, parallels);
    draft = lengths(rng, draft);
    let withdrawn = rng.pick(&[0, 0, 1, 3]);
    draft = draft.with_withdrawn(rng, withdrawn);
    draft.links.truncate(MOST_LINKS);
    if rng.chance(60) {
        draft = draft.turned(rng);
    }
    if rng.chance(70) {
        draft = draft.shuffled(rng);
    }
    if rng.chance(30) {
        draft.root = rng.below(draft.n);
    }
    draft
}

/// An accepted network of any size, at times one on which many candidates tie.
pub fn network(rng: &mut Rng) -> Rows {
    if rng.chance(20) {
        return ties::network(rng);
    }
    let n = size(rng);
    draft(rng, n).with_tree(rng)
}

/// An accepted network that every fault can be put into: at least four
/// nodes, more links than a tree has, and two nodes below the root joined.
pub fn rich_network(rng: &mut Rng) -> Rows {
    let n = rng.from_to(4, 9);
    let mut draft = Draft::sprawl(rng, n).with_more(rng, n);
    draft = draft.join(1, 2, 1).join(2, 3, 1).join(0, 3, 1);
    draft = draft.with_lengths(|_| rng.from_to(2, 9) as u16);
    draft = draft.with_withdrawn(rng, 2).turned(rng).shuffled(rng);
    draft.with_tree(rng)
}

/// Rows that need not be a network: a link for each node, which mostly joins
/// it to a lower one; parents, ends and the root at times any number.
pub fn wild_rows(rng: &mut Rng) -> Rows {
    let n = rng.from_to(1, 9);
    let (mut parents, mut links) = (Vec::new(), Vec::new());
    for x in 0..n {
        let other = match rng.below(10) {
            0..=6 => rng.below(x.max(1)) as u16,
            7 | 8 => rng.below(n + 2) as u16,
            _ => NO_NODE,
        };
        let mut ends = [x as u16, other];
        if rng.chance(50) {
            ends.reverse();
        }
        links.extend([ends[0], ends[1], rng.word(), rng.pick(&[1, 1, 0, 2])]);
        parents.push(match rng.below(10) {
            0..=6 => x as u16,
            7 | 8 => rng.below(n + 2) as u16,
            _ => NO_LINK,
        });
    }
    let root = rng.pick(&[0, 0, 0, 0, 1, n as u16 - 1, n as u16, NO_NODE]);
    links.truncate(links.len() - rng.pick(&[0, 0, 0, 1, 4]));
    Rows {
        parents,
        links,
        root,
    }
}

/// Rows of many nodes that need not be a network: each node names its own link,
/// which leads to one of the four below it, and that of node 0 to the root, which
/// may be no node; at times one node names another link.
pub fn long_rows(rng: &mut Rng) -> Rows {
    let n = rng.from_to(100, MOST_NODES);
    let root = rng.pick(&[0, n as u16, NO_NODE]);
    let mut parents: Vec<u16> = (0..n as u16).collect();
    let mut links = Vec::new();
    for x in 0..n {
        let other = match x {
            0 => root,
            _ => (x - 1 - rng.below(x.min(4))) as u16,
        };
        let mut ends = [x as u16, other];
        if rng.chance(50) {
            ends.reverse();
        }
        links.extend([ends[0], ends[1], rng.word(), rng.pick(&[1, 1, 0, 2])]);
    }
    if rng.chance(30) {
        let (x, e) = (rng.below(n), rng.below(n) as u16);
        parents[x] = rng.pick(&[NO_LINK, e]);
    }
    Rows {
        parents,
        links,
        root,
    }
}

/// A depth: the whole search, a small one, the largest, at times a wrong one.
pub fn depth(rng: &mut Rng) -> u16 {
    match rng.below(20) {
        0..=8 => WHOLE,
        9..=16 => rng.pick(&[0, 1, 1, 2, 3, 5]),
        17 => DEEPEST,
        18 => rng.from_to(0, DEEPEST as usize) as u16,
        _ => rng.pick(&[DEEPEST, WHOLE, DEEPEST + 1, WHOLE - 1]),
    }
}

/// A tie rule: mostly one of the two, seldom a wrong one.
pub fn rule(rng: &mut Rng) -> u16 {
    match rng.below(40) {
        0..=17 => LOWEST_NUMBER,
        18..=37 => NEARER_FIRST,
        38 => rng.pick(&[2, 3, 256, 257, 65_535]),
        _ => rng.word(),
    }
}

/// Room around what is needed: exact, larger, at times too short.
pub fn room(rng: &mut Rng, need: usize) -> usize {
    match rng.below(10) {
        0..=4 => need,
        5..=7 => need + rng.pick(&[1, 3, 7, 9, 10, 20]),
        8 => need + rng.below(300),
        _ => need.saturating_sub(rng.pick(&[1, 1, 7, 10, need * 3 / 10])),
    }
}

//! Series of changes of one network.

use super::changes::{change_of, some_change, Words};
use crate::change::{set, verdict, Change};
use crate::check::check;
use crate::limits::*;
use crate::network::Rows;
use crate::random;
use crate::rng::Rng;
use crate::series::Series;
use crate::terms::Terms;
use crate::ties;

/// Links outside the tree that a series changes again and again.
const FAVOURED: usize = 6;

/// A random network of a size that the seed chooses, with withdrawn links to
/// set in service. Each eighth seed fills the limits of the links, and those
/// of the nodes as far as the shape allows; another gives a network on which many
/// candidates tie.
fn network(rng: &mut Rng, seed: u64) -> Rows {
    let n = match seed % 8 {
        0 => MOST_NODES,
        1 => rng.from_to(71, 300),
        2 | 3 => rng.from_to(13, 70),
        4 => return ties::network(rng),
        _ => rng.from_to(2, 12),
    };
    let draft = random::draft(rng, n);
    let left = MOST_LINKS - draft.links.len();
    let spare = if n == MOST_NODES {
        left
    } else {
        rng.from_to(1, n)
    };
    let draft = draft.with_withdrawn(rng, spare).shuffled(rng);
    draft.with_tree(rng)
}

/// Some links outside the tree.
fn favoured(rng: &mut Rng, rows: &Rows) -> Vec<u16> {
    let m = rows.lend().m() as u16;
    let mut spare: Vec<u16> = (0..m).filter(|e| !rows.parents.contains(e)).collect();
    rng.shuffle(&mut spare);
    spare.truncate(FAVOURED);
    spare
}

/// The next change: refused ones of every kind, and of the others half on the
/// favoured links. At times what stands is set.
fn next(rng: &mut Rng, rows: &Rows, favoured: &[u16]) -> Words {
    let kind = rng.below(12);
    if kind < 3 || favoured.is_empty() || rng.chance(40) {
        return some_change(rng, rows, kind);
    }
    let e = rng.pick(favoured);
    if rng.chance(10) {
        let link = rows.lend().link(e as usize);
        return [e, link.mark, link.length];
    }
    change_of(rng, rows, e, kind)
}

/// A random network and `count` changes, each made for the network that the
/// changes before it left. The same arguments give the same series.
pub fn series(seed: u64, count: usize) -> Series {
    let mut rng = Rng::new(seed);
    let first = network(&mut rng, seed);
    let depth = rng.pick(&[WHOLE, WHOLE, WHOLE, 0, 1, 2, 5, DEEPEST]);
    let terms = Terms {
        depth,
        rule: rng.pick(&[LOWEST_NUMBER, NEARER_FIRST]),
    };
    let tree = check(&first.lend(), terms).expect("the network is sound");
    let favoured = favoured(&mut rng, &first);
    let (mut rows, mut changes) = (first.clone(), Vec::new());
    for _ in 0..count {
        let [link, mark, length] = next(&mut rng, &rows, &favoured);
        let change = Change { link, mark, length };
        if verdict(&rows, &tree, &change).is_ok() {
            set(&mut rows, &change);
        }
        changes.push(change);
    }
    Series {
        rows: first,
        terms,
        changes,
    }
}

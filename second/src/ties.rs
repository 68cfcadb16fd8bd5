//! Networks on which many candidates tie: some with a name, worked out by hand,
//! and a family at random on which the two tie rules often choose apart.

use crate::ends::served;
use crate::limits::*;
use crate::named::Named;
use crate::network::Rows;
use crate::quay::quay;
use crate::rng::Rng;
use crate::shapes::Draft;
use crate::tree::Tree;

/// Quay with a link parallel to link 5, as long and recorded from the other end.
/// For node 1 links 5 and 7 tie in cost and incr.
pub fn doubled_quay() -> Rows {
    let mut rows = quay();
    rows.links.extend([4, 1, 1, IN_SERVICE]);
    rows
}

/// Quay with link 5 at length 2: for node 1 nothing ties, and the least incr is
/// not that of the link with the least sum and max.
pub fn untied_quay() -> Rows {
    let mut rows = quay();
    rows.links[LINK_WIDTH * 5 + LENGTH_AT] = 2;
    rows
}

/// A path of five with lengths 1, 3, 3, 2, and links from its beginning to the
/// others. For node 1 links 5 and 6 tie under sum, and 6 and 7 under max; incr
/// falls from 5 to 6 to 7, and is least for 4.
pub fn parting() -> Rows {
    let path = [[0, 1, 1], [1, 2, 3], [2, 3, 3], [3, 4, 2]];
    let far = [[0, 1, 9], [0, 4, 9], [0, 3, 10], [0, 2, 11]];
    served(&[0, 1, 2, 3], &[path, far].concat())
}

/// Two paths of five from the root, each step 1, and links of length 0 between
/// nodes that are as far from it, numbered from the far end. Under max two of
/// them tie for the nodes at 1, and two for those at 2.
pub fn ladder() -> Rows {
    let steps = [
        [0, 1],
        [1, 2],
        [2, 3],
        [3, 4],
        [0, 5],
        [5, 6],
        [6, 7],
        [7, 8],
    ];
    let rungs = [[4, 8], [3, 7], [2, 6], [1, 5]];
    let long = steps.iter().map(|&[a, b]| [a, b, 1]);
    let links = long.chain(rungs.iter().map(|&[a, b]| [a, b, 0]));
    served(&[0, 1, 2, 3, 4, 5, 6, 7], &links.collect::<Vec<_>>())
}

/// All of these networks.
pub fn tied() -> Vec<Named> {
    let list = [
        ("quay", quay()),
        ("quay-doubled", doubled_quay()),
        ("quay-untied", untied_quay()),
        ("parting", parting()),
        ("ladder", ladder()),
    ];
    list.map(|(label, rows)| Named { label, rows }).into()
}

/// A kind of network of the family.
#[derive(Clone, Copy, PartialEq, Eq, Debug)]
pub enum Kind {
    /// A grid whose links are all 1 long, with any tree.
    Even,
    /// A grid whose rows hang at their first nodes: the links between the others
    /// are longer.
    Combed,
    /// The same with lengths of 0 in the first column and in the rows.
    Flat,
    /// A path with lengths of 1, or of 0 and 1, and links from its beginning to
    /// every node, all of one length.
    Fanned,
}

/// All kinds.
pub const KINDS: [Kind; 4] = [Kind::Even, Kind::Combed, Kind::Flat, Kind::Fanned];

/// A network of the family, of any kind.
pub fn network(rng: &mut Rng) -> Rows {
    let kind = rng.pick(&KINDS);
    of_kind(rng, kind)
}

/// A network of a kind, mostly with the links that lie far from the root before
/// the others, at times numbered at random.
pub fn of_kind(rng: &mut Rng, kind: Kind) -> Rows {
    let draft = draft(rng, kind);
    let draft = match rng.below(5) {
        0 => draft.shuffled(rng),
        _ => far_first(rng, draft).renamed(rng),
    };
    draft.turned(rng).with_tree(rng)
}

fn draft(rng: &mut Rng, kind: Kind) -> Draft {
    let columns = rng.from_to(6, 12);
    match kind {
        Kind::Even => Draft::grid(rng.from_to(6, 8), columns, 1),
        Kind::Combed => combed(rng.from_to(2, 4), columns, 1, |_| 1),
        Kind::Flat => {
            let steps: Vec<u16> = (0..columns).map(|_| rng.below(3) as u16).collect();
            combed(rng.from_to(2, 4), columns, 0, |column| steps[column])
        }
        Kind::Fanned => {
            let n = rng.from_to(8, 40);
            let least = rng.below(2);
            let path = Draft::path(n, 0).with_lengths(|_| rng.from_to(least, 1) as u16);
            (1..n).fold(path, |draft, z| draft.join(0, z, n as u16))
        }
    }
}

/// A grid with `down` for the length of the links in its first column, and in
/// its rows a length for each column. The other links are longer than `down` by
/// one, so that no tree has them.
fn combed(rows: usize, columns: usize, down: u16, step: impl Fn(usize) -> u16) -> Draft {
    let draft = Draft::grid(rows, columns, 0);
    let ends: Vec<[u16; 2]> = draft.links.iter().map(|link| link.ends).collect();
    draft.with_lengths(|e| {
        let [a, b] = ends[e].map(usize::from);
        match (b - a == columns, a % columns) {
            (true, 0) => down,
            (true, _) => down + 1,
            (false, column) => step(column),
        }
    })
}

/// The same with links numbered by how far their two ends are from the root, the
/// farthest first.
fn far_first(rng: &mut Rng, mut draft: Draft) -> Draft {
    let rows = draft.with_tree(rng);
    let tree = Tree::of(&rows.lend()).expect("every node is reachable");
    let far = |end: &u16| tree.distance[usize::from(*end)];
    let key = |ends: &[u16; 2]| ends.iter().map(far).sum::<u64>();
    draft
        .links
        .sort_by_key(|link| std::cmp::Reverse(key(&link.ends)));
    draft
}

//! Networks with a name: the shapes and limits that every run goes through.

use crate::ends::recorded;
use crate::harbour::harbour;
use crate::limits::*;
use crate::network::Rows;
use crate::rng::Rng;
use crate::shapes::Draft;
use crate::ties::tied;

/// A network with a short label.
pub struct Named {
    pub label: &'static str,
    pub rows: Rows,
}

/// Names drafts after giving them trees. The seed is fixed.
fn with_trees(drafts: Vec<(&'static str, Draft)>) -> Vec<Named> {
    let mut rng = Rng::new(2);
    let finish = |(label, draft): (&'static str, Draft)| Named {
        label,
        rows: draft.with_tree(&mut rng),
    };
    drafts.into_iter().map(finish).collect()
}

/// A path of four with two far links. Under sum the best for node 2 is link 3,
/// and the best for node 1 above it is link 4.
pub fn spur() -> Rows {
    let draft = Draft::path(4, 0).join(0, 3, 0).join(0, 2, 0);
    let lengths = [20, 1, 10, 33, 34];
    draft
        .with_lengths(|e| lengths[e])
        .with_tree(&mut Rng::new(0))
}

/// A path of four with two far links. Under sum the best for node 1 is link 4;
/// by weights that leave out the node count it would be link 3.
pub fn weighed() -> Rows {
    let links = [[0, 1, 9], [1, 2, 1], [2, 3, 9], [0, 3, 19], [0, 2, 20]];
    let served = |[a, b, w]: [u16; 3]| [a, b, w, IN_SERVICE];
    Rows {
        parents: vec![NO_LINK, 0, 1, 2],
        links: links.map(served).concat(),
        root: 0,
    }
}

/// Harbour with link 5 at length 2: the best of node 2 does not cross node 1.
pub fn nearer() -> Rows {
    let mut rows = harbour();
    rows.links[4 * 5 + 2] = 2;
    rows
}

/// The networks on which SCOPE's wrong readings give another table.
fn telling() -> Vec<Named> {
    let longer = Draft::path(2, 5).join(1, 0, 7);
    let list = [
        ("harbour", harbour()),
        ("spur", spur()),
        ("weighed", weighed()),
        ("nearer", nearer()),
        ("one-longer", longer.with_tree(&mut Rng::new(0))),
    ];
    list.map(|(label, rows)| Named { label, rows }).into()
}

/// The telling ones, one node, two nodes.
fn tiny() -> Vec<Named> {
    let partial = Rows {
        parents: vec![NO_LINK],
        links: vec![0, 0, 9],
        root: 0,
    };
    let mut list = telling();
    list.push(Named {
        label: "partial-record",
        rows: partial,
    });
    list.extend(with_trees(vec![
        ("one-node", Draft::nodes(1)),
        ("two-nodes", Draft::path(2, LONGEST)),
        ("two-parallel", Draft::path(2, 5).join(1, 0, 5)),
        ("two-unlike", Draft::path(2, 5).join(0, 1, 7).join(0, 1, 7)),
        ("two-root-1", Draft::path(2, 0).join(0, 1, 0).rooted(1)),
    ]));
    list
}

/// Small networks of every shape, those with links recorded from either end, and
/// those with ties.
pub fn small() -> Vec<Named> {
    let mut rng = Rng::new(1);
    let doubled = Draft::path(5, 4).with_parallels(&mut rng, 6);
    let withdrawn = Draft::ring(6, 2).with_withdrawn(&mut rng, 5);
    let mut far = Draft::path(4, LONGEST);
    far.add(3, 0, 9, WITHDRAWN);
    let mut high = Draft::ring(100, 1);
    high.n += 1;
    let lifted = Draft::grid(3, 4, 2).shuffled(&mut rng);
    let mut list = tiny();
    list.extend(with_trees(vec![
        ("path", Draft::path(6, 3)),
        ("path-far-link", Draft::path(6, 3).join(5, 0, 15)),
        ("star", Draft::star(7, 4)),
        ("star-joined", Draft::star(7, 4).with_more(&mut rng, 5)),
        ("caterpillar", Draft::caterpillar(4, 2, 1).join(11, 0, 9)),
        ("grid-of-ties", Draft::grid(4, 5, 1)),
        ("grid-shuffled", lifted),
        ("ring-odd", Draft::ring(7, 1)),
        ("ring-even", Draft::ring(8, 1)),
        ("ring-root-3", Draft::ring(5, 6).rooted(3)),
        ("zero-grid", Draft::grid(3, 4, 0)),
        ("zero-complete", Draft::complete(5, 0)),
        ("longest-complete", Draft::complete(6, LONGEST)),
        ("longest-ring", Draft::ring(9, LONGEST)),
        ("parallel-tree-links", doubled),
        ("withdrawn-links", withdrawn),
        ("withdrawn-and-far", far),
        ("map-words", Draft::star(130, 1)),
        ("map-second-word", high.join(50, 100, 1)),
    ]));
    list.extend(recorded());
    list.extend(tied());
    list
}

/// Networks at the limits.
pub fn large() -> Vec<Named> {
    let mut rng = Rng::new(3);
    let n = MOST_NODES;
    let long = Draft::path(n, LONGEST);
    let doubled = long.clone().links;
    let mut twice = long.clone();
    twice.links.extend(doubled);
    let most = Draft::sprawl(&mut rng, n).with_more(&mut rng, MOST_LINKS - (n - 1));
    let most = most.with_lengths(|_| rng.word());
    let most = most.shuffled(&mut rng);
    let tied = Draft::path(n, 0).with_more(&mut rng, MOST_LINKS - (n - 1));
    let legs = Draft::caterpillar(n / 4, 3, 9);
    let legs = legs.with_more(&mut rng, 90).with_lengths(|_| 9);
    with_trees(vec![
        ("longest-path", twice),
        ("path-last-to-first", Draft::path(n, 1).join(0, n - 1, 511)),
        ("path-zero-most-links", tied.with_lengths(|_| 0)),
        ("most-nodes-most-links", most),
        ("large-grid", Draft::grid(16, 32, 1).rooted(n - 1)),
        ("large-ring", Draft::ring(n, 7)),
        ("large-star", Draft::star(n, LONGEST).rooted(0)),
        ("large-caterpillar", legs),
    ])
}

/// Networks over a limit, or with no node at all.
pub fn over() -> Vec<Named> {
    let two = |count: usize| {
        let links = vec![[0, 1, 4, IN_SERVICE]; count];
        Rows {
            parents: vec![NO_LINK, 0],
            links: links.concat(),
            root: 0,
        }
    };
    let mut both = two(MOST_LINKS + 1);
    both.parents.resize(MOST_NODES + 1, 0);
    let empty = Rows {
        parents: Vec::new(),
        links: Vec::new(),
        root: 0,
    };
    let mut list = with_trees(vec![
        ("nodes-513", Draft::path(MOST_NODES + 1, 1)),
        ("nodes-600", Draft::star(PROBE_PARENTS, 1)),
    ]);
    let rows = [
        ("no-node", empty),
        ("links-2048", two(MOST_LINKS)),
        ("links-2049", two(MOST_LINKS + 1)),
        ("links-2100", two(PROBE_LINKS / LINK_WIDTH)),
        ("nodes-513-links-2049", both),
    ];
    list.extend(rows.map(|(label, rows)| Named { label, rows }));
    list
}

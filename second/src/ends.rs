//! Networks with a name on which links are recorded from either end.

use crate::harbour::harbour;
use crate::limits::*;
use crate::named::Named;
use crate::network::Rows;

/// A network whose links are all in service, with root 0 and the parent links
/// of the other nodes.
pub fn served(parents: &[u16], links: &[[u16; 3]]) -> Rows {
    Rows {
        parents: [&[NO_LINK], parents].concat(),
        links: links
            .iter()
            .flat_map(|&[a, b, w]| [a, b, w, IN_SERVICE])
            .collect(),
        root: 0,
    }
}

/// The same network with every link recorded from its other end.
pub fn turned(mut rows: Rows) -> Rows {
    for link in rows.links.chunks_exact_mut(LINK_WIDTH) {
        link.swap(0, 1);
    }
    rows
}

/// The eight ways to mark the lower ends for sum, incr, max.
pub const WAYS: [(&str, [u16; MEASURES]); 8] = [
    ("ways-000", [0, 0, 0]),
    ("ways-001", [0, 0, 1]),
    ("ways-010", [0, 1, 0]),
    ("ways-011", [0, 1, 1]),
    ("ways-100", [1, 0, 0]),
    ("ways-101", [1, 0, 1]),
    ("ways-110", [1, 1, 0]),
    ("ways-111", [1, 1, 1]),
];

/// A path of six with lengths 1, 1, 1, 2, 5, and links of length 5 between
/// the root and nodes 1, 3 and 4. For node 1 link 6 is best by sum, 5 by incr
/// and 7 by max; each is recorded so that its lower end has the mark given.
pub fn ways([sum, incr, max]: [u16; MEASURES]) -> Rows {
    let far = |z: u16, mark: u16| match mark {
        FIRST_END => [z, 0, 5],
        _ => [0, z, 5],
    };
    let path = [[0, 1, 1], [1, 2, 1], [2, 3, 1], [3, 4, 2], [4, 5, 5]];
    let links = [&path[..], &[far(1, incr), far(3, sum), far(4, max)]];
    served(&[0, 1, 2, 3, 4], &links.concat())
}

/// A path of three, and two links of these lengths between its ends, the first
/// recorded from the root and the second to it.
pub fn opposite([to, from]: [u16; 2]) -> Rows {
    served(&[0, 1], &[[0, 1, 3], [1, 2, 4], [0, 2, to], [2, 0, from]])
}

/// Two nodes, and one spare link that is recorded from the root.
pub fn spare() -> Rows {
    served(&[0], &[[0, 1, 5], [0, 1, 7]])
}

/// Branches 0-1 and 0-2-3, and link 3 from 1 to 3. For node 1 the lower end is
/// the one that is nearer to the root.
pub fn branches() -> Rows {
    let links = [[0, 1, 1], [0, 2, 5], [2, 3, 5], [1, 3, 20]];
    served(&[0, 1, 2], &links)
}

/// All of these networks.
pub fn recorded() -> Vec<Named> {
    let ways = WAYS.map(|(label, marks)| (label, ways(marks)));
    let others = [
        ("harbour-turned", turned(harbour())),
        ("opposite-tie", opposite([9, 9])),
        ("opposite-tie-turned", turned(opposite([9, 9]))),
        ("opposite-shorter", opposite([9, 8])),
        ("spare", spare()),
        ("spare-turned", turned(spare())),
        ("branches", branches()),
        ("branches-turned", turned(branches())),
    ];
    let list = ways.into_iter().chain(others);
    list.map(|(label, rows)| Named { label, rows }).collect()
}

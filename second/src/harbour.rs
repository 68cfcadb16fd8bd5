//! The Harbour case, as the requirements give it.

use crate::limits::*;
use crate::network::Rows;

/// Five nodes, seven links, root 0.
pub fn harbour() -> Rows {
    let links = [
        [0, 1, 2],
        [1, 2, 3],
        [1, 3, 1],
        [0, 2, 6],
        [0, 3, 7],
        [2, 3, 4],
        [0, 4, 9],
    ];
    Rows {
        parents: vec![NO_LINK, 0, 1, 2, 6],
        links: links
            .iter()
            .flat_map(|&[a, b, w]| [a, b, w, IN_SERVICE])
            .collect(),
        root: 0,
    }
}

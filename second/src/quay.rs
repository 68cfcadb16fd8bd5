//! The Quay case: a small grid on which the two tie rules choose different links.

use crate::ends::served;
use crate::network::Rows;

/// Two rows of three nodes, neighbours joined, every link of length 1, root 0.
/// The links of the rows come first. Link 0 fails: nodes 1, 2 and 5 are cut off,
/// and links 3 and 5 cross, which both lead to node 4. Under sum and max they tie;
/// link 3 has the lower number, link 5 the lower incr.
pub fn quay() -> Rows {
    let rows = [[0, 1, 1], [1, 2, 1], [3, 4, 1], [4, 5, 1]];
    let columns = [[0, 3, 1], [1, 4, 1], [2, 5, 1]];
    served(&[0, 1, 4, 2, 6], &[&rows[..], &columns].concat())
}

//! What is asked of a search beside the network: the depth and the tie rule.

use crate::limits::*;

/// The depth and the tie rule, as a caller names them.
#[derive(Clone, Copy, PartialEq, Eq, Debug)]
pub struct Terms {
    pub depth: u16,
    pub rule: u16,
}

impl Terms {
    /// Of equals the lowest number.
    pub fn by_number(depth: u16) -> Terms {
        Terms {
            depth,
            rule: LOWEST_NUMBER,
        }
    }

    /// Of equals the lowest incr, and of those the lowest number.
    pub fn nearer_first(depth: u16) -> Terms {
        Terms {
            depth,
            rule: NEARER_FIRST,
        }
    }

    /// What a file of edition 1 means, which names a depth and no rule.
    pub fn filed(depth: u16) -> Terms {
        Terms::by_number(depth)
    }
}

//! The map of unprotected nodes, from network and terms.

use crate::check::check;
use crate::limits::*;
use crate::network::Network;
use crate::refusal::{refuse, Refusal, Why};
use crate::table::{entries, Entry};
use crate::terms::Terms;

/// The map's words, its number of ones and its lowest node.
#[derive(Clone, PartialEq, Eq, Debug)]
pub struct Map {
    pub words: [u64; MAP_WORDS],
    pub count: usize,
    pub lowest: u16,
}

/// The map that worked out entries give.
pub fn map_of(entries: &[Entry]) -> Map {
    let nodes = || (0..entries.len()).filter(|&x| entries[x].unprotected());
    let mut words = [0; MAP_WORDS];
    for x in nodes() {
        words[x / WORD_BITS] |= 1 << (x % WORD_BITS);
    }
    Map {
        words,
        count: nodes().count(),
        lowest: nodes().next().map_or(NO_NODE, |x| x as u16),
    }
}

/// The map, with its words written into the first eight of the row.
pub fn map(net: &Network, terms: Terms, row: &mut [u64]) -> Result<Map, Refusal> {
    let tree = check(net, terms)?;
    if row.len() < MAP_WORDS {
        return refuse(Why::Room, 0);
    }
    let map = map_of(&entries(net, &tree, terms));
    row[..MAP_WORDS].copy_from_slice(&map.words);
    Ok(map)
}

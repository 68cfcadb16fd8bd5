//! The stored form: which blocks a file has, and its writer.

use crate::block::{holds, seal};
use crate::check::check;
use crate::limits::*;
use crate::network::{Link, Network};
use crate::refusal::{refuse, Refusal, Why};
use crate::table::{entries, Entry};
use crate::terms::Terms;

/// A block of a file: kind, used count, and its first record.
#[derive(Clone, Copy, PartialEq, Eq, Debug)]
pub struct Slot {
    pub kind: u8,
    pub used: usize,
    pub first: usize,
}

/// The blocks of one kind: each but the last is full.
fn slots_of(kind: u8, records: usize) -> impl Iterator<Item = Slot> {
    let (most, _) = holds(u16::from(kind)).expect("one of the three kinds");
    (0..records).step_by(most).map(move |first| Slot {
        kind,
        used: most.min(records - first),
        first,
    })
}

/// The blocks of a file of n nodes and m links, in number order.
pub fn slots(n: usize, m: usize) -> Vec<Slot> {
    slots_of(KIND_HEADER, 1)
        .chain(slots_of(KIND_LINKS, m))
        .chain(slots_of(KIND_TABLE, n))
        .collect()
}

/// The bytes of a file of n nodes and m links.
pub fn file_length(n: usize, m: usize) -> usize {
    BLOCK * slots(n, m).len()
}

fn words(numbers: &[u16]) -> Vec<u8> {
    numbers.iter().flat_map(|w| w.to_be_bytes()).collect()
}

/// The 8 bytes of a stored link.
pub fn link_bytes(link: &Link) -> Vec<u8> {
    words(&link.numbers())
}

/// The 28 bytes of a stored entry.
pub fn entry_bytes(parent: u16, entry: &Entry) -> Vec<u8> {
    let mut bytes = words(&[parent]);
    bytes.extend([entry.state as u8, 0]);
    bytes.extend(words(&entry.links));
    bytes.extend([0, 0]);
    bytes.extend(entry.costs[0].to_be_bytes());
    bytes.extend((entry.costs[1] as u32).to_be_bytes());
    bytes.extend((entry.costs[2] as u32).to_be_bytes());
    bytes
}

/// The file that says these numbers, whether or not they are sound.
pub fn stored(net: &Network, depth: u16, entries: &[Entry]) -> Vec<u8> {
    let (n, m) = (net.n(), net.m());
    let mut file = Vec::new();
    for (number, slot) in slots(n, m).iter().enumerate() {
        let mut block = vec![slot.kind, EDITION];
        block.extend(words(&[number as u16, slot.used as u16, 0]));
        for i in slot.first..slot.first + slot.used {
            block.extend(match slot.kind {
                KIND_HEADER => words(&[n as u16, m as u16, net.root, depth]),
                KIND_LINKS => link_bytes(&net.link(i)),
                _ => entry_bytes(net.parents[i], &entries[i]),
            });
        }
        block.resize(BLOCK, 0);
        seal(&mut block);
        file.extend(block);
    }
    file
}

/// Writes the one file of network and depth, and answers its length. It takes no
/// tie rule: the table is that of rule 0.
pub fn write(net: &Network, depth: u16, room: &mut [u8]) -> Result<usize, Refusal> {
    let terms = Terms::filed(depth);
    let tree = check(net, terms)?;
    let length = file_length(net.n(), net.m());
    if room.len() < length {
        return refuse(Why::Room, 0);
    }
    let file = stored(net, depth, &entries(net, &tree, terms));
    room[..length].copy_from_slice(&file);
    Ok(length)
}

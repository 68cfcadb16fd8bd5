//! The reader of a stored file, in SCOPE's order for a file.

use crate::block::{payload, word_at};
use crate::check::{check_numbers, check_rows};
use crate::file::{entry_bytes, file_length, slots, Slot};
use crate::limits::*;
use crate::network::Rows;
use crate::refusal::{refuse, refuse_lowest, Refusal, Why};
use crate::table::{check_room, entries, store};
use crate::terms::Terms;

/// What a read file says besides its rows.
#[derive(Clone, Copy, PartialEq, Eq, Debug)]
pub struct Said {
    pub n: usize,
    pub m: usize,
    pub root: u16,
    pub depth: u16,
}

impl Said {
    /// The terms of the table that the file holds. Its edition names no rule.
    pub fn terms(&self) -> Terms {
        Terms::filed(self.depth)
    }
}

/// The payload of block k as the slot asks it.
fn block<'a>(file: &'a [u8], k: usize, slot: &Slot) -> Result<&'a [u8], Refusal> {
    let bytes = &file[BLOCK * k..BLOCK * (k + 1)];
    payload(bytes, u16::from(slot.kind), k as u16, slot.used as u16)
}

/// The header's numbers: 20, block 0, then 1 to 4.
fn header(file: &[u8]) -> Result<Said, Refusal> {
    if file.is_empty() || file.len() % BLOCK != 0 {
        return refuse(Why::FileLength, 0);
    }
    let slot = slots(0, 0)[0];
    let record = block(file, 0, &slot)?;
    let said = Said {
        n: word_at(record, 0) as usize,
        m: word_at(record, 2) as usize,
        root: word_at(record, 4),
        depth: word_at(record, 6),
    };
    check_numbers(said.n, said.m, said.root, said.depth)?;
    Ok(said)
}

/// The records of one kind, one after the other; the first bad block refuses.
fn records(file: &[u8], said: &Said) -> Result<(Vec<u8>, Vec<u8>), Refusal> {
    if file.len() != file_length(said.n, said.m) {
        return refuse(Why::FileLength, 0);
    }
    let (mut links, mut table) = (Vec::new(), Vec::new());
    for (k, slot) in slots(said.n, said.m).iter().enumerate() {
        let part = block(file, k, slot)?;
        match slot.kind {
            KIND_LINKS => links.extend(&part[..slot.used * LINK_BYTES]),
            KIND_TABLE => table.extend(&part[..slot.used * ENTRY_BYTES]),
            _ => {}
        }
    }
    Ok((links, table))
}

/// The network that the records hold.
fn network(links: &[u8], table: &[u8], root: u16) -> Rows {
    Rows {
        parents: table.chunks(ENTRY_BYTES).map(|r| word_at(r, 0)).collect(),
        links: links.chunks(2).map(|w| word_at(w, 0)).collect(),
        root,
    }
}

/// Fills the first m, n and n records of the lent rows, where the file is
/// accepted. A refusal writes nothing.
pub fn read(
    file: &[u8],
    links: &mut [u16],
    parents: &mut [u16],
    row: &mut [u64],
) -> Result<Said, Refusal> {
    let said = header(file)?;
    let (link_records, table_records) = records(file, &said)?;
    let rows = network(&link_records, &table_records, said.root);
    let net = rows.lend();
    let tree = check_rows(&net)?;
    check_room(said.n, row)?;
    if links.len() / LINK_WIDTH < said.m || parents.len() < said.n {
        return refuse(Why::Room, 0);
    }
    let right = entries(&net, &tree, said.terms());
    refuse_lowest(Why::StoredEntry, said.n, |x| {
        let stored = &table_records[ENTRY_BYTES * x..ENTRY_BYTES * (x + 1)];
        stored != entry_bytes(rows.parents[x], &right[x])
    })?;
    links[..rows.links.len()].copy_from_slice(&rows.links);
    parents[..said.n].copy_from_slice(&rows.parents);
    for (x, entry) in right.iter().enumerate() {
        store(row, x, entry);
    }
    Ok(said)
}

//! Faults put into stored files: one for each refusal of a file, with every
//! check corrected but the one that is to be wrong.

use crate::block::seal;
use crate::check::check;
use crate::faults::Faulty;
use crate::file::{slots, stored, Slot};
use crate::limits::*;
use crate::network::Rows;
use crate::refusal::Why;
use crate::rng::Rng;
use crate::table::{entries, Entry};
use crate::terms::Terms;

/// A fault of a file, in the order in which the faults are put in.
#[derive(Clone, Copy, PartialEq, Eq, PartialOrd, Ord, Debug)]
pub enum FileFault {
    /// 5 to 9: the stored network.
    Ends,
    Mark,
    ParentLink,
    NoRoute,
    Shortness,
    /// 24: state, link or cost of an entry.
    EntryState,
    EntryLink,
    EntryCost,
    /// 22: the bytes before the payload, and the filler.
    Kind,
    Edition,
    Number,
    Used,
    Filler,
    EntryZeros,
    EntryMarks,
    /// 1 to 4: the header's numbers.
    NodeCount,
    LinkCount,
    Root,
    Depth,
    /// n or m off by one: 20, 22, or the network.
    Miscount,
    /// 20: a block too many or too few.
    ExtraBlock,
    MissingBlock,
    /// 21: a check.
    Check,
    /// 20: not a multiple of a block.
    ExtraBytes,
    CutBytes,
    Empty,
    /// 10: one of the three rows.
    Room,
}

use FileFault as F;

/// All faults of a file.
pub const FILE_FAULTS: [F; 27] = [
    F::Ends,
    F::Mark,
    F::ParentLink,
    F::NoRoute,
    F::Shortness,
    F::EntryState,
    F::EntryLink,
    F::EntryCost,
    F::Kind,
    F::Edition,
    F::Number,
    F::Used,
    F::Filler,
    F::EntryZeros,
    F::EntryMarks,
    F::NodeCount,
    F::LinkCount,
    F::Root,
    F::Depth,
    F::Miscount,
    F::ExtraBlock,
    F::MissingBlock,
    F::Check,
    F::ExtraBytes,
    F::CutBytes,
    F::Empty,
    F::Room,
];

/// A stored file with the room lent for its links, parents and entries.
#[derive(Clone)]
pub struct Lent {
    pub bytes: Vec<u8>,
    pub rooms: [usize; 3],
    slots: Vec<Slot>,
    marks: Vec<u8>,
}

/// The marks of an entry's lower ends as bits 0 to 2, for sum, incr, max. No
/// file of edition 1 has them.
fn mark_bits(entry: &Entry) -> u8 {
    let [sum, incr, max] = entry.lower.map(|mark| mark as u8);
    sum | incr << 1 | max << 2
}

/// The refusal whose fault goes into the network before it is stored.
fn network_fault(fault: &F) -> Option<Why> {
    match fault {
        F::Ends => Some(Why::Ends),
        F::Mark => Some(Why::Mark),
        F::ParentLink => Some(Why::ParentLink),
        F::NoRoute => Some(Why::NoRoute),
        F::Shortness => Some(Why::Shortness),
        _ => None,
    }
}

/// The file of an accepted network with faults, and the rooms for it.
pub fn damaged(rng: &mut Rng, sound: &Rows, depth: u16, faults: &[F]) -> Lent {
    let net = sound.lend();
    let terms = Terms::filed(depth);
    let tree = check(&net, terms).expect("the network is sound");
    let table = entries(&net, &tree, terms);
    let whys: Vec<Why> = faults.iter().filter_map(network_fault).collect();
    let faulty = Faulty::new(sound, depth).with(rng, &whys);
    let (n, m) = (net.n(), net.m());
    let mut lent = Lent {
        bytes: stored(&faulty.rows.lend(), depth, &table),
        rooms: [LINK_WIDTH * m, n, ENTRY_WIDTH * n],
        slots: slots(n, m),
        marks: table.iter().map(mark_bits).collect(),
    };
    let mut order = faults.to_vec();
    order.sort();
    for fault in order {
        lent.put(rng, fault);
    }
    lent
}

/// The file of an accepted network, as the writer gives it.
pub fn sound_file(sound: &Rows, depth: u16) -> Lent {
    damaged(&mut Rng::new(0), sound, depth, &[])
}

impl Lent {
    fn put(&mut self, rng: &mut Rng, fault: F) {
        match fault {
            F::EntryState | F::EntryLink | F::EntryCost => self.spoil_entry(rng, fault),
            F::Kind | F::Edition | F::Number | F::Used => self.spoil_front(rng, fault),
            F::Filler => self.spoil_filler(rng),
            F::EntryZeros => self.spoil_entry(rng, fault),
            F::EntryMarks => self.spoil_marks(rng),
            F::NodeCount => self.set_header(0, rng.pick(&[0, MOST_NODES as u16 + 1, 65_535])),
            F::LinkCount => self.set_header(1, rng.pick(&[MOST_LINKS as u16 + 1, 65_535])),
            F::Root => self.set_header(2, rng.pick(&[600, NO_NODE])),
            F::Depth => self.set_header(3, rng.pick(&[DEEPEST + 1, WHOLE - 1])),
            F::Miscount => self.miscount(rng),
            F::ExtraBlock => self.bytes.extend_from_within(..BLOCK),
            F::MissingBlock => self.bytes.truncate(self.bytes.len() - BLOCK),
            F::Check => self.spoil_check(rng),
            F::ExtraBytes => self
                .bytes
                .resize(self.bytes.len() + rng.pick(&[1, 8, 511]), 0),
            F::CutBytes => self.bytes.truncate(self.bytes.len().saturating_sub(1)),
            F::Empty => self.bytes.clear(),
            F::Room => self.rooms[rng.below(3)] -= 1,
            _ => {}
        }
    }

    /// The blocks still there.
    fn blocks(&self) -> usize {
        self.bytes.len() / BLOCK
    }

    /// Changes one byte of a block and corrects the block's check.
    pub fn change_byte(&mut self, block: usize, at: usize, value: u8) {
        let part = &mut self.bytes[BLOCK * block..BLOCK * (block + 1)];
        part[at] = value;
        seal(part);
    }

    fn flip(&mut self, rng: &mut Rng, block: usize, at: usize) {
        let old = self.bytes[BLOCK * block + at];
        self.change_byte(block, at, old ^ (1 << rng.below(8)));
    }

    fn set_header(&mut self, number: usize, value: u16) {
        let [high, low] = value.to_be_bytes();
        self.change_byte(0, HEAD + 2 * number, high);
        self.change_byte(0, HEAD + 2 * number + 1, low);
    }

    fn miscount(&mut self, rng: &mut Rng) {
        let number = rng.below(2);
        let at = HEAD + 2 * number;
        let old = u16::from_be_bytes([self.bytes[at], self.bytes[at + 1]]);
        let new = rng.pick(&[old.wrapping_add(1), old.wrapping_sub(1)]);
        self.set_header(number, new);
    }

    fn spoil_front(&mut self, rng: &mut Rng, fault: F) {
        let block = rng.below(self.blocks());
        match fault {
            F::Kind => {
                let kind = rng.pick(&[KIND_HEADER, KIND_LINKS, KIND_TABLE, 0, 0x49]);
                self.change_byte(block, 0, kind);
            }
            F::Edition => self.change_byte(block, 1, rng.pick(&[0, 2, 255])),
            F::Number => {
                let at = rng.from_to(2, 3);
                self.flip(rng, block, at);
            }
            _ => {
                let at = rng.from_to(4, 5);
                self.flip(rng, block, at);
            }
        }
    }

    /// A byte of unused payload, in a block that has some.
    fn spoil_filler(&mut self, rng: &mut Rng) {
        let width = |slot: &Slot| match slot.kind {
            KIND_HEADER => HEADER_BYTES,
            KIND_LINKS => LINK_BYTES,
            _ => ENTRY_BYTES,
        };
        let unused = |k: usize| HEAD + self.slots[k].used * width(&self.slots[k]);
        let open: Vec<usize> = (0..self.blocks()).filter(|&k| unused(k) < BLOCK).collect();
        let block = rng.pick(&open);
        let from = unused(block);
        let inner = rng.from_to(from, BLOCK - 1);
        let at = rng.pick(&[from, BLOCK - 1, inner]);
        self.change_byte(block, at, rng.pick(&[1, 128, 255]));
    }

    /// A byte of a random entry: its state, its links, its costs, its zeros.
    fn spoil_entry(&mut self, rng: &mut Rng, fault: F) {
        let tables = |k: &usize| self.slots[*k].kind == KIND_TABLE;
        let blocks: Vec<usize> = (0..self.blocks()).filter(tables).collect();
        let block = rng.pick(&blocks);
        let entry = HEAD + ENTRY_BYTES * rng.below(self.slots[block].used);
        let at = match fault {
            F::EntryState => entry + 2,
            F::EntryLink => entry + rng.from_to(4, 9),
            F::EntryCost => entry + rng.from_to(12, ENTRY_BYTES - 1),
            _ => entry + rng.pick(&ENTRY_ZEROS),
        };
        self.flip(rng, block, at);
    }

    /// Puts a number where the marks of node x would stand: its entry's first
    /// zero.
    pub fn put_marks(&mut self, x: usize, value: u8) {
        let holds = |slot: &Slot| slot.kind == KIND_TABLE && x < slot.first + slot.used;
        let block = self.slots.iter().position(holds).expect("x is a node");
        let entry = HEAD + ENTRY_BYTES * (x - self.slots[block].first);
        self.change_byte(block, entry + ENTRY_ZEROS[0], value);
    }

    /// Puts the right marks of every node there.
    pub fn put_right_marks(&mut self) {
        for x in 0..self.marks.len() {
            self.put_marks(x, self.marks[x]);
        }
    }

    /// The right marks of all entries, or of one where they are not 0, or any
    /// marks but 0 in one.
    fn spoil_marks(&mut self, rng: &mut Rng) {
        let nodes = 0..self.marks.len();
        let marked: Vec<usize> = nodes.filter(|&x| self.marks[x] != 0).collect();
        match rng.below(3) {
            0 if !marked.is_empty() => self.put_right_marks(),
            1 if !marked.is_empty() => {
                let x = rng.pick(&marked);
                self.put_marks(x, self.marks[x]);
            }
            _ => {
                let x = rng.below(self.marks.len());
                self.put_marks(x, rng.from_to(1, 7) as u8);
            }
        }
    }

    fn spoil_check(&mut self, rng: &mut Rng) {
        if self.blocks() == 0 {
            return;
        }
        let at = BLOCK * rng.below(self.blocks()) + rng.from_to(6, 7);
        self.bytes[at] ^= 1 << rng.below(8);
    }
}

//! Cases of the probe: their form, and how an input is taken apart.

use crate::limits::*;
use crate::network::Rows;
use crate::terms::Terms;

/// The ops of the probe.
pub const CHECK: u16 = 1;
pub const TABLE: u16 = 2;
pub const MAP: u16 = 3;
pub const CHANGE: u16 = 4;
pub const CHANGE_UNFILLED: u16 = 5;
pub const WRITE: u16 = 6;
pub const READ: u16 = 7;
pub const PAYLOAD_OF: u16 = 8;
pub const FORWARD: u16 = 9;

/// The project's own ops, of docs/OPS.md.
pub const ROUTE: u16 = 101;
pub const DISTANCE: u16 = 102;
pub const MEET: u16 = 103;
pub const ENTRY: u16 = 104;
pub const NODE: u16 = 105;

/// Whether the op is in one of the probe's tables.
pub fn is_op(op: u16) -> bool {
    (CHECK..=FORWARD).contains(&op) || (ROUTE..=NODE).contains(&op)
}

/// Whether bytes follow the parents, not link numbers.
pub fn takes_bytes(op: u16) -> bool {
    op == READ || op == PAYLOAD_OF
}

/// The room of op 9, two words of the head: how long the ordinary row is that
/// is lent, and how long the detour row is.
pub fn two_rooms([ordinary, detour]: [usize; 2]) -> usize {
    ordinary << 16 | detour
}

/// The two rooms that a room of op 9 is.
pub fn rooms_of(room: usize) -> [usize; 2] {
    [room >> 16, room & 0xFFFF]
}

/// A case. Ops 7 and 8 use `bytes`, all others `links`.
#[derive(Clone, PartialEq, Eq, Debug, Default)]
pub struct Case {
    pub op: u16,
    pub parents: Vec<u16>,
    pub links: Vec<u16>,
    pub bytes: Vec<u8>,
    pub room: usize,
    pub root: u16,
    pub depth: u16,
    pub abc: [u16; 3],
    pub rule: u16,
}

impl Case {
    /// A case over a network, by rule 0.
    pub fn over(op: u16, rows: &Rows, depth: u16, room: usize) -> Case {
        Case {
            op,
            parents: rows.parents.clone(),
            links: rows.links.clone(),
            room,
            root: rows.root,
            depth,
            ..Case::default()
        }
    }

    /// A case over bytes.
    pub fn over_bytes(op: u16, bytes: &[u8], abc: [u16; 3]) -> Case {
        Case {
            op,
            bytes: bytes.to_vec(),
            abc,
            ..Case::default()
        }
    }

    /// The same case by another rule.
    pub fn by(mut self, rule: u16) -> Case {
        self.rule = rule;
        self
    }

    /// The terms of the case.
    pub fn terms(&self) -> Terms {
        Terms {
            depth: self.depth,
            rule: self.rule,
        }
    }

    /// The network of the case.
    pub fn rows(&self) -> Rows {
        Rows {
            parents: self.parents.clone(),
            links: self.links.clone(),
            root: self.root,
        }
    }

    /// The head of the case.
    pub fn head(&self) -> Head {
        let rest = self.links.len().max(self.bytes.len());
        Head {
            op: self.op,
            parents: self.parents.len(),
            rest,
            room: self.room,
            root: self.root,
            depth: self.depth,
            abc: self.abc,
            rule: self.rule,
        }
    }

    /// The case as the probe reads it.
    pub fn encode(&self) -> Vec<u8> {
        let rows = self.parents.iter().chain(&self.links);
        let mut out = self.head().encode();
        out.extend(rows.flat_map(|w| w.to_be_bytes()));
        out.extend(&self.bytes);
        out
    }
}

/// The twelve words before the rows of a case.
#[derive(Clone, Copy, PartialEq, Eq, Debug)]
pub struct Head {
    pub op: u16,
    pub parents: usize,
    pub rest: usize,
    pub room: usize,
    pub root: u16,
    pub depth: u16,
    pub abc: [u16; 3],
    pub rule: u16,
}

impl Head {
    pub fn encode(&self) -> Vec<u8> {
        let [a, b, c] = self.abc;
        let high = |number: usize| (number >> 16) as u16;
        let low = |number: usize| number as u16;
        let words = [
            self.op,
            low(self.parents),
            high(self.rest),
            low(self.rest),
            high(self.room),
            low(self.room),
            self.root,
            self.depth,
            a,
            b,
            c,
            self.rule,
        ];
        words.iter().flat_map(|w| w.to_be_bytes()).collect()
    }

    fn decode(words: &[u16]) -> Head {
        let long = |at: usize| (words[at] as usize) << 16 | words[at + 1] as usize;
        Head {
            op: words[0],
            parents: words[1] as usize,
            rest: long(2),
            room: long(4),
            root: words[6],
            depth: words[7],
            abc: [words[8], words[9], words[10]],
            rule: words[11],
        }
    }

    /// Whether a limit of the probe is passed.
    pub fn too_long(&self) -> bool {
        let most = if takes_bytes(self.op) {
            PROBE_BYTES
        } else {
            PROBE_LINKS
        };
        let [a, b, c] = self.abc.map(usize::from);
        let rows = a > PROBE_LINKS || b > PROBE_PARENTS || c > PROBE_ROOM;
        let room = match self.op {
            FORWARD => rooms_of(self.room).iter().any(|&room| room > PROBE_ROUTE),
            _ => self.room > PROBE_ROOM,
        };
        self.parents > PROBE_PARENTS || self.rest > most || room || (self.op == READ && rows)
    }
}

/// What comes next in an input.
#[derive(Clone, PartialEq, Eq, Debug)]
pub enum Next {
    Case(Case),
    /// An op that is not in the table.
    Unknown,
    /// A limit is passed.
    TooLong,
    /// The input ends here, or inside a case.
    End,
}

/// Takes the next case off the front of the input.
pub fn next(input: &mut &[u8]) -> Next {
    let words = match take_words(input, HEAD_WORDS) {
        Some(words) => words,
        None => return Next::End,
    };
    let head = Head::decode(&words);
    if !is_op(head.op) {
        return Next::Unknown;
    }
    if head.too_long() {
        return Next::TooLong;
    }
    match take_case(input, &head) {
        Some(case) => Next::Case(case),
        None => Next::End,
    }
}

fn take_case(input: &mut &[u8], head: &Head) -> Option<Case> {
    let parents = take_words(input, head.parents)?;
    let (mut links, mut bytes) = (Vec::new(), Vec::new());
    if takes_bytes(head.op) {
        bytes = take(input, head.rest)?.to_vec();
    } else {
        links = take_words(input, head.rest)?;
    }
    Some(Case {
        op: head.op,
        parents,
        links,
        bytes,
        room: head.room,
        root: head.root,
        depth: head.depth,
        abc: head.abc,
        rule: head.rule,
    })
}

fn take<'a>(input: &mut &'a [u8], count: usize) -> Option<&'a [u8]> {
    if input.len() < count {
        return None;
    }
    let (front, back) = input.split_at(count);
    *input = back;
    Some(front)
}

/// Takes so many words off the front of the input.
pub fn take_words(input: &mut &[u8], count: usize) -> Option<Vec<u16>> {
    let bytes = take(input, 2 * count)?;
    let word = |pair: &[u8]| u16::from_be_bytes([pair[0], pair[1]]);
    Some(bytes.chunks(2).map(word).collect())
}

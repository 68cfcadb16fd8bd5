//! Safe calls of the proved library: slices for its rows, a `Result` for its word. A slice is what the library asks of a
//! row: not null, aligned, and as long as it says; and a `&mut` one overlaps no other.
//!
//! The library is found by `-L`: `RUSTFLAGS="-L native=DIRECTORY" cargo build`, where `tools/built doeragyeol` says
//! that `libdoeragyeol.a` stands.

pub mod program;
pub mod raw;

/// The version of the interface that these calls are made for. What is linked refers to it by name, so a library of another
/// version does not link.
pub const VERSION: u32 = 6;

#[used]
static MADE_FOR: unsafe extern "C" fn() -> u32 = raw::doeragyeol_version_6;

/// The most nodes and links there are.
pub const NODES: usize = 512;
pub const LINKS: usize = 2048;

/// Numbers of a link's record and of an entry's.
pub const LINK_NUMBERS: usize = 4;
pub const ENTRY_NUMBERS: usize = 10;

/// Words of the unprotected map.
pub const MAP_WORDS: usize = 8;

/// Bytes of the longest file.
pub const FILE_BYTES: usize = 32256;

/// Numbers that each of the forwarder's two rows must have.
pub const ROUTE_ROW: usize = 2 * NODES - 2;

/// Bytes of stack that the library takes at most for a distance.
pub const DISTANCE_STACK: usize = 2048;

/// Which row of the forwarder applies.
pub const ORDINARY: u64 = 0;
pub const DETOUR: u64 = 1;

/// The depth that is the whole search, and no link and no node where one is named.
pub const WHOLE: u16 = 65535;
pub const NO_LINK: u16 = 65535;
pub const NO_NODE: u16 = 65535;

/// The service marks of a link.
pub const WITHDRAWN: u16 = 0;
pub const SERVED: u16 = 1;

/// The marks of a link's ends.
pub const FIRST_END: u64 = 0;
pub const SECOND_END: u64 = 1;

/// Where an entry's numbers stand in its record: the state, the swap link under sum, and the mark of its lower end. Those under
/// incr and max follow behind each of the two.
pub const ENTRY_STATE: usize = 0;
pub const ENTRY_SUM: usize = 1;
pub const ENTRY_SUM_LOWER: usize = 7;

/// The states of an entry.
pub const STATE_ROOT: u64 = 0;
pub const STATE_SWAP: u64 = 1;
pub const STATE_NONE: u64 = 2;
pub const STATE_BRIDGE: u64 = 3;

/// A refusal: its number and its place.
#[derive(Clone, Copy, PartialEq, Eq, Debug)]
pub struct Refusal {
    pub number: u32,
    pub place: u32,
}

impl std::fmt::Display for Refusal {
    fn fmt(&self, to: &mut std::fmt::Formatter) -> std::fmt::Result {
        write!(to, "refused {} {}", self.number, self.place)
    }
}

impl std::error::Error for Refusal {}

/// Which candidate is the swap link of those that cost least under a measure: the one with the lowest number; or the one with
/// the lowest incr cost, which raises the failed node's own distance least, and of those the one with the lowest number. The
/// value is the rule's number.
#[derive(Clone, Copy, PartialEq, Eq, Debug)]
pub enum Rule {
    LowestNumber = 0,
    NearerFirst = 1,
}

/// The numbers that a caller names beside the rows of a network.
#[derive(Clone, Copy, PartialEq, Eq, Debug)]
pub struct Search {
    pub root: u16,
    pub depth: u16,
    pub rule: Rule,
}

/// How large a network is.
#[derive(Clone, Copy, PartialEq, Eq, Debug)]
pub struct Sizes {
    pub nodes: usize,
    pub links: usize,
}

/// How many nodes are unprotected, and the lowest of them or `NO_NODE`.
#[derive(Clone, Copy, PartialEq, Eq, Debug)]
pub struct Unprotected {
    pub count: u32,
    pub lowest: u16,
}

/// A change of one link: its number, and the service mark and length that it gets.
#[derive(Clone, Copy, PartialEq, Eq, Debug)]
pub struct Change {
    pub link: u16,
    pub mark: u16,
    pub length: u16,
}

/// What is least: the sum of the new distances, the largest increase, or the largest new distance.
#[derive(Clone, Copy, PartialEq, Eq, Debug)]
pub enum Measure {
    Sum,
    Incr,
    Max,
}

/// A swap link as it is crossed: its number, its end that is cut off, and its other end.
#[derive(Clone, Copy, PartialEq, Eq, Debug)]
pub struct Crossing {
    pub link: u16,
    pub from: u16,
    pub to: u16,
}

/// What is asked of the forwarder: the way of a start while the tree link of the failed node is down, by the swap link that is
/// best under a measure.
#[derive(Clone, Copy, PartialEq, Eq, Debug)]
pub struct Failure {
    pub start: u16,
    pub failed: u16,
    pub measure: Measure,
}

/// The row that a way stands in: the ordinary one where the start is not cut off, else the detour's.
#[derive(Clone, Copy, PartialEq, Eq, Debug)]
pub enum Row {
    Ordinary,
    Detour,
}

/// A way to the root: its row, its nodes in the order of passing, and its length.
#[derive(Clone, Copy, PartialEq, Eq, Debug)]
pub struct Way<'a> {
    pub row: Row,
    pub nodes: &'a [u16],
    pub length: u64,
}

/// What a file's header says.
#[derive(Clone, Copy, PartialEq, Eq, Debug)]
pub struct Header {
    pub nodes: usize,
    pub links: usize,
    pub search: Search,
}

/// What a word says.
pub fn said(word: u32) -> Result<(), Refusal> {
    match word {
        0 => Ok(()),
        _ => Err(Refusal {
            number: word >> 16,
            place: word & 65535,
        }),
    }
}

/// Checks a network and its tree.
pub fn check(links: &[u16], parents: &[u16], search: Search) -> Result<Sizes, Refusal> {
    let mut sizes = [0; 2];
    said(unsafe {
        raw::doeragyeol_check(
            links.as_ptr(),
            links.len(),
            parents.as_ptr(),
            parents.len(),
            search.root,
            search.depth,
            search.rule as u16,
            sizes.as_mut_ptr(),
            sizes.len(),
        )
    })?;
    Ok(Sizes {
        nodes: sizes[0] as usize,
        links: sizes[1] as usize,
    })
}

/// The table of a network, at the beginning of `entries`.
pub fn table(
    links: &[u16],
    parents: &[u16],
    search: Search,
    entries: &mut [u64],
) -> Result<(), Refusal> {
    said(unsafe {
        raw::doeragyeol_table(
            links.as_ptr(),
            links.len(),
            parents.as_ptr(),
            parents.len(),
            search.root,
            search.depth,
            search.rule as u16,
            entries.as_mut_ptr(),
            entries.len(),
        )
    })
}

/// The unprotected map of a network, at the beginning of `words`.
pub fn map(
    links: &[u16],
    parents: &[u16],
    search: Search,
    words: &mut [u64],
) -> Result<Unprotected, Refusal> {
    let mut told = [0; 2];
    said(unsafe {
        raw::doeragyeol_map(
            links.as_ptr(),
            links.len(),
            parents.as_ptr(),
            parents.len(),
            search.root,
            search.depth,
            search.rule as u16,
            words.as_mut_ptr(),
            words.len(),
            told.as_mut_ptr(),
            told.len(),
        )
    })?;
    Ok(Unprotected {
        count: told[0] as u32,
        lowest: told[1] as u16,
    })
}

/// The change of one link. A table that was right by this depth and rule is right again.
pub fn change(
    links: &mut [u16],
    parents: &[u16],
    search: Search,
    entries: &mut [u64],
    change: Change,
) -> Result<(), Refusal> {
    said(unsafe {
        raw::doeragyeol_change(
            links.as_mut_ptr(),
            links.len(),
            parents.as_ptr(),
            parents.len(),
            search.root,
            search.depth,
            search.rule as u16,
            entries.as_mut_ptr(),
            entries.len(),
            change.link,
            change.mark,
            change.length,
        )
    })
}

/// The file of a network and depth, at the beginning of `file`, and its length. A file of edition 1 means `Rule::LowestNumber`,
/// so no rule is taken.
pub fn write(
    links: &[u16],
    parents: &[u16],
    root: u16,
    depth: u16,
    file: &mut [u8],
) -> Result<usize, Refusal> {
    let mut size = [0; 1];
    said(unsafe {
        raw::doeragyeol_write(
            links.as_ptr(),
            links.len(),
            parents.as_ptr(),
            parents.len(),
            root,
            depth,
            file.as_mut_ptr(),
            file.len(),
            size.as_mut_ptr(),
            size.len(),
        )
    })?;
    Ok(size[0] as usize)
}

/// What a file holds, at the beginning of the rows, and what its header says. A file of edition 1 means
/// `Rule::LowestNumber`.
pub fn read(
    file: &[u8],
    links: &mut [u16],
    parents: &mut [u16],
    entries: &mut [u64],
) -> Result<Header, Refusal> {
    let mut header = [0; 4];
    said(unsafe {
        raw::doeragyeol_read(
            file.as_ptr(),
            file.len(),
            links.as_mut_ptr(),
            links.len(),
            parents.as_mut_ptr(),
            parents.len(),
            entries.as_mut_ptr(),
            entries.len(),
            header.as_mut_ptr(),
            header.len(),
        )
    })?;
    Ok(Header {
        nodes: header[0] as usize,
        links: header[1] as usize,
        search: Search {
            root: header[2] as u16,
            depth: header[3] as u16,
            rule: Rule::LowestNumber,
        },
    })
}

/// The way from a start to the root while the tree link of a node is down. Each row has `ROUTE_ROW` numbers or more; the way
/// stands at the beginning of the row that applies, and the other stays as it is.
pub fn forward<'a>(
    links: &[u16],
    parents: &[u16],
    search: Search,
    failure: Failure,
    ordinary: &'a mut [u16],
    detour: &'a mut [u16],
) -> Result<Way<'a>, Refusal> {
    let ask = match failure.measure {
        Measure::Sum => raw::doeragyeol_forward_sum,
        Measure::Incr => raw::doeragyeol_forward_incr,
        Measure::Max => raw::doeragyeol_forward_max,
    };
    let mut way = [0; 3];
    said(unsafe {
        ask(
            links.as_ptr(),
            links.len(),
            parents.as_ptr(),
            parents.len(),
            search.root,
            search.depth,
            search.rule as u16,
            failure.start,
            failure.failed,
            ordinary.as_mut_ptr(),
            ordinary.len(),
            detour.as_mut_ptr(),
            detour.len(),
            way.as_mut_ptr(),
            way.len(),
        )
    })?;
    let [row, count, length] = way;
    let (row, nodes) = match row {
        ORDINARY => (Row::Ordinary, ordinary),
        _ => (Row::Detour, detour),
    };
    Ok(Way {
        row,
        nodes: &nodes[..count as usize],
        length,
    })
}

/// The length of the tree path between two nodes. It asks the tree alone: no depth, no rule, and no check of the network. The
/// library's part of the call takes at most `DISTANCE_STACK` bytes of stack.
pub fn distance(
    links: &[u16],
    parents: &[u16],
    root: u16,
    from: u16,
    to: u16,
) -> Result<u64, Refusal> {
    let mut distance = [0; 1];
    said(unsafe {
        raw::doeragyeol_distance(
            links.as_ptr(),
            links.len(),
            parents.as_ptr(),
            parents.len(),
            root,
            from,
            to,
            distance.as_mut_ptr(),
            distance.len(),
        )
    })?;
    Ok(distance[0])
}

/// How the swap link of an entry under a measure is crossed; `None` where the entry has none. `links` is the row of the entry's
/// network. Panics where `entry` is shorter than an entry, or `links` does not have the swap link.
pub fn crossing(entry: &[u64], measure: Measure, links: &[u16]) -> Option<Crossing> {
    if entry[ENTRY_STATE] != STATE_SWAP {
        return None;
    }
    let link = entry[ENTRY_SUM + measure as usize];
    let lower = entry[ENTRY_SUM_LOWER + measure as usize];
    let record = links
        .chunks_exact(LINK_NUMBERS)
        .nth(link as usize)
        .expect("the row has the entry's swap link");
    let (from, to) = match lower {
        FIRST_END => (record[0], record[1]),
        _ => (record[1], record[0]),
    };
    Some(Crossing {
        link: link as u16,
        from,
        to,
    })
}

//! The limits, marks and widths. No other file writes these numbers.

// Network.

/// The most nodes a network has.
pub const MOST_NODES: usize = 512;
/// The most links a network has.
pub const MOST_LINKS: usize = 2_048;
/// The largest bounded depth.
pub const DEEPEST: u16 = 510;
/// The depth of the whole search.
pub const WHOLE: u16 = 65_535;
/// The tie rule by which the lowest number decides.
pub const LOWEST_NUMBER: u16 = 0;
/// The tie rule by which the lower incr decides, then the lowest number.
pub const NEARER_FIRST: u16 = 1;
/// No link: the root's parent link, and the links of an entry without a swap.
pub const NO_LINK: u16 = 65_535;
/// No node: the map's lowest node where none is unprotected.
pub const NO_NODE: u16 = 65_535;
/// The largest length of a link.
pub const LONGEST: u16 = 65_535;
/// The service mark of a link in service.
pub const IN_SERVICE: u16 = 1;
/// The service mark of a withdrawn link.
pub const WITHDRAWN: u16 = 0;
/// The mark of a swap link whose first end is the lower one, and of no swap.
pub const FIRST_END: u16 = 0;
/// The mark of a swap link whose second end is the lower one.
pub const SECOND_END: u16 = 1;

// Records held as plain numbers.

/// Numbers in a link: two ends, length, service mark.
pub const LINK_WIDTH: usize = 4;
/// The place of the length in a link.
pub const LENGTH_AT: usize = 2;
/// The place of the service mark in a link.
pub const MARK_AT: usize = 3;
/// Numbers in an entry: state, three links, three costs, three lower ends.
pub const ENTRY_WIDTH: usize = 10;
/// The measures: sum, incr, max.
pub const MEASURES: usize = 3;
/// The place of incr among the measures.
pub const INCR: usize = 1;
/// Words of the map.
pub const MAP_WORDS: usize = 8;
/// Nodes in a word of the map.
pub const WORD_BITS: usize = 64;
/// Numbers in each of the two rows that are lent to the forwarder: twice the
/// nodes less two.
pub const ROUTE_ROW: usize = 2 * MOST_NODES - 2;

// Stored form.

/// Bytes in a block.
pub const BLOCK: usize = 512;
/// Bytes before the payload.
pub const HEAD: usize = 8;
/// Bytes of payload.
pub const PAYLOAD: usize = BLOCK - HEAD;
/// Byte 1 of a block.
pub const EDITION: u8 = 1;
/// Kind of the header block.
pub const KIND_HEADER: u8 = 0x48;
/// Kind of a link block.
pub const KIND_LINKS: u8 = 0x4C;
/// Kind of a table block.
pub const KIND_TABLE: u8 = 0x54;
/// Records in a full header block.
pub const HEADERS_A_BLOCK: usize = 1;
/// Records in a full link block.
pub const LINKS_A_BLOCK: usize = 63;
/// Records in a full table block.
pub const ENTRIES_A_BLOCK: usize = 18;
/// Bytes of the header's record.
pub const HEADER_BYTES: usize = 8;
/// Bytes of a stored link.
pub const LINK_BYTES: usize = 8;
/// Bytes of a stored entry.
pub const ENTRY_BYTES: usize = 28;
/// Bytes of a stored entry that are zero.
pub const ENTRY_ZEROS: [usize; 3] = [3, 10, 11];
/// A longer file is not listed.
pub const LONGEST_LISTED: usize = 32_256;

// The probe.

/// Words in the head of a case.
pub const HEAD_WORDS: usize = 12;
/// The most parents of a case.
pub const PROBE_PARENTS: usize = 600;
/// The most link numbers of a case.
pub const PROBE_LINKS: usize = 8_400;
/// The most bytes of a case.
pub const PROBE_BYTES: usize = 33_000;
/// The most room of a case.
pub const PROBE_ROOM: usize = 40_000;
/// The most numbers in each of the forwarder's rows of a case.
pub const PROBE_ROUTE: usize = 5_000;
/// What a lent row holds beforehand.
pub const ROW_FILL: u16 = 7;
/// What a lent file holds beforehand.
pub const BYTE_FILL: u8 = 0xA5;
/// Bytes printed on one line.
pub const BYTES_A_LINE: usize = 32;

// Series of changes.

/// Words in the head of a series.
pub const SERIES_HEAD: usize = 6;
/// Words in a change.
pub const CHANGE_WORDS: usize = 3;
/// The most changes of a series.
pub const MOST_CHANGES: usize = 1_000;
/// Entries of room past the table of a series.
pub const SPARE_ENTRIES: usize = 2;
/// What the mix of a row is multiplied by before each number.
pub const MIX_FACTOR: u64 = 31;
/// A mix is below this prime.
pub const MIX_PRIME: u64 = 4_294_967_291;

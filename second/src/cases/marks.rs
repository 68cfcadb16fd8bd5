//! Chosen cases of the lower ends, which are kept with the probe: links
//! recorded from either end, changes that turn a mark, rooms at the width of
//! an entry, and files with something where a mark would stand.

use super::networks::{edges, need};
use super::{blocks, changes, files};
use crate::ends::{branches, opposite, recorded, spare, turned, ways, WAYS};
use crate::file_faults::{sound_file, Lent};
use crate::harbour::harbour;
use crate::limits::*;
use crate::network::Rows;
use crate::probe::*;

/// The chosen cases of an op; none where it has nothing to do with entries.
pub fn chosen(op: u16) -> Vec<Case> {
    match op {
        TABLE => tables(),
        CHANGE | CHANGE_UNFILLED => changed(op),
        WRITE => written(),
        READ => read(),
        PAYLOAD_OF => payloads(),
        _ => Vec::new(),
    }
}

/// A case with exactly the room needed.
fn exact(op: u16, rows: &Rows, depth: u16) -> Case {
    Case::over(op, rows, depth, need(op, rows))
}

/// Every network at the whole search; one at depths that choose other links;
/// and rooms.
fn tables() -> Vec<Case> {
    let whole = recorded().into_iter().map(|named| (named.rows, WHOLE));
    let near = [0, 1, 2, 3].map(|depth| (ways([0, 1, 0]), depth));
    let mut cases: Vec<Case> = whole
        .chain(near)
        .map(|(rows, depth)| exact(TABLE, &rows, depth))
        .collect();
    for room in edges(harbour().parents.len()) {
        cases.push(Case::over(TABLE, &harbour(), WHOLE, room));
    }
    cases
}

/// Changes after which an entry has a link of another direction, none any
/// more, or one for the first time; and rooms.
fn changed(op: u16) -> Vec<Case> {
    let mut list: Vec<(Rows, changes::Words)> = Vec::new();
    for (_, marks) in WAYS {
        let words = [[5, 0, 5], [6, 0, 5], [7, 0, 5], [6, 1, 6]];
        list.extend(words.map(|words| (ways(marks), words)));
    }
    for rows in [opposite([9, 9]), turned(opposite([9, 9]))] {
        let words = [[2, 0, 9], [2, 1, 10], [3, 1, 8], [3, 0, 9]];
        list.extend(words.map(|words| (rows.clone(), words)));
    }
    list.extend([[3, 0, 8], [3, 1, 9], [2, 1, 7]].map(|words| (opposite([9, 8]), words)));
    for rows in [spare(), turned(spare())] {
        let mut withdrawn = rows.clone();
        withdrawn.links[LINK_WIDTH + MARK_AT] = WITHDRAWN;
        list.extend([(rows, [1, 0, 7]), (withdrawn, [1, 1, 6])]);
    }
    list.extend([[5, 1, 2], [3, 0, 6], [5, 1, 1]].map(|words| (turned(harbour()), words)));
    list.extend([[3, 1, 21], [3, 0, 0]].map(|words| (branches(), words)));
    let mut cases: Vec<Case> = list
        .iter()
        .map(|(rows, words)| changes::case(op, rows, WHOLE, *words))
        .collect();
    for room in edges(harbour().parents.len()) {
        let mut case = changes::case(op, &harbour(), WHOLE, [3, 0, 6]);
        case.room = room;
        cases.push(case);
    }
    cases
}

/// Files that differ in their link blocks alone.
fn written() -> Vec<Case> {
    let both = [ways([0; MEASURES]), ways([1; MEASURES])];
    both.map(|rows| exact(WRITE, &rows, WHOLE)).into()
}

/// The file of a network at the whole search, after an edit.
fn file(rows: &Rows, edit: impl Fn(&mut Lent)) -> Case {
    let mut lent = sound_file(rows, WHOLE);
    edit(&mut lent);
    files::case(&lent)
}

/// Files read back, files with the right marks in their entries, and Harbour's
/// with any; rooms; and a mark together with a fault that is told before it or
/// after it.
fn read() -> Vec<Case> {
    let names = recorded();
    let mut cases: Vec<Case> = names
        .iter()
        .map(|named| file(&named.rows, |_| ()))
        .collect();
    let mixed = WAYS[1..].iter().map(|(_, marks)| ways(*marks));
    for rows in mixed.chain([harbour()]) {
        cases.push(file(&rows, Lent::put_right_marks));
    }
    for (x, value) in [
        (1, 7),
        (1, 1),
        (2, 2),
        (3, 4),
        (0, 1),
        (4, 3),
        (1, 8),
        (4, 128),
    ] {
        cases.push(file(&harbour(), |lent| lent.put_marks(x, value)));
    }
    for room in edges(harbour().parents.len()) {
        cases.push(file(&harbour(), |lent| lent.rooms[2] = room));
    }
    let marked = |edit: &dyn Fn(&mut Lent)| {
        file(&harbour(), |lent| {
            lent.put_marks(1, 7);
            edit(lent);
        })
    };
    let (links, table) = (1, 2);
    cases.extend([
        marked(&|lent| lent.rooms[2] -= 1),
        marked(&|lent| lent.change_byte(table, HEAD + ENTRY_BYTES + 27, 11)),
        marked(&|lent| lent.change_byte(links, HEAD + 1, 5)),
        marked(&|lent| lent.change_byte(links, 1, 2)),
        marked(&|lent| lent.bytes[BLOCK * table + 7] ^= 1),
        marked(&|lent| lent.bytes[BLOCK * links + 7] ^= 1),
        marked(&|lent| lent.change_byte(0, HEAD + 1, 0)),
        marked(&|lent| lent.bytes.extend_from_within(BLOCK * table..)),
    ]);
    cases
}

/// Table blocks with marks, right and wrong, and a link block that has no
/// place for them.
fn payloads() -> Vec<Case> {
    let mut cases = Vec::new();
    for bits in 1..8 {
        let mut lent = sound_file(&harbour(), WHOLE);
        lent.put_marks(1, bits);
        cases.push(blocks::case(&lent.bytes[2 * BLOCK..], [0x54, 2, 5]));
    }
    let mut lent = sound_file(&ways([0, 1, 1]), WHOLE);
    lent.put_right_marks();
    cases.push(blocks::case(&lent.bytes[2 * BLOCK..], [0x54, 2, 6]));
    cases.push(blocks::case(&lent.bytes[BLOCK..2 * BLOCK], [0x4C, 1, 8]));
    cases
}

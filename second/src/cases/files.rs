//! Cases of op 7: stored files, sound and damaged, and the rows lent.

use super::networks::edges;
use crate::block::seal;
use crate::file_faults::{damaged, sound_file, Lent, FILE_FAULTS};
use crate::harbour::harbour;
use crate::limits::*;
use crate::mangle::{mangle, MANGLES};
use crate::named::{large, small};
use crate::network::Rows;
use crate::probe::*;
use crate::random;
use crate::rng::Rng;
use crate::shapes::Draft;

pub fn case(lent: &Lent) -> Case {
    Case::over_bytes(READ, &lent.bytes, lent.rooms.map(|room| room as u16))
}

/// All fixed cases of the reader.
pub fn fixed() -> Vec<Case> {
    let mut cases = Vec::new();
    for named in small() {
        for depth in [WHOLE, 0, 1, DEEPEST] {
            cases.push(case(&sound_file(&named.rows, depth)));
        }
    }
    for named in large() {
        cases.push(case(&sound_file(&named.rows, WHOLE)));
    }
    cases.extend(lengths());
    cases.extend(rooms());
    cases.extend(faulty());
    cases.extend(mangled());
    cases.extend(check_of_zero());
    cases.extend(other_trees());
    cases
}

/// The most room that a case may lend for the three rows.
fn most_room() -> [u16; 3] {
    [PROBE_LINKS, PROBE_PARENTS, PROBE_ROOM].map(|room| room as u16)
}

/// No byte, less than a block, blocks of zero, the longest.
fn lengths() -> Vec<Case> {
    let rooms = most_room();
    let counts = [
        0, 1, 511, 512, 513, 1_024, 1_536, 32_256, 32_257, 32_768, 33_000,
    ];
    let zeros = counts.map(|count| Case::over_bytes(READ, &vec![0; count], rooms));
    let file = sound_file(&harbour(), WHOLE).bytes;
    let cut = [1, 511, 512, 513, 1_024, 1_535];
    let cuts = cut.map(|count| Case::over_bytes(READ, &file[..count], rooms));
    zeros.into_iter().chain(cuts).collect()
}

/// Each row one short, larger, none; and parents that op 7 does not use.
fn rooms() -> Vec<Case> {
    let mut cases = Vec::new();
    for named in small().into_iter().take(8) {
        let lent = sound_file(&named.rows, WHOLE);
        for row in 0..3 {
            let room = lent.rooms[row];
            let short = room.saturating_sub(1);
            let mut rooms = vec![short, room + 1, room + 3, room + 7, room + 100];
            if row == 2 {
                rooms.extend(edges(named.rows.parents.len()));
            }
            for other_room in rooms {
                let mut other = lent.clone();
                other.rooms[row] = other_room;
                cases.push(case(&other));
            }
        }
        let mut unused = case(&lent);
        unused.parents = named.rows.parents.clone();
        unused.room = PROBE_ROOM;
        unused.root = 9;
        unused.depth = DEEPEST + 1;
        cases.push(unused);
        cases.push(Case::over_bytes(READ, &lent.bytes, most_room()));
    }
    cases
}

/// A network whose file has two link blocks and two table blocks.
fn two_blocks(rng: &mut Rng) -> Rows {
    let draft = Draft::sprawl(rng, 20).with_more(rng, 52);
    let draft = draft.with_lengths(|_| rng.from_to(1, 9) as u16);
    let draft = draft.with_withdrawn(rng, 3).turned(rng);
    draft.shuffled(rng).with_tree(rng)
}

/// Every fault, every pair of faults, and each fault twice.
fn faulty() -> Vec<Case> {
    let mut rng = Rng::new(7);
    let mut cases = Vec::new();
    for (i, &one) in FILE_FAULTS.iter().enumerate() {
        for _ in 0..4 {
            let sound = random::rich_network(&mut rng);
            cases.push(case(&damaged(&mut rng, &sound, WHOLE, &[one])));
        }
        for &two in &FILE_FAULTS[i..] {
            let sound = two_blocks(&mut rng);
            let depth = rng.pick(&[WHOLE, 1]);
            cases.push(case(&damaged(&mut rng, &sound, depth, &[one, two])));
        }
    }
    cases
}

/// Every kind of blind damage, with and without a corrected check.
fn mangled() -> Vec<Case> {
    let mut rng = Rng::new(8);
    let mut cases = Vec::new();
    for (way, _) in MANGLES {
        for corrected in [false, true] {
            for sound in [harbour(), two_blocks(&mut rng)] {
                let mut lent = sound_file(&sound, WHOLE);
                mangle(&mut rng, &mut lent.bytes, way, corrected);
                cases.push(case(&lent));
            }
        }
    }
    cases
}

/// Harbour with a withdrawn link whose length makes the check of the link
/// block 0; then FFFF stored there.
fn check_of_zero() -> Vec<Case> {
    let mut rows = harbour();
    rows.links.extend([1, 4, 0, WITHDRAWN]);
    let check = &sound_file(&rows, WHOLE).bytes[BLOCK + 6..BLOCK + 8];
    let at = LINK_WIDTH * 7 + LENGTH_AT;
    rows.links[at] = u16::from_be_bytes([check[0], check[1]]);
    let mut lent = sound_file(&rows, WHOLE);
    let mut cases = vec![case(&lent)];
    lent.bytes[BLOCK + 6..BLOCK + 8].fill(0xFF);
    cases.push(case(&lent));
    cases
}

/// Three equal parallel links: the tree link rewritten to another of them.
/// The entry stays right or becomes wrong.
fn other_trees() -> Vec<Case> {
    let mut cases = Vec::new();
    for from in 0..3 {
        for to in 0..3 {
            let rows = Rows {
                parents: vec![NO_LINK, from],
                links: [[0, 1, 5, IN_SERVICE]; 3].concat(),
                root: 0,
            };
            let mut lent = sound_file(&rows, WHOLE);
            let parent = 2 * BLOCK + HEAD + ENTRY_BYTES + 1;
            lent.bytes[parent] = to;
            seal(&mut lent.bytes[2 * BLOCK..]);
            cases.push(case(&lent));
        }
    }
    cases
}

/// A random file: sound, with faults, or damaged blindly.
pub fn random(rng: &mut Rng) -> Case {
    let depth = loop {
        let depth = random::depth(rng);
        if depth <= DEEPEST || depth == WHOLE {
            break depth;
        }
    };
    let kind = rng.below(10);
    if kind >= 7 {
        let sound = random::rich_network(rng);
        let faults = [rng.pick(&FILE_FAULTS), rng.pick(&FILE_FAULTS)];
        let count = rng.from_to(1, 2);
        return case(&damaged(rng, &sound, depth, &faults[..count]));
    }
    let mut lent = sound_file(&random::network(rng), depth);
    if kind >= 3 {
        let (way, _) = rng.pick(&MANGLES);
        let corrected = rng.chance(60);
        mangle(rng, &mut lent.bytes, way, corrected);
    }
    for row in 0..3 {
        lent.rooms[row] += rng.pick(&[0, 0, 1, 5, 9, 10]);
    }
    if rng.chance(8) {
        let row = rng.below(3);
        lent.rooms[row] = lent.rooms[row].saturating_sub(rng.pick(&[1, 6, 9]));
    }
    case(&lent)
}

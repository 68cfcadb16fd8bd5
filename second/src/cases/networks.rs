//! Cases of ops 1, 2, 3 and 6: a network, a depth and a room. Ops 101 to 105
//! ask nodes of the same networks.

use crate::faults::{Faulty, NETWORK_FAULTS};
use crate::file::file_length;
use crate::harbour::harbour;
use crate::limits::*;
use crate::named::{large, over, small};
use crate::network::Rows;
use crate::probe::*;
use crate::random;
use crate::refusal::Why;
use crate::rng::Rng;

/// The room that the answer of an op needs.
pub fn need(op: u16, rows: &Rows) -> usize {
    let net = rows.lend();
    match op {
        TABLE | CHANGE | CHANGE_UNFILLED => ENTRY_WIDTH * net.n(),
        MAP => MAP_WORDS,
        WRITE => file_length(net.n(), net.m()),
        _ => 0,
    }
}

/// Rooms for n entries: without the marks, one short, exactly enough, one short
/// of another entry, and that.
pub fn edges(n: usize) -> [usize; 5] {
    let enough = ENTRY_WIDTH * n;
    let unmarked = (ENTRY_WIDTH - MEASURES) * n;
    let more = enough + ENTRY_WIDTH;
    [unmarked, enough.saturating_sub(1), enough, more - 1, more]
}

/// A case with exactly the room needed.
fn exact(op: u16, rows: &Rows, depth: u16) -> Case {
    Case::over(op, rows, depth, need(op, rows))
}

/// All fixed cases of an op over a network.
pub fn fixed(op: u16) -> Vec<Case> {
    let mut cases = Vec::new();
    for named in small() {
        for depth in [WHOLE, 0, 1, 2, DEEPEST] {
            cases.push(exact(op, &named.rows, depth));
        }
    }
    for named in large() {
        cases.push(exact(op, &named.rows, WHOLE));
    }
    cases.extend(over().iter().map(|named| exact(op, &named.rows, WHOLE)));
    cases.extend(depths(op));
    cases.extend(rooms(op));
    cases.extend(cut_rows(op));
    cases.extend(faulty(op));
    cases
}

/// The depths at their limits, on Harbour and on the path of 512.
fn depths(op: u16) -> Vec<Case> {
    let limits = [DEEPEST, DEEPEST + 1, WHOLE - 1, WHOLE];
    let mut cases: Vec<Case> = limits.map(|d| exact(op, &harbour(), d)).into();
    let path = large().swap_remove(1);
    for depth in [0, 1, DEEPEST - 1, DEEPEST] {
        cases.push(exact(op, &path.rows, depth));
    }
    cases
}

/// Room exactly enough, one short, larger, none; also of the most nodes.
fn rooms(op: u16) -> Vec<Case> {
    let mut cases = Vec::new();
    let star = large().swap_remove(6);
    for named in small().into_iter().take(8).chain([star]) {
        let enough = need(op, &named.rows);
        let short = enough.saturating_sub(1);
        let mut rooms = vec![0, short, enough + 1, enough + 6, enough + 7, PROBE_ROOM];
        rooms.extend(edges(named.rows.parents.len()));
        for room in rooms {
            cases.push(Case::over(op, &named.rows, WHOLE, room));
        }
    }
    cases
}

/// Link rows with a part of a record at the end, or with records cut off.
fn cut_rows(op: u16) -> Vec<Case> {
    let sound = harbour();
    let mut cases = Vec::new();
    for length in 20..=sound.links.len() + 3 {
        let mut rows = sound.clone();
        rows.links.resize(length, 9);
        cases.push(exact(op, &rows, WHOLE));
    }
    cases
}

/// Every fault, every pair of faults, and each fault twice.
fn faulty(op: u16) -> Vec<Case> {
    let mut rng = Rng::new(u64::from(op));
    let mut cases = Vec::new();
    for (i, &one) in NETWORK_FAULTS.iter().enumerate() {
        for round in 0..4 {
            cases.push(with_faults(&mut rng, op, &[one], round == 0));
        }
        for &two in &NETWORK_FAULTS[i..] {
            for short in [false, true, false, true] {
                cases.push(with_faults(&mut rng, op, &[one, two], short));
            }
        }
    }
    cases.extend(cycles().iter().map(|rows| exact(op, rows, WHOLE)));
    cases.extend(wrong_parents().iter().map(|rows| exact(op, rows, WHOLE)));
    cases
}

/// A rich network with faults, and with room or without.
fn with_faults(rng: &mut Rng, op: u16, faults: &[Why], short: bool) -> Case {
    let sound = random::rich_network(rng);
    let depth = rng.pick(&[WHOLE, 0, 1]);
    let faulty = Faulty::new(&sound, depth).with(rng, faults);
    let room = need(op, &sound);
    let room = if short { room.saturating_sub(1) } else { room };
    Case::over(op, &faulty.rows, faulty.depth, room).by(faulty.rule)
}

/// Parents that lead round: two nodes, with nodes of lower number hanging
/// below, and lengths of 0 so that no distance tells.
pub fn cycles() -> Vec<Rows> {
    let links = [[0, 1], [1, 2], [2, 3], [3, 4], [4, 5], [2, 3]];
    let rows = |parents: &[u16], length: u16| Rows {
        parents: parents.to_vec(),
        links: links
            .iter()
            .flat_map(|&[a, b]| [a, b, length, IN_SERVICE])
            .collect(),
        root: 0,
    };
    vec![
        rows(&[NO_LINK, 0, 1, 2, 4, 4], 0),
        rows(&[NO_LINK, 1, 1, 2, 3, 4], 0),
        rows(&[NO_LINK, 1, 2, 2, 3, 4], 1),
        rows(&[NO_LINK, 1, 2, 5, 3, 4], 0),
        rows(&[NO_LINK, 0, 2, 5, 3, 4], 3),
        rows(&[NO_LINK, 0, 1, 3, 3, 4], LONGEST),
    ]
}

/// Harbour with one parent link wrong: the root's, no link, withdrawn, not
/// touching the node; and with the root elsewhere.
pub fn wrong_parents() -> Vec<Rows> {
    let named = |node: usize, link: u16| {
        let mut rows = harbour();
        rows.parents[node] = link;
        rows
    };
    let mut withdrawn = harbour();
    withdrawn.links[LINK_WIDTH * 6 + MARK_AT] = WITHDRAWN;
    let mut elsewhere = harbour();
    elsewhere.root = 4;
    vec![
        named(0, 0),
        named(0, 7),
        named(1, NO_LINK),
        named(4, 7),
        named(4, 0),
        withdrawn,
        elsewhere,
    ]
}

/// A random network, mostly accepted, with a random depth and room.
pub fn random(rng: &mut Rng, op: u16) -> Case {
    let kind = rng.below(10);
    if kind < 7 {
        let rows = random::network(rng);
        let room = random::room(rng, need(op, &rows));
        return Case::over(op, &rows, random::depth(rng), room);
    }
    let sound = random::rich_network(rng);
    let one = rng.pick(&NETWORK_FAULTS);
    let two = rng.pick(&NETWORK_FAULTS);
    let faults = if kind < 9 { vec![one] } else { vec![one, two] };
    let faulty = Faulty::new(&sound, WHOLE).with(rng, &faults);
    let room = random::room(rng, need(op, &sound));
    Case::over(op, &faulty.rows, faulty.depth, room).by(faulty.rule)
}

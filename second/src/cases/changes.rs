//! Cases of ops 4 and 5: a network, and a change of one link.

use super::networks::{edges, need};
use crate::check::check;
use crate::faults::{least_length, Faulty, NETWORK_FAULTS};
use crate::harbour::harbour;
use crate::limits::*;
use crate::named::{large, over, small};
use crate::network::Rows;
use crate::probe::*;
use crate::random;
use crate::rng::Rng;
use crate::terms::Terms;

/// A change as the words a, b, c: link, mark, length.
pub type Words = [u16; 3];

/// A case with exactly the room needed.
pub fn case(op: u16, rows: &Rows, depth: u16, words: Words) -> Case {
    let mut case = Case::over(op, rows, depth, need(op, rows));
    case.abc = words;
    case
}

/// All fixed cases of an op that changes a link.
pub fn fixed(op: u16) -> Vec<Case> {
    let mut cases: Vec<Case> = harbour_changes()
        .into_iter()
        .flat_map(|words| [WHOLE, 0, 1].map(|depth| case(op, &harbour(), depth, words)))
        .collect();
    for named in small() {
        let changes = every_change(&named.rows, 12);
        cases.extend(changes.iter().map(|&w| case(op, &named.rows, WHOLE, w)));
        cases.extend(changes.iter().map(|&w| case(op, &named.rows, 1, w)));
    }
    for named in large() {
        let changes = every_change(&named.rows, 1);
        let some = changes.iter().take(2);
        cases.extend(some.map(|&w| case(op, &named.rows, WHOLE, w)));
    }
    for named in over() {
        cases.push(case(op, &named.rows, WHOLE, [0, 1, 4]));
        cases.push(case(op, &named.rows, WHOLE, [MOST_LINKS as u16, 2, 4]));
    }
    cases.extend(rooms(op));
    cases.extend(faulty(op));
    cases
}

/// P7 to P10, P12, and their neighbours.
fn harbour_changes() -> Vec<Words> {
    vec![
        [5, 1, 2],
        [5, 1, 1],
        [5, 1, 3],
        [5, 1, 4],
        [3, 0, 6],
        [3, 0, 0],
        [3, 1, 5],
        [3, 1, 4],
        [4, 1, 3],
        [4, 1, 2],
        [4, 0, 65_535],
        [0, 1, 2],
        [0, 0, 2],
        [0, 2, 2],
        [6, 65_535, 9],
        [7, 1, 2],
        [7, 2, 2],
        [65_535, 1, 0],
        [5, 2, 1],
        [5, 256, 4],
    ]
}

/// Changes of every kind for the first `links` links outside the tree, and
/// the refused ones: tree link, bad mark, no such link.
fn every_change(rows: &Rows, links: usize) -> Vec<Words> {
    let net = rows.lend();
    let tree = match check(&net, Terms::by_number(WHOLE)) {
        Ok(tree) => tree,
        Err(_) => return Vec::new(),
    };
    let m = net.m() as u16;
    let in_tree = |e: &u16| rows.parents.contains(e);
    let mut changes = Vec::new();
    for e in (0..m).filter(|e| !in_tree(e)).take(links) {
        let link = net.link(e as usize);
        let least = least_length(&net, &tree, e as usize);
        changes.extend(changes_of(e, link.mark, link.length, least));
    }
    for e in (0..m).filter(in_tree).take(2) {
        let link = net.link(e as usize);
        changes.extend([[e, 1, link.length], [e, 0, 0], [e, 2, 0], [e, 1, LONGEST]]);
    }
    changes.extend([[m, 1, 1], [m, 7, 1], [NO_LINK, 0, 0]]);
    changes
}

/// Turned over, set as it stands, as short as lawful, too short by one,
/// withdrawn too short, longer by one, longest, a bad mark.
fn changes_of(e: u16, mark: u16, length: u16, least: u64) -> Vec<Words> {
    let least = least.min(u64::from(LONGEST)) as u16;
    let mut changes = vec![
        [e, 1 - mark, length.max(least)],
        [e, mark, length],
        [e, 1, least],
        [e, 1, length.saturating_add(1)],
        [e, 1, LONGEST],
        [e, 0, least],
        [e, 2, length],
    ];
    if least > 0 {
        changes.extend([[e, 1, least - 1], [e, 0, least - 1], [e, 3, least - 1]]);
    }
    changes
}

/// Room too short, larger, none, with changes accepted and refused.
fn rooms(op: u16) -> Vec<Case> {
    let rows = harbour();
    let enough = need(op, &rows);
    let mut cases = Vec::new();
    let mut rooms = vec![0, 9, 10, 19, enough + 1, PROBE_ROOM];
    rooms.extend(edges(rows.parents.len()));
    for room in rooms {
        for words in [[5, 1, 2], [5, 1, 1], [0, 1, 2], [7, 1, 2], [5, 2, 2]] {
            let mut case = case(op, &rows, WHOLE, words);
            case.room = room;
            cases.push(case);
        }
    }
    let mut partial = rows.clone();
    partial.links.extend([0, 1, 5]);
    let words = [[5, 1, 2], [7, 1, 2], [6, 1, 9], [3, 0, 1]];
    cases.extend(words.map(|words| case(op, &partial, WHOLE, words)));
    cases
}

/// Every network fault with every fault of a change.
fn faulty(op: u16) -> Vec<Case> {
    let mut rng = Rng::new(u64::from(op));
    let mut cases = Vec::new();
    for why in NETWORK_FAULTS {
        for kind in 0..6 {
            let sound = random::rich_network(&mut rng);
            let words = some_change(&mut rng, &sound, kind);
            let faulty = Faulty::new(&sound, WHOLE).with(&mut rng, &[why]);
            let mut case = case(op, &faulty.rows, faulty.depth, words).by(faulty.rule);
            case.room = need(op, &sound).saturating_sub(rng.below(2));
            cases.push(case);
        }
    }
    cases
}

/// A change of an accepted network: kind 0 any, 1 no link, 2 a tree link,
/// 3 a bad mark, 4 too short, and from 5 on one that is likely taken.
pub fn some_change(rng: &mut Rng, rows: &Rows, kind: usize) -> Words {
    let net = rows.lend();
    let m = net.m() as u16;
    if m == 0 || kind == 1 {
        return [
            rng.pick(&[m, m + 1, NO_LINK]),
            rng.below(3) as u16,
            rng.word(),
        ];
    }
    let spare: Vec<u16> = (0..m).filter(|e| !rows.parents.contains(e)).collect();
    let in_tree: Vec<u16> = (0..m).filter(|e| rows.parents.contains(e)).collect();
    if kind == 2 || spare.is_empty() {
        return [rng.pick(&in_tree), rng.below(3) as u16, rng.word() % 9];
    }
    let e = rng.pick(&spare);
    change_of(rng, rows, e, kind)
}

/// A change of the same kinds, but for 1 and 2, of a link outside the tree.
pub fn change_of(rng: &mut Rng, rows: &Rows, e: u16, kind: usize) -> Words {
    let net = rows.lend();
    let m = net.m();
    let tree = check(&net, Terms::by_number(WHOLE)).expect("the network is sound");
    let least = least_length(&net, &tree, e as usize).min(u64::from(LONGEST)) as u16;
    let length = net.link(e as usize).length;
    match kind {
        0 => [rng.below(m) as u16, rng.below(2) as u16, rng.word() % 9],
        3 => [e, rng.pick(&[2, 3, 256, 65_535]), least.saturating_sub(1)],
        4 => [e, rng.below(2) as u16, least.saturating_sub(1)],
        _ => {
            let more = rng.pick(&[0, 0, 1, 2, 5]);
            let tie = net.link(rng.below(m)).length.max(least);
            let lengths = [least.saturating_add(more), length, tie];
            [e, rng.pick(&[1, 1, 0]), rng.pick(&lengths)]
        }
    }
}

/// A random network and a random change.
pub fn random(rng: &mut Rng, op: u16) -> Case {
    let rows = random::network(rng);
    let kind = rng.below(12);
    let words = some_change(rng, &rows, kind);
    let depth = random::depth(rng);
    let mut case = case(op, &rows, depth, words);
    case.room = random::room(rng, case.room);
    if rng.chance(5) {
        let sound = random::rich_network(rng);
        let why = rng.pick(&NETWORK_FAULTS);
        let faulty = Faulty::new(&sound, depth).with(rng, &[why]);
        case.parents = faulty.rows.parents;
        case.links = faulty.rows.links;
        case.root = faulty.rows.root;
        case.rule = faulty.rule;
    }
    case
}

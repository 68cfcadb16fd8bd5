//! The case maker: for each op the fixed cases, then random ones, then an
//! ending that the seed chooses.

mod asked;
pub mod blocks;
mod changes;
mod endings;
mod entries;
mod files;
mod forwards;
mod marks;
mod networks;
mod routes;
mod rules;
mod series;

use crate::file_faults::sound_file;
use crate::limits::{LOWEST_NUMBER, NEARER_FIRST, PROBE_ROOM, ROUTE_ROW, WHOLE};
use crate::named::large;
use crate::probe::*;
use crate::random;
use crate::rng::Rng;
use crate::ties;

pub use asked::chosen;
pub use endings::ENDINGS;
pub use series::series;

/// The fixed cases of an op but for those of the lower ends and of the rule.
fn plain(op: u16) -> Vec<Case> {
    match op {
        CHECK | TABLE | MAP | WRITE => networks::fixed(op),
        CHANGE | CHANGE_UNFILLED => changes::fixed(op),
        READ => files::fixed(),
        PAYLOAD_OF => blocks::fixed(),
        FORWARD => forwards::fixed(),
        _ => asked::fixed(op),
    }
}

/// The fixed cases of an op.
pub fn fixed(op: u16) -> Vec<Case> {
    [plain(op), marks::chosen(op), rules::fixed(op)].concat()
}

/// A random case of an op, by a random rule where none was chosen for it.
pub fn random(rng: &mut Rng, op: u16) -> Case {
    let mut case = by_number(rng, op);
    if case.rule == LOWEST_NUMBER {
        case.rule = random::rule(rng);
    }
    case
}

fn by_number(rng: &mut Rng, op: u16) -> Case {
    match op {
        CHECK | TABLE | MAP | WRITE => networks::random(rng, op),
        CHANGE | CHANGE_UNFILLED => changes::random(rng, op),
        READ => files::random(rng),
        PAYLOAD_OF => blocks::random(rng),
        FORWARD => forwards::random(rng),
        _ => asked::random(rng, op),
    }
}

/// The probe's input: fixed cases for each op, `count` random ones over the
/// ops in turn, and the ending of the seed. The same arguments give the same
/// bytes.
pub fn input(ops: &[u16], seed: u64, count: usize) -> Vec<u8> {
    let mut out = Vec::new();
    for &op in ops {
        fixed(op).iter().for_each(|case| out.extend(case.encode()));
    }
    let mut rng = Rng::new(seed);
    for i in 0..count {
        out.extend(random(&mut rng, ops[i % ops.len()]).encode());
    }
    out.extend(endings::ending(seed));
    out
}

/// Cases of every op that are kept with the probe: of the fixed ones that are
/// not long the first, and about as many of the others; and all of the lower ends
/// and of the rule. Of the forwarder and of the project's own ops those that are
/// chosen.
pub fn kept() -> Vec<u8> {
    let mut out = Vec::new();
    for op in CHECK..=PAYLOAD_OF {
        let (longest, first) = match op {
            READ | PAYLOAD_OF => (2_100, 20),
            _ => (700, 40),
        };
        let all = plain(op).into_iter().map(|case| case.encode());
        let short: Vec<Vec<u8>> = all.filter(|bytes| bytes.len() <= longest).collect();
        let (begin, rest) = short.split_at(first);
        let some = rest.iter().step_by((rest.len() / first).max(1));
        begin.iter().chain(some).for_each(|case| out.extend(case));
        let more = [marks::chosen(op), rules::chosen(op)].concat();
        more.iter().for_each(|case| out.extend(case.encode()));
    }
    let ways = (FORWARD, forwards::chosen());
    let own = (ROUTE..=NODE).map(|op| (op, chosen(op)));
    for (op, cases) in [ways].into_iter().chain(own) {
        let all = [cases, rules::chosen(op)].concat();
        all.iter().for_each(|case| out.extend(case.encode()));
    }
    out
}

/// Tables of `count` networks on which many candidates tie, each by rule 0 and
/// then by rule 1, at the whole search. The same arguments give the same bytes.
pub fn tied(seed: u64, count: usize) -> Vec<u8> {
    let mut rng = Rng::new(seed);
    let mut out = Vec::new();
    for _ in 0..count {
        let rows = ties::network(&mut rng);
        let case = Case::over(TABLE, &rows, WHOLE, networks::need(TABLE, &rows));
        out.extend(case.encode());
        out.extend(case.by(NEARER_FIRST).encode());
    }
    out
}

/// The most nodes and links at the whole search: as a file, and as the case of
/// an op over a network or over a file.
pub fn largest(op: Option<u16>) -> Vec<u8> {
    let most = large().swap_remove(3).rows;
    let file = sound_file(&most, WHOLE);
    match op {
        None => file.bytes,
        Some(READ) => files::case(&file).encode(),
        Some(FORWARD) => Case::over(FORWARD, &most, WHOLE, two_rooms([ROUTE_ROW; 2])).encode(),
        Some(op) => Case::over(op, &most, WHOLE, PROBE_ROOM).encode(),
    }
}

/// The ops that a list such as `1,3-5` names, or none where it is no list.
pub fn ops(list: &str) -> Option<Vec<u16>> {
    let mut ops = Vec::new();
    for part in list.split(',') {
        let (low, high) = part.split_once('-').unwrap_or((part, part));
        let (low, high): (u16, u16) = (low.parse().ok()?, high.parse().ok()?);
        if low > high || !(low..=high).all(is_op) {
            return None;
        }
        ops.extend(low..=high);
    }
    Some(ops)
}

//! Cases of op 9: a network, a start, a node whose tree link has failed, and a
//! measure; with the lengths of the two rows that are lent.

use super::asked::bare;
use super::networks::{cycles, wrong_parents};
use crate::check::check;
use crate::ends::{branches, opposite, served, spare, turned, ways, WAYS};
use crate::faults::{Faulty, NETWORK_FAULTS};
use crate::harbour::harbour;
use crate::limits::*;
use crate::named::{large, over, small, spur, weighed};
use crate::network::Rows;
use crate::probe::*;
use crate::random;
use crate::refusal::Why;
use crate::rng::Rng;
use crate::routes::route_of;
use crate::shapes::Draft;
use crate::terms::Terms;

/// Start, failed node and measure, as the words a, b, c.
pub type Words = [u16; 3];

/// Lengths of a row at its limits.
const ROOMS: [usize; 6] = [0, 1, ROUTE_ROW - 1, ROUTE_ROW, ROUTE_ROW + 1, PROBE_ROUTE];

/// Numbers for a measure: the three, and others, taken by threes.
const MEASURE_WORDS: [u16; 9] = [0, 1, 2, 3, 4, 5, 65_533, 65_534, 65_535];

/// A case whose rows are just long enough.
pub fn case(rows: &Rows, depth: u16, words: Words) -> Case {
    in_rooms(rows, depth, words, [ROUTE_ROW; 2])
}

/// A case whose rows have these lengths.
pub fn in_rooms(rows: &Rows, depth: u16, words: Words, rooms: [usize; 2]) -> Case {
    let mut case = Case::over(FORWARD, rows, depth, two_rooms(rooms));
    case.abc = words;
    case
}

/// The chosen cases, which are kept with the probe.
pub fn chosen() -> Vec<Case> {
    let mut cases = every_start(&harbour(), WHOLE, &[0, 1, 2]);
    cases.extend(harbour_otherwise());
    cases.extend(every_start(&forks(), WHOLE, &[1]));
    cases.extend((0..9).map(|start| case(&forks(), 1, [start, 1, 0])));
    cases.extend(by_hand());
    cases.extend(longest());
    cases.extend(numbers());
    cases.extend(one_room());
    cases.extend(wrong_together());
    cases.extend(wrong_network());
    cases
}

/// All fixed cases: the chosen ones, then those of every network that ops 1 to
/// 6 go through.
pub fn fixed() -> Vec<Case> {
    let mut cases = chosen();
    for rows in [harbour(), turned(harbour())] {
        for depth in [WHOLE, 0, 1] {
            cases.extend(every_start(&rows, depth, &[0, 1, 2]));
        }
    }
    for named in small() {
        for (i, words) in asks(&named.rows, 6).into_iter().enumerate() {
            let depth = [WHOLE, WHOLE, 0, 1, DEEPEST][i % 5];
            cases.push(case(&named.rows, depth, words));
        }
    }
    for named in large() {
        let words = asks(&named.rows, 2);
        cases.extend(words.iter().map(|&w| case(&named.rows, WHOLE, w)));
    }
    let not_sound = over().into_iter().map(|named| named.rows);
    for rows in not_sound.chain(cycles()).chain(wrong_parents()) {
        cases.push(case(&rows, WHOLE, [1, 1, 0]));
        cases.push(case(&rows, WHOLE, [0, 1, 2]));
    }
    cases.extend(long());
    cases.extend(depths());
    cases.extend(cut_rows());
    cases.extend(two_rooms_each());
    cases.extend(faulty());
    cases
}

/// Every start with every failed node.
fn every_start(rows: &Rows, depth: u16, measures: &[u16]) -> Vec<Case> {
    let n = rows.parents.len() as u16;
    let mut cases = Vec::new();
    for failed in 0..n {
        for start in 0..n {
            let words = measures.iter().map(|&c| [start, failed, c]);
            cases.extend(words.map(|words| case(rows, depth, words)));
        }
    }
    cases
}

/// Harbour with every link recorded from its other end; and at depths 0 and 1,
/// where node 1 has no swap link and has one.
fn harbour_otherwise() -> Vec<Case> {
    let mut cases = Vec::new();
    for start in 0..4 {
        cases.extend((0..3).map(|c| case(&turned(harbour()), WHOLE, [start, 1, c])));
    }
    for depth in [0, 1] {
        cases.extend((0..5).map(|start| case(&harbour(), depth, [start, 1, start % 3])));
    }
    cases
}

/// Below node 1 stand 2 and 6, below 2 stand 3 and 4, below 4 stands 5; beside
/// node 1 stands 7 with 8 below it. The one link outside the tree joins 4 to 8.
fn forks() -> Rows {
    let links = [
        [0, 1, 2],
        [2, 1, 1],
        [2, 3, 1],
        [4, 2, 2],
        [4, 5, 1],
        [1, 6, 3],
        [0, 7, 1],
        [8, 7, 1],
        [8, 4, 9],
    ];
    served(&[0, 1, 2, 3, 4, 5, 6, 7], &links)
}

/// A path of four whose every link has a parallel one: recorded from the same
/// end and as long, from the other end, and longer.
fn doubled() -> Rows {
    let path = [[0, 1, 4], [1, 2, 4], [2, 3, 4]];
    let more = [[0, 1, 4], [2, 1, 4], [2, 3, 6]];
    served(&[0, 1, 2], &[path, more].concat())
}

/// A path of four with no length at all, and a link from each node to the root.
fn weightless() -> Rows {
    let links = [[0, 1], [1, 2], [2, 3], [3, 0], [0, 2], [1, 0]];
    served(&[0, 1, 2], &links.map(|[a, b]| [a, b, 0]))
}

/// Measures that take different links, parallel links, lengths of 0, stars, a
/// root that is not node 0, and one node.
fn by_hand() -> Vec<Case> {
    let mut list: Vec<(Rows, Words)> = Vec::new();
    for (_, marks) in WAYS {
        list.extend([0, 1, 2].map(|c| (ways(marks), [5, 1, c])));
    }
    let measures = MEASURE_WORDS.iter();
    list.extend(measures.map(|&c| (ways([0, 1, 0]), [3, 1, c])));
    for rows in [spare(), turned(spare())] {
        list.extend([[0, 1, 0], [1, 1, 0]].map(|words| (rows.clone(), words)));
    }
    for rows in [opposite([9, 9]), opposite([9, 8]), turned(branches())] {
        list.extend([[1, 1, 0], [2, 1, 1], [2, 2, 2]].map(|words| (rows.clone(), words)));
    }
    for rows in [doubled(), weightless(), spur(), weighed()] {
        for failed in 1..4 {
            list.extend((failed..4).map(|start| (rows.clone(), [start, failed, start % 3])));
        }
    }
    let star = Draft::star(5, 4).join(2, 1, 3).join(3, 2, 8);
    let star = star.with_tree(&mut Rng::new(0));
    let words = [
        [1, 1, 0],
        [2, 2, 1],
        [3, 3, 2],
        [4, 4, 0],
        [1, 4, 0],
        [0, 2, 1],
    ];
    list.extend(words.map(|words| (star.clone(), words)));
    let ring = Draft::ring(5, 6).rooted(3).with_tree(&mut Rng::new(0));
    let words = [
        [0, 4, 0],
        [0, 0, 1],
        [1, 2, 2],
        [1, 3, 0],
        [4, 2, 0],
        [3, 0, 0],
    ];
    list.extend(words.map(|words| (ring.clone(), words)));
    list.extend([[0, 0, 0], [1, 0, 0], [0, 1, 0]].map(|words| (bare(1), words)));
    let whole = list.iter().map(|(rows, words)| case(rows, WHOLE, *words));
    whole.collect()
}

/// A path of the most nodes whose last is joined to the root. The way of the
/// last node, up to node 1 and back, has as many nodes as a way can have.
fn there_and_back() -> Rows {
    large().swap_remove(1).rows
}

/// Node 1 and a path of all other nodes below the root, and a link from node 1
/// to the path's last node. The longest way up is the end of a detour.
fn back_by_the_path() -> Rows {
    let mut draft = Draft::nodes(MOST_NODES).join(0, 1, 1).join(0, 2, 1);
    for x in 3..MOST_NODES {
        draft.add(x, x - 1, 1, IN_SERVICE);
    }
    let draft = draft.join(1, MOST_NODES - 1, LONGEST);
    draft.with_tree(&mut Rng::new(0))
}

/// The longest ways, and with one hop less than the depth that they need.
fn longest() -> Vec<Case> {
    let last = MOST_NODES as u16 - 1;
    let round = there_and_back();
    let path = back_by_the_path();
    vec![
        case(&round, WHOLE, [last, 1, 0]),
        case(&round, DEEPEST, [last, 1, 1]),
        case(&round, DEEPEST - 1, [last, 1, 2]),
        case(&round, WHOLE, [256, 1, 1]),
        case(&round, WHOLE, [last, last, 2]),
        case(&round, WHOLE, [last + 1, 1, 0]),
        case(&path, WHOLE, [1, 1, 0]),
        case(&path, WHOLE, [last, 1, 1]),
    ]
}

/// More long ways.
fn long() -> Vec<Case> {
    let last = MOST_NODES as u16 - 1;
    let (round, path) = (there_and_back(), back_by_the_path());
    let mut words: Vec<Words> = [last - 1, 2, 1].map(|u| [u, 1, u % 3]).into();
    words.extend([
        [last, 2, 0],
        [last, 256, 1],
        [0, last, 0],
        [last - 1, last, 0],
    ]);
    words.push([1, last + 1, 0]);
    let mut cases: Vec<Case> = words.iter().map(|&w| case(&round, WHOLE, w)).collect();
    cases.push(case(&round, DEEPEST - 1, [0, 1, 0]));
    cases.push(case(&path, WHOLE, [last, 2, 2]));
    cases
}

/// Numbers around n and at the end, of Harbour.
fn numbers() -> Vec<Case> {
    let asked = [0, 1, 3, 4, 5, 6, NO_NODE];
    let none = |x: &u16| *x > 4;
    let mut cases = Vec::new();
    for start in asked {
        for failed in asked {
            if none(&start) || none(&failed) {
                cases.push(case(&harbour(), WHOLE, [start, failed, 0]));
            }
        }
    }
    cases
}

/// What is asked of Harbour: an ordinary way, a detour, and 15, 16 and 17.
const ASKED: [Words; 6] = [
    [4, 1, 0],
    [3, 1, 1],
    [5, 1, 0],
    [3, 5, 0],
    [3, 0, 0],
    [4, 4, 2],
];

/// One row of each length at its limits, the other just long enough.
fn one_room() -> Vec<Case> {
    let mut cases = Vec::new();
    for room in ROOMS {
        for rooms in [[room, ROUTE_ROW], [ROUTE_ROW, room]] {
            let asked = ASKED[..2].iter();
            cases.extend(asked.map(|&words| in_rooms(&harbour(), WHOLE, words, rooms)));
        }
    }
    cases
}

/// Both rows of every length at its limits.
fn two_rooms_each() -> Vec<Case> {
    let mut cases = Vec::new();
    for one in ROOMS {
        for two in ROOMS {
            let asked = ASKED.iter();
            cases.extend(asked.map(|&words| in_rooms(&harbour(), WHOLE, words, [one, two])));
        }
    }
    cases
}

/// Faults of what is asked, each alone and with every other: either row short
/// or both, the start no node, the failed node none or the root, no swap link.
/// A failed node that is none, or the root, has no swap link.
fn wrong_together() -> Vec<Case> {
    let short = ROUTE_ROW - 1;
    let rooms = [
        [ROUTE_ROW; 2],
        [short, ROUTE_ROW],
        [ROUTE_ROW, short],
        [0; 2],
    ];
    let mut cases = Vec::new();
    for rooms in rooms {
        for start in [4, 5] {
            for failed in [4, 5, 0] {
                cases.push(in_rooms(&harbour(), WHOLE, [start, failed, 0], rooms));
            }
        }
        cases.push(in_rooms(&harbour(), 0, [3, 1, 0], rooms));
    }
    cases
}

/// Each refusal of a network where all that is asked is wrong too.
fn wrong_network() -> Vec<Case> {
    let mut rng = Rng::new(0);
    let sound = harbour();
    let mut cases = Vec::new();
    for why in NETWORK_FAULTS {
        let faulty = Faulty::new(&sound, WHOLE).with(&mut rng, &[why]);
        let wrong = [NO_NODE, NO_NODE, 0];
        let case = in_rooms(&faulty.rows, faulty.depth, wrong, [0; 2]);
        cases.push(case.by(faulty.rule));
    }
    cases
}

/// The depths at their limits.
fn depths() -> Vec<Case> {
    let mut cases = Vec::new();
    for depth in [DEEPEST, DEEPEST + 1, WHOLE - 1, WHOLE] {
        cases.extend(ASKED.map(|words| case(&harbour(), depth, words)));
    }
    cases
}

/// Link rows with a part of a record at the end, or with records cut off.
fn cut_rows() -> Vec<Case> {
    let mut cases = Vec::new();
    for length in 20..=harbour().links.len() + 3 {
        let mut rows = harbour();
        rows.links.resize(length, 9);
        cases.push(case(&rows, WHOLE, [3, 1, 1]));
    }
    cases
}

/// What is asked of a sound network: of about so many failed nodes, the way of
/// the node itself, of the one farthest below it in hops, of its parent, of the
/// root and of any node. Nothing of a network that is refused.
fn asks(rows: &Rows, failed: usize) -> Vec<Words> {
    let net = rows.lend();
    let tree = match check(&net, Terms::by_number(WHOLE)) {
        Ok(tree) => tree,
        Err(_) => return Vec::new(),
    };
    let mut list: Vec<Words> = Vec::new();
    for x in (0..net.n()).step_by((net.n() / failed).max(1)) {
        let parent = match tree.parent[x] {
            Some(parent) => parent,
            None => continue,
        };
        let below = tree.below(x);
        let deepest = *below.iter().max_by_key(|&&u| tree.hops[u]).expect("x is");
        let any = (7 * x + 3) % net.n();
        for start in [x, deepest, parent, usize::from(rows.root), any] {
            let words = [start as u16, x as u16, list.len() as u16 % 3];
            list.push(words);
        }
    }
    list
}

/// A fault of what is asked.
#[derive(Clone, Copy)]
enum Fault {
    OrdinaryRow,
    DetourRow,
    Start,
    NoFailed,
    RootFailed,
    NoSwap,
}

const FAULTS: [Fault; 6] = [
    Fault::OrdinaryRow,
    Fault::DetourRow,
    Fault::Start,
    Fault::NoFailed,
    Fault::RootFailed,
    Fault::NoSwap,
];

/// The network with two more nodes, one below the other, on a bridge at the
/// root.
fn with_bridge(mut rows: Rows) -> Rows {
    let (n, m) = (rows.parents.len() as u16, rows.lend().m() as u16);
    rows.links.extend([rows.root, n, 3, IN_SERVICE]);
    rows.links.extend([n + 1, n, 3, IN_SERVICE]);
    rows.parents.extend([m, m + 1]);
    rows
}

/// Every fault of a network with every fault of what is asked.
fn faulty() -> Vec<Case> {
    let mut rng = Rng::new(u64::from(FORWARD));
    let mut cases = Vec::new();
    for why in NETWORK_FAULTS {
        for fault in FAULTS {
            for _ in 0..3 {
                cases.push(with_both(&mut rng, why, fault));
            }
        }
    }
    cases
}

fn with_both(rng: &mut Rng, why: Why, fault: Fault) -> Case {
    let sound = with_bridge(random::rich_network(rng));
    let bridge = sound.parents.len() as u16 - 2;
    let faulty = Faulty::new(&sound, WHOLE).with(rng, &[why]);
    let n = faulty.rows.parents.len() as u16;
    let none = rng.pick(&[n, n + 1, NO_NODE]);
    let failed = rng.below(bridge as usize) as u16;
    let mut words = [rng.below(bridge as usize) as u16, failed, rng.word()];
    let mut rooms = [ROUTE_ROW; 2];
    let short = rng.pick(&[0, 1, ROUTE_ROW - 1]);
    match fault {
        Fault::OrdinaryRow => rooms[0] = short,
        Fault::DetourRow => rooms[1] = short,
        Fault::Start => words[0] = none,
        Fault::NoFailed => words[1] = none,
        Fault::RootFailed => words[1] = faulty.rows.root,
        Fault::NoSwap => words[..2].copy_from_slice(&[bridge + rng.below(2) as u16, bridge]),
    }
    in_rooms(&faulty.rows, faulty.depth, words, rooms).by(faulty.rule)
}

/// A random network, mostly sound, with a failed node that often lies on the
/// start's route, and rows that are mostly long enough.
pub fn random(rng: &mut Rng) -> Case {
    let (rows, terms) = some_network(rng);
    let start = some_start(rng, &rows);
    let failed = some_failed(rng, &rows, start);
    let measure = match rng.below(8) {
        0 => rng.word(),
        _ => rng.below(MEASURES) as u16,
    };
    let rooms = [some_room(rng), some_room(rng)];
    in_rooms(&rows, terms.depth, [start, failed, measure], rooms).by(terms.rule)
}

fn some_network(rng: &mut Rng) -> (Rows, Terms) {
    let depth = random::depth(rng);
    if rng.chance(88) {
        return (random::network(rng), Terms::by_number(depth));
    }
    let sound = random::rich_network(rng);
    let faults = [rng.pick(&NETWORK_FAULTS), rng.pick(&NETWORK_FAULTS)];
    let many = rng.from_to(1, 2);
    let faulty = Faulty::new(&sound, depth).with(rng, &faults[..many]);
    let Faulty { depth, rule, .. } = faulty;
    (faulty.rows, Terms { depth, rule })
}

fn no_node(rng: &mut Rng, rows: &Rows) -> u16 {
    let n = rows.parents.len() as u16;
    rng.pick(&[n, n + 1, NO_NODE])
}

/// Mostly a node, seldom the root or none.
fn some_start(rng: &mut Rng, rows: &Rows) -> u16 {
    let n = rows.parents.len();
    match rng.below(20) {
        0 => no_node(rng, rows),
        1 => rows.root,
        _ => rng.below(n.max(1)) as u16,
    }
}

/// Mostly a node on the start's route, or any node that is not the root; at
/// times the start, seldom the root or none.
fn some_failed(rng: &mut Rng, rows: &Rows, start: u16) -> u16 {
    let route = match rng.below(25) {
        0 => return no_node(rng, rows),
        1 => return rows.root,
        2 => return start,
        3..=18 => route_of(&rows.lend(), usize::from(start)).unwrap_or_default(),
        _ => Vec::new(),
    };
    let all = (0..rows.parents.len()).collect();
    for mut nodes in [route, all] {
        nodes.retain(|&x| x != usize::from(rows.root));
        if !nodes.is_empty() {
            return rng.pick(&nodes) as u16;
        }
    }
    start
}

/// Mostly just long enough.
fn some_room(rng: &mut Rng) -> usize {
    match rng.below(12) {
        0 => rng.pick(&ROOMS),
        1 => rng.below(PROBE_ROUTE + 1),
        _ => ROUTE_ROW,
    }
}

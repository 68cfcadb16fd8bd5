//! The forwarder: on Harbour and other networks worked out by hand, on random
//! networks against the plain definitions and what a way must be, and on kept
//! cases against wrong readings.

mod common;
#[path = "common/plain.rs"]
mod plain;

use common::*;
use second::answers::answer;
use second::cases::kept;
use second::check::check;
use second::filed::way_line;
use second::forward::{forward, Asked, Kind, Measure};
use second::network::Rows;
use second::probe::{next, Case, Next};
use second::random;
use second::rng::Rng;
use second::terms::Terms;
use second::ties;

const WHOLE: u16 = 65_535;
const MEASURES: [Measure; 3] = [Measure::Sum, Measure::Incr, Measure::Max];

/// Whether it is a detour, and its nodes; or a refusal's number and place.
type Said<T> = Result<T, (u16, usize)>;

/// Detour or not, nodes and length, in rows of these lengths. What is not
/// handed back must keep its sevens, in both rows.
fn told_in(
    rooms: [usize; 2],
    rows: &Rows,
    terms: Terms,
    asked: Asked,
) -> Said<(bool, Vec<usize>, u64)> {
    let [mut ordinary, mut detour] = rooms.map(|room| vec![7; room]);
    let lent = [&mut ordinary[..], &mut detour[..]];
    let answer = told(forward(&rows.lend(), terms, &asked, lent));
    let sevens = |row: &[u16]| row.iter().all(|&number| number == 7);
    let told = match answer {
        Ok(told) => told,
        Err(refused) => {
            assert!(sevens(&ordinary) && sevens(&detour));
            return Err(refused);
        }
    };
    let (row, other) = match told.kind {
        Kind::Ordinary => (ordinary, detour),
        Kind::Detour => (detour, ordinary),
    };
    assert!(sevens(&other) && sevens(&row[told.count..]));
    let nodes = row[..told.count].iter().map(|&x| x as usize).collect();
    Ok((told.kind == Kind::Detour, nodes, told.length))
}

/// The same by rule 0, in rows that are just long enough.
fn told_of(
    rows: &Rows,
    depth: u16,
    start: u16,
    failed: u16,
    measure: Measure,
) -> Said<(bool, Vec<usize>, u64)> {
    told_by(rows, at(depth), start, failed, measure)
}

/// The same by any rule.
fn told_by(
    rows: &Rows,
    terms: Terms,
    start: u16,
    failed: u16,
    measure: Measure,
) -> Said<(bool, Vec<usize>, u64)> {
    let asked = Asked {
        start,
        failed,
        measure,
    };
    told_in([1_022; 2], rows, terms, asked)
}

/// An ordinary way, a detour, and a refusal, as they are told.
fn ordinary(nodes: &[usize], length: u64) -> Said<(bool, Vec<usize>, u64)> {
    Ok((false, nodes.to_vec(), length))
}

fn detour(nodes: &[usize], length: u64) -> Said<(bool, Vec<usize>, u64)> {
    Ok((true, nodes.to_vec(), length))
}

/// Link 0 has failed. By sum the swap link is 3, from node 2 to the root; by
/// incr it is 4, from node 3.
#[test]
fn harbour_by_hand() {
    let rows = harbour();
    let by = |start, failed, measure| told_of(&rows, WHOLE, start, failed, measure);
    for measure in [Measure::Sum, Measure::Max] {
        assert_eq!(by(3, 1, measure), detour(&[3, 1, 2, 0], 10));
        assert_eq!(by(2, 1, measure), detour(&[2, 1, 2, 0], 12));
        assert_eq!(by(1, 1, measure), detour(&[1, 2, 0], 9));
        assert_eq!(by(4, 1, measure), ordinary(&[4, 0], 9));
        assert_eq!(by(0, 1, measure), ordinary(&[0], 0));
    }
    assert_eq!(by(3, 1, Measure::Incr), detour(&[3, 1, 3, 0], 9));
    assert_eq!(by(2, 1, Measure::Incr), detour(&[2, 1, 3, 0], 11));
    assert_eq!(by(1, 1, Measure::Incr), detour(&[1, 3, 0], 8));
    assert_eq!(by(2, 2, Measure::Incr), detour(&[2, 0], 6));
    assert_eq!(by(3, 2, Measure::Incr), ordinary(&[3, 1, 0], 3));
    assert_eq!(by(3, 3, Measure::Sum), detour(&[3, 0], 7));
    assert_eq!(by(4, 4, Measure::Sum), Err((17, 4)));
    assert_eq!(by(3, 4, Measure::Sum), ordinary(&[3, 1, 0], 3));
}

/// At depth 0 node 1 has no swap link, and only what is cut off is refused.
#[test]
fn harbour_at_a_depth() {
    let by = |depth, start| told_of(&harbour(), depth, start, 1, Measure::Sum);
    for start in [1, 2, 3] {
        assert_eq!(by(0, start), Err((17, 1)));
    }
    assert_eq!(by(0, 4), ordinary(&[4, 0], 9));
    assert_eq!(by(0, 0), ordinary(&[0], 0));
    assert_eq!(by(1, 3), detour(&[3, 1, 2, 0], 10));
}

/// The lines of Harbour's file, and of a file that is refused.
#[test]
fn lines_of_a_file() {
    let line = |file: &[u8], start, failed| {
        let measure = Measure::Sum;
        way_line(
            file,
            &Asked {
                start,
                failed,
                measure,
            },
        )
    };
    let file = harbour_file();
    assert_eq!(line(&file, 3, 1), "detour 3 1 2 0 length 10\n");
    assert_eq!(line(&file, 2, 1), "detour 2 1 2 0 length 12\n");
    assert_eq!(line(&file, 4, 1), "ordinary 4 0 length 9\n");
    assert_eq!(line(&file, 5, 5), "refused 15 0\n");
    assert_eq!(line(&file, 4, 0), "refused 16 0\n");
    assert_eq!(line(&file, 4, 4), "refused 17 4\n");
    assert_eq!(line(&file[1..], 4, 4), "refused 20 0\n");
    assert_eq!(line(&[0; 32_768], 4, 4), "refused 20 0\n");
}

/// Node 1 with 2 and 6 below it, 2 with 3 and 4, 4 with 5; beside node 1 stands
/// 7 with 8 below it. The one link outside the tree joins 4 and 8, 9 long.
fn forks() -> Rows {
    let links = [
        [0, 1, 2],
        [1, 2, 1],
        [2, 3, 1],
        [2, 4, 2],
        [4, 5, 1],
        [1, 6, 3],
        [0, 7, 1],
        [7, 8, 1],
        [4, 8, 9],
    ];
    rows(&[65_535, 0, 1, 2, 3, 4, 5, 6, 7], &links, 0)
}

/// The start stands above the lower end, below it, beside it and at it; the way
/// goes past the node where their routes meet, up to the failed node.
#[test]
fn every_place_of_the_start() {
    let by = |start, failed| told_of(&forks(), WHOLE, start, failed, Measure::Max);
    let end = [8, 7, 0];
    let way = |nodes: &[usize]| [nodes, &end].concat();
    assert_eq!(by(1, 1), detour(&way(&[1, 2, 4]), 14));
    assert_eq!(by(2, 1), detour(&way(&[2, 1, 2, 4]), 15));
    assert_eq!(by(3, 1), detour(&way(&[3, 2, 1, 2, 4]), 16));
    assert_eq!(by(4, 1), detour(&way(&[4, 2, 1, 2, 4]), 17));
    assert_eq!(by(5, 1), detour(&way(&[5, 4, 2, 1, 2, 4]), 18));
    assert_eq!(by(6, 1), detour(&way(&[6, 1, 2, 4]), 17));
    assert_eq!(by(0, 1), ordinary(&[0], 0));
    assert_eq!(by(8, 1), ordinary(&[8, 7, 0], 2));
    assert_eq!(by(3, 2), detour(&way(&[3, 2, 4]), 14));
    assert_eq!(by(1, 2), ordinary(&[1, 0], 2));
    assert_eq!(by(6, 2), ordinary(&[6, 1, 0], 5));
    assert_eq!(by(4, 4), detour(&way(&[4]), 11));
    assert_eq!(by(5, 4), detour(&way(&[5, 4]), 12));
    assert_eq!(by(8, 7), detour(&[8, 7, 8, 4, 2, 1, 0], 16));
    assert_eq!(by(8, 8), detour(&[8, 4, 2, 1, 0], 14));
    assert_eq!(by(5, 7), ordinary(&[5, 4, 2, 1, 0], 6));
    for bridge in [3, 5, 6] {
        assert_eq!(by(bridge, bridge), Err((17, bridge as usize)));
        assert_eq!(by(2, bridge), ordinary(&[2, 1, 0], 3));
    }
}

/// A link parallel to the failed one: the same nodes, and another length.
#[test]
fn a_parallel_link() {
    let links = [[0, 1, 4], [1, 2, 4], [2, 1, 7], [1, 0, 4]];
    let rows = rows(&[65_535, 0, 1], &links, 0);
    let by = |start, failed| told_of(&rows, WHOLE, start, failed, Measure::Incr);
    assert_eq!(by(2, 2), detour(&[2, 1, 0], 11));
    assert_eq!(by(2, 1), detour(&[2, 1, 0], 8));
    assert_eq!(by(1, 1), detour(&[1, 0], 4));
    assert_eq!(by(1, 2), ordinary(&[1, 0], 4));
}

/// 512 nodes in a path, the last joined to the root: no way is longer than that
/// of the last node past node 1.
#[test]
fn the_longest_way() {
    let mut links: Vec<[u16; 3]> = (0..511).map(|x| [x, x + 1, 1]).collect();
    links.push([511, 0, 511]);
    let parents: Vec<u16> = [65_535].into_iter().chain(0..511).collect();
    let rows = rows(&parents, &links, 0);
    let up = (1..=511).rev();
    let nodes: Vec<usize> = up.chain(2..=511).chain([0]).collect();
    assert_eq!(nodes.len(), 1_022);
    let right = detour(&nodes, 510 + 510 + 511);
    for depth in [WHOLE, 510] {
        assert_eq!(told_of(&rows, depth, 511, 1, Measure::Sum), right);
    }
    let short = told_of(&rows, 509, 511, 1, Measure::Sum);
    assert_eq!(short, Err((17, 1)));
}

/// Each row needs 1,022 numbers, however short the way is; 10 comes before 15,
/// 16 and 17, and 1 to 9 before 10; 14 stands between 4 and 5.
#[test]
fn short_rows_and_the_order() {
    let rows = harbour();
    let asked = |start, failed| Asked {
        start,
        failed,
        measure: Measure::Sum,
    };
    let in_rooms = |rooms, start, failed| told_in(rooms, &rows, at(WHOLE), asked(start, failed));
    let all = [(4, 1), (0, 1), (3, 1), (5, 1), (3, 0), (3, 5), (4, 4)];
    for (start, failed) in all {
        for short in [0, 1, 1_021] {
            for long in [1_022, 5_000] {
                for rooms in [[short, long], [long, short], [short; 2]] {
                    assert_eq!(in_rooms(rooms, start, failed), Err((10, 0)));
                }
            }
        }
    }
    for rooms in [[1_022, 1_023], [5_000, 1_022]] {
        assert_eq!(in_rooms(rooms, 4, 1), ordinary(&[4, 0], 9));
        assert_eq!(in_rooms(rooms, 3, 1), detour(&[3, 1, 2, 0], 10));
        for failed in [0, 1, 4, 5, 65_535] {
            assert_eq!(in_rooms(rooms, 5, failed), Err((15, 0)));
            assert_eq!(in_rooms(rooms, 65_535, failed), Err((15, 0)));
        }
        for failed in [0, 5, 65_535] {
            for start in 0..5 {
                assert_eq!(in_rooms(rooms, start, failed), Err((16, 0)));
            }
        }
        assert_eq!(in_rooms(rooms, 4, 4), Err((17, 4)));
    }
    let mut no_root = rows.clone();
    no_root.root = 5;
    let answer = told_in([0; 2], &no_root, at(WHOLE), asked(5, 5));
    assert_eq!(answer, Err((3, 0)));
    let answer = told_in([0; 2], &rows, by(2, 511), asked(5, 5));
    assert_eq!(answer, Err((4, 0)));
    let mut no_ends = rows.clone();
    no_ends.links[1] = 0;
    let answer = told_in([0; 2], &no_ends, by(2, 510), asked(5, 5));
    assert_eq!(answer, Err((14, 0)));
}

/// The swap link, z and z' of x under a measure; none where x has no candidate.
fn swap(rows: &Rows, terms: Terms, x: usize, measure: usize) -> Option<(usize, usize, usize)> {
    let priced = plain::priced(rows, terms.depth, x);
    if priced.is_empty() {
        return None;
    }
    let (best, _) = plain::best(&priced, measure, terms.rule);
    let list = plain::candidates(rows, terms.depth, x);
    list.into_iter().find(|link| link.0 as u64 == best)
}

/// Whether a link in service that is not this one joins the two nodes.
fn joined(rows: &Rows, not: usize, u: usize, v: usize) -> bool {
    (0..plain::links(rows)).any(|e| {
        let (a, b, _, served) = plain::link(rows, e);
        served && e != not && ((a, b) == (u, v) || (a, b) == (v, u))
    })
}

/// The length of one step of a detour: across the swap link where it leads out
/// of T(x), else the tree link of the one whose parent the other is.
fn step(rows: &Rows, x: usize, swap: usize, u: usize, v: usize) -> u64 {
    let out = |w: usize| !plain::route(rows, w).contains(&x);
    if !out(u) && out(v) {
        return plain::link(rows, swap).2;
    }
    let is_parent = |low: usize, high: usize| plain::route(rows, low).get(1) == Some(&high);
    assert!(is_parent(u, v) || is_parent(v, u), "{u} {v}");
    plain::d(rows, u).abs_diff(plain::d(rows, v))
}

/// Where a node first stands in a list.
fn place_of(nodes: &[usize], x: usize) -> usize {
    nodes.iter().position(|&u| u == x).unwrap()
}

/// What a detour must be, whatever the way is that it was found.
fn check_detour(
    rows: &Rows,
    [start, x]: [usize; 2],
    (e, z, beyond): (usize, usize, usize),
    nodes: &[usize],
    length: u64,
) {
    let n = rows.parents.len();
    let last = nodes[nodes.len() - 1];
    assert_eq!((nodes[0], last), (start, usize::from(rows.root)));
    assert!(nodes.len() <= 2 * n - 2 && nodes.len() <= 1_022);
    assert_eq!(nodes.iter().filter(|&&u| u == x).count(), 1);
    let failed = usize::from(rows.parents[x]);
    let pairs = || nodes.windows(2).map(|pair| (pair[0], pair[1]));
    assert!(pairs().all(|(u, v)| joined(rows, failed, u, v)));
    let out = |w: usize| !plain::route(rows, w).contains(&x);
    let crossed: Vec<(usize, usize)> = pairs().filter(|&(u, v)| out(u) != out(v)).collect();
    assert_eq!(crossed, [(z, beyond)]);

    let (up, down) = (plain::route(rows, start), plain::route(rows, z));
    let (top, across) = (place_of(&up, x), place_of(&down, x) + 1);
    let (climbed, rest) = nodes.split_at(top);
    assert_eq!(climbed, &up[..top]);
    let fallen: Vec<usize> = rest[..across].iter().rev().copied().collect();
    assert_eq!(fallen, &down[..across]);
    assert_eq!(rest[across..], plain::route(rows, beyond));

    let steps: u64 = pairs().map(|(u, v)| step(rows, x, e, u, v)).sum();
    assert_eq!(length, steps);
    let new = plain::t(rows, start, z) + plain::link(rows, e).2 + plain::d(rows, beyond);
    let meet = *up.iter().find(|u| down.contains(u)).unwrap();
    assert_eq!(length, new + 2 * plain::t(rows, x, meet));
}

/// Whether a node stands in a list twice.
fn repeats(nodes: &[usize]) -> bool {
    (0..nodes.len()).any(|i| nodes[..i].contains(&nodes[i]))
}

/// Every start, failed node and measure of random networks.
#[test]
fn random_networks_have_the_plain_ways() {
    let mut rng = Rng::new(71);
    let mut met = [0; 4];
    for _ in 0..700 {
        let n = rng.from_to(1, 10);
        let rows = random::draft(&mut rng, n).with_tree(&mut rng);
        let terms = by(rng.pick(&[0, 1]), rng.pick(&[WHOLE, WHOLE, 0, 1, 2, 510]));
        let (n, root) = (rows.parents.len(), usize::from(rows.root));
        for x in (0..n).filter(|&x| x != root) {
            for (k, measure) in MEASURES.into_iter().enumerate() {
                let link = swap(&rows, terms, x, k);
                for start in 0..n {
                    let answer = told_by(&rows, terms, start as u16, x as u16, measure);
                    let up = plain::route(&rows, start);
                    if !up.contains(&x) {
                        assert_eq!(answer, ordinary(&up, plain::d(&rows, start)));
                        met[0] += 1;
                        continue;
                    }
                    let link = match link {
                        Some(link) => link,
                        None => {
                            assert_eq!(answer, Err((17, x)));
                            met[1] += 1;
                            continue;
                        }
                    };
                    let (is_detour, nodes, length) = answer.unwrap();
                    assert!(is_detour);
                    check_detour(&rows, [start, x], link, &nodes, length);
                    met[2] += 1;
                    met[3] += usize::from(repeats(&nodes));
                }
            }
        }
        check_refused(&mut rng, &rows, terms);
    }
    assert!(met.iter().all(|&count| count > 2_000), "{met:?}");
}

/// Numbers that are no node, and the root as the failed node.
fn check_refused(rng: &mut Rng, rows: &Rows, terms: Terms) {
    let n = rows.parents.len() as u16;
    let measure = rng.pick(&MEASURES);
    let node = rng.below(rows.parents.len()) as u16;
    for none in [n, n + 1, 65_535] {
        for failed in [node, rows.root, none] {
            let answer = told_by(rows, terms, none, failed, measure);
            assert_eq!(answer, Err((15, 0)));
        }
        for failed in [rows.root, none] {
            let answer = told_by(rows, terms, node, failed, measure);
            assert_eq!(answer, Err((16, 0)));
        }
    }
}

/// Larger networks, a few ways of each; half of them are such on which many
/// candidates tie.
#[test]
fn larger_networks_have_the_plain_ways() {
    let mut rng = Rng::new(72);
    let (mut met, mut apart) = (0, 0);
    for i in 0..120 {
        let n = rng.from_to(20, 60);
        let rows = match i % 2 {
            0 => random::draft(&mut rng, n).with_tree(&mut rng),
            _ => ties::network(&mut rng),
        };
        let terms = by(rng.pick(&[0, 1]), WHOLE);
        let n = rows.parents.len();
        for _ in 0..12 {
            let start = rng.below(n);
            let up = plain::route(&rows, start);
            if up.len() < 2 {
                continue;
            }
            let x = up[rng.below(up.len() - 1)];
            let k = rng.below(3);
            let answer = told_by(&rows, terms, start as u16, x as u16, MEASURES[k]);
            match swap(&rows, terms, x, k) {
                Some(link) => {
                    let (is_detour, nodes, length) = answer.unwrap();
                    assert!(is_detour);
                    check_detour(&rows, [start, x], link, &nodes, length);
                    met += 1;
                    let other = swap(&rows, by(1 - terms.rule, WHOLE), x, k);
                    apart += usize::from(other != Some(link));
                }
                None => assert_eq!(answer, Err((17, x))),
            }
        }
    }
    assert!(met > 400 && apart > 50, "{met} {apart}");
}

/// A way to read what is asked: the right one, and wrong ones.
#[derive(Clone, Copy, PartialEq, Eq, Debug)]
enum Reading {
    Right,
    /// The failed node stands in the list where the way up ends and again
    /// where the way down begins.
    FailedTwice,
    /// Down from where the routes of start and lower end meet.
    FromTheMeet,
    /// The list ends across the swap link.
    EndsAcross,
    /// The failed node itself is not cut off.
    FailedIsNotCutOff,
    /// Whoever has a way is refused too where there is no swap link.
    AllNeedSwap,
    /// The first end of the swap link is the lower.
    FirstIsLower,
    /// The measure does not count.
    AlwaysSum,
    /// A number over 2 is max.
    OverIsMax,
    /// Every link that crosses is a candidate, whatever the depth.
    NoDepth,
    /// The row that applies must hold the way, and the other is not asked.
    RoomAsNeeded,
    /// Only the row that applies must be long.
    RoomOfOne,
    /// 15 and 16 before 10.
    RoomLast,
    /// 16 before 15.
    FailedFirst,
    /// The root may fail: nothing crosses it.
    RootFails,
    /// The place of 17 is 0, or the start.
    PlaceZero,
    PlaceStart,
    /// The rule does not count.
    NoRule,
}

const WRONG: [Reading; 17] = [
    Reading::FailedTwice,
    Reading::FromTheMeet,
    Reading::EndsAcross,
    Reading::FailedIsNotCutOff,
    Reading::AllNeedSwap,
    Reading::FirstIsLower,
    Reading::AlwaysSum,
    Reading::OverIsMax,
    Reading::NoDepth,
    Reading::RoomAsNeeded,
    Reading::RoomOfOne,
    Reading::RoomLast,
    Reading::FailedFirst,
    Reading::RootFails,
    Reading::PlaceZero,
    Reading::PlaceStart,
    Reading::NoRule,
];

/// What a case of a sound network asks, by a reading.
fn read_as(case: &Case, how: Reading) -> Said<(bool, Vec<usize>)> {
    let is = |wrong: Reading| how == wrong;
    let (rows, n, root) = (case.rows(), case.parents.len(), usize::from(case.root));
    let [start, x, c] = case.abc.map(usize::from);
    let rooms = [case.room >> 16, case.room & 0xFFFF];
    let by_need = is(Reading::RoomAsNeeded) || is(Reading::RoomOfOne);
    let short = rooms.iter().any(|&room| room < 1_022) && !by_need;
    let (no_start, no_failed) = (start >= n, x >= n || (x == root && !is(Reading::RootFails)));
    if short && !is(Reading::RoomLast) {
        return Err((10, 0));
    }
    if no_failed && is(Reading::FailedFirst) {
        return Err((16, 0));
    }
    if no_start || no_failed {
        return Err((if no_start { 15 } else { 16 }, 0));
    }
    if short {
        return Err((10, 0));
    }
    let way = way_as(case, &rows, how, [start, x, c])?;
    let room = rooms[usize::from(way.0)];
    match how {
        Reading::RoomAsNeeded if room < way.1.len() => Err((10, 0)),
        Reading::RoomOfOne if room < 1_022 => Err((10, 0)),
        _ => Ok(way),
    }
}

/// The way by a reading, where the numbers name nodes.
fn way_as(
    case: &Case,
    rows: &Rows,
    how: Reading,
    [start, x, c]: [usize; 3],
) -> Said<(bool, Vec<usize>)> {
    let is = |wrong: Reading| how == wrong;
    let measure = match c {
        _ if is(Reading::AlwaysSum) => 0,
        3.. if is(Reading::OverIsMax) => 2,
        _ => c % 3,
    };
    let mut terms = case.terms();
    match how {
        Reading::NoDepth => terms.depth = WHOLE,
        Reading::NoRule => terms.rule = 0,
        _ => {}
    }
    let up = plain::route(rows, start);
    let cut = up.contains(&x) && !(start == x && is(Reading::FailedIsNotCutOff));
    let link = swap(rows, terms, x, measure);
    let place = match how {
        Reading::PlaceZero => 0,
        Reading::PlaceStart => start,
        _ => x,
    };
    let needs_swap = cut || (is(Reading::AllNeedSwap) && link.is_none());
    let (e, mut z, mut beyond) = match link {
        _ if !needs_swap => return Ok((false, up)),
        None => return Err((17, place)),
        Some(link) => link,
    };
    if is(Reading::FirstIsLower) {
        let (a, b, _, _) = plain::link(rows, e);
        (z, beyond) = (a, b);
    }
    let down = plain::route(rows, z);
    let top = match how {
        Reading::FromTheMeet => *up.iter().find(|u| down.contains(u)).unwrap(),
        _ => x,
    };
    let below = |nodes: &[usize]| -> Vec<usize> {
        let part = nodes.iter().take_while(|&&u| u != top);
        part.copied().collect()
    };
    let (mut nodes, mut back) = (below(&up), below(&down));
    back.reverse();
    nodes.push(top);
    nodes.extend(is(Reading::FailedTwice).then_some(x));
    nodes.extend(back);
    let rest = plain::route(rows, beyond);
    let many = if is(Reading::EndsAcross) {
        1
    } else {
        rest.len()
    };
    nodes.extend(&rest[..many]);
    Ok((true, nodes))
}

/// What must be printed for a case, taken apart.
fn printed(case: &Case) -> Said<(bool, Vec<usize>)> {
    let text = answer(case);
    let lines: Vec<&str> = text.lines().collect();
    assert_eq!(lines[lines.len() - 2..], ["ordinary kept", "detour kept"]);
    let words: Vec<&str> = lines[0].split(' ').collect();
    if words[1] == "refused" {
        assert_eq!(lines.len(), 3);
        return Err((words[2].parse().unwrap(), words[3].parse().unwrap()));
    }
    assert_eq!(lines.len(), 4);
    let nodes = lines[1].strip_prefix("route ").unwrap().split(' ');
    let nodes = nodes.map(|word| word.parse().unwrap()).collect();
    Ok((words[2] == "detour", nodes))
}

/// The kept cases by the right reading and by wrong ones. Cases whose network
/// is refused, and the longest, are left to other tests.
#[test]
fn the_kept_ways_tell_wrong_readings_apart() {
    let (bytes, mut cases) = (kept(), Vec::new());
    let mut input = &bytes[..];
    while let Next::Case(case) = next(&mut input) {
        cases.push(case);
    }
    assert!(input.is_empty());
    cases.retain(|case| case.op == 9 && case.parents.len() < 20);
    cases.retain(|case| check(&case.rows().lend(), case.terms()).is_ok());
    assert!(cases.len() > 300, "{}", cases.len());
    let right: Vec<_> = cases.iter().map(printed).collect();
    for (case, right) in cases.iter().zip(&right) {
        assert_eq!(read_as(case, Reading::Right), *right, "{case:?}");
    }
    for wrong in WRONG {
        let mut pairs = cases.iter().zip(&right);
        assert!(
            pairs.any(|(case, right)| read_as(case, wrong) != *right),
            "{wrong:?}"
        );
    }
}

//! Routes, tree distances and meeting places: on sound networks against the
//! plain definitions and the laws of a tree, on rows that are no network
//! against a climb that is counted out, and on kept cases by hand and against
//! wrong readings.

mod common;
#[path = "common/plain.rs"]
mod plain;

use common::{harbour, harbour_file, told};
use second::answers::answer;
use second::cases::{chosen, fixed};
use second::faults::{Faulty, NETWORK_FAULTS};
use second::filed::distance_line;
use second::network::Rows;
use second::probe::Case;
use second::random;
use second::rng::Rng;
use second::routes::{meet_of, route, tree_distance};

type Told<T> = Result<T, (u16, usize)>;

/// The length and the nodes that the program gives, with room to spare that
/// it must not write.
fn given(rows: &Rows, u: usize) -> Told<(u64, Vec<usize>)> {
    let mut row = vec![7; 600];
    let answer = told(route(&rows.lend(), u as u16, &mut row));
    let count = answer.map_or(0, |said| said.count);
    assert!(row[count..].iter().all(|&number| number == 7));
    let nodes = row[..count].iter().map(|&x| x as usize).collect();
    answer.map(|said| (said.length, nodes))
}

fn distance(rows: &Rows, u: usize, z: usize) -> Told<u64> {
    told(tree_distance(&rows.lend(), u as u16, z as u16))
}

fn meet(rows: &Rows, u: usize, z: usize) -> Told<usize> {
    told(meet_of(&rows.lend(), u as u16, z as u16))
}

#[test]
fn sound_networks_have_the_plain_routes() {
    let mut rng = Rng::new(51);
    for _ in 0..500 {
        let n = rng.from_to(1, 12);
        let rows = random::draft(&mut rng, n).with_tree(&mut rng);
        for u in 0..rows.parents.len() {
            let right = (plain::d(&rows, u), plain::route(&rows, u));
            assert_eq!(given(&rows, u), Ok(right));
            for z in 0..rows.parents.len() {
                assert_eq!(distance(&rows, u, z), Ok(plain::t(&rows, u, z)));
            }
        }
    }
}

/// t(u,z) = t(z,u), t(u,u) = 0, t(u,root) = d(u), t(u,z) + 2 d(meet) = d(u) +
/// d(z); the meet is on both routes, and no node below it is.
#[test]
fn the_laws_of_a_tree() {
    let mut rng = Rng::new(52);
    for _ in 0..200 {
        let rows = random::network(&mut rng);
        let n = rows.parents.len();
        for _ in 0..20 {
            let (u, z) = (rng.below(n), rng.below(n));
            let (d_u, up) = given(&rows, u).unwrap();
            let (d_z, down) = given(&rows, z).unwrap();
            let (t, x) = (distance(&rows, u, z).unwrap(), meet(&rows, u, z).unwrap());
            assert_eq!(distance(&rows, z, u), Ok(t));
            assert_eq!(meet(&rows, z, u), Ok(x));
            assert_eq!(distance(&rows, u, u), Ok(0));
            assert_eq!(distance(&rows, u, rows.root as usize), Ok(d_u));
            let (d_x, shared) = given(&rows, x).unwrap();
            assert_eq!(t + 2 * d_x, d_u + d_z);
            let both: Vec<usize> = up.iter().copied().filter(|y| down.contains(y)).collect();
            assert_eq!(both, shared);
        }
    }
}

/// Where u's parent link leads, and its length, by the words of docs/OPS.md.
fn step(rows: &Rows, u: usize) -> (usize, u64) {
    let e = rows.parents.get(u).map_or(65_535, |&e| e as usize);
    let (a, b, w) = match rows.links.chunks_exact(4).nth(e) {
        Some(link) => (link[0] as usize, link[1] as usize, u64::from(link[2])),
        None => (0, 0, 0),
    };
    match u {
        _ if u == rows.root as usize => (u, 0),
        _ if u == a => (b, w),
        _ => (a, w),
    }
}

/// The first n nodes up from u, each with the length of the way to it. From
/// the root on it is the root again and again.
fn climb(rows: &Rows, u: usize) -> Vec<(usize, u64)> {
    let mut list = vec![(u, 0)];
    while list.len() < rows.parents.len() {
        let (here, length) = list[list.len() - 1];
        let (above, w) = step(rows, here);
        list.push((above, length + w));
    }
    list
}

/// The climb of a node that is asked, or refusal 1 or 8.
fn counted(rows: &Rows, u: usize) -> Told<Vec<(usize, u64)>> {
    let n = rows.parents.len();
    if n == 0 || n > 512 {
        return Err((1, 0));
    }
    let list = climb(rows, u);
    if u >= n || list[n - 1].0 != rows.root as usize {
        return Err((8, u));
    }
    Ok(list)
}

/// Of all steps from u and from z that lead to one node the fewest, as the
/// node and the length of both ways.
fn first_meeting(rows: &Rows, u: usize, z: usize) -> Told<(usize, u64)> {
    let (up, down) = (counted(rows, u)?, counted(rows, z)?);
    let mut best = (usize::MAX, 0, 0);
    for (i, &(x, left)) in up.iter().enumerate() {
        for (j, &(y, right)) in down.iter().enumerate() {
            if x == y && i + j < best.0 {
                best = (i + j, x, left + right);
            }
        }
    }
    Ok((best.1, best.2))
}

/// The route and its length, by a climb counted out.
fn counted_route(rows: &Rows, u: usize) -> Told<(u64, Vec<usize>)> {
    let list = counted(rows, u)?;
    let mut nodes: Vec<usize> = list.iter().map(|step| step.0).collect();
    nodes.dedup();
    Ok((list[list.len() - 1].1, nodes))
}

/// What is asked of rows: all pairs of nodes and two numbers that are none.
fn check_rows(rows: &Rows, met: &mut [usize; 4]) {
    let n = rows.parents.len();
    let asked: Vec<usize> = (0..n.min(12)).chain([n, 65_535]).collect();
    for &u in &asked {
        assert_eq!(given(rows, u), counted_route(rows, u), "{rows:?} {u}");
        for &z in &asked {
            let right = first_meeting(rows, u, z);
            assert_eq!(meet(rows, u, z), right.map(|r| r.0), "{rows:?} {u} {z}");
            assert_eq!(distance(rows, u, z), right.map(|r| r.1), "{rows:?} {u} {z}");
            let kind = match right {
                Ok(_) => 0,
                Err((1, _)) => 1,
                Err((_, place)) if place == u => 2,
                Err(_) => 3,
            };
            met[kind] += 1;
        }
    }
}

#[test]
fn rows_that_are_no_network() {
    let mut rng = Rng::new(53);
    let mut met = [0; 4];
    for _ in 0..3_000 {
        check_rows(&random::wild_rows(&mut rng), &mut met);
    }
    for _ in 0..300 {
        let sound = random::rich_network(&mut rng);
        let faults = [rng.pick(&NETWORK_FAULTS), rng.pick(&NETWORK_FAULTS)];
        let faulty = Faulty::new(&sound, 65_535).with(&mut rng, &faults);
        check_rows(&faulty.rows, &mut met);
    }
    assert!(met.iter().all(|&count| count > 1_000), "{met:?}");
}

/// Refusals 1 and 8 come before 10, and a short row stays as it was.
#[test]
fn a_route_needs_a_number_a_node() {
    let mut rng = Rng::new(54);
    for _ in 0..500 {
        let rows = random::wild_rows(&mut rng);
        for u in 0..=rows.parents.len() {
            let right = counted_route(&rows, u);
            for room in 0..rows.parents.len() + 2 {
                let mut row = vec![7; room];
                let answer = told(route(&rows.lend(), u as u16, &mut row));
                match &right {
                    Ok((length, nodes)) if nodes.len() <= room => {
                        let said = answer.unwrap();
                        assert_eq!((said.length, said.count), (*length, nodes.len()));
                    }
                    Ok(_) => assert_eq!((answer, row), (Err((10, 0)), vec![7; room])),
                    Err(told) => assert_eq!((answer, row), (Err(*told), vec![7; room])),
                }
            }
        }
    }
}

/// Where a parent link leads by a reading, with its length; and the most nodes
/// of a route.
type Step = fn(&Rows, usize) -> Option<(usize, u64)>;
type Most = fn(usize) -> usize;

/// The length and the nodes of the route by a reading.
fn read_as(step: Step, most: Most, rows: &Rows, u: usize) -> Option<(u64, Vec<usize>)> {
    let n = rows.parents.len();
    let (mut here, mut length, mut nodes) = (u, 0, vec![u]);
    while here != rows.root as usize {
        if nodes.len() >= most(n) {
            return None;
        }
        let (above, w) = step(rows, here)?;
        here = above;
        length += w;
        nodes.push(above);
    }
    (u < n).then_some((length, nodes))
}

/// The link that u names, where it is one.
fn named(rows: &Rows, u: usize) -> Option<&[u16]> {
    let e = *rows.parents.get(u)? as usize;
    rows.links.chunks_exact(4).nth(e)
}

fn touches(link: &[u16], u: usize) -> bool {
    link[0] as usize == u || link[1] as usize == u
}

fn right(rows: &Rows, u: usize) -> Option<(usize, u64)> {
    Some(step(rows, u))
}

/// Wrong: no link leads nowhere.
fn no_link_is_no_way(rows: &Rows, u: usize) -> Option<(usize, u64)> {
    named(rows, u).map(|_| step(rows, u))
}

/// Wrong: a withdrawn link leads nowhere.
fn withdrawn_is_no_way(rows: &Rows, u: usize) -> Option<(usize, u64)> {
    match named(rows, u) {
        Some(link) if link[3] == 0 => None,
        _ => right(rows, u),
    }
}

/// Wrong: a link that does not touch the node leads nowhere.
fn untouched_is_no_way(rows: &Rows, u: usize) -> Option<(usize, u64)> {
    match named(rows, u) {
        Some(link) if !touches(link, u) => None,
        _ => right(rows, u),
    }
}

/// Wrong: a link that does not touch the node leads to its second end.
fn untouched_is_the_second(rows: &Rows, u: usize) -> Option<(usize, u64)> {
    match named(rows, u) {
        Some(link) if !touches(link, u) => Some((link[1] as usize, u64::from(link[2]))),
        _ => right(rows, u),
    }
}

/// Wrong: no route goes through what is no node.
fn ends_are_nodes(rows: &Rows, u: usize) -> Option<(usize, u64)> {
    right(rows, u).filter(|&(x, _)| x < rows.parents.len())
}

/// Wrong: a part of a record is a link.
fn parts_are_links(rows: &Rows, u: usize) -> Option<(usize, u64)> {
    let mut longer = rows.clone();
    longer.links.extend([0; 3]);
    right(&longer, u)
}

/// The kept routes by the right reading and by wrong ones.
#[test]
fn the_kept_routes_tell_wrong_readings_apart() {
    let mut cases = chosen(101);
    cases.retain(|case| (1..=512).contains(&case.parents.len()));
    let same = |step: Step, most: Most| {
        cases.iter().all(|case| {
            let (rows, u) = (case.rows(), case.abc[0] as usize);
            read_as(step, most, &rows, u) == counted_route(&rows, u).ok()
        })
    };
    assert!(same(right, |n| n));
    assert!(!same(right, |n| n - 1));
    assert!(!same(right, |n| n + 1));
    assert!(!same(no_link_is_no_way, |n| n));
    assert!(!same(withdrawn_is_no_way, |n| n));
    assert!(!same(untouched_is_no_way, |n| n));
    assert!(!same(untouched_is_the_second, |n| n));
    assert!(!same(ends_are_nodes, |n| n));
    assert!(!same(parts_are_links, |n| n));
}

/// What must be printed for the kept case of op 102 that asks two nodes of
/// these rows.
fn kept_distance(rows: &Rows, u: u16, z: u16) -> String {
    let cases = chosen(102);
    let asks = |case: &&Case| case.abc[..2] == [u, z] && case.rows() == *rows;
    answer(cases.iter().find(asks).expect("it is kept"))
}

fn ok(length: u64) -> String {
    format!("distance ok {length}\n")
}

fn lost(node: u16) -> String {
    format!("distance refused 8 {node}\n")
}

/// The tree of Harbour: node 1 is 2 from the root, 2 and 3 are 3 and 1 from
/// node 1, and 4 is 9 from the root. All pairs are kept: equal nodes, one above
/// the other, the root with each.
#[test]
fn the_kept_distances_of_harbour() {
    let right = [
        [0, 2, 5, 3, 9],
        [2, 0, 3, 1, 11],
        [5, 3, 0, 4, 14],
        [3, 1, 4, 0, 12],
        [9, 11, 14, 12, 0],
    ];
    for (u, row) in (0..).zip(right) {
        for (z, length) in (0..).zip(row) {
            assert_eq!(kept_distance(&harbour(), u, z), ok(length), "{u} {z}");
        }
    }
}

/// No node first, second, both; then the first is told.
#[test]
fn the_kept_distances_of_no_node() {
    let none = 65_535;
    for (u, z, place) in [
        (5, 0, 5),
        (none, 1, none),
        (0, 5, 5),
        (1, none, none),
        (5, none, 5),
        (none, 5, none),
    ] {
        assert_eq!(kept_distance(&harbour(), u, z), lost(place), "{u} {z}");
    }
}

/// Nodes 2 and 3 name links to each other, 4 hangs below 3 and 5 below 4. Node
/// 1 is beside them, 3 from the root.
#[test]
fn the_kept_distances_at_a_cycle() {
    let links = [[0, 1], [1, 2], [2, 3], [3, 4], [4, 5], [2, 3]];
    let links = links.map(|[a, b]| [a, b, 3]);
    let rows = common::rows(&[65_535, 0, 2, 5, 3, 4], &links, 0);
    for (u, z, place) in [
        (2, 1, 2),
        (1, 3, 3),
        (2, 3, 2),
        (3, 3, 3),
        (4, 0, 4),
        (1, 5, 5),
    ] {
        assert_eq!(kept_distance(&rows, u, z), lost(place), "{u} {z}");
    }
    assert_eq!(kept_distance(&rows, 1, 0), ok(3));
}

/// 512 nodes in a row, joined by links of 65,535, and a root on it.
fn longest_path(root: u16) -> Rows {
    let links: Vec<[u16; 3]> = (0..511).map(|e| [e, e + 1, 65_535]).collect();
    let before = 0..root;
    let behind = root..511;
    let parents: Vec<u16> = before.chain([65_535]).chain(behind).collect();
    common::rows(&parents, &links, root)
}

/// From end to end, with the root at an end and in the middle: 511 times
/// 65,535.
#[test]
fn the_kept_distances_of_the_longest_path() {
    let right = ok(33_488_385);
    assert_eq!(kept_distance(&longest_path(0), 511, 0), right);
    assert_eq!(kept_distance(&longest_path(256), 0, 511), right);
}

/// Two chains of 256 nodes with links of 65,535, each to a root that is no
/// node: 512 times 65,535, more than in any network.
#[test]
fn the_kept_distances_of_two_chains() {
    let above = |x: u16| if x % 256 == 0 { 600 } else { x - 1 };
    let links: Vec<[u16; 3]> = (0..512).map(|x| [x, above(x), 65_535]).collect();
    let parents: Vec<u16> = (0..512).collect();
    let rows = common::rows(&parents, &links, 600);
    assert_eq!(kept_distance(&rows, 255, 511), ok(33_553_920));
    assert_eq!(kept_distance(&rows, 511, 255), ok(33_553_920));
}

/// Which of two nodes climb, by the hops that each had to the root and those
/// that it has climbed.
type Who = fn([i64; 2], [i64; 2]) -> [bool; 2];

/// The lengths of the steps that two nodes with routes climb until they are
/// one; none where they are not within the steps of two routes.
fn climbed(who: Who, rows: &Rows, mut here: [usize; 2]) -> Option<Vec<u64>> {
    let hops = here.map(|u| counted_route(rows, u).unwrap().1.len() as i64 - 1);
    let (mut done, mut lengths) = ([0; 2], Vec::new());
    for _ in 0..2 * rows.parents.len() {
        if here[0] == here[1] {
            return Some(lengths);
        }
        let turns = who(hops, done);
        for i in (0..2).filter(|&i| turns[i]) {
            let (above, w) = step(rows, here[i]);
            here[i] = above;
            done[i] += 1;
            lengths.push(w);
        }
    }
    None
}

/// The hops that are left to each.
fn left(hops: [i64; 2], done: [i64; 2]) -> [i64; 2] {
    [hops[0] - done[0], hops[1] - done[1]]
}

fn farther_climbs(hops: [i64; 2], done: [i64; 2]) -> [bool; 2] {
    let [one, other] = left(hops, done);
    [one > other, one <= other]
}

/// Wrong: the one that is fewer hops from the root climbs.
fn nearer_climbs(hops: [i64; 2], done: [i64; 2]) -> [bool; 2] {
    let [one, other] = left(hops, done);
    [one < other, one >= other]
}

/// Wrong: what the first has climbed is not taken off its hops.
fn first_not_taken_off(hops: [i64; 2], done: [i64; 2]) -> [bool; 2] {
    farther_climbs(hops, [0, done[1]])
}

/// Wrong: what the second has climbed is not taken off its hops.
fn second_not_taken_off(hops: [i64; 2], done: [i64; 2]) -> [bool; 2] {
    farther_climbs(hops, [done[0], 0])
}

/// Wrong: both climb, whatever their hops.
fn both_climb(_: [i64; 2], _: [i64; 2]) -> [bool; 2] {
    [true; 2]
}

fn all(lengths: &[u64]) -> u64 {
    lengths.iter().sum()
}

/// Wrong: the last step has no length.
fn all_but_the_last(lengths: &[u64]) -> u64 {
    lengths.iter().rev().skip(1).sum()
}

/// The kept distances by the right reading and by wrong ones.
#[test]
fn the_kept_distances_tell_wrong_readings_apart() {
    let asked = |case: Case| {
        let (rows, [u, z, _]) = (case.rows(), case.abc.map(usize::from));
        let right = first_meeting(&rows, u, z).ok()?.1;
        Some((rows, [u, z], right))
    };
    let cases: Vec<_> = chosen(102).into_iter().filter_map(asked).collect();
    assert!(cases.len() > 30, "{}", cases.len());
    let same = |who: Who, length: fn(&[u64]) -> u64| {
        cases.iter().all(|(rows, pair, right)| {
            let lengths = climbed(who, rows, *pair);
            lengths.map(|lengths| length(&lengths)) == Some(*right)
        })
    };
    assert!(same(farther_climbs, all));
    assert!(!same(nearer_climbs, all));
    assert!(!same(first_not_taken_off, all));
    assert!(!same(second_not_taken_off, all));
    assert!(!same(both_climb, all));
    assert!(!same(farther_climbs, all_but_the_last));
}

/// The lines of Harbour's file, and of a file that is refused.
#[test]
fn lines_of_a_file() {
    let file = harbour_file();
    let line = |u, z| distance_line(&file, u, z);
    assert_eq!(line(3, 2), "distance 4\n");
    assert_eq!(line(2, 4), "distance 14\n");
    assert_eq!(line(3, 3), "distance 0\n");
    assert_eq!(line(5, 65_535), "refused 8 5\n");
    assert_eq!(line(0, 65_535), "refused 8 65535\n");
    assert_eq!(distance_line(&file[1..], 3, 2), "refused 20 0\n");
    assert_eq!(distance_line(&[0; 32_768], 5, 5), "refused 20 0\n");
}

/// Links past the limit of a network are links here.
#[test]
fn the_last_link_of_a_case_is_named() {
    let last = |case: &&Case| case.parents.len() == 2 && case.parents[1] == 2_099;
    for op in 101..=103 {
        let cases = fixed(op);
        assert!(cases.iter().filter(last).count() == 1);
    }
    let mut links = vec![[0, 1, 4]; 2_099];
    links.push([1, 0, 3]);
    let rows = common::rows(&[65_535, 2_099], &links, 0);
    assert_eq!(given(&rows, 1), Ok((3, vec![1, 0])));
}

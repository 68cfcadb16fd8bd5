//! The definitions once more, with nothing tabled: each tree path is walked
//! when it is asked for. Slow, and apart from the code under test.
#![allow(dead_code)]

use second::network::Rows;

/// A link as two ends, length and mark.
pub fn link(rows: &Rows, e: usize) -> (usize, usize, u64, bool) {
    let record = &rows.links[4 * e..4 * e + 4];
    let [a, b] = [record[0] as usize, record[1] as usize];
    (a, b, u64::from(record[2]), record[3] == 1)
}

/// The number of whole links.
pub fn links(rows: &Rows) -> usize {
    rows.links.len() / 4
}

/// The route from u to the root.
pub fn route(rows: &Rows, u: usize) -> Vec<usize> {
    if u == rows.root as usize {
        return vec![u];
    }
    let (a, b, _, _) = link(rows, rows.parents[u] as usize);
    let parent = if a == u { b } else { a };
    let mut nodes = vec![u];
    nodes.extend(route(rows, parent));
    nodes
}

/// The length of a node's tree link; the root has none.
fn step(rows: &Rows, u: usize) -> u64 {
    if u == rows.root as usize {
        return 0;
    }
    link(rows, rows.parents[u] as usize).2
}

/// d(u).
pub fn d(rows: &Rows, u: usize) -> u64 {
    route(rows, u).iter().map(|&x| step(rows, x)).sum()
}

/// t(u, v): up from both ends to where the two routes meet.
pub fn t(rows: &Rows, u: usize, v: usize) -> u64 {
    let (up, down) = (route(rows, u), route(rows, v));
    let alone = |one: &[usize], other: &[usize]| -> u64 {
        let apart = one.iter().filter(|x| !other.contains(x));
        apart.map(|&x| step(rows, x)).sum()
    };
    alone(&up, &down) + alone(&down, &up)
}

/// T(x).
pub fn below(rows: &Rows, x: usize) -> Vec<usize> {
    let nodes = 0..rows.parents.len();
    nodes.filter(|&u| route(rows, u).contains(&x)).collect()
}

/// The links that cross x, as link, z and z'.
pub fn crossing(rows: &Rows, x: usize) -> Vec<(usize, usize, usize)> {
    let inside = below(rows, x);
    let mut found = Vec::new();
    for e in 0..links(rows) {
        let (a, b, _, in_service) = link(rows, e);
        let ins = (inside.contains(&a), inside.contains(&b));
        if !in_service || e == rows.parents[x] as usize || ins.0 == ins.1 {
            continue;
        }
        found.push(if ins.0 { (e, a, b) } else { (e, b, a) });
    }
    found
}

/// The candidates of x.
pub fn candidates(rows: &Rows, depth: u16, x: usize) -> Vec<(usize, usize, usize)> {
    let hops = |u: usize| route(rows, u).len();
    let near = |z: usize| depth == 65_535 || hops(z) - hops(x) <= depth as usize;
    let links = crossing(rows, x).into_iter();
    links.filter(|&(_, z, _)| near(z)).collect()
}

/// Sum, incr and max of a crossing link, by N(u) for each u in T(x).
pub fn costs(rows: &Rows, x: usize, (e, z, outer): (usize, usize, usize)) -> [u64; 3] {
    let beyond = link(rows, e).2 + d(rows, outer);
    let nodes = below(rows, x);
    let all: Vec<u64> = nodes.iter().map(|&u| t(rows, u, z) + beyond).collect();
    let rises = nodes
        .iter()
        .zip(&all)
        .map(|(&u, &n)| n as i64 - d(rows, u) as i64);
    let incr = rises.max().unwrap();
    [all.iter().sum(), incr as u64, *all.iter().max().unwrap()]
}

/// A link with its sum, incr and max.
pub type Priced = (usize, [u64; 3]);

/// Whether one candidate is to be taken rather than another: it costs less; or
/// as much, and by rule 1 has the lower incr; or ties in that too, and has the
/// lower number.
pub fn is_better(one: Priced, other: Priced, measure: usize, rule: u16) -> bool {
    let ((e, costs), (f, others)) = (one, other);
    if costs[measure] != others[measure] {
        return costs[measure] < others[measure];
    }
    if rule == 1 && costs[1] != others[1] {
        return costs[1] < others[1];
    }
    e < f
}

/// The best of links with costs by a rule: its number, and its cost.
pub fn best(priced: &[Priced], measure: usize, rule: u16) -> (u64, u64) {
    let mut best = priced[0];
    for &link in priced {
        if is_better(link, best, measure, rule) {
            best = link;
        }
    }
    (best.0 as u64, best.1[measure])
}

/// The candidates of x with their costs.
pub fn priced(rows: &Rows, depth: u16, x: usize) -> Vec<Priced> {
    let links = candidates(rows, depth, x).into_iter();
    links.map(|c| (c.0, costs(rows, x, c))).collect()
}

/// 0 where the route of a link's first end goes by x, else 1.
pub fn lower(rows: &Rows, x: usize, e: usize) -> u64 {
    let (first, _, _, _) = link(rows, e);
    u64::from(!route(rows, first).contains(&x))
}

/// The entry of x by a rule, as plain numbers.
pub fn entry(rows: &Rows, depth: u16, rule: u16, x: usize) -> [u64; 10] {
    let without = |state: u64| [state, 65_535, 65_535, 65_535, 0, 0, 0, 0, 0, 0];
    if x == rows.root as usize {
        return without(0);
    }
    if crossing(rows, x).is_empty() {
        return without(3);
    }
    let near = priced(rows, depth, x);
    if near.is_empty() {
        return without(2);
    }
    let [s, i, m] = [0, 1, 2].map(|k| best(&near, k, rule));
    let [ls, li, lm] = [s, i, m].map(|(e, _)| lower(rows, x, e as usize));
    [1, s.0, i.0, m.0, s.1, i.1, m.1, ls, li, lm]
}

/// The table by a rule, as plain numbers.
pub fn table(rows: &Rows, depth: u16, rule: u16) -> Vec<u64> {
    let nodes = 0..rows.parents.len();
    nodes.flat_map(|x| entry(rows, depth, rule, x)).collect()
}

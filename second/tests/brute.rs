//! The table, one entry, the map and the change against definitions walked
//! plainly, on many small networks and by both rules.

mod common;
#[path = "common/plain.rs"]
mod plain;

use common::*;
use second::change::{change, Change};
use second::map::map;
use second::network::Rows;
use second::random;
use second::rng::Rng;
use second::table::{check_entry, entry_of, table};
use second::terms::Terms;
use second::ties;

const DEPTHS: [u16; 5] = [65_535, 0, 1, 2, 510];
const RULES: [u16; 2] = [0, 1];

/// Any shape, and at times one on which many candidates tie.
fn small_network(rng: &mut Rng) -> Rows {
    if rng.chance(3) {
        return ties::network(rng);
    }
    let n = rng.from_to(1, 11);
    random::draft(rng, n).with_tree(rng)
}

/// A depth and a rule.
fn some_terms(rng: &mut Rng) -> Terms {
    by(rng.pick(&RULES), rng.pick(&DEPTHS))
}

#[test]
fn the_plain_definitions_give_harbour() {
    for rule in RULES {
        let table = plain::table(&harbour(), 65_535, rule);
        assert_eq!(table, harbour_table());
    }
}

/// All four states, costs of 0 and all eight triples of marks must have been
/// met.
#[test]
fn tables_are_equal() {
    let mut rng = Rng::new(31);
    let mut states = [0; 4];
    let mut free = 0;
    let mut marks = [0; 8];
    for _ in 0..6_000 {
        let rows = small_network(&mut rng);
        let terms = some_terms(&mut rng);
        let mut row = vec![7; 10 * rows.parents.len()];
        table(&rows.lend(), terms, &mut row).unwrap();
        let right = plain::table(&rows, terms.depth, terms.rule);
        assert_eq!(row, right, "{rows:?} {terms:?}");
        for entry in row.chunks(10) {
            states[entry[0] as usize] += 1;
            free += usize::from(entry[0] == 1 && entry[4..7] == [0; 3]);
            if entry[0] == 1 {
                let [sum, incr, max] = [7, 8, 9].map(|at| entry[at] as usize);
                marks[4 * sum + 2 * incr + max] += 1;
            }
        }
    }
    assert!(states.iter().all(|&count| count > 300), "{states:?}");
    assert!(free > 100, "{free}");
    assert!(marks.iter().all(|&count| count > 20), "{marks:?}");
}

#[test]
fn entries_by_value_are_equal() {
    let mut rng = Rng::new(34);
    for _ in 0..1_000 {
        let rows = small_network(&mut rng);
        let (net, n) = (rows.lend(), rows.parents.len());
        let terms = some_terms(&mut rng);
        for x in 0..n {
            let entry = entry_of(&net, terms, x as u16).unwrap();
            let right = plain::entry(&rows, terms.depth, terms.rule, x);
            assert_eq!(entry.numbers(), right);
            assert!(check_entry(&net, terms, x as u16).is_ok());
        }
        for x in [n as u16, 65_535] {
            let right = Err((8, x as usize));
            let answer = entry_of(&net, terms, x).map(|_| ());
            assert_eq!(told(answer), right);
            let answer = check_entry(&net, terms, x).map(|_| ());
            assert_eq!(told(answer), right);
        }
    }
}

#[test]
fn maps_are_equal() {
    let mut rng = Rng::new(32);
    for _ in 0..300 {
        let rows = small_network(&mut rng);
        let terms = some_terms(&mut rng);
        let map = map(&rows.lend(), terms, &mut [0; 8]).unwrap();
        let entries = plain::table(&rows, terms.depth, terms.rule);
        let open: Vec<usize> = (0..rows.parents.len())
            .filter(|&x| entries[10 * x] >= 2)
            .collect();
        let mut words = [0; 8];
        open.iter().for_each(|x| words[x / 64] |= 1 << (x % 64));
        assert_eq!(map.words, words);
        assert_eq!(map.count, open.len());
        assert_eq!(map.lowest, open.first().map_or(65_535, |&x| x as u16));
    }
}

/// The nodes on the tree path between two nodes, but for where routes meet.
fn path(rows: &Rows, a: usize, b: usize) -> Vec<usize> {
    let (up, down) = (plain::route(rows, a), plain::route(rows, b));
    let nodes = 0..rows.parents.len();
    nodes
        .filter(|x| up.contains(x) != down.contains(x))
        .collect()
}

/// The verdict of a change on a sound network, from the definitions.
fn verdict(rows: &Rows, wanted: &Change) -> Result<(), (u16, usize)> {
    let e = wanted.link as usize;
    if e >= plain::links(rows) {
        return Err((11, 0));
    }
    if wanted.mark > 1 {
        return Err((6, e));
    }
    if rows.parents.contains(&wanted.link) {
        return Err((12, e));
    }
    let (a, b, _, _) = plain::link(rows, e);
    let apart = plain::d(rows, a).abs_diff(plain::d(rows, b));
    if wanted.mark == 1 && u64::from(wanted.length) < apart {
        return Err((13, e));
    }
    Ok(())
}

/// A random change on a row that is all 7: the path's entries are those of
/// the changed network, and no other entry needed writing.
#[test]
fn changes_are_equal() {
    let mut rng = Rng::new(33);
    let mut verdicts = [0; 14];
    for _ in 0..3_000 {
        let before = small_network(&mut rng);
        let terms = some_terms(&mut rng);
        let m = plain::links(&before);
        let wanted = Change {
            link: rng.below(m + 2) as u16,
            mark: rng.pick(&[0, 1, 1, 1, 2]),
            length: rng.pick(&[0, 1, 2, 3, 5, 9, 65_535]),
        };
        let right = verdict(&before, &wanted);
        let mut rows = before.clone();
        let mut row = vec![7; 10 * rows.parents.len()];
        let answer = told(change(&mut rows, terms, &mut row, &wanted));
        assert_eq!(answer, right, "{before:?} {wanted:?}");
        verdicts[right.map_or_else(|(number, _)| number as usize, |()| 0)] += 1;
        if right.is_ok() {
            check_changed(&before, &rows, terms, &row, &wanted);
        } else {
            assert_eq!(
                (rows, row),
                (before.clone(), vec![7; 10 * before.parents.len()])
            );
        }
    }
    assert!(
        [0, 6, 11, 12, 13].iter().all(|&k| verdicts[k] > 100),
        "{verdicts:?}"
    );
}

fn check_changed(before: &Rows, after: &Rows, terms: Terms, row: &[u64], wanted: &Change) {
    let e = wanted.link as usize;
    let mut links = before.links.clone();
    links[4 * e + 2] = wanted.length;
    links[4 * e + 3] = wanted.mark;
    assert_eq!((&after.links, &after.parents), (&links, &before.parents));
    let (a, b, _, _) = plain::link(before, e);
    let on_path = path(before, a, b);
    for x in 0..before.parents.len() {
        let entry = &row[10 * x..10 * x + 10];
        let fresh = plain::entry(after, terms.depth, terms.rule, x);
        if on_path.contains(&x) {
            assert_eq!(entry, fresh);
        } else {
            assert_eq!(entry, [7; 10]);
            assert_eq!(fresh, plain::entry(before, terms.depth, terms.rule, x));
        }
    }
}

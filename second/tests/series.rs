//! Series of changes: what must be printed, and that the made ones reach what
//! they are made for.

mod common;

use common::*;
use second::cases::series;
use second::change::{change, Change};
use second::limits::WHOLE;
use second::network::Rows;
use second::quay::quay;
use second::series::{fresh, line, lines, Series};
use std::collections::BTreeMap;

/// The mix of Harbour's links and entries and two entries of sevens.
fn mixed(links: &[u16], entries: &[u64]) -> u64 {
    let mut sum: u64 = 0;
    let links = links.iter().map(|&w| u64::from(w));
    for x in links.chain(entries.iter().copied()).chain([7; 20]) {
        sum = (31 * sum + x) % 4_294_967_291;
    }
    sum
}

/// A series of Harbour at the whole search.
fn of_harbour(changes: &[[u16; 3]]) -> Series {
    let change = |&[link, mark, length]: &[u16; 3]| Change { link, mark, length };
    Series {
        rows: harbour(),
        terms: at(WHOLE),
        changes: changes.iter().map(change).collect(),
    }
}

/// P8, P10, P12 and a bad mark leave all as it is; P7 and P9 in turn do not.
#[test]
fn the_paper_in_turn() {
    let (mut links, mut entries) = (harbour().links, harbour_table());
    let before = mixed(&links, &entries);
    links[22] = 2;
    entries[20..30].copy_from_slice(&[1, 5, 5, 5, 5, 0, 5, 0, 0, 0]);
    let seventh = mixed(&links, &entries);
    links[15] = 0;
    entries[10..20].copy_from_slice(&[1, 4, 4, 4, 26, 6, 11, 1, 1, 1]);
    let ninth = mixed(&links, &entries);
    let changes = [
        [5, 1, 1],
        [5, 1, 2],
        [0, 1, 2],
        [7, 1, 2],
        [3, 0, 6],
        [3, 2, 6],
    ];
    let right = format!(
        "refused 13 5 {before}
ok {seventh}
refused 12 0 {seventh}
refused 11 0 {seventh}
ok {ninth}
refused 6 3 {ninth}
"
    );
    assert_eq!(lines(&of_harbour(&changes).encode()), right);
}

/// Quay by rule 1: link 5 becomes longer, shorter, withdrawn. By rule 2 nothing is
/// done.
#[test]
fn quay_by_rule_1() {
    let root = [0, NONE, NONE, NONE, 0, 0, 0, 0, 0, 0];
    let (two, five) = (
        [1, 3, 3, 3, 7, 2, 4, 1, 1, 1],
        [1, 3, 3, 3, 3, 0, 3, 1, 1, 1],
    );
    let tied = [
        root,
        [1, 5, 5, 5, 12, 2, 5, 0, 0, 0],
        two,
        [1, 5, 5, 5, 5, 2, 3, 1, 1, 1],
        [1, 5, 5, 5, 2, 0, 2, 1, 1, 1],
        five,
    ];
    let longer = [
        root,
        [1, 3, 5, 3, 12, 3, 5, 1, 0, 1],
        two,
        [1, 5, 5, 5, 7, 3, 4, 1, 1, 1],
        [1, 5, 5, 5, 3, 1, 3, 1, 1, 1],
        five,
    ];
    let mut series = of_harbour(&[[5, 1, 2], [5, 1, 0], [5, 1, 1]]);
    series.rows = quay();
    series.terms.rule = 1;
    let mut links = quay().links;
    let again = mixed(&links, &tied.concat());
    links[22] = 2;
    let first = mixed(&links, &longer.concat());
    let right = format!("ok {first}\nrefused 13 5 {first}\nok {again}\n");
    assert_eq!(lines(&series.encode()), right);
    series.terms.rule = 2;
    assert_eq!(lines(&series.encode()), "refused 14 0\n");
}

#[test]
fn an_input_is_a_whole_series_within_the_limits() {
    let bytes = of_harbour(&[[5, 1, 1], [5, 1, 2]]).encode();
    let right = hex("0005 0007 0000 ffff 0002 0000
        ffff 0000 0001 0002 0006
        0000 0001 0002 0001  0001 0002 0003 0001  0001 0003 0001 0001
        0000 0002 0006 0001  0000 0003 0007 0001  0002 0003 0004 0001
        0000 0004 0009 0001
        0005 0001 0001  0005 0001 0002");
    assert_eq!(bytes, right);
    for length in 0..bytes.len() {
        assert_eq!(lines(&bytes[..length]), "refused\n");
    }
    assert_eq!(lines(&[&bytes[..], &[0]].concat()), "refused\n");
    let over = |n: usize, m: usize, count: usize| {
        let rows = Rows {
            parents: vec![0; n],
            links: vec![0; 4 * m],
            root: 600,
        };
        let mut series = of_harbour(&vec![[0; 3]; count]);
        series.rows = rows;
        lines(&series.encode())
    };
    assert_eq!(over(512, 2_048, 1_000), "refused 3 0\n");
    assert_eq!(over(513, 2_048, 1_000), "refused\n");
    assert_eq!(over(512, 2_049, 1_000), "refused\n");
    assert_eq!(over(512, 2_048, 1_001), "refused\n");
}

/// What the change that mends says, on rows carried from change to change.
fn mended(series: &Series) -> String {
    let mut rows = series.rows.clone();
    let mut row = fresh(&rows, series.terms).unwrap();
    let step = |wanted: &Change| {
        let answer = change(&mut rows, series.terms, &mut row, wanted);
        line(answer, &rows.links, &row)
    };
    series.changes.iter().map(step).collect()
}

#[test]
fn mending_agrees() {
    for seed in 0..80 {
        let made = series(seed, 60);
        assert_eq!(lines(&made.encode()), mended(&made), "seed {seed}");
    }
}

/// Lines by how they begin, of the series that the gate compares.
#[test]
fn the_made_series_have_every_answer() {
    let (mut counts, mut moved, mut largest) = (BTreeMap::new(), [0; 2], false);
    let mut decided = [0; 2];
    for seed in 0..40 {
        let made = series(seed, 100);
        assert_eq!(Series::decode(&made.encode()), Some(made.clone()));
        largest |= made.rows.parents.len() == 512 && made.rows.lend().m() == 2_048;
        let more = entries_moved(&made);
        moved = [moved[0] + more[0], moved[1] + more[1]];
        decided[usize::from(made.terms.rule)] += tables_decided(&made);
        for line in lines(&made.encode()).lines() {
            let words: Vec<&str> = line.split(' ').collect();
            let told: u16 = match words[0] {
                "ok" => 0,
                _ => words[1].parse().unwrap(),
            };
            *counts.entry(told).or_insert(0) += 1;
        }
    }
    assert!(largest);
    assert!(counts[&0] > 4_000 / 3);
    assert!(moved[0] > 4_000 / 10, "{moved:?}");
    assert!(moved[1] > 4_000 / 20, "{moved:?}");
    assert!(
        decided.iter().all(|&count| count > 4_000 / 20),
        "{decided:?}"
    );
    let numbers: Vec<u16> = counts.keys().copied().collect();
    assert_eq!(numbers, [0, 6, 11, 12, 13]);
    assert!(counts.values().all(|&count| count > 100), "{counts:?}");
}

/// How many changes of a series leave a table that is another by the other rule.
fn tables_decided(series: &Series) -> usize {
    let mut rows = series.rows.clone();
    let mut row = fresh(&rows, series.terms).unwrap();
    let other = by(1 - series.terms.rule, series.terms.depth);
    let step = |wanted: &Change| {
        let answer = change(&mut rows, series.terms, &mut row, wanted);
        usize::from(answer.is_ok() && fresh(&rows, other).unwrap() != row)
    };
    series.changes.iter().map(step).sum()
}

/// How many changes of a series change an entry, and how many a mark of one.
fn entries_moved(series: &Series) -> [usize; 2] {
    let mut rows = series.rows.clone();
    let mut row = fresh(&rows, series.terms).unwrap();
    let mut moved = [0; 2];
    for wanted in &series.changes {
        let before = row.clone();
        let _ = change(&mut rows, series.terms, &mut row, wanted);
        moved[0] += usize::from(row != before);
        let marks = |row: &[u64]| -> Vec<u64> {
            row.chunks(10)
                .flat_map(|entry| entry[7..].to_vec())
                .collect()
        };
        moved[1] += usize::from(marks(&row) != marks(&before));
    }
    moved
}

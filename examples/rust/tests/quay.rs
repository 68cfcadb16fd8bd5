//! The Quay case through the wrappers, by both tie rules: the table, a change that ends the tie and one that makes it, and the
//! way past a failed link; and the refusal of a rule that is none.

use doeragyeol::*;

const RULES: [Rule; 2] = [Rule::LowestNumber, Rule::NearerFirst];

/// Two rows of three nodes, 0 to 2 over 3 to 5, with the root at 0. Every link is 1 long, those of the rows come first.
#[derive(Clone, PartialEq, Debug)]
struct Quay {
    links: Vec<u16>,
    parents: Vec<u16>,
    search: Search,
    entries: Vec<u64>,
}

/// Quay by a rule, with its table.
fn quay(rule: Rule) -> Quay {
    let ends = [[0, 1], [1, 2], [3, 4], [4, 5], [0, 3], [1, 4], [2, 5]];
    let mut q = Quay {
        links: ends.iter().flat_map(|&[a, b]| [a, b, 1, SERVED]).collect(),
        parents: vec![NO_LINK, 0, 1, 4, 2, 6],
        search: Search {
            root: 0,
            depth: WHOLE,
            rule,
        },
        entries: vec![7; 6 * ENTRY_NUMBERS],
    };
    table(&q.links, &q.parents, q.search, &mut q.entries).expect("a sound network");
    q
}

fn entry(q: &Quay, node: usize) -> &[u64] {
    &q.entries[node * ENTRY_NUMBERS..][..ENTRY_NUMBERS]
}

fn changed(q: &mut Quay, link: u16, mark: u16, length: u16) -> Result<(), Refusal> {
    let asked = Change { link, mark, length };
    change(&mut q.links, &q.parents, q.search, &mut q.entries, asked)
}

fn refused<T>(number: u32, place: u32) -> Result<T, Refusal> {
    Err(Refusal { number, place })
}

/// Links 3 and 5 cross node 1. Under sum and max they tie at 12 and 5; under incr link 3 costs 4 and link 5 costs 2.
#[test]
fn the_rules_choose_apart_at_node_1() {
    let [by_number, nearer] = RULES.map(quay);
    assert_eq!(
        entry(&by_number, 1),
        [STATE_SWAP, 3, 5, 3, 12, 2, 5, 1, 0, 1]
    );
    assert_eq!(entry(&nearer, 1), [STATE_SWAP, 5, 5, 5, 12, 2, 5, 0, 0, 0]);
    for q in [&by_number, &nearer] {
        assert_eq!(entry(q, 0)[ENTRY_STATE], STATE_ROOT);
        assert_eq!(entry(q, 2), [STATE_SWAP, 3, 3, 3, 7, 2, 4, 1, 1, 1]);
        assert_eq!(entry(q, 3), [STATE_SWAP, 5, 5, 5, 5, 2, 3, 1, 1, 1]);
        assert_eq!(entry(q, 4), [STATE_SWAP, 5, 5, 5, 2, 0, 2, 1, 1, 1]);
        assert_eq!(entry(q, 5), [STATE_SWAP, 3, 3, 3, 3, 0, 3, 1, 1, 1]);
    }
    let crossed = |q: &Quay, measure| {
        let crossed = crossing(entry(q, 1), measure, &q.links);
        crossed.map(|c| (c.link, c.from, c.to))
    };
    for measure in [Measure::Sum, Measure::Max] {
        assert_eq!(crossed(&by_number, measure), Some((3, 5, 4)));
        assert_eq!(crossed(&nearer, measure), Some((5, 1, 4)));
    }
    for q in [&by_number, &nearer] {
        assert_eq!(crossed(q, Measure::Incr), Some((5, 1, 4)));
    }
}

/// At depth 0 nodes 2 and 3 have no link within the depth, and node 1 has link 5 alone.
#[test]
fn a_depth_without_a_tie_and_the_map() {
    for rule in RULES {
        let mut q = quay(rule);
        q.search.depth = 0;
        let asked = table(&q.links, &q.parents, q.search, &mut q.entries);
        assert_eq!(asked, Ok(()));
        assert_eq!(entry(&q, 1), [STATE_SWAP, 5, 5, 5, 12, 2, 5, 0, 0, 0]);
        let mut words = [7; MAP_WORDS];
        let told = Unprotected {
            count: 2,
            lowest: 2,
        };
        assert_eq!(map(&q.links, &q.parents, q.search, &mut words), Ok(told));
        assert_eq!(words, [12, 0, 0, 0, 0, 0, 0, 0]);
    }
}

/// With link 5 at length 2 there is no tie, and the two tables are one. Back at length 1 each is what it was.
#[test]
fn a_change_ends_the_tie_and_another_makes_it() {
    for rule in RULES {
        let before = quay(rule);
        let mut q = before.clone();
        assert_eq!(changed(&mut q, 5, SERVED, 2), Ok(()));
        assert_eq!(entry(&q, 1), [STATE_SWAP, 3, 5, 3, 12, 3, 5, 1, 0, 1]);
        assert_eq!(entry(&q, 3), [STATE_SWAP, 5, 5, 5, 7, 3, 4, 1, 1, 1]);
        assert_eq!(entry(&q, 4), [STATE_SWAP, 5, 5, 5, 3, 1, 3, 1, 1, 1]);
        assert_eq!(changed(&mut q, 5, SERVED, 0), refused(13, 5));
        assert_eq!(changed(&mut q, 5, SERVED, 1), Ok(()));
        assert_eq!(q, before);
    }
}

/// The nodes and the length of the way of node 2 past node 1.
fn way(rule: Rule, measure: Measure) -> (Vec<u16>, u64) {
    let q = quay(rule);
    let failure = Failure {
        start: 2,
        failed: 1,
        measure,
    };
    let (mut ordinary, mut detour) = ([7; ROUTE_ROW], [7; ROUTE_ROW]);
    let asked = forward(
        &q.links,
        &q.parents,
        q.search,
        failure,
        &mut ordinary,
        &mut detour,
    );
    let way = asked.expect("there is a swap link");
    assert_eq!(way.row, Row::Detour);
    (way.nodes.to_vec(), way.length)
}

#[test]
fn the_way_goes_by_the_link_of_the_rule() {
    let (far, near) = ((vec![2, 1, 2, 5, 4, 3, 0], 6), (vec![2, 1, 4, 3, 0], 4));
    for measure in [Measure::Sum, Measure::Max] {
        assert_eq!(way(Rule::LowestNumber, measure), far);
        assert_eq!(way(Rule::NearerFirst, measure), near);
    }
    for rule in RULES {
        assert_eq!(way(rule, Measure::Incr), near);
    }
}

/// What is written has the table of the lowest number, whatever the table in memory is by, and reads back so.
#[test]
fn a_file_means_the_lowest_number() {
    let [by_number, nearer] = RULES.map(quay);
    let (mut one, mut other) = (vec![7; FILE_BYTES], vec![7; FILE_BYTES]);
    let length = write(&by_number.links, &by_number.parents, 0, WHOLE, &mut one);
    assert_eq!(
        length,
        write(&nearer.links, &nearer.parents, 0, WHOLE, &mut other)
    );
    assert_eq!(one, other);
    let file = &one[..length.expect("a sound network")];
    let (mut links, mut parents, mut entries) = ([7; 28], [7; 6], [7; 60]);
    let header = read(file, &mut links, &mut parents, &mut entries).expect("a sound file");
    assert_eq!(header.search, by_number.search);
    assert_eq!(entries[..], by_number.entries);
}

/// The word that every call that takes a rule answers for this one on a network: check, table, map, change and the forwarder by
/// sum, incr and max. What is lent beside the network must keep its sevens.
fn words(links: &[u16], depth: u16, rule: u16) -> [Result<(), Refusal>; 7] {
    let mut links = links.to_vec();
    let before = links.clone();
    let parents = quay(Rule::LowestNumber).parents;
    let (mut entries, mut row) = ([7; 60], [7; MAP_WORDS]);
    let (mut one, mut two, mut told) = ([7; ROUTE_ROW], [7; ROUTE_ROW], [7; 3]);
    let (net, nodes) = (links.as_mut_ptr(), parents.as_ptr());
    let (e, r, t) = (entries.as_mut_ptr(), row.as_mut_ptr(), told.as_mut_ptr());
    let (o, d) = (one.as_mut_ptr(), two.as_mut_ptr());
    let way = [
        raw::doeragyeol_forward_sum,
        raw::doeragyeol_forward_incr,
        raw::doeragyeol_forward_max,
    ];
    let answers = unsafe {
        let ask = |k: usize| {
            way[k](
                net, 28, nodes, 6, 0, depth, rule, 2, 1, o, ROUTE_ROW, d, ROUTE_ROW, t, 3,
            )
        };
        [
            raw::doeragyeol_check(net, 28, nodes, 6, 0, depth, rule, t, 2),
            raw::doeragyeol_table(net, 28, nodes, 6, 0, depth, rule, e, 60),
            raw::doeragyeol_map(net, 28, nodes, 6, 0, depth, rule, r, MAP_WORDS, t, 2),
            raw::doeragyeol_change(net, 28, nodes, 6, 0, depth, rule, e, 60, 9, 2, 0),
            ask(0),
            ask(1),
            ask(2),
        ]
    };
    assert_eq!(links, before);
    assert_eq!((entries, row, told), ([7; 60], [7; MAP_WORDS], [7; 3]));
    assert_eq!((one, two), ([7; ROUTE_ROW], [7; ROUTE_ROW]));
    answers.map(said)
}

/// 14 comes behind 4 and before 5, and before what a change or a way refuses.
#[test]
fn a_rule_that_is_none_is_refused_in_its_place() {
    let links = quay(Rule::LowestNumber).links;
    let mut no_ends = links.clone();
    no_ends[1] = 0;
    for rule in [2, 255, 256, 257, 65535] {
        assert_eq!(words(&links, WHOLE, rule), [refused(14, 0); 7]);
        assert_eq!(words(&no_ends, 510, rule), [refused(14, 0); 7]);
        assert_eq!(words(&links, 511, rule), [refused(4, 0); 7]);
    }
    for rule in [0, 1] {
        assert_eq!(words(&no_ends, 510, rule), [refused(5, 0); 7]);
        assert_eq!(words(&links, 511, rule), [refused(4, 0); 7]);
    }
}

/// The numbers of the rules are the header's.
#[test]
fn the_rules_are_the_headers() {
    let header = include_str!("../../../include/doeragyeol.h");
    for (name, rule) in [("LOWEST_NUMBER", RULES[0]), ("NEARER_FIRST", RULES[1])] {
        let line = format!("#define DOERAGYEOL_{name} {}", rule as u16);
        assert!(header.lines().any(|one| one == line));
    }
}

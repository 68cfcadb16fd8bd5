//! The Harbour case through the wrappers: read, changed, written, and asked for the way past a failed link and for the length
//! of a tree path.

use doeragyeol::*;

const FILE: &[u8] = include_bytes!("../../../samples/harbour.swap");

/// The network and the table of a file.
#[derive(Clone, PartialEq, Debug)]
struct Harbour {
    links: Vec<u16>,
    parents: Vec<u16>,
    search: Search,
    entries: Vec<u64>,
}

fn harbour() -> Harbour {
    let mut links = vec![0; LINKS * LINK_NUMBERS];
    let mut parents = vec![0; NODES];
    let mut entries = vec![0; NODES * ENTRY_NUMBERS];
    let header = read(FILE, &mut links, &mut parents, &mut entries).expect("a sound file");
    links.truncate(header.links * LINK_NUMBERS);
    parents.truncate(header.nodes);
    entries.truncate(header.nodes * ENTRY_NUMBERS);
    Harbour {
        links,
        parents,
        search: header.search,
        entries,
    }
}

fn changed(h: &mut Harbour, link: u16, mark: u16, length: u16) -> Result<(), Refusal> {
    let asked = Change { link, mark, length };
    change(&mut h.links, &h.parents, h.search, &mut h.entries, asked)
}

fn written(h: &Harbour, file: &mut [u8]) -> Result<usize, Refusal> {
    write(&h.links, &h.parents, h.search.root, h.search.depth, file)
}

fn refused<T>(number: u32, place: u32) -> Result<T, Refusal> {
    Err(Refusal { number, place })
}

#[test]
fn reads() {
    let h = harbour();
    let search = Search {
        root: 0,
        depth: WHOLE,
        rule: Rule::LowestNumber,
    };
    assert_eq!(h.search, search);
    assert_eq!(h.parents, [NO_LINK, 0, 1, 2, 6]);
    assert_eq!(h.links[..8], [0, 1, 2, SERVED, 1, 2, 3, SERVED]);
    let rows: Vec<&[u64]> = h.entries.chunks(ENTRY_NUMBERS).collect();
    let none = NO_LINK as u64;
    assert_eq!(rows[0], [STATE_ROOT, none, none, none, 0, 0, 0, 0, 0, 0]);
    assert_eq!(rows[1], [STATE_SWAP, 3, 4, 3, 25, 6, 10, 1, 1, 1]);
    assert_eq!(rows[2], [STATE_SWAP, 3, 3, 3, 6, 1, 6, 1, 1, 1]);
    assert_eq!(rows[3], [STATE_SWAP, 4, 4, 4, 7, 4, 7, 1, 1, 1]);
    let bridge = [STATE_BRIDGE, none, none, none, 0, 0, 0, 0, 0, 0];
    assert_eq!(rows[4], bridge);
}

/// The swap links of Harbour begin at the root, so it is their second end that is cut off. Link 5 joins nodes 2 and 3: once it
/// is shorter, node 2 crosses it from its first end; where 3 crosses it too, from its second.
#[test]
fn crosses_from_the_end_that_is_cut_off() {
    let mut h = harbour();
    let way = |h: &Harbour, node: usize, measure| {
        let entry = &h.entries[node * ENTRY_NUMBERS..][..ENTRY_NUMBERS];
        crossing(entry, measure, &h.links).map(|c| (c.link, c.from, c.to))
    };
    assert_eq!(way(&h, 0, Measure::Sum), None);
    assert_eq!(way(&h, 1, Measure::Sum), Some((3, 2, 0)));
    assert_eq!(way(&h, 1, Measure::Incr), Some((4, 3, 0)));
    assert_eq!(way(&h, 1, Measure::Max), Some((3, 2, 0)));
    assert_eq!(way(&h, 4, Measure::Max), None);

    assert_eq!(changed(&mut h, 5, SERVED, 2), Ok(()));
    assert_eq!(way(&h, 2, Measure::Incr), Some((5, 2, 3)));
    assert_eq!(way(&h, 3, Measure::Incr), Some((4, 3, 0)));
    assert_eq!(changed(&mut h, 4, WITHDRAWN, 7), Ok(()));
    assert_eq!(way(&h, 2, Measure::Incr), Some((5, 2, 3)));
    assert_eq!(way(&h, 3, Measure::Incr), Some((5, 3, 2)));
}

#[test]
fn checks() {
    let h = harbour();
    let sizes = Sizes { nodes: 5, links: 7 };
    assert_eq!(check(&h.links, &h.parents, h.search), Ok(sizes));
    let no_node = Search {
        root: 5,
        ..h.search
    };
    assert_eq!(check(&h.links, &h.parents, no_node), refused(3, 0));
    assert_eq!(check(&[], &[], h.search), refused(1, 0));
}

#[test]
fn tells_the_table_and_the_map() {
    let h = harbour();
    let mut entries = vec![7; h.entries.len() + 1];
    assert_eq!(table(&h.links, &h.parents, h.search, &mut entries), Ok(()));
    assert_eq!(entries[..h.entries.len()], h.entries);
    assert_eq!(entries[h.entries.len()], 7);

    let mut words = [7; MAP_WORDS + 1];
    let told = Unprotected {
        count: 1,
        lowest: 4,
    };
    assert_eq!(map(&h.links, &h.parents, h.search, &mut words), Ok(told));
    assert_eq!(words, [16, 0, 0, 0, 0, 0, 0, 0, 7]);
}

#[test]
fn a_refused_change_changes_nothing() {
    let before = harbour();
    let mut h = before.clone();
    assert_eq!(changed(&mut h, 7, SERVED, 1), refused(11, 0));
    assert_eq!(changed(&mut h, 3, 2, 1), refused(6, 3));
    assert_eq!(changed(&mut h, 0, WITHDRAWN, 2), refused(12, 0));
    assert_eq!(changed(&mut h, 3, SERVED, 1), refused(13, 3));
    assert_eq!(h, before);
}

#[test]
fn a_taken_change_leaves_the_right_table() {
    let mut h = harbour();
    assert_eq!(changed(&mut h, 3, WITHDRAWN, 6), Ok(()));
    assert_eq!(h.links[12..16], [0, 2, 6, WITHDRAWN]);
    assert_eq!(h.entries[ENTRY_NUMBERS + 1], 4);
    let mut fresh = vec![0; h.entries.len()];
    assert_eq!(table(&h.links, &h.parents, h.search, &mut fresh), Ok(()));
    assert_eq!(h.entries, fresh);
}

#[test]
fn writes_what_was_read() {
    let mut h = harbour();
    let mut file = vec![7; FILE_BYTES];
    assert_eq!(written(&h, &mut file), Ok(FILE.len()));
    assert_eq!(&file[..FILE.len()], FILE);
    assert!(file[FILE.len()..].iter().all(|&byte| byte == 7));

    assert_eq!(changed(&mut h, 3, WITHDRAWN, 6), Ok(()));
    let length = written(&h, &mut file).expect("a sound network");
    let (mut links, mut parents, mut entries) = ([0; 28], [0; 5], [0; 50]);
    let header = read(&file[..length], &mut links, &mut parents, &mut entries);
    assert_eq!(header.map(|header| header.search), Ok(h.search));
    assert_eq!((&links[..], &entries[..]), (&h.links[..], &h.entries[..]));
}

#[test]
fn a_short_row_is_refused() {
    let h = harbour();
    let mut entries = vec![7; h.entries.len() - 1];
    assert_eq!(
        table(&h.links, &h.parents, h.search, &mut entries),
        refused(10, 0)
    );
    assert!(entries.iter().all(|&number| number == 7));
    let mut file = vec![7; FILE.len() - 1];
    assert_eq!(written(&h, &mut file), refused(10, 0));
    assert!(file.iter().all(|&byte| byte == 7));
}

/// The wrappers lend rows that are long enough, so this asks the library itself. A row too short for the values is 10 in its
/// place in the order for a file: a file that is empty is 20 all the same.
#[test]
fn a_short_row_of_values_is_refused_in_its_place() {
    let (mut links, mut parents, mut entries) = ([7; 28], [7; 5], [7; 50]);
    let mut ask = |file: &[u8], header: &mut [u64]| {
        said(unsafe {
            raw::doeragyeol_read(
                file.as_ptr(),
                file.len(),
                links.as_mut_ptr(),
                links.len(),
                parents.as_mut_ptr(),
                parents.len(),
                entries.as_mut_ptr(),
                entries.len(),
                header.as_mut_ptr(),
                header.len(),
            )
        })
    };
    let mut header = [7; 4];
    assert_eq!(ask(&FILE[..], &mut header[..3]), refused(10, 0));
    assert_eq!(ask(&[], &mut header[..3]), refused(20, 0));
    assert_eq!(ask(&[], &mut header), refused(20, 0));
    assert_eq!(header, [7; 4]);
    assert_eq!((links, parents, entries), ([7; 28], [7; 5], [7; 50]));
}

const SEVENS: [u16; ROUTE_ROW + 1] = [7; ROUTE_ROW + 1];

/// The way that the forwarder tells, as its row, nodes and length, in rows of these lengths. What it does not tell of must keep
/// its sevens.
fn told(h: &Harbour, failure: Failure, rooms: [usize; 2]) -> Result<(Row, Vec<u16>, u64), Refusal> {
    let (mut ordinary, mut detour) = (SEVENS, SEVENS);
    let asked = forward(
        &h.links,
        &h.parents,
        h.search,
        failure,
        &mut ordinary[..rooms[0]],
        &mut detour[..rooms[1]],
    );
    let told = asked.map(|way| (way.row, way.nodes.to_vec(), way.length));
    let mut right = [SEVENS, SEVENS];
    if let Ok((row, nodes, _)) = &told {
        right[*row as usize][..nodes.len()].copy_from_slice(nodes);
    }
    assert_eq!([ordinary, detour], right);
    told
}

/// The way of a start past a failed node, in rows that are just long enough.
fn way(
    h: &Harbour,
    start: u16,
    failed: u16,
    measure: Measure,
) -> Result<(Row, Vec<u16>, u64), Refusal> {
    let failure = Failure {
        start,
        failed,
        measure,
    };
    told(h, failure, [ROUTE_ROW; 2])
}

/// Node 1 is cut off with 2 and 3 below it. Its swap link under sum and max is 3, from node 2; under incr it is 4, from node 3.
#[test]
fn forwards_past_a_failed_link() {
    let h = harbour();
    let ordinary = |nodes: &[u16], length| Ok((Row::Ordinary, nodes.to_vec(), length));
    let detour = |nodes: &[u16], length| Ok((Row::Detour, nodes.to_vec(), length));
    for measure in [Measure::Sum, Measure::Max] {
        assert_eq!(way(&h, 3, 1, measure), detour(&[3, 1, 2, 0], 10));
        assert_eq!(way(&h, 2, 1, measure), detour(&[2, 1, 2, 0], 12));
        assert_eq!(way(&h, 1, 1, measure), detour(&[1, 2, 0], 9));
    }
    assert_eq!(way(&h, 3, 1, Measure::Incr), detour(&[3, 1, 3, 0], 9));
    assert_eq!(way(&h, 1, 1, Measure::Incr), detour(&[1, 3, 0], 8));
    for measure in [Measure::Sum, Measure::Incr, Measure::Max] {
        assert_eq!(way(&h, 4, 1, measure), ordinary(&[4, 0], 9));
        assert_eq!(way(&h, 3, 4, measure), ordinary(&[3, 1, 0], 3));
        assert_eq!(way(&h, 0, 1, measure), ordinary(&[0], 0));
    }
}

/// At depth 0 node 1 has no swap link; who is not cut off has a way all the same.
#[test]
fn forwards_only_where_there_is_a_way() {
    let mut h = harbour();
    assert_eq!(way(&h, 5, 1, Measure::Sum), refused(15, 0));
    assert_eq!(way(&h, 5, 5, Measure::Sum), refused(15, 0));
    assert_eq!(way(&h, 3, 0, Measure::Sum), refused(16, 0));
    assert_eq!(way(&h, 3, NO_NODE, Measure::Sum), refused(16, 0));
    assert_eq!(way(&h, 4, 4, Measure::Sum), refused(17, 4));
    h.search.depth = 0;
    assert_eq!(way(&h, 3, 1, Measure::Incr), refused(17, 1));
    let right = Ok((Row::Ordinary, vec![4, 0], 9));
    assert_eq!(way(&h, 4, 1, Measure::Incr), right);
    h.search.root = 5;
    assert_eq!(way(&h, 5, 1, Measure::Incr), refused(3, 0));
}

/// Either row that is short is refused, before what is asked is looked at.
#[test]
fn the_forwarder_needs_two_long_rows() {
    let h = harbour();
    let measure = Measure::Max;
    for (start, failed) in [(4, 1), (3, 1), (5, 5), (4, 4)] {
        let failure = Failure {
            start,
            failed,
            measure,
        };
        for rooms in [
            [ROUTE_ROW - 1, ROUTE_ROW],
            [ROUTE_ROW, ROUTE_ROW - 1],
            [0; 2],
        ] {
            assert_eq!(told(&h, failure, rooms), refused(10, 0));
        }
    }
}

/// A row too short for the three values of a way is 10 too.
#[test]
fn a_short_row_for_a_way_is_refused() {
    let h = harbour();
    let (mut ordinary, mut detour, mut way) = (SEVENS, SEVENS, [7; 3]);
    let mut ask = |start: u16, values: usize| {
        said(unsafe {
            raw::doeragyeol_forward_sum(
                h.links.as_ptr(),
                h.links.len(),
                h.parents.as_ptr(),
                h.parents.len(),
                h.search.root,
                h.search.depth,
                h.search.rule as u16,
                start,
                1,
                ordinary.as_mut_ptr(),
                ordinary.len(),
                detour.as_mut_ptr(),
                detour.len(),
                way.as_mut_ptr(),
                values,
            )
        })
    };
    assert_eq!(ask(3, 2), refused(10, 0));
    assert_eq!(ask(5, 2), refused(10, 0));
    assert_eq!(ask(5, 3), refused(15, 0));
    assert_eq!((ordinary, detour, way), (SEVENS, SEVENS, [7; 3]));
}

/// The tree of Harbour: node 1 is 2 from the root, 2 and 3 are 3 and 1 from node 1, and 4 is 9 from the root.
const DISTANCES: [[u64; 5]; 5] = [
    [0, 2, 5, 3, 9],
    [2, 0, 3, 1, 11],
    [5, 3, 0, 4, 14],
    [3, 1, 4, 0, 12],
    [9, 11, 14, 12, 0],
];

fn apart(h: &Harbour, from: u16, to: u16) -> Result<u64, Refusal> {
    distance(&h.links, &h.parents, h.search.root, from, to)
}

/// The distances of all pairs are those of Harbour's tree.
fn has_the_distances(h: &Harbour) {
    for (from, row) in (0..).zip(DISTANCES) {
        for (to, length) in (0..).zip(row) {
            assert_eq!(apart(h, from, to), Ok(length), "{from} {to} {h:?}");
        }
    }
}

#[test]
fn tells_the_distances_of_all_pairs() {
    has_the_distances(&harbour());
}

#[test]
fn who_has_no_route_has_no_distance() {
    let mut h = harbour();
    for none in [5, 511, NO_NODE] {
        assert_eq!(apart(&h, none, 0), refused(8, none as u32));
        assert_eq!(apart(&h, 0, none), refused(8, none as u32));
        assert_eq!(apart(&h, none, none), refused(8, none as u32));
    }
    assert_eq!(apart(&h, 5, NO_NODE), refused(8, 5));
    assert_eq!(apart(&h, NO_NODE, 5), refused(8, NO_NODE as u32));

    // Link 5 leads from node 2 to node 3 and back.
    h.parents[2] = 5;
    h.parents[3] = 5;
    assert_eq!(apart(&h, 2, 0), refused(8, 2));
    assert_eq!(apart(&h, 0, 3), refused(8, 3));
    assert_eq!(apart(&h, 3, 2), refused(8, 3));
    assert_eq!(apart(&h, 3, 3), refused(8, 3));
    assert_eq!(apart(&h, 4, 1), Ok(11));

    h.search.root = 5;
    assert_eq!(apart(&h, 4, 1), refused(8, 4));
}

/// Of no node and of one too many, before the nodes are looked at.
#[test]
fn a_distance_needs_1_to_512_nodes() {
    let mut h = harbour();
    h.parents.resize(NODES, 0);
    has_the_distances(&h);
    h.parents.resize(NODES + 1, 0);
    assert_eq!(apart(&h, 3, 2), refused(1, 0));
    h.parents.clear();
    assert_eq!(apart(&h, 3, 2), refused(1, 0));
    assert_eq!(apart(&h, NO_NODE, 0), refused(1, 0));
}

type Edit = fn(&mut Harbour);

/// Nothing but the tree is looked at: what the check refuses elsewhere, a depth, an end, a mark, the root's parent link or a
/// short link, changes no distance.
#[test]
fn a_distance_asks_the_tree_alone() {
    let edits: [(Edit, u32, u32); 5] = [
        (|h| h.search.depth = 511, 4, 0),
        (|h| h.links[5 * LINK_NUMBERS] = 3, 5, 5),
        (|h| h.links[3] = 2, 6, 0),
        (|h| h.parents[0] = 0, 7, 0),
        (|h| h.links[5 * LINK_NUMBERS + 2] = 1, 9, 5),
    ];
    for (edit, number, place) in edits {
        let mut h = harbour();
        edit(&mut h);
        let checked = check(&h.links, &h.parents, h.search);
        assert_eq!(checked, refused(number, place));
        has_the_distances(&h);
    }
}

/// No room for the distance is 10, behind 1 and 8. A refusal leaves the row as it is, and a distance what lies past it.
#[test]
fn a_row_without_room_for_a_distance_is_refused_in_its_place() {
    let h = harbour();
    let ask = |nodes: usize, from: u16, to: u16, row: &mut [u64]| {
        said(unsafe {
            raw::doeragyeol_distance(
                h.links.as_ptr(),
                h.links.len(),
                h.parents.as_ptr(),
                nodes,
                h.search.root,
                from,
                to,
                row.as_mut_ptr(),
                row.len(),
            )
        })
    };
    let mut row = [7; 3];
    assert_eq!(ask(5, 3, 2, &mut row[..0]), refused(10, 0));
    for room in [0, 1, 3] {
        assert_eq!(ask(0, 5, 5, &mut row[..room]), refused(1, 0));
        assert_eq!(ask(5, 5, 2, &mut row[..room]), refused(8, 5));
        assert_eq!(ask(5, 3, 6, &mut row[..room]), refused(8, 6));
        assert_eq!(ask(5, 6, 5, &mut row[..room]), refused(8, 6));
    }
    assert_eq!(row, [7; 3]);
    for room in [1, 3] {
        let mut row = [7; 3];
        assert_eq!(ask(5, 3, 2, &mut row[..room]), Ok(()));
        assert_eq!(row, [4, 7, 7]);
    }
}

/// The longest path there is: 511 links of 65,535, with the root at either end or within.
#[test]
fn the_longest_distance() {
    let links: Vec<u16> = (0..511)
        .flat_map(|e| [e, e + 1, u16::MAX, SERVED])
        .collect();
    for root in [0, 256, 511] {
        let parents: Vec<u16> = (0..512u16)
            .map(|node| match node {
                _ if node < root => node,
                _ if node > root => node - 1,
                _ => NO_LINK,
            })
            .collect();
        let search = Search {
            root,
            depth: WHOLE,
            rule: Rule::LowestNumber,
        };
        assert!(check(&links, &parents, search).is_ok());
        let apart = |from, to| distance(&links, &parents, root, from, to);
        assert_eq!(apart(0, 511), Ok(33_488_385));
        assert_eq!(apart(511, 0), Ok(33_488_385));
        assert_eq!(apart(511, 511), Ok(0));
    }
}

/// The bytes of stack are the header's.
#[test]
fn the_stack_of_a_distance_is_the_headers() {
    let header = include_str!("../../../include/doeragyeol.h");
    let line = format!("#define DOERAGYEOL_DISTANCE_STACK {DISTANCE_STACK}");
    assert!(header.lines().any(|one| one == line));
}

#[test]
fn a_damaged_file_is_refused() {
    let (mut links, mut parents, mut entries) = ([7; 28], [7; 5], [7; 50]);
    let mut file = FILE.to_vec();
    file[600] ^= 1;
    let said = read(&file, &mut links, &mut parents, &mut entries);
    assert_eq!(said, refused(21, 1));
    assert_eq!((links, parents, entries), ([7; 28], [7; 5], [7; 50]));
}

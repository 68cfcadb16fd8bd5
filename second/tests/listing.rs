//! The listing, byte for byte.

mod common;

use common::*;
use second::file::write;
use second::limits::WHOLE;
use second::listing::listing;
use second::network::Rows;

fn file_of(rows: &Rows, depth: u16) -> Vec<u8> {
    let mut room = vec![0; 32_256];
    let length = write(&rows.lend(), depth, &mut room).unwrap();
    room.truncate(length);
    room
}

#[test]
fn harbour_as_the_paper_prints_it() {
    let right = "nodes 5 links 7 root 0 depth whole
1 0 swap 3 25 4 6 3 10
2 1 swap 3 6 3 1 3 6
3 2 swap 4 7 4 4 4 7
4 6 bridge
unprotected 1 lowest 4
";
    assert_eq!(listing(&harbour_file()), right);
}

#[test]
fn a_bounded_depth_is_a_number_and_state_2_is_none() {
    let right = "nodes 5 links 7 root 0 depth 0
1 0 none
2 1 swap 3 6 3 1 3 6
3 2 swap 4 7 4 4 4 7
4 6 bridge
unprotected 2 lowest 1
";
    assert_eq!(listing(&file_of(&harbour(), 0)), right);
}

#[test]
fn one_node_and_no_unprotected_node() {
    let one = rows(&[65_535], &[], 0);
    let right = "nodes 1 links 0 root 0 depth 510\nunprotected 0 lowest -\n";
    assert_eq!(listing(&file_of(&one, 510)), right);
    let two = rows(&[1, 65_535], &[[0, 1, 9], [0, 1, 4]], 1);
    let right = "nodes 2 links 2 root 1 depth whole
0 1 swap 0 9 0 5 0 9
unprotected 0 lowest -
";
    assert_eq!(listing(&file_of(&two, WHOLE)), right);
}

#[test]
fn a_refused_file_is_one_line() {
    assert_eq!(listing(&[]), "refused 20 0\n");
    let mut file = harbour_file();
    file[1024 + 8 + 3 * 28 + 27] = 8;
    assert_eq!(listing(&file), "refused 21 2\n");
    correct(&mut file, 2);
    assert_eq!(listing(&file), "refused 24 3\n");
}

/// 32,256 bytes go through the ordinary order, one more is 20 at once.
#[test]
fn the_longest_file_that_is_listed() {
    assert_eq!(listing(&[0; 32_256]), "refused 21 0\n");
    assert_eq!(listing(&[0; 32_257]), "refused 20 0\n");
    assert_eq!(listing(&[0; 32_768]), "refused 20 0\n");
}

/// 512 nodes and 2,048 links take 63 blocks; depth 510 is printed.
#[test]
fn the_largest_file() {
    let links: Vec<[u16; 3]> = (0..2_048).map(|e| [0, e % 511 + 1, 2]).collect();
    let parents: Vec<u16> = (0..512u16).map(|x| x.wrapping_sub(1)).collect();
    let file = file_of(&rows(&parents, &links, 0), 510);
    assert_eq!(file.len(), 32_256);
    let text = listing(&file);
    let lines: Vec<&str> = text.lines().collect();
    assert_eq!(lines.len(), 513);
    assert_eq!(lines[0], "nodes 512 links 2048 root 0 depth 510");
    assert_eq!(lines[511], "511 510 swap 1021 2 1021 0 1021 2");
    assert_eq!(lines[512], "unprotected 0 lowest -");
}

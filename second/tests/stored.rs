//! The stored form: the writer on a file made by hand, the reader's refusals
//! with their places and their order.

mod common;

use common::*;
use second::file::write;
use second::limits::WHOLE;
use second::network::Rows;
use second::random;
use second::reader::read;
use second::rng::Rng;
use second::table::table;

/// What the reader answers with enough room.
fn answer(file: &[u8]) -> Result<(usize, usize, u16, u16), (u16, usize)> {
    answer_with(file, [8_192, 512, 5_120])
}

/// What the reader answers. A refusal must leave the rows as they were.
fn answer_with(file: &[u8], rooms: [usize; 3]) -> Result<(usize, usize, u16, u16), (u16, usize)> {
    let mut links = vec![7; rooms[0]];
    let mut parents = vec![7; rooms[1]];
    let mut row = vec![7; rooms[2]];
    let said = told(read(file, &mut links, &mut parents, &mut row));
    if said.is_err() {
        assert!(links.iter().chain(&parents).all(|&number| number == 7));
        assert!(row.iter().all(|&number| number == 7));
    }
    said.map(|s| (s.n, s.m, s.root, s.depth))
}

/// The refusal of the Harbour file with bytes changed, each as block, place
/// in the block and value. The checks of the blocks in `corrected` are right.
fn refused(changes: &[(usize, usize, u8)], corrected: &[usize]) -> (u16, usize) {
    let mut file = harbour_file();
    for &(block, at, value) in changes {
        file[512 * block + at] = value;
    }
    for &block in corrected {
        correct(&mut file, block);
    }
    answer(&file).unwrap_err()
}

/// The place of a byte of a link, and of an entry, in its block.
const fn link(e: usize, byte: usize) -> usize {
    8 + 8 * e + byte
}
const fn entry(x: usize, byte: usize) -> usize {
    8 + 28 * x + byte
}

#[test]
fn the_writer_writes_the_file_made_by_hand() {
    let mut room = vec![0xA5; 1_540];
    assert_eq!(told(write(&harbour().lend(), WHOLE, &mut room)), Ok(1_536));
    assert_eq!(room[..1_536], harbour_file());
    assert_eq!(room[1_536..], [0xA5; 4]);
    let mut short = vec![0xA5; 1_535];
    let answer = told(write(&harbour().lend(), WHOLE, &mut short));
    assert_eq!(answer, Err((10, 0)));
    assert_eq!(short, vec![0xA5; 1_535]);
}

#[test]
fn the_reader_reads_the_file_made_by_hand() {
    let (mut links, mut parents, mut row) = ([7; 30], [7; 6], [7; 58]);
    let said = read(&harbour_file(), &mut links, &mut parents, &mut row).unwrap();
    assert_eq!((said.n, said.m, said.root, said.depth), (5, 7, 0, WHOLE));
    assert_eq!(links[..28], harbour().links);
    assert_eq!(parents[..5], harbour().parents);
    assert_eq!(row[..50], harbour_table());
    assert_eq!((links[28..].to_vec(), parents[5]), (vec![7; 2], 7));
    assert_eq!(row[50..], [7; 8]);
}

#[test]
fn a_wrong_length() {
    let file = harbour_file();
    for length in [0, 1, 511, 513, 1_535] {
        assert_eq!(answer(&file[..length]), Err((20, 0)));
    }
    for length in [512, 1_024] {
        assert_eq!(answer(&file[..length]), Err((20, 0)));
    }
    let longer = [file.clone(), vec![0; 512]].concat();
    assert_eq!(answer(&longer), Err((20, 0)));
    let odd = [file, vec![0]].concat();
    assert_eq!(answer(&odd), Err((20, 0)));
}

#[test]
fn a_wrong_check_names_its_block() {
    assert_eq!(refused(&[(0, 6, 0)], &[]), (21, 0));
    assert_eq!(refused(&[(1, 7, 0)], &[]), (21, 1));
    assert_eq!(refused(&[(2, 511, 1)], &[]), (21, 2));
    assert_eq!(refused(&[(1, 6, 0), (2, 6, 0)], &[]), (21, 1));
}

#[test]
fn a_wrong_form_names_its_block() {
    for (k, used) in [(0, 2), (1, 8), (2, 6)] {
        assert_eq!(refused(&[(k, 0, 0x49)], &[k]), (22, k));
        assert_eq!(refused(&[(k, 1, 2)], &[k]), (22, k));
        assert_eq!(refused(&[(k, 2, 1)], &[k]), (22, k));
        assert_eq!(refused(&[(k, 3, 9)], &[k]), (22, k));
        assert_eq!(refused(&[(k, 4, 1)], &[k]), (22, k));
        assert_eq!(refused(&[(k, 5, used)], &[k]), (22, k));
        assert_eq!(refused(&[(k, 511, 1)], &[k]), (22, k));
    }
    assert_eq!(refused(&[(0, 16, 1)], &[0]), (22, 0));
    assert_eq!(refused(&[(1, link(7, 0), 1)], &[1]), (22, 1));
    assert_eq!(refused(&[(2, entry(5, 0), 1)], &[2]), (22, 2));
    for zero in [3, 10, 11] {
        assert_eq!(refused(&[(2, entry(0, zero), 1)], &[2]), (22, 2));
        assert_eq!(refused(&[(2, entry(4, zero), 128)], &[2]), (22, 2));
    }
}

#[test]
fn the_header_s_numbers() {
    assert_eq!(refused(&[(0, 9, 0)], &[0]), (1, 0));
    assert_eq!(refused(&[(0, 8, 2), (0, 9, 1)], &[0]), (1, 0));
    assert_eq!(refused(&[(0, 10, 8), (0, 11, 1)], &[0]), (2, 0));
    assert_eq!(refused(&[(0, 13, 5)], &[0]), (3, 0));
    assert_eq!(refused(&[(0, 14, 1)], &[0]), (4, 0));
    assert_eq!(refused(&[(0, 15, 0xFE)], &[0]), (4, 0));
}

/// n = 19 needs two table blocks, m = 0 no link block; n = 6 and m = 6 need
/// as many blocks as there are, and the used count is wrong.
#[test]
fn the_number_of_blocks() {
    assert_eq!(refused(&[(0, 9, 19)], &[0]), (20, 0));
    assert_eq!(refused(&[(0, 11, 0)], &[0]), (20, 0));
    assert_eq!(refused(&[(0, 11, 64)], &[0]), (20, 0));
    assert_eq!(refused(&[(0, 9, 6)], &[0]), (22, 2));
    assert_eq!(refused(&[(0, 11, 6)], &[0]), (22, 1));
}

#[test]
fn the_network_of_the_file() {
    assert_eq!(refused(&[(1, link(3, 3), 5)], &[1]), (5, 3));
    assert_eq!(refused(&[(1, link(2, 1), 3)], &[1]), (5, 2));
    assert_eq!(refused(&[(1, link(4, 7), 2)], &[1]), (6, 4));
    assert_eq!(refused(&[(1, link(6, 7), 0)], &[1]), (7, 4));
    assert_eq!(refused(&[(2, entry(0, 1), 0)], &[2]), (7, 0));
    assert_eq!(refused(&[(2, entry(4, 1), 5)], &[2]), (7, 4));
    let cycle = [(2, entry(2, 1), 5), (2, entry(3, 1), 5)];
    assert_eq!(refused(&cycle, &[2]), (8, 2));
    assert_eq!(refused(&[(1, link(5, 5), 1)], &[1]), (9, 5));
}

#[test]
fn rows_too_short() {
    let file = harbour_file();
    for room in [50, 51, 59, 60] {
        assert_eq!(answer_with(&file, [28, 5, room]), Ok((5, 7, 0, WHOLE)));
    }
    for rooms in [
        [27, 5, 50],
        [28, 4, 50],
        [28, 5, 49],
        [28, 5, 35],
        [0, 0, 0],
    ] {
        assert_eq!(answer_with(&file, rooms), Err((10, 0)));
    }
}

#[test]
fn a_wrong_entry_names_the_lowest_node() {
    for state in [1, 2, 3, 4, 255] {
        assert_eq!(refused(&[(2, entry(0, 2), state)], &[2]), (24, 0));
    }
    for byte in (4..10).chain(12..28) {
        assert_eq!(refused(&[(2, entry(3, byte), 99)], &[2]), (24, 3));
        assert_eq!(refused(&[(2, entry(4, byte), 99)], &[2]), (24, 4));
    }
    let two = [(2, entry(3, 27), 99), (2, entry(1, 19), 99)];
    assert_eq!(refused(&two, &[2]), (24, 1));
    assert_eq!(refused(&[(1, link(5, 5), 2)], &[1]), (24, 2));
}

/// Where a mark would stand there is a zero: any other number is 22, also the
/// right marks of nodes 1 to 3, which are 7.
#[test]
fn a_mark_in_an_entry_is_filler() {
    for x in 0..5 {
        for value in (1..8).chain([8, 128, 255]) {
            assert_eq!(refused(&[(2, entry(x, 3), value)], &[2]), (22, 2));
            assert_eq!(refused(&[(2, entry(x, 3), value)], &[]), (21, 2));
        }
    }
    let all = [1, 2, 3].map(|x| (2, entry(x, 3), 7));
    assert_eq!(refused(&all, &[2]), (22, 2));
}

/// A mark with every other fault: what comes before it is told, and it is told
/// before what comes after.
#[test]
fn a_mark_among_the_other_faults() {
    let told = |changes: &[(usize, usize, u8)], corrected: &[usize]| {
        let marked = [&[(2, entry(1, 3), 7)][..], changes].concat();
        refused(&marked, corrected)
    };
    assert_eq!(told(&[(0, 6, 0)], &[2]), (21, 0));
    assert_eq!(told(&[(1, 6, 0)], &[2]), (21, 1));
    assert_eq!(told(&[(0, 1, 2)], &[0, 2]), (22, 0));
    assert_eq!(told(&[(1, 1, 2)], &[1, 2]), (22, 1));
    assert_eq!(told(&[(0, 9, 0)], &[0, 2]), (1, 0));
    assert_eq!(told(&[(0, 10, 9)], &[0, 2]), (2, 0));
    assert_eq!(told(&[(0, 13, 5)], &[0, 2]), (3, 0));
    assert_eq!(told(&[(0, 14, 1)], &[0, 2]), (4, 0));
    assert_eq!(told(&[(0, 9, 19)], &[0, 2]), (20, 0));
    for (at, value) in [
        (link(3, 3), 5),
        (link(4, 7), 2),
        (link(6, 7), 0),
        (link(5, 5), 1),
    ] {
        assert_eq!(told(&[(1, at, value)], &[1, 2]), (22, 2));
    }
    let cycle = [(2, entry(2, 1), 5), (2, entry(3, 1), 5)];
    assert_eq!(told(&cycle, &[2]), (22, 2));
    for at in [entry(1, 2), entry(1, 5), entry(1, 19), entry(0, 27)] {
        assert_eq!(told(&[(2, at, 99)], &[2]), (22, 2));
    }
    let mut file = harbour_file();
    file[1_024 + entry(1, 3)] = 7;
    correct(&mut file, 2);
    assert_eq!(answer_with(&file, [0, 0, 0]), Err((22, 2)));
    assert_eq!(answer(&file[..1_535]), Err((20, 0)));
    assert_eq!(answer(&[file, vec![0; 512]].concat()), Err((20, 0)));
}

#[test]
fn in_one_block_21_comes_before_22() {
    assert_eq!(refused(&[(0, 0, 0)], &[]), (21, 0));
    assert_eq!(refused(&[(1, 1, 0)], &[]), (21, 1));
    assert_eq!(refused(&[(1, 1, 0)], &[1]), (22, 1));
}

#[test]
fn over_blocks_the_first_bad_one_decides() {
    assert_eq!(refused(&[(1, 0, 0), (2, 6, 0)], &[1]), (22, 1));
    assert_eq!(refused(&[(1, 6, 0), (2, 0, 0)], &[2]), (21, 1));
}

#[test]
fn the_order_of_a_file() {
    let longer = |changes: &[(usize, usize, u8)], corrected: &[usize]| {
        let mut file = harbour_file();
        changes
            .iter()
            .for_each(|&(k, at, v)| file[512 * k + at] = v);
        corrected.iter().for_each(|&k| correct(&mut file, k));
        file.resize(2_048, 0);
        answer(&file).unwrap_err()
    };
    // Block 0 before its numbers, its numbers before the number of blocks.
    assert_eq!(refused(&[(0, 9, 0), (0, 1, 2)], &[0]), (22, 0));
    assert_eq!(longer(&[(0, 9, 0)], &[0]), (1, 0));
    assert_eq!(longer(&[(0, 14, 1)], &[0]), (4, 0));
    assert_eq!(longer(&[(0, 6, 0)], &[]), (21, 0));
    // The number of blocks before the blocks, the blocks before 5 to 9.
    assert_eq!(longer(&[(1, 6, 0)], &[]), (20, 0));
    assert_eq!(refused(&[(1, link(0, 1), 9), (2, 6, 0)], &[1]), (21, 2));
    let zeros = [(1, link(0, 1), 9), (2, entry(1, 3), 1)];
    assert_eq!(refused(&zeros, &[1, 2]), (22, 2));
    // 1 before 2, 2 before 3, 3 before 4.
    let header = [(0, 9, 0), (0, 10, 9), (0, 12, 9), (0, 14, 1)];
    for (from, number) in [(0, 1), (1, 2), (2, 3), (3, 4)] {
        assert_eq!(refused(&header[from..], &[0]), (number, 0));
    }
    // 9 before 10, 10 before 24.
    let mut file = harbour_file();
    file[1_024 + entry(1, 27)] = 9;
    correct(&mut file, 2);
    assert_eq!(answer_with(&file, [28, 5, 49]), Err((10, 0)));
    file[512 + link(5, 5)] = 1;
    correct(&mut file, 1);
    assert_eq!(answer_with(&file, [28, 5, 49]), Err((9, 5)));
}

/// Harbour with a withdrawn link 1-4. Its block's words come to 4C01 + 1 + 8,
/// then 3D as in Harbour, then 5 and the length B3B3: FFFF together. So the
/// check is 0, and FFFF is not taken in its place.
#[test]
fn the_check_is_compared_exactly() {
    let mut rows = harbour();
    rows.links.extend([1, 4, 0xB3B3, 0]);
    let mut room = vec![0; 1_536];
    write(&rows.lend(), WHOLE, &mut room).unwrap();
    assert_eq!(room[518..520], [0, 0]);
    assert_eq!(answer(&room), Ok((5, 8, 0, WHOLE)));
    room[518..520].fill(0xFF);
    assert_eq!(answer(&room), Err((21, 1)));
}

/// Exchanged words keep the sum: link 5 becomes 2-4 with length 3.
#[test]
fn the_check_misses_exchanged_words() {
    let exchanged = [(1, link(5, 3), 4), (1, link(5, 5), 3)];
    assert_eq!(refused(&exchanged, &[]), (9, 5));
}

/// Three equal parallel links. With tree link 0 the swap is link 1, with 1 or
/// 2 it is link 0; so a file may name 2 for 1 and is that tree's file.
#[test]
fn another_lawful_tree() {
    let three = |parent| rows(&[65_535, parent], &[[0, 1, 5]; 3], 0);
    let moved = |from: u16, to: u8| {
        let mut file = vec![0; 1_536];
        write(&three(from).lend(), WHOLE, &mut file).unwrap();
        file[1_024 + entry(1, 1)] = to;
        correct(&mut file, 2);
        answer(&file)
    };
    assert_eq!(moved(1, 2), Ok((2, 3, 0, WHOLE)));
    assert_eq!(moved(0, 1), Err((24, 1)));
    assert_eq!(moved(2, 0), Err((24, 1)));
    assert_eq!(moved(2, 3), Err((7, 1)));
}

#[test]
fn one_node_has_no_link_block() {
    let one = rows(&[65_535], &[], 0);
    let mut file = vec![0; 1_024];
    assert_eq!(told(write(&one.lend(), 3, &mut file)), Ok(1_024));
    assert_eq!(file[512..516], [0x54, 1, 0, 1]);
    assert_eq!(answer(&file), Ok((1, 0, 0, 3)));
}

/// What is written is read back: the same rows, and the table of the network.
#[test]
fn writer_then_reader() {
    let mut rng = Rng::new(20);
    for _ in 0..300 {
        let sound: Rows = random::network(&mut rng);
        let (n, m) = (sound.parents.len(), sound.links.len() / 4);
        let depth = rng.pick(&[WHOLE, 0, 1, 2, 510]);
        let mut file = vec![0; 32_256];
        let length = write(&sound.lend(), depth, &mut file).unwrap();
        let (mut links, mut parents) = (vec![7; 4 * m], vec![7; n]);
        let (mut row, mut right) = (vec![7; 10 * n], vec![0; 10 * n]);
        let said = read(&file[..length], &mut links, &mut parents, &mut row).unwrap();
        assert_eq!((said.n, said.m), (n, m));
        assert_eq!((said.root, said.depth), (sound.root, depth));
        assert_eq!(
            (links, parents),
            (sound.links.clone(), sound.parents.clone())
        );
        table(&sound.lend(), at(depth), &mut right).unwrap();
        assert_eq!(row, right);
    }
}

//! The block reader on the blocks of the Harbour file.

mod common;

use common::*;
use second::block::payload;

/// Kind, number and used count of Harbour's three blocks.
const ASKED: [[u16; 3]; 3] = [[0x48, 0, 1], [0x4C, 1, 7], [0x54, 2, 5]];

fn answer(block: &[u8], [kind, number, used]: [u16; 3]) -> Result<&[u8], (u16, usize)> {
    told(payload(block, kind, number, used))
}

#[test]
fn the_payload_is_bytes_8_to_511() {
    let file = harbour_file();
    for (k, asked) in ASKED.into_iter().enumerate() {
        let block = &file[512 * k..512 * (k + 1)];
        assert_eq!(answer(block, asked), Ok(&block[8..]));
    }
}

/// 20 comes first, then 21, then 22, whatever is asked.
#[test]
fn the_order_of_a_block() {
    let mut file = harbour_file();
    let nothing = [9, 300, 0];
    assert_eq!(answer(&file[..511], nothing), Err((20, 0)));
    assert_eq!(answer(&file[..513], nothing), Err((20, 0)));
    assert_eq!(answer(&file[..0], nothing), Err((20, 0)));
    assert_eq!(answer(&file[..512], nothing), Err((22, 300)));
    file[7] ^= 1;
    assert_eq!(answer(&file[..512], nothing), Err((21, 300)));
}

/// The place is the number asked.
#[test]
fn what_is_asked_must_be_what_is_there() {
    let file = harbour_file();
    let links = &file[512..1_024];
    for asked in [
        [0x48, 1, 7],
        [0x54, 1, 7],
        [0x14C, 1, 7],
        [0, 1, 7],
        [0x4C, 1, 6],
        [0x4C, 1, 8],
        [0x4C, 1, 0],
        [0x4C, 1, 64],
    ] {
        assert_eq!(answer(links, asked), Err((22, 1)));
    }
    assert_eq!(answer(links, [0x4C, 2, 7]), Err((22, 2)));
    assert_eq!(answer(links, [0x4C, 65_535, 7]), Err((22, 65_535)));
}

/// A used count of 0, or one too many, is refused also where the block says
/// the same.
#[test]
fn the_used_count_has_limits() {
    let file = harbour_file();
    for (k, [kind, number, _]) in ASKED.into_iter().enumerate() {
        let most = [1, 63, 18][k];
        for (used, sound) in [(0, false), (most, true), (most + 1, false)] {
            let mut block = vec![0; 512];
            block[..4].copy_from_slice(&file[512 * k..512 * k + 4]);
            block[5] = used as u8;
            correct(&mut block, 0);
            assert_eq!(answer(&block, [kind, number, used]).is_ok(), sound);
        }
    }
}

/// An all-zero block has the check FFFF, so 0 is wrong.
#[test]
fn an_all_zero_block() {
    assert_eq!(answer(&[0; 512], [0, 0, 0]), Err((21, 0)));
}

/// Also where the number would be the right marks of node 2, which are 7.
#[test]
fn zeros_inside_entries_are_filler() {
    for (zero, value) in [(3, 1), (3, 7), (3, 8), (10, 1), (11, 1)] {
        let mut block = harbour_file()[1_024..].to_vec();
        block[8 + 2 * 28 + zero] = value;
        correct(&mut block, 0);
        assert_eq!(answer(&block, ASKED[2]), Err((22, 2)));
    }
}

/// The block reader leaves states, links and costs alone.
#[test]
fn other_bytes_of_entries_are_not_looked_at() {
    for byte in (0..3).chain(4..10).chain(12..28) {
        let mut block = harbour_file()[1_024..].to_vec();
        block[8 + 2 * 28 + byte] = 0xEE;
        correct(&mut block, 0);
        assert_eq!(answer(&block, ASKED[2]), Ok(&block[8..]));
    }
}

//! What the tests share. Nothing here calls the code under test but for
//! lending it rows.
#![allow(dead_code)]

use second::network::Rows;
use second::refusal::Refusal;
use second::terms::Terms;

pub const NONE: u64 = 65_535;

/// A refusal as number and place.
pub fn told<T>(answer: Result<T, Refusal>) -> Result<T, (u16, usize)> {
    answer.map_err(|refusal| (refusal.number(), refusal.place))
}

/// A depth by rule 0.
pub fn at(depth: u16) -> Terms {
    Terms { depth, rule: 0 }
}

/// A depth by a rule.
pub fn by(rule: u16, depth: u16) -> Terms {
    Terms { depth, rule }
}

/// Rows from ends and lengths, all links in service.
pub fn rows(parents: &[u16], links: &[[u16; 3]], root: u16) -> Rows {
    Rows {
        parents: parents.to_vec(),
        links: links.iter().flat_map(|&[a, b, w]| [a, b, w, 1]).collect(),
        root,
    }
}

/// The Harbour case, typed from the requirements.
pub fn harbour() -> Rows {
    let links = [
        [0, 1, 2],
        [1, 2, 3],
        [1, 3, 1],
        [0, 2, 6],
        [0, 3, 7],
        [2, 3, 4],
        [0, 4, 9],
    ];
    rows(&[65_535, 0, 1, 2, 6], &links, 0)
}

/// The entries of Harbour at the whole search, typed from the requirements.
/// Links 3 and 4 go from the root to nodes 2 and 3, their second ends.
pub fn harbour_table() -> Vec<u64> {
    [
        [0, NONE, NONE, NONE, 0, 0, 0, 0, 0, 0],
        [1, 3, 4, 3, 25, 6, 10, 1, 1, 1],
        [1, 3, 3, 3, 6, 1, 6, 1, 1, 1],
        [1, 4, 4, 4, 7, 4, 7, 1, 1, 1],
        [3, NONE, NONE, NONE, 0, 0, 0, 0, 0, 0],
    ]
    .concat()
}

/// Bytes from hexadecimal; spaces do not count.
pub fn hex(text: &str) -> Vec<u8> {
    let digits: Vec<u32> = text.chars().filter_map(|c| c.to_digit(16)).collect();
    digits.chunks(2).map(|d| (d[0] * 16 + d[1]) as u8).collect()
}

/// The file of Harbour, worked out by hand: each block's check is the
/// complement of the sum of its words, added on paper.
pub fn harbour_file() -> Vec<u8> {
    let header = "4801 0000 0001 b7f1  0005 0007 0000 ffff";
    let links = "4c01 0001 0007 b3b9
        0000 0001 0002 0001  0001 0002 0003 0001  0001 0003 0001 0001
        0000 0002 0006 0001  0000 0003 0007 0001  0002 0003 0004 0001
        0000 0004 0009 0001";
    let table = "5401 0002 0005 a587
        ffff 0000 ffff ffff ffff 0000 0000000000000000 00000000 00000000
        0000 0100 0003 0004 0003 0000 0000000000000019 00000006 0000000a
        0001 0100 0003 0003 0003 0000 0000000000000006 00000001 00000006
        0002 0100 0004 0004 0004 0000 0000000000000007 00000004 00000007
        0006 0300 ffff ffff ffff 0000 0000000000000000 00000000 00000000";
    let block = |text: &str| {
        let mut bytes = hex(text);
        bytes.resize(512, 0);
        bytes
    };
    [header, links, table].map(block).concat()
}

/// Corrects the check of block k: words added with end-around carry.
pub fn correct(file: &mut [u8], k: usize) {
    let block = &mut file[512 * k..512 * (k + 1)];
    block[6] = 0;
    block[7] = 0;
    let mut sum: u32 = 0;
    for at in (0..512).step_by(2) {
        sum += u32::from(block[at]) * 256 + u32::from(block[at + 1]);
        if sum > 0xFFFF {
            sum -= 0xFFFF;
        }
    }
    let check = 0xFFFF - sum as u16;
    block[6] = (check >> 8) as u8;
    block[7] = check as u8;
}

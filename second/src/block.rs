//! The RFC 1071 checksum, and the reader of one block.

use crate::limits::*;
use crate::refusal::{refuse, Refusal, Why};

/// The one's complement sum of 16-bit words, big-endian. A last odd byte is
/// the high byte of a word.
pub fn ones_sum(bytes: &[u8]) -> u16 {
    let mut sum: u64 = 0;
    for word in bytes.chunks(2) {
        let low = word.get(1).copied().unwrap_or(0);
        sum += u64::from(u16::from_be_bytes([word[0], low]));
    }
    while sum > 0xFFFF {
        sum = (sum & 0xFFFF) + (sum >> 16);
    }
    sum as u16
}

/// The checksum: the one's complement of the sum.
pub fn checksum(bytes: &[u8]) -> u16 {
    !ones_sum(bytes)
}

/// The number that two bytes at a place hold.
pub fn word_at(bytes: &[u8], at: usize) -> u16 {
    u16::from_be_bytes([bytes[at], bytes[at + 1]])
}

/// The check of a block: its checksum with bytes 6 and 7 taken as zero.
pub fn right_check(block: &[u8]) -> u16 {
    let mut copy = block.to_vec();
    copy[6] = 0;
    copy[7] = 0;
    checksum(&copy)
}

/// Stores the right check.
pub fn seal(block: &mut [u8]) {
    let check = right_check(block);
    block[6..8].copy_from_slice(&check.to_be_bytes());
}

/// Records a full block of the kind holds, and the bytes of each.
/// None where the kind is none of the three.
pub fn holds(kind: u16) -> Option<(usize, usize)> {
    match u8::try_from(kind) {
        Ok(KIND_HEADER) => Some((HEADERS_A_BLOCK, HEADER_BYTES)),
        Ok(KIND_LINKS) => Some((LINKS_A_BLOCK, LINK_BYTES)),
        Ok(KIND_TABLE) => Some((ENTRIES_A_BLOCK, ENTRY_BYTES)),
        _ => None,
    }
}

/// The unused payload and the zeros inside entries are zero.
fn filler_is_zero(payload: &[u8], kind: u16, used_bytes: usize) -> bool {
    let (used, unused) = payload.split_at(used_bytes);
    let entries = kind == u16::from(KIND_TABLE);
    unused.iter().all(|&byte| byte == 0)
        && (!entries
            || used
                .chunks(ENTRY_BYTES)
                .all(|entry| ENTRY_ZEROS.iter().all(|&at| entry[at] == 0)))
}

/// Kind, edition, number, used count and filler are those asked.
fn form_is_right(block: &[u8], kind: u16, number: u16, used: u16) -> bool {
    let (most, width) = match holds(kind) {
        Some(both) => both,
        None => return false,
    };
    (1..=most).contains(&(used as usize))
        && u16::from(block[0]) == kind
        && block[1] == EDITION
        && word_at(block, 2) == number
        && word_at(block, 4) == used
        && filler_is_zero(&block[HEAD..], kind, used as usize * width)
}

/// The payload of a sound block. 20, then 21, then 22; the place of the last
/// two is the number asked.
pub fn payload(bytes: &[u8], kind: u16, number: u16, used: u16) -> Result<&[u8], Refusal> {
    if bytes.len() != BLOCK {
        return refuse(Why::FileLength, 0);
    }
    if word_at(bytes, 6) != right_check(bytes) {
        return refuse(Why::BlockCheck, number as usize);
    }
    if !form_is_right(bytes, kind, number, used) {
        return refuse(Why::BlockForm, number as usize);
    }
    Ok(&bytes[HEAD..])
}

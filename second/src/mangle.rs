//! Blind damage to a stored file, with and without a corrected check.

use crate::block::seal;
use crate::limits::*;
use crate::rng::Rng;

/// Ways to damage a file.
#[derive(Clone, Copy, PartialEq, Eq, Debug)]
pub enum Mangle {
    BitFlip,
    WordSwap,
    ByteSet,
    Truncated,
    Extended,
    WrongFiller,
}

/// All ways, with a short label each.
pub const MANGLES: [(Mangle, &str); 6] = [
    (Mangle::BitFlip, "bit-flip"),
    (Mangle::WordSwap, "word-swap"),
    (Mangle::ByteSet, "byte-set"),
    (Mangle::Truncated, "truncated"),
    (Mangle::Extended, "extended"),
    (Mangle::WrongFiller, "filler"),
];

/// Damages the file; with `corrected`, every whole block is sealed again.
pub fn mangle(rng: &mut Rng, bytes: &mut Vec<u8>, way: Mangle, corrected: bool) {
    let length = bytes.len();
    match way {
        Mangle::BitFlip => bytes[rng.below(length)] ^= 1 << rng.below(8),
        Mangle::WordSwap => swap_words(rng, bytes),
        Mangle::ByteSet => bytes[rng.below(length)] = rng.word() as u8,
        Mangle::Truncated => {
            let kept = rng.below(length);
            bytes.truncate(rng.pick(&[kept, length - length.min(BLOCK)]));
        }
        Mangle::Extended => {
            let more = rng.pick(&[1, 2, BLOCK - 1, BLOCK, 2 * BLOCK]);
            let byte = rng.pick(&[0, 0, BYTE_FILL]);
            bytes.resize(length + more, byte);
        }
        Mangle::WrongFiller => {
            let last = bytes.iter().rposition(|&byte| byte != 0).unwrap_or(0);
            bytes[rng.pick(&[(last + 1).min(length - 1), length - 1])] ^= 1;
        }
    }
    if corrected {
        bytes.chunks_exact_mut(BLOCK).for_each(seal);
    }
}

/// Exchanges two 16-bit words, neighbours or not.
fn swap_words(rng: &mut Rng, bytes: &mut [u8]) {
    let words = bytes.len() / 2;
    let one = rng.below(words);
    let near = (one + 1).min(words - 1);
    let far = rng.below(words);
    let two = rng.pick(&[near, far]);
    bytes.swap(2 * one, 2 * two);
    bytes.swap(2 * one + 1, 2 * two + 1);
}

//! Cases of op 8: one block, and the kind, number and used count asked.

use crate::block::{holds, right_check, seal};
use crate::file::{slots, Slot};
use crate::file_faults::sound_file;
use crate::harbour::harbour;
use crate::limits::*;
use crate::mangle::{mangle, MANGLES};
use crate::named::{large, small};
use crate::network::Rows;
use crate::probe::*;
use crate::random;
use crate::rng::Rng;

/// The blocks of a network's file with what must be asked of each.
fn blocks(rows: &Rows) -> Vec<(Vec<u8>, [u16; 3])> {
    let net = rows.lend();
    let file = sound_file(rows, WHOLE).bytes;
    let slots = slots(net.n(), net.m());
    let parts = file.chunks(BLOCK).zip(&slots).enumerate();
    parts
        .map(|(k, (part, slot))| (part.to_vec(), asked(k, slot)))
        .collect()
}

fn asked(k: usize, slot: &Slot) -> [u16; 3] {
    [u16::from(slot.kind), k as u16, slot.used as u16]
}

/// A case over one block.
pub fn case(block: &[u8], asked: [u16; 3]) -> Case {
    Case::over_bytes(PAYLOAD_OF, block, asked)
}

/// All fixed cases of the block reader.
pub fn fixed() -> Vec<Case> {
    let mut cases = Vec::new();
    for named in small() {
        let sound = blocks(&named.rows);
        cases.extend(sound.iter().map(|(block, asked)| case(block, *asked)));
    }
    let most = blocks(&large()[3].rows);
    cases.extend(most.iter().map(|(block, asked)| case(block, *asked)));
    for (block, asked) in blocks(&harbour()) {
        cases.extend(wrong_asks(&block, asked));
        cases.extend(wrong_lengths(&block, asked));
        cases.extend(wrong_bytes(&block, asked));
        cases.extend(wrong_alike(&block, asked));
    }
    cases.extend(check_of_zero());
    cases.extend(known_checks());
    cases
}

/// A word behind the front of a block of zeros, and the check by hand: the
/// example of RFC 1071, a carry, a carry of a carry, no carry, none at all.
pub const KNOWN: [(&[u8], u16); 5] = [
    (&[0x00, 0x01, 0xF2, 0x03, 0xF4, 0xF5, 0xF6, 0xF7], 0x220D),
    (&[0x80, 0x00, 0x80, 0x00], 0xFFFE),
    (&[0xFF, 0xFF, 0xFF, 0xFF, 0x00, 0x01], 0xFFFE),
    (&[0x12, 0x34], 0xEDCB),
    (&[], 0xFFFF),
];

/// Blocks that are no header: 22 by the known check, 21 by its neighbours.
fn known_checks() -> Vec<Case> {
    let mut cases = Vec::new();
    for (words, check) in KNOWN {
        for stored in [check, check.wrapping_add(1), check.wrapping_sub(1)] {
            let mut bytes = [0; BLOCK];
            bytes[HEAD..HEAD + words.len()].copy_from_slice(words);
            bytes[6..8].copy_from_slice(&stored.to_be_bytes());
            cases.push(case(&bytes, [0x48, 9, 1]));
        }
    }
    cases
}

/// Another kind, number or used count asked, of a block right or spoiled.
fn wrong_asks(block: &[u8], [kind, number, used]: [u16; 3]) -> Vec<Case> {
    let kinds = [0x48, 0x4C, 0x54, 0, 1, 0x4801, 256 + kind, 65_535];
    let numbers = [0, 1, 2, 3, 255, 256 + number, 65_535];
    let counts = [0, 1, 2, 5, 7, 18, 19, 63, 64, 256 + used, 65_535];
    let asks: Vec<[u16; 3]> = (kinds.map(|k| [k, number, used]).into_iter())
        .chain(numbers.map(|b| [kind, b, used]))
        .chain(counts.map(|c| [kind, number, c]))
        .collect();
    let mut spoiled = block.to_vec();
    spoiled[7] ^= 1;
    let mut cases: Vec<Case> = asks.iter().map(|&ask| case(block, ask)).collect();
    cases.extend(asks.iter().map(|&ask| case(&spoiled, ask)));
    cases.extend(asks.iter().map(|&ask| case(&block[..510], ask)));
    cases
}

/// Lengths other than a block's.
fn wrong_lengths(block: &[u8], asked: [u16; 3]) -> Vec<Case> {
    let lengths = [0, 1, 7, 8, 511, 513, 1_024, 33_000];
    let sized = |&length: &usize| {
        let mut bytes = block.to_vec();
        bytes.resize(length, 0);
        case(&bytes, asked)
    };
    lengths.iter().map(sized).collect()
}

/// Every byte up to the end of Harbour's entries, then every 5th, changed;
/// with and without a corrected check. A block of zeros, and one of ones.
fn wrong_bytes(block: &[u8], asked: [u16; 3]) -> Vec<Case> {
    let mut cases = Vec::new();
    for at in (0..160).chain((160..BLOCK).step_by(5)) {
        let mut bytes = block.to_vec();
        bytes[at] ^= 0x11;
        cases.push(case(&bytes, asked));
        seal(&mut bytes);
        cases.push(case(&bytes, asked));
    }
    cases.push(case(&[0; BLOCK], asked));
    cases.push(case(&[0xFF; BLOCK], asked));
    cases
}

/// A block that says what is asked, where that is no kind, or a used count of
/// 0 or too large. Number 65,535 is as good as any.
fn wrong_alike(block: &[u8], [kind, number, used]: [u16; 3]) -> Vec<Case> {
    let (most, _) = holds(kind).expect("one of the three kinds");
    let most = most as u16;
    let asks = [
        [0, number, used],
        [0x49, number, used],
        [kind, 65_535, used],
        [kind, 256 + number, used],
        [kind, number, 0],
        [kind, number, most],
        [kind, number, most + 1],
        [kind, number, 256 + used],
    ];
    let saying = |asked: [u16; 3]| {
        let mut bytes = block.to_vec();
        bytes[0] = asked[0] as u8;
        bytes[2..4].copy_from_slice(&asked[1].to_be_bytes());
        bytes[4..6].copy_from_slice(&asked[2].to_be_bytes());
        seal(&mut bytes);
        let whole = case(&bytes, asked);
        bytes[HEAD..].fill(0);
        seal(&mut bytes);
        [whole, case(&bytes, asked)]
    };
    asks.map(saying).concat()
}

/// A link block whose check is 0: stored as it is, and as FFFF.
fn check_of_zero() -> Vec<Case> {
    let (mut block, asked) = blocks(&harbour()).swap_remove(1);
    block[HEAD + 4..HEAD + 6].fill(0);
    let length = right_check(&block);
    block[HEAD + 4..HEAD + 6].copy_from_slice(&length.to_be_bytes());
    seal(&mut block);
    let zero = case(&block, asked);
    block[6..8].fill(0xFF);
    vec![zero, case(&block, asked)]
}

/// A block of a random file, damaged or not, asked rightly or not.
pub fn random(rng: &mut Rng) -> Case {
    let rows = random::rich_network(rng);
    let sound = blocks(&rows);
    let (mut block, mut asked) = sound[rng.below(sound.len())].clone();
    if rng.chance(60) {
        let (way, _) = rng.pick(&MANGLES);
        let corrected = rng.chance(60);
        mangle(rng, &mut block, way, corrected);
    }
    if rng.chance(25) {
        asked[rng.below(3)] = rng.pick(&[0, 1, 2, 0x48, 0x4C, 0x54, 18, 63]);
    }
    case(&block, asked)
}

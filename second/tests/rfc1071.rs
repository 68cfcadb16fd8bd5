//! The RFC 1071 checksum on vectors added by hand.

mod common;

use common::*;
use second::block::{checksum, ones_sum, right_check};
use second::cases::blocks::KNOWN;
use second::limits::{BLOCK, HEAD};

#[test]
fn the_example_of_the_rfc() {
    let bytes = hex("0001 f203 f4f5 f6f7");
    assert_eq!(ones_sum(&bytes), 0xddf2);
    assert_eq!(checksum(&bytes), 0x220d);
}

#[test]
fn the_example_of_the_rfc_in_the_other_byte_order() {
    assert_eq!(ones_sum(&hex("0100 03f2 f5f4 f7f6")), 0xf2dd);
}

/// A sum of 0 comes from zeros alone, and its complement is FFFF.
#[test]
fn all_zero() {
    assert_eq!(checksum(&[0; 512]), 0xffff);
    assert_eq!(checksum(&[]), 0xffff);
}

/// FFFF is the other zero: adding it changes nothing but 0 itself.
#[test]
fn all_ones() {
    assert_eq!(ones_sum(&[0xff; 512]), 0xffff);
    assert_eq!(checksum(&[0xff; 512]), 0);
    assert_eq!(ones_sum(&hex("ffff 1234 ffff")), 0x1234);
}

/// FFFF + 1 = 10000, and the carry comes back as 1.
#[test]
fn one_carry() {
    assert_eq!(ones_sum(&hex("ffff 0001")), 0x0001);
    assert_eq!(ones_sum(&hex("8000 8000")), 0x0001);
    assert_eq!(checksum(&hex("8000 8000")), 0xfffe);
}

/// FFFF + FFFF + 1 = 1FFFF; FFFF + 1 carries once more.
#[test]
fn a_carry_of_a_carry() {
    assert_eq!(ones_sum(&hex("ffff ffff 0001")), 0x0001);
    assert_eq!(ones_sum(&hex("8000 8000 fffe")), 0xffff);
}

/// Three carries: 4 x C000 = 30000, which folds to 3.
#[test]
fn several_carries() {
    assert_eq!(ones_sum(&hex("c000 c000 c000 c000")), 0x0003);
}

/// A last odd byte is the high byte of a word.
#[test]
fn an_odd_byte() {
    assert_eq!(ones_sum(&[0x01]), 0x0100);
    assert_eq!(ones_sum(&hex("0001 f2")), 0xf201);
    assert_eq!(ones_sum(&hex("ff01 ff")), 0xfe02);
}

/// 4801 + 1 + 5 + 7 + FFFF = 1480D, which folds to 480E.
#[test]
fn bytes_6_and_7_are_taken_as_zero() {
    let mut block = hex("4801 0000 0001 1234 0005 0007 0000 ffff");
    block.resize(512, 0);
    assert_eq!(right_check(&block), 0xb7f1);
}

/// The blocks of zeros with some words, which the probe is asked about too.
#[test]
fn the_known_checks() {
    for (words, check) in KNOWN {
        let mut block = [0; BLOCK];
        block[HEAD..HEAD + words.len()].copy_from_slice(words);
        assert_eq!(right_check(&block), check);
    }
}

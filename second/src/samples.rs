//! Sample stored files for comparing listings.

use crate::file_faults::{damaged, sound_file, FileFault, FILE_FAULTS};
use crate::harbour::harbour;
use crate::limits::*;
use crate::mangle::{mangle, MANGLES};
use crate::named::{large, small};
use crate::random;
use crate::rng::Rng;

/// A file with a short label.
pub struct Sample {
    pub label: String,
    pub bytes: Vec<u8>,
}

fn sample(label: impl Into<String>, bytes: Vec<u8>) -> Sample {
    Sample {
        label: label.into(),
        bytes,
    }
}

/// All samples: accepted files, lengths, each fault, and `count` damaged ones.
pub fn samples(seed: u64, count: usize) -> Vec<Sample> {
    let mut rng = Rng::new(seed);
    let mut list = accepted();
    list.extend(lengths());
    list.extend(faulty(&mut rng));
    list.extend((0..count).map(|i| mangled(&mut rng, i)));
    list
}

/// Accepted files: whole and bounded depths, every shape, the largest.
fn accepted() -> Vec<Sample> {
    let mut list = Vec::new();
    for named in small() {
        list.push(sample(named.label, sound_file(&named.rows, WHOLE).bytes));
        for depth in [0, 1, 2, DEEPEST] {
            let label = format!("{}-depth-{depth}", named.label);
            list.push(sample(label, sound_file(&named.rows, depth).bytes));
        }
    }
    for named in large() {
        list.push(sample(named.label, sound_file(&named.rows, WHOLE).bytes));
    }
    list
}

/// Lengths around the limits, of zeros and of the largest file.
fn lengths() -> Vec<Sample> {
    let most = sound_file(&large()[3].rows, DEEPEST).bytes;
    let mut list = Vec::new();
    for length in [0, 1, 511, 512, 513, 32_256, 32_257, 32_768] {
        list.push(sample(format!("zeros-{length}"), vec![0; length]));
        let mut bytes = most.clone();
        bytes.resize(length, 0);
        list.push(sample(format!("largest-at-{length}"), bytes));
    }
    let mut bytes = sound_file(&harbour(), WHOLE).bytes;
    bytes.resize(40_000, 0);
    list.push(sample("harbour-at-40000", bytes));
    list
}

/// Each fault of a file, alone and with a second one.
fn faulty(rng: &mut Rng) -> Vec<Sample> {
    let mut list = Vec::new();
    for one in FILE_FAULTS {
        for _ in 0..2 {
            let sound = random::rich_network(rng);
            let bytes = damaged(rng, &sound, WHOLE, &[one]).bytes;
            list.push(sample(label_of(one), bytes));
        }
        let two = rng.pick(&FILE_FAULTS);
        let sound = random::rich_network(rng);
        let bytes = damaged(rng, &sound, WHOLE, &[one, two]).bytes;
        let label = format!("{}-and-{}", label_of(one), label_of(two));
        list.push(sample(label, bytes));
    }
    list
}

/// The fault's name in small letters, its words joined by a dash.
fn label_of(fault: FileFault) -> String {
    let mut label = String::new();
    for letter in format!("{fault:?}").chars() {
        if letter.is_uppercase() && !label.is_empty() {
            label.push('-');
        }
        label.push(letter.to_ascii_lowercase());
    }
    label
}

/// A file damaged blindly, the check corrected in every second one.
fn mangled(rng: &mut Rng, i: usize) -> Sample {
    let corrected = i % 2 == 1;
    let (way, name) = MANGLES[i / 2 % MANGLES.len()];
    let rows = if rng.chance(30) {
        harbour()
    } else {
        random::rich_network(rng)
    };
    let mut bytes = sound_file(&rows, rng.pick(&[WHOLE, 0, 1])).bytes;
    mangle(rng, &mut bytes, way, corrected);
    let ending = if corrected { "-corrected" } else { "" };
    sample(format!("{name}{ending}"), bytes)
}

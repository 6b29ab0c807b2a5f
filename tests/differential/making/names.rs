//! Random names.

use std::collections::HashSet;

use crate::chance::Chance;

const KEYWORDS: [&[u8]; 16] = [
    b"arbac", b"role", b"user", b"has", b"assign", b"revoke", b"goal", b"end", b"typing", b"trace",
    b"join", b"leave", b"L", b"H", b"1", b"_",
];

const BYTES: &[u8] = b"abcdefghijklmnopqrstuvwxyzABCDEFGHIJKLMNOPQRSTUVWXYZ0123456789_";

pub fn of_length(chance: &mut Chance, length: usize) -> Vec<u8> {
    (0..length).map(|_| chance.pick(b"abcABC012_")).collect()
}

/// Most names are short, so that a damaged one is often another declared one; some are words of the
/// texts, and some have 32 bytes of which only the last tells them apart.
fn any(chance: &mut Chance) -> Vec<u8> {
    match chance.below(12) {
        0 => chance.pick(&KEYWORDS).to_vec(),
        1 => {
            let mut name = vec![b'n'; 31];
            name.push(chance.pick(BYTES));
            name
        }
        2 => {
            let length = chance.between(4, 32);
            of_length(chance, length)
        }
        _ => {
            let length = chance.between(1, 3);
            of_length(chance, length)
        }
    }
}

/// So many different names.
pub fn names(chance: &mut Chance, count: usize) -> Vec<Vec<u8>> {
    names_beside(chance, count, &[])
}

/// So many different names, none of them taken.
pub fn names_beside(chance: &mut Chance, count: usize, taken: &[Vec<u8>]) -> Vec<Vec<u8>> {
    let mut seen: HashSet<Vec<u8>> = taken.iter().cloned().collect();
    let mut names = Vec::new();
    while names.len() < count {
        let name = any(chance);
        if seen.insert(name.clone()) {
            names.push(name);
        }
    }
    names
}

/// A name that is not taken, often a taken one with its first letter in the other case or one byte
/// more.
pub fn like_taken(chance: &mut Chance, taken: &[Vec<u8>]) -> Vec<u8> {
    let mut name = taken[chance.below(taken.len())].clone();
    if chance.one_in(2) && name[0].is_ascii_alphabetic() {
        name[0] ^= b' ';
    } else if name.len() < 32 {
        name.push(b'x');
    }
    if taken.contains(&name) {
        return names_beside(chance, 1, taken).remove(0);
    }
    name
}

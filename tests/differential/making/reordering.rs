//! Reordering: a policy text with its has lines in another order, and with the names of its sets in
//! another order.

use crate::chance::Chance;

/// Damaged texts have one too: only has lines change places, and names between commas.
pub fn reordered(chance: &mut Chance, policy: &[u8]) -> Vec<u8> {
    let mut lines: Vec<Vec<u8>> =
        policy.split(|&byte| byte == b'\n').map(|line| line.to_vec()).collect();
    let places: Vec<usize> =
        (0..lines.len()).filter(|&place| lines[place].starts_with(b"has\t")).collect();
    let mut order = places.clone();
    chance.shuffle(&mut order);
    let has: Vec<Vec<u8>> = order.iter().map(|&place| lines[place].clone()).collect();
    for (&place, line) in places.iter().zip(has) {
        lines[place] = line;
    }
    for line in &mut lines {
        *line = with_reordered_sets(chance, line);
    }
    lines.join(&b'\n')
}

fn with_reordered_sets(chance: &mut Chance, line: &[u8]) -> Vec<u8> {
    let fields: Vec<Vec<u8>> = line
        .split(|&byte| byte == b'\t')
        .map(|field| {
            let mut names: Vec<&[u8]> = field.split(|&byte| byte == b',').collect();
            chance.shuffle(&mut names);
            names.join(&b',')
        })
        .collect();
    fields.join(&b'\t')
}

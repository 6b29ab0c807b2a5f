//! Sets of roles: lists without repeats, in any order, and masks, which have a bit for each role.

use crate::chance::Chance;

/// At most `most` roles below `count`.
pub fn set(chance: &mut Chance, count: usize, most: usize) -> Vec<usize> {
    let mut set = Vec::new();
    for _ in 0..chance.below(most + 1) {
        add(&mut set, chance.below(count));
    }
    set
}

pub fn add(set: &mut Vec<usize>, role: usize) {
    if !set.contains(&role) {
        set.push(role);
    }
}

pub fn mask(roles: &[usize]) -> u128 {
    roles.iter().fold(0, |mask, &role| mask | 1 << role)
}

pub fn has(mask: u128, role: usize) -> bool {
    mask >> role & 1 == 1
}

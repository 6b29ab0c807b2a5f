//! Random typings.

use crate::chance::Chance;
use crate::drafts::RoleType;
use crate::making::sets::{add, set};

pub fn without_sets(high: bool) -> RoleType {
    RoleType { high: high, plus: Vec::new(), minus: Vec::new() }
}

/// What a typing says of one role: one in `labels` is H, one in `sets` has a plus set, and as many
/// have a minus set.
fn role_type(chance: &mut Chance, roles: usize, labels: usize, sets: usize) -> RoleType {
    let mut said = without_sets(chance.one_in(labels));
    if chance.one_in(sets) {
        said.plus = set(chance, roles, 2);
    }
    if chance.one_in(sets) {
        said.minus = set(chance, roles, 2);
    }
    if chance.one_in(30) {
        said.minus = set(chance, roles, roles);
    }
    said
}

pub fn typing(chance: &mut Chance, roles: usize) -> Vec<RoleType> {
    let labels = chance.between(2, 6);
    let sets = chance.between(1, 4);
    let mut typing: Vec<RoleType> =
        (0..roles).map(|_| role_type(chance, roles, labels, sets)).collect();
    match chance.below(8) {
        0..=1 => shut_out_both_ways(&mut typing),
        2 => {
            let last = add_chain(chance, &mut typing);
            if chance.one_in(2) {
                add(&mut typing[last].minus, last);
            }
        }
        _ => {}
    }
    typing
}

/// Two roles of which one shuts the other out then stand in each other's minus sets.
fn shut_out_both_ways(typing: &mut [RoleType]) {
    for role in 0..typing.len() {
        for other in typing[role].minus.clone() {
            add(&mut typing[other].minus, role);
        }
    }
}

/// All roles in a chain of random order, each with the next in its plus set: a closing that goes
/// from role to role takes many rounds. Tells the last.
fn add_chain(chance: &mut Chance, typing: &mut [RoleType]) -> usize {
    let mut order: Vec<usize> = (0..typing.len()).collect();
    chance.shuffle(&mut order);
    for pair in order.windows(2) {
        add(&mut typing[pair[0]].plus, pair[1]);
    }
    order[order.len() - 1]
}

/// A chain and nothing else, up to its last role: that is H, or shuts itself out, or neither. What
/// holds of a role in the chain often hangs on all that come behind it.
pub fn chain(chance: &mut Chance, roles: usize) -> Vec<RoleType> {
    let mut typing = vec![without_sets(false); roles];
    let last = add_chain(chance, &mut typing);
    match chance.below(3) {
        0 => typing[last].high = true,
        1 => typing[last].minus.push(last),
        _ => {}
    }
    typing
}

/// A typing that agrees with another on most roles, with its sets in other orders.
pub fn near(chance: &mut Chance, typing: &[RoleType]) -> Vec<RoleType> {
    let mut other = typing.to_vec();
    for _ in 0..chance.below(4) {
        nudge(chance, &mut other);
    }
    for said in &mut other {
        chance.shuffle(&mut said.plus);
        chance.shuffle(&mut said.minus);
    }
    other
}

/// Another label, or one name more or less in a set.
fn nudge(chance: &mut Chance, typing: &mut [RoleType]) {
    let roles = typing.len();
    let said = &mut typing[chance.below(roles)];
    match chance.below(3) {
        0 => said.high = !said.high,
        1 => nudge_set(chance, &mut said.plus, roles),
        _ => nudge_set(chance, &mut said.minus, roles),
    }
}

fn nudge_set(chance: &mut Chance, set: &mut Vec<usize>, roles: usize) {
    if !set.is_empty() && chance.one_in(2) {
        set.remove(chance.below(set.len()));
    } else {
        add(set, chance.below(roles));
    }
}

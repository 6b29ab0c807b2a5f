//! Policies of any size for which a plain typing is accepted: it has no sets, the first role is H
//! and all others are L. Nobody holds the first role, no rule gives it, and every goal has it.

use crate::chance::Chance;
use crate::drafts::{Assign, Policy, Revoke, RoleType};
use crate::making::grounds::bare_ground;
use crate::making::names::names;
use crate::making::typings::without_sets;

/// How many lines of each kind; two roles or more.
#[derive(Clone, Copy)]
pub struct Sizes {
    pub roles: usize,
    pub users: usize,
    pub assigns: usize,
    pub revokes: usize,
    pub goals: usize,
}

pub fn plain_typing(roles: usize) -> Vec<RoleType> {
    (0..roles).map(|role| without_sets(role == 0)).collect()
}

pub fn plain_policy(chance: &mut Chance, sizes: &Sizes) -> Policy {
    let mut policy = plain_ground(chance, sizes);
    add_plain(chance, &mut policy, sizes);
    policy
}

pub fn plain_ground(chance: &mut Chance, sizes: &Sizes) -> Policy {
    let roles = names(chance, sizes.roles);
    let users = names(chance, sizes.users);
    let mut policy = bare_ground(chance, roles, users);
    policy.has = (0..sizes.users).map(|user| (user, not_first(chance, sizes.roles))).collect();
    policy
}

fn not_first(chance: &mut Chance, roles: usize) -> usize {
    chance.between(1, roles - 1)
}

/// Adds the rules and the goals.
pub fn add_plain(chance: &mut Chance, policy: &mut Policy, sizes: &Sizes) {
    let roles = policy.roles.len();
    for _ in 0..sizes.assigns {
        let admin = chance.below(roles);
        let target = not_first(chance, roles);
        policy.assigns.push(Assign {
            admin: admin,
            positive: if chance.one_in(2) { Vec::new() } else { vec![admin] },
            negative: if chance.one_in(2) { Vec::new() } else { vec![target] },
            target: target,
        });
    }
    for _ in 0..sizes.revokes {
        policy
            .revokes
            .push(Revoke { admin: chance.below(roles), target: not_first(chance, roles) });
    }
    for _ in 0..sizes.goals {
        policy.goals.push(vec![not_first(chance, roles), 0]);
    }
}

//! Random rules and goals, of which a given typing accepts many.

use crate::chance::Chance;
use crate::drafts::{Assign, Policy, Revoke, RoleType};
use crate::making::sets::{add, set};

/// Adds rules and goals. The share of those that are fitted to the typing differs from policy to
/// policy.
pub fn add_rules(chance: &mut Chance, policy: &mut Policy, typing: &[RoleType]) {
    let roles = policy.roles.len();
    let fitted = chance.between(1, 4);
    for _ in 0..chance.below(12) {
        let rule = if chance.one_in(fitted) {
            loose_assign(chance, policy)
        } else {
            fitted_assign(chance, policy, typing)
        };
        policy.assigns.push(rule);
    }
    for _ in 0..chance.below(5) {
        let rule = Revoke { admin: admin(chance, policy), target: given(chance, policy) };
        policy.revokes.push(rule);
    }
    for _ in 0..chance.between(1, 3) {
        let goal = if chance.one_in(fitted + 1) {
            loose_goal(chance, roles)
        } else {
            fitted_goal(chance, typing)
        };
        policy.goals.push(goal);
    }
}

/// An administrative role: more often than not one that somebody holds.
fn admin(chance: &mut Chance, policy: &Policy) -> usize {
    if policy.has.is_empty() || chance.one_in(3) {
        return chance.below(policy.roles.len());
    }
    chance.pick(&policy.has).1
}

/// A role to be taken: more often than not one that an assign rule gives.
fn given(chance: &mut Chance, policy: &Policy) -> usize {
    if policy.assigns.is_empty() || chance.one_in(3) {
        return chance.below(policy.roles.len());
    }
    policy.assigns[chance.below(policy.assigns.len())].target
}

fn loose_assign(chance: &mut Chance, policy: &Policy) -> Assign {
    let roles = policy.roles.len();
    Assign {
        admin: admin(chance, policy),
        positive: set(chance, roles, 2),
        negative: set(chance, roles, 2),
        target: chance.below(roles),
    }
}

/// A rule that asks what the typing demands of its target, up to one name more or less.
fn fitted_assign(chance: &mut Chance, policy: &Policy, typing: &[RoleType]) -> Assign {
    let roles = policy.roles.len();
    let target = chance.below(roles);
    let mut rule = Assign {
        admin: admin(chance, policy),
        positive: Vec::new(),
        negative: Vec::new(),
        target: target,
    };
    for role in demanded(chance, typing, target) {
        ask_held(chance, typing, &mut rule, role);
    }
    for role in excluded(typing, target) {
        ask_absent(chance, typing, &mut rule, role);
    }
    chance.shuffle(&mut rule.positive);
    chance.shuffle(&mut rule.negative);
    match chance.below(8) {
        0 => {
            rule.positive.pop();
        }
        1 => {
            rule.negative.pop();
        }
        2 => add(&mut rule.positive, chance.below(roles)),
        3 => add(&mut rule.negative, chance.below(roles)),
        _ => {}
    }
    rule
}

/// The target's plus set and, where the target is H, some other role that is H.
fn demanded(chance: &mut Chance, typing: &[RoleType], target: usize) -> Vec<usize> {
    let mut roles = typing[target].plus.clone();
    if typing[target].high {
        add(&mut roles, chance.pick(&high(typing)));
    }
    roles.retain(|&role| role != target);
    roles
}

/// The target's minus set, and the roles that have the target in theirs.
fn excluded(typing: &[RoleType], target: usize) -> Vec<usize> {
    let mut roles = typing[target].minus.clone();
    for role in which(typing, |said| said.minus.contains(&target)) {
        add(&mut roles, role);
    }
    roles
}

/// Makes a rule ask for a role, or for one that has it in its plus set.
fn ask_held(chance: &mut Chance, typing: &[RoleType], rule: &mut Assign, role: usize) {
    let bringing = which(typing, |said| said.plus.contains(&role));
    if !bringing.is_empty() && chance.one_in(3) {
        add(&mut rule.positive, chance.pick(&bringing));
    } else {
        add(&mut rule.positive, role);
    }
}

/// Makes a rule ask that a role is absent, or that one of its plus set is, or for a role that has
/// it in its minus set.
fn ask_absent(chance: &mut Chance, typing: &[RoleType], rule: &mut Assign, role: usize) {
    let needed = &typing[role].plus;
    let excluding = which(typing, |said| said.minus.contains(&role));
    match chance.below(4) {
        0..=1 if !needed.is_empty() => add(&mut rule.negative, chance.pick(needed)),
        2 if !excluding.is_empty() => add(&mut rule.positive, chance.pick(&excluding)),
        _ => add(&mut rule.negative, role),
    }
}

/// The roles of which a typing says such a thing.
fn which(typing: &[RoleType], such: impl Fn(&RoleType) -> bool) -> Vec<usize> {
    (0..typing.len()).filter(|&role| such(&typing[role])).collect()
}

fn high(typing: &[RoleType]) -> Vec<usize> {
    which(typing, |said| said.high)
}

fn loose_goal(chance: &mut Chance, roles: usize) -> Vec<usize> {
    let mut goal = set(chance, roles, 2);
    add(&mut goal, chance.below(roles));
    goal
}

/// A goal with a role and one that it shuts out, or with a role that is H.
fn fitted_goal(chance: &mut Chance, typing: &[RoleType]) -> Vec<usize> {
    let roles = typing.len();
    let mut goal = set(chance, roles, 2);
    let first = chance.below(roles);
    add(&mut goal, first);
    let high = high(typing);
    if !typing[first].minus.is_empty() {
        add(&mut goal, chance.pick(&typing[first].minus));
    } else if !high.is_empty() {
        add(&mut goal, chance.pick(&high));
    }
    chance.shuffle(&mut goal);
    goal
}

//! Cases for `spell`: a policy, the same in another order, and a piece of evidence over both.

use crate::cases::checks::{evidence, policy_and_typing};
use crate::cases::Case;
use crate::chance::Chance;
use crate::drafts::Policy;
use crate::making::grounds::bare_ground;
use crate::making::names::of_length;
use crate::making::plain::plain_typing;
use crate::making::reordering::reordered;
use crate::making::sets::add;
use crate::making::widening::{Placing, Width};
use crate::texts::{Texts, TEXT_LIMIT};

pub fn spell(chance: &mut Chance, width: Width) -> Texts {
    let (policy, evidence) = policy_and_evidence(chance, width);
    texts(chance, policy, evidence)
}

/// The texts of a case with this policy.
pub fn texts(chance: &mut Chance, policy: Vec<u8>, evidence: Vec<u8>) -> Texts {
    Texts::Spell { reordered: reordered(chance, &policy), policy: policy, evidence: evidence }
}

/// A policy, mostly with long sets and many has lines, and a typing or a trace.
pub fn policy_and_evidence(chance: &mut Chance, width: Width) -> (Vec<u8>, Vec<u8>) {
    let (policy, typing) = policy_and_typing(chance);
    let placing = Placing::of(chance, width, &policy);
    let mut policy = placing.policy(&policy);
    let typing = placing.typing(chance, &typing);
    if !chance.one_in(4) {
        crowd(chance, &mut policy);
    }
    if chance.one_in(8) {
        sort(&mut policy);
    }
    let evidence = evidence(chance, &policy, &typing);
    (policy.text(), evidence)
}

/// More names in some sets, more has lines of some users.
fn crowd(chance: &mut Chance, policy: &mut Policy) {
    let roles = policy.roles.len();
    for rule in &mut policy.assigns {
        crowd_set(chance, &mut rule.positive, roles);
        crowd_set(chance, &mut rule.negative, roles);
    }
    for goal in &mut policy.goals {
        crowd_set(chance, goal, roles);
    }
    for user in 0..policy.users.len() {
        let mut held = Vec::new();
        crowd_set(chance, &mut held, roles);
        for role in held {
            if !policy.has.contains(&(user, role)) {
                policy.has.push((user, role));
            }
        }
    }
    chance.shuffle(&mut policy.has);
}

/// Mostly no more names, sometimes a few, seldom up to all of them.
fn crowd_set(chance: &mut Chance, set: &mut Vec<usize>, roles: usize) {
    let most = chance.pick(&[0, 0, 0, 2, 2, 6, 6, roles]);
    for _ in 0..chance.below(most + 1) {
        add(set, chance.below(roles));
    }
    chance.shuffle(set);
}

/// Puts has lines and sets into the order that they are written in.
fn sort(policy: &mut Policy) {
    policy.has.sort();
    for rule in &mut policy.assigns {
        rule.positive.sort();
        rule.negative.sort();
    }
    for goal in &mut policy.goals {
        goal.sort();
    }
}

/// 64 users and 128 roles, and as many has lines as there is room for.
pub fn full_of_has(chance: &mut Chance, turn: usize) -> Case {
    let (bytes, made) = [
        (TEXT_LIMIT, "has lines of 64 users and 128 roles up to 32,768 bytes"),
        (TEXT_LIMIT + 1, "has lines of 64 users and 128 roles up to 32,769 bytes"),
    ][turn % 2];
    let roles = short_names(chance, 128);
    let users = short_names(chance, 64);
    let mut policy = bare_ground(chance, roles, users);
    // the last role stands in no other line, and its name can be lengthened
    let last = policy.roles.len() - 1;
    policy.goals.push(vec![1, 0]);
    let mut length = policy.text().len();
    let mut pairs: Vec<(usize, usize)> =
        (0..policy.users.len()).flat_map(|user| (0..last).map(move |role| (user, role))).collect();
    chance.shuffle(&mut pairs);
    for (user, role) in pairs {
        let line = b"has\t\t\n".len() + policy.users[user].name.len() + policy.roles[role].len();
        if length + line <= bytes {
            length += line;
            policy.has.push((user, role));
        }
    }
    policy.roles[last].extend(of_length(chance, bytes - length));
    let evidence = policy.typing_text(&plain_typing(policy.roles.len()));
    let texts = texts(chance, policy.text(), evidence);
    Case::at_limit(made, texts)
}

/// So many different names of one byte and, past these, of two, in any order but for the last,
/// which has two.
fn short_names(chance: &mut Chance, count: usize) -> Vec<Vec<u8>> {
    let bytes: Vec<u8> = (0..=b'z').filter(|&byte| byte.is_ascii_alphanumeric()).collect();
    let one = bytes.iter().map(|&byte| vec![byte]);
    let two = bytes.iter().flat_map(|&byte| [vec![byte, b'_'], vec![b'_', byte]]);
    let mut names: Vec<Vec<u8>> = one.chain(two).take(count).collect();
    chance.shuffle(&mut names[..count - 1]);
    names
}

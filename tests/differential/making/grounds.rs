//! Random grounds: roles, users and what each user holds, with no rule and no goal.

use crate::chance::Chance;
use crate::drafts::{Policy, User};
use crate::making::names::names;
use crate::making::sets::set;

/// Few roles, so that lines are often about the same ones.
pub fn narrow_ground(chance: &mut Chance) -> Policy {
    let roles = chance.pick(&[1, 2, 3, 4, 4, 5, 5, 6, 7, 8]);
    ground(chance, roles)
}

/// So many roles, and few users.
pub fn ground(chance: &mut Chance, roles: usize) -> Policy {
    let users = chance.pick(&[0, 1, 2, 2, 3, 3, 4, 5]);
    let role_names = names(chance, roles);
    // Users and roles have separate name spaces, so the same names may serve both.
    let user_names = if chance.one_in(4) && users <= roles {
        role_names[..users].to_vec()
    } else {
        names(chance, users)
    };
    let mut policy = bare_ground(chance, role_names, user_names);
    for user in 0..users {
        for held in set(chance, roles, 3) {
            policy.has.push((user, held));
        }
    }
    chance.shuffle(&mut policy.has);
    policy
}

/// A ground in which nobody holds anything.
pub fn bare_ground(chance: &mut Chance, roles: Vec<Vec<u8>>, users: Vec<Vec<u8>>) -> Policy {
    Policy {
        roles: roles,
        users: users.into_iter().map(|name| User { name: name, high: chance.one_in(2) }).collect(),
        has: Vec::new(),
        assigns: Vec::new(),
        revokes: Vec::new(),
        goals: Vec::new(),
    }
}

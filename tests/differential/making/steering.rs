//! Which lines of a draft a typing accepts, and which it nearly does. It only steers what is made:
//! no answer is compared with it.

use std::cmp::Ordering;

use crate::drafts::{Assign, Policy, Revoke, RoleType};
use crate::making::sets::{has, mask};

/// A part that lies beyond holdings, assign rules, revoke rules and goals, which are 0 to 3: all of
/// them pass.
pub const ACCEPTED: usize = 4;

/// A typing as masks of roles.
pub struct Steering {
    high: u128,
    plus: Vec<u128>,
    minus: Vec<u128>,
}

impl Steering {
    pub fn of(typing: &[RoleType]) -> Steering {
        let high: Vec<usize> = (0..typing.len()).filter(|&role| typing[role].high).collect();
        Steering {
            high: mask(&high),
            plus: typing.iter().map(|said| mask(&said.plus)).collect(),
            minus: typing.iter().map(|said| mask(&said.minus)).collect(),
        }
    }

    fn closure(&self, held: u128, absent: u128) -> (u128, u128) {
        let (mut held, mut absent) = (held, absent);
        loop {
            let before = (held, absent);
            for role in 0..self.plus.len() {
                if has(held, role) {
                    held |= self.plus[role];
                    absent |= self.minus[role];
                }
                if self.plus[role] & absent != 0 {
                    absent |= 1 << role;
                }
            }
            if (held, absent) == before {
                return before;
            }
        }
    }

    fn consistent(&self, role: usize) -> bool {
        self.plus[role] & self.minus[role] == 0
    }

    /// For how many reasons what a user holds fails: 0 where it passes.
    fn user_reasons(&self, high: bool, holds: u128) -> u32 {
        let labels = if high { 0 } else { self.high & holds };
        let sets = |role: usize| {
            (self.minus[role] & holds).count_ones() + (self.plus[role] & !holds).count_ones()
        };
        let held = (0..self.plus.len()).filter(|&role| has(holds, role));
        labels.count_ones() + held.map(sets).sum::<u32>()
    }

    fn assign_reasons(&self, rule: &Assign) -> u32 {
        let target = 1 << rule.target;
        let (held, absent) = self.closure(mask(&rule.positive), mask(&rule.negative) | target);
        if !self.consistent(rule.admin) || held & absent != 0 {
            return 0;
        }
        let label = self.high & target != 0 && self.high & held == 0;
        let forbidding = (0..self.minus.len())
            .filter(|&role| has(self.minus[role], rule.target) && !has(absent, role))
            .count();
        let minus = self.minus[rule.target] & !(absent & !target);
        let plus = self.plus[rule.target] & !(held | target);
        label as u32 + forbidding as u32 + minus.count_ones() + plus.count_ones()
    }

    fn revoke_reasons(&self, rule: &Revoke) -> u32 {
        if !self.consistent(rule.admin) {
            return 0;
        }
        let needing = (0..self.plus.len())
            .filter(|&role| role != rule.target && has(self.plus[role], rule.target));
        needing.count() as u32
    }

    fn goal_reasons(&self, goal: &[usize]) -> u32 {
        let (held, absent) = self.closure(mask(goal), 0);
        (held & self.high == 0 && held & absent == 0) as u32
    }

    /// Takes out what fails in the parts before `until`, and in that part what fails for more than
    /// one reason. One goal stays in any case: a policy has at least one.
    pub fn repair(&self, policy: &mut Policy, until: usize) {
        let mut holds = vec![0; policy.users.len()];
        for &(user, role) in &policy.has {
            holds[user] |= 1 << role;
        }
        let users = &policy.users;
        policy.has.retain(|&(user, _)| {
            self.user_reasons(users[user].high, holds[user]) <= allowed(0, until)
        });
        self.repair_rules(policy, until);
        let first = policy.goals[0].clone();
        policy.goals.retain(|goal| self.goal_reasons(goal) <= allowed(3, until));
        if policy.goals.is_empty() {
            policy.goals.push(first);
        }
    }

    /// The same for the two parts that are rules.
    pub fn repair_rules(&self, policy: &mut Policy, until: usize) {
        policy.assigns.retain(|rule| self.assign_reasons(rule) <= allowed(1, until));
        policy.revokes.retain(|rule| self.revoke_reasons(rule) <= allowed(2, until));
    }
}

/// For how many reasons a line of a part may fail.
fn allowed(part: usize, until: usize) -> u32 {
    match part.cmp(&until) {
        Ordering::Less => 0,
        Ordering::Equal => 1,
        Ordering::Greater => u32::MAX,
    }
}

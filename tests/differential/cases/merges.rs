//! Cases for `merge`: two policies, each with a typing.

use crate::chance::Chance;
use crate::drafts::{Policy, RoleType};
use crate::making::grounds::narrow_ground;
use crate::making::names::like_taken;
use crate::making::rules::add_rules;
use crate::making::steering::{Steering, ACCEPTED};
use crate::making::typings::{near, typing, without_sets};
use crate::making::widening::{Placing, Width};
use crate::texts::Texts;

/// The judgings of a merge are 1 to 4; this lies beyond them: all of them pass.
const MERGED: usize = 5;

struct Pair {
    one: Policy,
    two: Policy,
    first: Vec<RoleType>,
    second: Vec<RoleType>,
}

/// Two policies of one ground with no failure before a judging and a part of it that are drawn.
pub fn merge(chance: &mut Chance, width: Width) -> Texts {
    let mut pair = Pair::of(chance);
    let judging = chance.pick(&[1, 1, 2, 2, 2, 3, 3, 3, 3, 4, 4, MERGED, MERGED]);
    let until = chance.pick(&[0, 0, 0, 1, 2, 2, 2, 2, 3]);
    pair.repair(judging, until);
    pair.placed(chance, width).texts()
}

/// Two policies of one ground.
pub fn any_merge(chance: &mut Chance, width: Width) -> Texts {
    Pair::of(chance).placed(chance, width).texts()
}

/// Two policies of which one has another ground, or only its has lines in another order.
pub fn two_grounds(chance: &mut Chance, width: Width) -> Texts {
    let mut pair = Pair::of(chance);
    if chance.one_in(2) {
        pair.repair(MERGED, 0);
    }
    let mut pair = pair.placed(chance, width);
    pair.part_grounds(chance);
    if chance.one_in(2) {
        std::mem::swap(&mut pair.one, &mut pair.two);
        std::mem::swap(&mut pair.first, &mut pair.second);
    }
    pair.texts()
}

impl Pair {
    /// Two narrow policies of one ground.
    fn of(chance: &mut Chance) -> Pair {
        let mut one = narrow_ground(chance);
        let mut two = one.clone();
        let roles = one.roles.len();
        let first = typing(chance, roles);
        let second = if chance.one_in(4) { typing(chance, roles) } else { near(chance, &first) };
        add_rules(chance, &mut one, &first);
        add_rules(chance, &mut two, &second);
        // The holdings are compared as sets.
        chance.shuffle(&mut two.has);
        Pair { one: one, two: two, first: first, second: second }
    }

    fn placed(&self, chance: &mut Chance, width: Width) -> Pair {
        let placing = Placing::of(chance, width, &self.one);
        Pair {
            one: placing.policy(&self.one),
            two: placing.policy(&self.two),
            first: placing.typing(chance, &self.first),
            second: placing.typing(chance, &self.second),
        }
    }

    fn texts(&self) -> Texts {
        Texts::Merge {
            policy_1: self.one.text(),
            typing_1: self.one.typing_text(&self.first),
            policy_2: self.two.text(),
            typing_2: self.two.typing_text(&self.second),
        }
    }

    /// Makes all judgings before `judging` pass, and in that one all parts before `until`. What a
    /// user holds in one policy is what the user holds in the other.
    fn repair(&mut self, judging: usize, until: usize) {
        let first = Steering::of(&self.first);
        let second = Steering::of(&self.second);
        let (one, two) = (&mut self.one, &mut self.two);
        for passed in 1..=judging {
            let until = if passed < judging { ACCEPTED } else { until };
            match passed {
                1 => {
                    first.repair(one, until);
                    two.has.retain(|held| one.has.contains(held));
                }
                2 => {
                    second.repair(two, until);
                    one.has.retain(|held| two.has.contains(held));
                }
                3 => first.repair_rules(two, until),
                4 => second.repair_rules(one, until),
                _ => {}
            }
        }
    }

    /// Changes something of the second policy's ground, or the order of its has lines.
    fn part_grounds(&mut self, chance: &mut Chance) {
        let two = &mut self.two;
        let role = chance.below(two.roles.len());
        match chance.below(8) {
            0 => two.roles.swap(0, role),
            1 => two.roles[role] = like_taken(chance, &two.roles),
            2 => {
                let name = like_taken(chance, &two.roles);
                two.roles.push(name);
                self.second.push(without_sets(false));
            }
            3 => chance.shuffle(&mut two.has),
            _ if two.users.is_empty() => {}
            4..=6 => part_holdings(chance, two),
            _ => part_users(chance, two),
        }
    }
}

/// Takes out a holding or adds one.
fn part_holdings(chance: &mut Chance, policy: &mut Policy) {
    if !policy.has.is_empty() && chance.one_in(2) {
        policy.has.remove(chance.below(policy.has.len()));
        return;
    }
    let held = (chance.below(policy.users.len()), chance.below(policy.roles.len()));
    if !policy.has.contains(&held) {
        policy.has.push(held);
    }
}

/// Changes a user's clearance, place or name, or adds a user.
fn part_users(chance: &mut Chance, policy: &mut Policy) {
    let user = chance.below(policy.users.len());
    let taken: Vec<Vec<u8>> = policy.users.iter().map(|user| user.name.clone()).collect();
    match chance.below(4) {
        0 => policy.users[user].high = !policy.users[user].high,
        1 => policy.users.swap(0, user),
        2 => policy.users[user].name = like_taken(chance, &taken),
        _ => {
            let mut other = policy.users[user].clone();
            other.name = like_taken(chance, &taken);
            policy.users.push(other);
        }
    }
}

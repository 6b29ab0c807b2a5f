//! Widening: the roles of a narrow draft placed among 63 to 128, on both sides of the border
//! between the two words of a role set. The other roles are fillers. Nobody holds them, no rule and
//! no goal has them, and what typings say of them is about fillers alone, so that the wide draft
//! passes and fails where the narrow one does.

use crate::chance::Chance;
use crate::drafts::{Assign, Policy, Revoke, RoleType};
use crate::making::names::names_beside;
use crate::making::typings::without_sets;

#[derive(Clone, Copy, PartialEq)]
pub enum Width {
    Narrow,
    Wide,
}

/// The first and the last roles of each word of a set. Every other time they are taken from the
/// end: the two on either side of the border between the words, and the last of all.
const BORDERS: [usize; 8] = [0, 1, 62, 65, 126, 63, 64, 127];

/// How many roles a wide draft has: mostly so many that every border is there.
const COUNTS: [usize; 12] = [63, 64, 65, 66, 127, 128, 128, 128, 128, 128, 128, 128];

pub fn wide_count(chance: &mut Chance) -> usize {
    chance.pick(&COUNTS)
}

/// Where the roles of a draft go.
pub struct Placing {
    /// The names of all roles.
    names: Vec<Vec<u8>>,
    /// For each role of the draft its place.
    places: Vec<usize>,
    /// All other places.
    fillers: Vec<usize>,
}

impl Placing {
    /// In a narrow draft every role stays where it is.
    pub fn of(chance: &mut Chance, width: Width, policy: &Policy) -> Placing {
        let roles = policy.roles.len();
        if width == Width::Narrow {
            return Placing {
                names: policy.roles.clone(),
                places: (0..roles).collect(),
                fillers: Vec::new(),
            };
        }
        let count = wide_count(chance);
        let places = places(chance, roles, count);
        let mut fillers: Vec<usize> = (0..count).filter(|place| !places.contains(place)).collect();
        chance.shuffle(&mut fillers);
        let filler_names = names_beside(chance, fillers.len(), &policy.roles);
        let mut names = vec![Vec::new(); count];
        let named = policy.roles.iter().chain(&filler_names);
        for (name, &place) in named.zip(places.iter().chain(&fillers)) {
            names[place] = name.clone();
        }
        Placing { names: names, places: places, fillers: fillers }
    }

    fn set(&self, roles: &[usize]) -> Vec<usize> {
        roles.iter().map(|&role| self.places[role]).collect()
    }

    pub fn policy(&self, policy: &Policy) -> Policy {
        let place = |role: usize| self.places[role];
        Policy {
            roles: self.names.clone(),
            users: policy.users.clone(),
            has: policy.has.iter().map(|&(user, role)| (user, place(role))).collect(),
            assigns: policy.assigns.iter().map(|rule| self.assign(rule)).collect(),
            revokes: policy
                .revokes
                .iter()
                .map(|rule| Revoke { admin: place(rule.admin), target: place(rule.target) })
                .collect(),
            goals: policy.goals.iter().map(|goal| self.set(goal)).collect(),
        }
    }

    fn assign(&self, rule: &Assign) -> Assign {
        Assign {
            admin: self.places[rule.admin],
            positive: self.set(&rule.positive),
            negative: self.set(&rule.negative),
            target: self.places[rule.target],
        }
    }

    /// What a typing says of the fillers differs from typing to typing.
    pub fn typing(&self, chance: &mut Chance, typing: &[RoleType]) -> Vec<RoleType> {
        let mut placed = vec![without_sets(false); self.names.len()];
        for (said, &place) in typing.iter().zip(&self.places) {
            placed[place] = RoleType {
                high: said.high,
                plus: self.set(&said.plus),
                minus: self.set(&said.minus),
            };
        }
        for &place in &self.fillers {
            placed[place] = self.filler_type(chance);
        }
        placed
    }

    fn filler_type(&self, chance: &mut Chance) -> RoleType {
        RoleType {
            high: chance.one_in(2),
            plus: self.filler_set(chance),
            minus: self.filler_set(chance),
        }
    }

    /// Mostly none, sometimes one or two fillers, seldom many.
    fn filler_set(&self, chance: &mut Chance) -> Vec<usize> {
        let most = match chance.below(256) {
            0 => self.fillers.len(),
            1..=16 => 2.min(self.fillers.len()),
            _ => return Vec::new(),
        };
        let first = chance.below(self.fillers.len() - most + 1);
        let count = chance.below(most + 1);
        self.fillers[first..first + count].to_vec()
    }
}

/// Different places below `count` for so many roles: most of them borders, and some any places.
fn places(chance: &mut Chance, roles: usize, count: usize) -> Vec<usize> {
    let mut borders = BORDERS.to_vec();
    if chance.one_in(2) {
        chance.shuffle(&mut borders);
    }
    borders.retain(|&place| place < count);
    let mut places: Vec<usize> = Vec::new();
    while places.len() < roles {
        let place = match borders.pop() {
            Some(border) if !chance.one_in(8) => border,
            _ => chance.below(count),
        };
        if !places.contains(&place) {
            places.push(place);
        }
    }
    chance.shuffle(&mut places);
    places
}

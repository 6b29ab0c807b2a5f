//! Cases with so many lines of a kind as document 01 allows, or one more.

use crate::cases::{reorderings, Case};
use crate::chance::Chance;
use crate::drafts::{Policy, Step, Trace};
use crate::making::plain::{add_plain, plain_ground, plain_policy, plain_typing, Sizes};
use crate::making::widening::{Placing, Width};
use crate::texts::Texts;

/// A kind of policy lines that has a limit.
struct Counted {
    section: Section,
    limit: usize,
    at: &'static str,
    over: &'static str,
}

#[derive(Clone, Copy, PartialEq)]
enum Section {
    Roles,
    Users,
    Assigns,
    Revokes,
    Goals,
}

const COUNTED: [Counted; 5] = [
    Counted { section: Section::Roles, limit: 128, at: "128 roles", over: "129 roles" },
    Counted { section: Section::Users, limit: 64, at: "64 users", over: "65 users" },
    Counted {
        section: Section::Assigns,
        limit: 256,
        at: "256 assign lines",
        over: "257 assign lines",
    },
    Counted {
        section: Section::Revokes,
        limit: 256,
        at: "256 revoke lines",
        over: "257 revoke lines",
    },
    Counted { section: Section::Goals, limit: 32, at: "32 goals", over: "33 goals" },
];

/// The same of policies that are to be spelt.
const SPELT: [Counted; 5] = [
    Counted {
        section: Section::Roles,
        limit: 128,
        at: "128 roles to be spelt",
        over: "129 roles to be spelt",
    },
    Counted {
        section: Section::Users,
        limit: 64,
        at: "64 users to be spelt",
        over: "65 users to be spelt",
    },
    Counted {
        section: Section::Assigns,
        limit: 256,
        at: "256 assign lines to be spelt",
        over: "257 assign lines to be spelt",
    },
    Counted {
        section: Section::Revokes,
        limit: 256,
        at: "256 revoke lines to be spelt",
        over: "257 revoke lines to be spelt",
    },
    Counted {
        section: Section::Goals,
        limit: 32,
        at: "32 goals to be spelt",
        over: "33 goals to be spelt",
    },
];

/// The same of the joint rules and goals of a merge.
const JOINT: [Counted; 3] = [
    Counted {
        section: Section::Assigns,
        limit: 256,
        at: "256 joint assign lines",
        over: "257 joint assign lines",
    },
    Counted {
        section: Section::Revokes,
        limit: 256,
        at: "256 joint revoke lines",
        over: "257 joint revoke lines",
    },
    Counted { section: Section::Goals, limit: 32, at: "32 joint goals", over: "33 joint goals" },
];

impl Counted {
    /// How many lines there are in a turn, and what the case is called.
    fn lines(&self, turn: usize) -> (usize, &'static str) {
        if turn % 2 == 0 {
            (self.limit, self.at)
        } else {
            (self.limit + 1, self.over)
        }
    }
}

impl Sizes {
    /// The same, but so many lines in one section.
    fn with(mut self, section: Section, lines: usize) -> Sizes {
        match section {
            Section::Roles => self.roles = lines,
            Section::Users => self.users = lines,
            Section::Assigns => self.assigns = lines,
            Section::Revokes => self.revokes = lines,
            Section::Goals => self.goals = lines,
        }
        self
    }
}

/// A policy with so many lines of one kind and few of the others.
pub fn count(chance: &mut Chance, turn: usize) -> Case {
    let (made, policy, evidence) = counted(chance, &COUNTED, turn);
    Case::at_limit(made, Texts::Check { policy: policy, evidence: evidence })
}

/// The same to be spelt.
pub fn spelt_count(chance: &mut Chance, turn: usize) -> Case {
    let (made, policy, evidence) = counted(chance, &SPELT, turn);
    Case::at_limit(made, reorderings::texts(chance, policy, evidence))
}

/// What the case is called, its policy and its evidence.
fn counted(
    chance: &mut Chance,
    kinds: &[Counted],
    turn: usize,
) -> (&'static str, Vec<u8>, Vec<u8>) {
    let counted = &kinds[turn / 2 % kinds.len()];
    let (lines, made) = counted.lines(turn);
    let few = Sizes { roles: 5, users: 3, assigns: 2, revokes: 2, goals: 2 };
    let mut policy = plain_policy(chance, &few.with(counted.section, lines));
    let evidence = evidence(chance, &mut policy);
    let mut text = policy.text();
    if chance.one_in(2) {
        let (first, count) = lines_of(&policy, counted.section);
        text = change_last(chance, &text, first, first + count - 1);
    }
    (made, text, evidence)
}

/// A policy with all five counts at their limits.
pub fn all_counts(chance: &mut Chance, _turn: usize) -> Case {
    let (policy, evidence) = all_counted(chance);
    Case::at_limit(
        "all counts at their limits",
        Texts::Check { policy: policy, evidence: evidence },
    )
}

/// The same to be spelt.
pub fn all_counts_spelt(chance: &mut Chance, _turn: usize) -> Case {
    let (policy, evidence) = all_counted(chance);
    let texts = reorderings::texts(chance, policy, evidence);
    Case::at_limit("all counts at their limits, to be spelt", texts)
}

fn all_counted(chance: &mut Chance) -> (Vec<u8>, Vec<u8>) {
    let sizes = Sizes { roles: 128, users: 64, assigns: 256, revokes: 256, goals: 32 };
    let mut policy = plain_policy(chance, &sizes);
    let evidence = evidence(chance, &mut policy);
    (policy.text(), evidence)
}

/// A merge whose joint count of one kind is at its limit or one over it.
pub fn joint_count(chance: &mut Chance, turn: usize) -> Case {
    let joint = &JOINT[turn / 2 % JOINT.len()];
    let (lines, made) = joint.lines(turn);
    // Neither policy is over the limit by itself, and each has a goal.
    let least = if joint.section == Section::Goals { 1 } else { lines - joint.limit };
    let lines_1 = chance.between(least, lines - least);
    let roles = chance.between(2, 6);
    let few = Sizes { roles: roles, users: 2, assigns: 1, revokes: 1, goals: 1 };
    let mut one = plain_ground(chance, &few);
    let mut two = one.clone();
    add_plain(chance, &mut one, &few.with(joint.section, lines_1));
    add_plain(chance, &mut two, &few.with(joint.section, lines - lines_1));
    let width = chance.pick(&[Width::Narrow, Width::Wide]);
    let placing = Placing::of(chance, width, &one);
    let (one, two) = (placing.policy(&one), placing.policy(&two));
    let typing = plain_typing(roles);
    let texts = Texts::Merge {
        policy_1: one.text(),
        typing_1: one.typing_text(&placing.typing(chance, &typing)),
        policy_2: two.text(),
        typing_2: two.typing_text(&placing.typing(chance, &typing)),
    };
    Case { made: made, width: width, texts: texts }
}

/// A typing that is accepted or that fails at a last line, which is changed for it, or a trace of
/// one step under the last rule.
fn evidence(chance: &mut Chance, policy: &mut Policy) -> Vec<u8> {
    let last_user = policy.users.len() - 1;
    match chance.below(6) {
        0 => {
            if let Some(rule) = policy.assigns.last_mut() {
                rule.target = 0;
                rule.positive.clear();
            }
        }
        1 => {
            if let Some(goal) = policy.goals.last_mut() {
                *goal = vec![policy.roles.len() - 1];
            }
        }
        2 => {
            policy.users[last_user].high = false;
            policy.has.push((last_user, 0));
        }
        3 => {
            let number = policy.assigns.len();
            let step =
                Step::Rule { assign: true, actor: last_user, number: number, user: last_user };
            return policy.trace_text(&Trace::without_joiners(vec![step]));
        }
        _ => {}
    }
    policy.typing_text(&plain_typing(policy.roles.len()))
}

/// The last line of a kind becomes its first once more, or gets another last field: within a line,
/// malformed comes before the limit, and in a policy the limit before undeclared names. Lines are
/// counted from 0.
pub fn change_last(chance: &mut Chance, text: &[u8], first: usize, last: usize) -> Vec<u8> {
    let mut lines: Vec<Vec<u8>> =
        text.split(|&byte| byte == b'\n').map(|line| line.to_vec()).collect();
    if chance.one_in(3) {
        lines[last] = lines[first].clone();
    } else {
        let line = &mut lines[last];
        let tab = line.iter().rposition(|&byte| byte == b'\t').expect("two fields or more");
        let field: &[u8] = chance.pick(&[&b"undeclared"[..], b"", b"-", b"a,a", b"L", b"\xff"]);
        line.truncate(tab + 1);
        line.extend_from_slice(field);
    }
    lines.join(&b'\n')
}

/// Where the first line of a section stands, from 0, and how many there are.
fn lines_of(policy: &Policy, section: Section) -> (usize, usize) {
    let roles = (1, policy.roles.len());
    let users = (roles.0 + roles.1, policy.users.len());
    let assigns = (users.0 + users.1 + policy.has.len(), policy.assigns.len());
    let revokes = (assigns.0 + assigns.1, policy.revokes.len());
    let goals = (revokes.0 + revokes.1, policy.goals.len());
    match section {
        Section::Roles => roles,
        Section::Users => users,
        Section::Assigns => assigns,
        Section::Revokes => revokes,
        Section::Goals => goals,
    }
}

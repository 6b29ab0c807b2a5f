//! Cases with texts of 32,768 bytes, which is document 01's limit, or of one byte more.

use crate::cases::{reorderings, Case};
use crate::chance::Chance;
use crate::drafts::{Assign, Policy, Revoke, RoleType, Step, Trace, User};
use crate::making::grounds::bare_ground;
use crate::making::names::{names, of_length};
use crate::making::plain::plain_typing;
use crate::texts::{Texts, TEXT_LIMIT};

/// A text that can be so long.
struct Long {
    at: &'static str,
    over: &'static str,
    make: fn(&mut Chance, usize) -> Texts,
}

const LONG: [Long; 5] = [
    Long { at: "policy of 32,768 bytes", over: "policy of 32,769 bytes", make: policy },
    Long { at: "typing of 32,768 bytes", over: "typing of 32,769 bytes", make: typing },
    Long { at: "trace of 32,768 bytes", over: "trace of 32,769 bytes", make: trace },
    Long { at: "sum of 32,768 bytes", over: "sum of 32,769 bytes", make: sum },
    Long { at: "merged sum of 32,768 bytes", over: "merged sum of 32,769 bytes", make: merge },
];

/// The same of a policy that is to be spelt.
const SPELT: Long = Long {
    at: "policy of 32,768 bytes to be spelt",
    over: "policy of 32,769 bytes to be spelt",
    make: spelt_policy,
};

impl Long {
    fn case(&self, chance: &mut Chance, turn: usize) -> Case {
        if turn % 2 == 0 {
            Case::at_limit(self.at, (self.make)(chance, TEXT_LIMIT))
        } else {
            Case::at_limit(self.over, (self.make)(chance, TEXT_LIMIT + 1))
        }
    }
}

pub fn length(chance: &mut Chance, turn: usize) -> Case {
    LONG[turn / 2 % LONG.len()].case(chance, turn)
}

pub fn spelt_length(chance: &mut Chance, turn: usize) -> Case {
    SPELT.case(chance, turn)
}

/// A ground of names that end in their number, of which the first two have one byte. So has the
/// last role's name, which stands in no rule, goal or set and can be lengthened.
fn numbered(chance: &mut Chance, roles: usize, length: usize) -> Policy {
    let mut role_names: Vec<Vec<u8>> = (0..roles)
        .map(|place| {
            let mut name = vec![b'y'; length - 3];
            name.extend_from_slice(format!("{:03}", place).as_bytes());
            name
        })
        .collect();
    role_names[0] = b"a".to_vec();
    role_names[1] = b"b".to_vec();
    role_names[roles - 1] = b"z".to_vec();
    let user_names = names(chance, 2);
    bare_ground(chance, role_names, user_names)
}

/// Makes the last role's name so many bytes longer.
fn lengthen(chance: &mut Chance, policy: &mut Policy, missing: usize) {
    let last = policy.roles.len() - 1;
    policy.roles[last].extend(of_length(chance, missing));
}

fn policy(chance: &mut Chance, bytes: usize) -> Texts {
    let (policy, evidence) = long_policy(chance, bytes);
    Texts::Check { policy: policy, evidence: evidence }
}

fn spelt_policy(chance: &mut Chance, bytes: usize) -> Texts {
    let (policy, evidence) = long_policy(chance, bytes);
    reorderings::texts(chance, policy, evidence)
}

/// A policy of so many bytes, and a typing.
fn long_policy(chance: &mut Chance, bytes: usize) -> (Vec<u8>, Vec<u8>) {
    let mut policy = numbered(chance, 40, 32);
    policy.goals.push(vec![0]);
    let mut length = policy.text().len();
    loop {
        let rule = Assign {
            admin: chance.below(38),
            positive: vec![chance.between(2, 19)],
            negative: vec![chance.between(20, 37)],
            target: chance.between(2, 37),
        };
        let line = b"assign\t\t\t\t\n".len()
            + [rule.admin, rule.positive[0], rule.negative[0], rule.target]
                .iter()
                .map(|&role| policy.roles[role].len())
                .sum::<usize>();
        if length + line > bytes || policy.assigns.len() == 256 {
            break;
        }
        length += line;
        policy.assigns.push(rule);
    }
    while length + b"revoke\ta\tb\n".len() <= bytes {
        policy.revokes.push(Revoke { admin: 0, target: 1 });
        length += b"revoke\ta\tb\n".len();
    }
    lengthen(chance, &mut policy, bytes - length);
    let typing = plain_typing(policy.roles.len());
    (policy.text(), policy.typing_text(&typing))
}

fn typing(chance: &mut Chance, bytes: usize) -> Texts {
    let (policy, typing) = long_typing(chance, bytes);
    Texts::Check { policy: policy.text(), evidence: policy.typing_text(&typing) }
}

fn sum(chance: &mut Chance, bytes: usize) -> Texts {
    let (policy, typing) = long_typing(chance, bytes);
    let (first, second) = halves(chance, &typing);
    Texts::Sum {
        policy: policy.text(),
        first: policy.typing_text(&first),
        second: policy.typing_text(&second),
    }
}

fn merge(chance: &mut Chance, bytes: usize) -> Texts {
    let (policy, typing) = long_typing(chance, bytes);
    let (first, second) = halves(chance, &typing);
    Texts::Merge {
        policy_1: policy.text(),
        typing_1: policy.typing_text(&first),
        policy_2: policy.text(),
        typing_2: policy.typing_text(&second),
    }
}

/// A policy of one goal, the first role, and a typing of so many bytes with that role H.
fn long_typing(chance: &mut Chance, bytes: usize) -> (Policy, Vec<RoleType>) {
    let roles = chance.pick(&[80, 128]);
    let mut policy = numbered(chance, roles, 4);
    policy.goals.push(vec![0]);
    let mut typing = plain_typing(roles);
    let mut length = policy.typing_text(&typing).len();
    // All roles get about as many names as all others.
    let mut place = 0;
    loop {
        let said = &mut typing[place % roles];
        let member = 2 + (place / roles + place) % (roles - 3);
        let set = if (place / roles) % 2 == 0 { &mut said.plus } else { &mut said.minus };
        // The first name takes the place of `-`, each other one follows a comma.
        let more = if set.is_empty() { 3 } else { 5 };
        if length + more > bytes {
            break;
        }
        if !set.contains(&member) {
            set.push(member);
            length += more;
        }
        place += 1;
    }
    lengthen(chance, &mut policy, bytes - length);
    (policy, typing)
}

/// Two typings whose sum is a given one: each name of its sets is in one of them or in both.
fn halves(chance: &mut Chance, typing: &[RoleType]) -> (Vec<RoleType>, Vec<RoleType>) {
    let mut first = typing.to_vec();
    let mut second = typing.to_vec();
    for (one, two) in first.iter_mut().zip(&mut second) {
        halve(chance, &mut one.plus, &mut two.plus);
        halve(chance, &mut one.minus, &mut two.minus);
    }
    (first, second)
}

fn halve(chance: &mut Chance, one: &mut Vec<usize>, two: &mut Vec<usize>) {
    let whole = one.clone();
    one.clear();
    two.clear();
    for role in whole {
        let choice = chance.below(3);
        if choice != 0 {
            one.push(role);
        }
        if choice != 1 {
            two.push(role);
        }
    }
    chance.shuffle(one);
    chance.shuffle(two);
}

/// A trace of as many steps as so many bytes allow: a role is given and taken in turn, but now and
/// then one step is turned into the other kind.
fn trace(chance: &mut Chance, bytes: usize) -> Texts {
    let step_length = b"assign\ta\t1\tb\n".len();
    let around = b"trace\t1\n".len() + b"assign\ta\t1\tz\n".len() + b"end\n".len();
    let steps = (bytes - around) / step_length;
    let mut last = b"z".to_vec();
    last.extend(of_length(chance, bytes - around - steps * step_length));
    let policy = Policy {
        roles: vec![b"adm".to_vec(), b"pay".to_vec()],
        users: [b"a".to_vec(), b"b".to_vec(), last]
            .into_iter()
            .map(|name| User { name: name, high: false })
            .collect(),
        has: vec![(0, 0)],
        assigns: vec![Assign { admin: 0, positive: Vec::new(), negative: Vec::new(), target: 1 }],
        revokes: vec![Revoke { admin: 0, target: 1 }],
        goals: vec![if chance.one_in(3) { vec![1, 0] } else { vec![1] }],
    };
    let turned = if chance.one_in(3) { Some(chance.below(steps)) } else { None };
    let step =
        |assign: bool, user: usize| Step::Rule { assign: assign, actor: 0, number: 1, user: user };
    let mut trace: Vec<Step> =
        (0..steps).map(|place| step((place % 2 == 0) != (turned == Some(place)), 1)).collect();
    trace.push(step(true, 2));
    let evidence = policy.trace_text(&Trace::without_joiners(trace));
    Texts::Check { policy: policy.text(), evidence: evidence }
}

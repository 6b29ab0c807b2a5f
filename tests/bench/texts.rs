//! The texts that are measured: policies of any size with typings that close in one round or in
//! many, long traces, policies to be spelt, and ordinary texts with a hostile one among them.

use crate::drafts::{Assign, Policy, Revoke, RoleType, Step, Trace, User};

pub const TEXT_LIMIT: usize = 32_768;

/// One text for `spell`, two for `check`, three for `sum`, or four for `merge`.
#[derive(Clone)]
pub struct Input {
    pub name: String,
    pub texts: Vec<Vec<u8>>,
}

impl Input {
    pub fn new(name: &str, texts: &[&[u8]]) -> Input {
        Input { name: name.to_string(), texts: texts.iter().map(|text| text.to_vec()).collect() }
    }
}

/// How a typing closes. In many rounds it is by a chain of all low roles: each brings the next, and
/// the last shuts itself out. What is held goes up the chain role by role, and what is absent comes
/// down it again.
#[derive(Clone, Copy)]
pub enum Closing {
    OneRound,
    ManyRounds,
}

/// Names of 16 bytes: with them a policy at all five limits has near 32,768 bytes.
fn name(kind: &str, place: usize) -> Vec<u8> {
    format!("{}_{:0>width$}", kind, place, width = 15 - kind.len()).into_bytes()
}

/// One role in so many is high: it is held, administers and is revoked. The others are low: they are
/// asked for and given.
const HIGH: usize = 8;

/// The high role that the rule of this number names. By this and by `low` the numbers in turn name
/// every role, and numbers that follow each other name roles that stand apart.
fn high(roles: usize, number: usize) -> usize {
    5 * number % (roles / HIGH) * HIGH
}

/// How many roles are low.
fn lows(roles: usize) -> usize {
    roles - roles / HIGH
}

/// The low role that the rule of this number names.
fn low(roles: usize, number: usize) -> usize {
    let place = 5 * number % lows(roles);
    place + place / (HIGH - 1) + 1
}

/// A ground in which the H users hold the high roles.
fn ground(roles: usize) -> Policy {
    let users = roles / 2;
    Policy {
        roles: (0..roles).map(|place| name("role", place)).collect(),
        users: (0..users)
            .map(|place| User { name: name("user", place), high: place % 2 == 0 })
            .collect(),
        has: (0..users / 2).map(|number| (2 * number, high(roles, number))).collect(),
        assigns: Vec::new(),
        revokes: Vec::new(),
        goals: Vec::new(),
    }
}

/// Rules and goals in the proportions of the limits, or a half of them, about all roles. An assign
/// rule asks for the role that stands next above the one that it gives in the chain, so that what is
/// held and what is absent meet late.
fn fill(policy: &mut Policy, half: usize) {
    let roles = policy.roles.len();
    for number in 0..2 * roles / half {
        policy.assigns.push(Assign {
            admin: high(roles, number),
            positive: vec![low(roles, number + 1)],
            negative: Vec::new(),
            target: low(roles, number),
        });
        policy.revokes.push(Revoke { admin: high(roles, number), target: high(roles, number + 1) });
    }
    for number in 0..roles / 4 / half {
        policy.goals.push(vec![low(roles, number), high(roles, number)]);
    }
}

/// Accepted for every policy of `fill`, so that every rule and every goal is judged: no set has a
/// high role.
fn typing(roles: usize, closing: Closing) -> Vec<RoleType> {
    let mut typing: Vec<RoleType> = (0..roles)
        .map(|role| RoleType { high: role % HIGH == 0, plus: Vec::new(), minus: Vec::new() })
        .collect();
    if let Closing::ManyRounds = closing {
        let last = lows(roles) - 1;
        for number in 0..last {
            typing[low(roles, number)].plus = vec![low(roles, number + 1)];
        }
        typing[low(roles, last)].minus = vec![low(roles, last)];
    }
    typing
}

fn words(closing: Closing) -> &'static str {
    match closing {
        Closing::OneRound => "closing in one round",
        Closing::ManyRounds => "closing in many rounds",
    }
}

/// A policy with so many roles, half as many users, twice as many assign and revoke rules, a
/// quarter as many goals.
pub fn full(roles: usize, closing: Closing) -> Input {
    let mut policy = ground(roles);
    fill(&mut policy, 1);
    let name = format!("{} roles, {}", roles, words(closing));
    Input::new(&name, &[&policy.text(), &policy.typing_text(&typing(roles, closing))])
}

/// A full policy whose last line is `END`: it is read whole and refused there, so nothing is judged.
pub fn read_only(roles: usize) -> Input {
    only_read(&format!("{} roles", roles), &full(roles, Closing::OneRound))
}

/// The same of the policy of any input; where it has no evidence, that is empty.
pub fn only_read(name: &str, input: &Input) -> Input {
    let mut texts = input.texts.clone();
    texts.resize(2, Vec::new());
    let last = texts[0].len() - b"end\n".len();
    texts[0][last..].copy_from_slice(b"END\n");
    Input { name: format!("{}, only read: refused at the last line", name), texts: texts }
}

/// The policy of an input for `check`, to be spelt.
pub fn spelt(name: &str, check: &Input) -> Input {
    Input::new(name, &[&check.texts[0]])
}

/// A ground of 128 roles and 64 users with names of two bytes, in which nobody holds anything, and
/// a goal.
fn short_ground() -> Policy {
    let name = |place: usize| format!("{:02x}", place).into_bytes();
    Policy {
        roles: (0..128).map(name).collect(),
        users: (0..64).map(|place| User { name: name(place), high: false }).collect(),
        has: Vec::new(),
        assigns: Vec::new(),
        revokes: Vec::new(),
        goals: vec![vec![0]],
    }
}

/// A policy to be spelt with as many has lines as it has room for, by role first and from the last
/// to the first.
pub fn full_of_has() -> Input {
    let mut policy = short_ground();
    let room = TEXT_LIMIT - policy.text().len();
    let pairs = policy.users.len() * policy.roles.len();
    let lines = room / b"has\tuu\trr\n".len();
    for place in (0..lines).rev() {
        let pair = place * pairs / lines;
        policy.has.push((pair % policy.users.len(), pair / policy.users.len()));
    }
    Input::new("full of has lines, by role first", &[&policy.text()])
}

/// A policy to be spelt with as many names in sets as it has room for, from the last role to the
/// first.
pub fn full_of_sets() -> Input {
    let mut policy = short_ground();
    let all: Vec<usize> = (0..policy.roles.len()).rev().collect();
    policy.goals = vec![all.clone(); 32];
    loop {
        let mut more = policy.clone();
        let (positive, negative) = (all.clone(), all.clone());
        more.assigns.push(Assign { admin: 0, positive: positive, negative: negative, target: 1 });
        if more.text().len() > TEXT_LIMIT {
            return Input::new("full of sets, from the last role", &[&policy.text()]);
        }
        policy = more;
    }
}

/// Two policies of one ground with half of the rules and goals each.
pub fn halves(roles: usize, closing: Closing) -> Input {
    let mut policy = ground(roles);
    fill(&mut policy, 2);
    let text = policy.text();
    let typing = policy.typing_text(&typing(roles, closing));
    let name = format!("two half-full policies of {} roles, {}", roles, words(closing));
    Input::new(&name, &[&text, &typing, &text, &typing])
}

/// A policy of two users, of whom one gives and takes a role.
fn giving() -> Policy {
    Policy {
        roles: vec![b"adm".to_vec(), b"pay".to_vec()],
        users: vec![
            User { name: b"a".to_vec(), high: true },
            User { name: b"b".to_vec(), high: false },
        ],
        has: vec![(0, 0)],
        assigns: vec![Assign { admin: 0, positive: Vec::new(), negative: Vec::new(), target: 1 }],
        revokes: vec![Revoke { admin: 0, target: 1 }],
        goals: vec![vec![1]],
    }
}

/// The role given to a user and taken in turn.
fn in_turn(steps: usize, user: usize) -> impl Iterator<Item = Step> {
    (0..steps).map(move |place| {
        Step::Rule { assign: place % 2 == 0, actor: 0, number: 1, user: user }
    })
}

/// Steps that are all on one listed user.
pub fn trace(steps: usize) -> Input {
    let policy = giving();
    let trace = Trace::without_joiners(in_turn(steps, 1).collect());
    let name = format!("trace of {} steps", steps);
    Input::new(&name, &[&policy.text(), &policy.trace_text(&trace)])
}

/// How the users of a trace come to be there.
#[derive(Clone, Copy)]
pub enum Coming {
    Listed,
    Joined,
}

/// Every name of one byte but for the two of `giving`.
const OTHERS: &[u8] = b"cdefghijklmnopqrstuvwxyzABCDEFGHIJKLMNOPQRSTUVWXYZ0123456789_";

/// Steps on many users, as many on each, one user after the other. Those who are not listed join
/// before and leave after, and these are steps too.
pub fn trace_of_many(steps: usize, coming: Coming) -> Input {
    let mut policy = giving();
    let first = policy.users.len();
    let mut trace = Trace::without_joiners(Vec::new());
    let names = OTHERS.iter().map(|&byte| vec![byte]);
    match coming {
        Coming::Listed => policy.users.extend(names.map(|name| User { name: name, high: true })),
        Coming::Joined => trace.joiners.extend(names),
    }
    for place in 0..OTHERS.len() {
        let user = first + place;
        let share = (place + 1) * steps / OTHERS.len() - trace.steps.len();
        match coming {
            Coming::Listed => trace.steps.extend(in_turn(share, user)),
            Coming::Joined => {
                trace.steps.push(Step::Join { user: user, high: true });
                trace.steps.extend(in_turn(share - 2, user));
                trace.steps.push(Step::Leave { user: user });
            }
        }
    }
    let come = match coming {
        Coming::Listed => "are listed",
        Coming::Joined => "join and leave",
    };
    let name = format!("trace of {} steps over {} users who {}", steps, OTHERS.len(), come);
    Input::new(&name, &[&policy.text(), &policy.trace_text(&trace)])
}

/// A policy and a piece of evidence merged with themselves.
pub fn twice(check: &Input) -> Input {
    let (policy, evidence) = (&check.texts[0], &check.texts[1]);
    let name = format!("{}, twice", check.name);
    Input::new(&name, &[policy, evidence, policy, evidence])
}

/// The sum of the two typings of a merge, over its first policy.
pub fn sum_of(merge: &Input) -> Input {
    let texts = &merge.texts;
    Input::new(&merge.name, &[&texts[0], &texts[1], &texts[3]])
}

/// A text with as many of these names as it has room for in one of its fields; lines and fields are
/// counted from 0.
pub fn crowded(text: &[u8], line: usize, field: usize, names: &[u8]) -> Vec<u8> {
    let mut lines: Vec<Vec<&[u8]>> = text
        .split(|&byte| byte == b'\n')
        .map(|line| line.split(|&byte| byte == b'\t').collect())
        .collect();
    let room = TEXT_LIMIT + lines[line][field].len() - text.len();
    let fits = names.len() <= room;
    let last = names.iter().take(room + 1).rposition(|&byte| byte == b',');
    lines[line][field] = if fits { names } else { &names[..last.expect("several names")] };
    let lines: Vec<Vec<u8>> = lines.iter().map(|fields| fields.join(&b'\t')).collect();
    lines.join(&b'\n')
}

/// Some inputs, and each of them with each hostile text in every place.
pub fn every_place(ordinary: &[Input], hostile: &[(String, Vec<u8>)]) -> Vec<Input> {
    let mut all = ordinary.to_vec();
    for input in ordinary {
        for place in 0..input.texts.len() {
            for (name, text) in hostile {
                let mut texts = input.texts.clone();
                texts[place] = text.clone();
                let name = format!("{}, {} as text {}", input.name, name, place + 1);
                all.push(Input { name: name, texts: texts });
            }
        }
    }
    all
}

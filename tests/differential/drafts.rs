//! Drafts: policies, typings and traces whose roles and users are places from 0, and the texts that
//! say them. In a trace the places of the joiners follow those of the listed users.

#[derive(Clone)]
pub struct User {
    pub name: Vec<u8>,
    pub high: bool,
}

#[derive(Clone)]
pub struct Assign {
    pub admin: usize,
    pub positive: Vec<usize>,
    pub negative: Vec<usize>,
    pub target: usize,
}

#[derive(Clone)]
pub struct Revoke {
    pub admin: usize,
    pub target: usize,
}

#[derive(Clone)]
pub struct Policy {
    pub roles: Vec<Vec<u8>>,
    pub users: Vec<User>,
    /// User and role.
    pub has: Vec<(usize, usize)>,
    pub assigns: Vec<Assign>,
    pub revokes: Vec<Revoke>,
    pub goals: Vec<Vec<usize>>,
}

/// What a typing says of one role.
#[derive(Clone)]
pub struct RoleType {
    pub high: bool,
    pub plus: Vec<usize>,
    pub minus: Vec<usize>,
}

#[derive(Clone)]
pub enum Step {
    /// Under an assign rule or a revoke rule; `number` is from 1, as it is written.
    Rule { assign: bool, actor: usize, number: usize, user: usize },
    Join { user: usize, high: bool },
    Leave { user: usize },
}

#[derive(Clone)]
pub struct Trace {
    /// The names that are not listed.
    pub joiners: Vec<Vec<u8>>,
    pub steps: Vec<Step>,
}

impl Trace {
    pub fn without_joiners(steps: Vec<Step>) -> Trace {
        Trace { joiners: Vec::new(), steps: steps }
    }
}

fn level(high: bool) -> &'static [u8] {
    if high {
        b"H"
    } else {
        b"L"
    }
}

fn put_line(text: &mut Vec<u8>, fields: &[&[u8]]) {
    for (place, field) in fields.iter().enumerate() {
        if place > 0 {
            text.push(b'\t');
        }
        text.extend_from_slice(field);
    }
    text.push(b'\n');
}

impl Policy {
    pub fn set(&self, roles: &[usize]) -> Vec<u8> {
        if roles.is_empty() {
            return b"-".to_vec();
        }
        let mut set = Vec::new();
        for (place, &role) in roles.iter().enumerate() {
            if place > 0 {
                set.push(b',');
            }
            set.extend_from_slice(&self.roles[role]);
        }
        set
    }

    pub fn text(&self) -> Vec<u8> {
        let mut text = Vec::new();
        put_line(&mut text, &[b"arbac", b"1"]);
        for role in &self.roles {
            put_line(&mut text, &[b"role", role]);
        }
        for user in &self.users {
            put_line(&mut text, &[b"user", &user.name, level(user.high)]);
        }
        for &(user, role) in &self.has {
            put_line(&mut text, &[b"has", &self.users[user].name, &self.roles[role]]);
        }
        for rule in &self.assigns {
            let positive = self.set(&rule.positive);
            let negative = self.set(&rule.negative);
            put_line(
                &mut text,
                &[
                    b"assign",
                    &self.roles[rule.admin],
                    &positive,
                    &negative,
                    &self.roles[rule.target],
                ],
            );
        }
        for rule in &self.revokes {
            put_line(&mut text, &[b"revoke", &self.roles[rule.admin], &self.roles[rule.target]]);
        }
        for goal in &self.goals {
            put_line(&mut text, &[b"goal", &self.set(goal)]);
        }
        put_line(&mut text, &[b"end"]);
        text
    }

    pub fn typing_text(&self, typing: &[RoleType]) -> Vec<u8> {
        let mut text = Vec::new();
        put_line(&mut text, &[b"typing", b"1"]);
        for (role, said) in self.roles.iter().zip(typing) {
            let plus = self.set(&said.plus);
            let minus = self.set(&said.minus);
            put_line(&mut text, &[role, level(said.high), &plus, &minus]);
        }
        put_line(&mut text, &[b"end"]);
        text
    }

    pub fn trace_text(&self, trace: &Trace) -> Vec<u8> {
        let listed = self.users.iter().map(|user| &user.name);
        let names: Vec<&Vec<u8>> = listed.chain(&trace.joiners).collect();
        let mut text = Vec::new();
        put_line(&mut text, &[b"trace", b"1"]);
        for step in &trace.steps {
            match *step {
                Step::Rule { assign, actor, number, user } => {
                    let kind: &[u8] = if assign { b"assign" } else { b"revoke" };
                    let number = number.to_string();
                    put_line(&mut text, &[kind, names[actor], number.as_bytes(), names[user]]);
                }
                Step::Join { user, high } => {
                    put_line(&mut text, &[b"join", names[user], level(high)]);
                }
                Step::Leave { user } => put_line(&mut text, &[b"leave", names[user]]),
            }
        }
        put_line(&mut text, &[b"end"]);
        text
    }
}

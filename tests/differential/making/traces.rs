//! Random traces: steps that are possible one after the other, and traces spoilt.

use crate::chance::Chance;
use crate::drafts::{Assign, Policy, Step, Trace};
use crate::making::names::{like_taken, names_beside};
use crate::making::sets::{add, has, mask};

/// How often a step under a rule is looked for.
const TRIES: usize = 16;

/// Somebody who is listed or has joined. Who leaves keeps the roles here, so that a step by or on
/// one who left is often not possible for this reason alone.
struct Person {
    high: bool,
    present: bool,
    held: u128,
}

/// Steps of a run, at most so many, in which often a few join.
pub fn trace(chance: &mut Chance, policy: &Policy, most: usize) -> Trace {
    let joiners = joiners(chance, policy);
    run(chance, policy, joiners, most)
}

/// A few names that are not listed, often like one that is.
fn joiners(chance: &mut Chance, policy: &Policy) -> Vec<Vec<u8>> {
    let mut names: Vec<Vec<u8>> = policy.users.iter().map(|user| user.name.clone()).collect();
    for _ in 0..chance.pick(&[0, 0, 1, 1, 2, 3]) {
        let name = if names.is_empty() || chance.one_in(2) {
            names_beside(chance, 1, &names).remove(0)
        } else {
            like_taken(chance, &names)
        };
        names.push(name);
    }
    names.split_off(policy.users.len())
}

/// Steps of a run, at most so many. A run often ends at its first bad state, and sometimes goes on
/// past it, also by the leave of who makes it bad.
pub fn run(chance: &mut Chance, policy: &Policy, joiners: Vec<Vec<u8>>, most: usize) -> Trace {
    let goals: Vec<u128> = policy.goals.iter().map(|goal| mask(goal)).collect();
    let everybody = policy.users.len() + joiners.len();
    let mut state = start(policy);
    let mut steps = Vec::new();
    while steps.len() < most {
        let next = match victim(&goals, &state) {
            Some(user) => match chance.below(12) {
                0 => Some(Step::Leave { user: user }),
                1 => possible(chance, policy, &state, everybody),
                _ => None,
            },
            None => possible(chance, policy, &state, everybody),
        };
        match next {
            Some(step) => {
                take(policy, &step, &mut state);
                steps.push(step);
            }
            None => break,
        }
    }
    Trace { joiners: joiners, steps: steps }
}

/// Makes a goal of all that a joiner holds after a run, or held on leaving, if there is such a one.
pub fn aim(chance: &mut Chance, policy: &mut Policy, trace: &Trace) {
    let state = after(policy, &trace.steps);
    let joined = state[policy.users.len()..].iter();
    let held: Vec<u128> = joined.map(|joiner| joiner.held).filter(|&held| held != 0).collect();
    if !held.is_empty() {
        let held = chance.pick(&held);
        policy.goals.push((0..policy.roles.len()).filter(|&role| has(held, role)).collect());
    }
}

/// Somebody who is present after a run and holds a role.
pub fn holder(policy: &Policy, trace: &Trace, role: usize) -> Option<usize> {
    let state = after(policy, &trace.steps);
    state.iter().position(|person| person.present && has(person.held, role))
}

/// Changes a run, or a rule that it uses, so that a step is often not possible, and mostly for one
/// reason, or so that a name is not known.
pub fn spoil(chance: &mut Chance, policy: &mut Policy, trace: &mut Trace) {
    let steps = &mut trace.steps;
    let place = chance.below(steps.len() + 1);
    let state = after(policy, &steps[..place]);
    match (chance.below(8), steps.get(place)) {
        (0, Some(_)) => {
            steps.remove(place);
        }
        (1, Some(_)) => {
            let other = chance.below(steps.len());
            steps.swap(place, other);
        }
        (2..=4, Some(&Step::Rule { assign: true, number, user, .. })) => {
            let roles = policy.roles.len();
            tighten(chance, &mut policy.assigns[number - 1], roles, state[user].held);
        }
        // below lines that speak of the name, or below none
        (2..=4, Some(Step::Join { .. })) => {
            let join = steps.remove(place);
            steps.insert(chance.between(place, steps.len()), join);
        }
        _ => {
            if let Some(step) = broken(chance, policy, &state) {
                steps.insert(place, step);
            }
        }
    }
}

/// Makes an assign rule refuse one of the roles that a user holds, or ask for one that the user
/// lacks.
fn tighten(chance: &mut Chance, rule: &mut Assign, roles: usize, holds: u128) {
    let (held, lacked): (Vec<usize>, Vec<usize>) = (0..roles).partition(|&role| has(holds, role));
    if lacked.is_empty() || !held.is_empty() && chance.one_in(2) {
        add(&mut rule.negative, chance.pick(&held));
    } else {
        add(&mut rule.positive, chance.pick(&lacked));
    }
}

/// The listed users with what they hold at the start.
fn start(policy: &Policy) -> Vec<Person> {
    let mut state: Vec<Person> = policy
        .users
        .iter()
        .map(|user| Person { high: user.high, present: true, held: 0 })
        .collect();
    for &(user, role) in &policy.has {
        state[user].held |= 1 << role;
    }
    state
}

fn after(policy: &Policy, steps: &[Step]) -> Vec<Person> {
    let mut state = start(policy);
    for step in steps {
        take(policy, step, &mut state);
    }
    state
}

/// The first L user who is present and holds all roles of some goal.
fn victim(goals: &[u128], state: &[Person]) -> Option<usize> {
    state.iter().position(|person| {
        let holds_one = goals.iter().any(|&goal| person.held & goal == goal);
        person.present && !person.high && holds_one
    })
}

/// A step that is possible, if a few tries find one; `everybody` counts the listed and the joiners.
fn possible(
    chance: &mut Chance,
    policy: &Policy,
    state: &[Person],
    everybody: usize,
) -> Option<Step> {
    let join = Step::Join { user: state.len(), high: chance.one_in(3) };
    let joins = state.len() < everybody;
    match chance.below(16) {
        0..=3 if joins => Some(join),
        4..=6 => leave(chance, state, true),
        _ => rule_step(chance, policy, state, 0).or(Some(join).filter(|_| joins)),
    }
}

/// A step that is not possible for one reason, if a few tries find one.
fn broken(chance: &mut Chance, policy: &Policy, state: &[Person]) -> Option<Step> {
    match chance.below(8) {
        0..=1 if !state.is_empty() => {
            Some(Step::Join { user: anybody(chance, state), high: chance.one_in(2) })
        }
        2 => leave(chance, state, false),
        _ => rule_step(chance, policy, state, 1),
    }
}

/// The leave of somebody who is present, or of somebody who is not.
fn leave(chance: &mut Chance, state: &[Person], present: bool) -> Option<Step> {
    let those: Vec<usize> =
        (0..state.len()).filter(|&user| state[user].present == present).collect();
    if those.is_empty() {
        return None;
    }
    Some(Step::Leave { user: chance.pick(&those) })
}

/// Anybody: often who came last, and sometimes the first who left.
fn anybody(chance: &mut Chance, state: &[Person]) -> usize {
    match (chance.below(4), state.iter().position(|person| !person.present)) {
        (0..=1, _) => state.len() - 1,
        (2, Some(left)) => left,
        _ => chance.below(state.len()),
    }
}

/// A step under a rule that is not possible for so many reasons, if a few tries find one.
fn rule_step(chance: &mut Chance, policy: &Policy, state: &[Person], reasons: u32) -> Option<Step> {
    let rules = [policy.revokes.len(), policy.assigns.len()];
    if rules == [0, 0] || state.is_empty() {
        return None;
    }
    for _ in 0..TRIES {
        let assign = rules[0] == 0 || rules[1] > 0 && !chance.one_in(3);
        let number = chance.between(1, rules[assign as usize]);
        let user = anybody(chance, state);
        let asked = Asked::of(policy, assign, number);
        let actor = asked.actor(chance, state);
        if asked.reasons(&state[actor], &state[user]) == reasons {
            return Some(Step::Rule { assign: assign, actor: actor, number: number, user: user });
        }
    }
    None
}

/// What a rule asks for, as masks of roles.
struct Asked {
    admin: u128,
    held: u128,
    absent: u128,
    target: u128,
}

impl Asked {
    fn of(policy: &Policy, assign: bool, number: usize) -> Asked {
        if assign {
            let rule = &policy.assigns[number - 1];
            let target = 1 << rule.target;
            Asked {
                admin: 1 << rule.admin,
                held: mask(&rule.positive),
                absent: mask(&rule.negative) | target,
                target: target,
            }
        } else {
            let rule = &policy.revokes[number - 1];
            let target = 1 << rule.target;
            Asked { admin: 1 << rule.admin, held: target, absent: 0, target: target }
        }
    }

    /// Mostly somebody who holds the administrative role, if there is one.
    fn actor(&self, chance: &mut Chance, state: &[Person]) -> usize {
        let first = chance.below(state.len());
        let mut actors = (first..state.len()).chain(0..first);
        match actors.find(|&actor| state[actor].held & self.admin != 0) {
            Some(actor) if !chance.one_in(8) => actor,
            _ => first,
        }
    }

    /// For how many reasons the step is not possible for this actor and this user.
    fn reasons(&self, actor: &Person, user: &Person) -> u32 {
        (!actor.present) as u32
            + (!user.present) as u32
            + (self.admin & !actor.held).count_ones()
            + (self.held & !user.held).count_ones()
            + (self.absent & user.held).count_ones()
    }
}

/// Makes the state the one after a step.
fn take(policy: &Policy, step: &Step, state: &mut Vec<Person>) {
    match *step {
        Step::Rule { assign: true, number, user, .. } => {
            state[user].held |= Asked::of(policy, true, number).target;
        }
        Step::Rule { assign: false, number, user, .. } => {
            state[user].held &= !Asked::of(policy, false, number).target;
        }
        Step::Join { high, .. } => state.push(Person { high: high, present: true, held: 0 }),
        Step::Leave { user } => state[user].present = false,
    }
}

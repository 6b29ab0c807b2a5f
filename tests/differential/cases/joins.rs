//! Cases with so many user names in policy and trace together as document 02 allows, or one more.

use crate::cases::counts::change_last;
use crate::cases::Case;
use crate::chance::Chance;
use crate::drafts::{Assign, Policy, Revoke, Step, Trace};
use crate::making::grounds::bare_ground;
use crate::making::names::names as different_names;
use crate::making::traces;
use crate::making::widening::{Placing, Width};
use crate::texts::Texts;

/// How many of the names are listed.
const LISTED: [usize; 8] = [0, 1, 2, 3, 32, 62, 63, 64];

/// Everybody who is not listed joins in a run, and then the last of all gets the goal. Every other
/// time the run is spoilt, or the last join line is changed.
pub fn names(chance: &mut Chance, turn: usize) -> Case {
    let (together, again, made) = [
        (64, false, "64 user names in policy and trace"),
        (64, true, "64 user names in policy and trace, one of which joins again"),
        (65, false, "65 user names in policy and trace"),
    ][turn % 3];
    let mut users = different_names(chance, together);
    let joiners = users.split_off(chance.pick(&LISTED));
    let mut policy = giving(chance, users);
    let most = chance.below(3 * together);
    let mut trace = traces::run(chance, &policy, joiners, most);
    join_all(chance, &mut trace, together);
    give_last(&mut policy, &mut trace, together - 1);
    let spoilt = chance.below(4);
    if spoilt == 0 {
        traces::spoil(chance, &mut policy, &mut trace);
    }
    if again {
        trace.steps.push(Step::Join { user: chance.below(together), high: chance.one_in(2) });
    }
    let width = chance.pick(&[Width::Narrow, Width::Wide]);
    let policy = Placing::of(chance, width, &policy).policy(&policy);
    let mut evidence = policy.trace_text(&trace);
    if spoilt == 1 {
        evidence = change_last_join(chance, &evidence);
    }
    let texts = Texts::Check { policy: policy.text(), evidence: evidence };
    Case { made: made, width: width, texts: texts }
}

/// A policy in which the listed users hold an administrative role, by which it is given and taken.
/// Nobody can come to hold the goal.
fn giving(chance: &mut Chance, users: Vec<Vec<u8>>) -> Policy {
    let roles = different_names(chance, 2);
    let mut policy = bare_ground(chance, roles, users);
    policy.has = (0..policy.users.len()).map(|user| (user, 0)).collect();
    policy.assigns.push(assign(0));
    policy.revokes.push(Revoke { admin: 0, target: 0 });
    policy.goals.push(vec![1]);
    policy
}

fn assign(target: usize) -> Assign {
    Assign { admin: 0, positive: Vec::new(), negative: Vec::new(), target: target }
}

/// Those join who did not do so yet.
fn join_all(chance: &mut Chance, trace: &mut Trace, together: usize) {
    let joined = trace.steps.iter().filter(|step| matches!(step, Step::Join { .. })).count();
    for user in together - trace.joiners.len() + joined..together {
        trace.steps.push(Step::Join { user: user, high: chance.one_in(3) });
    }
}

/// The last user gets the goal, if somebody can give it.
fn give_last(policy: &mut Policy, trace: &mut Trace, last: usize) {
    if let Some(actor) = traces::holder(policy, trace, 0) {
        policy.assigns.push(assign(1));
        trace.steps.push(Step::Rule { assign: true, actor: actor, number: 2, user: last });
    }
}

fn change_last_join(chance: &mut Chance, trace: &[u8]) -> Vec<u8> {
    let lines: Vec<&[u8]> = trace.split(|&byte| byte == b'\n').collect();
    let joins = |line: &&[u8]| line.starts_with(b"join\t");
    match (lines.iter().position(joins), lines.iter().rposition(joins)) {
        (Some(first), Some(last)) => change_last(chance, trace, first, last),
        _ => trace.to_vec(),
    }
}

//! Cases for `check`: a policy with a typing or a trace.

use crate::chance::Chance;
use crate::drafts::{Policy, RoleType};
use crate::making::grounds::{ground, narrow_ground};
use crate::making::rules::add_rules;
use crate::making::steering::{Steering, ACCEPTED};
use crate::making::widening::{wide_count, Placing, Width};
use crate::making::{traces, typings};
use crate::texts::Texts;

/// A typing with no failure before a part that is drawn.
pub fn typing(chance: &mut Chance, width: Width) -> Texts {
    let (mut policy, typing) = policy_and_typing(chance);
    steer(chance, &mut policy, &typing);
    let (policy, typing) = placed(chance, width, &policy, &typing);
    Texts::Check { policy: policy.text(), evidence: policy.typing_text(&typing) }
}

/// A typing that is a chain of all roles.
pub fn chain(chance: &mut Chance, width: Width) -> Texts {
    let mut policy = match width {
        Width::Narrow => narrow_ground(chance),
        Width::Wide => {
            let roles = wide_count(chance);
            ground(chance, roles)
        }
    };
    let typing = typings::chain(chance, policy.roles.len());
    add_rules(chance, &mut policy, &typing);
    steer(chance, &mut policy, &typing);
    Texts::Check { policy: policy.text(), evidence: policy.typing_text(&typing) }
}

pub fn trace(chance: &mut Chance, width: Width) -> Texts {
    let (policy, trace) = policy_and_trace(chance, width);
    Texts::Check { policy: policy, evidence: trace }
}

/// The steps of a run, every other time with a goal for a joiner, and every other time spoilt.
pub fn policy_and_trace(chance: &mut Chance, width: Width) -> (Vec<u8>, Vec<u8>) {
    let (mut policy, _) = policy_and_typing(chance);
    let most = chance.below(13);
    let mut trace = traces::trace(chance, &policy, most);
    if chance.one_in(2) {
        traces::aim(chance, &mut policy, &trace);
    }
    if chance.one_in(2) {
        traces::spoil(chance, &mut policy, &mut trace);
    }
    let policy = Placing::of(chance, width, &policy).policy(&policy);
    (policy.text(), policy.trace_text(&trace))
}

/// A typing or a trace.
pub fn either(chance: &mut Chance, width: Width) -> Texts {
    let (policy, typing) = policy_and_typing(chance);
    let (policy, typing) = placed(chance, width, &policy, &typing);
    let evidence = evidence(chance, &policy, &typing);
    Texts::Check { policy: policy.text(), evidence: evidence }
}

/// A narrow policy, and a typing that accepts many of its lines.
pub fn policy_and_typing(chance: &mut Chance) -> (Policy, Vec<RoleType>) {
    let mut policy = narrow_ground(chance);
    let typing = typings::typing(chance, policy.roles.len());
    add_rules(chance, &mut policy, &typing);
    (policy, typing)
}

/// Makes all parts pass before one that is drawn, or all of them.
fn steer(chance: &mut Chance, policy: &mut Policy, typing: &[RoleType]) {
    let until = chance.pick(&[0, 1, 1, 1, 2, 3, ACCEPTED, ACCEPTED]);
    Steering::of(typing).repair(policy, until);
}

fn placed(
    chance: &mut Chance,
    width: Width,
    policy: &Policy,
    typing: &[RoleType],
) -> (Policy, Vec<RoleType>) {
    let placing = Placing::of(chance, width, policy);
    (placing.policy(policy), placing.typing(chance, typing))
}

/// The text of a policy's typing, or of some trace over it.
pub fn evidence(chance: &mut Chance, policy: &Policy, typing: &[RoleType]) -> Vec<u8> {
    if chance.one_in(2) {
        return policy.typing_text(typing);
    }
    let trace = traces::trace(chance, policy, 8);
    policy.trace_text(&trace)
}

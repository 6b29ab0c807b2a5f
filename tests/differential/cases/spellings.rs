//! Cases with names and numbers as long as document 01 allows, or longer.

use crate::cases::checks::{evidence, policy_and_typing};
use crate::cases::Case;
use crate::chance::Chance;
use crate::drafts::{Step, Trace};
use crate::making::names::of_length;
use crate::making::plain::{plain_policy, Sizes};
use crate::texts::Texts;

/// One role or user whose name has 1, 32 or 33 bytes wherever it stands.
pub fn names(chance: &mut Chance, turn: usize) -> Case {
    let (length, made) =
        [(1, "name of 1 byte"), (32, "name of 32 bytes"), (33, "name of 33 bytes")][turn % 3];
    let (mut policy, typing) = policy_and_typing(chance);
    let name = of_length(chance, length);
    if chance.one_in(2) && !policy.users.is_empty() {
        let user = chance.below(policy.users.len());
        policy.users[user].name = name;
    } else {
        let role = chance.below(policy.roles.len());
        policy.roles[role] = name;
    }
    let evidence = evidence(chance, &policy, &typing);
    Case::at_limit(made, Texts::Check { policy: policy.text(), evidence: evidence })
}

/// A trace with a rule number of 1 to 4 digits over up to 256 rules of its kind.
pub fn digits(chance: &mut Chance, turn: usize) -> Case {
    let (least, made) = [
        (1, "number of 1 digit"),
        (10, "number of 2 digits"),
        (100, "number of 3 digits"),
        (1000, "number of 4 digits"),
    ][turn % 4];
    let number = match chance.below(4) {
        0 => least,
        1 => 10 * least - 1,
        _ => chance.between(least, 10 * least - 1),
    };
    let rules = chance.pick(&[1, 9, 10, 99, 100, 255, 256]);
    let assign = chance.one_in(2);
    let (assigns, revokes) = if assign { (rules, 0) } else { (0, rules) };
    let sizes = Sizes { roles: 3, users: 2, assigns: assigns, revokes: revokes, goals: 1 };
    let policy = plain_policy(chance, &sizes);
    let (actor, user) = (chance.below(2), chance.below(2));
    let mut steps = vec![Step::Rule { assign: assign, actor: actor, number: number, user: user }];
    if chance.one_in(2) {
        let number = rules + chance.below(2);
        steps.push(Step::Rule { assign: assign, actor: chance.below(2), number: number, user: 0 });
    }
    let evidence = policy.trace_text(&Trace::without_joiners(steps));
    Case::at_limit(made, Texts::Check { policy: policy.text(), evidence: evidence })
}

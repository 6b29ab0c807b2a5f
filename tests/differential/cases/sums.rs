//! Cases for `sum`: a policy with two typings.

use crate::cases::checks::policy_and_typing;
use crate::chance::Chance;
use crate::making::typings::{near, typing};
use crate::making::widening::{Placing, Width};
use crate::texts::Texts;

pub fn sum(chance: &mut Chance, width: Width) -> Texts {
    let (policy, first) = policy_and_typing(chance);
    let second =
        if chance.one_in(3) { near(chance, &first) } else { typing(chance, policy.roles.len()) };
    let placing = Placing::of(chance, width, &policy);
    let policy = placing.policy(&policy);
    Texts::Sum {
        policy: policy.text(),
        first: policy.typing_text(&placing.typing(chance, &first)),
        second: policy.typing_text(&placing.typing(chance, &second)),
    }
}

//! Cases whose texts are damaged, or of another kind than the one that is wanted.

use crate::cases::checks::policy_and_typing;
use crate::cases::{checks, merges, reorderings, sums};
use crate::chance::Chance;
use crate::making::damage::damage;
use crate::making::traces;
use crate::making::widening::{Placing, Width};
use crate::texts::Texts;

pub fn check(chance: &mut Chance, width: Width) -> Texts {
    let texts = checks::either(chance, width);
    damaged(chance, texts)
}

/// A damaged trace over a whole policy.
pub fn trace(chance: &mut Chance, width: Width) -> Texts {
    let (policy, mut evidence) = checks::policy_and_trace(chance, width);
    for _ in 0..chance.pick(&DAMAGES) {
        damage(chance, &mut evidence);
    }
    Texts::Check { policy: policy, evidence: evidence }
}

pub fn sum(chance: &mut Chance, width: Width) -> Texts {
    let texts = sums::sum(chance, width);
    damaged(chance, texts)
}

pub fn merge(chance: &mut Chance, width: Width) -> Texts {
    let texts = merges::any_merge(chance, width);
    damaged(chance, texts)
}

/// A damaged policy and its reordering.
pub fn spell(chance: &mut Chance, width: Width) -> Texts {
    let (mut policy, evidence) = reorderings::policy_and_evidence(chance, width);
    for _ in 0..chance.pick(&DAMAGES) {
        damage(chance, &mut policy);
    }
    reorderings::texts(chance, policy, evidence)
}

/// How many damages.
const DAMAGES: [usize; 5] = [1, 1, 1, 2, 3];

/// One to three damages, most often all to the same text.
fn damaged(chance: &mut Chance, mut texts: Texts) -> Texts {
    let mut all = texts.all();
    let mut place = chance.below(all.len());
    for _ in 0..chance.pick(&DAMAGES) {
        damage(chance, all[place]);
        if chance.one_in(4) {
            place = chance.below(all.len());
        }
    }
    texts
}

/// A text where one of another kind is wanted.
pub fn another_kind(chance: &mut Chance, width: Width) -> Texts {
    let (policy, typing) = policy_and_typing(chance);
    let trace = traces::trace(chance, &policy, 3);
    let placing = Placing::of(chance, width, &policy);
    let policy = placing.policy(&policy);
    let policy_text = policy.text();
    let typing_text = policy.typing_text(&placing.typing(chance, &typing));
    let trace_text = policy.trace_text(&trace);
    let wanted = chance.below(3);
    let mut any = || chance.pick(&[&policy_text, &typing_text, &trace_text]).clone();
    match wanted {
        0 => Texts::Check { policy: any(), evidence: any() },
        1 => Texts::Sum { policy: policy_text.clone(), first: any(), second: any() },
        _ => Texts::Merge {
            policy_1: policy_text.clone(),
            typing_1: any(),
            policy_2: policy_text.clone(),
            typing_2: any(),
        },
    }
}

//! Cases: the ways in which they are made, and how many are made in each.

use crate::chance::Chance;
use crate::making::widening::Width;
use crate::texts::Texts;

mod checks;
mod counts;
mod damaged;
mod joins;
mod lengths;
mod merges;
mod reorderings;
mod spellings;
mod sums;

pub struct Case {
    /// In which way it was made.
    pub made: &'static str,
    pub width: Width,
    pub texts: Texts,
}

impl Case {
    /// With as many roles as the limit asks for, few or many, and none of them placed.
    fn at_limit(made: &'static str, texts: Texts) -> Case {
        Case { made: made, width: Width::Narrow, texts: texts }
    }
}

enum Way {
    /// All alike by chance, in either width.
    Random(&'static str, fn(&mut Chance, Width) -> Texts),
    /// At a limit or over it, of several kinds in turn.
    AtLimit(fn(&mut Chance, usize) -> Case),
}

/// The cases from 1 to this number are for `check`, `sum` and `merge`; the others for `spell`.
const BASE: u64 = 210_000;

/// The ways, and how many of a thousand cases in a row are made so.
const BASE_WAYS: [(usize, Way); 18] = [
    (131, Way::Random("a typing", checks::typing)),
    (15, Way::Random("a typing that is a chain of all roles", checks::chain)),
    (192, Way::Random("a trace", checks::trace)),
    (130, Way::Random("a damaged policy or evidence", damaged::check)),
    (60, Way::Random("a damaged trace", damaged::trace)),
    (55, Way::Random("a sum", sums::sum)),
    (95, Way::Random("a damaged sum", damaged::sum)),
    (134, Way::Random("a merge", merges::merge)),
    (114, Way::Random("a damaged merge", damaged::merge)),
    (30, Way::Random("a merge over two grounds", merges::two_grounds)),
    (3, Way::Random("a text of another kind", damaged::another_kind)),
    (9, Way::AtLimit(spellings::names)),
    (4, Way::AtLimit(spellings::digits)),
    (5, Way::AtLimit(counts::count)),
    (1, Way::AtLimit(counts::all_counts)),
    (3, Way::AtLimit(counts::joint_count)),
    (14, Way::AtLimit(joins::names)),
    (5, Way::AtLimit(lengths::length)),
];

/// The same for `spell`.
const SPELL_WAYS: [(usize, Way); 6] = [
    (490, Way::Random("a policy to be spelt", reorderings::spell)),
    (445, Way::Random("a damaged policy to be spelt", damaged::spell)),
    (40, Way::AtLimit(counts::spelt_count)),
    (5, Way::AtLimit(counts::all_counts_spelt)),
    (10, Way::AtLimit(lengths::spelt_length)),
    (10, Way::AtLimit(reorderings::full_of_has)),
];

/// One random case in so many is wide.
const WIDE: usize = 3;

/// The case of a number. Way and width go by the number, so that every run of thousands has all of
/// them in the same shares.
pub fn case(chance: &mut Chance, number: u64) -> Case {
    if number <= BASE {
        made_in_turn(chance, &BASE_WAYS, number as usize)
    } else {
        made_in_turn(chance, &SPELL_WAYS, (number - BASE) as usize)
    }
}

fn made_in_turn(chance: &mut Chance, ways: &[(usize, Way)], number: usize) -> Case {
    let all: usize = ways.iter().map(|way| way.0).sum();
    let mut left = number % all;
    for (weight, way) in ways {
        if left < *weight {
            return made(chance, way, number / all * weight + left);
        }
        left -= weight;
    }
    unreachable!("the weights add up")
}

/// The case of a way that was taken so many times before.
fn made(chance: &mut Chance, way: &Way, turn: usize) -> Case {
    match way {
        Way::Random(made, make) => {
            let width = if turn % WIDE == 0 { Width::Wide } else { Width::Narrow };
            Case { made: made, width: width, texts: make(chance, width) }
        }
        Way::AtLimit(make) => make(chance, turn),
    }
}

//! The texts for one call of the library.

/// How many bytes a text may have.
pub const TEXT_LIMIT: usize = 32_768;

pub enum Texts {
    Check { policy: Vec<u8>, evidence: Vec<u8> },
    Sum { policy: Vec<u8>, first: Vec<u8>, second: Vec<u8> },
    Merge { policy_1: Vec<u8>, typing_1: Vec<u8>, policy_2: Vec<u8>, typing_2: Vec<u8> },
    /// The evidence is for `check`, over the policy and its spelling.
    Spell { policy: Vec<u8>, reordered: Vec<u8>, evidence: Vec<u8> },
}

impl Texts {
    /// Every text with its name.
    pub fn named(&self) -> Vec<(&'static str, &Vec<u8>)> {
        match self {
            Texts::Check { policy, evidence } => vec![("policy", policy), ("evidence", evidence)],
            Texts::Sum { policy, first, second } => {
                vec![("policy", policy), ("first", first), ("second", second)]
            }
            Texts::Merge { policy_1, typing_1, policy_2, typing_2 } => vec![
                ("policy_1", policy_1),
                ("typing_1", typing_1),
                ("policy_2", policy_2),
                ("typing_2", typing_2),
            ],
            Texts::Spell { policy, reordered, evidence } => {
                vec![("policy", policy), ("reordered", reordered), ("evidence", evidence)]
            }
        }
    }

    pub fn all(&mut self) -> Vec<&mut Vec<u8>> {
        match self {
            Texts::Check { policy, evidence } => vec![policy, evidence],
            Texts::Sum { policy, first, second } => vec![policy, first, second],
            Texts::Merge { policy_1, typing_1, policy_2, typing_2 } => {
                vec![policy_1, typing_1, policy_2, typing_2]
            }
            Texts::Spell { policy, reordered, evidence } => vec![policy, reordered, evidence],
        }
    }
}

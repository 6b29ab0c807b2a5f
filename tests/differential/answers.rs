//! What the library has to say where the reference has a certain answer.

use crate::reference::{self, Answer, BadLine, Merge, Spelling, Sum};

/// What a call returns where the array is too short.
const NO_ROOM: u64 = 255;

/// What a call returns where the memory is too short.
const NO_MEMORY: u64 = 254;

/// How many values each call tells.
pub const CHECK: usize = 5;
pub const BAD_LINE: usize = 2;
pub const SUM: usize = 2;
pub const MERGE: usize = 6;
pub const SPELL: usize = 1;

/// How many words of memory each call needs, and a merge.
pub const MEMORY: usize = 3072;
pub const MERGE_MEMORY: usize = 6144;

pub struct Said {
    /// What the call returns: the answer's number, the text's number or the length of a line.
    pub answered: u64,
    /// What stands at the start of the lent array.
    pub values: Vec<u64>,
    /// What stands at the start of the lent buffer.
    pub text: Vec<u8>,
}

impl Said {
    /// The array is too short.
    pub fn no_room() -> Said {
        Said::values(NO_ROOM, 0, Vec::new())
    }

    /// The memory is too short.
    pub fn no_memory() -> Said {
        Said::values(NO_MEMORY, 0, Vec::new())
    }

    /// The buffer or the memory is too short for a line.
    pub fn no_line() -> Said {
        Said::values(0, 0, Vec::new())
    }

    /// An answer with its values, and zeros past them.
    fn values(answered: u64, width: usize, mut values: Vec<u64>) -> Said {
        values.resize(width, 0);
        Said { answered: answered, values: values, text: Vec::new() }
    }

    pub fn check(answer: &Answer) -> Said {
        let (number, values) = match *answer {
            Answer::Safe { roles, assigns, revokes, goals, pinned } => {
                (0, vec![roles, assigns, revokes, goals, pinned])
            }
            Answer::Attacked { steps, user, goal, .. } => (1, vec![steps, user + 1, goal]),
            Answer::Unproved { part, number } => (2, vec![part + 1, number]),
            Answer::Broken { step } => (3, vec![step]),
            Answer::Short { steps } => (4, vec![steps]),
            Answer::Refused { number, line } => (number, vec![line]),
        };
        Said::values(number, CHECK, values)
    }

    pub fn line(answer: &Answer) -> Said {
        let mut line = reference::line(answer);
        line.push(b'\n');
        Said { answered: line.len() as u64, values: Vec::new(), text: line }
    }

    pub fn bad_line(bad: &BadLine) -> Said {
        let text = if bad.in_evidence { 2 } else { 1 };
        Said::values(text, BAD_LINE, vec![bad.offset as u64, bad.length as u64])
    }

    pub fn sum(answer: &Sum) -> Said {
        match *answer {
            Sum::Done { pinned, length, ref text } => {
                Said { text: text.clone(), ..Said::values(0, SUM, vec![pinned, length]) }
            }
            Sum::Refused { number, line, which } => Said::values(number, SUM, vec![which, line]),
        }
    }

    pub fn merge(answer: &Merge) -> Said {
        match *answer {
            Merge::Done { roles, assigns, revokes, goals, pinned, length, ref text } => {
                let values = vec![roles, assigns, revokes, goals, pinned, length];
                Said { text: text.clone(), ..Said::values(0, MERGE, values) }
            }
            Merge::Unproved { part, number, which } => {
                Said::values(2, MERGE, vec![which, part + 1, number])
            }
            Merge::Refused { number, line, which } => {
                Said::values(number, MERGE, vec![which, line])
            }
        }
    }

    pub fn spell(answer: &Spelling) -> Said {
        match *answer {
            Spelling::Done { length, ref text } => {
                Said { text: text.clone(), ..Said::values(0, SPELL, vec![length]) }
            }
            Spelling::Refused { number, line } => Said::values(number, SPELL, vec![line]),
        }
    }
}

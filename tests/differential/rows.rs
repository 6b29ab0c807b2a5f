//! The row of the table that an answer counts in.

use crate::reference::{self, Answer, BadLine, Merge, Spelling, Sum};

pub fn check(policy: &[u8], evidence: &[u8], answer: &Answer) -> &'static str {
    match answer {
        Answer::Safe { .. } => "check 0 SAFE",
        Answer::Attacked { user: 63, .. } => "check 1 ATTACKED, the user of number 64",
        Answer::Attacked { user_name, .. } if speaks(&lines(evidence), b"join", user_name) => {
            "check 1 ATTACKED, a joiner"
        }
        Answer::Attacked { .. } => "check 1 ATTACKED, a listed user",
        Answer::Unproved { part, .. } => [
            "check 2 UNPROVED holdings",
            "check 2 UNPROVED assign",
            "check 2 UNPROVED revoke",
            "check 2 UNPROVED goal",
        ][*part as usize],
        Answer::Broken { step } => broken(&lines(evidence), *step as usize),
        Answer::Short { .. } => short(policy, evidence),
        Answer::Refused { number, line } => match number {
            10 => "check 10",
            11 => "check 11",
            12 => "check 12",
            13 => "check 13",
            14 => "check 14",
            15 => malformed(evidence, *line as usize),
            16 => unknown(evidence, *line as usize),
            21 => "check 21",
            _ => panic!("the documents have no such answer of check"),
        },
    }
}

fn is_trace(evidence: &[u8]) -> bool {
    evidence.starts_with(b"trace\t1\n")
}

/// The fields of each line.
type Lines<'a> = Vec<Vec<&'a [u8]>>;

fn lines(text: &[u8]) -> Lines<'_> {
    let fields = |line| <[u8]>::split(line, |&byte| byte == b'\t').collect();
    text.split(|&byte| byte == b'\n').map(fields).collect()
}

/// Whether one of these lines is a join or a leave of this name.
fn speaks(lines: &[Vec<&[u8]>], kind: &[u8], name: &[u8]) -> bool {
    lines.iter().any(|line| line[0] == kind && line.len() > 1 && line[1] == name)
}

/// The row for the step of this number, which is none.
fn broken(lines: &Lines, step: usize) -> &'static str {
    // the first line of a trace has number 0 here
    let above = &lines[..step];
    let joined = |name| speaks(above, b"join", name);
    let left = |name| speaks(above, b"leave", name);
    match lines[step].as_slice() {
        [b"join", name, _] if left(name) => "check 3 BROKEN, a join of somebody who left",
        [b"join", name, _] if joined(name) => "check 3 BROKEN, a join of a joiner",
        [b"join", ..] => "check 3 BROKEN, a join of a listed user",
        [b"leave", _] => "check 3 BROKEN, a leave",
        [_, actor, ..] if left(actor) => "check 3 BROKEN, a step by somebody who left",
        [_, _, _, user] if left(user) => "check 3 BROKEN, a step on somebody who left",
        [b"assign", ..] => "check 3 BROKEN, an assign step",
        _ => "check 3 BROKEN, a revoke step",
    }
}

fn short(policy: &[u8], evidence: &[u8]) -> &'static str {
    let lines = lines(evidence);
    let is_there = |kind: &[u8]| lines.iter().any(|line| line[0] == kind);
    match reference::check(policy, &with_low_joiners(&lines)) {
        Answer::Attacked { .. } => "check 4 SHORT, a joiner of clearance H holds a goal",
        _ if is_there(b"leave") => "check 4 SHORT, somebody leaves",
        _ if is_there(b"join") => "check 4 SHORT, somebody joins and nobody leaves",
        _ => "check 4 SHORT, nobody joins or leaves",
    }
}

/// A trace in which everybody who joins is L.
fn with_low_joiners(lines: &Lines) -> Vec<u8> {
    let low = |line: &Vec<&[u8]>| match line.as_slice() {
        [b"join", name, _] => [b"join", *name, b"L"].join(&b'\t'),
        _ => line.join(&b'\t'),
    };
    lines.iter().map(low).collect::<Vec<_>>().join(&b'\n')
}

/// The row for evidence that is malformed at the line of this number.
fn malformed(evidence: &[u8], number: usize) -> &'static str {
    match lines(evidence)[number - 1][0] {
        b"join" if is_trace(evidence) => "check 15, a join line",
        b"leave" if is_trace(evidence) => "check 15, a leave line",
        _ => "check 15, another line",
    }
}

/// The row for evidence with an unknown name at the line of this number.
fn unknown(evidence: &[u8], number: usize) -> &'static str {
    let lines = lines(evidence);
    let joins_below = |name: &&[u8]| speaks(&lines[number..], b"join", name);
    if is_trace(evidence) && lines[number - 1].iter().any(joins_below) {
        "check 16, a name above its join line"
    } else {
        "check 16, another line"
    }
}

pub fn bad_line(answer: &Answer, bad: &BadLine) -> &'static str {
    match answer {
        Answer::Refused { line: 0, .. } => "no bad line: a text is too long",
        Answer::Refused { number: 21, .. } => "no bad line: a user name too many",
        Answer::Refused { .. }
            if *bad == (BadLine { in_evidence: false, offset: 0, length: 0 }) =>
        {
            "no bad line: end is missing"
        }
        Answer::Refused { .. } if bad.in_evidence => "bad line in the evidence",
        Answer::Refused { .. } => "bad line in the policy",
        _ => "no bad line: a verdict",
    }
}

pub fn bad_typing_line(typing: &[u8], bad: &BadLine) -> &'static str {
    match bad {
        BadLine { in_evidence: true, .. } if is_trace(typing) => "a trace where a typing is wanted",
        BadLine { in_evidence: true, .. } => "bad line where a typing is wanted",
        BadLine { offset: 0, length: 0, .. } => "no bad line where a typing is wanted",
        _ => "bad line in the policy where a typing is wanted",
    }
}

pub fn sum(answer: &Sum) -> &'static str {
    match answer {
        Sum::Done { .. } => "sum 0",
        Sum::Refused { number, which, .. } => match (which, number) {
            (1, 10) => "sum 10, policy",
            (1, 11) => "sum 11, policy",
            (1, 12) => "sum 12, policy",
            (1, 13) => "sum 13, policy",
            (2, 14) => "sum 14, first typing",
            (2, 15) => "sum 15, first typing",
            (2, 16) => "sum 16, first typing",
            (3, 14) => "sum 14, second typing",
            (3, 15) => "sum 15, second typing",
            (3, 16) => "sum 16, second typing",
            (0, 18) => "sum 18",
            _ => panic!("document 01 has no such answer of sum"),
        },
    }
}

pub fn merge(answer: &Merge) -> &'static str {
    match answer {
        Merge::Done { .. } => "merge 0",
        Merge::Unproved { which, part, .. } => match (which, part) {
            (1, 0) => "merge 2, typing one on policy one, holdings",
            (1, 1) => "merge 2, typing one on policy one, assign",
            (1, 2) => "merge 2, typing one on policy one, revoke",
            (1, 3) => "merge 2, typing one on policy one, goal",
            (2, 0) => "merge 2, typing two on policy two, holdings",
            (2, 1) => "merge 2, typing two on policy two, assign",
            (2, 2) => "merge 2, typing two on policy two, revoke",
            (2, 3) => "merge 2, typing two on policy two, goal",
            (3, 1) => "merge 2, typing one on rules two, assign",
            (3, 2) => "merge 2, typing one on rules two, revoke",
            (4, 1) => "merge 2, typing two on rules one, assign",
            (4, 2) => "merge 2, typing two on rules one, revoke",
            _ => panic!("document 01 has no such failure of merge"),
        },
        Merge::Refused { number, which, .. } => match (which, number) {
            (1, 10) => "merge 10, policy one",
            (1, 11) => "merge 11, policy one",
            (1, 12) => "merge 12, policy one",
            (1, 13) => "merge 13, policy one",
            (2, 14) => "merge 14, typing one",
            (2, 15) => "merge 15, typing one",
            (2, 16) => "merge 16, typing one",
            (3, 10) => "merge 10, policy two",
            (3, 11) => "merge 11, policy two",
            (3, 12) => "merge 12, policy two",
            (3, 13) => "merge 13, policy two",
            (4, 14) => "merge 14, typing two",
            (4, 15) => "merge 15, typing two",
            (4, 16) => "merge 16, typing two",
            (0, 17) => "merge 17",
            (0, 18) => "merge 18",
            (0, 19) => "merge 19",
            _ => panic!("document 01 has no such answer of merge"),
        },
    }
}

pub fn spell(policy: &[u8], answer: &Spelling) -> &'static str {
    match answer {
        Spelling::Done { text, .. } if text == policy => "spell 0, the text itself",
        Spelling::Done { .. } => "spell 0, another text",
        Spelling::Refused { number, .. } => match number {
            10 => "spell 10",
            11 => "spell 11",
            12 => "spell 12",
            13 => "spell 13",
            20 => "spell 20",
            _ => panic!("document 02 has no such answer of spell"),
        },
    }
}

//! The table of what was compared: how often each kind of answer, buffer, memory and making
//! occurred, and how often over 63 to 128 roles.

use std::collections::BTreeMap;

use crate::making::widening::Width;

/// How often each row has to occur in a whole run.
const WANTED: u64 = 100;

/// How often over 63 to 128 roles.
const WANTED_WIDE: u64 = 50;

/// Rows under a heading.
struct Section {
    heading: &'static str,
    /// Whether the rows occur in both widths.
    either_width: bool,
    rows: &'static [&'static str],
}

/// Every row of the table.
const SECTIONS: [Section; 9] = [
    Section {
        heading: "Answers of check",
        either_width: true,
        rows: &[
            "check 0 SAFE",
            "check 1 ATTACKED, a listed user",
            "check 1 ATTACKED, a joiner",
            "check 1 ATTACKED, the user of number 64",
            "check 2 UNPROVED holdings",
            "check 2 UNPROVED assign",
            "check 2 UNPROVED revoke",
            "check 2 UNPROVED goal",
            "check 3 BROKEN, an assign step",
            "check 3 BROKEN, a revoke step",
            "check 3 BROKEN, a step by somebody who left",
            "check 3 BROKEN, a step on somebody who left",
            "check 3 BROKEN, a join of a listed user",
            "check 3 BROKEN, a join of a joiner",
            "check 3 BROKEN, a join of somebody who left",
            "check 3 BROKEN, a leave",
            "check 4 SHORT, nobody joins or leaves",
            "check 4 SHORT, somebody joins and nobody leaves",
            "check 4 SHORT, somebody leaves",
            "check 4 SHORT, a joiner of clearance H holds a goal",
            "check 10",
            "check 11",
            "check 12",
            "check 13",
            "check 14",
            "check 15, a join line",
            "check 15, a leave line",
            "check 15, another line",
            "check 16, a name above its join line",
            "check 16, another line",
            "check 21",
        ],
    },
    Section {
        heading: "Bad lines",
        either_width: true,
        rows: &[
            "bad line in the policy",
            "bad line in the evidence",
            "no bad line: end is missing",
            "no bad line: a text is too long",
            "no bad line: a user name too many",
            "no bad line: a verdict",
            "bad line in the policy where a typing is wanted",
            "bad line where a typing is wanted",
            "a trace where a typing is wanted",
            "no bad line where a typing is wanted",
        ],
    },
    Section {
        heading: "Answers of sum",
        either_width: true,
        rows: &[
            "sum 0",
            "sum 10, policy",
            "sum 11, policy",
            "sum 12, policy",
            "sum 13, policy",
            "sum 14, first typing",
            "sum 15, first typing",
            "sum 16, first typing",
            "sum 14, second typing",
            "sum 15, second typing",
            "sum 16, second typing",
            "sum 18",
        ],
    },
    Section {
        heading: "Answers of merge",
        either_width: true,
        rows: &[
            "merge 0",
            "merge 2, typing one on policy one, holdings",
            "merge 2, typing one on policy one, assign",
            "merge 2, typing one on policy one, revoke",
            "merge 2, typing one on policy one, goal",
            "merge 2, typing two on policy two, holdings",
            "merge 2, typing two on policy two, assign",
            "merge 2, typing two on policy two, revoke",
            "merge 2, typing two on policy two, goal",
            "merge 2, typing one on rules two, assign",
            "merge 2, typing one on rules two, revoke",
            "merge 2, typing two on rules one, assign",
            "merge 2, typing two on rules one, revoke",
            "merge 10, policy one",
            "merge 11, policy one",
            "merge 12, policy one",
            "merge 13, policy one",
            "merge 14, typing one",
            "merge 15, typing one",
            "merge 16, typing one",
            "merge 10, policy two",
            "merge 11, policy two",
            "merge 12, policy two",
            "merge 13, policy two",
            "merge 14, typing two",
            "merge 15, typing two",
            "merge 16, typing two",
            "merge 17",
            "merge 18",
            "merge 19",
        ],
    },
    Section {
        heading: "Answers of spell",
        either_width: true,
        rows: &[
            "spell 0, the text itself",
            "spell 0, another text",
            "spell 10",
            "spell 11",
            "spell 12",
            "spell 13",
            "spell 20",
            "a policy in another order, spelt alike",
            "a refused policy in another order",
            "a spelling that is spelt again",
            "a spelling that is checked",
        ],
    },
    Section {
        heading: "Lent buffers and arrays",
        either_width: true,
        rows: &[
            "line buffer exact",
            "line buffer longer",
            "line buffer one byte short",
            "line buffer shorter",
            "line buffer empty",
            "sum buffer exact",
            "sum buffer longer",
            "sum buffer one byte short",
            "sum buffer shorter",
            "sum buffer empty",
            "merge buffer exact",
            "merge buffer longer",
            "merge buffer one byte short",
            "merge buffer shorter",
            "merge buffer empty",
            "spell buffer exact",
            "spell buffer longer",
            "spell buffer one byte short",
            "spell buffer shorter",
            "spell buffer empty",
            "check array one number short",
            "check array shorter",
            "bad line array one number short",
            "bad line array shorter",
            "bad typing line array one number short",
            "bad typing line array shorter",
            "sum array one number short",
            "sum array shorter",
            "merge array one number short",
            "merge array shorter",
            "spell array empty",
        ],
    },
    Section {
        heading: "Lent memory",
        either_width: true,
        rows: &[
            "check memory exact",
            "check memory longer",
            "check memory one word short",
            "check memory shorter",
            "check memory empty",
            "line memory exact",
            "line memory longer",
            "line memory one word short",
            "line memory shorter",
            "line memory empty",
            "bad line memory exact",
            "bad line memory longer",
            "bad line memory one word short",
            "bad line memory shorter",
            "bad line memory empty",
            "bad typing line memory exact",
            "bad typing line memory longer",
            "bad typing line memory one word short",
            "bad typing line memory shorter",
            "bad typing line memory empty",
            "sum memory exact",
            "sum memory longer",
            "sum memory one word short",
            "sum memory shorter",
            "sum memory empty",
            "merge memory exact",
            "merge memory longer",
            "merge memory one word short",
            "merge memory shorter",
            "merge memory empty",
            "spell memory exact",
            "spell memory longer",
            "spell memory one word short",
            "spell memory shorter",
            "spell memory empty",
            "check array too short beside memory",
            "bad line array too short beside memory",
            "bad typing line array too short beside memory",
            "sum array too short beside memory",
            "merge array too short beside memory",
            "spell array too short beside memory",
        ],
    },
    Section {
        heading: "Cases made at random",
        either_width: true,
        rows: &[
            "a typing",
            "a typing that is a chain of all roles",
            "a trace",
            "a damaged policy or evidence",
            "a damaged trace",
            "a sum",
            "a damaged sum",
            "a merge",
            "a damaged merge",
            "a merge over two grounds",
            "a text of another kind",
            "a policy to be spelt",
            "a damaged policy to be spelt",
        ],
    },
    Section {
        heading: "Cases made at and over the limits",
        either_width: false,
        rows: &[
            "128 roles",
            "129 roles",
            "64 users",
            "65 users",
            "64 user names in policy and trace",
            "64 user names in policy and trace, one of which joins again",
            "65 user names in policy and trace",
            "256 assign lines",
            "257 assign lines",
            "256 revoke lines",
            "257 revoke lines",
            "32 goals",
            "33 goals",
            "all counts at their limits",
            "policy of 32,768 bytes",
            "policy of 32,769 bytes",
            "typing of 32,768 bytes",
            "typing of 32,769 bytes",
            "trace of 32,768 bytes",
            "trace of 32,769 bytes",
            "name of 1 byte",
            "name of 32 bytes",
            "name of 33 bytes",
            "number of 1 digit",
            "number of 2 digits",
            "number of 3 digits",
            "number of 4 digits",
            "256 joint assign lines",
            "257 joint assign lines",
            "256 joint revoke lines",
            "257 joint revoke lines",
            "32 joint goals",
            "33 joint goals",
            "sum of 32,768 bytes",
            "sum of 32,769 bytes",
            "merged sum of 32,768 bytes",
            "merged sum of 32,769 bytes",
            "sum buffer with room for a text above 32,768 bytes",
            "merge buffer with room for a text above 32,768 bytes",
            "128 roles to be spelt",
            "129 roles to be spelt",
            "64 users to be spelt",
            "65 users to be spelt",
            "256 assign lines to be spelt",
            "257 assign lines to be spelt",
            "256 revoke lines to be spelt",
            "257 revoke lines to be spelt",
            "32 goals to be spelt",
            "33 goals to be spelt",
            "all counts at their limits, to be spelt",
            "policy of 32,768 bytes to be spelt",
            "policy of 32,769 bytes to be spelt",
            "has lines of 64 users and 128 roles up to 32,768 bytes",
            "has lines of 64 users and 128 roles up to 32,769 bytes",
        ],
    },
];

fn rows() -> impl Iterator<Item = &'static str> {
    SECTIONS.iter().flat_map(|section| section.rows.iter().copied())
}

#[derive(Clone, Copy, Default)]
struct Count {
    all: u64,
    wide: u64,
}

pub struct Tally {
    counts: BTreeMap<&'static str, Count>,
}

impl Tally {
    pub fn new() -> Tally {
        Tally { counts: rows().map(|row| (row, Count::default())).collect() }
    }

    pub fn count(&mut self, row: &'static str, width: Width) {
        let count = self.counts.get_mut(row).expect("a row of the table");
        count.all += 1;
        count.wide += (width == Width::Wide) as u64;
    }

    pub fn add(&mut self, other: &Tally) {
        for (row, count) in &mut self.counts {
            count.all += other.counts[row].all;
            count.wide += other.counts[row].wide;
        }
    }

    pub fn print(&self) {
        for section in &SECTIONS {
            if section.either_width {
                println!("\n| {} | times | of 63 to 128 roles |\n|---|---|---|", section.heading);
            } else {
                println!("\n| {} | times |\n|---|---|", section.heading);
            }
            for row in section.rows {
                let count = self.counts[row];
                if section.either_width {
                    println!("| {} | {} | {} |", row, count.all, count.wide);
                } else {
                    println!("| {} | {} |", row, count.all);
                }
            }
        }
        println!();
    }

    /// The rows that occurred too seldom to say anything.
    pub fn seldom(&self) -> Vec<String> {
        let mut seldom = Vec::new();
        for section in &SECTIONS {
            for row in section.rows {
                let count = self.counts[row];
                if count.all < WANTED {
                    seldom.push(row.to_string());
                } else if section.either_width && count.wide < WANTED_WIDE {
                    seldom.push(format!("{}, of 63 to 128 roles", row));
                }
            }
        }
        seldom
    }
}

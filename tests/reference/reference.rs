//! Document 01 ("What we will build and its rules") and requests 1 and 2 of document 02 ("Later
//! requests from customers") in ordinary Rust, written from their words alone, to be compared with
//! other programs that follow the same documents.
//!
//! Roles, users and rules are known by their place from 0 inside; answers count rules, goals,
//! steps and lines from 1, as the documents do.

use std::collections::{BTreeSet, HashMap, HashSet};

const TEXT_LIMIT: usize = 32_768;
const ROLE_LIMIT: usize = 128;
const USER_LIMIT: usize = 64;
const ASSIGN_LIMIT: usize = 256;
const REVOKE_LIMIT: usize = 256;
const GOAL_LIMIT: usize = 32;
const NAME_LIMIT: usize = 32;

pub const PART_HOLDINGS: u64 = 0;
pub const PART_ASSIGN: u64 = 1;
pub const PART_REVOKE: u64 = 2;
pub const PART_GOAL: u64 = 3;

// ---------------------------------------------------------------------------------------------
// Answers

#[derive(Clone, Debug, PartialEq, Eq)]
pub enum Answer {
    Safe { roles: u64, assigns: u64, revokes: u64, goals: u64, pinned: u64 },
    /// `user` is the place from 0, where users who joined follow the listed ones in order of
    /// joining; `goal` is the number from 1.
    Attacked { steps: u64, user: u64, user_name: Vec<u8>, goal: u64 },
    /// `part`: 0 holdings, 1 assign, 2 revoke, 3 goal.
    Unproved { part: u64, number: u64 },
    Broken { step: u64 },
    Short { steps: u64 },
    Refused { number: u64, line: u64 },
}

/// A part of the policy's bytes or of the evidence's bytes.
#[derive(Clone, Debug, PartialEq, Eq)]
pub struct BadLine {
    pub in_evidence: bool,
    pub offset: usize,
    pub length: usize,
}

/// `which`: 1 policy, 2 first typing, 3 second typing, 0 none.
#[derive(Clone, Debug, PartialEq, Eq)]
pub enum Sum {
    Done { pinned: u64, length: u64, text: Vec<u8> },
    Refused { number: u64, line: u64, which: u64 },
}

/// `which` of `Unproved`: 1 typing one on policy one, 2 typing two on policy two, 3 typing one on
/// rules two, 4 typing two on rules one. `which` of `Refused`: 1 policy one, 2 typing one,
/// 3 policy two, 4 typing two, 0 none.
#[derive(Clone, Debug, PartialEq, Eq)]
pub enum Merge {
    Done {
        roles: u64,
        assigns: u64,
        revokes: u64,
        goals: u64,
        pinned: u64,
        length: u64,
        text: Vec<u8>,
    },
    Unproved { part: u64, number: u64, which: u64 },
    Refused { number: u64, line: u64, which: u64 },
}

#[derive(Clone, Debug, PartialEq, Eq)]
pub enum Spelling {
    Done { length: u64, text: Vec<u8> },
    Refused { number: u64, line: u64 },
}

// ---------------------------------------------------------------------------------------------
// The model

/// A clearance or a label; the order of the cases makes L less than H.
#[derive(Clone, Copy, Debug, PartialEq, Eq, PartialOrd, Ord)]
enum Level {
    L,
    H,
}

type Roles = BTreeSet<usize>;

#[derive(Clone, Debug)]
struct AssignRule {
    admin: usize,
    positive: Roles,
    negative: Roles,
    target: usize,
}

#[derive(Clone, Debug)]
struct RevokeRule {
    admin: usize,
    target: usize,
}

/// The kinds of policy lines, in the order that they must stand in.
#[derive(Clone, Copy, Debug, PartialEq, Eq, PartialOrd, Ord)]
enum Section {
    Role,
    User,
    Has,
    Assign,
    Revoke,
    Goal,
}

#[derive(Clone, Debug)]
struct Policy {
    /// The kind of the last line read.
    section: Section,
    role_names: Vec<Vec<u8>>,
    role_places: HashMap<Vec<u8>, usize>,
    user_names: Vec<Vec<u8>>,
    user_places: HashMap<Vec<u8>, usize>,
    clearances: Vec<Level>,
    /// For each user the roles held at the start.
    holdings: Vec<Roles>,
    assigns: Vec<AssignRule>,
    revokes: Vec<RevokeRule>,
    goals: Vec<Roles>,
}

#[derive(Clone, Debug)]
struct Typing {
    labels: Vec<Level>,
    plus: Vec<Roles>,
    minus: Vec<Roles>,
}

#[derive(Clone, Debug)]
enum Step {
    /// `rule` is the place from 0.
    Assign { actor: usize, rule: usize, user: usize },
    Revoke { actor: usize, rule: usize, user: usize },
    Join { user: usize, clearance: Level },
    Leave { user: usize },
}

#[derive(Clone, Debug)]
struct Trace {
    steps: Vec<Step>,
    /// The names listed, then the others that join lines name, in the order of these lines.
    user_names: Vec<Vec<u8>>,
    user_places: HashMap<Vec<u8>, usize>,
}

enum Evidence {
    Typing(Typing),
    Trace(Trace),
}

// ---------------------------------------------------------------------------------------------
// Lines

#[derive(Clone, Copy, Debug, PartialEq, Eq)]
enum Fault {
    TooLong,
    Malformed,
    Limit,
    Name,
}

/// Why a text is not read, at which line, and the offset and length of that line if it is there.
#[derive(Clone, Debug)]
struct Stop {
    fault: Fault,
    line: u64,
    part: Option<(usize, usize)>,
}

impl Stop {
    fn number_for_policy(&self) -> u64 {
        match self.fault {
            Fault::TooLong => 10,
            Fault::Malformed => 11,
            Fault::Limit => 12,
            Fault::Name => 13,
        }
    }

    fn number_for_evidence(&self) -> u64 {
        match self.fault {
            Fault::TooLong => 14,
            Fault::Malformed => 15,
            Fault::Limit => 21,
            Fault::Name => 16,
        }
    }
}

/// A line without its LF.
struct Line<'a> {
    number: u64,
    offset: usize,
    bytes: &'a [u8],
}

impl<'a> Line<'a> {
    fn stop(&self, fault: Fault) -> Stop {
        Stop { fault: fault, line: self.number, part: Some((self.offset, self.bytes.len())) }
    }
}

/// The lines of a text, handed out one by one.
struct Lines<'a> {
    text: &'a [u8],
    offset: usize,
    number: u64,
}

impl<'a> Lines<'a> {
    /// A text that is too long is refused before any of its lines.
    fn of(text: &'a [u8]) -> Result<Lines<'a>, Stop> {
        if text.len() > TEXT_LIMIT {
            return Err(Stop { fault: Fault::TooLong, line: 0, part: None });
        }
        Ok(Lines { text: text, offset: 0, number: 0 })
    }

    /// The next line. Asked for where the text is at its end, it is the missing `end`; a line
    /// that no LF ends is malformed whatever it says.
    fn next(&mut self) -> Result<Line<'a>, Stop> {
        self.number += 1;
        let rest = &self.text[self.offset..];
        if rest.is_empty() {
            return Err(Stop { fault: Fault::Malformed, line: self.number, part: None });
        }
        match rest.iter().position(|&byte| byte == b'\n') {
            None => {
                let line = Line { number: self.number, offset: self.offset, bytes: rest };
                Err(line.stop(Fault::Malformed))
            }
            Some(length) => {
                let line =
                    Line { number: self.number, offset: self.offset, bytes: &rest[..length] };
                self.offset += length + 1;
                Ok(line)
            }
        }
    }

    /// To be asked after the line `end`: any further byte makes a malformed line.
    fn nothing_more(mut self) -> Result<(), Stop> {
        if self.offset == self.text.len() {
            return Ok(());
        }
        match self.next() {
            Ok(line) => Err(line.stop(Fault::Malformed)),
            Err(stop) => Err(stop),
        }
    }
}

// ---------------------------------------------------------------------------------------------
// Fields

/// The first field of a line.
fn keyword(bytes: &[u8]) -> &[u8] {
    bytes.split(|&byte| byte == b'\t').next().unwrap_or(b"")
}

/// The fields of a line, which must be `count` in number.
fn fields(bytes: &[u8], count: usize) -> Result<Vec<&[u8]>, Fault> {
    let fields: Vec<&[u8]> = bytes.split(|&byte| byte == b'\t').collect();
    if fields.len() == count {
        Ok(fields)
    } else {
        Err(Fault::Malformed)
    }
}

fn read_name(field: &[u8]) -> Result<&[u8], Fault> {
    let good_length = 1 <= field.len() && field.len() <= NAME_LIMIT;
    let good_bytes = field.iter().all(|&byte| byte.is_ascii_alphanumeric() || byte == b'_');
    if good_length && good_bytes {
        Ok(field)
    } else {
        Err(Fault::Malformed)
    }
}

fn read_level(field: &[u8]) -> Result<Level, Fault> {
    match field {
        b"L" => Ok(Level::L),
        b"H" => Ok(Level::H),
        _ => Err(Fault::Malformed),
    }
}

/// The names of a set, declared or not; a repeat is malformed.
fn read_set(field: &[u8]) -> Result<Vec<&[u8]>, Fault> {
    if field == b"-" {
        return Ok(Vec::new());
    }
    let mut names = Vec::new();
    let mut seen = HashSet::new();
    for part in field.split(|&byte| byte == b',') {
        let name = read_name(part)?;
        if !seen.insert(name) {
            return Err(Fault::Malformed);
        }
        names.push(name);
    }
    Ok(names)
}

/// A rule number from 1 to 999.
fn read_number(field: &[u8]) -> Result<usize, Fault> {
    let good_length = 1 <= field.len() && field.len() <= 3;
    if !good_length || !field.iter().all(|byte| byte.is_ascii_digit()) || field[0] == b'0' {
        return Err(Fault::Malformed);
    }
    Ok(field.iter().fold(0, |value, &digit| value * 10 + (digit - b'0') as usize))
}

// ---------------------------------------------------------------------------------------------
// The policy text

impl Policy {
    fn empty() -> Policy {
        Policy {
            section: Section::Role,
            role_names: Vec::new(),
            role_places: HashMap::new(),
            user_names: Vec::new(),
            user_places: HashMap::new(),
            clearances: Vec::new(),
            holdings: Vec::new(),
            assigns: Vec::new(),
            revokes: Vec::new(),
            goals: Vec::new(),
        }
    }

    fn role(&self, name: &[u8]) -> Result<usize, Fault> {
        self.role_places.get(name).copied().ok_or(Fault::Name)
    }

    fn user(&self, name: &[u8]) -> Result<usize, Fault> {
        self.user_places.get(name).copied().ok_or(Fault::Name)
    }

    fn roles(&self, names: &[&[u8]]) -> Result<Roles, Fault> {
        names.iter().map(|name| self.role(name)).collect()
    }

    /// Takes in one line between the first line and `end`. In each kind everything that can be
    /// malformed comes first, then the count limit, then the declared names.
    fn take(&mut self, bytes: &[u8]) -> Result<(), Fault> {
        let section = match keyword(bytes) {
            b"role" => Section::Role,
            b"user" => Section::User,
            b"has" => Section::Has,
            b"assign" => Section::Assign,
            b"revoke" => Section::Revoke,
            b"goal" => Section::Goal,
            _ => return Err(Fault::Malformed),
        };
        if section < self.section {
            return Err(Fault::Malformed);
        }
        self.section = section;
        match section {
            Section::Role => self.take_role(bytes),
            Section::User => self.take_user(bytes),
            Section::Has => self.take_has(bytes),
            Section::Assign => self.take_assign(bytes),
            Section::Revoke => self.take_revoke(bytes),
            Section::Goal => self.take_goal(bytes),
        }
    }

    fn take_role(&mut self, bytes: &[u8]) -> Result<(), Fault> {
        let fields = fields(bytes, 2)?;
        let name = read_name(fields[1])?;
        if self.role_places.contains_key(name) {
            return Err(Fault::Malformed);
        }
        if self.role_names.len() == ROLE_LIMIT {
            return Err(Fault::Limit);
        }
        self.role_places.insert(name.to_vec(), self.role_names.len());
        self.role_names.push(name.to_vec());
        Ok(())
    }

    fn take_user(&mut self, bytes: &[u8]) -> Result<(), Fault> {
        let fields = fields(bytes, 3)?;
        let name = read_name(fields[1])?;
        let clearance = read_level(fields[2])?;
        if self.user_places.contains_key(name) {
            return Err(Fault::Malformed);
        }
        if self.user_names.len() == USER_LIMIT {
            return Err(Fault::Limit);
        }
        self.user_places.insert(name.to_vec(), self.user_names.len());
        self.user_names.push(name.to_vec());
        self.clearances.push(clearance);
        self.holdings.push(Roles::new());
        Ok(())
    }

    /// A pair can only be a repeat when both of its names are declared, so finding the repeat
    /// after the names gives the same answer as finding it before.
    fn take_has(&mut self, bytes: &[u8]) -> Result<(), Fault> {
        let fields = fields(bytes, 3)?;
        let user_name = read_name(fields[1])?;
        let role_name = read_name(fields[2])?;
        let user = self.user(user_name)?;
        let role = self.role(role_name)?;
        if !self.holdings[user].insert(role) {
            return Err(Fault::Malformed);
        }
        Ok(())
    }

    fn take_assign(&mut self, bytes: &[u8]) -> Result<(), Fault> {
        let fields = fields(bytes, 5)?;
        let admin = read_name(fields[1])?;
        let positive = read_set(fields[2])?;
        let negative = read_set(fields[3])?;
        let target = read_name(fields[4])?;
        if self.assigns.len() == ASSIGN_LIMIT {
            return Err(Fault::Limit);
        }
        let rule = AssignRule {
            admin: self.role(admin)?,
            positive: self.roles(&positive)?,
            negative: self.roles(&negative)?,
            target: self.role(target)?,
        };
        self.assigns.push(rule);
        Ok(())
    }

    fn take_revoke(&mut self, bytes: &[u8]) -> Result<(), Fault> {
        let fields = fields(bytes, 3)?;
        let admin = read_name(fields[1])?;
        let target = read_name(fields[2])?;
        if self.revokes.len() == REVOKE_LIMIT {
            return Err(Fault::Limit);
        }
        let rule = RevokeRule { admin: self.role(admin)?, target: self.role(target)? };
        self.revokes.push(rule);
        Ok(())
    }

    fn take_goal(&mut self, bytes: &[u8]) -> Result<(), Fault> {
        let fields = fields(bytes, 2)?;
        let goal = read_set(fields[1])?;
        if goal.is_empty() {
            return Err(Fault::Malformed);
        }
        if self.goals.len() == GOAL_LIMIT {
            return Err(Fault::Limit);
        }
        let goal = self.roles(&goal)?;
        self.goals.push(goal);
        Ok(())
    }
}

fn read_policy(text: &[u8]) -> Result<Policy, Stop> {
    let mut lines = Lines::of(text)?;
    let first = lines.next()?;
    if first.bytes != b"arbac\t1" {
        return Err(first.stop(Fault::Malformed));
    }
    let mut policy = Policy::empty();
    loop {
        let line = lines.next()?;
        if line.bytes == b"end" {
            if policy.goals.is_empty() {
                return Err(line.stop(Fault::Malformed));
            }
            lines.nothing_more()?;
            return Ok(policy);
        }
        policy.take(line.bytes).map_err(|fault| line.stop(fault))?;
    }
}

// ---------------------------------------------------------------------------------------------
// The evidence texts

fn read_evidence(policy: &Policy, text: &[u8]) -> Result<Evidence, Stop> {
    let mut lines = Lines::of(text)?;
    let first = lines.next()?;
    match first.bytes {
        b"typing\t1" => read_typing_after_first(policy, lines).map(Evidence::Typing),
        b"trace\t1" => read_trace_after_first(policy, lines).map(Evidence::Trace),
        _ => Err(first.stop(Fault::Malformed)),
    }
}

/// Where only a typing will do.
fn read_typing(policy: &Policy, text: &[u8]) -> Result<Typing, Stop> {
    let mut lines = Lines::of(text)?;
    let first = lines.next()?;
    if first.bytes != b"typing\t1" {
        return Err(first.stop(Fault::Malformed));
    }
    read_typing_after_first(policy, lines)
}

fn read_typing_after_first(policy: &Policy, mut lines: Lines) -> Result<Typing, Stop> {
    let mut typing = Typing { labels: Vec::new(), plus: Vec::new(), minus: Vec::new() };
    for role_name in &policy.role_names {
        // An `end` too early has one field and not four.
        let line = lines.next()?;
        let (label, plus, minus) = read_role_line(policy, role_name, line.bytes)
            .map_err(|fault| line.stop(fault))?;
        typing.labels.push(label);
        typing.plus.push(plus);
        typing.minus.push(minus);
    }
    let last = lines.next()?;
    if last.bytes != b"end" {
        return Err(last.stop(Fault::Malformed));
    }
    lines.nothing_more()?;
    Ok(typing)
}

fn read_role_line(
    policy: &Policy,
    role_name: &[u8],
    bytes: &[u8],
) -> Result<(Level, Roles, Roles), Fault> {
    let fields = fields(bytes, 4)?;
    let name = read_name(fields[0])?;
    let label = read_level(fields[1])?;
    let plus = read_set(fields[2])?;
    let minus = read_set(fields[3])?;
    if name != role_name {
        return Err(Fault::Name);
    }
    Ok((label, policy.roles(&plus)?, policy.roles(&minus)?))
}

fn read_trace_after_first(policy: &Policy, mut lines: Lines) -> Result<Trace, Stop> {
    let mut trace = Trace::empty(policy);
    loop {
        let line = lines.next()?;
        if line.bytes == b"end" {
            lines.nothing_more()?;
            return Ok(trace);
        }
        trace.take(policy, line.bytes).map_err(|fault| line.stop(fault))?;
    }
}

impl Trace {
    fn empty(policy: &Policy) -> Trace {
        Trace {
            steps: Vec::new(),
            user_names: policy.user_names.clone(),
            user_places: policy.user_places.clone(),
        }
    }

    /// The place of a name that is listed or joined on a line above, whatever the run does there.
    fn user(&self, name: &[u8]) -> Result<usize, Fault> {
        self.user_places.get(name).copied().ok_or(Fault::Name)
    }

    /// Takes in one line between the first line and `end`.
    fn take(&mut self, policy: &Policy, bytes: &[u8]) -> Result<(), Fault> {
        let step = match keyword(bytes) {
            b"assign" => {
                let (actor, rule, user) = self.read_rule_step(bytes, policy.assigns.len())?;
                Step::Assign { actor: actor, rule: rule, user: user }
            }
            b"revoke" => {
                let (actor, rule, user) = self.read_rule_step(bytes, policy.revokes.len())?;
                Step::Revoke { actor: actor, rule: rule, user: user }
            }
            b"join" => self.read_join(bytes)?,
            b"leave" => {
                let fields = fields(bytes, 2)?;
                Step::Leave { user: self.user(read_name(fields[1])?)? }
            }
            _ => return Err(Fault::Malformed),
        };
        self.steps.push(step);
        Ok(())
    }

    /// Actor, rule and user of a step under one of so many rules.
    fn read_rule_step(&self, bytes: &[u8], rules: usize) -> Result<(usize, usize, usize), Fault> {
        let fields = fields(bytes, 4)?;
        let actor = read_name(fields[1])?;
        let number = read_number(fields[2])?;
        let user = read_name(fields[3])?;
        let actor = self.user(actor)?;
        let user = self.user(user)?;
        if number > rules {
            return Err(Fault::Name);
        }
        Ok((actor, number - 1, user))
    }

    /// A name that is not known becomes so, up to the limit for policy and trace together.
    fn read_join(&mut self, bytes: &[u8]) -> Result<Step, Fault> {
        let fields = fields(bytes, 3)?;
        let name = read_name(fields[1])?;
        let clearance = read_level(fields[2])?;
        if let Ok(known) = self.user(name) {
            return Ok(Step::Join { user: known, clearance: clearance });
        }
        let user = self.user_names.len();
        if user == USER_LIMIT {
            return Err(Fault::Limit);
        }
        self.user_places.insert(name.to_vec(), user);
        self.user_names.push(name.to_vec());
        Ok(Step::Join { user: user, clearance: clearance })
    }
}

// ---------------------------------------------------------------------------------------------
// Judging a typing

/// A typing with what the rules ask of it again and again.
struct Judge<'a> {
    typing: &'a Typing,
    /// For each role the roles that have it in their plus set.
    in_plus_of: Vec<Roles>,
    /// For each role the roles that have it in their minus set.
    in_minus_of: Vec<Roles>,
}

struct Closure {
    held: Roles,
    absent: Roles,
}

impl Closure {
    fn clashes(&self) -> bool {
        !self.held.is_disjoint(&self.absent)
    }
}

fn turned(sets: &[Roles]) -> Vec<Roles> {
    let mut result = vec![Roles::new(); sets.len()];
    for (owner, set) in sets.iter().enumerate() {
        for &member in set {
            result[member].insert(owner);
        }
    }
    result
}

impl<'a> Judge<'a> {
    fn of(typing: &'a Typing) -> Judge<'a> {
        Judge {
            typing: typing,
            in_plus_of: turned(&typing.plus),
            in_minus_of: turned(&typing.minus),
        }
    }

    fn consistent(&self, role: usize) -> bool {
        self.typing.plus[role].is_disjoint(&self.typing.minus[role])
    }

    /// The least pair with the given one in it that obeys (a), (b) and (c): each role that enters
    /// one of the two sets is looked at once, and brings in what the clauses demand for it.
    fn closure(&self, held: &Roles, absent: &Roles) -> Closure {
        let mut result = Closure { held: Roles::new(), absent: Roles::new() };
        let mut held_to_do: Vec<usize> = held.iter().copied().collect();
        let mut absent_to_do: Vec<usize> = absent.iter().copied().collect();
        loop {
            if let Some(role) = held_to_do.pop() {
                if result.held.insert(role) {
                    held_to_do.extend(&self.typing.plus[role]);
                    absent_to_do.extend(&self.typing.minus[role]);
                }
            } else if let Some(role) = absent_to_do.pop() {
                if result.absent.insert(role) {
                    absent_to_do.extend(&self.in_plus_of[role]);
                }
            } else {
                return result;
            }
        }
    }

    fn user_passes(&self, clearance: Level, holds: &Roles) -> bool {
        holds.iter().all(|&role| {
            self.typing.labels[role] <= clearance
                && self.typing.minus[role].is_disjoint(holds)
                && self.typing.plus[role].is_subset(holds)
        })
    }

    fn assign_passes(&self, rule: &AssignRule) -> bool {
        if !self.consistent(rule.admin) {
            return true;
        }
        let target = rule.target;
        let mut without = rule.negative.clone();
        without.insert(target);
        let closure = self.closure(&rule.positive, &without);
        if closure.clashes() {
            return true;
        }

        let highest =
            closure.held.iter().map(|&role| self.typing.labels[role]).max().unwrap_or(Level::L);
        let label_fits = self.typing.labels[target] <= highest;

        let nobody_forbids = self.in_minus_of[target].is_subset(&closure.absent);

        let mut absent_others = closure.absent.clone();
        absent_others.remove(&target);
        let minus_fits = self.typing.minus[target].is_subset(&absent_others);

        let mut held_after = closure.held.clone();
        held_after.insert(target);
        let plus_fits = self.typing.plus[target].is_subset(&held_after);

        label_fits && nobody_forbids && minus_fits && plus_fits
    }

    fn revoke_passes(&self, rule: &RevokeRule) -> bool {
        !self.consistent(rule.admin)
            || self.in_plus_of[rule.target].iter().all(|&role| role == rule.target)
    }

    fn goal_passes(&self, goal: &Roles) -> bool {
        let closure = self.closure(goal, &Roles::new());
        closure.held.iter().any(|&role| self.typing.labels[role] == Level::H) || closure.clashes()
    }

    /// Part and number of the first assign rule or revoke rule that does not pass.
    fn first_bad_rule(&self, policy: &Policy) -> Option<(u64, u64)> {
        if let Some(place) = policy.assigns.iter().position(|rule| !self.assign_passes(rule)) {
            return Some((PART_ASSIGN, place as u64 + 1));
        }
        if let Some(place) = policy.revokes.iter().position(|rule| !self.revoke_passes(rule)) {
            return Some((PART_REVOKE, place as u64 + 1));
        }
        None
    }

    /// Part and number of the first failure on a whole policy; nothing if it is accepted.
    fn first_failure(&self, policy: &Policy) -> Option<(u64, u64)> {
        for (place, holds) in policy.holdings.iter().enumerate() {
            if !self.user_passes(policy.clearances[place], holds) {
                return Some((PART_HOLDINGS, place as u64 + 1));
            }
        }
        if let Some(failure) = self.first_bad_rule(policy) {
            return Some(failure);
        }
        if let Some(place) = policy.goals.iter().position(|goal| !self.goal_passes(goal)) {
            return Some((PART_GOAL, place as u64 + 1));
        }
        None
    }
}

fn pinned(typing: &Typing) -> u64 {
    typing.plus.iter().chain(typing.minus.iter()).map(|set| set.len() as u64).sum()
}

// ---------------------------------------------------------------------------------------------
// Judging a trace

/// Somebody who is listed or has joined; one who left is not present and holds nothing.
struct Person {
    clearance: Level,
    present: bool,
    holds: Roles,
}

/// The listed users with what they hold at the start.
fn first_state(policy: &Policy) -> Vec<Person> {
    let users = policy.clearances.iter().zip(&policy.holdings);
    users
        .map(|(&clearance, holds)| Person {
            clearance: clearance,
            present: true,
            holds: holds.clone(),
        })
        .collect()
}

/// Does the step if it is one, and tells whether it is. All steps before it are done, so the state
/// has a person for each name known above the step's line, and a name that is not has the next
/// place.
fn do_step(policy: &Policy, state: &mut Vec<Person>, step: &Step) -> bool {
    match *step {
        Step::Assign { actor, rule, user } => {
            let rule = &policy.assigns[rule];
            let possible = state[actor].present
                && state[actor].holds.contains(&rule.admin)
                && state[user].present
                && rule.positive.is_subset(&state[user].holds)
                && rule.negative.is_disjoint(&state[user].holds)
                && !state[user].holds.contains(&rule.target);
            if possible {
                state[user].holds.insert(rule.target);
            }
            possible
        }
        Step::Revoke { actor, rule, user } => {
            let rule = &policy.revokes[rule];
            let possible = state[actor].present
                && state[actor].holds.contains(&rule.admin)
                && state[user].present
                && state[user].holds.contains(&rule.target);
            if possible {
                state[user].holds.remove(&rule.target);
            }
            possible
        }
        Step::Join { user, clearance } => {
            let possible = user == state.len();
            if possible {
                let holds = Roles::new();
                state.push(Person { clearance: clearance, present: true, holds: holds });
            }
            possible
        }
        Step::Leave { user } => {
            let possible = state[user].present;
            state[user].present = false;
            state[user].holds.clear();
            possible
        }
    }
}

/// The first present L user that holds all of some goal, and that user's lowest goal, both from 0.
fn first_victim(policy: &Policy, state: &[Person]) -> Option<(usize, usize)> {
    for (user, person) in state.iter().enumerate() {
        if person.present && person.clearance == Level::L {
            let goal = policy.goals.iter().position(|goal| goal.is_subset(&person.holds));
            if let Some(goal) = goal {
                return Some((user, goal));
            }
        }
    }
    None
}

fn judge_trace(policy: &Policy, trace: &Trace) -> Answer {
    let mut state = first_state(policy);
    for (place, step) in trace.steps.iter().enumerate() {
        if !do_step(policy, &mut state, step) {
            return Answer::Broken { step: place as u64 + 1 };
        }
    }
    let steps = trace.steps.len() as u64;
    match first_victim(policy, &state) {
        Some((user, goal)) => Answer::Attacked {
            steps: steps,
            user: user as u64,
            user_name: trace.user_names[user].clone(),
            goal: goal as u64 + 1,
        },
        None => Answer::Short { steps: steps },
    }
}

fn judge_typing(policy: &Policy, typing: &Typing) -> Answer {
    match Judge::of(typing).first_failure(policy) {
        Some((part, number)) => Answer::Unproved { part: part, number: number },
        None => Answer::Safe {
            roles: policy.role_names.len() as u64,
            assigns: policy.assigns.len() as u64,
            revokes: policy.revokes.len() as u64,
            goals: policy.goals.len() as u64,
            pinned: pinned(typing),
        },
    }
}

// ---------------------------------------------------------------------------------------------
// Check

pub fn check(policy: &[u8], evidence: &[u8]) -> Answer {
    let policy = match read_policy(policy) {
        Ok(policy) => policy,
        Err(stop) => {
            return Answer::Refused { number: stop.number_for_policy(), line: stop.line };
        }
    };
    match read_evidence(&policy, evidence) {
        Ok(Evidence::Typing(typing)) => judge_typing(&policy, &typing),
        Ok(Evidence::Trace(trace)) => judge_trace(&policy, &trace),
        Err(stop) => Answer::Refused { number: stop.number_for_evidence(), line: stop.line },
    }
}

/// The line that the program `check` prints for an answer, without its LF.
pub fn line(answer: &Answer) -> Vec<u8> {
    match answer {
        Answer::Safe { roles, assigns, revokes, goals, pinned } => {
            format!("SAFE\t{}\t{}\t{}\t{}\t{}", roles, assigns, revokes, goals, pinned).into_bytes()
        }
        Answer::Attacked { steps, user: _, user_name, goal } => {
            let mut result = format!("ATTACKED\t{}\t", steps).into_bytes();
            result.extend_from_slice(user_name);
            result.extend_from_slice(format!("\t{}", goal).as_bytes());
            result
        }
        Answer::Unproved { part, number } => {
            format!("UNPROVED\t{}\t{}", part_word(*part), number).into_bytes()
        }
        Answer::Broken { step } => format!("BROKEN\t{}", step).into_bytes(),
        Answer::Short { steps } => format!("SHORT\t{}", steps).into_bytes(),
        Answer::Refused { number, line } => format!("REFUSED\t{}\t{}", number, line).into_bytes(),
    }
}

pub fn part_word(part: u64) -> &'static str {
    match part {
        PART_HOLDINGS => "holdings",
        PART_ASSIGN => "assign",
        PART_REVOKE => "revoke",
        PART_GOAL => "goal",
        _ => panic!("no such part"),
    }
}

/// The line that `check` refuses, as a part of one of the two texts.
pub fn bad_line(policy: &[u8], evidence: &[u8]) -> BadLine {
    refused_line(policy, |policy| read_evidence(policy, evidence).err())
}

/// The line that is refused where the second text has to be a typing.
pub fn bad_typing_line(policy: &[u8], typing: &[u8]) -> BadLine {
    refused_line(policy, |policy| read_typing(policy, typing).err())
}

fn refused_line(policy: &[u8], refusal: impl Fn(&Policy) -> Option<Stop>) -> BadLine {
    let (in_evidence, part) = match read_policy(policy) {
        Err(stop) => (false, stop.part),
        Ok(policy) => match refusal(&policy) {
            // 21 has no bad line
            Some(stop) if stop.fault != Fault::Limit => (true, stop.part),
            _ => (false, None),
        },
    };
    match part {
        Some((offset, length)) => {
            BadLine { in_evidence: in_evidence, offset: offset, length: length }
        }
        None => BadLine { in_evidence: false, offset: 0, length: 0 },
    }
}

// ---------------------------------------------------------------------------------------------
// Sum and merge

fn sum_of(one: &Typing, two: &Typing) -> Typing {
    let unions = |first: &[Roles], second: &[Roles]| -> Vec<Roles> {
        first.iter().zip(second).map(|(a, b)| a | b).collect()
    };
    Typing {
        labels: one.labels.iter().zip(&two.labels).map(|(&a, &b)| a.max(b)).collect(),
        plus: unions(&one.plus, &two.plus),
        minus: unions(&one.minus, &two.minus),
    }
}

fn set_text(role_names: &[Vec<u8>], set: &Roles) -> Vec<u8> {
    if set.is_empty() {
        return b"-".to_vec();
    }
    let names: Vec<&[u8]> = set.iter().map(|&role| role_names[role].as_slice()).collect();
    names.join(&b',')
}

fn level_text(level: Level) -> &'static [u8] {
    match level {
        Level::L => b"L",
        Level::H => b"H",
    }
}

fn typing_text(role_names: &[Vec<u8>], typing: &Typing) -> Vec<u8> {
    let mut text = b"typing\t1\n".to_vec();
    for (role, name) in role_names.iter().enumerate() {
        text.extend_from_slice(name);
        text.push(b'\t');
        text.extend_from_slice(level_text(typing.labels[role]));
        text.push(b'\t');
        text.extend_from_slice(&set_text(role_names, &typing.plus[role]));
        text.push(b'\t');
        text.extend_from_slice(&set_text(role_names, &typing.minus[role]));
        text.push(b'\n');
    }
    text.extend_from_slice(b"end\n");
    text
}

fn fits(text: &[u8], room: usize) -> bool {
    text.len() <= room && text.len() <= TEXT_LIMIT
}

/// `room` is the length of the lent buffer. `Done` carries the text that goes to its start.
pub fn sum(policy: &[u8], typing1: &[u8], typing2: &[u8], room: usize) -> Sum {
    match try_sum(policy, typing1, typing2, room) {
        Ok(done) => done,
        Err(refused) => refused,
    }
}

fn try_sum(policy: &[u8], typing1: &[u8], typing2: &[u8], room: usize) -> Result<Sum, Sum> {
    let refused_policy = |stop: Stop, which: u64| Sum::Refused {
        number: stop.number_for_policy(),
        line: stop.line,
        which: which,
    };
    let refused_typing = |stop: Stop, which: u64| Sum::Refused {
        number: stop.number_for_evidence(),
        line: stop.line,
        which: which,
    };
    let policy = read_policy(policy).map_err(|stop| refused_policy(stop, 1))?;
    let typing1 = read_typing(&policy, typing1).map_err(|stop| refused_typing(stop, 2))?;
    let typing2 = read_typing(&policy, typing2).map_err(|stop| refused_typing(stop, 3))?;

    let sum = sum_of(&typing1, &typing2);
    let text = typing_text(&policy.role_names, &sum);
    if !fits(&text, room) {
        return Err(Sum::Refused { number: 18, line: 0, which: 0 });
    }
    Ok(Sum::Done { pinned: pinned(&sum), length: text.len() as u64, text: text })
}

/// `room` is the length of the lent buffer. `Done` carries the text that goes to its start.
pub fn merge(policy1: &[u8], typing1: &[u8], policy2: &[u8], typing2: &[u8], room: usize) -> Merge {
    match try_merge(policy1, typing1, policy2, typing2, room) {
        Ok(done) => done,
        Err(other) => other,
    }
}

fn try_merge(
    policy1: &[u8],
    typing1: &[u8],
    policy2: &[u8],
    typing2: &[u8],
    room: usize,
) -> Result<Merge, Merge> {
    let refused_policy = |stop: Stop, which: u64| Merge::Refused {
        number: stop.number_for_policy(),
        line: stop.line,
        which: which,
    };
    let refused_typing = |stop: Stop, which: u64| Merge::Refused {
        number: stop.number_for_evidence(),
        line: stop.line,
        which: which,
    };
    let policy1 = read_policy(policy1).map_err(|stop| refused_policy(stop, 1))?;
    let typing1 = read_typing(&policy1, typing1).map_err(|stop| refused_typing(stop, 2))?;
    let policy2 = read_policy(policy2).map_err(|stop| refused_policy(stop, 3))?;
    let typing2 = read_typing(&policy2, typing2).map_err(|stop| refused_typing(stop, 4))?;

    let same_ground = policy1.role_names == policy2.role_names
        && policy1.user_names == policy2.user_names
        && policy1.clearances == policy2.clearances
        && policy1.holdings == policy2.holdings;
    if !same_ground {
        return Err(Merge::Refused { number: 17, line: 0, which: 0 });
    }

    // The roles are the same in the same order, so a typing's role places fit both policies.
    let judge1 = Judge::of(&typing1);
    let judge2 = Judge::of(&typing2);
    pass(judge1.first_failure(&policy1), 1)?;
    pass(judge2.first_failure(&policy2), 2)?;
    pass(judge1.first_bad_rule(&policy2), 3)?;
    pass(judge2.first_bad_rule(&policy1), 4)?;

    let assigns = policy1.assigns.len() + policy2.assigns.len();
    let revokes = policy1.revokes.len() + policy2.revokes.len();
    let goals = policy1.goals.len() + policy2.goals.len();
    if assigns > ASSIGN_LIMIT || revokes > REVOKE_LIMIT || goals > GOAL_LIMIT {
        return Err(Merge::Refused { number: 19, line: 0, which: 0 });
    }

    let sum = sum_of(&typing1, &typing2);
    let text = typing_text(&policy1.role_names, &sum);
    if !fits(&text, room) {
        return Err(Merge::Refused { number: 18, line: 0, which: 0 });
    }
    Ok(Merge::Done {
        roles: policy1.role_names.len() as u64,
        assigns: assigns as u64,
        revokes: revokes as u64,
        goals: goals as u64,
        pinned: pinned(&sum),
        length: text.len() as u64,
        text: text,
    })
}

fn pass(failure: Option<(u64, u64)>, which: u64) -> Result<(), Merge> {
    match failure {
        Some((part, number)) => Err(Merge::Unproved { part: part, number: number, which: which }),
        None => Ok(()),
    }
}

// ---------------------------------------------------------------------------------------------
// Spelling

/// A policy written back: has lines in user order, then role order, all other lines in the order
/// read, and sets in role order.
fn policy_text(policy: &Policy) -> Vec<u8> {
    let role = |place: usize| policy.role_names[place].as_slice();
    let set = |set: &Roles| set_text(&policy.role_names, set);
    let mut text = Vec::new();
    add_line(&mut text, &[b"arbac", b"1"]);
    for name in &policy.role_names {
        add_line(&mut text, &[b"role", name]);
    }
    for (name, &clearance) in policy.user_names.iter().zip(&policy.clearances) {
        add_line(&mut text, &[b"user", name, level_text(clearance)]);
    }
    for (name, holds) in policy.user_names.iter().zip(&policy.holdings) {
        for &held in holds {
            add_line(&mut text, &[b"has", name, role(held)]);
        }
    }
    for rule in &policy.assigns {
        let (positive, negative) = (set(&rule.positive), set(&rule.negative));
        let fields = [b"assign", role(rule.admin), &positive, &negative, role(rule.target)];
        add_line(&mut text, &fields);
    }
    for rule in &policy.revokes {
        add_line(&mut text, &[b"revoke", role(rule.admin), role(rule.target)]);
    }
    for goal in &policy.goals {
        add_line(&mut text, &[b"goal", &set(goal)]);
    }
    add_line(&mut text, &[b"end"]);
    text
}

fn add_line(text: &mut Vec<u8>, fields: &[&[u8]]) {
    text.extend_from_slice(&fields.join(&b'\t'));
    text.push(b'\n');
}

/// `room` is the length of the lent buffer. `Done` carries the text that goes to its start.
pub fn spell(policy: &[u8], room: usize) -> Spelling {
    let policy = match read_policy(policy) {
        Ok(policy) => policy,
        Err(stop) => {
            return Spelling::Refused { number: stop.number_for_policy(), line: stop.line };
        }
    };
    let text = policy_text(&policy);
    if text.len() > room {
        return Spelling::Refused { number: 20, line: 0 };
    }
    Spelling::Done { length: text.len() as u64, text: text }
}

//! Damage: one change to a text, of a byte, a field, a name, a line or its length.

use crate::chance::Chance;
use crate::making::names::of_length;
use crate::texts::TEXT_LIMIT;

/// Bytes that mean something somewhere, and some that never do.
const BYTES: &[u8] = b"\n\t,-_ 019aLHz.\r\0\x01\x7f\x80\xff";

/// What may stand for a field.
const FIELDS: [&[u8]; 12] = [
    b"-", b"L", b"H", b"l", b"1", b"assign", b"revoke", b"join", b"leave", b"a,", b",a", b"--",
];

/// What may stand for a number.
const NUMBERS: [&[u8]; 16] = [
    b"0", b"1", b"2", b"3", b"4", b"5", b"6", b"9", b"10", b"99", b"256", b"257", b"999", b"+1",
    b"-1", b"1a",
];

/// How many lines, fields or names, and bytes the rules and goals of a policy mostly have.
const LAST_LINES: usize = 10;
const LAST_FIELDS: usize = 40;
const LAST_BYTES: usize = 200;

pub fn damage(chance: &mut Chance, text: &mut Vec<u8>) {
    match chance.below(18) {
        0..=2 => change_byte(chance, text),
        3..=5 => change_field(chance, text),
        6 => change_number(chance, text),
        7..=9 => change_name(chance, text),
        10..=12 => change_lines(chance, text),
        13..=15 => change_length(chance, text),
        _ => repeat_line(chance, text),
    }
}

/// Where a part of a text starts and ends.
type Part = (usize, usize);

/// The parts of a text that certain bytes part.
fn parts(text: &[u8], parting: impl Fn(u8) -> bool) -> Vec<Part> {
    let mut parts = Vec::new();
    let mut start = 0;
    for (place, &byte) in text.iter().enumerate() {
        if parting(byte) {
            parts.push((start, place));
            start = place + 1;
        }
    }
    parts.push((start, text.len()));
    parts
}

fn lines(text: &[u8]) -> Vec<Part> {
    parts(text, |byte| byte == b'\n')
}

fn fields(text: &[u8]) -> Vec<Part> {
    parts(text, |byte| byte == b'\n' || byte == b'\t')
}

fn names(text: &[u8]) -> Vec<Part> {
    parts(text, |byte| byte == b'\n' || byte == b'\t' || byte == b',')
}

fn bytes(text: &[u8], part: Part) -> Vec<u8> {
    text[part.0..part.1].to_vec()
}

fn replace(text: &mut Vec<u8>, part: Part, with: &[u8]) {
    text.splice(part.0..part.1, with.iter().copied());
}

fn insert(text: &mut Vec<u8>, place: usize, more: &[u8]) {
    replace(text, (place, place), more);
}

/// One of so many places, every other time one of the last: of a policy with many roles these are
/// the few that do not only declare a role.
fn place(chance: &mut Chance, count: usize, last: usize) -> usize {
    if chance.one_in(2) {
        return count - 1 - chance.below(last.min(count));
    }
    chance.below(count)
}

fn change_byte(chance: &mut Chance, text: &mut Vec<u8>) {
    let place = place(chance, text.len() + 1, LAST_BYTES);
    if place == text.len() {
        text.push(chance.pick(BYTES));
        return;
    }
    match chance.below(6) {
        0 => text[place] ^= 1 << chance.below(8),
        1 => text[place] = chance.pick(BYTES),
        2 => {
            text.remove(place);
        }
        3 => text.insert(place, text[place]),
        4 => text.insert(place, chance.pick(b"\n\0")),
        _ => text.insert(place, chance.pick(BYTES)),
    }
}

fn change_field(chance: &mut Chance, text: &mut Vec<u8>) {
    let fields = fields(text);
    let part = fields[place(chance, fields.len(), LAST_FIELDS)];
    match chance.below(6) {
        0 => replace(text, part, b""),
        1 => {
            let other = bytes(text, chance.pick(&fields));
            replace(text, part, &other);
        }
        // A field of its own, before or behind.
        2 => insert(text, part.1, b"\t-"),
        3 => insert(text, part.0, b"\t"),
        // One field with its tab less.
        4 => replace(text, (part.0, (part.1 + 1).min(text.len())), b""),
        _ => replace(text, part, chance.pick(&FIELDS)),
    }
}

/// A number written otherwise: with a zero before it, a digit more, a sign, or another number.
fn change_number(chance: &mut Chance, text: &mut Vec<u8>) {
    let mut numbers = fields(text);
    numbers.retain(|part| {
        part.0 < part.1 && text[part.0..part.1].iter().all(|byte| byte.is_ascii_digit())
    });
    if numbers.is_empty() {
        return change_field(chance, text);
    }
    let part = chance.pick(&numbers);
    match chance.below(5) {
        0 => insert(text, part.0, b"0"),
        1 => insert(text, part.0, b"00"),
        2 => insert(text, part.1, b"0"),
        _ => replace(text, part, chance.pick(&NUMBERS)),
    }
}

/// Puts a name of a certain length, or another name of the text, in the place of a name or behind
/// it.
fn change_name(chance: &mut Chance, text: &mut Vec<u8>) {
    let names = names(text);
    let part = names[place(chance, names.len(), LAST_FIELDS)];
    let other = bytes(text, chance.pick(&names));
    match chance.below(4) {
        0 => replace(text, part, &other),
        1 => insert(text, part.1, &[b",", &other[..]].concat()),
        _ => {
            let length = chance.pick(&[1, 2, 4, 5, 31, 32, 32, 33, 33, 34, 64]);
            replace(text, part, &of_length(chance, length));
        }
    }
}

/// A line goes, comes twice, is followed or headed by a blank one, or changes places.
fn change_lines(chance: &mut Chance, text: &mut Vec<u8>) {
    let lines = lines(text);
    let part = lines[place(chance, lines.len(), LAST_LINES)];
    let whole = (part.0, (part.1 + 1).min(text.len()));
    let other = lines[place(chance, lines.len(), LAST_LINES)];
    match chance.below(5) {
        0 => replace(text, whole, b""),
        1 => insert(text, whole.0, &bytes(text, whole)),
        2 => insert(text, part.1, b"\n"),
        // The line moves to where another begins.
        3 if other.0 >= whole.1 => {
            insert(text, other.0, &bytes(text, whole));
            replace(text, whole, b"");
        }
        4 if other.0 >= whole.1 => {
            let (line, other_line) = (bytes(text, part), bytes(text, other));
            replace(text, other, &line);
            replace(text, part, &other_line);
        }
        _ => insert(text, part.0, b"\n"),
    }
}

/// A line stands many times over: any line, or the one before `end`, which in a policy is a goal.
fn repeat_line(chance: &mut Chance, text: &mut Vec<u8>) {
    let lines = lines(text);
    let place = if chance.one_in(2) && lines.len() > 2 {
        lines.len() - 3
    } else {
        place(chance, lines.len(), LAST_LINES)
    };
    let mut line = bytes(text, lines[place]);
    line.push(b'\n');
    let count = chance.pick(&[30, 31, 32, 33, 63, 64, 65, 127, 128, 129, 255, 256, 257]);
    insert(text, lines[place].0, &line.repeat(count));
}

fn change_length(chance: &mut Chance, text: &mut Vec<u8>) {
    match chance.below(11) {
        0 => {
            let length = chance.below(text.len() + 1);
            text.truncate(length);
        }
        1 => {
            text.pop();
        }
        // The last line goes, which was `end`.
        2 => {
            let lines = lines(text);
            if lines.len() > 1 {
                text.truncate(lines[lines.len() - 2].0);
            }
        }
        3 => text.clear(),
        4 => text.push(chance.pick(BYTES)),
        5 => {
            let more: &[u8] = chance.pick(&[&b"end\n"[..], b"\n", b"end", b"role\ta\n"]);
            text.extend_from_slice(more);
        }
        6..=9 => {
            let length = TEXT_LIMIT + chance.pick(&[1, 1, 2, 101]);
            text.resize(length.max(text.len()), chance.pick(b"\na"));
        }
        // As long as may be: what is behind `end` is then read.
        _ => text.resize(TEXT_LIMIT.max(text.len()), chance.pick(b"\na")),
    }
}

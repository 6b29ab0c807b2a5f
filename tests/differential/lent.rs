//! What is lent to the library: arrays, buffers and memory that it writes into, and texts that it
//! reads. On both sides of each stands something that is not lent.

use std::ops::Range;
use std::ptr::read_volatile;

use crate::chance::Chance;

/// How many numbers of an array or of memory, or bytes of a buffer, stand before and behind the part
/// that is lent.
const AROUND: usize = 4;

/// An array, a buffer or memory.
pub struct Lent<T> {
    /// With what stands around the lent part.
    pub all: Vec<T>,
    as_lent: Vec<T>,
}

impl<T: Copy + From<u8>> Lent<T> {
    pub fn new(chance: &mut Chance, length: usize) -> Lent<T> {
        let mut byte = chance.number() as u8;
        let mut all = Vec::with_capacity(length + 2 * AROUND);
        for _ in 0..length + 2 * AROUND {
            byte = byte.wrapping_mul(5).wrapping_add(87);
            all.push(T::from(byte));
        }
        Lent { as_lent: all.clone(), all: all }
    }

    pub fn part(&mut self) -> &mut [T] {
        let end = self.all.len() - AROUND;
        &mut self.all[AROUND..end]
    }

    /// What the whole has to be when this stands at the start of the lent part.
    pub fn with(&self, start: &[T]) -> Vec<T> {
        let mut wanted = self.as_lent.clone();
        wanted[AROUND..AROUND + start.len()].copy_from_slice(start);
        wanted
    }
}

impl Lent<u64> {
    /// Memory, which may hold anything: words at random, or small numbers, which look like counts
    /// and places.
    pub fn memory(chance: &mut Chance, length: usize) -> Lent<u64> {
        let end = chance.pick(&[200, u64::MAX]);
        let all: Vec<u64> = (0..length + 2 * AROUND).map(|_| chance.number() % end).collect();
        Lent { as_lent: all.clone(), all: all }
    }

    pub fn is_kept(&self) -> bool {
        self.all == self.as_lent
    }

    /// Whether what stands around the lent part is as it was.
    pub fn is_kept_around(&self) -> bool {
        let end = self.all.len() - AROUND;
        self.all[..AROUND] == self.as_lent[..AROUND] && self.all[end..] == self.as_lent[end..]
    }
}

pub fn shown_array(all: &[u64]) -> String {
    let end = all.len() - AROUND;
    format!("array {:?}, around it {:?} and {:?}\n", &all[AROUND..end], &all[..AROUND], &all[end..])
}

pub fn shown_buffer(all: &[u8]) -> String {
    let end = all.len() - AROUND;
    format!(
        "buffer \"{}\", around it \"{}\" and \"{}\"\n",
        all[AROUND..end].escape_ascii(),
        all[..AROUND].escape_ascii(),
        all[end..].escape_ascii()
    )
}

/// What stands before a text and behind it: a byte of it that the library looked at would make
/// another text.
const BEFORE: [&[u8]; 5] = [b"a", b"\n", b"\t", b"arbac\t1\n", b"end\n"];
const BEHIND: [&[u8]; 7] = [b"\n", b"\nend\n", b"end\n", b"a", b"\t", b",a", b"1"];

pub struct LentText {
    pub name: &'static str,
    /// With what stands around the lent part.
    all: Vec<u8>,
    as_lent: Vec<u8>,
    part: Range<usize>,
}

impl LentText {
    pub fn new(chance: &mut Chance, name: &'static str, text: &[u8]) -> LentText {
        let start = chance.pick(&BEFORE);
        let all = [start, text, chance.pick(&BEHIND)].concat();
        let part = start.len()..start.len() + text.len();
        LentText { name: name, as_lent: all.clone(), all: all, part: part }
    }

    pub fn part(&self) -> &[u8] {
        &self.all[self.part.clone()]
    }

    /// Whether it is as it was. The compiler would take that for granted, so each byte is read anew.
    pub fn is_kept(&self) -> bool {
        // a reference can be read
        self.all.iter().zip(&self.as_lent).all(|(now, then)| unsafe { read_volatile(now) } == *then)
    }
}

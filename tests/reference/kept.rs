//! `kept CRATES`: the reference on the texts that are kept in CRATES/cases and CRATES/lent_cases. The
//! words of each crate's `args` say what is asked, and its file `stdout` what has to be answered.
//! Prints each difference, then `N cases, M differ`. Status 0 when there are cases and none differs.

use std::fs;
use std::path::{Path, PathBuf};

#[allow(dead_code)]
mod reference;

use reference::{BadLine, Merge, Spelling, Sum};

fn read(path: &Path) -> Vec<u8> {
    match fs::read(path) {
        Ok(bytes) => bytes,
        Err(error) => {
            eprintln!("cannot read {}: {}", path.display(), error);
            std::process::exit(2);
        }
    }
}

/// A crate with kept texts.
struct Kept {
    folder: PathBuf,
    words: Vec<String>,
    stdout: Vec<u8>,
}

impl Kept {
    fn of(folder: PathBuf) -> Kept {
        let args = String::from_utf8(read(&folder.join("args"))).expect("words of ASCII");
        let words = args.lines().map(str::to_string).collect();
        let stdout = read(&folder.join("stdout"));
        Kept { folder: folder, words: words, stdout: stdout }
    }

    /// A text as a program loads it: one byte more than a text may have tells that it is too long.
    fn text(&self, name: &str) -> Vec<u8> {
        let mut text = read(&self.folder.join("data").join(name));
        text.truncate(32_769);
        text
    }

    /// Compares what is printed for each case: it stands where the case before it ends, or, where
    /// that one differs, at the next line that begins with its words.
    fn compare(&self, cases: &[Said]) -> usize {
        let mut at = 0;
        let mut differ = 0;
        let mut lost = false;
        for case in cases {
            if lost {
                at = self.line_with(at, &case.begins);
            }
            lost = !self.stdout[at..].starts_with(&case.printed);
            if lost {
                differ += 1;
                let printed = String::from_utf8_lossy(&case.printed);
                println!("{}: the reference says {}", self.folder.display(), printed);
            } else {
                at += case.printed.len();
            }
        }
        if !lost && at < self.stdout.len() {
            println!("{}: more is printed than is asked", self.folder.display());
            differ += 1;
        }
        differ
    }

    /// Where the next line begins that begins so; the place itself where there is none.
    fn line_with(&self, at: usize, begins: &[u8]) -> usize {
        let wanted = [b"\n", begins].concat();
        let found = self.stdout[at..].windows(wanted.len()).position(|part| part == wanted);
        found.map_or(at, |place| at + place + 1)
    }
}

/// What a program has to print for a case, and the words that it begins with.
struct Said {
    begins: Vec<u8>,
    printed: Vec<u8>,
}

impl Said {
    fn new(begins: String, rest: &[u8]) -> Said {
        let begins = [begins.as_bytes(), b"\t"].concat();
        Said { printed: [&begins, rest].concat(), begins: begins }
    }
}

/// Its name, where its bad line stands, where it stands as a typing, and its line.
fn check(kept: &Kept, words: &[String]) -> Said {
    let (policy, evidence) = (kept.text(&words[1]), kept.text(&words[2]));
    let bad = place(reference::bad_line(&policy, &evidence));
    let bad_typing = place(reference::bad_typing_line(&policy, &evidence));
    let line = reference::line(&reference::check(&policy, &evidence));
    Said::new(words[0].clone(), &[bad.as_bytes(), bad_typing.as_bytes(), &line, b"\n"].concat())
}

/// Which text a bad line is in, its start and its end.
fn place(bad: BadLine) -> String {
    let text = if bad.in_evidence { "evidence" } else { "policy" };
    format!("{}\t{}\t{}\t", text, bad.offset, bad.offset + bad.length)
}

/// Its three words, the answer, how many bytes of the buffer are as they were, and the text.
fn lent(kept: &Kept, words: &[String]) -> Said {
    let room: usize = words[2].parse().expect("the size of a buffer");
    let texts: Vec<Vec<u8>> =
        words[3..].iter().filter(|name| *name != "-").map(|name| kept.text(name)).collect();
    let (answer, text) = match texts.as_slice() {
        [policy] => spell(reference::spell(policy, room)),
        [policy, first, second] => sum(reference::sum(policy, first, second, room)),
        [policy_1, typing_1, policy_2, typing_2] => {
            merge(reference::merge(policy_1, typing_1, policy_2, typing_2, room))
        }
        _ => panic!("one text, three or four"),
    };
    let line = format!("{}\t{}\n", answer, room - text.len());
    Said::new(words[..3].join("\t"), &[line.as_bytes(), &text].concat())
}

fn spell(answer: Spelling) -> (String, Vec<u8>) {
    match answer {
        Spelling::Done { length, text } => (format!("OK\t{}", length), text),
        Spelling::Refused { number, line } => {
            (format!("REFUSED\t{}\t{}", number, line), Vec::new())
        }
    }
}

fn sum(answer: Sum) -> (String, Vec<u8>) {
    match answer {
        Sum::Done { pinned, length, text } => (format!("OK\t{}\t{}", pinned, length), text),
        Sum::Refused { number, line, which } => refused(which, number, line),
    }
}

fn merge(answer: Merge) -> (String, Vec<u8>) {
    match answer {
        Merge::Done { roles, assigns, revokes, goals, pinned, length, text } => {
            let counts = [roles, assigns, revokes, goals, pinned, length];
            let counts: Vec<String> = counts.iter().map(u64::to_string).collect();
            (format!("OK\t{}", counts.join("\t")), text)
        }
        Merge::Unproved { part, number, which } => {
            (format!("UNPROVED\t{}\t{}\t{}", which, part + 1, number), Vec::new())
        }
        Merge::Refused { number, line, which } => refused(which, number, line),
    }
}

fn refused(which: u64, number: u64, line: u64) -> (String, Vec<u8>) {
    (format!("REFUSED\t{}\t{}\t{}", which, number, line), Vec::new())
}

fn main() {
    let arguments: Vec<_> = std::env::args_os().skip(1).collect();
    if arguments.len() != 1 {
        eprintln!("usage: kept CRATES");
        std::process::exit(2);
    }
    let crates = PathBuf::from(&arguments[0]);
    let kinds: [(&str, usize, fn(&Kept, &[String]) -> Said); 2] =
        [("cases", 3, check), ("lent_cases", 7, lent)];
    let (mut cases, mut differ) = (0, 0);
    for (name, words, said) in kinds.iter() {
        let kept = Kept::of(crates.join(name));
        let all: Vec<Said> = kept.words.chunks(*words).map(|words| said(&kept, words)).collect();
        cases += all.len();
        differ += kept.compare(&all);
    }
    println!("{} cases, {} differ", cases, differ);
    if cases == 0 || differ > 0 {
        std::process::exit(1);
    }
}

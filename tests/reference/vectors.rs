//! `vectors FOLDER`: every case below FOLDER/check, FOLDER/merge, FOLDER/sum and FOLDER/write
//! against the reference, as far as there are such folders. Prints each difference, how many cases
//! each folder has, then `N cases, M differ`. Status 0 when there are cases and none differs.

use std::collections::BTreeSet;
use std::fs;
use std::path::{Path, PathBuf};

#[allow(dead_code)]
mod reference;

/// One line of `expected` or `badline`: the case's name and what follows its first tab.
type Row = (String, Vec<u8>);

struct Count {
    cases: u64,
    differ: u64,
}

impl Count {
    fn case(&mut self, kind: &str, name: &str, differences: &[String]) {
        self.cases += 1;
        if !differences.is_empty() {
            self.differ += 1;
        }
        for difference in differences {
            println!("{} {}: {}", kind, name, difference);
        }
    }
}

fn read(path: &Path) -> Vec<u8> {
    match fs::read(path) {
        Ok(bytes) => bytes,
        Err(error) => {
            eprintln!("cannot read {}: {}", path.display(), error);
            std::process::exit(2);
        }
    }
}

fn rows(path: &Path) -> Vec<Row> {
    let bytes = read(path);
    let mut result = Vec::new();
    for line in bytes.split(|&byte| byte == b'\n') {
        if line.is_empty() {
            continue;
        }
        match line.iter().position(|&byte| byte == b'\t') {
            Some(tab) => {
                let name = String::from_utf8_lossy(&line[..tab]).into_owned();
                result.push((name, line[tab + 1..].to_vec()));
            }
            None => {
                eprintln!("a line without a tab in {}", path.display());
                std::process::exit(2);
            }
        }
    }
    result
}

/// The names of all cases that have a file with this ending.
fn names_with(folder: &Path, ending: &str) -> BTreeSet<String> {
    let mut names = BTreeSet::new();
    let entries = match fs::read_dir(folder) {
        Ok(entries) => entries,
        Err(error) => {
            eprintln!("cannot list {}: {}", folder.display(), error);
            std::process::exit(2);
        }
    };
    for entry in entries {
        if let Ok(entry) = entry {
            let file = entry.file_name().to_string_lossy().into_owned();
            if file.ends_with(ending) {
                names.insert(file[..file.len() - ending.len()].to_string());
            }
        }
    }
    names
}

/// The texts and the rows of `expected` must speak of the same cases.
fn same_cases(kind: &str, folder: &Path, ending: &str, rows: &[Row], count: &mut Count) {
    let listed: BTreeSet<String> = rows.iter().map(|row| row.0.clone()).collect();
    for name in names_with(folder, ending).difference(&listed) {
        count.case(kind, name, &["texts without an expected line".to_string()]);
    }
}

fn shown(bytes: &[u8]) -> String {
    String::from_utf8_lossy(bytes).replace('\t', " ")
}

fn compare(what: &str, wanted: &[u8], got: &[u8]) -> Option<String> {
    if wanted == got {
        None
    } else {
        Some(format!("{} wanted [{}] got [{}]", what, shown(wanted), shown(got)))
    }
}

fn text(folder: &Path, name: &str, ending: &str) -> Vec<u8> {
    read(&folder.join(format!("{}.{}", name, ending)))
}

/// The size of the lent buffer, and the answer that follows it.
fn room_and_answer(rest: &[u8]) -> (usize, Vec<u8>) {
    let tab = rest.iter().position(|&byte| byte == b'\t').expect("a size and an answer");
    let room = String::from_utf8_lossy(&rest[..tab]).parse().expect("a size");
    (room, rest[tab + 1..].to_vec())
}

fn run_check(folder: &Path, count: &mut Count) {
    let expected = rows(&folder.join("expected"));
    let badlines = rows(&folder.join("badline"));
    same_cases("check", folder, ".policy", &expected, count);
    for (name, wanted) in &expected {
        let policy = text(folder, name, "policy");
        let evidence = text(folder, name, "evidence");
        let mut differences = Vec::new();

        let answer = reference::check(&policy, &evidence);
        differences.extend(compare("answer", wanted, &reference::line(&answer)));

        let bad = reference::bad_line(&policy, &evidence);
        let whose = if bad.in_evidence { "evidence" } else { "policy" };
        let got = format!("{}\t{}\t{}", whose, bad.offset, bad.length).into_bytes();
        match badlines.iter().find(|row| row.0 == *name) {
            Some(row) => differences.extend(compare("bad line", &row.1, &got)),
            None => differences.push("no line in badline".to_string()),
        }
        count.case("check", name, &differences);
    }
}

fn run_sum(folder: &Path, count: &mut Count) {
    let expected = rows(&folder.join("expected"));
    same_cases("sum", folder, ".policy", &expected, count);
    for (name, rest) in &expected {
        let (room, wanted) = room_and_answer(rest);
        let policy = text(folder, name, "policy");
        let typing1 = text(folder, name, "typing1");
        let typing2 = text(folder, name, "typing2");
        let mut differences = Vec::new();
        let got = match reference::sum(&policy, &typing1, &typing2, room) {
            reference::Sum::Done { pinned, length, text: got_text } => {
                if wanted.starts_with(b"OK\t") {
                    differences.extend(compare("text", &text(folder, name, "sum"), &got_text));
                }
                format!("OK\t{}\t{}", pinned, length)
            }
            reference::Sum::Refused { number, line, which } => {
                format!("REFUSED\t{}\t{}\t{}", number, line, which)
            }
        };
        differences.extend(compare("answer", &wanted, got.as_bytes()));
        count.case("sum", name, &differences);
    }
}

fn run_merge(folder: &Path, count: &mut Count) {
    let expected = rows(&folder.join("expected"));
    same_cases("merge", folder, ".policy1", &expected, count);
    for (name, rest) in &expected {
        let (room, wanted) = room_and_answer(rest);
        let policy1 = text(folder, name, "policy1");
        let typing1 = text(folder, name, "typing1");
        let policy2 = text(folder, name, "policy2");
        let typing2 = text(folder, name, "typing2");
        let mut differences = Vec::new();
        let got = match reference::merge(&policy1, &typing1, &policy2, &typing2, room) {
            reference::Merge::Done {
                roles,
                assigns,
                revokes,
                goals,
                pinned,
                length,
                text: got_text,
            } => {
                if wanted.starts_with(b"OK\t") {
                    differences.extend(compare("text", &text(folder, name, "sum"), &got_text));
                }
                format!(
                    "OK\t{}\t{}\t{}\t{}\t{}\t{}",
                    roles, assigns, revokes, goals, pinned, length
                )
            }
            reference::Merge::Unproved { part, number, which } => {
                format!("UNPROVED\t{}\t{}\t{}", reference::part_word(part), number, which)
            }
            reference::Merge::Refused { number, line, which } => {
                format!("REFUSED\t{}\t{}\t{}", number, line, which)
            }
        };
        differences.extend(compare("answer", &wanted, got.as_bytes()));
        count.case("merge", name, &differences);
    }
}

/// A spelling is also its own spelling.
fn run_write(folder: &Path, count: &mut Count) {
    let expected = rows(&folder.join("expected"));
    same_cases("write", folder, ".policy", &expected, count);
    for (name, rest) in &expected {
        let (room, wanted) = room_and_answer(rest);
        let policy = text(folder, name, "policy");
        let mut differences = Vec::new();
        let got = match reference::spell(&policy, room) {
            reference::Spelling::Done { length, text: got_text } => {
                if wanted.starts_with(b"OK\t") {
                    let written = text(folder, name, "written");
                    differences.extend(compare("text", &written, &got_text));
                    let again = reference::Spelling::Done { length: length, text: got_text };
                    if reference::spell(&written, written.len()) != again {
                        differences.push("spelt again it is another text".to_string());
                    }
                }
                format!("OK\t{}", length)
            }
            reference::Spelling::Refused { number, line } => {
                format!("REFUSED\t{}\t{}", number, line)
            }
        };
        differences.extend(compare("answer", &wanted, got.as_bytes()));
        count.case("write", name, &differences);
    }
}

fn main() {
    let arguments: Vec<_> = std::env::args_os().skip(1).collect();
    if arguments.len() != 1 {
        eprintln!("usage: vectors FOLDER");
        std::process::exit(2);
    }
    let folder = PathBuf::from(&arguments[0]);
    let mut count = Count { cases: 0, differ: 0 };
    let kinds: [(&str, fn(&Path, &mut Count)); 4] =
        [("check", run_check), ("merge", run_merge), ("sum", run_sum), ("write", run_write)];
    for (kind, run) in kinds.iter() {
        let below = folder.join(kind);
        if below.is_dir() {
            let before = count.cases;
            run(&below, &mut count);
            println!("{}: {} cases", kind, count.cases - before);
        }
    }
    println!("{} cases, {} differ", count.cases, count.differ);
    if count.cases == 0 || count.differ > 0 {
        std::process::exit(1);
    }
}

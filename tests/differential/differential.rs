//! `differential SEED FIRST LAST FOLDER`: the cases FIRST to LAST of a seed, given to the library
//! and to the reference. Prints each difference and writes its texts below FOLDER, then the table
//! of what was compared and `N compared, M differ`. Status 0 when none differs and, in a whole run,
//! every row of the table occurred often enough.

use std::fs;
use std::path::{Path, PathBuf};
use std::sync::atomic::{AtomicU64, Ordering};
use std::thread;
use std::time::Instant;

mod answers;
mod cases;
mod chance;
mod comparing;
mod drafts;
mod lent;
mod library;
mod making;
#[path = "../reference/reference.rs"]
mod reference;
mod rows;
mod tally;
mod texts;

use cases::Case;
use chance::Chance;
use comparing::Difference;
use tally::Tally;

/// A run of so many cases is a whole one: it has to show every row of the table.
const WHOLE: u64 = 240_000;

/// A thread takes so many cases at a time.
const TAKEN: u64 = 100;

/// So many differing cases are printed and kept; more are only counted.
const KEPT: u64 = 20;

struct Run {
    seed: u64,
    last: u64,
    folder: PathBuf,
    next: AtomicU64,
    differ: AtomicU64,
}

impl Run {
    fn on_threads(&self, threads: usize) -> Tally {
        let mut tally = Tally::new();
        thread::scope(|scope| {
            let running: Vec<_> = (0..threads).map(|_| scope.spawn(|| self.cases())).collect();
            for one in running {
                tally.add(&one.join().expect("a thread that ends"));
            }
        });
        tally
    }

    /// What one thread takes of the cases.
    fn cases(&self) -> Tally {
        let mut tally = Tally::new();
        loop {
            let first = self.next.fetch_add(TAKEN, Ordering::SeqCst);
            if first > self.last {
                return tally;
            }
            for number in first..=self.last.min(first + TAKEN - 1) {
                self.case(number, &mut tally);
            }
        }
    }

    fn case(&self, number: u64, tally: &mut Tally) {
        let mut chance = Chance::of(self.seed, number);
        let case = cases::case(&mut chance, number);
        let differences = comparing::compare(&mut chance, tally, &case);
        if !differences.is_empty() && self.differ.fetch_add(1, Ordering::SeqCst) < KEPT {
            self.keep(number, &case, &differences);
        }
    }

    /// Prints the differences of a case and writes them and its texts into a folder.
    fn keep(&self, number: u64, case: &Case, differences: &[Difference]) {
        let mut said = format!("seed {} case {}: {}\n", self.seed, number, case.made);
        for difference in differences {
            said += &format!(
                "{}\nlibrary:\n{}reference:\n{}",
                difference.call, difference.library, difference.reference
            );
        }
        let folder = self.folder.join(format!("{}-{}", self.seed, number));
        print!("{}texts in {}\n\n", said, folder.display());
        write(&folder, "differences", said.as_bytes());
        for (name, text) in case.texts.named() {
            write(&folder, name, text);
        }
    }
}

fn write(folder: &Path, name: &str, bytes: &[u8]) {
    let written = fs::create_dir_all(folder).and_then(|()| fs::write(folder.join(name), bytes));
    if let Err(error) = written {
        eprintln!("cannot write {} in {}: {}", name, folder.display(), error);
    }
}

fn main() {
    let arguments: Vec<String> = std::env::args().skip(1).collect();
    if arguments.len() != 4 {
        eprintln!("usage: differential SEED FIRST LAST FOLDER");
        std::process::exit(2);
    }
    let number = |place: usize| arguments[place].parse::<u64>().expect("a number");
    let (seed, first, last) = (number(0), number(1), number(2));
    println!("seed {}, cases {} to {}", seed, first, last);

    let start = Instant::now();
    let run = Run {
        seed: seed,
        last: last,
        folder: PathBuf::from(&arguments[3]),
        next: AtomicU64::new(first),
        differ: AtomicU64::new(0),
    };
    let threads = thread::available_parallelism().map_or(1, |count| count.get());
    let tally = run.on_threads(threads);
    tally.print();

    let compared = last + 1 - first;
    let seldom = if compared < WHOLE { Vec::new() } else { tally.seldom() };
    for row in &seldom {
        println!("too seldom: {}", row);
    }
    let differ = run.differ.into_inner();
    println!("{} seconds on {} threads", start.elapsed().as_secs(), threads);
    println!("{} compared, {} differ", compared, differ);
    if differ > 0 || !seldom.is_empty() {
        std::process::exit(1);
    }
}

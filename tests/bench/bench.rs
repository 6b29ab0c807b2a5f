//! `bench FOLDER`: how long the library, without lent memory and in it, and the reference take for
//! the same texts, how the times grow with the number of roles, and how much stack a call takes.
//! FOLDER has the desk and the hostile texts. Status 1 where they answer differently, and where a
//! call takes more stack than the header promises.

use std::collections::BTreeSet;
use std::path::Path;
use std::time::{Duration, Instant};

#[allow(dead_code)]
#[path = "../differential/answers.rs"]
mod answers;
#[allow(dead_code)]
#[path = "../differential/chance.rs"]
mod chance;
#[path = "../differential/drafts.rs"]
mod drafts;
#[path = "../differential/library.rs"]
mod library;
#[allow(dead_code)]
#[path = "../reference/reference.rs"]
mod reference;
mod stack;
mod texts;

use answers::Said;
use chance::Chance;
use library::Memory;
use texts::{crowded, every_place, full, full_of_has, full_of_sets, halves, only_read, read_only};
use texts::{spelt, sum_of, trace, trace_of_many, twice};
use texts::{Closing, Coming, Input, TEXT_LIMIT};

/// A time is the median of at least this many calls.
const CALLS: usize = 9;

/// More calls are made until they took this long together.
const LONG_ENOUGH: Duration = Duration::from_millis(200);

/// What C callers are promised.
const HEADER: &str = include_str!("../../include/arbac.h");

/// The place of the full policy that is only read, among the inputs of check.
const READ_ONLY: usize = 1;

/// The texts that try to be slow, each beside an ordinary one.
const HOSTILE: [(&str, &str); 8] = [
    ("names.policy", "t1.typing"),
    ("names_twice.policy", "t1.typing"),
    ("tabs.policy", "t1.typing"),
    ("nul.policy", "t1.typing"),
    ("lines.policy", "t1.typing"),
    ("has.policy", "t1.typing"),
    ("desk.policy", "names.typing"),
    ("desk.policy", "tabs.trace"),
];

/// What the library writes into, and what it answers.
struct Lent {
    values: [u64; answers::MERGE],
    out: Vec<u8>,
    /// Each call gets as much of it as it needs, as the call before left it.
    memory: Option<Vec<u64>>,
    answered: u64,
}

impl Lent {
    fn without_memory() -> Lent {
        Lent { values: [0; answers::MERGE], out: vec![0; TEXT_LIMIT], memory: None, answered: 0 }
    }

    fn with_memory() -> Lent {
        let mut chance = Chance::of(1, 1);
        let memory = (0..answers::MERGE_MEMORY).map(|_| chance.number()).collect();
        Lent { memory: Some(memory), ..Lent::without_memory() }
    }

    /// Clears what the answer goes into.
    fn clear(&mut self) {
        self.values.fill(0);
        self.out.fill(0);
        self.answered = 0;
    }

    fn holds(&self, said: &Said) -> bool {
        self.answered == said.answered
            && self.values.starts_with(&said.values)
            && self.out.starts_with(&said.text)
    }
}

/// So many words of memory, where there is some.
fn words(memory: &mut Option<Vec<u64>>, count: usize) -> Memory<'_> {
    memory.as_mut().map(|memory| &mut memory[..count])
}

fn ask_library(texts: &[Vec<u8>], lent: &mut Lent) {
    let Lent { values, out, memory, answered } = lent;
    *answered = match texts {
        [policy] => library::spell(policy, out, values, words(memory, answers::MEMORY)),
        [policy, evidence] => {
            library::check(policy, evidence, values, words(memory, answers::MEMORY))
        }
        [policy, first, second] => {
            library::sum(policy, first, second, out, values, words(memory, answers::MEMORY))
        }
        [policy_1, typing_1, policy_2, typing_2] => {
            let memory = words(memory, answers::MERGE_MEMORY);
            library::merge(policy_1, typing_1, policy_2, typing_2, out, values, memory)
        }
        _ => unreachable!("one text to four"),
    };
}

/// What the reference answers.
enum Answer {
    Check(reference::Answer),
    Sum(reference::Sum),
    Merge(reference::Merge),
    Spell(reference::Spelling),
}

fn ask_reference(texts: &[Vec<u8>]) -> Answer {
    match texts {
        [policy] => Answer::Spell(reference::spell(policy, TEXT_LIMIT)),
        [policy, evidence] => Answer::Check(reference::check(policy, evidence)),
        [policy, first, second] => Answer::Sum(reference::sum(policy, first, second, TEXT_LIMIT)),
        [policy_1, typing_1, policy_2, typing_2] => {
            Answer::Merge(reference::merge(policy_1, typing_1, policy_2, typing_2, TEXT_LIMIT))
        }
        _ => unreachable!("one text to four"),
    }
}

impl Answer {
    fn said(&self) -> Said {
        match self {
            Answer::Check(answer) => Said::check(answer),
            Answer::Sum(answer) => Said::sum(answer),
            Answer::Merge(answer) => Said::merge(answer),
            Answer::Spell(answer) => Said::spell(answer),
        }
    }
}

/// The median time of a call; what comes before each call is not in it.
fn median<S>(state: &mut S, before: impl Fn(&mut S), call: impl Fn(&mut S)) -> Duration {
    let mut times = Vec::new();
    let mut all = Duration::ZERO;
    while times.len() < CALLS || all < LONG_ENOUGH {
        before(state);
        let start = Instant::now();
        call(state);
        let time = start.elapsed();
        all += time;
        times.push(time);
    }
    times.sort();
    times[times.len() / 2]
}

struct Times {
    /// The number of the answer, which is the same on all sides.
    answer: u64,
    library: Duration,
    in_memory: Duration,
    reference: Duration,
}

/// The library without lent memory and in it.
struct Library {
    plain: Lent,
    in_memory: Lent,
}

impl Library {
    /// All sides on one input, and a comparison of what they answer and write.
    fn times(&mut self, input: &Input) -> Times {
        let ask = |lent: &mut Lent| ask_library(&input.texts, lent);
        let library = median(&mut self.plain, Lent::clear, ask);
        let in_memory = median(&mut self.in_memory, Lent::clear, ask);
        let mut answer = None;
        let reference = median(
            &mut answer,
            |answer| *answer = None,
            |answer| *answer = Some(ask_reference(&input.texts)),
        );
        let said = answer.expect("an answer").said();
        for lent in [&self.plain, &self.in_memory] {
            if !lent.holds(&said) {
                println!(
                    "{}: the library answers {} with {:?}, the reference {} with {:?}",
                    input.name, lent.answered, lent.values, said.answered, said.values
                );
                std::process::exit(1);
            }
        }
        Times {
            answer: said.answered,
            library: library,
            in_memory: in_memory,
            reference: reference,
        }
    }
}

fn microseconds(time: Duration) -> String {
    format!("{:.2}", time.as_secs_f64() * 1e6)
}

fn ratio(one: Duration, other: Duration) -> String {
    format!("{:.2}", one.as_secs_f64() / other.as_secs_f64())
}

fn print_times(inputs: &[Input], library: &mut Library) -> Vec<Times> {
    println!(
        "| texts | bytes | answer | library, µs | in lent memory, µs | reference, µs \
         | library / reference | in lent memory / reference |"
    );
    println!("|---|---|---|---|---|---|---|---|");
    let mut all = Vec::new();
    for input in inputs {
        let times = library.times(input);
        let bytes: Vec<String> = input.texts.iter().map(|text| text.len().to_string()).collect();
        println!(
            "| {} | {} | {} | {} | {} | {} | {} | {} |",
            input.name,
            bytes.join(" + "),
            times.answer,
            microseconds(times.library),
            microseconds(times.in_memory),
            microseconds(times.reference),
            ratio(times.library, times.reference),
            ratio(times.in_memory, times.reference)
        );
        all.push(times);
    }
    all
}

/// The library's times for each input as multiples of its times for another one, which the heading
/// names.
fn print_multiples<'a>(
    heading: &str,
    inputs: &[Input],
    times: &[Times],
    ones: impl IntoIterator<Item = &'a Times>,
) {
    println!("| texts | {} | in lent memory |", heading);
    println!("|---|---|---|");
    for ((input, times), one) in inputs.iter().zip(times).zip(ones) {
        println!(
            "| {} | {} | {} |",
            input.name,
            ratio(times.library, one.library),
            ratio(times.in_memory, one.in_memory)
        );
    }
}

/// Each row beside the one before it, which has half as many roles.
fn print_growth(inputs: &[Input], library: &mut Library) {
    println!(
        "| texts | library, µs | times the row above | in lent memory, µs | times the row above \
         | reference, µs | times the row above |"
    );
    println!("|---|---|---|---|---|---|---|");
    let mut above: Option<Times> = None;
    for input in inputs {
        let times = library.times(input);
        let growth = |side: fn(&Times) -> Duration| {
            let times_above = above.as_ref().map(|above| ratio(side(&times), side(above)));
            format!("{} | {}", microseconds(side(&times)), times_above.unwrap_or_default())
        };
        println!(
            "| {} | {} | {} | {} |",
            input.name,
            growth(|times| times.library),
            growth(|times| times.in_memory),
            growth(|times| times.reference)
        );
        above = Some(times);
    }
}

/// The number that the header gives a name.
fn promised(name: &str) -> usize {
    HEADER
        .lines()
        .filter_map(|line| line.strip_prefix("#define ")?.split_once(' '))
        .find(|(defined, _)| *defined == name)
        .and_then(|(_, number)| number.parse().ok())
        .unwrap_or_else(|| panic!("a number called {} in the header", name))
}

/// What two functions are given, the second of which works in lent memory; and for each its name,
/// and the name in the header of the stack that it takes less than.
struct Call<'a> {
    names: [&'static str; 2],
    promises: [&'static str; 2],
    inputs: &'a [Input],
    ask: fn(&[Vec<u8>], &mut Lent),
}

/// Prints the largest stack that a call takes over its inputs, and the input it takes it for; tells
/// where that is above the promise.
fn print_stack(call: &Call, in_memory: bool) -> Option<String> {
    let name = call.names[in_memory as usize];
    let promise = call.promises[in_memory as usize];
    let mut lent = if in_memory { Lent::with_memory() } else { Lent::without_memory() };
    let mut most = (0, "");
    for input in call.inputs {
        let taken = stack::taken(&mut || (call.ask)(&input.texts, &mut lent));
        if taken > most.0 {
            most = (taken, &input.name);
        }
    }
    let (taken, text) = most;
    let promised = promised(promise);
    println!("| {} | {} | {} | {} | {} |", name, call.inputs.len(), taken, promised, text);
    let broken = format!(
        "FAILED: {} takes {} bytes of stack for {}; {} promises less than {}",
        name, taken, text, promise, promised
    );
    Some(broken).filter(|_| taken >= promised)
}

fn ask_line(texts: &[Vec<u8>], lent: &mut Lent) {
    let memory = words(&mut lent.memory, answers::MEMORY);
    lent.answered = library::check_line(&texts[0], &texts[1], &mut lent.out, memory) as u64;
}

fn ask_bad_line(texts: &[Vec<u8>], lent: &mut Lent) {
    let memory = words(&mut lent.memory, answers::MEMORY);
    lent.answered = library::bad_line(&texts[0], &texts[1], &mut lent.values, memory);
}

fn ask_bad_typing_line(texts: &[Vec<u8>], lent: &mut Lent) {
    let memory = words(&mut lent.memory, answers::MEMORY);
    lent.answered = library::bad_typing_line(&texts[0], &texts[1], &mut lent.values, memory);
}

/// Prints the stack of every function on ordinary texts and on the same with a hostile one in every
/// place, and tells which promises are broken.
fn print_stacks(
    checks: &[Input],
    merges: &[Input],
    spellings: &[Input],
    hostile: &[(String, Vec<u8>)],
) -> Vec<String> {
    let sums: Vec<Input> = merges.iter().map(sum_of).collect();
    let sums = every_place(&sums, hostile);
    let checks = every_place(checks, hostile);
    let merges = every_place(merges, hostile);
    let spellings = every_place(spellings, hostile);
    let promises = ["ARBAC_STACK", "ARBAC_LENT_STACK"];
    let calls = [
        Call {
            names: ["check", "check_in"],
            promises: promises,
            inputs: &checks,
            ask: ask_library,
        },
        Call {
            names: ["check_line", "check_line_in"],
            promises: promises,
            inputs: &checks,
            ask: ask_line,
        },
        Call {
            names: ["bad_line", "bad_line_in"],
            promises: promises,
            inputs: &checks,
            ask: ask_bad_line,
        },
        Call {
            names: ["bad_typing_line", "bad_typing_line_in"],
            promises: promises,
            inputs: &checks,
            ask: ask_bad_typing_line,
        },
        Call {
            names: ["sum", "sum_in"],
            promises: ["ARBAC_STACK", "ARBAC_LENT_MERGE_STACK"],
            inputs: &sums,
            ask: ask_library,
        },
        Call {
            names: ["merge", "merge_in"],
            promises: ["ARBAC_MERGE_STACK", "ARBAC_LENT_MERGE_STACK"],
            inputs: &merges,
            ask: ask_library,
        },
        Call {
            names: ["spell", "spell_in"],
            promises: promises,
            inputs: &spellings,
            ask: ask_library,
        },
    ];
    println!("| call | inputs | bytes of stack at most | promised below | for |");
    println!("|---|---|---|---|---|");
    let mut broken = Vec::new();
    for in_memory in [false, true] {
        broken.extend(calls.iter().filter_map(|call| print_stack(call, in_memory)));
    }
    broken
}

/// The hostile texts, each by its name, and a set of many names in every place of a policy and a
/// typing where a set can stand: in the goal it is `names.policy`, in the plus set `names.typing`.
fn hostile_texts(folder: &Path, policy: &[u8], typing: &[u8]) -> Vec<(String, Vec<u8>)> {
    let files: BTreeSet<&str> = HOSTILE.iter().flat_map(|pair| [pair.0, pair.1]).collect();
    let mut texts: Vec<(String, Vec<u8>)> =
        files.into_iter().map(|name| (name.to_string(), read(folder, name))).collect();
    let many = read(folder, "names.policy");
    let names = many.split(|byte| b"\t\n".contains(byte)).max_by_key(|field| field.len());
    let names = names.expect("a longest field");
    for (set, text, line, field) in
        [("positive", policy, 7, 2), ("negative", policy, 7, 3), ("minus", typing, 1, 3)]
    {
        texts.push((format!("names in a {} set", set), crowded(text, line, field, names)));
    }
    texts
}

fn read(folder: &Path, name: &str) -> Vec<u8> {
    match std::fs::read(folder.join(name)) {
        Ok(bytes) => bytes,
        Err(error) => {
            eprintln!("cannot read {} in {}: {}", name, folder.display(), error);
            std::process::exit(2);
        }
    }
}

fn main() {
    let arguments: Vec<String> = std::env::args().skip(1).collect();
    if arguments.len() != 1 {
        eprintln!("usage: bench FOLDER");
        std::process::exit(2);
    }
    let folder = Path::new(&arguments[0]);
    let mut library = Library { plain: Lent::without_memory(), in_memory: Lent::with_memory() };

    let desk = read(folder, "desk.policy");
    let t1 = read(folder, "t1.typing");
    let check = [
        Input::new("the desk", &[&desk, &t1]),
        // the place that `READ_ONLY` names
        read_only(128),
        full(128, Closing::OneRound),
        full(128, Closing::ManyRounds),
        trace(2_000),
    ];
    let traces = [trace_of_many(2_000, Coming::Listed), trace_of_many(2_000, Coming::Joined)];
    let merge = [halves(128, Closing::OneRound), halves(128, Closing::ManyRounds)];
    let sum: Vec<Input> = merge.iter().map(sum_of).collect();
    let spell = [
        spelt("the desk", &check[0]),
        spelt("128 roles", &full(128, Closing::OneRound)),
        full_of_has(),
        full_of_sets(),
    ];
    let reading: Vec<Input> = spell.iter().map(|input| only_read(&input.name, input)).collect();
    let hostile: Vec<Input> = HOSTILE
        .iter()
        .map(|(policy, evidence)| {
            let name = format!("{}, {}", policy, evidence);
            Input::new(&name, &[&read(folder, policy), &read(folder, evidence)])
        })
        .collect();
    let growth: Vec<Vec<Input>> = [Closing::OneRound, Closing::ManyRounds]
        .iter()
        .map(|&closing| [16, 32, 64, 128].iter().map(|&roles| full(roles, closing)).collect())
        .collect();

    println!(
        "Each time is the median of {} calls or more. The lent array and buffer are cleared",
        CALLS
    );
    println!("before each call, which is not part of the time; what the reference allocates is.");
    println!("Lent memory is noise at first, and for each call what the one before left in it.");
    println!("\n## Check\n");
    let checked = print_times(&check, &mut library);
    println!("\n## Joins and leaves\n");
    let traced = print_times(&traces, &mut library);
    println!();
    let listed = &traced[..1];
    print_multiples("times as many steps over listed users", &traces[1..], &traced[1..], listed);
    println!("\n## Sum\n");
    print_times(&sum, &mut library);
    println!("\n## Merge\n");
    print_times(&merge, &mut library);
    println!("\n## Spelling\n");
    let written = print_times(&spell, &mut library);
    println!();
    let only_read = print_times(&reading, &mut library);
    println!();
    print_multiples("times the reading of the same policy", &spell, &written, &only_read);
    println!("\n## Hostile texts\n");
    let attacked = print_times(&hostile, &mut library);
    println!();
    let full = std::iter::repeat(&checked[READ_ONLY]);
    print_multiples("times the reading of a full policy", &hostile, &attacked, full);

    println!("\n## Growth with the number of roles\n");
    for inputs in &growth {
        print_growth(inputs, &mut library);
        println!();
    }

    println!("## Stack\n");
    let checks = [check.to_vec(), traces.to_vec(), growth.concat()].concat();
    let merges = [checks.iter().map(twice).collect(), merge.to_vec()].concat();
    let spellings = checks.iter().map(|check| spelt(&check.name, check)).collect();
    let spellings = [spellings, spell.to_vec()].concat();
    let hostile = hostile_texts(folder, &desk, &t1);
    let broken = print_stacks(&checks, &merges, &spellings, &hostile);
    for broken in &broken {
        println!("{}", broken);
    }
    if !broken.is_empty() {
        std::process::exit(1);
    }
}

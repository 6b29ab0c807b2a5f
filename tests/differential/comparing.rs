//! One case given to the library, without lent memory and with it, and to the reference: answers,
//! lines, bad lines, every byte of the lent buffers and texts compared.

use crate::answers::{self, Said};
use crate::cases::Case;
use crate::chance::Chance;
use crate::lent::{shown_array, shown_buffer, Lent, LentText};
use crate::library::{self, Memory};
use crate::making::widening::Width;
use crate::reference::{self, Answer, Spelling};
use crate::rows;
use crate::tally::Tally;
use crate::texts::{Texts, TEXT_LIMIT};

/// What a call said and left, and what it had to say and leave.
pub struct Difference {
    pub call: &'static str,
    pub library: String,
    pub reference: String,
}

/// The rows for the buffers of one kind of call: exact, longer, one byte short, shorter, empty.
type Rooms = [&'static str; 5];

const LINE_ROOMS: Rooms = [
    "line buffer exact",
    "line buffer longer",
    "line buffer one byte short",
    "line buffer shorter",
    "line buffer empty",
];
const SUM_ROOMS: Rooms = [
    "sum buffer exact",
    "sum buffer longer",
    "sum buffer one byte short",
    "sum buffer shorter",
    "sum buffer empty",
];
const MERGE_ROOMS: Rooms = [
    "merge buffer exact",
    "merge buffer longer",
    "merge buffer one byte short",
    "merge buffer shorter",
    "merge buffer empty",
];

const SPELL_ROOMS: Rooms = [
    "spell buffer exact",
    "spell buffer longer",
    "spell buffer one byte short",
    "spell buffer shorter",
    "spell buffer empty",
];

/// The rows for a buffer with room for a text that is longer than a text may be.
const SUM_ABOVE: &str = "sum buffer with room for a text above 32,768 bytes";
const MERGE_ABOVE: &str = "merge buffer with room for a text above 32,768 bytes";

/// A function that works in lent memory: the least memory that it needs, and the rows for memory that
/// is exact, longer, one word short, shorter, empty.
struct InMemory {
    call: &'static str,
    least: usize,
    lengths: Rooms,
}

const LINE_IN: InMemory = InMemory {
    call: "arbac_check_line_in",
    least: answers::MEMORY,
    lengths: [
        "line memory exact",
        "line memory longer",
        "line memory one word short",
        "line memory shorter",
        "line memory empty",
    ],
};

/// A call that tells values: the least array that it tells them in, the rows for shorter ones, and
/// the same call in lent memory, with the row for an array that is too short there.
struct Told {
    call: &'static str,
    least: usize,
    one_short: &'static str,
    shorter: &'static str,
    in_memory: InMemory,
    short_in_memory: &'static str,
}

const CHECK: Told = Told {
    call: "arbac_check",
    least: answers::CHECK,
    one_short: "check array one number short",
    shorter: "check array shorter",
    in_memory: InMemory {
        call: "arbac_check_in",
        least: answers::MEMORY,
        lengths: [
            "check memory exact",
            "check memory longer",
            "check memory one word short",
            "check memory shorter",
            "check memory empty",
        ],
    },
    short_in_memory: "check array too short beside memory",
};
const BAD_LINE: Told = Told {
    call: "arbac_bad_line",
    least: answers::BAD_LINE,
    one_short: "bad line array one number short",
    shorter: "bad line array shorter",
    in_memory: InMemory {
        call: "arbac_bad_line_in",
        least: answers::MEMORY,
        lengths: [
            "bad line memory exact",
            "bad line memory longer",
            "bad line memory one word short",
            "bad line memory shorter",
            "bad line memory empty",
        ],
    },
    short_in_memory: "bad line array too short beside memory",
};
const BAD_TYPING_LINE: Told = Told {
    call: "arbac_bad_typing_line",
    least: answers::BAD_LINE,
    one_short: "bad typing line array one number short",
    shorter: "bad typing line array shorter",
    in_memory: InMemory {
        call: "arbac_bad_typing_line_in",
        least: answers::MEMORY,
        lengths: [
            "bad typing line memory exact",
            "bad typing line memory longer",
            "bad typing line memory one word short",
            "bad typing line memory shorter",
            "bad typing line memory empty",
        ],
    },
    short_in_memory: "bad typing line array too short beside memory",
};
const SUM: Told = Told {
    call: "arbac_sum",
    least: answers::SUM,
    one_short: "sum array one number short",
    shorter: "sum array shorter",
    in_memory: InMemory {
        call: "arbac_sum_in",
        least: answers::MEMORY,
        lengths: [
            "sum memory exact",
            "sum memory longer",
            "sum memory one word short",
            "sum memory shorter",
            "sum memory empty",
        ],
    },
    short_in_memory: "sum array too short beside memory",
};
const MERGE: Told = Told {
    call: "arbac_merge",
    least: answers::MERGE,
    one_short: "merge array one number short",
    shorter: "merge array shorter",
    in_memory: InMemory {
        call: "arbac_merge_in",
        least: answers::MERGE_MEMORY,
        lengths: [
            "merge memory exact",
            "merge memory longer",
            "merge memory one word short",
            "merge memory shorter",
            "merge memory empty",
        ],
    },
    short_in_memory: "merge array too short beside memory",
};
const SPELL: Told = Told {
    call: "arbac_spell",
    least: answers::SPELL,
    // an array that is too short for one number has none
    one_short: "spell array empty",
    shorter: "spell array empty",
    in_memory: InMemory {
        call: "arbac_spell_in",
        least: answers::MEMORY,
        lengths: [
            "spell memory exact",
            "spell memory longer",
            "spell memory one word short",
            "spell memory shorter",
            "spell memory empty",
        ],
    },
    short_in_memory: "spell array too short beside memory",
};

/// The library's function on the texts of the case: it gets the lent buffer, the lent array and the
/// lent memory.
type Call<'a> = &'a dyn Fn(&mut [u8], &mut [u64], Memory) -> u64;

/// What is lent for one call beside the texts: an array and a buffer of such lengths, and perhaps
/// memory.
#[derive(Clone, Copy)]
struct Lending {
    array: usize,
    room: usize,
    memory: Option<Words>,
}

/// How many words of memory, and whether the call may change them.
#[derive(Clone, Copy)]
struct Words {
    count: usize,
    may_change: bool,
}

impl Lending {
    fn without_memory(array: usize, room: usize) -> Lending {
        Lending { array: array, room: room, memory: None }
    }

    fn with_memory(self, count: usize) -> Lending {
        Lending { memory: Some(Words { count: count, may_change: true }), ..self }
    }

    /// With memory that the call leaves as it is, because the array or the memory is too short.
    fn with_idle_memory(self, count: usize) -> Lending {
        Lending { memory: Some(Words { count: count, may_change: false }), ..self }
    }
}

/// A buffer with room for every sum, also for one that is longer than a text may be, and for every
/// spelling.
const AMPLE: usize = 1 << 20;

/// Lengths of buffers where no text is to be written.
const ANY_ROOMS: [usize; 4] = [0, 1, 50, 400];

/// Gives one case to both sides. What chance decides here is what is lent.
pub fn compare(chance: &mut Chance, tally: &mut Tally, case: &Case) -> Vec<Difference> {
    let texts: Vec<LentText> = case
        .texts
        .named()
        .into_iter()
        .map(|(name, text)| LentText::new(chance, name, text))
        .collect();
    let mut comparing = Comparing {
        chance: chance,
        tally: tally,
        width: case.width,
        texts: &texts,
        differences: Vec::new(),
    };
    let text = |place: usize| texts[place].part();
    comparing.count(case.made);
    match case.texts {
        Texts::Check { .. } => comparing.check(text(0), text(1)),
        Texts::Sum { .. } => comparing.sum(text(0), text(1), text(2)),
        Texts::Merge { .. } => comparing.merge(text(0), text(1), text(2), text(3)),
        Texts::Spell { .. } => comparing.spell(text(0), text(1), text(2)),
    }
    comparing.differences
}

struct Comparing<'a> {
    chance: &'a mut Chance,
    tally: &'a mut Tally,
    width: Width,
    texts: &'a [LentText],
    differences: Vec<Difference>,
}

impl<'a> Comparing<'a> {
    fn count(&mut self, row: &'static str) {
        self.tally.count(row, self.width);
    }

    fn differ(&mut self, call: &'static str, library: String, reference: String) {
        self.differences.push(Difference { call: call, library: library, reference: reference });
    }

    /// The answer; often its line, which is made from the same answer; the bad line, seldom where
    /// there is none; and now and then the bad line where a typing is wanted.
    fn check(&mut self, policy: &[u8], evidence: &[u8]) {
        let answer = reference::check(policy, evidence);
        self.count(rows::check(policy, evidence, &answer));
        self.told(&CHECK, 0, &Said::check(&answer), &|_, values, memory| {
            library::check(policy, evidence, values, memory)
        });
        if self.chance.one_in(2) {
            self.line(policy, evidence, &answer);
        }
        if matches!(answer, Answer::Refused { .. }) || self.chance.one_in(4) {
            self.bad_line(policy, evidence, &answer);
        }
        if self.chance.one_in(4) {
            self.bad_typing_line(policy, evidence);
        }
    }

    fn line(&mut self, policy: &[u8], evidence: &[u8], answer: &Answer) {
        let mut said = Said::line(answer);
        let room = self.room(said.text.len(), LINE_ROOMS);
        if said.text.len() > room {
            said = Said::no_line();
        }
        let lending = Lending::without_memory(0, room);
        let call: Call =
            &|line, _, memory| library::check_line(policy, evidence, line, memory) as u64;
        self.call("arbac_check_line", lending, &said, call);
        self.in_memory(&LINE_IN, lending, &said, &Said::no_line(), call);
    }

    fn bad_line(&mut self, policy: &[u8], evidence: &[u8], answer: &Answer) {
        let bad = reference::bad_line(policy, evidence);
        self.count(rows::bad_line(answer, &bad));
        self.told(&BAD_LINE, 0, &Said::bad_line(&bad), &|_, place, memory| {
            library::bad_line(policy, evidence, place, memory)
        });
    }

    fn bad_typing_line(&mut self, policy: &[u8], typing: &[u8]) {
        let bad = reference::bad_typing_line(policy, typing);
        self.count(rows::bad_typing_line(typing, &bad));
        self.told(&BAD_TYPING_LINE, 0, &Said::bad_line(&bad), &|_, place, memory| {
            library::bad_typing_line(policy, typing, place, memory)
        });
    }

    fn sum(&mut self, policy: &[u8], first: &[u8], second: &[u8]) {
        let ample = Said::sum(&reference::sum(policy, first, second, AMPLE));
        let room = self.room_for(&ample, SUM_ROOMS, SUM_ABOVE);
        let answer = reference::sum(policy, first, second, room);
        self.count(rows::sum(&answer));
        self.told(&SUM, room, &Said::sum(&answer), &|out, values, memory| {
            library::sum(policy, first, second, out, values, memory)
        });
    }

    fn merge(&mut self, policy_1: &[u8], typing_1: &[u8], policy_2: &[u8], typing_2: &[u8]) {
        let ample = Said::merge(&reference::merge(policy_1, typing_1, policy_2, typing_2, AMPLE));
        let room = self.room_for(&ample, MERGE_ROOMS, MERGE_ABOVE);
        let answer = reference::merge(policy_1, typing_1, policy_2, typing_2, room);
        self.count(rows::merge(&answer));
        self.told(&MERGE, room, &Said::merge(&answer), &|out, values, memory| {
            library::merge(policy_1, typing_1, policy_2, typing_2, out, values, memory)
        });
    }

    /// The policy's spelling. Where there is one, its text in another order and the spelling itself
    /// are spelt alike, and the spelling is checked as the policy is.
    fn spell(&mut self, policy: &[u8], reordered: &[u8], evidence: &[u8]) {
        self.spelt(policy, policy);
        match reference::spell(policy, AMPLE) {
            Spelling::Done { text, .. } => {
                let spelling = LentText::new(self.chance, "spelling", &text);
                let spelling = spelling.part();
                self.count("a policy in another order, spelt alike");
                self.spelt(reordered, policy);
                self.count("a spelling that is spelt again");
                self.spelt(spelling, policy);
                self.count("a spelling that is checked");
                let answer = reference::check(policy, evidence);
                self.told(&CHECK, 0, &Said::check(&answer), &|_, values, memory| {
                    library::check(spelling, evidence, values, memory)
                });
            }
            Spelling::Refused { .. } => {
                self.count("a refused policy in another order");
                self.spelt(reordered, reordered);
            }
        }
    }

    /// The library spells one text, and the reference another that is to be spelt alike.
    fn spelt(&mut self, policy: &[u8], alike: &[u8]) {
        let room = match reference::spell(alike, AMPLE) {
            Spelling::Done { text, .. } => self.room(text.len(), SPELL_ROOMS),
            Spelling::Refused { .. } => self.chance.pick(&ANY_ROOMS),
        };
        let answer = reference::spell(alike, room);
        self.count(rows::spell(policy, &answer));
        self.told(&SPELL, room, &Said::spell(&answer), &|out, values, memory| {
            library::spell(policy, out, values, memory)
        });
    }

    /// The length of the buffer that both sides are asked with, where the answer in an ample one is
    /// known: it goes by the text that is to be written; where that is longer than a text may be,
    /// there is room for it; and otherwise it goes by nothing.
    fn room_for(&mut self, ample: &Said, rooms: Rooms, above: &'static str) -> usize {
        match ample.answered {
            0 => self.room(ample.text.len(), rooms),
            18 => {
                self.count(above);
                TEXT_LIMIT + self.chance.between(1, 40)
            }
            _ => self.chance.pick(&ANY_ROOMS),
        }
    }

    /// A buffer's length beside that of the text that is to go into it.
    fn room(&mut self, length: usize, rooms: Rooms) -> usize {
        let kind = self.chance.pick(&[0, 0, 1, 1, 1, 2, 3, 4]);
        self.count(rooms[kind]);
        match kind {
            0 => length,
            1 if self.chance.one_in(64) => length.max(TEXT_LIMIT) + self.chance.below(3),
            1 => length + self.chance.between(1, 40),
            2 => length - 1,
            3 => self.chance.between(1, length - 2),
            _ => 0,
        }
    }

    /// The call with an array that is long enough, without memory and in it; and now and then once
    /// more with an array that is not: nothing is then told or written, whatever the memory.
    fn told(&mut self, told: &Told, room: usize, wanted: &Said, call: Call) {
        let array = told.least + self.chance.pick(&[0, 0, 1, 5]);
        let lending = Lending::without_memory(array, room);
        self.call(told.call, lending, wanted, call);
        self.in_memory(&told.in_memory, lending, wanted, &Said::no_memory(), call);
        if self.chance.one_in(16) {
            let one_short = self.chance.one_in(2);
            self.count(if one_short { told.one_short } else { told.shorter });
            let fewer = (told.least - 1).max(1);
            let array = if one_short { told.least - 1 } else { self.chance.below(fewer) };
            let lending = Lending::without_memory(array, room);
            self.call(told.call, lending, &Said::no_room(), call);
            self.count(told.short_in_memory);
            let least = told.in_memory.least;
            let lending = lending.with_idle_memory(self.chance.pick(&[0, least - 1, least]));
            self.call(told.in_memory.call, lending, &Said::no_room(), call);
        }
    }

    /// The call in memory that is long enough, and now and then once more in memory that is not.
    fn in_memory(
        &mut self,
        lent: &InMemory,
        lending: Lending,
        wanted: &Said,
        without: &Said,
        call: Call,
    ) {
        let kind = self.chance.below(2);
        self.count(lent.lengths[kind]);
        let count = lent.least + kind * self.chance.between(1, 40);
        self.call(lent.call, lending.with_memory(count), wanted, call);
        if self.chance.one_in(8) {
            let kind = self.chance.between(2, 4);
            self.count(lent.lengths[kind]);
            let count = match kind {
                2 => lent.least - 1,
                3 => self.chance.between(1, lent.least - 2),
                _ => 0,
            };
            self.call(lent.call, lending.with_idle_memory(count), without, call);
        }
    }

    /// One call, with all that is lent as it is afterwards.
    fn call(&mut self, name: &'static str, lending: Lending, wanted: &Said, call: Call) {
        let mut values: Lent<u64> = Lent::new(self.chance, lending.array);
        let mut buffer: Lent<u8> = Lent::new(self.chance, lending.room);
        let mut memory: Option<Lent<u64>> =
            lending.memory.map(|words| Lent::memory(self.chance, words.count));
        let answered = call(buffer.part(), values.part(), memory.as_mut().map(Lent::part));
        let wanted_values = values.with(&wanted.values);
        let wanted_buffer = buffer.with(&wanted.text);
        let same = answered == wanted.answered
            && values.all == wanted_values
            && buffer.all == wanted_buffer;
        if !same {
            let shown = |answered: u64, values: &[u64], buffer: &[u8]| {
                format!("answers {}\n", answered) + &shown_array(values) + &shown_buffer(buffer)
            };
            self.differ(
                name,
                shown(answered, &values.all, &buffer.all),
                shown(wanted.answered, &wanted_values, &wanted_buffer),
            );
        }
        if let (Some(memory), Some(words)) = (memory, lending.memory) {
            if !memory.is_kept_around() {
                self.differ(name, "writes around memory\n".to_string(), "keeps it\n".to_string());
            } else if !words.may_change && !memory.is_kept() {
                self.differ(name, "changes memory\n".to_string(), "changes none\n".to_string());
            }
        }
        for text in self.texts.iter().filter(|text| !text.is_kept()) {
            self.differ(name, format!("changes {}\n", text.name), "changes no text\n".to_string());
        }
    }
}

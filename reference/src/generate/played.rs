//! Calls that are played as lists and one by one in turn, with as much lent as
//! they need, with too little, and with more; and lists at their limits.

use super::author::{Author, Script};
use super::chosen_words::{accepted, refused, words_of_run, Refused};
use super::operands::{any_form, any_word, mask};
use super::random::Random;
use super::walks::{setup, some_addresses};
use crate::encoder::decode;
use crate::list::{Call, MOST_CALLS, MOST_WORDS};
use crate::player::form_line;
use crate::recorded::Recorded;
use crate::script::MOST_LISTED;

/// Machines in a script, and lists on each.
const MACHINES: usize = 50;
const LISTS: usize = 20;

/// Lists on small machines. Before each one any line that ends a list may
/// stand, and the way of playing, the states and what is lent may change. The
/// last list is ended by the end of the script.
pub fn changing(random: &mut Random) -> Script {
    let mut author = Author::default();
    author.line("play=1");
    for _ in 0..MACHINES {
        machine(&mut author, random);
        for _ in 0..LISTS {
            let mended = broken_now_and_then(&mut author, random);
            let line = other_line(random, author.recorded());
            list(&mut author, random, &line);
            if let Some(line) = mended {
                author.line(&line);
            }
        }
    }
    list(&mut author, random, "play=1");
    author.finish()
}

/// Calls after a line that ends the list before them.
fn list(author: &mut Author, random: &mut Random, line: &str) {
    author.line(line);
    let calls = calls(random, author.recorded());
    lend(author, random, &calls);
    calls.iter().for_each(|call| write(author, random, call));
}

/// A machine with a history, in which some steps may be held from the start.
fn machine(author: &mut Author, random: &mut Random) {
    let granules = random.pick(&[0, 1, 2, 2, 3, 4]);
    setup(author, random, granules);
    some_addresses(author, random);
    let slots = random.pick(&[0, 1, 2, 3, 7]);
    author.history(8 * slots + random.below(8));
    if slots > 0 {
        let held = random.pick(&[0, 0, 1, slots]);
        author.cursor(random.below(slots), held);
    }
}

/// Now and then a line that breaks a rule of the setup, and the line that
/// mends it.
fn broken_now_and_then(author: &mut Author, random: &mut Random) -> Option<String> {
    if !random.one_in(6) {
        return None;
    }
    let Recorded { next, held, .. } = *author.recorded();
    let data = author.machine().data.len();
    let (broken, mended) = match random.below(5) {
        0 => ("nzcv=10".into(), "nzcv=0f".into()),
        1 => ("rgsr=ff".into(), "rgsr=01".into()),
        2 => (format!("data={:08x}", data + 1), format!("data={data:08x}")),
        3 => ("next=ffffffffffffffff".into(), format!("next={next:016x}")),
        _ => ("held=0000000000000101".into(), format!("held={held:016x}")),
    };
    author.line(&broken);
    Some(mended)
}

/// Any line that ends a list. On a well-formed setup it keeps to the rules.
fn other_line(random: &mut Random, recorded: &Recorded) -> String {
    let machine = &recorded.machine;
    let slots = recorded.slots();
    match random.below(32) {
        0..=2 => format!("dump={}", random.below(2)),
        3 | 4 => "play=1".into(),
        5 => "play=0".into(),
        6 | 7 => "show".into(),
        8 => format!("access={}", random.below(2)),
        9 => format!("exclude={:04x}", mask(random)),
        10 => format!("nzcv={:02x}", random.below(16)),
        11 => format!("rgsr={:02x}", random.below(16)),
        12 => format!("seed={:04x}", random.bits() as u16),
        13 if recorded.cursor_well_formed() => {
            format!("next={:016x}", random.below(slots.max(1)))
        }
        14 if recorded.cursor_well_formed() => format!("held={:016x}", random.below(slots + 1)),
        15 => format!("tags={:08x}", machine.tags.len()),
        16 => format!("data={:08x}", machine.data.len()),
        17 => format!("history={:08x}", 8 * slots + random.below(8)),
        18 => format!("x={:02x} {:016x}", random.below(32), machine.base),
        19 => format!("tag={:08x} {:02x}", random.below(4), random.below(256)),
        20 => format!("byte={:08x} {:02x}", random.below(64), random.below(256)),
        21 => format!("log={:08x} {:016x}", random.below(8), random.bits()),
        22 => format!("decode={:08x}", random.bits() as u32),
        23 => format!("choose={:x} 1 {:04x}", random.below(16), mask(random)),
        24 => format!("draw={:04x}", random.bits() as u16),
        25 => format!("reach={:016x}", machine.base | random.below(16) << 56),
        26 => {
            let form = any_form(random);
            let (form, values) = decode(any_word(random, form)).expect("a word of a form");
            form_line(form, &values)
        }
        27 if random.one_in(2) => format!("fresh={:016x}", machine.base),
        _ => any_loan(random),
    }
}

fn any_loan(random: &mut Random) -> String {
    let (most_calls, most_words) = (MOST_CALLS as u64, MOST_WORDS as u64);
    let places = [0, 1, 8, most_calls - 1, most_calls, most_calls + 1, 1 << 31];
    let words = [
        0,
        1,
        8,
        most_words - 1,
        most_words,
        most_words + 1,
        0xFFFF_FFFF,
    ];
    loan(
        random.pick(&places),
        random.pick(&places),
        random.pick(&words),
    )
}

fn loan(codes: u64, counts: u64, words: u64) -> String {
    format!("lend={codes:08x} {counts:08x} {words:08x}")
}

/// Lends for these calls exactly enough, one too few of a thing or of two,
/// nothing, or much; or leaves it.
fn lend(author: &mut Author, random: &mut Random, calls: &[Call]) {
    let words: usize = calls.iter().map(Call::words).sum();
    let (calls, words) = (calls.len() as u64, words as u64);
    let (fewer_calls, fewer_words) = (calls - 1, words.saturating_sub(1));
    let more = random.pick(&[0, 1, 5, 0xF000_0000]);
    let line = match random.below(25) {
        0 | 1 => loan(calls, calls, words),
        2 => loan(fewer_calls, calls + more, words + more),
        3 => loan(calls + more, fewer_calls, words + more),
        4 => loan(calls + more, calls + more, fewer_words),
        5 => loan(fewer_calls, calls, fewer_words),
        6 => loan(calls, fewer_calls, fewer_words),
        7 => loan(0, calls + more, words + more),
        8 => loan(calls + more, 0, words + more),
        9 => loan(calls + more, calls + more, 0),
        10 => loan(0, 0, 0),
        11 => any_loan(random),
        12 => loan(fewer_calls, fewer_calls, words + more),
        13..=22 => loan(calls + more, calls + more, words + more),
        _ => return,
    };
    author.line(&line);
}

/// At least one call. Some lists take no words.
fn calls(random: &mut Random, recorded: &Recorded) -> Vec<Call> {
    let mut ahead = recorded.clone();
    let count = random.pick(&[1, 1, 2, 3, 5, 8, 12, 20]);
    let wordless = random.one_in(8);
    let call = |_| {
        let call = match random.below(8) {
            0..=2 => Call::Back,
            3 => Call::Run(Vec::new()),
            _ if wordless => Call::Back,
            4 | 5 => run(random, &ahead),
            _ => step(random, &ahead),
        };
        carry_out(&mut ahead, &call);
        call
    };
    (0..count).map(call).collect()
}

fn run(random: &mut Random, recorded: &Recorded) -> Call {
    let count = random.pick(&[1, 1, 2, 3, 5]);
    let refusal = match random.below(4) {
        0 => Refused::At(random.below(count as u64) as usize),
        _ => Refused::Nowhere,
    };
    Call::Run(words_of_run(random, &recorded.machine, count, refusal))
}

fn step(random: &mut Random, recorded: &Recorded) -> Call {
    let word = match random.below(5) {
        0 => None,
        _ => accepted(random, &recorded.machine),
    };
    Call::Step(word.unwrap_or_else(|| refused(random, &recorded.machine)))
}

fn carry_out(recorded: &mut Recorded, call: &Call) {
    match call {
        Call::Step(word) => drop(recorded.step(*word)),
        Call::Run(words) => drop(recorded.run(words)),
        Call::Back => drop(recorded.step_back()),
    }
}

/// The lines of a call, with others between that do not end a list.
fn write(author: &mut Author, random: &mut Random, call: &Call) {
    match call {
        Call::Step(word) => author.word(*word),
        Call::Run(words) => author.run(words),
        Call::Back => author.back(),
    }
    match random.below(12) {
        0 => author.line(""),
        1 => author.line("# remark"),
        2 => author.line(&format!("list={:08x} {:08x}", random.below(4), 0)),
        _ => {}
    }
}

/// What is lent to the lists at their limits: the most, and one too few of one
/// thing or of two.
const LOANS: [&str; 6] = [
    "lend=00001000 00001000 00004000",
    "lend=ffffffff ffffffff ffffffff",
    "lend=00000fff 00001000 00004000",
    "lend=00001000 00000fff 00004000",
    "lend=00001000 00001000 00003fff",
    "lend=00000fff 00001000 00003fff",
];

/// As many calls in a row as a list may have, one fewer, one more, and twice
/// as many and one more.
pub fn most_calls() -> Script {
    let mut author = Author::default();
    for line in ["back", "word=91810421", "run=00000000"] {
        for count in [
            MOST_CALLS - 1,
            MOST_CALLS,
            MOST_CALLS + 1,
            2 * MOST_CALLS + 1,
        ] {
            at_limits(&mut author, &LOANS[..1], &[(line, count)]);
        }
    }
    at_limits(&mut author, &LOANS[1..], &[("back", MOST_CALLS + 1)]);
    author.finish()
}

/// Lines with how many of each stand in a row: runs and steps that take as many
/// words as the calls of a list may, one fewer, one more, and more than that.
#[rustfmt::skip]
const MANY_WORDS: [&[(&str, usize)]; 12] = [
    &[("run=00001000", 3), ("run=00000fff", 1)],
    &[("run=00001000", 3), ("run=00000fff", 1), ("run=00000001", 1)],
    &[("run=00001000", 3), ("run=00000fff", 1), ("run=00000002", 1)],
    &[("run=00001000", 3), ("run=00000fff", 1), ("word=91810421", 1)],
    &[("run=00001000", 3), ("run=00000fff", 1), ("word=91810421", 2)],
    &[("run=00000ff0", 4), ("word=91810421", 0x3F)],
    &[("run=00000ff0", 4), ("word=91810421", 0x40)],
    &[("run=00000ff0", 4), ("word=91810421", 0x41), ("back", 3)],
    &[("run=00001000", 4)],
    &[("run=00001000", 4), ("run=00000001", 1)],
    &[("run=00001000", 4), ("back", 2), ("run=00000000", 1), ("word=91810421", 1), ("back", 1)],
    &[("run=00001000", 9)],
];

/// As many calls as a list may have, which take as many words as they may, and
/// a call more that takes none, or one.
#[rustfmt::skip]
const MOST_OF_BOTH: [&[(&str, usize)]; 3] = [
    &[("run=00000c01", 4), ("word=91810421", 0xFFC)],
    &[("run=00000c01", 4), ("word=91810421", 0xFFC), ("back", 1)],
    &[("run=00000c01", 4), ("word=91810421", 0xFFC), ("word=91810421", 1)],
];

pub fn most_words() -> Script {
    let mut author = Author::default();
    for lines in MANY_WORDS.iter().chain(&MOST_OF_BOTH) {
        at_limits(&mut author, &LOANS, lines);
    }
    author.finish()
}

/// Each loan with these calls on a small machine that has two slots. All words
/// of the list and all steps are done.
fn at_limits(author: &mut Author, loans: &[&str], lines: &[(&str, usize)]) {
    author.fresh(0x1000);
    author.granules(4);
    author.history(16);
    author.register(0, 0x0500_0000_0000_1000);
    author.line("dump=0");
    author.line("play=1");
    if lines.iter().any(|(line, _)| line.starts_with("run=")) {
        list_words(author);
    }
    for loan in loans {
        author.line(loan);
        for &(line, count) in lines {
            (0..count).for_each(|_| author.line(line));
        }
        author.show();
    }
}

/// STG X0, [X0] and ADDG X1, X1, #16, #1 in turn.
fn list_words(author: &mut Author) {
    for index in 0..MOST_LISTED {
        let word = [0xD920_0800_u32, 0x9181_0421][index % 2];
        author.line(&format!("list={index:08x} {word:08x}"));
    }
}

#[cfg(test)]
mod tests {
    use super::*;
    use crate::code::Code;
    use crate::list_facts::{BEGUN, ENDED, LENT, SIZE};
    use crate::script::MOST_BYTES;
    use crate::tally::Tally;

    #[test]
    fn lists_end_in_every_way() {
        let tally = tally(changing(&mut Random::new(1)));
        for code in [Code::Done, Code::NoRoom, Code::NoWords] {
            assert!(tally.lists.ended(code) > 20, "{code:?}");
        }
        for name in [
            "exactly enough",
            "a code too few alone",
            "a count too few alone",
        ] {
            assert!(tally.cases(LENT, name) > 5, "{name}");
        }
        for name in ["held = 0, Done", "held > 0, Done", "malformed setup, Done"] {
            assert!(tally.cases(BEGUN, name) > 5, "{name}");
        }
        assert!(tally.beside.calls > 500);
    }

    /// What a script did that is not too long.
    fn tally(script: Script) -> Tally {
        assert!(script.text.len() <= MOST_BYTES);
        script.played.tally
    }

    #[test]
    fn calls_come_to_their_limit() {
        let tally = tally(most_calls());
        assert_eq!(tally.cases(SIZE, "4095 calls"), 3);
        // Alone, with one call more, twice with as many and one more; and with
        // five other loans, three of which are too few places.
        assert_eq!(tally.cases(SIZE, "4096 calls"), 3 * (1 + 1 + 2) + 5);
        assert_eq!(tally.cases(ENDED, "a call too many"), 3 * (1 + 2) + 5);
        assert_eq!(tally.lists.ended(Code::NoRoom), 3);
        assert_eq!(tally.lists.longest, 0x1000);
    }

    #[test]
    fn words_come_to_their_limit() {
        let tally = tally(most_words());
        assert!(tally.cases(SIZE, "16383 words") >= 2 * LOANS.len() as u64);
        assert!(tally.cases(SIZE, "16384 words") >= 8 * LOANS.len() as u64);
        for name in ["words too many", "a call too many", "both too many"] {
            assert!(tally.cases(ENDED, name) >= LOANS.len() as u64, "{name}");
        }
        assert!(tally.lists.ended(Code::NoWords) > 0);
        assert!(tally.lists.ended(Code::NoRoom) > 0);
        assert_eq!(tally.runs(Code::Undefined), 0);
    }
}

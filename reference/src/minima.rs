//! What the scripts must at least have made, so that a generator that stops
//! making a case is found out.

use crate::code::Code;
use crate::facts::{MALFORMED, RESTORED, RING, RUN, RUNS, STEPS, STEPS_BACK};
use crate::generate::lists::{self, SLOTS};
use crate::generate::records::{BITS, ONTO};
use crate::generate::{rows, LONGEST_LISTS, PLAYED_LISTS, WHOLE};
use crate::list_facts::{BEGUN, BETWEEN, ENDED, LENT, SIZE, STATE};
use crate::reach_facts::{BROKEN, PART, PLACE, REGARDLESS};
use crate::tally::Tally;
use crate::trials::Summary;
use crate::words::FORMS;

const CURSORS: [&str; 14] = [
    "C = 0",
    "C = 0, held not 0",
    "C = 0, next not 0",
    "C = 0, neither 0",
    "next = C - 1",
    "next = C",
    "next = C + 1",
    "next = 2^64 - 1",
    "held = 0",
    "held = C",
    "held = C + 1",
    "held = 2^64 - 1",
    "history no multiple of 8",
    "malformed without the cursor",
];

const FAULTS: [&str; 15] = [
    "register above 32",
    "bits 7:6",
    "granules 3",
    "data saved, no granules",
    "bits 15:11",
    "first tag not in use",
    "second tag not in use",
    "bits 63:56",
    "word 1 not in use",
    "word 2 not in use",
    "words 3 and 4 not in use",
    "words 5 and 6 not in use",
    "word 7",
    "granules beyond G",
    "several faults",
];

const RUN_ENDS: [(&str, u64); 14] = [
    ("no words, none refused", 1000),
    ("no words, malformed setup", 1000),
    ("one word, none refused", 500),
    ("one word, the first refused", 500),
    ("one word, malformed setup", 300),
    ("several words, none refused", 2000),
    ("several words, the first refused", 1000),
    ("several words, one in the middle refused", 1000),
    ("several words, the last refused", 1000),
    ("several words, malformed setup", 1000),
    ("4096 words, none refused", 1),
    ("4096 words, the first refused", 1),
    ("4096 words, one in the middle refused", 1),
    ("4096 words, the last refused", 1),
];

const RECORDS: [(&str, u64); 11] = [
    ("well-formed", 300),
    ("a bit of word 0 changed", 20_000),
    ("a word not in use", 2500),
    ("a tag not in use", 250),
    ("word 7 not zero", 1000),
    ("an index near G", 1000),
    ("an index far beyond G", 2000),
    ("a bit of words 1 to 6 changed", 2000),
    ("random words", 500),
    ("random word 0", 500),
    ("made-up histories", 3000),
];

const STEPS_BACK_ENDS: [(Code, u64); 4] = [
    (Code::Done, 40_000),
    (Code::Setup, 2000),
    (Code::NoHistory, 10_000),
    (Code::BadRecord, 15_000),
];

const RUN_CODES: [(Code, u64); 6] = [
    (Code::Done, 5000),
    (Code::Setup, 2500),
    (Code::Undefined, 2000),
    (Code::SpAlign, 50),
    (Code::Align, 200),
    (Code::Outside, 2000),
];

const REACHES: [(&str, &str, u64); 41] = [
    (PLACE, "no granules", 700),
    (PLACE, "the first byte", 1000),
    (PLACE, "the second byte", 150),
    (PLACE, "the second granule", 200),
    (PLACE, "the last granule", 600),
    (PLACE, "the last byte", 400),
    (PLACE, "within a granule", 6000),
    (PLACE, "a granule's start", 1500),
    (PLACE, "a byte before the base", 400),
    (PLACE, "a granule before the base", 400),
    (PLACE, "the end", 300),
    (PLACE, "a byte after the end", 300),
    (PLACE, "a granule after the end", 300),
    (PLACE, "bits 63:60 not zero", 5000),
    (PLACE, "an end at 2^56", 2000),
    (PLACE, "a carry, at location 0", 400),
    (PLACE, "a carry, inside", 1000),
    (PLACE, "far outside", 900),
    (PART, "nothing", 10_000),
    (PART, "mismatch at once", 4000),
    (PART, "mismatch at once, high bits alike", 400),
    (PART, "high bits of its own tag byte", 2000),
    (PART, "ended by another tag", 1000),
    (PART, "ended by another tag, high bits alike", 200),
    (PART, "up to the end of memory", 2500),
    (PART, "one byte", 400),
    (PART, "several granules", 1300),
    (PART, "all of the memory", 400),
    (PART, "all of the largest memory", 2),
    (PART, "a part whose ends show", 2500),
    (BROKEN, "data one byte off", 40),
    (BROKEN, "data some bytes off", 100),
    (BROKEN, "65537 tags", 15),
    (BROKEN, "more tags", 5),
    (BROKEN, "base no multiple of 16", 200),
    (BROKEN, "end beyond 2^56", 40),
    (BROKEN, "base 2^56 or more", 400),
    (REGARDLESS, "NZCV", 200),
    (REGARDLESS, "RGSR's tag", 200),
    (REGARDLESS, "the cursor", 200),
    (REGARDLESS, "tag access", 1500),
];

const LIST_CODES: [(Code, u64); 3] = [
    (Code::Done, 4000),
    (Code::NoRoom, 2000),
    (Code::NoWords, 400),
];

const LOANS: [(&str, u64); 13] = [
    ("exactly enough", 700),
    ("a code too few alone", 300),
    ("a count too few alone", 300),
    ("a word too few alone", 200),
    ("a code and a count too few", 150),
    ("a code and a word too few", 150),
    ("a count and a word too few", 150),
    ("no codes alone", 300),
    ("no counts alone", 300),
    ("no words alone, some taken", 200),
    ("no words, none taken", 300),
    ("nothing", 200),
    ("the most", 200),
];

const LIST_SIZES: [(&str, u64); 6] = [
    ("one call", 1500),
    ("several calls", 4000),
    ("no words", 1500),
    ("some words", 4000),
    ("an empty run among them", 2500),
    ("runs of words listed anew", 1500),
];

const LIST_LIMITS: [(&str, &str, u64); 7] = [
    (SIZE, "4095 calls", 3),
    (SIZE, "4096 calls", 20),
    (SIZE, "16383 words", 10),
    (SIZE, "16384 words", 40),
    (ENDED, "a call too many", 10),
    (ENDED, "words too many", 20),
    (ENDED, "both too many", 3),
];

const LIST_ENDS: [&str; 24] = [
    "fresh", "access", "exclude", "nzcv", "rgsr", "seed", "next", "held", "tags", "data",
    "history", "x", "tag", "byte", "log", "dump", "play", "lend", "show", "decode", "a form",
    "choose", "draw", "reach",
];

/// Pairs of a kind that are made once, and those that are random.
const PAIRS: [(&str, u64, u64); 13] = [
    ("rows of the paper", 1, 0),
    ("rules of the setup", 2, 1),
    ("random walks", 0, 3),
    ("largest memory", 0, 1),
    ("near words", 0, 2),
    ("lists of calls", 0, 60),
    ("cursors", 0, 1),
    ("runs", 0, 1),
    ("longest runs", 0, 1),
    ("damaged records", 0, 40),
    ("made-up histories", 0, 2),
    ("reach", 0, 8),
    ("kept bytes", 0, 1),
];

const PAIRED_STEPS_BACK: [(Code, u64); 4] = [
    (Code::Done, 20_000),
    (Code::Setup, 2000),
    (Code::NoHistory, 8000),
    (Code::BadRecord, 10_000),
];

/// A line for each count that is below its minimum. With so many times as
/// many random scripts there must be so many times as much.
pub fn wanting(scripts: &Summary, pairs: &Summary, times: u64) -> Vec<String> {
    let one_by_one = |kind: &str| kind != PLAYED_LISTS && kind != LONGEST_LISTS;
    let lists = scripts.tally_where(|kind| kind == PLAYED_LISTS);
    let longest = scripts.tally_where(|kind| kind == LONGEST_LISTS);
    [
        wanting_of_calls(&scripts.tally_where(one_by_one), times),
        wanting_of_lists(&lists, times),
        wanting_of_longest_lists(&longest),
        wanting_of_pairs(pairs, times),
    ]
    .concat()
}

/// Of scripts whose calls are played one by one.
fn wanting_of_calls(tally: &Tally, times: u64) -> Vec<String> {
    let mut counts = Counts::of(tally, times);
    counts.lists();
    counts.calls();
    counts.records();
    counts.reaches();
    for group in [STEPS, RUNS, STEPS_BACK] {
        CURSORS
            .iter()
            .for_each(|name| counts.case(group, name, 100));
    }
    rows::names().for_each(|name| counts.once("rows of the paper", name, 1));
    counts.once(WHOLE, "bad", 1000);
    counts.once(WHOLE, "played", 20);
    counts.wanting
}

/// Of scripts whose calls are played as lists.
fn wanting_of_lists(tally: &Tally, times: u64) -> Vec<String> {
    let mut counts = Counts::of(tally, times);
    for (code, minimum) in LIST_CODES {
        let name = format!("lists played as one, {code:?}");
        counts.many(&name, tally.lists.ended(code), minimum);
        for on in ["held = 0", "held > 0", "malformed setup"] {
            counts.case(BEGUN, &format!("{on}, {code:?}"), 70);
        }
        for state in ["written", "not written"] {
            counts.case(STATE, &format!("{state}, {code:?}"), 150);
        }
    }
    counts.many("calls of lists played as one", tally.lists.calls, 20_000);
    counts.many(
        "calls of lists beside the plain machine",
        tally.beside.calls,
        20_000,
    );
    for (name, minimum) in LOANS {
        counts.case(LENT, name, minimum);
    }
    for (name, minimum) in LIST_SIZES {
        counts.case(SIZE, name, minimum);
    }
    LIST_ENDS
        .iter()
        .for_each(|name| counts.case(ENDED, name, 100));
    counts.case(ENDED, "the end of the script", 15);
    counts.case(BETWEEN, "list", 15_000);
    counts.case(BETWEEN, "passed over", 4000);
    counts.wanting
}

/// Of lists at their limits, which are the same however many random scripts
/// there are.
fn wanting_of_longest_lists(tally: &Tally) -> Vec<String> {
    let mut counts = Counts::of(tally, 1);
    counts.at_least("calls of the longest list", tally.lists.longest, 4096);
    for (code, minimum) in [(Code::Done, 70), (Code::NoRoom, 6), (Code::NoWords, 10)] {
        let name = format!("lists at their limits, {code:?}");
        counts.at_least(&name, tally.lists.ended(code), minimum);
    }
    for (group, name, minimum) in LIST_LIMITS {
        counts.once(group, name, minimum);
    }
    counts.wanting
}

/// Of scripts that are played in both ways.
fn wanting_of_pairs(pairs: &Summary, times: u64) -> Vec<String> {
    let tally = pairs.tally();
    let mut counts = Counts::of(&tally, times);
    for (kind, once, random) in PAIRS {
        let name = format!("{kind}, both ways");
        counts.at_least(&name, pairs.trials(kind), once + times * random);
    }
    counts.many("lines alike both ways", tally.lines_both_ways, 300_000);
    let lists = &tally.lists;
    counts.many("lists of pairs", lists.ended(Code::Done), 50_000);
    counts.many("calls of lists of pairs", lists.calls, 150_000);
    counts.at_least("calls of the longest list of a pair", lists.longest, 1000);
    counts.many(
        "calls of pairs beside the plain machine",
        tally.beside.calls,
        100_000,
    );
    for (on, minimum) in [
        ("held = 0", 25_000),
        ("held > 0", 25_000),
        ("malformed setup", 1500),
    ] {
        let name = format!("{on}, {:?}", Code::Done);
        counts.many(
            &format!("lists of pairs begun: {name}"),
            tally.cases(BEGUN, &name),
            minimum,
        );
    }
    for (code, minimum) in PAIRED_STEPS_BACK {
        let name = format!("steps back of pairs, {code:?}");
        counts.many(&name, tally.steps_back(code), minimum);
    }
    for (code, minimum) in RUN_CODES {
        let name = format!("runs of pairs, {code:?}");
        counts.many(&name, tally.runs(code), minimum);
    }
    for form in &FORMS {
        let name = format!("{} in pairs, accepted", form.name);
        counts.many(&name, tally.words(form, Code::Done), 2000);
    }
    counts.wanting
}

/// Counts that are held to their minima, and a line for each that is below.
pub(crate) struct Counts<'a> {
    tally: &'a Tally,
    times: u64,
    pub(crate) wanting: Vec<String>,
}

impl<'a> Counts<'a> {
    pub(crate) fn of(tally: &'a Tally, times: u64) -> Counts<'a> {
        Counts {
            tally,
            times,
            wanting: Vec::new(),
        }
    }
}

impl Counts<'_> {
    fn lists(&mut self) {
        let mut all = 0;
        for slots in SLOTS {
            let name = format!("C = {slots}");
            all += self.tally.cases(lists::GROUP, &name);
            self.case(lists::GROUP, &name, 900);
        }
        self.many("random lists", all, 5000);
        let beside = &self.tally.beside;
        self.many("lists beside the plain machine", beside.lists, 50_000);
        self.many("calls beside the plain machine", beside.calls, 150_000);
        self.many("states held to the plain machine", beside.states, 200_000);
    }

    fn calls(&mut self) {
        for (code, minimum) in STEPS_BACK_ENDS {
            let name = format!("steps back, {code:?}");
            self.many(&name, self.tally.steps_back(code), minimum);
        }
        for (code, minimum) in RUN_CODES {
            let name = format!("runs, {code:?}");
            self.many(&name, self.tally.runs(code), minimum);
        }
        for (name, minimum) in RUN_ENDS {
            self.case(RUN, name, minimum);
        }
        for form in &FORMS {
            let name = format!("{}, accepted", form.name);
            self.many(&name, self.tally.words(form, Code::Done), 4000);
        }
        for name in [
            "step with all slots held",
            "step into the last slot",
            "step back into the last slot",
        ] {
            self.case(RING, name, 10_000);
        }
    }

    fn records(&mut self) {
        for register in ["X", "SP", "no register"] {
            for shape in ["0", "1", "1, data", "2", "2, data"] {
                for access in ["", ", access off"] {
                    let name = format!("{register}, granules {shape}{access}");
                    self.case(RESTORED, &name, 50);
                }
            }
        }
        FAULTS
            .iter()
            .for_each(|name| self.case(MALFORMED, name, 30));
        let mut all = 0;
        for (name, minimum) in RECORDS {
            all += self.tally.cases(ONTO, name);
            self.case(ONTO, name, minimum);
        }
        self.many(ONTO, all, 20_000);
        (0..64).for_each(|bit| self.case(BITS, &format!("{bit:02}"), 300));
    }

    fn reaches(&mut self) {
        self.many("reaches", self.tally.reaches, 20_000);
        for (group, name, minimum) in REACHES {
            self.case(group, name, minimum);
        }
        (0..16).for_each(|tag| self.case(PART, &format!("tag {tag:x}"), 60));
    }

    /// Of cases that more random scripts make more of.
    pub(crate) fn case(&mut self, group: &str, name: &str, minimum: u64) {
        let count = self.tally.cases(group, name);
        self.many(&format!("{group}: {name}"), count, minimum);
    }

    pub(crate) fn many(&mut self, name: &str, count: u64, minimum: u64) {
        self.at_least(name, count, self.times * minimum);
    }

    /// Of cases that are the same however many random scripts there are.
    pub(crate) fn once(&mut self, group: &str, name: &str, minimum: u64) {
        let count = self.tally.cases(group, name);
        self.at_least(&format!("{group}: {name}"), count, minimum);
    }

    pub(crate) fn at_least(&mut self, name: &str, count: u64, minimum: u64) {
        if count < minimum {
            let text = format!("{name}: {count}, at least {minimum} are wanted");
            self.wanting.push(text);
        }
    }
}

#[cfg(test)]
mod tests {
    use super::*;
    use crate::generate::pairs::Pair;
    use crate::generate::Script;

    #[test]
    fn everything_is_wanting_where_nothing_was_made() {
        let nothing = wanting(&Summary::of::<Script>(), &Summary::of::<Pair>(), 1);
        assert!(nothing.len() > 300, "{}", nothing.len());
        for name in [
            "random lists: C = 7: 0, at least 900 are wanted",
            "malformed: word 7: 0, at least 30 are wanted",
            "runs: 4096 words, the last refused: 0, at least 1 are wanted",
            "steps back, BadRecord: 0, at least 15000 are wanted",
            "rows of the paper: S1 and two steps back: 0, at least 1 are wanted",
            "reaches: 0, at least 20000 are wanted",
            "not reached: 65537 tags: 0, at least 15 are wanted",
            "lists played as one, NoWords: 0, at least 400 are wanted",
            "lists begun: held > 0, NoRoom: 0, at least 70 are wanted",
            "state after lists: written, NoRoom: 0, at least 150 are wanted",
            "lists ended by: a form: 0, at least 100 are wanted",
            "lists ended by: both too many: 0, at least 3 are wanted",
            "lists of: 16383 words: 0, at least 10 are wanted",
            "calls of the longest list: 0, at least 4096 are wanted",
            "lists of calls, both ways: 0, at least 60 are wanted",
            "lines alike both ways: 0, at least 300000 are wanted",
        ] {
            assert!(nothing.iter().any(|line| line == name), "{name}");
        }
    }

    #[test]
    fn a_count_is_held_to_its_minimum() {
        let mut tally = Tally::default();
        let missing = |tally: &Tally, times| {
            let lines = wanting_of_calls(tally, times);
            lines
                .iter()
                .filter(|line| line.starts_with("runs: 4096 words"))
                .count()
        };
        assert_eq!(missing(&tally, 1), 4);
        tally.count_case(RUN, "4096 words, the last refused");
        assert_eq!(missing(&tally, 1), 3);
        assert_eq!(missing(&tally, 2), 4);
    }
}

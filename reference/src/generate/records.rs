//! Steps back onto records that were made by hand: well-formed ones of every
//! kind, the same with one thing changed, and others.

use super::author::{Author, Script};
use super::chosen_words::{accepted, refused};
use super::operands::base;
use super::random::Random;
use super::walks::{setup, some_addresses};
use crate::record::{Record, WORDS};

pub const ONTO: &str = "steps back onto records made by hand";
pub const BITS: &str = "steps back with a bit of word 0 changed";
pub const NO_REGISTER: u64 = 32;

/// Granules and whether data is saved.
const SHAPES: [(usize, bool); 5] = [(0, false), (1, false), (1, true), (2, false), (2, true)];

/// Every shape of a record with one register, each with everything changed
/// that can be, one after another.
pub fn damaged(random: &mut Random, register: u64, access: bool) -> Script {
    let mut author = Author::default();
    for (granules, data) in SHAPES {
        let mut case = Case::begin(&mut author, random, access);
        let good = case.record(register, granules, data).words();
        case.author.record(case.slot, &good);
        case.back_onto(good, good, "well-formed");
        for bit in 0..64 {
            let words = changed(good, 0, good[0] ^ 1 << bit);
            case.back_onto(good, words, "a bit of word 0 changed");
            case.author.case(BITS, &format!("{bit:02}"));
        }
        case.unused_places(good, register, granules, data);
        let bit = 1 << case.random.below(64);
        for word in [1, 1 << 63, u64::MAX, bit] {
            case.back_onto(good, changed(good, 7, word), "word 7 not zero");
        }
        if granules > 0 {
            case.indices(good, granules as u64);
        }
        for _ in 0..8 {
            let place = 1 + case.random.below(6) as usize;
            let words = changed(good, place, good[place] ^ 1 << case.random.below(64));
            case.back_onto(good, words, "a bit of words 1 to 6 changed");
        }
        for _ in 0..2 {
            let words = [0; WORDS].map(|_: u64| case.random.bits());
            case.back_onto(good, words, "random words");
            let mut words = good;
            words[0] = case.random.bits();
            case.back_onto(good, words, "random word 0");
        }
    }
    author.finish()
}

fn changed(words: [u64; WORDS], place: usize, word: u64) -> [u64; WORDS] {
    let mut words = words;
    words[place] = word;
    words
}

/// A machine with few granules, and the slot that is stepped back onto.
struct Case<'a> {
    author: &'a mut Author,
    random: &'a mut Random,
    slots: u64,
    slot: u64,
    granules: u64,
}

impl Case<'_> {
    fn begin<'a>(author: &'a mut Author, random: &'a mut Random, access: bool) -> Case<'a> {
        let granules = random.pick(&[2, 2, 3, 4]);
        author.fresh(base(random, granules));
        author.granules(granules);
        author.line(&format!("access={}", u8::from(access)));
        let slots = random.pick(&[1, 2, 3, 7]);
        author.history(8 * slots + random.below(8));
        for _ in 0..4 {
            // Words of other slots have no part in it.
            author.log(random.below(8 * slots), random.bits());
        }
        let slot = random.below(slots);
        let mut case = Case {
            author,
            random,
            slots,
            slot,
            granules,
        };
        case.stir();
        case
    }

    /// Well-formed, of this shape, with any old values.
    fn record(&mut self, register: u64, granules: usize, data: bool) -> Record {
        any_record(self.random, self.granules, register, granules, data)
    }

    /// Other values in the places that a step back may set.
    fn stir(&mut self) {
        let (author, random) = (&mut *self.author, &mut *self.random);
        author.line(&format!("nzcv={:02x}", random.below(16)));
        author.line(&format!("rgsr={:02x}", random.below(16)));
        author.line(&format!("seed={:04x}", random.below(0x1_0000)));
        for index in 0..self.granules {
            author.tag(index, random.bits() as u8);
            author.byte(16 * index + random.below(16), random.bits() as u8);
        }
        author.register(random.below(32), random.bits());
    }

    /// Changes the slot from the good record, steps back onto it and changes
    /// it back.
    fn back_onto(&mut self, good: [u64; WORDS], words: [u64; WORDS], name: &str) {
        let differing = |place: &usize| words[*place] != good[*place];
        let places: Vec<usize> = (0..WORDS).filter(differing).collect();
        let first = 8 * self.slot;
        for &place in &places {
            self.author.log(first + place as u64, words[place]);
        }
        let next = (self.slot + 1) % self.slots;
        let held = 1 + self.random.below(self.slots);
        self.author.cursor(next, held);
        self.author.back();
        self.author.case(ONTO, name);
        if self.author.recorded().held != held {
            self.stir();
        }
        for &place in &places {
            self.author.log(first + place as u64, good[place]);
        }
    }

    fn unused_places(&mut self, good: [u64; WORDS], register: u64, granules: usize, data: bool) {
        let used_words = if data { 3 + 2 * granules } else { 3 };
        let mut unused: Vec<usize> = (used_words..7).collect();
        if register == NO_REGISTER {
            unused.push(1);
        }
        if granules == 0 {
            unused.push(2);
        }
        for place in unused {
            for bit in [0, 63, self.random.below(64)] {
                let words = changed(good, place, 1 << bit);
                self.back_onto(good, words, "a word not in use");
            }
        }
        for place in granules..2 {
            let tag = 1 + self.random.below(255);
            let words = changed(good, 0, good[0] | tag << (16 + 8 * place));
            self.back_onto(good, words, "a tag not in use");
        }
    }

    /// Around the last index that fits, and where a sum of 64 bits, 32 bits or
    /// of bytes wraps.
    fn indices(&mut self, good: [u64; WORDS], granules: u64) {
        let last = self.granules - granules;
        let near = [
            0,
            last.saturating_sub(1),
            last,
            last + 1,
            last + 2,
            last + 3,
        ];
        let minus = |back: u64| 0_u64.wrapping_sub(back);
        let far = [
            minus(1),
            minus(2),
            minus(3),
            minus(self.granules),
            1 << 63,
            1 << 60,
            (1 << 60) + last,
            1 << 32,
            (1 << 32) + last,
            1 << 16,
            65_535,
        ];
        for index in near {
            self.back_onto(good, changed(good, 2, index), "an index near G");
        }
        for index in far {
            self.back_onto(good, changed(good, 2, index), "an index far beyond G");
        }
    }
}

/// Well-formed on a memory of so many granules.
fn any_record(
    random: &mut Random,
    memory: u64,
    register: u64,
    granules: usize,
    data: bool,
) -> Record {
    let register = (register != NO_REGISTER).then_some(register);
    let mut bytes = |count: usize| -> Vec<u8> { (0..count).map(|_| random.bits() as u8).collect() };
    let old_tags = bytes(granules);
    let old_data = data.then(|| bytes(16 * granules));
    Record {
        register,
        old_value: register.map_or(0, |_| random.bits()),
        first_granule: match granules as u64 {
            0 => 0,
            granules => random.below(memory + 1 - granules),
        },
        old_tags,
        old_data,
        nzcv: random.below(16) as u8,
        rgsr_tag: random.below(16) as u8,
        seed: random.bits() as u16,
    }
}

/// Histories that are full of records from the start, some of them malformed,
/// with steps among the steps back.
pub fn made_up(random: &mut Random) -> Script {
    let mut author = Author::default();
    for _ in 0..120 {
        made_up_history(&mut author, random);
    }
    author.finish()
}

fn made_up_history(author: &mut Author, random: &mut Random) {
    let granules = random.pick(&[0, 1, 1, 2, 2, 3, 4, 5]);
    setup(author, random, granules);
    some_addresses(author, random);
    author.line("dump=1");
    let slots = random.pick(&[1, 2, 3, 7]);
    author.history(8 * slots + random.below(8));
    for slot in 0..slots {
        let words = made_up_record(random, granules);
        author.record(slot, &words);
    }
    author.cursor(random.below(slots), 1 + random.below(slots));
    for _ in 0..6 + 2 * slots {
        let machine = author.machine();
        match random.below(8) {
            0 => {
                let word = refused(random, machine);
                author.word(word);
            }
            1 | 2 => {
                if let Some(word) = accepted(random, machine) {
                    author.word(word);
                }
            }
            _ => {
                author.back();
                author.case(ONTO, "made-up histories");
            }
        }
    }
}

fn made_up_record(random: &mut Random, memory: u64) -> [u64; WORDS] {
    let (granules, data) = random.pick(&SHAPES);
    let granules = granules.min(memory as usize);
    let data = data && granules > 0;
    let register = random.below(NO_REGISTER + 1);
    let mut words = any_record(random, memory, register, granules, data).words();
    match random.below(24) {
        0 => words[0] ^= 1 << random.below(64),
        1 => words[random.below(8) as usize] ^= 1 << random.below(64),
        2 => words[2] = random.pick(&[memory, memory.wrapping_sub(1), u64::MAX, u64::MAX - 1]),
        _ => {}
    }
    words
}

#[cfg(test)]
mod tests {
    use super::*;
    use crate::code::Code;

    #[test]
    fn records_are_well_formed_until_they_are_changed() {
        let mut random = Random::new(1);
        for register in 0..=NO_REGISTER {
            for (granules, data) in SHAPES {
                let record = any_record(&mut random, 3, register, granules, data);
                assert_eq!(Record::read(&record.words(), 3), Some(record));
            }
        }
    }

    #[test]
    fn steps_back_end_both_ways() {
        for register in [0, 31, 32] {
            let tally = damaged(&mut Random::new(1), register, true).played.tally;
            assert!(tally.steps_back(Code::Done) > 100);
            assert!(tally.steps_back(Code::BadRecord) > 100);
            assert_eq!(tally.steps_back(Code::Setup), 0);
        }
    }
}

//! The machine with its history: steps that write records, runs, and steps
//! back (document 01, "Codes and their order" and "History").

use crate::code::Code;
use crate::machine::Machine;
use crate::record::{Record, WORDS};

/// Plain numbers, any of which may break a rule of the setup.
#[derive(Clone, Debug, PartialEq)]
pub struct Recorded {
    pub machine: Machine,
    pub history: Vec<u64>,
    pub next: u64,
    pub held: u64,
}

impl Recorded {
    /// A fresh machine on a base, with no granules and no history.
    pub fn fresh(base: u64) -> Recorded {
        Recorded {
            machine: Machine::fresh(base),
            history: Vec::new(),
            next: 0,
            held: 0,
        }
    }

    /// C: words after the last whole slot belong to none.
    pub fn slots(&self) -> u64 {
        (self.history.len() / WORDS) as u64
    }

    /// Document 01, "Sizes and shape of the setup".
    pub fn well_formed(&self) -> bool {
        self.cursor_well_formed() && self.machine.well_formed()
    }

    pub fn cursor_well_formed(&self) -> bool {
        match self.slots() {
            0 => self.next == 0 && self.held == 0,
            slots => self.next < slots && self.held <= slots,
        }
    }

    pub fn step(&mut self, word: u32) -> Code {
        if !self.well_formed() {
            return Code::Setup;
        }
        let record = Record::before(&self.machine, word);
        let code = self.machine.carry_out(word);
        if code == Code::Done {
            self.keep(&record.expect("an accepted word has a record"));
        }
        code
    }

    /// The code, and how many words were done.
    pub fn run(&mut self, words: &[u32]) -> (Code, u64) {
        if !self.well_formed() {
            return (Code::Setup, 0);
        }
        let mut done = 0;
        for &word in words {
            let code = self.step(word);
            if code != Code::Done {
                return (code, done);
            }
            done += 1;
        }
        (Code::Done, done)
    }

    pub fn step_back(&mut self) -> Code {
        if !self.well_formed() {
            return Code::Setup;
        }
        let Some(words) = self.newest() else {
            return Code::NoHistory;
        };
        let Some(record) = Record::read(&words, self.machine.tags.len() as u64) else {
            return Code::BadRecord;
        };
        record.restore(&mut self.machine);
        self.next = self.before_next();
        self.held -= 1;
        Code::Done
    }

    /// The words onto which a step back would step, on a well-formed setup.
    pub fn newest(&self) -> Option<[u64; WORDS]> {
        if self.held == 0 {
            return None;
        }
        let place = WORDS * self.before_next() as usize;
        let words = self.history[place..place + WORDS].try_into();
        Some(words.expect("a slot has eight words"))
    }

    fn keep(&mut self, record: &Record) {
        let slots = self.slots();
        if slots == 0 {
            return;
        }
        let place = WORDS * self.next as usize;
        self.history[place..place + WORDS].copy_from_slice(&record.words());
        self.next = (self.next + 1) % slots;
        self.held = slots.min(self.held + 1);
    }

    fn before_next(&self) -> u64 {
        match self.next {
            0 => self.slots() - 1,
            next => next - 1,
        }
    }
}

#[cfg(test)]
mod tests {
    use super::*;
    use crate::machine::tests::{small, with_granules};

    const STG_POST: u32 = 0xD920_1400; // STG X0, [X0], #16
    const ADDG: u32 = 0x9181_0400; // ADDG X0, X0, #16, #1
    const UNDEFINED: u32 = 0x9180_4020;

    fn with_history(machine: Machine, words: usize) -> Recorded {
        Recorded {
            machine,
            history: vec![0; words],
            next: 0,
            held: 0,
        }
    }

    /// S1's start: base 0x1000, G = 4 and X0 = 0500000000001000.
    fn s1(words: usize) -> Recorded {
        let mut recorded = with_history(small(), words);
        recorded.machine.x[0] = 0x0500_0000_0000_1000;
        recorded
    }

    #[test]
    fn s1_and_its_two_steps_back() {
        let start = s1(8);
        let mut recorded = start.clone();
        assert_eq!(recorded.step(STG_POST), Code::Done);
        assert_eq!(recorded.machine.tags, [5, 0, 0, 0]);
        let record = [0x100, 0x0500_0000_0000_1000, 0, 0, 0, 0, 0, 0];
        assert_eq!(recorded.history, record);
        assert_eq!((recorded.next, recorded.held), (0, 1));
        assert_eq!(recorded.step_back(), Code::Done);
        assert_eq!(recorded.machine, start.machine);
        assert_eq!((recorded.next, recorded.held), (0, 0));
        assert_eq!(recorded.history, record, "history words stay");
        let back = recorded.clone();
        assert_eq!(recorded.step_back(), Code::NoHistory);
        assert_eq!(recorded, back);
    }

    fn well_formed(words: usize, next: u64, held: u64) -> bool {
        let mut recorded = with_history(small(), words);
        recorded.next = next;
        recorded.held = held;
        recorded.well_formed()
    }

    #[test]
    fn the_cursor_lies_in_the_slots() {
        for words in 0..8 {
            assert!(well_formed(words, 0, 0));
            for (next, held) in [(0, 1), (1, 0), (1, 1), (u64::MAX, 0), (0, u64::MAX)] {
                assert!(!well_formed(words, next, held), "{words} {next} {held}");
            }
        }
        for slots in 1..4 {
            for words in 8 * slots..8 * slots + 8 {
                let slots = slots as u64;
                assert!(well_formed(words, slots - 1, slots));
                assert!(well_formed(words, 0, 0));
                assert!(!well_formed(words, slots, 0));
                assert!(!well_formed(words, slots + 1, slots));
                assert!(!well_formed(words, u64::MAX, 0));
                assert!(!well_formed(words, 0, slots + 1));
                assert!(!well_formed(words, slots - 1, u64::MAX));
            }
        }
    }

    #[test]
    fn a_malformed_setup_refuses_every_call() {
        for (next, held, nzcv) in [(1, 0, 0), (0, 2, 0), (0, 1, 16)] {
            let mut recorded = s1(8);
            recorded.next = next;
            recorded.held = held;
            recorded.machine.nzcv = nzcv;
            let before = recorded.clone();
            assert_eq!(recorded.step(ADDG), Code::Setup);
            assert_eq!(recorded.step(UNDEFINED), Code::Setup);
            assert_eq!(recorded.run(&[]), (Code::Setup, 0));
            assert_eq!(recorded.run(&[ADDG, UNDEFINED]), (Code::Setup, 0));
            assert_eq!(recorded.step_back(), Code::Setup);
            assert_eq!(recorded, before);
        }
    }

    #[test]
    fn the_oldest_record_is_overwritten() {
        let mut recorded = s1(3 * 8);
        let mut before = Vec::new();
        for number in 0..5 {
            before.push(recorded.machine.clone());
            assert_eq!(recorded.step(ADDG), Code::Done);
            assert_eq!(recorded.next, (number + 1) % 3);
            assert_eq!(recorded.held, 3.min(number + 1));
        }
        for number in [4, 3, 2] {
            assert_eq!(recorded.step_back(), Code::Done);
            assert_eq!(recorded.machine, before[number]);
            assert_eq!(recorded.next, number as u64 % 3);
        }
        assert_eq!(recorded.step_back(), Code::NoHistory);
        assert_eq!(recorded.machine, before[2]);
    }

    #[test]
    fn without_slots_nothing_is_written() {
        for words in 0..8 {
            let mut recorded = s1(words);
            recorded.history.fill(0xEE);
            assert_eq!(recorded.step(STG_POST), Code::Done);
            assert_eq!((recorded.next, recorded.held), (0, 0));
            assert_eq!(recorded.history, vec![0xEE; words]);
            assert_eq!(recorded.step_back(), Code::NoHistory);
        }
    }

    #[test]
    fn words_after_the_last_slot_stay() {
        let mut recorded = s1(8 + 7);
        recorded.history.fill(0xEE);
        (0..5).for_each(|_| assert_eq!(recorded.step(ADDG), Code::Done));
        assert_eq!(recorded.history[8..], [0xEE; 7]);
        assert_eq!(recorded.step_back(), Code::Done);
        assert_eq!(recorded.step_back(), Code::NoHistory);
        assert_eq!(recorded.history[8..], [0xEE; 7]);
    }

    #[test]
    fn a_refused_word_is_not_recorded() {
        let mut recorded = s1(16);
        recorded.machine.x[0] = 0x1008;
        recorded.machine.sp = 8;
        for (word, code) in [
            (UNDEFINED, Code::Undefined),
            (0xD920_0BE0, Code::SpAlign),
            (STG_POST, Code::Align),
            (0xD96F_F001, Code::Outside), // LDG X1, [X0, #4080]
        ] {
            let before = recorded.clone();
            assert_eq!(recorded.step(word), code);
            assert_eq!(recorded, before);
        }
    }

    #[test]
    fn a_run_is_its_steps_up_to_the_first_refused() {
        let words = [STG_POST, ADDG, STG_POST, UNDEFINED, ADDG];
        for count in 0..=words.len() {
            let mut run = s1(7 * 8);
            let mut steps = s1(7 * 8);
            let done = count.min(3);
            for &word in &words[..done] {
                assert_eq!(steps.step(word), Code::Done);
            }
            let code = if count > 3 {
                Code::Undefined
            } else {
                Code::Done
            };
            assert_eq!(run.run(&words[..count]), (code, done as u64));
            assert_eq!(run, steps);
        }
        let mut last = s1(8);
        last.machine.x[0] = 0x1020;
        let words = [STG_POST; 3];
        assert_eq!(last.run(&words), (Code::Outside, 2));
        assert_eq!(last.machine.x[0], 0x1040);
    }

    #[test]
    fn a_step_back_restores_eight_bits_of_both_tags_and_all_data() {
        let mut recorded = s1(8);
        recorded.machine.tags = vec![0xA1, 0xB2, 0xC3, 0xD4];
        recorded.machine.data = (100..164).collect();
        let start = recorded.clone();
        for word in [0xD9E0_1400, 0xD9A0_1400] {
            assert_eq!(recorded.step(word), Code::Done);
            assert_eq!(recorded.machine.tags, [5, 5, 0xC3, 0xD4]);
            assert_eq!(recorded.step_back(), Code::Done);
            assert_eq!(recorded.machine, start.machine);
        }
    }

    #[test]
    fn a_step_back_restores_rgsr_and_flags() {
        let mut recorded = s1(16);
        recorded.machine.seed = 1;
        recorded.machine.nzcv = 15;
        let start = recorded.clone();
        assert_eq!(recorded.step(0x9ADF_1020), Code::Done, "IRG X0, X1");
        assert_eq!(recorded.step(0xBAC2_003F), Code::Done, "SUBPS XZR, X1, X2");
        assert_ne!(recorded.machine.nzcv, 15);
        assert_ne!(recorded.machine.seed, 1);
        assert_eq!(recorded.step_back(), Code::Done);
        assert_eq!(recorded.step_back(), Code::Done);
        assert_eq!(recorded.machine, start.machine);
    }

    #[test]
    fn a_malformed_record_is_refused_and_nothing_changes() {
        let mut recorded = s1(16);
        recorded.next = 1;
        recorded.held = 1;
        recorded.history[0] = 33;
        let before = recorded.clone();
        assert_eq!(recorded.step_back(), Code::BadRecord);
        assert_eq!(recorded, before);
        recorded.history[0] = 32;
        assert_eq!(recorded.step_back(), Code::Done);
        assert_eq!(recorded.step_back(), Code::NoHistory);
    }

    #[test]
    fn a_record_of_the_lent_history_is_taken_as_it_is() {
        // No word changes X30, NZCV, RGSR and two granules of data at once.
        let mut recorded = with_history(with_granules(0, 3), 8 * 2);
        recorded.machine.access = false;
        recorded.next = 1;
        recorded.held = 2;
        recorded.history[..8].copy_from_slice(&[
            0x0012_34F9_FEDC_061E,
            0xAB,
            1,
            0x0706_0504_0302_0100,
            0,
            0,
            1 << 63,
            0,
        ]);
        assert_eq!(recorded.step_back(), Code::Done);
        let machine = &recorded.machine;
        assert_eq!(machine.x[30], 0xAB);
        assert_eq!(
            (machine.nzcv, machine.rgsr_tag, machine.seed),
            (9, 15, 0x1234)
        );
        assert_eq!(machine.tags, [0, 0xDC, 0xFE]);
        assert_eq!(machine.data[16..24], [0, 1, 2, 3, 4, 5, 6, 7]);
        assert_eq!(machine.data[47], 0x80);
        assert_eq!((recorded.next, recorded.held), (0, 1));
        // The other slot is all zero: X0 was 0.
        recorded.machine.x[0] = 5;
        assert_eq!(recorded.step_back(), Code::Done);
        assert_eq!(recorded.machine.x[0], 0);
        assert_eq!((recorded.next, recorded.held), (1, 0));
    }
}

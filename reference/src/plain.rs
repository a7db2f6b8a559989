//! The plain machine of document 01: it knows no records and stacks whole
//! copies of its state.

use std::collections::VecDeque;

use crate::code::Code;
use crate::machine::Machine;

pub struct Plain {
    state: Machine,
    /// The oldest copy first.
    copies: VecDeque<Machine>,
    most_copies: usize,
}

impl Plain {
    /// Beside a machine with this state, an empty history and so many slots.
    pub fn beside(state: &Machine, slots: u64) -> Plain {
        Plain {
            state: state.clone(),
            copies: VecDeque::new(),
            most_copies: slots as usize,
        }
    }

    pub fn state(&self) -> &Machine {
        &self.state
    }

    pub fn step(&mut self, word: u32) -> Code {
        if self.most_copies == 0 {
            // The copy would be dropped at once.
            return self.state.carry_out(word);
        }
        let copy = self.state.clone();
        let code = self.state.carry_out(word);
        if code == Code::Done {
            self.copies.push_back(copy);
            if self.copies.len() > self.most_copies {
                self.copies.pop_front();
            }
        }
        code
    }

    /// The code, and how many words had code 0.
    pub fn run(&mut self, words: &[u32]) -> (Code, u64) {
        let mut codes = words.iter().map(|&word| self.step(word));
        let mut count = 0;
        let refused = codes.find(|&code| {
            count += u64::from(code == Code::Done);
            code != Code::Done
        });
        (refused.unwrap_or(Code::Done), count)
    }

    pub fn step_back(&mut self) -> Code {
        match self.copies.pop_back() {
            Some(copy) => {
                self.state = copy;
                Code::Done
            }
            None => Code::NoHistory,
        }
    }
}

#[cfg(test)]
mod tests {
    use super::*;
    use crate::machine::tests::small;

    const ADDG: u32 = 0x9181_0400; // ADDG X0, X0, #16, #1
    const UNDEFINED: u32 = 0x9180_4020;

    #[test]
    fn copies_come_back_newest_first_and_the_oldest_are_dropped() {
        for slots in 0..4 {
            let mut plain = Plain::beside(&small(), slots);
            let mut before = Vec::new();
            for _ in 0..5 {
                before.push(plain.state().clone());
                assert_eq!(plain.step(ADDG), Code::Done);
                assert_eq!(plain.step(UNDEFINED), Code::Undefined);
            }
            for state in before.iter().rev().take(slots as usize) {
                assert_eq!(plain.step_back(), Code::Done);
                assert_eq!(plain.state(), state);
            }
            let last = plain.state().clone();
            assert_eq!(plain.step_back(), Code::NoHistory);
            assert_eq!(plain.state(), &last);
        }
    }

    #[test]
    fn a_run_stops_at_the_first_refused_word() {
        let mut plain = Plain::beside(&small(), 2);
        assert_eq!(plain.run(&[]), (Code::Done, 0));
        assert_eq!(plain.run(&[ADDG; 3]), (Code::Done, 3));
        assert_eq!(plain.run(&[ADDG, UNDEFINED, ADDG]), (Code::Undefined, 1));
        assert_eq!(plain.run(&[UNDEFINED, ADDG]), (Code::Undefined, 0));
        assert_eq!(plain.state().x[0], 0x0400_0000_0000_0040);
    }
}

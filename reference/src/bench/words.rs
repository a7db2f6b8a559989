//! The words that are timed.

use std::collections::HashSet;

use crate::code::Code;
use crate::encoder::encode;
use crate::generate::random::Random;
use crate::words::{Form, Instruction, Mode, FORMS};

/// Of the tight words, and of the mix that is not called distinct.
pub const WORDS: usize = 4096;

fn word(name: &str, values: &[u64]) -> u32 {
    let form = FORMS.iter().find(|form| form.name == name);
    let (code, word) = encode(form.expect("a form's name"), values);
    assert_eq!(code, Code::Done, "{name} {values:?}");
    word
}

/// Eight words, again and again.
pub fn tight() -> Vec<u32> {
    let minus_16 = 16_u64.wrapping_neg();
    let eight = [
        word("ADDG", &[1, 0, 32, 1]),
        word("STG post", &[1, 2, 16]),
        word("STG post", &[1, 2, minus_16]),
        word("IRG", &[3, 0, 31]),
        word("STZG offset", &[3, 1, 0]),
        word("ST2G offset", &[3, 4, 32]),
        word("LDG", &[5, 4, 0]),
        word("STGP offset", &[6, 7, 1, 16]),
    ];
    eight.into_iter().cycle().take(WORDS).collect()
}

/// Granules of the memory; the registers' start is in its middle.
const GRANULES: i64 = 1024;
/// X0 to X15 and SP: only these are base registers, and no word writes them
/// whose result does not lie inside.
const POINTERS: [u64; 17] = [0, 1, 2, 3, 4, 5, 6, 7, 8, 9, 10, 11, 12, 13, 14, 15, 31];
/// X16 to X30: any result.
const FIRST_RESULT: u64 = 16;

/// Random words of all forms, about as many of each, no two alike. Each one is
/// accepted, and on each round again: where a word goes hangs on bits 55:0 of
/// the pointers, and these on no tag and no memory.
pub fn mix(words: usize) -> Vec<u32> {
    let mut random = Random::new(1);
    let mut forms: Vec<&Form> = FORMS.iter().cycle().take(words).collect();
    for place in (1..forms.len()).rev() {
        forms.swap(place, random.below(place as u64 + 1) as usize);
    }
    let mut places = [0; 32];
    for (number, place) in places.iter_mut().enumerate() {
        *place = 0x200 + number as i64;
    }
    let mut mix = Mix {
        random,
        places,
        made: HashSet::new(),
    };
    forms.into_iter().map(|form| mix.new_word(form)).collect()
}

struct Mix {
    random: Random,
    /// The granule that each pointer points to; it and the next one are inside.
    places: [i64; 32],
    made: HashSet<u32>,
}

impl Mix {
    fn new_word(&mut self, form: &Form) -> u32 {
        let places = self.places;
        loop {
            let word = self.word(form);
            if self.made.insert(word) {
                return word;
            }
            self.places = places;
        }
    }

    fn word(&mut self, form: &Form) -> u32 {
        use Instruction::*;
        let values = match form.instruction {
            Addg => self.sum(1),
            Subg => self.sum(-1),
            Irg => self.random_tag(),
            Subp | Subps | Gmi => vec![self.result_or_31(), self.any(), self.any()],
            Ldg => {
                let (rn, amount, _) = self.access(-256, 255);
                vec![self.any(), rn, amount]
            }
            Stg | Stzg | St2g | Stz2g => {
                let (rn, amount, moved) = self.access(-256, 255);
                self.write_back(form, rn, moved);
                vec![self.any(), rn, amount]
            }
            Stgp => {
                let (rn, amount, moved) = self.access(-64, 63);
                self.write_back(form, rn, moved);
                vec![self.any(), self.any(), rn, amount]
            }
        };
        word(form.name, &values)
    }

    fn any(&mut self) -> u64 {
        self.random.below(32)
    }

    fn pointer(&mut self) -> u64 {
        self.random.pick(&POINTERS)
    }

    fn result_or_31(&mut self) -> u64 {
        FIRST_RESULT + self.random.below(16)
    }

    fn result(&mut self) -> u64 {
        FIRST_RESULT + self.random.below(15)
    }

    /// From a pointer to a pointer, if the sum lies inside; else to a result.
    fn sum(&mut self, sign: i64) -> Vec<u64> {
        let rn = self.any();
        let granules = self.random.below(64) as i64;
        let offset = self.random.below(16);
        let sum = self.places[rn as usize] + sign * granules;
        let inside = POINTERS.contains(&rn) && (0..GRANULES - 1).contains(&sum);
        let rd = if inside && self.random.one_in(2) {
            let rd = self.pointer();
            self.places[rd as usize] = sum;
            rd
        } else {
            self.result()
        };
        vec![rd, rn, 16 * granules as u64, offset]
    }

    fn random_tag(&mut self) -> Vec<u64> {
        let rn = self.any();
        let rd = if POINTERS.contains(&rn) && self.random.one_in(2) {
            let rd = self.pointer();
            self.places[rd as usize] = self.places[rn as usize];
            rd
        } else {
            self.result()
        };
        vec![rd, rn, self.result_or_31()]
    }

    /// A base register, an amount between these numbers of granules, and the
    /// granule that the two come to.
    fn access(&mut self, lowest: i64, highest: i64) -> (u64, u64, i64) {
        let rn = self.pointer();
        let place = self.places[rn as usize];
        let first = (place + lowest).max(0);
        let last = (place + highest).min(GRANULES - 2);
        let moved = first + self.random.below((last - first + 1) as u64) as i64;
        (rn, (16 * (moved - place)) as u64, moved)
    }

    fn write_back(&mut self, form: &Form, rn: u64, moved: i64) {
        if form.mode != Some(Mode::Offset) {
            self.places[rn as usize] = moved;
        }
    }
}

#[cfg(test)]
mod tests {
    use super::*;
    use crate::words::form_of;

    #[test]
    fn the_mix_has_as_many_of_each_form_and_no_two_words_alike() {
        for count in [WORDS, 65_536] {
            let words = mix(count);
            assert_eq!(words.len(), count);
            assert_eq!(words.iter().collect::<HashSet<_>>().len(), count);
            let share = count / FORMS.len();
            for form in &FORMS {
                let of_form = words.iter().filter(|&&word| form_of(word) == Some(form));
                let of_form = of_form.count();
                assert!((share..=share + 1).contains(&of_form), "{}", form.name);
            }
        }
    }

    #[test]
    fn the_tight_words_are_those_of_the_manual() {
        let words = tight();
        assert_eq!(words.len(), WORDS);
        let eight = [
            0x9182_0401, // ADDG X1, X0, #32, #1
            0xD920_1441, // STG X1, [X2], #16
            0xD93F_F441, // STG X1, [X2], #-16
            0x9ADF_1003, // IRG X3, X0
            0xD960_0823, // STZG X3, [X1]
            0xD9A0_2883, // ST2G X3, [X4, #32]
            0xD960_0085, // LDG X5, [X4]
            0x6900_9C26, // STGP X6, X7, [X1, #16]
        ];
        assert_eq!(words[..8], eight);
        assert_eq!(words[WORDS - 8..], eight);
    }
}

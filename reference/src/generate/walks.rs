//! Random walks: a setup, and words whose operands are set to edges or left
//! as the words before left them, with a step back now and then.

use super::author::{Author, Script};
use super::operands::{
    address, any_form, any_word, base, mask, pointer, register, value, with_top_byte,
};
use super::random::Random;
use crate::encoder::{encode, fields, RM, RN, RT};
use crate::machine::MOST_GRANULES;
use crate::words::{Form, Instruction, Mode, FORMS};

/// Setups in a script, and words on each.
const SETUPS: usize = 250;
const WORDS: usize = 48;
/// Setups with the largest memory cost more to begin and to show.
const LARGE_SETUPS: usize = 8;
const LARGE_WORDS: usize = 500;
/// With more granules than these the state is shown only now and then.
const FEW_GRANULES: u64 = 8;

/// The state after every word on few granules.
pub fn small(random: &mut Random) -> Script {
    let mut author = Author::default();
    for _ in 0..SETUPS {
        let granules = random.pick(&[0, 1, 1, 2, 2, 2, 3, 4, 4, 5, 8, 17, 64]);
        setup(&mut author, random, granules);
        let slots = random.pick(&[0, 0, 0, 1, 2, 3]);
        author.history(8 * slots + random.below(8));
        author.line(&format!("dump={}", u8::from(granules <= FEW_GRANULES)));
        for number in 1..=WORDS {
            word(&mut author, random);
            if slots > 0 && random.one_in(6) {
                author.back();
            }
            if granules > FEW_GRANULES && number % 16 == 0 {
                author.line("show");
            }
        }
    }
    author.finish()
}

/// The largest memory, with the state at the end of each setup.
pub fn large(random: &mut Random) -> Script {
    let mut author = Author::default();
    author.line("dump=0");
    for _ in 0..LARGE_SETUPS {
        setup(&mut author, random, MOST_GRANULES as u64);
        let slots = random.pick(&[0, 1, 7]);
        author.history(8 * slots + random.below(8));
        for _ in 0..LARGE_WORDS {
            word(&mut author, random);
            if slots > 0 && random.one_in(4) {
                author.back();
            }
        }
        author.line("show");
    }
    author.finish()
}

/// All words one bit away from words of each form, and random words. The
/// registers are set anew for each form, so that many words are accepted.
pub fn near_words(random: &mut Random) -> Script {
    let mut author = Author::default();
    for form in &FORMS {
        setup(&mut author, random, 4);
        point_into_memory(&mut author, random);
        author.line("dump=1");
        let word = form.fixed | any_word(random, form) & 0x3FF;
        (0..32).for_each(|bit| author.word(word ^ 1 << bit));
        point_into_memory(&mut author, random);
        let word = any_word(random, form);
        (0..32).for_each(|bit| author.word(word ^ 1 << bit));
        (0..16).for_each(|_| author.word(random.bits() as u32));
    }
    author.finish()
}

/// Any machine with a well-formed setup, and no history.
pub fn setup(author: &mut Author, random: &mut Random, granules: u64) {
    author.fresh(base(random, granules));
    author.granules(granules);
    author.line(&format!("access={}", u8::from(!random.one_in(4))));
    author.line(&format!("exclude={:04x}", mask(random)));
    author.line(&format!("nzcv={:02x}", random.below(16)));
    author.line(&format!("rgsr={:02x}", random.below(16)));
    let seed = random.bits();
    author.line(&format!(
        "seed={:04x}",
        random.pick(&[0, 1, 0xFFFF, seed as u16])
    ));
    for index in some_indices(random, granules, 4) {
        author.tag(index, random.bits() as u8);
    }
    for granule in some_indices(random, granules, 2) {
        (16 * granule..16 * granule + 16).for_each(|index| author.byte(index, random.bits() as u8));
    }
    for _ in 0..6 {
        let value = pointer(random, author.machine());
        author.register(register(random), value);
    }
}

/// Registers with addresses of the memory.
pub fn some_addresses(author: &mut Author, random: &mut Random) {
    for number in [0, 1, 2, 3, 30, 31] {
        let value = address(random, author.machine(), 1);
        author.register(number, value);
    }
}

/// The first and the last index, and some between; none of 0.
fn some_indices(random: &mut Random, count: u64, between: u64) -> Vec<u64> {
    if count == 0 {
        return Vec::new();
    }
    let between: Vec<u64> = (0..between).map(|_| random.below(count)).collect();
    [vec![0, count - 1], between].concat()
}

fn point_into_memory(author: &mut Author, random: &mut Random) {
    for number in 0..32 {
        let inside = author.machine().base + 16 * random.below(3);
        author.register(number, with_top_byte(random, inside));
    }
}

/// One word: a form with its operands set, seldom a word of no form.
fn word(author: &mut Author, random: &mut Random) {
    let form = any_form(random);
    if random.one_in(32) {
        let astray = any_word(random, form) ^ 1 << random.below(32);
        author.word(astray);
        return;
    }
    let mut values: Vec<u64> = fields(form.instruction)
        .iter()
        .map(|field| value(random, field))
        .collect();
    if form.mode.is_some() && random.one_in(6) {
        // Rt = Rn; STGP's Rn comes third.
        let rn = values.len() - 2;
        values[0] = values[rn];
    }
    let (_, word) = encode(form, &values);
    set_operands(author, random, form, word);
    author.word(word);
}

/// Sets the registers that a word reads, or leaves some of them as they are.
fn set_operands(author: &mut Author, random: &mut Random, form: &Form, word: u32) {
    use Instruction::*;
    match form.instruction {
        Addg | Subg => set_pointer(author, random, RN.of(word)),
        Subp | Subps => {
            set_pointer(author, random, RN.of(word));
            set_near_pointer(author, random, word);
        }
        Irg | Gmi => {
            set_pointer(author, random, RN.of(word));
            set_mask(author, random, word);
        }
        Ldg | Stg | Stzg | St2g | Stz2g | Stgp => {
            if random.one_in(3) {
                set_pointer(author, random, RT.of(word));
            }
            set_base_register(author, random, form, word);
        }
    }
}

fn set_pointer(author: &mut Author, random: &mut Random, number: u64) {
    if !random.one_in(4) {
        let value = pointer(random, author.machine());
        author.register(number, value);
    }
}

/// The subtrahend: often the minuend but for its top byte, or close to it.
fn set_near_pointer(author: &mut Author, random: &mut Random, word: u32) {
    let minuend = author.machine().register_or_sp(RN.of(word));
    let value = match random.below(4) {
        0 => with_top_byte(random, minuend),
        1 => minuend.wrapping_add(random.pick(&[1, 16, u64::MAX, 1 << 55])),
        2 => pointer(random, author.machine()),
        _ => return,
    };
    author.register(RM.of(word), value);
}

fn set_mask(author: &mut Author, random: &mut Random, word: u32) {
    if !random.one_in(4) {
        let any = random.bits();
        let above = random.pick(&[0, 1, any, u64::MAX]) << 16;
        author.register(RM.of(word), above | u64::from(mask(random)));
    }
}

/// The base register so that the word comes to an address of interest; a sum
/// then often carries into the tag bits.
fn set_base_register(author: &mut Author, random: &mut Random, form: &Form, word: u32) {
    if random.one_in(6) {
        return;
    }
    let named = match form.instruction {
        Instruction::St2g | Instruction::Stz2g => 2,
        _ => 1,
    };
    let address = address(random, author.machine(), named);
    let amount = fields(form.instruction)
        .last()
        .map_or(0, |field| field.of(word));
    let unmoved = match form.mode {
        Some(Mode::Post) => address,
        _ => address.wrapping_sub(amount),
    };
    author.register(RN.of(word), unmoved);
}

#[cfg(test)]
mod tests {
    use super::*;

    #[test]
    fn every_form_is_accepted_often() {
        for script in [small(&mut Random::new(1)), large(&mut Random::new(1))] {
            let by_form = script.played.tally.by_form();
            for line in by_form.lines().take(FORMS.len()) {
                let accepted = line.split("Done ").nth(1).and_then(|rest| {
                    let digits = rest.split(',').next()?;
                    digits.parse::<u64>().ok()
                });
                assert!(accepted.is_some_and(|count| count > 50), "{line}");
            }
        }
    }
}

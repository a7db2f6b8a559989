//! Words chosen by the state, so that lists of calls without a setup between
//! them go on being accepted, or are refused where it is wanted.

use super::operands::{any_form, any_word, register, value};
use super::random::Random;
use crate::code::Code;
use crate::encoder::{encode, fields, Kind};
use crate::machine::Machine;
use crate::words::Form;

/// How many words of one form are tried.
const TRIES: usize = 24;

/// A word that is accepted on this machine, if one is found.
pub fn accepted(random: &mut Random, machine: &Machine) -> Option<u32> {
    let form = any_form(random);
    let mut tries = (0..TRIES).map(|_| likely(random, form));
    tries.find(|&word| code(machine, word) == Code::Done)
}

/// A word that is refused on this machine.
pub fn refused(random: &mut Random, machine: &Machine) -> u32 {
    loop {
        let form = any_form(random);
        let word = match random.below(6) {
            0 => random.bits() as u32,
            1 => any_word(random, form) ^ 1 << random.below(32),
            2 => any_word(random, form),
            _ => likely(random, form),
        };
        if code(machine, word) != Code::Done {
            return word;
        }
    }
}

pub fn code(machine: &Machine, word: u32) -> Code {
    machine.clone().carry_out(word)
}

/// A word of a form with few registers and mostly small amounts.
fn likely(random: &mut Random, form: &Form) -> u32 {
    let shape = fields(form.instruction);
    let values: Vec<u64> = shape
        .iter()
        .map(|field| match field.kind {
            Kind::Register => register(random),
            Kind::SignedAmount if !random.one_in(4) => {
                16_u64.wrapping_mul(random.below(5)).wrapping_sub(32)
            }
            Kind::Amount if !random.one_in(4) => 16 * random.below(4),
            _ => value(random, field),
        })
        .collect();
    let (code, word) = encode(form, &values);
    assert_eq!(code, Code::Done, "fields in range");
    word
}

/// Where a run is to be refused.
#[derive(Clone, Copy, Debug, PartialEq)]
pub enum Refused {
    Nowhere,
    At(usize),
}

/// So many words for a run on this machine. Those before the refused one are
/// accepted one after another, as far as such words are found.
pub fn words_of_run(
    random: &mut Random,
    machine: &Machine,
    count: usize,
    refusal: Refused,
) -> Vec<u32> {
    let mut machine = machine.clone();
    let one = |place| {
        if refusal == Refused::At(place) {
            return refused(random, &machine);
        }
        // ADDG X0, X0, #0, #0 is always accepted.
        let found = (0..4).find_map(|_| accepted(random, &machine));
        let word = found.unwrap_or(0x9180_0000);
        machine.carry_out(word);
        word
    };
    (0..count).map(one).collect()
}

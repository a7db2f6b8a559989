//! Words to decode, and fields to encode.

use super::author::{Author, Script};
use super::operands::{any_form, any_word, value};
use super::random::Random;
use crate::encoder::{fields, Field, Kind};
use crate::player::form_line;
use crate::words::{Form, FORMS};

/// Words of each form, words one bit away from them, and random words.
pub fn decodings(random: &mut Random) -> Script {
    let mut author = Author::default();
    let mut decode = |word: u32| author.line(&format!("decode={word:08x}"));
    for form in &FORMS {
        (0..400).for_each(|_| decode(any_word(random, form)));
        for _ in 0..12 {
            let word = any_word(random, form);
            (0..32).for_each(|bit| decode(word ^ 1 << bit));
        }
        (0..100).for_each(|_| decode(random.bits() as u32));
    }
    author.finish()
}

/// Every combination of edge values of one form's fields.
pub fn edge_encodings(form: &Form) -> Script {
    let mut author = Author::default();
    let mut chosen = Vec::new();
    encode_all(&mut author, form, fields(form.instruction), &mut chosen);
    author.finish()
}

fn encode_all(author: &mut Author, form: &Form, open: &[Field], chosen: &mut Vec<u64>) {
    let Some((field, others)) = open.split_first() else {
        author.line(&form_line(form, chosen));
        return;
    };
    for value in edge_values(field) {
        chosen.push(value);
        encode_all(author, form, others, chosen);
        chosen.pop();
    }
}

fn edge_values(field: &Field) -> Vec<u64> {
    let range = 1 << field.bits;
    match field.kind {
        Kind::Register | Kind::TagOffset => {
            vec![0, range - 1, range, 2 * range - 1, 1 << 32, u64::MAX]
        }
        Kind::Amount => amounts(0, 16 * (range - 1)),
        Kind::SignedAmount => amounts((8 * range).wrapping_neg(), 8 * range - 16),
    }
}

/// Around both ends of a range, around 0, and far away: some of these would be
/// in range if cut to fewer bits.
fn amounts(lowest: u64, highest: u64) -> Vec<u64> {
    let around = |end: u64| {
        let steps = [-17, -16, -8, -1, 0, 1, 8, 16, 17];
        steps.map(|step: i64| end.wrapping_add(step as u64))
    };
    let far = [
        highest.wrapping_mul(2).wrapping_add(32),
        1 << 16,
        1 << 31,
        1 << 32,
        (1 << 32) + 16,
        1 << 60,
        1 << 63,
        (1 << 63) - 16,
        (1 << 63) + highest,
    ];
    let mut all = [&around(lowest)[..], &around(0), &around(highest), &far].concat();
    all.sort_unstable();
    all.dedup();
    all
}

/// Fields in range, or one of them astray.
pub fn random_encodings(random: &mut Random) -> Script {
    let mut author = Author::default();
    for _ in 0..10_000 {
        let form = any_form(random);
        let shape = fields(form.instruction);
        let mut values: Vec<u64> = shape.iter().map(|field| value(random, field)).collect();
        if random.one_in(4) {
            let place = random.below(values.len() as u64) as usize;
            values[place] = match random.below(3) {
                0 => random.bits(),
                1 => random.below(8192),
                _ => random.pick(&edge_values(&shape[place])),
            };
        }
        author.line(&form_line(form, &values));
    }
    author.finish()
}

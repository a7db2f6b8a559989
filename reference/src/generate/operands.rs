//! Operands biased to the edges at which a wrong machine shows.

use super::random::Random;
use crate::encoder::{Field, Kind};
use crate::machine::Machine;
use crate::words::{Form, FORMS};

const TOP: u64 = 1 << 56;

/// The number of a register. Few are used often, so that one word's target is
/// the next one's operand; 31 and equal registers are frequent.
pub fn register(random: &mut Random) -> u64 {
    match random.below(8) {
        0..=3 => random.below(4),
        4 => 30,
        5 | 6 => 31,
        _ => random.below(32),
    }
}

/// An exclude mask: none, all, all but one, one alone, or any.
pub fn mask(random: &mut Random) -> u16 {
    let one = 1 << random.below(16);
    match random.below(6) {
        0 => 0,
        1 => 0xFFFF,
        2 | 3 => !one,
        4 => one,
        _ => random.bits() as u16,
    }
}

/// Bits 63:56 of every kind, in their place.
fn top_byte(random: &mut Random) -> u64 {
    let tag = random.below(16);
    let byte = match random.below(6) {
        0 => 0,
        1 => tag,
        2 => 0xF0 | tag,
        3 => tag << 4,
        4 => random.pick(&[0x0F, 0xFF, 0xF0, 0x80, 0x7F, 0x10]),
        _ => random.below(256),
    };
    byte << 56
}

/// A location with any bits above it.
pub fn with_top_byte(random: &mut Random, location: u64) -> u64 {
    (location % TOP) | top_byte(random)
}

/// A value in range for a field, often at an end of its range.
pub fn value(random: &mut Random, field: &Field) -> u64 {
    match field.kind {
        Kind::Register => register(random),
        Kind::TagOffset => match random.below(3) {
            0 => random.pick(&[0, 1, 15]),
            _ => random.below(16),
        },
        Kind::Amount => 16 * edge_or_any(random, 0, (1 << field.bits) - 1) as u64,
        Kind::SignedAmount => {
            let half = 1 << (field.bits - 1);
            (16 * edge_or_any(random, -half, half - 1)) as u64
        }
    }
}

fn edge_or_any(random: &mut Random, lowest: i64, highest: i64) -> i64 {
    match random.below(4) {
        0 => random.pick(&[lowest, lowest + 1, highest - 1, highest]),
        1 => random.pick(&[0, 1, 2, lowest.max(-1), lowest.max(-2)]),
        _ => lowest + random.below((highest - lowest + 1) as u64) as i64,
    }
}

/// A base for so many granules: at 0, small, with its end at 2^56, or astride
/// a power of two at which a sum cut short would go astray.
pub fn base(random: &mut Random, granules: u64) -> u64 {
    let size = 16 * granules;
    match random.below(8) {
        0 | 1 => 0,
        2 => random.pick(&[0x10, 0x20, 0x1000]),
        3 | 4 => TOP - size,
        5 => TOP - size - random.pick(&[16, 32, 4096]),
        6 => {
            let power = random.pick(&[1 << 32, 1 << 31, 1 << 52, 1 << 55]);
            power - 16 * (granules / 2)
        }
        _ => 16 * random.below((TOP - size) / 16),
    }
}

/// An address for a load or store of so many granules: mostly modelled ones,
/// else on either side of the ends, seldom anywhere; now and then off a granule.
pub fn address(random: &mut Random, machine: &Machine, named: u64) -> u64 {
    let granules = machine.tags.len() as u64;
    let end = machine.base.wrapping_add(16 * granules);
    let location = match random.below(20) {
        0..=14 if granules >= named => machine.base + 16 * first_of(random, granules + 1 - named),
        15 => random.bits(),
        _ => random.pick(&[
            machine.base.wrapping_sub(16),
            machine.base.wrapping_sub(32),
            end.wrapping_sub(16),
            end,
            end.wrapping_add(16),
            TOP - 16,
            TOP - 32,
            0,
            16,
        ]),
    };
    let off = match random.below(12) {
        0 => random.pick(&[1, 2, 4, 8, 15]),
        _ => 0,
    };
    with_top_byte(random, location.wrapping_add(off))
}

/// One of so many granules, often the first or one of the last two.
fn first_of(random: &mut Random, granules: u64) -> u64 {
    match random.below(6) {
        0 => 0,
        1 => granules - 1,
        2 => granules.saturating_sub(2),
        _ => random.below(granules),
    }
}

/// A pointer for arithmetic: into the memory, or close to where a sum carries
/// into the tag, changes bit 55, or wraps.
pub fn pointer(random: &mut Random, machine: &Machine) -> u64 {
    match random.below(4) {
        0 => address(random, machine, 1),
        1 => random.bits(),
        _ => {
            let edge: u64 = random.pick(&[0, 1 << 32, 1 << 55, TOP, 1 << 60, 1 << 63]);
            let close = random.pick(&[0, 1, 8, 16, 1008, 1024, 4096]);
            let value = match random.below(2) {
                0 => edge.wrapping_add(close),
                _ => edge.wrapping_sub(close),
            };
            top_byte(random).wrapping_add(value)
        }
    }
}

pub fn any_form(random: &mut Random) -> &'static Form {
    &FORMS[random.below(FORMS.len() as u64) as usize]
}

/// A word of a form with any fields.
pub fn any_word(random: &mut Random, form: &Form) -> u32 {
    form.fixed | random.bits() as u32 & !form.mask
}

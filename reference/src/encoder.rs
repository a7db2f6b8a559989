//! Forms and their fields to words and back (document 01, "Words").
//!
//! A field's value is a plain number of 64 bits: the number of a register, a
//! tag offset, or an amount in bytes modulo 2^64.

use crate::code::Code;
use crate::words::{form_of, Form, Instruction};

const GRANULE: u64 = 16;

#[derive(Clone, Copy, Debug, PartialEq)]
pub enum Kind {
    Register,
    TagOffset,
    /// A count of granules from 0 on.
    Amount,
    /// A count of granules in two's complement.
    SignedAmount,
}

/// A place in a word: `bits` bits, the lowest of them bit `low`.
#[derive(Clone, Copy, Debug)]
pub struct Field {
    pub kind: Kind,
    pub bits: u32,
    low: u32,
}

const fn field(kind: Kind, bits: u32, low: u32) -> Field {
    Field { kind, bits, low }
}

pub const RD: Field = field(Kind::Register, 5, 0);
pub const RT: Field = field(Kind::Register, 5, 0);
pub const RN: Field = field(Kind::Register, 5, 5);
pub const RT2: Field = field(Kind::Register, 5, 10);
pub const RM: Field = field(Kind::Register, 5, 16);
pub const IMM4: Field = field(Kind::TagOffset, 4, 10);
pub const IMM6: Field = field(Kind::Amount, 6, 16);
pub const IMM9: Field = field(Kind::SignedAmount, 9, 12);
pub const SIMM7: Field = field(Kind::SignedAmount, 7, 15);

/// The fields of an instruction, in the order in which a script names them.
pub fn fields(instruction: Instruction) -> &'static [Field] {
    use Instruction::*;
    match instruction {
        Addg | Subg => &[RD, RN, IMM6, IMM4],
        Subp | Subps | Irg | Gmi => &[RD, RN, RM],
        Ldg | Stg | Stzg | St2g | Stz2g => &[RT, RN, IMM9],
        Stgp => &[RT, RT2, RN, SIMM7],
    }
}

impl Field {
    /// The field's value in a word.
    pub fn of(self, word: u32) -> u64 {
        let raw = u64::from(word) >> self.low & self.ones();
        match self.kind {
            Kind::Register | Kind::TagOffset => raw,
            Kind::Amount => raw * GRANULE,
            Kind::SignedAmount if raw < self.half() => raw * GRANULE,
            Kind::SignedAmount => raw.wrapping_sub(2 * self.half()).wrapping_mul(GRANULE),
        }
    }

    /// The value in its place of a word, or nothing if it is out of range.
    fn placed(self, value: u64) -> Option<u32> {
        let raw = match self.kind {
            Kind::Register | Kind::TagOffset => value,
            Kind::Amount if value.is_multiple_of(GRANULE) => value / GRANULE,
            Kind::SignedAmount if value.is_multiple_of(GRANULE) => {
                // Moved up by half the range, the range begins at 0.
                let lowest = self.half() * GRANULE;
                let from_lowest = value.wrapping_add(lowest) / GRANULE;
                (from_lowest <= self.ones()).then_some(from_lowest ^ self.half())?
            }
            Kind::Amount | Kind::SignedAmount => return None,
        };
        (raw <= self.ones()).then_some((raw << self.low) as u32)
    }

    /// Everything that can stand in the field's place of a word.
    pub fn places(self) -> impl Iterator<Item = u32> {
        (0..1 << self.bits).map(move |raw: u32| raw << self.low)
    }

    pub fn ones_in_place(self) -> u32 {
        (self.ones() as u32) << self.low
    }

    fn ones(self) -> u64 {
        (1 << self.bits) - 1
    }

    fn half(self) -> u64 {
        1 << (self.bits - 1)
    }
}

/// The word of a form, or FIELD and 0 if one of its fields is out of range.
pub fn encode(form: &Form, values: &[u64]) -> (Code, u32) {
    let places = fields(form.instruction).iter().zip(values);
    let placed: Option<Vec<u32>> = places.map(|(field, &value)| field.placed(value)).collect();
    match placed {
        Some(placed) => (
            Code::Done,
            placed.iter().fold(form.fixed, |word, bits| word | bits),
        ),
        None => (Code::Field, 0),
    }
}

/// The form of a word and the values of its fields.
pub fn decode(word: u32) -> Option<(&'static Form, Vec<u64>)> {
    let form = form_of(word)?;
    let fields = fields(form.instruction).iter();
    Some((form, fields.map(|field| field.of(word)).collect()))
}

#[cfg(test)]
mod tests {
    use super::*;
    use crate::words::FORMS;

    fn form(name: &str) -> &'static Form {
        let found = FORMS.iter().find(|form| form.name == name);
        found.expect("a form's name")
    }

    fn minus(bytes: u64) -> u64 {
        bytes.wrapping_neg()
    }

    #[test]
    fn words_of_the_paper_encode_and_decode() {
        let rows: [(&str, &[u64], u32); 12] = [
            ("ADDG", &[0, 1, 16, 1], 0x9181_0420),
            ("ADDG", &[0, 1, 16, 0], 0x9181_0020),
            ("STGP offset", &[1, 2, 0, 16], 0x6900_8801),
            ("STG pre", &[1, 0, minus(16)], 0xD93F_FC01),
            ("ST2G offset", &[1, 0, 0], 0xD9A0_0801),
            ("STZG offset", &[1, 0, 0], 0xD960_0801),
            ("LDG", &[1, 0, 0], 0xD960_0001),
            ("STG offset", &[0, 31, 0], 0xD920_0BE0),
            ("SUBPS", &[31, 1, 2], 0xBAC2_003F),
            ("IRG", &[0, 1, 31], 0x9ADF_1020),
            ("GMI", &[2, 1, 31], 0x9ADF_1422),
            ("STG post", &[0, 0, 16], 0xD920_1400),
        ];
        for (name, values, word) in rows {
            assert_eq!(encode(form(name), values), (Code::Done, word), "{name}");
            assert_eq!(decode(word), Some((form(name), values.to_vec())), "{name}");
        }
    }

    #[test]
    fn row_15_is_not_decoded() {
        assert_eq!(decode(0x9180_4020), None);
        assert_eq!(decode(0xD9A0_0001), None);
    }

    #[test]
    fn fields_fill_the_places_outside_the_mask() {
        for form in &FORMS {
            let places = fields(form.instruction).iter();
            let filled = places.map(|field| field.ones_in_place());
            let all = filled.reduce(|one, other| {
                assert_eq!(one & other, 0, "{}: fields overlap", form.name);
                one | other
            });
            assert_eq!(all, Some(!form.mask), "{}", form.name);
        }
    }

    /// The ranges as the paper prints them: lowest and highest amount.
    const RANGES: [(&str, i64, i64); 5] = [
        ("ADDG", 0, 1008),
        ("SUBG", 0, 1008),
        ("LDG", -4096, 4080),
        ("STZ2G post", -4096, 4080),
        ("STGP pre", -1024, 1008),
    ];

    fn code_of_amount(name: &str, amount: i64) -> Code {
        let values = |field: &Field| match field.kind {
            Kind::Register | Kind::TagOffset => 0,
            Kind::Amount | Kind::SignedAmount => amount as u64,
        };
        let values: Vec<u64> = fields(form(name).instruction).iter().map(values).collect();
        encode(form(name), &values).0
    }

    #[test]
    fn amounts_are_held_to_their_range() {
        for (name, lowest, highest) in RANGES {
            for amount in [lowest, lowest + 16, highest - 16, highest] {
                assert_eq!(code_of_amount(name, amount), Code::Done, "{name} {amount}");
            }
            let astray = [lowest - 16, highest + 16, i64::MIN, i64::MAX - 15, 1 << 32];
            for amount in astray {
                assert_eq!(code_of_amount(name, amount), Code::Field, "{name} {amount}");
            }
            for off in [-15, -8, -1, 1, 8, 15] {
                let amount = lowest + 32 + off;
                assert_eq!(code_of_amount(name, amount), Code::Field, "{name} {amount}");
            }
        }
    }

    #[test]
    fn registers_and_tag_offsets_are_held_to_their_range() {
        let addg = form("ADDG");
        assert_eq!(encode(addg, &[31, 31, 0, 15]), (Code::Done, 0x9180_3FFF));
        for too_large in [32, 1 << 32, u64::MAX] {
            assert_eq!(encode(addg, &[too_large, 0, 0, 0]), (Code::Field, 0));
            assert_eq!(encode(addg, &[0, too_large, 0, 0]), (Code::Field, 0));
        }
        for too_large in [16, 31, 1 << 32, u64::MAX] {
            assert_eq!(encode(addg, &[0, 0, 0, too_large]), (Code::Field, 0));
        }
        let stgp = form("STGP post");
        assert_eq!(encode(stgp, &[31, 31, 31, 0]), (Code::Done, 0x6880_7FFF));
        assert_eq!(encode(stgp, &[0, 32, 0, 0]), (Code::Field, 0));
        assert_eq!(encode(form("GMI"), &[0, 0, 32]), (Code::Field, 0));
    }

    #[test]
    fn every_amount_reads_back() {
        for (name, lowest, highest) in RANGES {
            for amount in (lowest..=highest).step_by(16) {
                let form = form(name);
                let values: Vec<u64> = match form.instruction {
                    Instruction::Addg | Instruction::Subg => vec![3, 4, amount as u64, 5],
                    Instruction::Stgp => vec![3, 4, 5, amount as u64],
                    _ => vec![3, 4, amount as u64],
                };
                let (code, word) = encode(form, &values);
                assert_eq!(code, Code::Done, "{name} {amount}");
                assert_eq!(decode(word), Some((form, values)), "{name} {amount}");
            }
        }
    }
}

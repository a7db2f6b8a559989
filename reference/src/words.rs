//! Which 32-bit words are defined (document 01, "Words").

use std::sync::LazyLock;

#[derive(Clone, Copy, Debug, PartialEq)]
pub enum Instruction {
    Addg,
    Subg,
    Subp,
    Subps,
    Irg,
    Gmi,
    Ldg,
    Stg,
    Stzg,
    St2g,
    Stz2g,
    Stgp,
}

use Instruction::*;

/// How a store comes to its address, and whether it writes the base register
/// back. The numbers are bits 11:10 of the tag stores.
#[derive(Clone, Copy, Debug, PartialEq)]
pub enum Mode {
    Post = 0b01,
    Offset = 0b10,
    Pre = 0b11,
}

use Mode::*;

/// One instruction form: a word is of this form when it has `fixed` in all
/// places of `mask`. The places outside the mask are its fields. Only the
/// stores have a mode.
#[derive(Debug, PartialEq)]
pub struct Form {
    pub name: &'static str,
    pub instruction: Instruction,
    pub mode: Option<Mode>,
    pub fixed: u32,
    pub mask: u32,
}

/// All places but imm6 at 21:16, imm4 at 13:10, Rn and Rd.
const AMOUNT_AND_TAG_OFFSET: u32 = 0b1111_1111_1100_0000_1100_0000_0000_0000;
/// All places but Rm at 20:16, Rn and Rd.
const THREE_REGISTERS: u32 = 0b1111_1111_1110_0000_1111_1100_0000_0000;
/// All places but imm9 at 20:12, Rn and Rt.
const GRANULE_ACCESS: u32 = 0b1111_1111_1110_0000_0000_1100_0000_0000;
/// All places but simm7 at 21:15, Rt2 at 14:10, Rn and Rt.
const REGISTER_PAIR: u32 = 0b1111_1111_1100_0000_0000_0000_0000_0000;

const fn no_store(name: &'static str, instruction: Instruction, fixed: u32, mask: u32) -> Form {
    Form {
        name,
        instruction,
        mode: None,
        fixed,
        mask,
    }
}

const fn tag_store(name: &'static str, instruction: Instruction, mode: Mode, fixed: u32) -> Form {
    Form {
        name,
        instruction,
        mode: Some(mode),
        fixed: fixed | (mode as u32) << 10,
        mask: GRANULE_ACCESS,
    }
}

const fn pair_store(name: &'static str, mode: Mode, fixed: u32) -> Form {
    Form {
        name,
        instruction: Stgp,
        mode: Some(mode),
        fixed,
        mask: REGISTER_PAIR,
    }
}

/// The 22 forms, in the order of the paper's table. Bits that the table gives
/// to no field are fixed: 15:14 of ADDG and SUBG, 11:10 of LDG, and 15:10 of
/// the forms with three registers.
pub static FORMS: [Form; 22] = [
    no_store("ADDG", Addg, 0x9180_0000, AMOUNT_AND_TAG_OFFSET),
    no_store("SUBG", Subg, 0xD180_0000, AMOUNT_AND_TAG_OFFSET),
    no_store("SUBP", Subp, 0x9AC0_0000, THREE_REGISTERS),
    no_store("SUBPS", Subps, 0xBAC0_0000, THREE_REGISTERS),
    no_store("IRG", Irg, 0x9AC0_1000, THREE_REGISTERS),
    no_store("GMI", Gmi, 0x9AC0_1400, THREE_REGISTERS),
    no_store("LDG", Ldg, 0xD960_0000, GRANULE_ACCESS),
    tag_store("STG post", Stg, Post, 0xD920_0000),
    tag_store("STG pre", Stg, Pre, 0xD920_0000),
    tag_store("STG offset", Stg, Offset, 0xD920_0000),
    tag_store("STZG post", Stzg, Post, 0xD960_0000),
    tag_store("STZG pre", Stzg, Pre, 0xD960_0000),
    tag_store("STZG offset", Stzg, Offset, 0xD960_0000),
    tag_store("ST2G post", St2g, Post, 0xD9A0_0000),
    tag_store("ST2G pre", St2g, Pre, 0xD9A0_0000),
    tag_store("ST2G offset", St2g, Offset, 0xD9A0_0000),
    tag_store("STZ2G post", Stz2g, Post, 0xD9E0_0000),
    tag_store("STZ2G pre", Stz2g, Pre, 0xD9E0_0000),
    tag_store("STZ2G offset", Stz2g, Offset, 0xD9E0_0000),
    pair_store("STGP post", Post, 0x6880_0000),
    pair_store("STGP pre", Pre, 0x6980_0000),
    pair_store("STGP offset", Offset, 0x6900_0000),
];

impl Form {
    /// The key of the form's line in a script: the instruction's name in
    /// lower case, without the mode.
    pub fn key(&self) -> String {
        let instruction = self.name.split(' ').next().unwrap_or(self.name);
        instruction.to_lowercase()
    }

    fn matches(&self, word: u32) -> bool {
        word & self.mask == self.fixed
    }
}

/// Going over all 2^32 words must be quick, so the rows are sorted once by a
/// word's highest bits: each entry lists the few rows still possible there.
const KEY_BITS: u32 = 10;
const KEY_SHIFT: u32 = 32 - KEY_BITS;

static CANDIDATES: LazyLock<Vec<Vec<&'static Form>>> =
    LazyLock::new(|| (0..1 << KEY_BITS).map(forms_with_key).collect());

fn forms_with_key(key: u32) -> Vec<&'static Form> {
    let agrees = |form: &&Form| key & (form.mask >> KEY_SHIFT) == form.fixed >> KEY_SHIFT;
    FORMS.iter().filter(agrees).collect()
}

/// The form of a word, or none if the word is not one of the 22 forms.
pub fn form_of(word: u32) -> Option<&'static Form> {
    let candidates = &CANDIDATES[(word >> KEY_SHIFT) as usize];
    candidates.iter().copied().find(|form| form.matches(word))
}

pub fn defined(word: u32) -> bool {
    form_of(word).is_some()
}

/// What the C front end is told of a word (document 01, "The reachable part",
/// last paragraph): code 0, DONE, or 2, UNDEFINED.
pub fn word_code(word: u32) -> u32 {
    if defined(word) {
        0
    } else {
        2
    }
}

#[cfg(test)]
mod tests {
    use super::*;

    /// The words of document 01, "Numbers at the edges", that are defined, of
    /// its session S1, and of some forms that neither has.
    const EXAMPLES: [(&str, u32, &str); 18] = [
        ("P1 to P3", 0x9181_0420, "ADDG"),
        ("P4", 0x9180_0020, "ADDG"),
        ("P5", 0x9180_0420, "ADDG"),
        ("P6", 0x9181_0020, "ADDG"),
        ("P7", 0x6900_8801, "STGP offset"),
        ("P8", 0xD93F_FC01, "STG pre"),
        ("P9", 0xD9A0_0801, "ST2G offset"),
        ("P10", 0xD960_0801, "STZG offset"),
        ("P11", 0xD960_0001, "LDG"),
        ("P12", 0xD920_0BE0, "STG offset"),
        ("P13", 0xBAC2_003F, "SUBPS"),
        ("P14", 0x9ADF_1020, "IRG"),
        ("16", 0x9ADF_1422, "GMI"),
        ("S1", 0xD920_1400, "STG post"),
        ("SUBG as P1", 0xD181_0420, "SUBG"),
        ("SUBP as P13", 0x9AC2_003F, "SUBP"),
        ("STGP post", 0x6880_8801, "STGP post"),
        ("STGP pre", 0x6980_8801, "STGP pre"),
    ];

    #[test]
    fn worked_examples_are_defined() {
        for (row, word, name) in EXAMPLES {
            assert_eq!(form_of(word).map(|form| form.name), Some(name), "{row}");
            assert_eq!(word_code(word), 0, "{row}");
        }
    }

    #[test]
    fn row_15_is_undefined() {
        assert_eq!(word_code(0x9180_4020), 2);
        assert_eq!(word_code(0xD9A0_0001), 2);
    }

    #[test]
    fn reserved_bits_of_addg_and_subg_must_be_zero() {
        for base in [0x9180_0000, 0xD180_0000] {
            for reserved in [0x4000, 0x8000, 0xC000] {
                assert_eq!(word_code(base | reserved), 2);
            }
        }
    }

    #[test]
    fn only_ldg_has_bits_11_and_10_zero() {
        assert_eq!(word_code(0xD960_0000), 0);
        for base in [0xD920_0000, 0xD9A0_0000, 0xD9E0_0000] {
            assert_eq!(word_code(base), 2);
        }
    }

    #[test]
    fn fixed_bits_lie_in_the_mask() {
        for form in &FORMS {
            assert_eq!(form.fixed & !form.mask, 0, "{}", form.name);
        }
    }

    #[test]
    fn no_word_has_two_forms() {
        for (number, one) in FORMS.iter().enumerate() {
            for other in &FORMS[number + 1..] {
                let differing = (one.fixed ^ other.fixed) & one.mask & other.mask;
                assert_ne!(differing, 0, "{} and {}", one.name, other.name);
            }
        }
    }

    #[test]
    fn number_of_defined_words() {
        // Disjoint forms, 2^(field bits) words each: 6+4+5+5 = 20, 5+5+5 = 15, 9+5+5 = 19, 7+5+5+5 = 22.
        let by_hand = 2 * (1 << 20) + 4 * (1 << 15) + (1 + 12) * (1 << 19) + 3 * (1 << 22);
        let by_rows: u32 = FORMS.iter().map(|form| 1 << form.mask.count_zeros()).sum();
        assert_eq!(by_hand, 21_626_880);
        assert_eq!(by_rows, by_hand);
    }

    fn found_by_search(word: u32) -> Option<&'static Form> {
        FORMS.iter().find(|form| form.matches(word))
    }

    #[test]
    fn index_finds_what_a_search_of_all_rows_finds() {
        let near = FORMS.iter().flat_map(|form| {
            let pairs = (0..32).flat_map(|one| (0..32).map(move |other| 1 << one | 1 << other));
            pairs.map(|flipped: u32| form.fixed ^ flipped)
        });
        let spread = (0..1 << 18).map(|step: u32| step.wrapping_mul(0x9E37_79B1));
        for word in near.chain(spread) {
            assert_eq!(form_of(word), found_by_search(word), "{word:#010x}");
        }
    }
}

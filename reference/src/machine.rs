//! The machine of document 01 without its history and cursor: what it holds,
//! when its part of the setup is well formed, and which rule carries out a
//! word. The plain machine of the paper takes whole copies of it.

use crate::code::Code;
use crate::words::{form_of, Instruction};

pub const MOST_GRANULES: usize = 65_536;
pub const SP: u64 = 31;

/// Plain numbers, any of which may break a rule of the setup.
#[derive(Clone, Debug, PartialEq)]
pub struct Machine {
    pub base: u64,
    pub access: bool,
    pub exclude: u16,
    pub x: [u64; 31],
    pub sp: u64,
    pub nzcv: u8,
    pub rgsr_tag: u8,
    pub seed: u16,
    pub tags: Vec<u8>,
    pub data: Vec<u8>,
}

impl Machine {
    /// A fresh machine on a base, with no granules.
    pub fn fresh(base: u64) -> Machine {
        Machine {
            base,
            access: true,
            exclude: 0,
            x: [0; 31],
            sp: 0,
            nzcv: 0,
            rgsr_tag: 0,
            seed: 0,
            tags: Vec::new(),
            data: Vec::new(),
        }
    }

    /// Document 01, "Sizes and shape of the setup", but for the cursor.
    pub fn well_formed(&self) -> bool {
        self.memory_well_formed() && self.nzcv <= 15 && self.rgsr_tag <= 15
    }

    /// The rules for the sizes and the base alone.
    pub fn memory_well_formed(&self) -> bool {
        self.tags.len() <= MOST_GRANULES
            && self.data.len() == 16 * self.tags.len()
            && self.base.is_multiple_of(16)
            && self.end() <= 1 << 56
    }

    /// base + 16 × G over the whole numbers: it may exceed 64 bits.
    fn end(&self) -> u128 {
        u128::from(self.base) + 16 * self.tags.len() as u128
    }

    /// Carries out one word, or refuses it by the lowest code that applies
    /// and changes nothing.
    pub fn carry_out(&mut self, word: u32) -> Code {
        if !self.well_formed() {
            return Code::Setup;
        }
        let Some(form) = form_of(word) else {
            return Code::Undefined;
        };
        match form.instruction {
            Instruction::Addg => self.add_with_tag(word, u64::wrapping_add),
            Instruction::Subg => self.add_with_tag(word, u64::wrapping_sub),
            Instruction::Subp => {
                self.subtract_pointers(word);
            }
            Instruction::Subps => self.nzcv = self.subtract_pointers(word),
            Instruction::Irg => self.insert_random_tag(word),
            Instruction::Gmi => self.insert_tag_in_mask(word),
            Instruction::Ldg => return self.load_tag(word),
            _ => return self.store(form, word),
        }
        Code::Done
    }

    /// The place of the granule that holds a location, if it is modelled.
    pub fn granule(&self, address: u64) -> Option<usize> {
        let location = address % (1 << 56);
        let inside = location >= self.base && u128::from(location) < self.end();
        inside.then(|| ((location - self.base) / 16) as usize)
    }

    pub fn register_or_sp(&self, number: u64) -> u64 {
        match number {
            SP => self.sp,
            _ => self.x[number as usize],
        }
    }

    pub fn register_or_zero(&self, number: u64) -> u64 {
        match number {
            31 => 0,
            _ => self.x[number as usize],
        }
    }

    pub fn set_register_or_sp(&mut self, number: u64, value: u64) {
        match number {
            SP => self.sp = value,
            _ => self.x[number as usize] = value,
        }
    }

    /// Register 31 drops what is written to it.
    pub fn set_register_or_drop(&mut self, number: u64, value: u64) {
        if number != 31 {
            self.x[number as usize] = value;
        }
    }
}

#[cfg(test)]
pub mod tests {
    use super::*;

    /// The machine of "Numbers at the edges": base 0x1000 and G = 4.
    pub fn small() -> Machine {
        with_granules(0x1000, 4)
    }

    pub fn with_granules(base: u64, granules: usize) -> Machine {
        Machine {
            tags: vec![0; granules],
            data: vec![0; 16 * granules],
            ..Machine::fresh(base)
        }
    }

    /// Carries out a word that must be refused with this code, and holds the
    /// machine to its state before.
    pub fn assert_refused(machine: &Machine, word: u32, code: Code) {
        let mut after = machine.clone();
        assert_eq!(after.carry_out(word), code, "{word:08x}");
        assert_eq!(&after, machine, "{word:08x}");
    }

    fn assert_well_formed(machine: Machine, expected: bool) {
        assert_eq!(machine.well_formed(), expected, "{machine:?}");
    }

    #[test]
    fn base_is_a_multiple_of_16() {
        for (base, expected) in [(0, true), (1, false), (8, false), (15, false), (16, true)] {
            assert_well_formed(with_granules(base, 0), expected);
            assert_well_formed(with_granules(base, 1), expected);
        }
    }

    #[test]
    fn end_is_at_most_2_to_56() {
        let top = 1 << 56;
        assert_well_formed(with_granules(top - 32, 2), true);
        assert_well_formed(with_granules(top - 16, 2), false);
        assert_well_formed(with_granules(top, 0), true);
        assert_well_formed(with_granules(top + 16, 0), false);
        assert_well_formed(with_granules(top, 1), false);
        assert_well_formed(with_granules(u64::MAX - 15, 0), false);
        assert_well_formed(with_granules(u64::MAX - 15, 1), false);
        assert_well_formed(with_granules(u64::MAX - 15, 2), false);
    }

    #[test]
    fn granules_are_at_most_65_536() {
        assert!(with_granules(0, 65_536).well_formed());
        assert!(!with_granules(0, 65_537).well_formed());
        assert!(with_granules((1 << 56) - (1 << 20), 65_536).well_formed());
        assert!(!with_granules((1 << 56) - (1 << 20) + 16, 65_536).well_formed());
    }

    #[test]
    fn data_bytes_are_16_for_each_tag_byte() {
        for (granules, bytes, expected) in [
            (0, 0, true),
            (0, 1, false),
            (0, 16, false),
            (1, 15, false),
            (1, 17, false),
            (4, 63, false),
            (4, 64, true),
            (4, 65, false),
            (4, 80, false),
        ] {
            let mut machine = with_granules(0x1000, granules);
            machine.data.resize(bytes, 0);
            assert_well_formed(machine, expected);
        }
    }

    #[test]
    fn flags_and_rgsr_tag_are_at_most_15() {
        for (number, expected) in [(15, true), (16, false), (255, false)] {
            let mut machine = small();
            machine.nzcv = number;
            assert_well_formed(machine, expected);
            let mut machine = small();
            machine.rgsr_tag = number;
            assert_well_formed(machine, expected);
        }
    }

    const ADDG: u32 = 0x9181_0420;
    const UNDEFINED: u32 = 0x9180_4020;
    const STG_ON_SP: u32 = 0xD920_0BE0;
    const STG_ON_X0: u32 = 0xD920_0801;

    #[test]
    fn each_code_in_its_order() {
        // One after another the faults are mended: each time the next code is given.
        let mut machine = small();
        machine.nzcv = 16;
        machine.sp = 8;
        machine.x[0] = 8;
        for word in [ADDG, UNDEFINED, STG_ON_SP, STG_ON_X0] {
            assert_refused(&machine, word, Code::Setup);
        }
        machine.nzcv = 15;
        assert_refused(&machine, UNDEFINED, Code::Undefined);
        assert_refused(&machine, STG_ON_SP, Code::SpAlign);
        assert_refused(&machine, STG_ON_X0, Code::Align);
        machine.sp = 0;
        machine.x[0] = 0;
        assert_refused(&machine, STG_ON_SP, Code::Outside);
        assert_refused(&machine, STG_ON_X0, Code::Outside);
        machine.sp = 0x1000;
        machine.x[0] = 0x1030;
        assert_eq!(machine.carry_out(STG_ON_SP), Code::Done);
        assert_eq!(machine.carry_out(STG_ON_X0), Code::Done);
        assert_eq!(machine.carry_out(ADDG), Code::Done);
    }

    #[test]
    fn granules_of_locations() {
        let machine = small();
        assert_eq!(machine.granule(0x0FFF), None);
        assert_eq!(machine.granule(0x1000), Some(0));
        assert_eq!(machine.granule(0x103F), Some(3));
        assert_eq!(machine.granule(0x1040), None);
        assert_eq!(machine.granule(0xFF00_0000_0000_1010), Some(1));
        let at_the_top = with_granules((1 << 56) - 32, 2);
        assert_eq!(at_the_top.granule(0xA5FF_FFFF_FFFF_FFF0), Some(1));
        assert_eq!(at_the_top.granule(0), None);
    }
}

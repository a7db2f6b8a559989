//! LDG and the stores (document 01, "Addresses" and "Stores", and Arm's pages
//! 000 and 002 to 004).

use crate::code::Code;
use crate::encoder::{IMM9, RN, RT, RT2, SIMM7};
use crate::machine::{Machine, SP};
use crate::pointers::{tag_of, with_tag};
use crate::words::{Form, Instruction, Mode};

impl Machine {
    /// LDG: its address is rounded down, so only SP can be misaligned.
    pub(crate) fn load_tag(&mut self, word: u32) -> Code {
        if self.misaligned_sp(word) {
            return Code::SpAlign;
        }
        let address = self.register_or_sp(RN.of(word)).wrapping_add(IMM9.of(word));
        let Some(granule) = self.granule(address / 16 * 16) else {
            return Code::Outside;
        };
        let tag = if self.access {
            self.tags[granule] & 15
        } else {
            0
        };
        let pointer = self.register_or_zero(RT.of(word));
        self.set_register_or_drop(RT.of(word), with_tag(pointer, tag));
        Code::Done
    }

    pub(crate) fn store(&mut self, form: &Form, word: u32) -> Code {
        if self.misaligned_sp(word) {
            return Code::SpAlign;
        }
        let (address, moved) = self.addresses_of_store(form, word);
        if !address.is_multiple_of(16) {
            return Code::Align;
        }
        let Some(granules) = self.named_granules(form.instruction, address) else {
            return Code::Outside;
        };
        for granule in granules {
            self.store_in_granule(form, word, address, granule);
        }
        if form.mode != Some(Mode::Offset) {
            self.set_register_or_sp(RN.of(word), moved);
        }
        Code::Done
    }

    /// Where a store goes, and what its base register is with the amount.
    pub(crate) fn addresses_of_store(&self, form: &Form, word: u32) -> (u64, u64) {
        let amount = match form.instruction {
            Instruction::Stgp => SIMM7.of(word),
            _ => IMM9.of(word),
        };
        let unmoved = self.register_or_sp(RN.of(word));
        let moved = unmoved.wrapping_add(amount);
        match form.mode {
            Some(Mode::Post) => (unmoved, moved),
            _ => (moved, moved),
        }
    }

    fn misaligned_sp(&self, word: u32) -> bool {
        RN.of(word) == SP && !self.sp.is_multiple_of(16)
    }

    /// The places of the granules that a store names, if all are modelled.
    pub(crate) fn named_granules(
        &self,
        instruction: Instruction,
        address: u64,
    ) -> Option<Vec<usize>> {
        let addresses = match instruction {
            Instruction::St2g | Instruction::Stz2g => vec![address, address.wrapping_add(16)],
            _ => vec![address],
        };
        addresses.iter().map(|&named| self.granule(named)).collect()
    }

    /// The data first, then the tag. No register has been written back yet,
    /// so Rt is the old one if it is Rn too.
    fn store_in_granule(&mut self, form: &Form, word: u32, address: u64, granule: usize) {
        let one = self.register_or_zero(RT.of(word));
        let other = self.register_or_zero(RT2.of(word));
        let data = &mut self.data[16 * granule..][..16];
        let tagged = match form.instruction {
            Instruction::Stgp => {
                data[..8].copy_from_slice(&one.to_le_bytes());
                data[8..].copy_from_slice(&other.to_le_bytes());
                address
            }
            Instruction::Stzg | Instruction::Stz2g => {
                data.fill(0);
                self.register_or_sp(RT.of(word))
            }
            _ => self.register_or_sp(RT.of(word)),
        };
        if self.access {
            self.tags[granule] = tag_of(tagged);
        }
    }
}

#[cfg(test)]
mod tests {
    use super::*;
    use crate::machine::tests::{assert_refused, small, with_granules};

    const STG_PRE: u32 = 0xD920_1C00; // STG X0, [X0, #16]!
    const STG_POST: u32 = 0xD920_1400; // STG X0, [X0], #16
    const STG: u32 = 0xD920_1800; // STG X0, [X0, #16]
    const LDG: u32 = 0xD960_0001; // LDG X1, [X0]
    const LDG_ON_SP: u32 = 0xD960_03E1; // LDG X1, [SP]
    const ST2G: u32 = 0xD9A0_0801; // ST2G X1, [X0]
    const STZ2G: u32 = 0xD9E0_0801; // STZ2G X1, [X0]
    const STGP_POST: u32 = 0x6880_8801; // STGP X1, X2, [X0], #16
    const STGP_PRE: u32 = 0x6980_8801; // STGP X1, X2, [X0, #16]!

    fn filled() -> Machine {
        let mut machine = small();
        machine.tags = vec![0xA1, 0xB2, 0xC3, 0xD4];
        machine.data.fill(0xEE);
        machine
    }

    #[test]
    fn the_three_modes() {
        for (word, granule, x0) in [
            (STG_POST, 1, 0x0500_0000_0000_1020),
            (STG_PRE, 2, 0x0500_0000_0000_1020),
            (STG, 2, 0x0500_0000_0000_1010),
        ] {
            let mut machine = filled();
            machine.x[0] = 0x0500_0000_0000_1010;
            let mut expected = machine.clone();
            expected.tags[granule] = 5;
            expected.x[0] = x0;
            assert_eq!(machine.carry_out(word), Code::Done);
            assert_eq!(machine, expected, "{word:08x}");
        }
    }

    #[test]
    fn post_index_judges_the_unmoved_address_alone() {
        let mut machine = small();
        machine.x[0] = 0x1030;
        assert_refused(&machine, STG_PRE, Code::Outside);
        assert_eq!(machine.carry_out(STG_POST), Code::Done);
        assert_eq!(machine.x[0], 0x1040);
        assert_refused(&machine, STG_POST, Code::Outside);
    }

    #[test]
    fn the_tag_is_the_old_one_when_the_base_register_is_stored() {
        // The write back carries into the tag bits: 05 becomes 06.
        let mut machine = with_granules((1 << 56) - 32, 2);
        machine.x[0] = 0x05FF_FFFF_FFFF_FFF0;
        assert_eq!(machine.carry_out(STG_POST), Code::Done);
        assert_eq!(machine.tags, [0, 5]);
        assert_eq!(machine.x[0], 0x0600_0000_0000_0000);
        let mut machine = with_granules(0, 1);
        machine.x[0] = 0x05FF_FFFF_FFFF_FFF0;
        assert_eq!(machine.carry_out(STG_PRE), Code::Done);
        assert_eq!(machine.tags, [5]);
        assert_eq!(machine.x[0], 0x0600_0000_0000_0000);
    }

    #[test]
    fn stgp_takes_its_tag_from_the_computed_address() {
        let mut machine = with_granules(0, 1);
        machine.x[0] = 0x0AFF_FFFF_FFFF_FFF0;
        machine.x[1] = 0x0102_0304_0506_0708;
        machine.x[2] = 0x1112_1314_1516_1718;
        assert_eq!(machine.carry_out(STGP_PRE), Code::Done);
        assert_eq!(machine.tags, [0xB]);
        let bytes = [
            8, 7, 6, 5, 4, 3, 2, 1, 0x18, 0x17, 0x16, 0x15, 0x14, 0x13, 0x12, 0x11,
        ];
        assert_eq!(machine.data, bytes);
        assert_eq!(machine.x[0], 0x0B00_0000_0000_0000);
    }

    #[test]
    fn stgp_post_index_stores_the_old_base_register() {
        let mut machine = filled();
        machine.x[0] = 0x0C00_0000_0000_1030;
        assert_eq!(
            machine.carry_out(0x6880_FC00),
            Code::Done,
            "STGP X0, XZR, [X0], #16"
        );
        assert_eq!(machine.tags, [0xA1, 0xB2, 0xC3, 0xC]);
        assert_eq!(machine.data[48..56], [0x30, 0x10, 0, 0, 0, 0, 0, 0x0C]);
        assert_eq!(machine.data[56..], [0; 8]);
        assert_eq!(machine.x[0], 0x0C00_0000_0000_1040);
    }

    #[test]
    fn ldg_rounds_down_and_reads_four_bits() {
        let mut machine = filled();
        machine.x[0] = 0x103F;
        machine.x[1] = 0xFFFF_FFFF_FFFF_FFFF;
        assert_eq!(machine.carry_out(LDG), Code::Done);
        assert_eq!(machine.x[1], 0xF4FF_FFFF_FFFF_FFFF);
        machine.x[0] = 0x1040;
        assert_refused(&machine, LDG, Code::Outside);
        machine.x[0] = 0x0FFF;
        assert_refused(&machine, LDG, Code::Outside);
        machine.access = false;
        assert_refused(&machine, LDG, Code::Outside);
        machine.x[0] = 0x1008;
        assert_eq!(machine.carry_out(LDG), Code::Done);
        assert_eq!(machine.x[1], 0xF0FF_FFFF_FFFF_FFFF);
    }

    #[test]
    fn ldg_and_post_index_want_sp_aligned() {
        let mut machine = filled();
        machine.sp = 0x1008;
        assert_refused(&machine, LDG_ON_SP, Code::SpAlign);
        assert_refused(&machine, 0xD920_17E0, Code::SpAlign); // STG X0, [SP], #16
        assert_refused(&machine, 0x6880_8BE1, Code::SpAlign); // STGP X1, X2, [SP], #16
        machine.sp = 0x1010;
        assert_eq!(machine.carry_out(LDG_ON_SP), Code::Done);
        assert_eq!(machine.x[1], 0x0200_0000_0000_0000);
    }

    #[test]
    fn ldg_into_register_31_is_dropped() {
        let mut machine = filled();
        machine.x[0] = 0x1000;
        let before = machine.clone();
        assert_eq!(machine.carry_out(0xD960_001F), Code::Done);
        assert_eq!(machine, before);
    }

    #[test]
    fn rt_31_is_sp_in_tag_stores() {
        let mut machine = filled();
        machine.x[0] = 0x1000;
        machine.sp = 0x0900_0000_0000_0001;
        assert_eq!(machine.carry_out(0xD920_081F), Code::Done, "STG SP, [X0]");
        assert_eq!(machine.tags[0], 9);
    }

    #[test]
    fn access_off_keeps_tags_and_writes_data() {
        let mut machine = filled();
        machine.access = false;
        machine.x[0] = 0x0500_0000_0000_1000;
        machine.x[2] = 1;
        let tags = machine.tags.clone();
        assert_eq!(machine.carry_out(STZ2G), Code::Done);
        assert_eq!(machine.data[..32], [0; 32]);
        assert_eq!(machine.data[32..], [0xEE; 32]);
        assert_eq!(machine.carry_out(STGP_POST), Code::Done);
        assert_eq!(machine.data[8], 1);
        assert_eq!(machine.carry_out(STG_POST), Code::Done);
        assert_eq!(machine.tags, tags);
        assert_eq!(machine.x[0], 0x0500_0000_0000_1020);
        machine.x[0] = 0x1040;
        assert_refused(&machine, STG_POST, Code::Outside);
    }

    #[test]
    fn a_pair_ends_inside_or_is_refused_whole() {
        let mut machine = filled();
        machine.x[1] = 0x0700_0000_0000_0000;
        for word in [ST2G, STZ2G] {
            for outside in [0x0FF0, 0x1030, 0x1040] {
                machine.x[0] = outside;
                assert_refused(&machine, word, Code::Outside);
            }
        }
        machine.x[0] = 0x1020;
        assert_eq!(machine.carry_out(ST2G), Code::Done);
        assert_eq!(machine.tags, [0xA1, 0xB2, 7, 7]);
        assert_eq!(machine.data, [0xEE; 64]);
        assert_eq!(machine.carry_out(STZ2G), Code::Done);
        assert_eq!(machine.data[32..], [0; 32]);
        assert_eq!(machine.data[..32], [0xEE; 32]);
    }

    #[test]
    fn a_pair_at_the_top_of_all_locations_is_outside() {
        let mut machine = with_granules((1 << 56) - 32, 2);
        machine.x[0] = (1 << 56) - 16;
        assert_refused(&machine, ST2G, Code::Outside);
        machine.x[0] = u64::MAX - 15;
        assert_refused(&machine, ST2G, Code::Outside);
        machine.x[0] = u64::MAX - 31;
        assert_eq!(machine.carry_out(ST2G), Code::Done);
        // With base 0 the second granule alone would be inside.
        let mut machine = with_granules(0, 2);
        machine.x[0] = (1 << 56) - 16;
        assert_refused(&machine, ST2G, Code::Outside);
    }
}

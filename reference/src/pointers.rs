//! The instructions that work on pointers alone (document 01, "What each word
//! does"). None of them is ever refused on a well-formed setup.

use crate::draw::draw;
use crate::encoder::{IMM4, IMM6, RD, RM, RN};
use crate::machine::Machine;
use crate::tag_choice::choose;

/// Bits 59:56 of a pointer.
pub fn tag_of(pointer: u64) -> u8 {
    (pointer >> 56 & 15) as u8
}

pub fn with_tag(pointer: u64, tag: u8) -> u64 {
    pointer & !(15 << 56) | u64::from(tag) << 56
}

fn sign_extended_from_bit_55(pointer: u64) -> u64 {
    ((pointer << 8) as i64 >> 8) as u64
}

/// Arm's AddWithCarry of 64 bits: the sum and NZCV.
fn add_with_carry(one: u64, other: u64, carry: bool) -> (u64, u8) {
    let unsigned = u128::from(one) + u128::from(other) + u128::from(carry);
    let signed = i128::from(one as i64) + i128::from(other as i64) + i128::from(carry);
    let sum = unsigned as u64;
    let n = sum >> 63 == 1;
    let z = sum == 0;
    let c = u128::from(sum) != unsigned;
    let v = i128::from(sum as i64) != signed;
    let nzcv = u8::from(n) << 3 | u8::from(z) << 2 | u8::from(c) << 1 | u8::from(v);
    (sum, nzcv)
}

impl Machine {
    /// ADDG and SUBG. The tag is taken before the sum and always moves
    /// forward; a carry out of bit 55 stays in the bits above the tag.
    pub(crate) fn add_with_tag(&mut self, word: u32, sum: fn(u64, u64) -> u64) {
        let pointer = self.register_or_sp(RN.of(word));
        let tag = if self.access {
            choose(tag_of(pointer), IMM4.of(word) as u8, self.exclude)
        } else {
            0
        };
        let moved = sum(pointer, IMM6.of(word));
        self.set_register_or_sp(RD.of(word), with_tag(moved, tag));
    }

    /// SUBP and SUBPS: gives the flags, which only SUBPS keeps.
    pub(crate) fn subtract_pointers(&mut self, word: u32) -> u8 {
        let minuend = sign_extended_from_bit_55(self.register_or_sp(RN.of(word)));
        let subtrahend = sign_extended_from_bit_55(self.register_or_sp(RM.of(word)));
        let (difference, nzcv) = add_with_carry(minuend, !subtrahend, true);
        self.set_register_or_drop(RD.of(word), difference);
        nzcv
    }

    /// IRG. The bits are drawn when all tags are masked too; with tag access
    /// off none are drawn.
    pub(crate) fn insert_random_tag(&mut self, word: u32) {
        let pointer = self.register_or_sp(RN.of(word));
        let mask = self.exclude | self.register_or_zero(RM.of(word)) as u16;
        let tag = if self.access {
            let (offset, seed) = draw(self.seed);
            self.seed = seed;
            self.rgsr_tag = choose(self.rgsr_tag, offset, mask);
            self.rgsr_tag
        } else {
            0
        };
        self.set_register_or_sp(RD.of(word), with_tag(pointer, tag));
    }

    /// GMI. All 64 bits of Rm stay; the exclude mask has no part in it.
    pub(crate) fn insert_tag_in_mask(&mut self, word: u32) {
        let tag = tag_of(self.register_or_sp(RN.of(word)));
        let mask = self.register_or_zero(RM.of(word));
        self.set_register_or_drop(RD.of(word), mask | 1 << tag);
    }
}

#[cfg(test)]
mod tests {
    use super::*;
    use crate::code::Code;
    use crate::machine::tests::small;

    #[test]
    fn tags_of_pointers() {
        assert_eq!(tag_of(0xA5FF_FFFF_FFFF_FFFF), 5);
        assert_eq!(with_tag(0xA5FF_FFFF_FFFF_FFFF, 0xC), 0xACFF_FFFF_FFFF_FFFF);
        assert_eq!(with_tag(0, 0xF), 0x0F00_0000_0000_0000);
    }

    #[test]
    fn sign_extension() {
        assert_eq!(
            sign_extended_from_bit_55(0xFF7F_0000_0000_0001),
            0x007F_0000_0000_0001
        );
        assert_eq!(
            sign_extended_from_bit_55(0x0080_0000_0000_0001),
            0xFF80_0000_0000_0001
        );
    }

    #[test]
    fn flags_of_sums() {
        assert_eq!(add_with_carry(1, !1, true), (0, 0b0110));
        assert_eq!(add_with_carry(1, !2, true), (u64::MAX, 0b1000));
        assert_eq!(add_with_carry(2, !1, true), (1, 0b0010));
        assert_eq!(add_with_carry(1 << 63, !1, true), ((1 << 63) - 1, 0b0011));
        assert_eq!(add_with_carry((1 << 63) - 1, 1, false), (1 << 63, 0b1001));
        assert_eq!(add_with_carry(0, 0, false), (0, 0b0100));
    }

    /// SUBPS X0, X1, X2 on these operands: X0 and NZCV.
    fn subps(x1: u64, x2: u64) -> (u64, u8) {
        let mut machine = small();
        machine.x[1] = x1;
        machine.x[2] = x2;
        assert_eq!(machine.carry_out(0xBAC2_0020), Code::Done);
        (machine.x[0], machine.nzcv)
    }

    #[test]
    fn subps_by_hand() {
        assert_eq!(
            subps(0x0300_0000_0000_1000, 0x0900_0000_0000_1000),
            (0, 0b0110)
        );
        assert_eq!(subps(0x1010, 0x0900_0000_0000_1000), (0x10, 0b0010));
        assert_eq!(subps(0x1000, 0x1010), (0xFFFF_FFFF_FFFF_FFF0, 0b1000));
        // Bit 55 makes an operand negative: -1 - 0 has a carry, 0 - -1 has none.
        assert_eq!(subps(0x00FF_FFFF_FFFF_FFFF, 0), (u64::MAX, 0b1010));
        assert_eq!(subps(0, 0x00FF_FFFF_FFFF_FFFF), (1, 0b0000));
        // The two ends of 56 bits: 2^55 - 1 - -2^55 stays far from an overflow of 64.
        let (lowest, highest) = (0x0080_0000_0000_0000, 0x007F_FFFF_FFFF_FFFF);
        assert_eq!(subps(highest, lowest), (0x00FF_FFFF_FFFF_FFFF, 0b0000));
        assert_eq!(subps(lowest, highest), (0xFF00_0000_0000_0001, 0b1010));
    }

    #[test]
    fn subp_keeps_the_flags_and_takes_sp_twice() {
        let mut machine = small();
        machine.nzcv = 0b1001;
        machine.sp = 0x1008;
        machine.x[3] = 0x1000;
        assert_eq!(
            machine.carry_out(0x9ADF_0064),
            Code::Done,
            "SUBP X4, X3, SP"
        );
        assert_eq!(machine.x[4], 8_u64.wrapping_neg());
        assert_eq!(
            machine.carry_out(0x9AC3_03E4),
            Code::Done,
            "SUBP X4, SP, X3"
        );
        assert_eq!(machine.x[4], 8);
        assert_eq!(machine.nzcv, 0b1001);
    }

    #[test]
    fn subg_moves_its_tag_forward() {
        let mut machine = small();
        machine.x[1] = 0x02FF_0000_0000_1000;
        assert_eq!(machine.carry_out(0xD181_0420), Code::Done);
        assert_eq!(machine.x[0], 0x03FF_0000_0000_0FF0);
        machine.x[1] = 0x0F00_0000_0000_0000;
        assert_eq!(machine.carry_out(0xD181_0420), Code::Done);
        assert_eq!(
            machine.x[0], 0x00FF_FFFF_FFFF_FFF0,
            "the borrow ends in bits 59:56"
        );
        machine.x[1] = 0x1000_0000_0000_0000;
        assert_eq!(machine.carry_out(0xD181_0420), Code::Done);
        assert_eq!(
            machine.x[0], 0x01FF_FFFF_FFFF_FFF0,
            "the borrow reaches bit 60"
        );
    }

    #[test]
    fn addg_on_sp_and_with_access_off() {
        let mut machine = small();
        machine.sp = 0x5700_0000_0000_1008;
        assert_eq!(
            machine.carry_out(0x9181_07FF),
            Code::Done,
            "ADDG SP, SP, #16, #1"
        );
        assert_eq!(machine.sp, 0x5800_0000_0000_1018);
        machine.access = false;
        assert_eq!(machine.carry_out(0x9181_07FF), Code::Done);
        assert_eq!(machine.sp, 0x5000_0000_0000_1028);
    }

    const IRG: u32 = 0x9ADF_1020;

    #[test]
    fn irg_with_all_tags_masked_still_draws() {
        let mut machine = small();
        machine.exclude = 0x00FF;
        machine.x[1] = 0x0700_0000_0000_1000;
        machine.x[2] = 0xFFFF_FFFF_FFFF_FF00;
        machine.rgsr_tag = 9;
        machine.seed = 1;
        assert_eq!(machine.carry_out(0x9AC2_1020), Code::Done);
        assert_eq!(machine.x[0], 0x1000);
        assert_eq!((machine.rgsr_tag, machine.seed), (0, 0x1000));
    }

    #[test]
    fn irg_with_access_off_leaves_rgsr() {
        let mut machine = small();
        machine.access = false;
        machine.x[1] = 0xF700_0000_0000_1000;
        machine.rgsr_tag = 9;
        machine.seed = 1;
        assert_eq!(machine.carry_out(IRG), Code::Done);
        assert_eq!(machine.x[0], 0xF000_0000_0000_1000);
        assert_eq!((machine.rgsr_tag, machine.seed), (9, 1));
    }

    #[test]
    fn irg_starts_from_rgsr_not_from_the_pointer() {
        let mut machine = small();
        machine.x[1] = 0x0700_0000_0000_1000;
        machine.rgsr_tag = 9;
        machine.seed = 1;
        assert_eq!(machine.carry_out(IRG), Code::Done);
        assert_eq!(machine.x[0], 0x0A00_0000_0000_1000);
        assert_eq!((machine.rgsr_tag, machine.seed), (10, 0x1000));
    }

    #[test]
    fn gmi_keeps_all_of_rm() {
        let mut machine = small();
        machine.access = false;
        machine.exclude = 0xFFFF;
        machine.sp = 0x8F00_0000_0000_1001;
        machine.x[2] = 0xF00D_0000_0001_0001;
        assert_eq!(machine.carry_out(0x9AC2_17E5), Code::Done, "GMI X5, SP, X2");
        assert_eq!(machine.x[5], 0xF00D_0000_0001_8001);
        let before = machine.clone();
        assert_eq!(
            machine.carry_out(0x9AC2_17FF),
            Code::Done,
            "GMI XZR, SP, X2"
        );
        assert_eq!(machine, before);
    }
}

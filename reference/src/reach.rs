//! The reachable part of the data (document 01, "The reachable part"; the
//! manual, "Replaying a script").

use std::ops::Range;

use crate::machine::Machine;
use crate::pointers::tag_of;

impl Machine {
    /// Where in the data the part lies that a pointer reaches: from its
    /// location on, as far as granules carry its tag. An empty part is 0..0.
    pub fn reachable(&self, pointer: u64) -> Range<usize> {
        if !self.memory_well_formed() {
            return 0..0;
        }
        let Some(first) = self.granule(pointer) else {
            return 0..0;
        };
        let tag = tag_of(pointer);
        let alike = self.tags[first..]
            .iter()
            .take_while(|&&byte| byte & 15 == tag);
        match alike.count() {
            0 => 0..0,
            count => {
                let start = 16 * first + (pointer % 16) as usize;
                start..16 * (first + count)
            }
        }
    }
}

/// Tells parts apart, also those whose bytes are the same in another order.
pub fn checksum(part: &[u8]) -> u64 {
    part.iter().fold(0, |sum: u64, &byte| {
        sum.wrapping_mul(31).wrapping_add(u64::from(byte))
    })
}

#[cfg(test)]
mod tests {
    use super::*;
    use crate::machine::tests::{small, with_granules};

    /// Four granules at 0x1000 with tags 5, 5, 9 and 5.
    fn tagged() -> Machine {
        let mut machine = small();
        machine.tags = vec![0x05, 0xF5, 0x59, 0x15];
        machine
    }

    #[test]
    fn from_the_location_to_the_last_granule_alike() {
        let machine = tagged();
        assert_eq!(machine.reachable(0x0500_0000_0000_1000), 0..32);
        assert_eq!(machine.reachable(0x0500_0000_0000_1001), 1..32);
        assert_eq!(machine.reachable(0x0500_0000_0000_1017), 23..32);
        assert_eq!(machine.reachable(0x0500_0000_0000_101F), 31..32);
        assert_eq!(machine.reachable(0x0900_0000_0000_1020), 32..48);
        assert_eq!(machine.reachable(0x0500_0000_0000_1030), 48..64);
        assert_eq!(machine.reachable(0x0500_0000_0000_103F), 63..64);
        assert_eq!(machine.reachable(0xA500_0000_0000_1008), 8..32);
    }

    #[test]
    fn empty_parts() {
        let machine = tagged();
        for pointer in [
            0x0900_0000_0000_1000,
            0x0500_0000_0000_1020,
            0x5500_0000_0000_1020,
            0x0500_0000_0000_0FFF,
            0x0500_0000_0000_0FF0,
            0x0500_0000_0000_1040,
            0x0580_0000_0000_1000,
            0x0500_0000_0000_0000,
        ] {
            assert_eq!(machine.reachable(pointer), 0..0, "{pointer:x}");
        }
    }

    #[test]
    fn only_sizes_and_base_play_a_part() {
        let pointer = 0x0500_0000_0000_1004;
        let mut machine = tagged();
        machine.nzcv = 255;
        machine.rgsr_tag = 16;
        machine.access = false;
        assert_eq!(machine.reachable(pointer), 4..32);
        machine.data.push(0);
        assert_eq!(machine.reachable(pointer), 0..0);
        machine.data.truncate(63);
        assert_eq!(machine.reachable(pointer), 0..0);
        let mut unaligned = tagged();
        unaligned.base = 0xFF8;
        assert_eq!(unaligned.reachable(pointer), 0..0);
    }

    #[test]
    fn sizes_and_bases_at_their_edges() {
        let whole = |base: u64, granules: usize| {
            let reached = with_granules(base, granules).reachable(base);
            reached == (0..16 * granules) && granules > 0
        };
        let top = 1 << 56;
        assert!(whole(0, 65_536));
        assert!(!whole(0, 65_537));
        assert!(whole(top - 32, 2));
        assert!(!whole(top - 16, 2));
        assert!(!whole(top, 1));
        assert!(!whole(u64::MAX - 15, 1));
        assert_eq!(with_granules(top, 0).reachable(0), 0..0);
    }

    #[test]
    fn a_checksum_hangs_on_the_order() {
        assert_eq!(checksum(&[]), 0);
        assert_eq!(checksum(&[7]), 7);
        assert_eq!(checksum(&[1, 2, 3]), 31 * 31 + 2 * 31 + 3);
        assert_eq!(
            checksum(&[1; 14]),
            (0..14).fold(0_u64, |sum, power| {
                sum.wrapping_add(31_u64.wrapping_pow(power))
            })
        );
    }
}

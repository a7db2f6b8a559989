//! Four random bits from a seed (document 01, "IRG").

/// The four bits, lowest first, and the seed after them. Each bit is the sum
/// mod 2 of four bits of the seed and moves into the seed from above.
pub fn draw(seed: u16) -> (u8, u16) {
    let mut seed = seed;
    let mut bits = 0;
    for place in 0..4 {
        let bit = (seed >> 5 ^ seed >> 3 ^ seed >> 2 ^ seed) & 1;
        seed = seed >> 1 | bit << 15;
        bits |= (bit as u8) << place;
    }
    (bits, seed)
}

#[cfg(test)]
mod tests {
    use super::*;

    #[test]
    fn p14() {
        assert_eq!(draw(1), (1, 0x1000));
    }

    #[test]
    fn draws_done_by_hand() {
        assert_eq!(draw(0), (0, 0));
        // 0020: 1, then 8010, 4008, each 0 until bit 3 is reached: 4008 gives 1, A004 gives 1.
        assert_eq!(draw(0x0020), (0b1101, 0xD002));
        // FFFF: four ones give 0; 7FFF, 3FFF and 1FFF too.
        assert_eq!(draw(0xFFFF), (0, 0x0FFF));
    }
}

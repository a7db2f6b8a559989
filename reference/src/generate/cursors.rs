//! Cursors at and past each bound, on histories with and without words after
//! the last slot.

use super::author::{Author, Script};
use super::random::Random;

const ADDG: u32 = 0x9181_0420; // ADDG X0, X1, #16, #1
const STZG_POST: u32 = 0xD960_1422; // STZG X2, [X1], #16
const UNDEFINED: u32 = 0x9180_4020;

/// Each number of slots with so many words more.
const SLOTS: [u64; 6] = [0, 1, 2, 3, 7, 1026];

pub fn bounds(random: &mut Random) -> Script {
    let mut author = Author::default();
    for slots in SLOTS {
        let mores: &[u64] = if slots == 1026 { &[0] } else { &[0, 1, 4, 7] };
        for more in mores {
            for next in [
                0,
                slots.wrapping_sub(1),
                slots,
                slots + 1,
                1 << 32,
                u64::MAX,
            ] {
                for held in [0, 1, slots, slots + 1, 1 << 32, u64::MAX] {
                    begin(&mut author, random, slots, *more);
                    author.cursor(next, held);
                    calls(&mut author);
                }
            }
        }
    }
    author.finish()
}

/// All slots have well-formed records, of a register and of a granule in turn.
fn begin(author: &mut Author, random: &mut Random, slots: u64, more: u64) {
    author.fresh(0x1000);
    author.granules(3);
    author.register(1, 0x0300_0000_0000_1000);
    author.register(2, 0x0900_0000_0000_1010);
    author.tag(0, 0xF7);
    author.line("seed=1234");
    author.history(8 * slots + more);
    // The state of a long history is long: few of its slots are filled.
    let filled = [
        0,
        1,
        slots / 2,
        slots.saturating_sub(2),
        slots.saturating_sub(1),
    ];
    for slot in (0..slots).filter(|slot| slots < 8 || filled.contains(slot)) {
        let tag = random.below(256);
        let words = match slot % 2 {
            0 => [slot % 8 + 2, random.bits(), 0, 0, 0, 0, 0, 0],
            _ => [0x0120 | tag << 16, 0, random.below(3), 0, 0, 0, 0, 0],
        };
        author.record(slot, &words);
    }
    (0..more).for_each(|place| author.log(8 * slots + place, random.bits()));
}

fn calls(author: &mut Author) {
    author.run(&[]);
    author.back();
    author.word(UNDEFINED);
    author.word(ADDG);
    author.run(&[UNDEFINED]);
    author.run(&[STZG_POST, ADDG, UNDEFINED]);
    author.back();
    author.back();
}

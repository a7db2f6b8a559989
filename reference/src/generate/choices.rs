//! Tag choices, draws, and bytes and words kept past the number of them.

use super::author::{Author, Script};
use super::operands::mask;
use super::random::Random;

/// Every start and offset with the masks of none, all, all but one and one
/// alone, and with some others.
pub fn choices(random: &mut Random) -> Script {
    let mut author = Author::default();
    let ones = (0..16).map(|tag| 1 << tag);
    let masks: Vec<u16> = ones
        .flat_map(|one: u16| [one, !one])
        .chain([0, 0xFFFF])
        .collect();
    for start in 0..16 {
        for offset in 0..16 {
            let others: Vec<u16> = (0..166).map(|_| random.bits() as u16).collect();
            for mask in masks.iter().chain(&others) {
                author.line(&format!("choose={start:x} {offset:x} {mask:04x}"));
            }
        }
    }
    author.finish()
}

/// Every seed there is.
pub fn draws() -> Script {
    let mut author = Author::default();
    (0..=u16::MAX).for_each(|seed| author.line(&format!("draw={seed:04x}")));
    author.finish()
}

/// Words that `kept_bytes` steps and runs: one is always accepted, one stores
/// to X0's address, and one is undefined.
const WORDS: [u32; 3] = [0x9181_0420, 0xD9E0_0801, 0x9180_4020];

/// Bytes set before and after the numbers move, and settings that outlive
/// others; `dump` stays as it is when a fresh machine begins.
pub fn kept_bytes(random: &mut Random) -> Script {
    let mut author = Author::default();
    for _ in 0..2_000 {
        match random.below(25) {
            0 if random.one_in(4) => author.fresh(16 * random.below(64)),
            1 => author.line(&format!("dump={}", random.below(2))),
            2 | 3 => author.line(&format!("tags={:08x}", random.below(6))),
            4 | 5 => author.line(&format!("data={:08x}", random.below(96))),
            6 => author.granules(random.below(6)),
            7..=9 => author.tag(random.below(8), random.bits() as u8),
            10..=12 => author.byte(random.below(100), random.bits() as u8),
            13 => author.line(&format!("exclude={:04x}", mask(random))),
            14 => author.word(random.pick(&WORDS)),
            15 | 16 => author.history(random.below(28)),
            17 | 18 => author.log(random.below(32), random.bits()),
            19 => author.cursor(random.below(3), random.below(3)),
            20 => {
                let word = random.pick(&WORDS);
                author.line(&format!("list={:08x} {word:08x}", random.below(4)));
            }
            21 => author.line(&format!("run={:08x}", random.below(5))),
            22 => author.back(),
            23 => {
                let pointer = author.machine().base + random.below(100);
                author.line(&format!("reach={:016x}", pointer | random.below(16) << 56));
            }
            _ => author.show(),
        }
    }
    last_bytes(&mut author);
    author.finish()
}

/// The highest index of each kind.
fn last_bytes(author: &mut Author) {
    author.fresh(0);
    author.tag(0x1_000F, 0xFF);
    author.byte(0x10_00FF, 0xFF);
    author.log(0x200F, u64::MAX);
    author.line("list=00000fff ffffffff");
    author.show();
    author.line("tags=0001000f");
    author.line("data=001000ff");
    author.line("history=0000200f");
    author.show();
    author.line("tags=00010010");
    author.line("data=00100100");
    author.line("history=00002010");
    author.show();
    author.line("run=00001000");
}

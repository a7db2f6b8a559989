//! Setups by each rule, at its edge and one past it, each with words that are
//! else accepted, undefined or refused for another reason, with runs and with
//! steps back.

use super::author::{Author, Script};
use super::operands::{any_form, any_word};
use super::random::Random;

const TOP: u64 = 1 << 56;
const MOST: u64 = 65_536;

/// Words for the registers that `begin` sets, as they end on a well-formed
/// setup: four accepted, two undefined, then SPALIGN, ALIGN and OUTSIDE.
const WORDS: [u32; 9] = [
    0x9181_0420, // ADDG X0, X1, #16, #1
    0x9ADF_1024, // IRG X4, X1
    0xBAC2_003F, // SUBPS XZR, X1, X2
    0xD920_0825, // STG X5, [X1]
    0x9180_4020,
    0xD9A0_0001,
    0xD920_0BE0, // STG X0, [SP]
    0xD920_0840, // STG X0, [X2]
    0xD920_0860, // STG X0, [X3]
];

pub struct Sizes {
    pub base: u64,
    pub tags: u64,
    pub data: u64,
}

const fn sizes(base: u64, tags: u64, data: u64) -> Sizes {
    Sizes { base, tags, data }
}

const fn matching(base: u64, tags: u64) -> Sizes {
    sizes(base, tags, 16 * tags)
}

/// Lines that break a rule, or come just short of it, and the lines that set
/// the thing to order again.
const SINGLE_RULES: [(&str, &str); 21] = [
    ("nzcv=0f", "nzcv=00"),
    ("nzcv=10", "nzcv=0f"),
    ("nzcv=1f", "nzcv=00"),
    ("nzcv=80", "nzcv=08"),
    ("nzcv=ff", "nzcv=00"),
    ("rgsr=0f", "rgsr=00"),
    ("rgsr=10", "rgsr=0f"),
    ("rgsr=1f", "rgsr=00"),
    ("rgsr=80", "rgsr=08"),
    ("rgsr=ff", "rgsr=00"),
    ("next=0000000000000001", "next=0000000000000000"),
    ("next=0000000100000000", "next=0000000000000000"),
    ("next=8000000000000000", "next=0000000000000000"),
    ("next=ffffffffffffffff", "next=0000000000000000"),
    ("held=0000000000000001", "held=0000000000000000"),
    ("held=0000000000000008", "held=0000000000000000"),
    ("held=0000000100000000", "held=0000000000000000"),
    ("held=ffffffffffffffff", "held=0000000000000000"),
    ("data=0000003f", "data=00000040"),
    ("data=00000041", "data=00000040"),
    ("tags=00000005", "data=00000050"),
];

pub fn small_sizes() -> Vec<Sizes> {
    let mut list = Vec::new();
    for tags in [0, 1, 2, 4] {
        let size = 16 * tags;
        for base in [0, 1, 2, 4, 8, 15, 16, 17, 24, 0x1000, 0x1008, 0xFFF] {
            list.push(matching(base, tags));
        }
        // The end around 2^56, 2^57 and 2^64, where a sum of 64 bits wraps to a small one.
        for top in [TOP, TOP << 1, 1 << 60, 1 << 63, 0] {
            for past in [0, 8, 16, 32, size, 16u64.wrapping_neg()] {
                let base = top.wrapping_sub(size).wrapping_add(past);
                list.push(matching(base, tags));
            }
        }
        for data in [0, 1, 15, 16, 17, 31, 32, 33, 48, 63, 64, 65, 80, 1024] {
            list.push(sizes(0x1000, tags, data));
        }
    }
    list
}

pub const LARGE_SIZES: [Sizes; 14] = [
    matching(0, MOST - 1),
    matching(0, MOST),
    matching(0, MOST + 1),
    matching(0, MOST + 16),
    matching(TOP - 16 * MOST, MOST),
    matching(TOP - 16 * MOST + 16, MOST),
    matching(TOP - 16 * MOST - 16, MOST + 1),
    matching((16 * MOST).wrapping_neg(), MOST),
    matching((16 * MOST).wrapping_neg() + 16, MOST),
    sizes(0, MOST, 16 * MOST - 1),
    sizes(0, MOST, 16 * MOST + 1),
    sizes(0, MOST, 16 * MOST - 16),
    sizes(0, MOST + 1, 16 * MOST),
    sizes(0, 0, 16 * MOST),
];

/// Each rule by itself.
pub fn single_rules() -> Script {
    let mut author = Author::default();
    for access in [1, 0] {
        for slots in 0..3 {
            for (broken, mended) in SINGLE_RULES {
                begin(&mut author, &matching(0x1000, 4), access, slots);
                author.line(broken);
                calls(&mut author);
                author.line(mended);
                calls(&mut author);
            }
            for sizes in small_sizes() {
                begin(&mut author, &sizes, access, slots);
                calls(&mut author);
            }
        }
    }
    author.finish()
}

/// The rules that take a large memory.
pub fn large_sizes() -> Script {
    let mut author = Author::default();
    author.line("dump=0");
    for sizes in &LARGE_SIZES {
        for slots in [0, 2] {
            begin(&mut author, sizes, 1, slots);
            calls(&mut author);
            author.show();
        }
    }
    author.finish()
}

/// Several rules at once, each at an edge or beyond.
pub fn several_rules(random: &mut Random) -> Script {
    let mut author = Author::default();
    let small = small_sizes();
    for _ in 0..400 {
        let sizes = &small[random.below(small.len() as u64) as usize];
        let slots = random.pick(&[0, 0, 1, 2, 3]);
        begin(&mut author, sizes, random.below(2) as u8, slots);
        for _ in 0..random.below(4) {
            let (broken, mended) = random.pick(&SINGLE_RULES);
            author.line(random.pick(&[broken, mended]));
        }
        calls(&mut author);
        for _ in 0..4 {
            let form = any_form(random);
            author.word(any_word(random, form));
        }
    }
    author.finish()
}

/// With slots, one step is held: the one that set X4.
fn begin(author: &mut Author, sizes: &Sizes, access: u8, slots: u64) {
    author.fresh(sizes.base);
    author.line(&format!("tags={:08x}", sizes.tags));
    author.line(&format!("data={:08x}", sizes.data));
    author.line(&format!("access={access}"));
    author.line("seed=1234");
    let first = sizes.base % TOP;
    author.register(1, first | 0x0300_0000_0000_0000);
    author.register(2, first + 8);
    author.register(3, first + 16 * sizes.tags);
    author.register(5, 0x0900_0000_0000_0000);
    author.register(31, first + 8);
    author.tag(0, 0xF7);
    if slots > 0 {
        author.history(8 * slots + 3);
        author.log(8 * (slots - 1), 0x00AB_CD56_0000_0004);
        author.log(8 * (slots - 1) + 1, 0x1234);
        author.log(8 * slots + 2, u64::MAX);
        author.line("held=0000000000000001");
    }
}

/// Every word as a step, then runs of no words and of three, and a step back.
fn calls(author: &mut Author) {
    WORDS.iter().for_each(|&word| author.word(word));
    author.run(&[]);
    author.run(&[WORDS[0], WORDS[2], WORDS[4]]);
    author.back();
}

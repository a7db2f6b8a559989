//! Questions for the reachable part: memories whose bytes tell the places of a
//! small memory apart, and pointers on both sides of every edge.

use super::author::{Author, Script};
use super::chosen_words::accepted;
use super::operands::{base, with_top_byte};
use super::random::Random;
use super::setups::{small_sizes, Sizes, LARGE_SIZES};
use crate::machine::MOST_GRANULES;

const TOP: u64 = 1 << 56;

fn reach(author: &mut Author, pointer: u64) {
    author.line(&format!("reach={pointer:016x}"));
}

/// Data bytes that are not zero, and differ from any other near them.
fn fill(author: &mut Author, random: &mut Random, places: impl Iterator<Item = u64>) {
    let salt = random.below(255);
    places.for_each(|place| author.byte(place, (1 + (salt + 37 * place) % 255) as u8));
}

/// Tag bytes in runs of equal tags. The bits above a tag are often the tag
/// of the run before, so that a whole byte or its upper half misleads.
fn tag_runs(author: &mut Author, random: &mut Random, granules: u64) {
    let mut tag = random.below(16);
    for index in 0..granules {
        let last = tag;
        if random.one_in(3) {
            tag = random.below(16);
        }
        let above = random.pick(&[0, 0, 1, 15, last]);
        author.tag(index, (above << 4 | tag) as u8);
    }
}

/// Every location of three granules and around them with every tag.
pub fn every_place(random: &mut Random, base: u64, tags: [u8; 3]) -> Script {
    let mut author = Author::default();
    author.fresh(base);
    author.granules(3);
    fill(&mut author, random, 0..48);
    for (index, byte) in (0..).zip(tags) {
        author.tag(index, byte);
    }
    for offset in 0..48 + 2 * 17 {
        let location = base.wrapping_add(offset).wrapping_sub(17) % TOP;
        let above = random.below(16) << 60;
        (0..16).for_each(|tag| reach(&mut author, location | tag << 56 | above));
    }
    author.show();
    author.finish()
}

/// The memories on which `every_place` is asked: alone, at the ends of the
/// addresses, and with runs of one, two and three granules.
pub const EVERY_PLACE: [(u64, [u8; 3]); 8] = [
    (0x1000, [0x05, 0x05, 0x05]),
    (0x1000, [0x05, 0xF5, 0x59]),
    (0, [0x00, 0x30, 0x03]),
    (0, [0x0F, 0xFF, 0xF0]),
    (TOP - 48, [0xF0, 0x00, 0x10]),
    (TOP - 48, [0x07, 0x08, 0x78]),
    (1 << 55, [0x21, 0x12, 0x22]),
    ((1 << 32) - 32, [0xCA, 0xAA, 0xAC]),
];

const SETUPS: usize = 30;
const QUESTIONS: usize = 40;

/// Small memories, asked before and after words that change them.
pub fn small(random: &mut Random) -> Script {
    let mut author = Author::default();
    author.line("dump=0");
    for _ in 0..SETUPS {
        let granules = random.pick(&[0, 1, 1, 2, 2, 3, 4, 5, 6, 8]);
        author.fresh(base(random, granules));
        author.granules(granules);
        fill(&mut author, random, 0..16 * granules);
        tag_runs(&mut author, random, granules);
        author.line(&format!("access={}", random.below(2)));
        for number in [0, 1, 2, 31] {
            let location = author.machine().base + 16 * random.below(granules.max(1));
            author.register(number, with_top_byte(random, location));
        }
        questions(&mut author, random);
        for _ in 0..6 {
            if let Some(word) = accepted(random, author.machine()) {
                author.word(word);
            }
        }
        without_a_part(&mut author, random);
        questions(&mut author, random);
        author.show();
    }
    author.finish()
}

fn questions(author: &mut Author, random: &mut Random) {
    for _ in 0..QUESTIONS {
        let pointer = pointer(author, random);
        reach(author, pointer);
    }
}

/// Things that are broken, or off, and play no part.
fn without_a_part(author: &mut Author, random: &mut Random) {
    match random.below(5) {
        0 => author.line(random.pick(&["nzcv=10", "nzcv=ff"])),
        1 => author.line(random.pick(&["rgsr=10", "rgsr=f0"])),
        2 => author.line(random.pick(&["next=0000000000000001", "held=ffffffffffffffff"])),
        3 => author.line("access=0"),
        _ => {}
    }
}

/// A pointer into the memory or close to it, mostly with the tag that is
/// there, else with the bits above that tag or with any.
fn pointer(author: &Author, random: &mut Random) -> u64 {
    let machine = author.machine();
    let size = 16 * machine.tags.len() as u64;
    let behind = match random.below(8) {
        0 => 0,
        1 => size.wrapping_sub(random.pick(&[1, 16, 17])),
        2 => size.wrapping_add(random.pick(&[0, 1, 15, 16])),
        3 => random.pick(&[1_u64, 15, 16]).wrapping_neg(),
        4 => random.bits(),
        _ => random.below(size.max(1)),
    };
    let location = machine.base.wrapping_add(behind) % TOP;
    let byte = u64::from(
        machine
            .granule(location)
            .map_or(0, |index| machine.tags[index]),
    );
    let tag = match random.below(8) {
        0 => byte >> 4,
        1 => random.below(16),
        _ => byte & 15,
    };
    let above = random.pick(&[0, 0, 1, 8, 15]);
    location | tag << 56 | above << 60
}

/// Sizes and bases by each rule, broken and just not.
pub fn small_memories(random: &mut Random) -> Script {
    let mut author = Author::default();
    author.line("dump=0");
    for sizes in small_sizes() {
        begin(&mut author, &sizes);
        fill(&mut author, random, 0..sizes.data);
        at_the_edges(&mut author, &sizes);
    }
    author.finish()
}

/// The same for the sizes that take a large memory.
pub fn large_memories(random: &mut Random) -> Script {
    let mut author = Author::default();
    author.line("dump=0");
    for sizes in &LARGE_SIZES {
        begin(&mut author, sizes);
        let last = sizes.data.saturating_sub(32);
        fill(&mut author, random, (0..32).chain(last..sizes.data));
        at_the_edges(&mut author, sizes);
    }
    author.finish()
}

fn begin(author: &mut Author, sizes: &Sizes) {
    author.fresh(sizes.base);
    author.line(&format!("tags={:08x}", sizes.tags));
    author.line(&format!("data={:08x}", sizes.data));
}

/// From both sides of the memory's ends, as the tags and as the data bytes
/// have them, with tag 0, which all granules carry.
fn at_the_edges(author: &mut Author, sizes: &Sizes) {
    let ends = [0, 16 * sizes.tags, sizes.data];
    for end in ends {
        for off in [0, 1, 8, 16] {
            reach(author, sizes.base.wrapping_add(end + off) % TOP);
            reach(author, sizes.base.wrapping_add(end).wrapping_sub(off) % TOP);
        }
    }
}

/// Runs of many granules in the largest memory.
pub fn large(random: &mut Random) -> Script {
    let mut author = Author::default();
    let granules = MOST_GRANULES as u64;
    author.fresh(base(random, granules));
    author.granules(granules);
    let mut edges: Vec<u64> = (0..6).map(|_| 1 + random.below(granules - 2)).collect();
    edges.sort();
    for (edge, byte) in edges.iter().zip([0x01, 0xF2, 0x23, 0x34, 0xA5, 0x0F]) {
        author.tag(*edge, byte);
    }
    let ends = [vec![0, granules], edges].concat();
    let near = ends
        .iter()
        .flat_map(|end| (16 * end).saturating_sub(20)..16 * granules.min(end + 2));
    fill(&mut author, random, near);
    let base = author.machine().base;
    for end in ends {
        for off in [0, 1, 15, 16, 17] {
            for tag in [0, 1, 2, 3, 4, 5, 15] {
                let after = base.wrapping_add(16 * end + off) % TOP;
                let before = base.wrapping_add(16 * end).wrapping_sub(off) % TOP;
                reach(&mut author, random.pick(&[after, before]) | tag << 56);
            }
        }
    }
    author.finish()
}

#[cfg(test)]
mod tests {
    use super::*;
    use crate::reach_facts::{BROKEN, PART, PLACE};

    #[test]
    fn every_location_is_asked_with_every_tag() {
        let (base, tags) = EVERY_PLACE[1];
        let tally = every_place(&mut Random::new(1), base, tags).played.tally;
        assert_eq!(tally.reaches, 16 * (48 + 34));
        assert_eq!(tally.cases(PLACE, "within a granule"), 16 * 45);
        // Of tag 5 the first two granules, of tag 9 the third.
        assert_eq!(tally.cases(PART, "nothing"), 16 * (48 + 34) - 48);
        assert_eq!(tally.cases(PART, "a part whose ends show"), 48);
    }

    #[test]
    fn broken_memories_are_asked_where_a_part_is() {
        let tally = small_memories(&mut Random::new(1)).played.tally;
        for name in [
            "data one byte off",
            "base no multiple of 16",
            "end beyond 2^56",
        ] {
            assert!(tally.cases(BROKEN, name) > 20, "{name}");
        }
    }
}

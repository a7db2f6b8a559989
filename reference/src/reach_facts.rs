//! Which cases of the reachable part a question is, told from the machine and
//! the pointer.

use std::ops::Range;

use crate::machine::{Machine, MOST_GRANULES};
use crate::pointers::tag_of;
use crate::recorded::Recorded;
use crate::tally::Tally;

/// Where the pointer is, on a sound memory.
pub const PLACE: &str = "reach from";
/// What is reached, on a sound memory.
pub const PART: &str = "reached";
/// Which rule of the memory is broken, where else a part were reached.
pub const BROKEN: &str = "not reached";
/// What plays no part, where a part is reached.
pub const REGARDLESS: &str = "reached regardless of";

const TOP: u64 = 1 << 56;

pub fn count(tally: &mut Tally, recorded: &Recorded, pointer: u64, part: &Range<usize>) {
    let machine = &recorded.machine;
    tally.reaches += 1;
    if !machine.memory_well_formed() {
        if tempting(machine, pointer) {
            count_met(tally, BROKEN, &broken(machine));
        }
        return;
    }
    count_met(tally, PLACE, &places(machine, pointer));
    count_met(tally, PART, &parts(machine, pointer, part));
    if !part.is_empty() {
        tally.count_case(PART, &format!("tag {:x}", tag_of(pointer)));
        count_met(tally, REGARDLESS, &regardless(recorded));
    }
}

type Cases<const COUNT: usize> = [(&'static str, bool); COUNT];

fn count_met(tally: &mut Tally, group: &'static str, cases: &[(&'static str, bool)]) {
    let met = cases.iter().filter(|&&(_, met)| met);
    met.for_each(|(name, _)| tally.count_case(group, name));
}

/// How far a pointer is behind the base, round at 2^56.
fn behind_base(machine: &Machine, pointer: u64) -> u64 {
    pointer.wrapping_sub(machine.base) % TOP
}

/// Whether a part would be found if the rules of the memory were not asked.
fn tempting(machine: &Machine, pointer: u64) -> bool {
    let behind = behind_base(machine, pointer);
    let tag = machine.tags.get((behind / 16) as usize);
    behind < machine.data.len() as u64 && tag.is_some_and(|byte| byte & 15 == tag_of(pointer))
}

fn broken(machine: &Machine) -> Cases<7> {
    let tags = machine.tags.len();
    let data = machine.data.len();
    let end = u128::from(machine.base) + 16 * tags as u128;
    let beyond = end > u128::from(TOP);
    [
        ("data one byte off", data.abs_diff(16 * tags) == 1),
        ("data some bytes off", data.abs_diff(16 * tags) > 1),
        ("65537 tags", tags == MOST_GRANULES + 1),
        ("more tags", tags > MOST_GRANULES + 1),
        ("base no multiple of 16", !machine.base.is_multiple_of(16)),
        ("end beyond 2^56", beyond && machine.base < TOP),
        ("base 2^56 or more", machine.base >= TOP),
    ]
}

fn places(machine: &Machine, pointer: u64) -> Cases<18> {
    let size = 16 * machine.tags.len() as u64;
    let behind = behind_base(machine, pointer);
    let at = |place: u64| behind == place % TOP;
    let before = |bytes: u64| at(TOP - bytes);
    let inside = behind < size;
    let location = pointer % TOP;
    [
        ("no granules", size == 0),
        ("the first byte", inside && at(0)),
        ("the second byte", inside && at(1)),
        ("the second granule", inside && at(16)),
        ("the last granule", size > 0 && at(size - 16)),
        ("the last byte", size > 0 && at(size - 1)),
        ("within a granule", inside && !behind.is_multiple_of(16)),
        ("a granule's start", inside && behind.is_multiple_of(16)),
        ("a byte before the base", before(1)),
        ("a granule before the base", before(16)),
        ("the end", size > 0 && at(size)),
        ("a byte after the end", size > 0 && at(size + 1)),
        ("a granule after the end", size > 0 && at(size + 16)),
        ("bits 63:60 not zero", inside && pointer >> 60 != 0),
        ("an end at 2^56", inside && machine.base + size == TOP),
        // A sum that went over 2^56 carried into the tag, and comes to be a
        // small location.
        ("a carry, at location 0", location == 0 && pointer != 0),
        ("a carry, inside", inside && location < 32 && pointer >= TOP),
        ("far outside", behind >= size + 4096 && behind < TOP - 4096),
    ]
}

fn parts(machine: &Machine, pointer: u64, part: &Range<usize>) -> Cases<12> {
    let data = machine.data.len();
    let tag = tag_of(pointer);
    let own = behind_base(machine, pointer) / 16;
    let own = machine.tags.get(own as usize).copied();
    let reached = !part.is_empty();
    let after = machine.tags.get(part.end / 16).copied();
    let high = |byte: u8, tag: u8| byte >> 4 == tag && byte & 15 != tag;
    [
        ("nothing", !reached),
        ("mismatch at once", own.is_some_and(|byte| byte & 15 != tag)),
        (
            "mismatch at once, high bits alike",
            own.is_some_and(|byte| high(byte, tag)),
        ),
        (
            "high bits of its own tag byte",
            reached && own.is_some_and(|byte| byte > 15),
        ),
        ("ended by another tag", reached && part.end < data),
        (
            "ended by another tag, high bits alike",
            reached && after.is_some_and(|byte| high(byte, tag)),
        ),
        ("up to the end of memory", reached && part.end == data),
        ("one byte", part.len() == 1),
        ("several granules", part.len() > 16),
        ("all of the memory", reached && part.len() == data),
        (
            "all of the largest memory",
            part.len() == 16 * MOST_GRANULES,
        ),
        (
            "a part whose ends show",
            reached && ends_show(&machine.data, part),
        ),
    ]
}

/// Whether the bytes at both ends of a part, and those beside them, are not
/// zero and differ from their neighbours.
fn ends_show(data: &[u8], part: &Range<usize>) -> bool {
    let shows = |place: usize| {
        let around = &data[place.saturating_sub(1)..data.len().min(place + 2)];
        let distinct = around.windows(2).all(|pair| pair[0] != pair[1]);
        distinct && around.iter().all(|&byte| byte != 0)
    };
    shows(part.start) && shows(part.end - 1)
}

fn regardless(recorded: &Recorded) -> Cases<4> {
    let machine = &recorded.machine;
    [
        ("NZCV", machine.nzcv > 15),
        ("RGSR's tag", machine.rgsr_tag > 15),
        ("tag access", !machine.access),
        ("the cursor", !recorded.cursor_well_formed()),
    ]
}

//! What a comparison must at least have made, so that a generator that stops
//! making a case is found out.

use std::ops::RangeInclusive;

use super::batch::{
    ended_name, field_name, length_name, ENDED, LENGTH, LISTED, READ, REFUSED, ROOM, ROWS,
    UNDEFINED, VALUES,
};
use super::{spellings, texts, Summary};
use crate::code::Code::{self, Done, NoRoom};
use crate::encoder::fields;
use crate::minima::Counts;
use crate::words::FORMS;

/// The bytes that a form's lines can have, line feed and all, by hand. The
/// offset forms and LDG have two shapes, of which the first shows no amount.
pub const LENGTHS: [(&str, &[RangeInclusive<usize>]); 22] = [
    ("ADDG", &[20..=26]),
    ("SUBG", &[20..=26]),
    ("SUBP", &[16..=19]),
    ("SUBPS", &[17..=20]),
    ("IRG", &[15..=18]),
    ("GMI", &[15..=18]),
    ("LDG", &[13..=15, 18..=23]),
    ("STG post", &[17..=23]),
    ("STG pre", &[18..=24]),
    ("STG offset", &[13..=15, 18..=23]),
    ("STZG post", &[18..=24]),
    ("STZG pre", &[19..=25]),
    ("STZG offset", &[14..=16, 19..=24]),
    ("ST2G post", &[18..=24]),
    ("ST2G pre", &[19..=25]),
    ("ST2G offset", &[14..=16, 19..=24]),
    ("STZ2G post", &[19..=25]),
    ("STZ2G pre", &[20..=26]),
    ("STZ2G offset", &[15..=17, 20..=25]),
    ("STGP post", &[22..=29]),
    ("STGP pre", &[23..=30]),
    ("STGP offset", &[18..=21, 23..=29]),
];

const ROOMS: [(&str, u64); 8] = [
    ("none", 2000),
    ("one too few", 2000),
    ("exactly", 2000),
    ("one more", 2000),
    ("too few", 20_000),
    ("plenty", 2000),
    ("a place beyond the buffer", 20_000),
    ("the last place there is", 2000),
];

const UNDEFINED_IN: [(&str, u64); 5] = [
    ("plenty of room", 40_000),
    ("little room", 20_000),
    ("no room", 40_000),
    ("a place beyond the buffer", 40_000),
    ("the last place there is", 20_000),
];

const ALL_ROWS: [(&str, u64); 4] = [
    ("all", 10_000),
    ("lines read back", 60_000),
    ("filled to the last byte", 2000),
    ("left empty", 500),
];

/// Kinds of texts of which most are refused.
const TEXTS: [(&str, u64); 17] = [
    ("a byte changed", 500_000),
    ("a byte dropped", 5000),
    ("a byte doubled", 5000),
    ("neighbours swapped", 5000),
    ("a byte put in", 80_000),
    ("cut short", 10_000),
    ("the beginning cut off", 5000),
    ("other amounts", 100_000),
    ("amounts of many digits", 30_000),
    ("other tag offsets", 2000),
    ("other registers", 50_000),
    ("other mnemonics", 5000),
    ("random bytes", 5000),
    ("random letters", 5000),
    ("random pieces", 3000),
    ("random operands", 5000),
    (texts::LONG, 100),
];

/// Spellings of which most or all are lines again, of other words.
const MOSTLY_LINES: [&str; 5] = [
    "no minus",
    "no mark",
    "a mark",
    "the amount left out",
    "numbers of granules",
];

/// A line for each count that is below its minimum. With so many times as
/// much of the random batches there must be so many times as much of some.
pub fn wanting(summary: &Summary, times: u64) -> Vec<String> {
    let tally = &summary.tally;
    let mut counts = Counts::of(tally, times);
    counts.at_least(
        "words listed and read back",
        tally.all_cases(LISTED),
        500_000,
    );
    for form in &FORMS {
        counts.once(LISTED, form.name, 20_000);
        for number in 1..=fields(form.instruction).len() {
            counts.once(VALUES, &field_name(form, number), 30);
        }
    }
    for (name, lengths) in LENGTHS {
        for length in lengths.iter().cloned().flatten() {
            counts.once(LENGTH, &length_name(name, length), 100);
        }
    }
    for (name, minimum) in ROOMS {
        counts.once(ROOM, name, minimum);
    }
    for (name, minimum) in UNDEFINED_IN {
        counts.case(UNDEFINED, name, minimum);
    }
    in_rows(&mut counts);
    counts.at_least("texts refused", tally.all_cases(REFUSED), 200_000);
    for (name, minimum) in TEXTS {
        counts.once(REFUSED, name, minimum);
    }
    counts.once(REFUSED, texts::EMPTY, 1);
    for (name, _) in spellings::ALL {
        let few = MOSTLY_LINES.contains(&name);
        counts.once(REFUSED, name, if few { 1 } else { 10 });
    }
    for name in ["a byte changed", "other amounts", "other registers"] {
        counts.once(READ, name, 1000);
    }
    counts.wanting
}

fn in_rows(counts: &mut Counts) {
    for (name, minimum) in ALL_ROWS {
        counts.case(ROWS, name, minimum);
    }
    let codes = [Done, NoRoom, Code::Undefined];
    for code in codes {
        counts.case(ENDED, &ended_name(code, None), 500);
        for before in codes {
            counts.case(ENDED, &ended_name(code, Some(before)), 1500);
        }
    }
}

#[cfg(test)]
mod tests {
    use super::*;

    #[test]
    fn everything_is_wanting_where_nothing_was_made() {
        let nothing = wanting(&Summary::default(), 2);
        assert!(nothing.len() > 380, "{}", nothing.len());
        for name in [
            "words listed and read back: 0, at least 500000 are wanted",
            "listed and read back: STGP pre: 0, at least 20000 are wanted",
            "least often a value of: ADDG, field 4, TagOffset: 0, at least 30 are wanted",
            "rooms for: LDG, 13 bytes: 0, at least 100 are wanted",
            "room left: exactly: 0, at least 2000 are wanted",
            "undefined in: no room: 0, at least 80000 are wanted",
            "in a row: Done after NoRoom: 0, at least 3000 are wanted",
            "texts refused: 0, at least 200000 are wanted",
            "refused: cmpp: 0, at least 10 are wanted",
            "refused: the empty text: 0, at least 1 are wanted",
        ] {
            assert!(nothing.iter().any(|line| line == name), "{name}");
        }
    }
}

//! What the inputs must at least have made, so that a generator that stops
//! making a case is found out.

use super::facts::{code_and_access, BASE, CODE, EXCLUDE, GRANULES, NAMED, WORDS};
use super::inputs::{kinds, INSTEAD_OF, WRONG};
use super::wrong_lines::WAYS;
use crate::code::Code;
use crate::minima::Counts;
use crate::trials::Summary;
use crate::words::FORMS;

/// The inputs of a kind that are made once, and those that are random.
const KINDS: [(&str, u64, u64); 14] = [
    (kinds::SOUND, 0, 1500),
    (kinds::BROKEN, 0, 300),
    (kinds::CUT, 261, 100),
    (kinds::CHANGED, 520, 0),
    (kinds::DELETED, 260, 0),
    (kinds::INSERTED, 261, 0),
    (kinds::ASTRAY, 0, 400),
    (kinds::LINES, 50, 100),
    (kinds::WRONG_LINES, 2000, 0),
    (kinds::WRONG_ANYWHERE, 0, 600),
    (kinds::MANY_WORDS, 250, 0),
    (kinds::LENGTHS, 400, 0),
    (kinds::VERY_LONG, 32, 4),
    (kinds::PIECES, 0, 60),
];

const CODES: [(Code, u64); 6] = [
    (Code::Done, 80),
    (Code::Setup, 40),
    (Code::Undefined, 30),
    (Code::SpAlign, 20),
    (Code::Align, 20),
    (Code::Outside, 50),
];

const BASES: [(&str, u64); 9] = [
    ("0", 100),
    ("no multiple of 16", 25),
    ("end at 2^56", 200),
    ("end beyond 2^56 by a granule", 25),
    ("2^56", 20),
    ("beyond 2^56", 100),
    ("2^64 - 16", 25),
    ("end at 2^64", 20),
    ("sound", 1000),
];

/// A line for each count that is below its minimum.
pub fn wanting(summary: &Summary, times: u64) -> Vec<String> {
    let tally = summary.tally();
    let mut counts = Counts::of(&tally, times);
    for (kind, once, random) in KINDS {
        counts.at_least(kind, summary.trials(kind), once + times * random);
    }
    counts.at_least("inputs", summary.all_trials(), 5000);
    for (code, minimum) in CODES {
        for access in [true, false] {
            counts.case(CODE, &code_and_access(code, access), minimum);
        }
        let name = format!("{code:?}");
        counts.case(INSTEAD_OF, &name, 25);
    }
    for form in &FORMS {
        let name = format!("{}, accepted", form.name);
        counts.many(&name, tally.words(form, Code::Done), 1000);
    }
    for name in ["0", "1", "1023", "1024", "others"] {
        counts.case(GRANULES, name, 50);
    }
    for name in ["0", "1", "255", "256", "others"] {
        counts.case(WORDS, name, 40);
    }
    for name in ["none", "all", "some"] {
        counts.case(EXCLUDE, name, 100);
    }
    for (name, minimum) in BASES {
        counts.case(BASE, name, minimum);
    }
    lines(&mut counts);
    counts.wanting
}

/// Every line is named often enough, and every way to be wrong tried on
/// every line that it applies to.
fn lines(counts: &mut Counts) {
    for number in 1..=10 {
        counts.once(NAMED, &format!("{number:04x}"), 100);
    }
    for name in ["000b to 0108", "0109", "010a"] {
        counts.once(NAMED, name, 100);
    }
    for way in WAYS {
        let places = if way.applies_to("") { 25 } else { 1 };
        counts.once(WRONG, way.name, places);
    }
}

#[cfg(test)]
mod tests {
    use super::*;
    use crate::sessions::Case;

    #[test]
    fn everything_is_wanting_where_nothing_was_made() {
        let nothing = wanting(&Summary::of::<Case>(), 2);
        assert!(nothing.len() > 180, "{}", nothing.len());
        for name in [
            "cut short: 0, at least 461 are wanted",
            "code: SpAlign, access off: 0, at least 40 are wanted",
            "line named: 010a: 0, at least 100 are wanted",
            "wrong lines: granules 0401: 0, at least 1 are wanted",
            "a wrong line instead of: Setup: 0, at least 50 are wanted",
        ] {
            assert!(nothing.iter().any(|line| line == name), "{name}");
        }
    }
}

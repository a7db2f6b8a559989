//! What the inputs must at least have made, so that a generator that stops
//! making a case is found out.

use super::files;
use super::inputs::{kinds, ODD_LINE, OF_SESSIONS, SPELLED};
use super::written::{Expected, Program, MOST_BYTES, TOO_LARGE};
use super::{size_name, DONE, GIVEN, LOOKS, SIZE, TOLD_BY_ASSEMBLE, TOLD_BY_LIST, UNDONE};
use crate::code::Code;
use crate::listing::spellings;
use crate::minima::Counts;
use crate::session::SETTINGS;
use crate::trials::Summary;
use crate::words::FORMS;

/// The trials of a kind that are made once, and those that are random.
const KINDS: [(&str, u64, u64); 18] = [
    (kinds::ROUND_TRIPS, 24, 150),
    (kinds::EACH_VALUE, 40, 0),
    (kinds::UNDEFINED, 0, 120),
    (kinds::COMMENTED, 0, 150),
    (kinds::MISSPELLED, 0, 180),
    (kinds::WRONG_SETTINGS, 0, 200),
    (kinds::MISSING, 45, 0),
    (kinds::ODD, 250, 0),
    (kinds::ODD_LAST, 250, 0),
    (kinds::TAILS, 250, 0),
    (kinds::CUT, 350, 100),
    (kinds::CHANGED, 350, 0),
    (kinds::ASTRAY, 0, 200),
    (kinds::LINES, 0, 120),
    (kinds::LARGE, 170, 0),
    (kinds::LARGE_PIECES, 12, 0),
    (kinds::PIECES, 0, 20),
    (kinds::FOR_THE_OTHER, 0, 20),
];

/// A line for each count that is below its minimum.
pub fn wanting(summary: &Summary, times: u64) -> Vec<String> {
    let tally = summary.tally();
    let mut counts = Counts::of(&tally, times);
    for (kind, once, random) in KINDS {
        counts.at_least(kind, summary.trials(kind), once + times * random);
    }
    for (kind, _) in OF_SESSIONS {
        let minimum = if kind == "very long" { 5 } else { 20 };
        counts.at_least(kind, summary.trials(kind), minimum);
    }
    for name in ["list", "assemble"] {
        counts.once(GIVEN, name, 1200);
    }
    counts.at_least("inputs", tally.all_cases(GIVEN), 3000);
    told(&mut counts);
    sizes(&mut counts);
    for form in &FORMS {
        let name = format!("{}, listed and assembled", form.name);
        counts.at_least(&name, tally.words(form, Code::Done), 500);
    }
    for (name, minimum) in [
        ("0", 10),
        ("1", 10),
        ("255", 10),
        ("256", 30),
        ("others", 80),
    ] {
        counts.once(UNDONE, name, minimum);
    }
    for (name, _) in spellings::ALL {
        counts.case(SPELLED, name, 2);
    }
    for odd in files::ODD {
        let name = odd.escape_ascii().to_string();
        counts.once(ODD_LINE, &name, 14);
    }
    counts.wanting
}

/// Every line is named often enough, in each way in which it can be wrong.
fn told(counts: &mut Counts) {
    let settings = SETTINGS.map(Expected::Setting);
    for group in [TOLD_BY_LIST, TOLD_BY_ASSEMBLE] {
        counts.once(group, DONE, 200);
        for setting in settings {
            for fault in ["wrong", "not ended", "missing"] {
                counts.once(group, &format!("{fault}: {}", setting.name()), 1);
            }
            counts.once(group, &format!("wrong: {}", setting.name()), 15);
        }
        for fault in ["wrong", "not ended"] {
            let name = format!("{fault}: {}", Expected::End.name());
            counts.once(group, &name, 10);
        }
    }
    for fault in ["wrong", "not ended"] {
        let word = format!("{fault}: {}", Expected::Word.name());
        counts.once(TOLD_BY_LIST, &word, 40);
        let line = format!("{fault}: {}", Expected::ListingLine.name());
        counts.once(TOLD_BY_ASSEMBLE, &line, 150);
    }
    let undefined = format!("wrong: {}", Expected::ModelledWord.name());
    counts.case(TOLD_BY_LIST, &undefined, 110);
    for group in [TOLD_BY_LIST, TOLD_BY_ASSEMBLE] {
        counts.once(group, TOO_LARGE, 40);
    }
}

/// At the most bytes and one beyond them, inputs of every look. No session of
/// so many bytes is good.
fn sizes(counts: &mut Counts) {
    for bytes in [MOST_BYTES, MOST_BYTES + 1] {
        for looks in LOOKS {
            counts.once(SIZE, &size_name(Program::Assemble, bytes, looks), 2);
        }
        for looks in &LOOKS[1..] {
            counts.once(SIZE, &size_name(Program::List, bytes, looks), 5);
        }
    }
}

#[cfg(test)]
mod tests {
    use super::*;
    use crate::assembly::Case;

    #[test]
    fn everything_is_wanting_where_nothing_was_made() {
        let nothing = wanting(&Summary::of::<Case>(), 2);
        assert!(nothing.len() > 250, "{}", nothing.len());
        for name in [
            "each undoes the other: 0, at least 324 are wanted",
            "GMI, listed and assembled: 0, at least 500 are wanted",
            "very long: 0, at least 5 are wanted",
            "given to: assemble: 0, at least 1200 are wanted",
            "told by list: wrong: a modelled word: 0, at least 220 are wanted",
            "told by assemble: missing: sp: 0, at least 1 are wanted",
            "told by assemble: not ended: the end: 0, at least 10 are wanted",
            "told by list: too large: 0, at least 40 are wanted",
            "told by assemble: too large: 0, at least 40 are wanted",
            "size: list, 1048577 bytes, malformed: 0, at least 5 are wanted",
            "size: assemble, 1048576 bytes, good: 0, at least 2 are wanted",
            "spelled: cmpp: 0, at least 4 are wanted",
            "odd line: \\r: 0, at least 14 are wanted",
        ] {
            assert!(nothing.iter().any(|line| line == name), "{name}");
        }
    }
}

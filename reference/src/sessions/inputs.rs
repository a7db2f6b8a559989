//! The inputs that a session program is tried on.

use super::wrong_lines::{self, Way, WAYS};
use super::{changes, drafts, lengths, Case};
use crate::generate::random::Random;
use crate::plan::{Job, Plan};

/// The kinds of input.
pub mod kinds {
    pub const SOUND: &str = "sound sessions";
    pub const BROKEN: &str = "broken bases";
    pub const CUT: &str = "cut short";
    pub const CHANGED: &str = "a byte changed";
    pub const DELETED: &str = "a byte deleted";
    pub const INSERTED: &str = "a byte inserted";
    pub const ASTRAY: &str = "bytes astray";
    pub const LINES: &str = "lines astray";
    pub const WRONG_LINES: &str = "a wrong line";
    pub const WRONG_ANYWHERE: &str = "a wrong line anywhere";
    pub const MANY_WORDS: &str = "many words";
    pub const LENGTHS: &str = "edge lengths";
    pub const VERY_LONG: &str = "very long";
    pub const PIECES: &str = "in pieces";
}

/// The group of cases by the way in which a line was made wrong.
pub const WRONG: &str = "wrong lines";
/// The same by the code that else were answered.
pub const INSTEAD_OF: &str = "a wrong line instead of";

/// All inputs there are, with so many times as many random ones.
pub fn jobs(times: u64) -> Vec<Job<Case>> {
    let mut plan = Plan::default();
    let random_text =
        |make: fn(&mut Random) -> Vec<u8>| move |random: &mut Random| Case::of(make(random));
    plan.random(kinds::SOUND, 1500 * times, |random: &mut Random| {
        Case::of_session(&drafts::sound(random))
    });
    plan.random(kinds::BROKEN, 300 * times, |random: &mut Random| {
        Case::of_session(&drafts::broken(random))
    });
    every_byte(&mut plan);
    plan.random(kinds::CUT, 100 * times, random_text(changes::cut_anywhere));
    plan.random(
        kinds::ASTRAY,
        400 * times,
        random_text(changes::bytes_astray),
    );
    every_line(&mut plan);
    plan.random(
        kinds::LINES,
        100 * times,
        random_text(changes::lines_astray),
    );
    every_wrong_line(&mut plan);
    plan.random(kinds::WRONG_ANYWHERE, 600 * times, wrong_line_anywhere);
    many_words(&mut plan);
    for length in lengths::edge_lengths() {
        for shape in lengths::SHAPES {
            plan.once(kinds::LENGTHS, move |_| Case::of(shape(length)));
        }
    }
    for text in lengths::very_long() {
        plan.once(kinds::VERY_LONG, move |_| Case::of(text.clone()));
    }
    plan.random(kinds::VERY_LONG, 4 * times, random_text(lengths::garbage));
    plan.random(kinds::PIECES, 60 * times, in_pieces);
    plan.jobs()
}

/// An input that no single read gets the whole of, also one that no more
/// bytes come of at its end.
fn in_pieces(random: &mut Random) -> Case {
    let text = match random.below(3) {
        0 => changes::any_good(random),
        1 => lengths::moving(256),
        _ => lengths::with_tail(256, b"\n"),
    };
    let mut case = Case::of(text);
    let length = case.input.len();
    let any = |_| random.below(length as u64 + 1) as usize;
    case.cuts = (0..2).map(any).chain([length]).collect();
    case.cuts.sort();
    case
}

/// Every beginning of the good session, and every place of it with a byte
/// changed (twice), deleted and inserted.
fn every_byte(plan: &mut Plan<Case>) {
    use changes::{byte_changed, byte_deleted, byte_inserted, good};
    let length = good().len();
    for place in 0..=length {
        plan.once(kinds::CUT, move |_| Case::of(good()[..place].to_vec()));
        plan.once(kinds::INSERTED, move |random| {
            Case::of(byte_inserted(random, good(), place))
        });
    }
    for place in 0..length {
        plan.random(kinds::CHANGED, 2, move |random: &mut Random| {
            Case::of(byte_changed(random, good(), place))
        });
        plan.once(kinds::DELETED, move |_| {
            Case::of(byte_deleted(good(), place))
        });
    }
}

fn every_line(plan: &mut Plan<Case>) {
    use changes::{line_doubled, line_dropped, lines_swapped, GOOD};
    for place in 0..GOOD.len() {
        plan.once(kinds::LINES, move |_| Case::of(line_doubled(place)));
        plan.once(kinds::LINES, move |_| Case::of(line_dropped(place)));
        let other = (place + 1) % GOOD.len();
        plan.once(kinds::LINES, move |_| Case::of(lines_swapped(place, other)));
    }
}

/// Every way to be wrong on every line of the good session, and on words at
/// the ends of one with the most words and of one with one too many.
fn every_wrong_line(plan: &mut Plan<Case>) {
    for words in [8, 256, 257] {
        let lines = wrong_lines::with_words(words);
        for place in wrong_lines::places(lines.len()) {
            for way in WAYS.iter().filter(|way| way.applies_to(lines[place])) {
                let lines = lines.clone();
                plan.once(kinds::WRONG_LINES, move |_| wrong(way, &lines, place));
            }
        }
    }
    for end in wrong_lines::ENDS {
        let text = wrong_lines::all_ended_by(end);
        plan.once(kinds::WRONG_LINES, move |_| Case::of(text.clone()));
    }
}

fn wrong(way: &Way, lines: &[impl AsRef<str>], place: usize) -> Case {
    let mut case = Case::of(way.with_wrong(lines, place));
    case.tally.count_case(WRONG, way.name);
    case
}

/// A line of any session, its base broken or not, made wrong in any way.
fn wrong_line_anywhere(random: &mut Random) -> Case {
    let session = match random.below(4) {
        0 => drafts::broken(random),
        _ => drafts::sound(random),
    };
    let (code, _, _) = session.run();
    let lines = drafts::lines(&session);
    let place = random.below(lines.len() as u64) as usize;
    let ways: Vec<&Way> = WAYS
        .iter()
        .filter(|way| way.applies_to(&lines[place]))
        .collect();
    let mut case = wrong(random.pick(&ways), &lines, place);
    case.tally.count_case(INSTEAD_OF, &format!("{code:?}"));
    case
}

fn many_words(plan: &mut Plan<Case>) {
    for words in (0..5).chain(250..=300) {
        plan.once(kinds::MANY_WORDS, move |_| Case::of(lengths::moving(words)));
        plan.once(kinds::MANY_WORDS, move |_| {
            Case::of(lengths::moving_to_undefined(words + 1))
        });
    }
    for words in [0, 1, 8, 254, 255, 256, 257] {
        for tail in lengths::TAILS {
            plan.once(kinds::MANY_WORDS, move |_| {
                Case::of(lengths::with_tail(words, tail))
            });
        }
    }
}

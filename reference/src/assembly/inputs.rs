//! The inputs that the two programs are tried on.

use super::written::Program::{Assemble, List};
use super::written::MOST_BYTES;
use super::{files, large, Case};
use crate::generate::operands::any_form;
use crate::generate::random::Random;
use crate::listing::sample::{each_value, near};
use crate::listing::spellings;
use crate::plan::{Job, Plan};
use crate::session::{MOST_WORDS, SETTINGS};
use crate::sessions::changes::{byte_changed, byte_deleted, byte_inserted};
use crate::sessions::inputs::{jobs as session_jobs, kinds as session_kinds};
use crate::sessions::wrong_lines::WAYS;
use crate::words::FORMS;

/// The kinds of input. Those of malformed sessions have the names that they
/// have where they are made.
pub mod kinds {
    pub const ROUND_TRIPS: &str = "each undoes the other";
    pub const EACH_VALUE: &str = "each value of each field";
    pub const UNDEFINED: &str = "an undefined word";
    pub const COMMENTED: &str = "files with lines passed over";
    pub const MISSPELLED: &str = "files with another spelling";
    pub const WRONG_SETTINGS: &str = "files with a wrong setting";
    pub const ODD: &str = "files with an odd line";
    pub const ODD_LAST: &str = "files that end with an odd line";
    pub const TAILS: &str = "files with something behind";
    pub const CUT: &str = "files cut short";
    pub const CHANGED: &str = "files with a byte changed";
    pub const ASTRAY: &str = "files with bytes astray";
    pub const LINES: &str = "files with lines astray";
    pub const LARGE: &str = "large inputs";
    pub const LARGE_PIECES: &str = "large inputs in pieces";
    pub const PIECES: &str = "files in pieces";
    pub const MISSING: &str = "lines missing";
    pub const FOR_THE_OTHER: &str = "inputs for the other program";
}

/// The group of cases by the spelling of a line.
pub const SPELLED: &str = "spelled";
/// The group of cases by the odd line.
pub const ODD_LINE: &str = "odd line";

/// Of the inputs of the session program, of each kind the first of every so
/// many.
pub const OF_SESSIONS: [(&str, u64); 14] = [
    (session_kinds::SOUND, 20),
    (session_kinds::BROKEN, 10),
    (session_kinds::CUT, 3),
    (session_kinds::CHANGED, 5),
    (session_kinds::DELETED, 4),
    (session_kinds::INSERTED, 4),
    (session_kinds::ASTRAY, 4),
    (session_kinds::LINES, 2),
    (session_kinds::WRONG_LINES, 7),
    (session_kinds::WRONG_ANYWHERE, 5),
    (session_kinds::MANY_WORDS, 2),
    (session_kinds::LENGTHS, 9),
    (session_kinds::VERY_LONG, 6),
    (session_kinds::PIECES, 3),
];

/// All inputs there are, with so many times as many random ones.
pub fn jobs(times: u64) -> Vec<Job<Case>> {
    let mut plan = Plan::default();
    round_trips(&mut plan, times);
    plan.random(kinds::UNDEFINED, 120 * times, undefined_word);
    plan.random(kinds::COMMENTED, 150 * times, |random: &mut Random| {
        Case::of(Assemble, files::commented(random))
    });
    for (name, rewrite) in spellings::ALL {
        plan.random(kinds::MISSPELLED, 2 * times, move |random: &mut Random| {
            let mut case = Case::of(Assemble, files::misspelled(random, rewrite));
            case.tally.count_case(SPELLED, name);
            case
        });
    }
    for way in 0..WAYS.len() {
        plan.random(
            kinds::WRONG_SETTINGS,
            2 * times,
            move |random: &mut Random| Case::of(Assemble, files::wrong_setting(random, way)),
        );
    }
    missing_lines(&mut plan);
    odd_lines(&mut plan);
    tails(&mut plan);
    every_byte(&mut plan);
    for (kind, count, make) in RANDOM_FILES {
        plan.random(kind, count * times, move |random: &mut Random| {
            Case::of(Assemble, make(random))
        });
    }
    large_inputs(&mut plan);
    plan.random(kinds::PIECES, 20 * times, in_pieces);
    plan.random(kinds::FOR_THE_OTHER, 20 * times, for_the_other);
    let mut jobs = plan.jobs();
    jobs.extend(of_sessions(times));
    jobs
}

type MakeFile = fn(&mut Random) -> Vec<u8>;

const RANDOM_FILES: [(&str, u64, MakeFile); 3] = [
    (kinds::CUT, 100, files::cut_anywhere),
    (kinds::ASTRAY, 200, files::bytes_astray),
    (kinds::LINES, 120, files::lines_astray),
];

/// Sessions of defined words: of each number of them at the ends, of any
/// other, and with each value of each field.
fn round_trips(plan: &mut Plan<Case>, times: u64) {
    for count in (0..4).chain(253..=MOST_WORDS) {
        plan.random(kinds::ROUND_TRIPS, 3, move |random: &mut Random| {
            round_trip(random, count)
        });
    }
    plan.random(kinds::ROUND_TRIPS, 150 * times, |random: &mut Random| {
        let count = files::count_of_words(random);
        round_trip(random, count)
    });
    for form in &FORMS {
        let words = each_value(&mut Random::new(0), form).len();
        for part in 0..words.div_ceil(MOST_WORDS) {
            plan.once(kinds::EACH_VALUE, move |random| {
                let words = each_value(random, form);
                let words = words.chunks(MOST_WORDS).nth(part).expect("a part");
                Case::both(files::session_of(random, words.to_vec()))
            });
        }
    }
}

fn round_trip(random: &mut Random, count: usize) -> Case {
    let words = files::any_words(random, count);
    Case::both(files::session_of(random, words))
}

/// A good session with undefined words at the beginning, at the end, in the
/// middle or anywhere.
fn undefined_word(random: &mut Random) -> Case {
    let count = files::count_of_words(random).max(1);
    let mut words = files::any_words(random, count);
    for _ in 0..random.pick(&[1, 1, 2, 5]) {
        let any = random.below(count as u64) as usize;
        let place = random.pick(&[0, count / 2, count - 1, any, any]);
        let form = any_form(random);
        let undefined = near(random, form);
        words[place] = random.pick(&undefined);
    }
    Case::of(List, files::session_of(random, words))
}

/// The first lines of a session's start, for each program, and with lines
/// that are passed over for the one that does so.
fn missing_lines(plan: &mut Plan<Case>) {
    for count in 0..SETTINGS.len() {
        for program in [List, Assemble] {
            plan.once(kinds::MISSING, move |_| {
                Case::of(program, files::first_settings(count))
            });
        }
        plan.random(kinds::MISSING, 3, move |random: &mut Random| {
            let settings = files::first_settings(count);
            Case::of(Assemble, files::commented_text(random, &settings))
        });
    }
}

/// Every odd line at places of every kind, ended, and as the last without
/// its end.
fn odd_lines(plan: &mut Plan<Case>) {
    for odd in files::ODD {
        for place in files::odd_places() {
            for (kind, is_ended) in [(kinds::ODD, true), (kinds::ODD_LAST, false)] {
                plan.once(kind, move |_| {
                    let file = files::with_odd(odd, place, is_ended);
                    let mut case = Case::of(Assemble, file);
                    let name = odd.escape_ascii().to_string();
                    case.tally.count_case(ODD_LINE, &name);
                    case
                });
            }
        }
    }
}

fn tails(plan: &mut Plan<Case>) {
    for count in [0, 1, 255, 256, 257, 300] {
        for tail in files::TAILS {
            for plain in [true, false] {
                plan.once(kinds::TAILS, move |random| {
                    Case::of(Assemble, files::with_tail(random, count, tail, plain))
                });
            }
        }
    }
}

/// Every beginning of the good file, and every place of it with a byte
/// changed, taken out or put in.
fn every_byte(plan: &mut Plan<Case>) {
    let length = files::good_file().len();
    for place in 0..=length {
        plan.once(kinds::CUT, move |_| {
            Case::of(Assemble, files::good_file()[..place].to_vec())
        });
    }
    for place in 0..length {
        plan.once(kinds::CHANGED, move |random| {
            let file = files::good_file();
            let changed = match random.below(4) {
                0 => byte_deleted(file, place),
                1 => byte_inserted(random, file, place),
                _ => byte_changed(random, file, place),
            };
            Case::of(Assemble, changed)
        });
    }
}

fn large_inputs(plan: &mut Plan<Case>) {
    for program in [List, Assemble] {
        for large in large::inputs() {
            plan.once(kinds::LARGE, move |_| Case::of(program, large.text()));
        }
        for large in large::in_pieces() {
            plan.once(kinds::LARGE_PIECES, move |_| {
                Case::of(program, large.text()).in_pieces(&[1, MOST_BYTES])
            });
        }
    }
}

/// A file that no single read gets the whole of.
fn in_pieces(random: &mut Random) -> Case {
    let file = match random.below(3) {
        0 => files::commented(random),
        1 => files::bytes_astray(random),
        _ => files::with_tail(random, 256, b"\n", true),
    };
    let any = |_| random.below(file.len() as u64 + 1) as usize;
    let mut cuts: Vec<usize> = (0..2).map(any).chain([file.len()]).collect();
    cuts.sort_unstable();
    Case::of(Assemble, file).in_pieces(&cuts)
}

/// A listing for the program that lists, or a session for the one that
/// assembles.
fn for_the_other(random: &mut Random) -> Case {
    let count = files::count_of_words(random);
    let words = files::any_words(random, count);
    let session = files::session_of(random, words);
    match random.below(4) {
        0 | 1 => Case::of(Assemble, session),
        2 => Case::of(List, files::listing_of(&session)),
        _ => Case::of(List, files::commented(random)),
    }
}

/// Inputs of the session program, for the program that lists.
fn of_sessions(times: u64) -> impl Iterator<Item = Job<Case>> {
    let chosen = |kind: &str, number: u64| {
        let mut every = OF_SESSIONS.iter();
        let every = every.find(|(other, _)| *other == kind);
        every.is_some_and(|(_, every)| number.is_multiple_of(*every))
    };
    let jobs = session_jobs(times).into_iter();
    let jobs = jobs.filter(move |job| chosen(job.kind, job.number));
    jobs.map(|job| {
        job.map(|case| {
            let (input, cuts) = case.into_input();
            Case::of(List, input).in_pieces(&cuts)
        })
    })
}

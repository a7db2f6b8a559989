//! Listings (document 02, E1): the line of a word, the word of a line, and
//! the comparison of both with a library under test.

mod batch;
#[cfg(test)]
mod by_hand;
mod calls;
mod desk;
pub mod minima;
pub mod reader;
mod rows;
pub(crate) mod sample;
pub(crate) mod spellings;
mod texts;
pub mod writer;

use std::fmt;
use std::ops::Range;
use std::sync::atomic::{AtomicUsize, Ordering};
use std::sync::Mutex;
use std::thread;

use crate::generate::random::Random;
use crate::plan::{Job, Plan};
use crate::tally::Tally;
use crate::words::FORMS;
pub use batch::Batch;
use batch::Text;

/// The two functions of a library under test.
#[derive(Clone, Copy)]
pub struct Library {
    pub list: List,
    pub read: Read,
}

/// Lists a word at a place of the part of a memory that is lent. Gives the
/// code and the place after the call.
pub type List = fn(memory: &mut [u8], lent: Range<usize>, at: usize, word: u32) -> (u32, u64);
/// Reads a text, of which the first so many bytes of a memory are lent. Gives
/// the code and the word.
pub type Read = fn(memory: &[u8], length: usize) -> (u32, u32);

/// The kinds of batches but those of texts.
pub mod kinds {
    pub const WORDS: &str = "defined words";
    pub const UNDEFINED: &str = "undefined words";
    pub const ROOMS: &str = "rooms";
    pub const ROWS: &str = "words in a row";
}

/// Random words of each form beside those with every two values of two fields.
const MIXTURES: u64 = 15_000;

/// All batches there are, with so many times as much of the random ones.
pub fn jobs(times: u64) -> Vec<Job<Batch>> {
    let mut plan = Plan::default();
    for form in &FORMS {
        plan.once(kinds::WORDS, move |random| {
            Batch::Words(sample::words(random, form, MIXTURES * times))
        });
        plan.once(kinds::ROOMS, move |random| {
            Batch::Calls(calls::rooms(random, form))
        });
        plan.random(kinds::UNDEFINED, times, move |random: &mut Random| {
            Batch::Calls(calls::undefined(&sample::near(random, form)))
        });
        for (kind, make) in texts::OF_A_FORM {
            plan.once(kind, move |random| Batch::Texts(make(random, form)));
        }
    }
    plan.once(kinds::UNDEFINED, |_| {
        Batch::Calls(calls::undefined(&sample::UNDEFINED))
    });
    plan.random(kinds::ROWS, 40 * times, |random: &mut Random| {
        Batch::Rows(rows::rows(random))
    });
    for (kind, rewrite) in spellings::ALL {
        plan.once(kind, move |random| {
            Batch::Texts(texts::spelled(random, rewrite))
        });
    }
    for (kind, make) in texts::RANDOM {
        plan.random(kind, times, move |random: &mut Random| {
            Batch::Texts(make(random))
        });
    }
    plan.once(texts::LONG, |_| Batch::Texts(texts::long()));
    plan.once(texts::EMPTY, |_| Batch::Texts(vec![Text::of(Vec::new())]));
    plan.jobs()
}

/// What was compared and found equal.
#[derive(Debug, Default, PartialEq)]
pub struct Summary {
    tally: Tally,
}

impl fmt::Display for Summary {
    fn fmt(&self, out: &mut fmt::Formatter) -> fmt::Result {
        let of = |group| self.tally.spread(group);
        let rows = |name| self.tally.cases(batch::ROWS, name);
        let (listed, values) = (of(batch::LISTED), of(batch::VALUES));
        let (undefined, rooms, lengths) =
            (of(batch::UNDEFINED), of(batch::ROOM), of(batch::LENGTH));
        let (ended, refused, read) = (of(batch::ENDED), of(batch::REFUSED), of(batch::READ));
        writeln!(
            out,
            "{} words listed and read back: {} forms, {}",
            listed.all,
            listed.names,
            listed.least_and_most()
        )?;
        writeln!(
            out,
            "each value of each field among them: {} fields, {}",
            values.names,
            values.least()
        )?;
        writeln!(
            out,
            "{} calls with an undefined word: {} kinds of place, {}",
            undefined.all,
            undefined.names,
            undefined.least()
        )?;
        writeln!(
            out,
            "{} calls in rooms: {} kinds of room, {}; {} lengths of the forms' lines, {}",
            rooms.all,
            rooms.names,
            rooms.least(),
            lengths.names,
            lengths.least()
        )?;
        writeln!(
            out,
            "{} rows, {} filled to the last byte, {} left empty, {} lines read back",
            rows("all"),
            rows("filled to the last byte"),
            rows("left empty"),
            rows("lines read back")
        )?;
        writeln!(
            out,
            "{} calls in rows: {} ways to end after another, {}",
            ended.all,
            ended.names,
            ended.least()
        )?;
        writeln!(
            out,
            "{} texts refused: {} kinds of damage, {}",
            refused.all,
            refused.names,
            refused.least()
        )?;
        writeln!(out, "{} damaged texts read: {} kinds", read.all, read.names)?;
        write!(out, "listing: all equal")
    }
}

/// Compares a library on all batches. Of several differences the one of the
/// first batch is given.
pub fn compare(
    library: Library,
    jobs: &[Job<Batch>],
    seed: u64,
    threads: usize,
) -> Result<Summary, String> {
    let next = AtomicUsize::new(0);
    let summary = Mutex::new(Summary::default());
    let first: Mutex<Option<(usize, String)>> = Mutex::new(None);
    let work = || loop {
        let place = next.fetch_add(1, Ordering::SeqCst);
        let Some(job) = jobs.get(place) else { break };
        match job.made(seed).compare(library, job.kind) {
            Ok(tally) => summary.lock().expect("no thread panics").tally.add(&tally),
            Err(difference) => {
                // No thread begins another batch; all earlier ones have begun.
                next.store(jobs.len(), Ordering::SeqCst);
                let (kind, number) = (job.kind, job.number);
                let mut first = first.lock().expect("no thread panics");
                if first.as_ref().is_none_or(|(earliest, _)| place < *earliest) {
                    let text = format!("{kind}, batch {number}, seed {seed}: {difference}");
                    *first = Some((place, text));
                }
            }
        }
    };
    thread::scope(|scope| {
        (0..threads).for_each(|_| drop(scope.spawn(work)));
    });
    match first.into_inner().expect("no thread panics") {
        Some((_, difference)) => Err(difference),
        None => Ok(summary.into_inner().expect("no thread panics")),
    }
}

#[cfg(test)]
mod tests {
    use super::desk::listed;
    use super::*;
    use crate::code::Code;

    /// The reference itself, as a library.
    pub fn right() -> Library {
        Library {
            list: |memory, lent, at, word| {
                let (listed, line) = listed(lent.len(), at, word);
                if listed.code == Code::Done {
                    let begin = lent.start + at;
                    memory[begin..begin + line.len()].copy_from_slice(line.as_bytes());
                }
                (listed.code as u32, listed.next as u64)
            },
            read: |memory, length| match reader::word_of(&memory[..length]) {
                Some(word) => (0, word),
                None => (11, 0),
            },
        }
    }

    /// The first batches of each kind: enough to find a fault that shows often.
    fn some(kind: &str) -> Vec<Job<Batch>> {
        let mut jobs = jobs(1);
        jobs.retain(|job| job.kind == kind && job.number < 22);
        jobs
    }

    /// The first batches of some kinds, of each sort of batch.
    fn first() -> Vec<Job<Batch>> {
        let own = [kinds::WORDS, kinds::ROOMS, kinds::UNDEFINED, kinds::ROWS];
        let texts = ["a byte dropped", "cut short", "other amounts", "cmpp"];
        let mut jobs = jobs(1);
        jobs.retain(|job| job.number < 3 && [own, texts].concat().contains(&job.kind));
        jobs
    }

    fn found(library: Library, kind: &str) -> String {
        let compared = compare(library, &some(kind), 1, 2);
        compared.err().unwrap_or_else(|| "nothing".into())
    }

    #[test]
    fn the_reference_is_equal_to_itself() {
        for kind in [kinds::ROOMS, kinds::UNDEFINED, "a byte dropped", "cmpp"] {
            assert!(compare(right(), &some(kind), 1, 2).is_ok(), "{kind}");
        }
    }

    #[test]
    fn threads_change_nothing() {
        let jobs = first();
        let [one, four] = [1, 4].map(|threads| compare(right(), &jobs, 1, threads));
        assert_eq!(one, four);
        // Most batches of words differ.
        let list: List = |memory, lent, at, word| match word % 5 {
            0 => (1, 0),
            _ => (right().list)(memory, lent, at, word),
        };
        let library = Library { list, ..right() };
        let [one, four] = [1, 4].map(|threads| compare(library, &jobs, 1, threads));
        assert!(one.is_err());
        assert_eq!(one, four);
    }

    #[test]
    fn the_summary_is_short() {
        let jobs = first();
        let summary = compare(right(), &jobs, 1, 2).expect("all equal");
        let text = summary.to_string();
        assert_eq!(text.lines().count(), 9);
        // Counts of more digits must have a place too.
        assert!(text.lines().all(|line| line.len() < 160), "{text}");
    }

    #[test]
    fn a_shown_zero_is_found() {
        let list: List = |memory, lent, at, word| {
            let line = writer::line_of(word).unwrap_or_default();
            if line.contains('#') {
                return (right().list)(memory, lent, at, word);
            }
            let line = line.replace(']', ", #0]");
            memory[lent.start..lent.start + line.len()].copy_from_slice(line.as_bytes());
            (0, line.len() as u64)
        };
        let mut ldg = some(kinds::WORDS);
        ldg.retain(|job| job.number == 6);
        let compared = compare(Library { list, ..right() }, &ldg, 1, 1);
        let text = compared.err().unwrap_or_default();
        assert!(
            text.starts_with("defined words, batch 6, seed 1: word 0xd960"),
            "{text}"
        );
        assert!(text.contains("\n  reference: ]\\n\\x"), "{text}");
        assert!(text.contains("\n  library:   , #0]\\n\\x"), "{text}");
    }

    #[test]
    fn a_refusal_that_moves_the_place_is_found() {
        let list: List = |memory, lent, at, word| match (right().list)(memory, lent, at, word) {
            (10, place) => (10, place.wrapping_add(1)),
            answer => answer,
        };
        let library = Library { list, ..right() };
        let text = found(library, kinds::ROOMS);
        assert!(
            text.contains(
                "at place 0 of 0 bytes: reference code 10, place 0, library code 10, place 1"
            ),
            "{text}"
        );
        let text = found(library, kinds::ROWS);
        assert!(text.contains(" of a row: word "), "{text}");
    }

    #[test]
    fn a_sum_that_wraps_is_found() {
        let list: List = |memory, lent, at, word| {
            let (here, line) = listed(usize::MAX, 0, word);
            if here.code == Code::Done
                && at.wrapping_add(line.len()) <= lent.len()
                && at > lent.len()
            {
                return (0, at.wrapping_add(line.len()) as u64);
            }
            (right().list)(memory, lent, at, word)
        };
        let text = found(Library { list, ..right() }, kinds::ROOMS);
        assert!(text.contains("reference code 10, place 18446744"), "{text}");
    }

    #[test]
    fn an_undefined_word_judged_last_is_found() {
        let list: List = |memory, lent, at, word| {
            if lent.len() < at.saturating_add(13) {
                return (10, at as u64);
            }
            (right().list)(memory, lent, at, word)
        };
        let text = found(Library { list, ..right() }, kinds::UNDEFINED);
        assert!(text.contains("reference code 2, place "), "{text}");
    }

    #[test]
    fn second_spellings_are_found() {
        let trimmed: Read = |memory, length| {
            let text = String::from_utf8_lossy(&memory[..length]);
            let text = text.replace("\r\n", "\n");
            (right().read)(text.as_bytes(), text.len())
        };
        let library = Library {
            read: trimmed,
            ..right()
        };
        let text = found(library, "carriage return and line feed");
        assert!(
            text.contains(": reference code 11, word 00000000, library code 0, word "),
            "{text}"
        );
        let beyond: Read = |memory, length| match (right().read)(memory, length) {
            (11, _) => (right().read)(memory, memory.len()),
            answer => answer,
        };
        let library = Library {
            read: beyond,
            ..right()
        };
        for kind in ["cut short", "no line feed"] {
            assert!(found(library, kind).contains("reference code 11"), "{kind}");
        }
    }

    #[test]
    fn a_refused_text_has_word_0() {
        let read: Read = |memory, length| match (right().read)(memory, length) {
            (11, _) => (11, 0xD920_1400),
            answer => answer,
        };
        let text = found(Library { read, ..right() }, texts::EMPTY);
        assert!(text.contains("a text of 0 bytes: reference code 11, word 00000000, library code 11, word d9201400"), "{text}");
    }
}

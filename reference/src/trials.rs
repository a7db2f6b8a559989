//! Tries a program on the inputs of a plan, several at a time: counts the
//! trials that were answered right, and keeps the first that was not.

use std::collections::BTreeMap;
use std::env;
use std::fmt;
use std::fs;
use std::path::PathBuf;
use std::sync::atomic::{AtomicUsize, Ordering};
use std::sync::Mutex;
use std::thread;

use crate::plan::Job;
use crate::tally::{Spread, Tally};

/// What a program is given, with what must be written for it.
pub struct Input<'a> {
    /// How its file's name ends.
    pub ending: &'static str,
    pub text: &'a [u8],
    pub answer: &'a [u8],
}

/// An input, or several that belong together.
pub trait Trial {
    /// What such a trial is called.
    const NAME: &'static str;
    fn inputs(&self) -> Vec<Input<'_>>;
    fn tally(&self) -> &Tally;
}

/// Counts of the trials of one kind.
#[derive(Default)]
struct Counts {
    trials: u64,
    bytes_in: usize,
    bytes_out: usize,
    tally: Tally,
}

/// What was compared and found equal.
pub struct Summary {
    name: &'static str,
    kinds: BTreeMap<&'static str, Counts>,
}

impl Summary {
    pub fn of<T: Trial>() -> Summary {
        Summary {
            name: T::NAME,
            kinds: BTreeMap::new(),
        }
    }

    pub(crate) fn count(&mut self, kind: &'static str, trial: &impl Trial) {
        let counts = self.kinds.entry(kind).or_default();
        counts.trials += 1;
        for input in trial.inputs() {
            counts.bytes_in += input.text.len();
            counts.bytes_out += input.answer.len();
        }
        counts.tally.add(trial.tally());
    }

    /// How many trials of a kind there were.
    pub fn trials(&self, kind: &str) -> u64 {
        self.kinds.get(kind).map_or(0, |counts| counts.trials)
    }

    pub fn all_trials(&self) -> u64 {
        self.kinds.values().map(|counts| counts.trials).sum()
    }

    /// The trials by their kinds in short.
    pub fn spread(&self) -> Spread<'_> {
        let kinds = self.kinds.iter();
        Spread::of(kinds.map(|(kind, counts)| (*kind, counts.trials)))
    }

    /// The bytes of all inputs, and those of the answers to them.
    pub fn bytes(&self) -> (usize, usize) {
        let kinds = self.kinds.values();
        kinds.fold((0, 0), |(bytes_in, bytes_out), counts| {
            (bytes_in + counts.bytes_in, bytes_out + counts.bytes_out)
        })
    }

    pub fn tally(&self) -> Tally {
        self.tally_where(|_| true)
    }

    /// Of the kinds that are wanted.
    pub fn tally_where(&self, wanted: impl Fn(&str) -> bool) -> Tally {
        let mut all = Tally::default();
        self.kinds
            .iter()
            .filter(|(kind, _)| wanted(kind))
            .for_each(|(_, counts)| all.add(&counts.tally));
        all
    }
}

impl fmt::Display for Summary {
    fn fmt(&self, out: &mut fmt::Formatter) -> fmt::Result {
        let name = self.name;
        for (kind, counts) in &self.kinds {
            let Counts {
                trials,
                bytes_in,
                bytes_out,
                tally,
            } = counts;
            write!(
                out,
                "{kind}: {trials} {name}s ({bytes_in} bytes), {bytes_out} bytes of output equal"
            )?;
            match tally.to_string().as_str() {
                "" => writeln!(out)?,
                calls => writeln!(out, "; {calls}")?,
            }
        }
        let all = self.tally();
        writeln!(out, "all: {} {name}s; {all}", self.all_trials())?;
        writeln!(out, "{}", all.by_form())?;
        write!(out, "{}", all.by_case())
    }
}

/// A trial in which the program failed.
pub struct Failure {
    name: &'static str,
    kind: &'static str,
    number: u64,
    seed: u64,
    complaint: String,
    /// Where its inputs are kept.
    pub files: Vec<PathBuf>,
}

impl fmt::Display for Failure {
    fn fmt(&self, out: &mut fmt::Formatter) -> fmt::Result {
        let name = self.name;
        writeln!(
            out,
            "{}, {name} {}, seed {}: {}",
            self.kind, self.number, self.seed, self.complaint
        )?;
        let files = self.files.iter().map(|file| file.display().to_string());
        write!(
            out,
            "the {name}: {}",
            files.collect::<Vec<_>>().join(" and ")
        )
    }
}

/// Puts the inputs where they can be tried again.
fn keep<T: Trial>(job: &Job<T>, seed: u64, trial: &T, complaint: String) -> Failure {
    let (kind, number) = (job.kind, job.number);
    let kind_in_file = kind.replace(' ', "-");
    let begin = format!("reference-{kind_in_file}-{number}-seed-{seed}");
    let kept = |input: Input| {
        let file = env::temp_dir().join(format!("{begin}.{}", input.ending));
        if let Err(error) = fs::write(&file, input.text) {
            eprintln!("{} cannot be written: {error}", file.display());
        }
        file
    };
    Failure {
        name: T::NAME,
        kind,
        number,
        seed,
        complaint,
        files: trial.inputs().into_iter().map(kept).collect(),
    }
}

/// Makes all trials. A complaint says why one failed; of several failures the
/// one of the first job is given.
pub fn try_all<T: Trial>(
    jobs: &[Job<T>],
    seed: u64,
    threads: usize,
    complaint: impl Fn(&T) -> Option<String> + Sync,
) -> Result<Summary, Failure> {
    let next = AtomicUsize::new(0);
    let summary = Mutex::new(Summary::of::<T>());
    let first_failure: Mutex<Option<(usize, Failure)>> = Mutex::new(None);
    let work = || {
        while let Some((place, job)) = take(jobs, &next) {
            let trial = job.made(seed);
            match complaint(&trial) {
                None => summary
                    .lock()
                    .expect("no thread panics")
                    .count(job.kind, &trial),
                Some(complaint) => {
                    // No thread begins another job; all earlier ones have begun.
                    next.store(jobs.len(), Ordering::SeqCst);
                    let mut first = first_failure.lock().expect("no thread panics");
                    if first.as_ref().is_none_or(|(earliest, _)| place < *earliest) {
                        *first = Some((place, keep(job, seed, &trial, complaint)));
                    }
                }
            }
        }
    };
    thread::scope(|scope| {
        (0..threads).for_each(|_| drop(scope.spawn(work)));
    });
    match first_failure.into_inner().expect("no thread panics") {
        Some((_, failure)) => Err(failure),
        None => Ok(summary.into_inner().expect("no thread panics")),
    }
}

fn take<'jobs, T>(jobs: &'jobs [Job<T>], next: &AtomicUsize) -> Option<(usize, &'jobs Job<T>)> {
    let place = next.fetch_add(1, Ordering::SeqCst);
    Some((place, jobs.get(place)?))
}

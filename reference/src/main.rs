//! Compares the reference with the libraries or with a program under test,
//! one subcommand for each thing compared, and times a program beside a plain
//! loop. Exit status: 0 all equal, 1 a difference, 2 misuse.

mod library;

use std::env;
use std::ffi::{OsStr, OsString};
use std::fmt::Display;
use std::io::{self, Read, Write};
use std::path::Path;
use std::process::ExitCode;
use std::thread;

use reference::assembly;
use reference::bench;
use reference::compare;
use reference::generate::{jobs, pairs};
use reference::listing;
use reference::minima::wanting;
use reference::player::play;
use reference::replay::{replay, replay_both_ways};
use reference::session;
use reference::sessions;

const USAGE: &str = "\
usage: reference tag-choice | word-code
       reference listing [--long] [--seed NUMBER]
       reference replay PROGRAM [--long] [--seed NUMBER]
       reference session PROGRAM [--long] [--seed NUMBER]
       reference assembly LIST_PROGRAM ASSEMBLE_PROGRAM [--long] [--seed NUMBER]
       reference play <SCRIPT
       reference answer-session <INPUT
       reference bench PROGRAM [--instructions]
       reference bench-loop <WORKLOAD";
const ALL_WORDS: u64 = 1 << 32;
/// A comparison repeats the same inputs unless it is told another seed.
const USUAL_SEED: u64 = 1;
/// How much more of the random inputs a long comparison has.
const LONG: u64 = 20;

/// What to print: a summary, or a difference.
type Outcome = Result<String, String>;
/// From standard input to standard output.
type Answer = fn(&[u8]) -> Vec<u8>;

fn main() -> ExitCode {
    let arguments: Vec<OsString> = env::args_os().skip(1).collect();
    if let Some(answer) = answering(&arguments) {
        return answer_standard_input(answer);
    }
    match compared(&arguments) {
        Some(Ok(summary)) => {
            println!("{summary}");
            ExitCode::SUCCESS
        }
        Some(Err(difference)) => {
            println!("{difference}");
            ExitCode::FAILURE
        }
        None => misuse(),
    }
}

/// What standard input is answered with, if these arguments ask for that.
fn answering(arguments: &[OsString]) -> Option<Answer> {
    match arguments {
        [name] if name == "play" => Some(|script| play(script).output),
        [name] if name == "answer-session" => Some(session::answer),
        [name] if name == "bench-loop" => Some(|workload| bench::answer(workload).into_bytes()),
        _ => None,
    }
}

/// How a comparison or the benchmark went, if these arguments ask for one.
fn compared(arguments: &[OsString]) -> Option<Outcome> {
    match arguments {
        [name] if name == "tag-choice" => Some(tag_choice()),
        [name] if name == "word-code" => Some(word_code()),
        [name, options @ ..] if name == "listing" => {
            let (times, seed) = options_of(options)?;
            Some(compare_listing(times, seed))
        }
        [name, program] if name == "bench" => Some(beside_loop(bench::times, program)),
        [name, program, option] if name == "bench" && option == "--instructions" => {
            Some(beside_loop(bench::instructions, program))
        }
        [name, program, options @ ..] if name == "replay" => {
            let (times, seed) = options_of(options)?;
            Some(replay_scripts(Path::new(program), times, seed))
        }
        [name, program, options @ ..] if name == "session" => {
            let (times, seed) = options_of(options)?;
            Some(compare_sessions(Path::new(program), times, seed))
        }
        [name, list, assemble, options @ ..] if name == "assembly" => {
            let (times, seed) = options_of(options)?;
            let (list, assemble) = (Path::new(list), Path::new(assemble));
            Some(compare_assembly(list, assemble, times, seed))
        }
        _ => None,
    }
}

fn misuse() -> ExitCode {
    eprintln!("{USAGE}");
    ExitCode::from(2)
}

fn threads() -> usize {
    thread::available_parallelism().map_or(1, |cores| cores.get())
}

fn tag_choice() -> Outcome {
    let cases = compare::tag_choice(library::choose_tag).map_err(|found| found.to_string())?;
    Ok(format!("tag choice: {cases} cases, all equal"))
}

fn word_code() -> Outcome {
    let defined = compare::word_codes(0..ALL_WORDS, threads() as u64, library::word_code)
        .map_err(|found| found.to_string())?;
    Ok(format!(
        "word code: {ALL_WORDS} words, all equal ({defined} defined)"
    ))
}

/// How often the random inputs are made, and from which seed.
fn options_of(options: &[OsString]) -> Option<(u64, u64)> {
    match options {
        [] => Some((1, USUAL_SEED)),
        [long, others @ ..] if long == "--long" => {
            let (_, seed) = options_of(others)?;
            Some((LONG, seed))
        }
        [name, seed, others @ ..] if name == "--seed" => {
            let (times, _) = options_of(others)?;
            Some((times, seed.to_str()?.parse().ok()?))
        }
        _ => None,
    }
}

fn replay_scripts(program: &Path, times: u64, seed: u64) -> Outcome {
    println!("replay of {}, seed {seed}", program.display());
    let scripts = replay(program, &jobs(times), seed, threads());
    let scripts = scripts.map_err(|failure| failure.to_string())?;
    let pairs = replay_both_ways(program, &pairs(times), seed, threads());
    let pairs = pairs.map_err(|failure| failure.to_string())?;
    let wanting = wanting(&scripts, &pairs, times);
    held_to_minima(format!("{scripts}\nin both ways\n{pairs}"), wanting)
}

fn compare_sessions(program: &Path, times: u64, seed: u64) -> Outcome {
    println!("sessions of {}, seed {seed}", program.display());
    let summary = sessions::compare(program, &sessions::jobs(times), seed, threads());
    let summary = summary.map_err(|failure| failure.to_string())?;
    let wanting = sessions::minima::wanting(&summary, times);
    held_to_minima(summary, wanting)
}

fn compare_assembly(list: &Path, assemble: &Path, times: u64, seed: u64) -> Outcome {
    let (one, other) = (list.display(), assemble.display());
    println!("assembly by {one} and {other}, seed {seed}");
    let jobs = assembly::jobs(times);
    let summary = assembly::compare(list, assemble, &jobs, seed, threads());
    let summary = summary.map_err(|failure| failure.to_string())?;
    let wanting = assembly::minima::wanting(&summary, times);
    held_to_minima(assembly::in_short(&summary), wanting)
}

fn compare_listing(times: u64, seed: u64) -> Outcome {
    println!("listing, seed {seed}");
    let summary = listing::compare(library::LISTING, &listing::jobs(times), seed, threads())?;
    let wanting = listing::minima::wanting(&summary, times);
    held_to_minima(summary, wanting)
}

fn held_to_minima(summary: impl Display, wanting: Vec<String>) -> Outcome {
    match wanting.as_slice() {
        [] => Ok(summary.to_string()),
        wanting => Err(format!(
            "{summary}\nall equal, but too little is compared:\n{}",
            wanting.join("\n")
        )),
    }
}

/// A table of a program and the loop, which is a call of this program.
fn beside_loop(table: fn(&Path, &Path) -> Outcome, program: &OsStr) -> Outcome {
    let own = env::current_exe().map_err(|error| error.to_string())?;
    table(Path::new(program), &own)
}

fn answer_standard_input(answer: Answer) -> ExitCode {
    let mut input = Vec::new();
    let read = io::stdin().read_to_end(&mut input);
    let written = read.and_then(|_| io::stdout().write_all(&answer(&input)));
    match written {
        Ok(()) => ExitCode::SUCCESS,
        Err(error) => {
            eprintln!("{error}");
            ExitCode::FAILURE
        }
    }
}

//! The scripts that a program under test is tried on.

mod author;
mod bad_scripts;
mod choices;
pub(crate) mod chosen_words;
mod codings;
mod cursors;
pub mod lists;
pub(crate) mod operands;
pub mod pairs;
mod played;
pub(crate) mod random;
mod reach;
pub mod records;
pub mod rows;
mod runs;
mod setups;
mod walks;

pub use author::{Script, WHOLE};

use crate::plan::{Job, Plan};
use crate::words::FORMS;
use pairs::Pair;
use random::Random;

/// The kinds of scripts in which calls are played as lists.
pub const PLAYED_LISTS: &str = "played lists";
pub const LONGEST_LISTS: &str = "longest played lists";

/// The kinds of scripts that make calls one by one.
const OF_CALLS: [&str; 13] = [
    "rows of the paper",
    "rules of the setup",
    "random walks",
    "largest memory",
    "near words",
    "lists of calls",
    "cursors",
    "runs",
    "longest runs",
    "damaged records",
    "made-up histories",
    "reach",
    "kept bytes",
];

/// The scripts of calls, each played in both ways.
pub fn pairs(times: u64) -> Vec<Job<Pair>> {
    let mut jobs = jobs(times);
    jobs.retain(|job| OF_CALLS.contains(&job.kind));
    let pair = |job: Job<Script>| job.map(|script| Pair::of(&script));
    jobs.into_iter().map(pair).collect()
}

/// All scripts there are, with so many times as many random ones.
pub fn jobs(times: u64) -> Vec<Job<Script>> {
    let mut plan = Plan::default();
    plan.once("rows of the paper", |_| rows::all());
    plan.once("rules of the setup", |_| setups::single_rules());
    plan.once("rules of the setup", |_| setups::large_sizes());
    plan.random("rules of the setup", 2 * times, setups::several_rules);
    plan.random("random walks", 18 * times, walks::small);
    plan.random("largest memory", 3 * times, walks::large);
    plan.random("near words", 4 * times, walks::near_words);
    plan.random("lists of calls", 60 * times, lists::lists);
    plan.random("cursors", times, cursors::bounds);
    plan.random("runs", times, runs::short);
    plan.random("longest runs", times, runs::longest);
    for register in 0..=records::NO_REGISTER {
        for access in [true, false] {
            let damaged = move |random: &mut Random| records::damaged(random, register, access);
            plan.random("damaged records", times, damaged);
        }
    }
    plan.random("made-up histories", 4 * times, records::made_up);
    plan.random(PLAYED_LISTS, 20 * times, played::changing);
    plan.once(LONGEST_LISTS, |_| played::most_calls());
    plan.once(LONGEST_LISTS, |_| played::most_words());
    plan.random("decode", 6 * times, codings::decodings);
    for form in &FORMS {
        plan.once("encode", |_| codings::edge_encodings(form));
    }
    plan.random("encode", 2 * times, codings::random_encodings);
    plan.random("choose", times, choices::choices);
    plan.once("draw", |_| choices::draws());
    for (base, tags) in reach::EVERY_PLACE {
        let asked = move |random: &mut Random| reach::every_place(random, base, tags);
        plan.random("reach", times, asked);
    }
    plan.random("reach", 6 * times, reach::small);
    plan.random("reach", times, reach::small_memories);
    plan.random("reach", times, reach::large_memories);
    plan.random("reach", 2 * times, reach::large);
    plan.random("kept bytes", 2 * times, choices::kept_bytes);
    for text in bad_scripts::all() {
        plan.once("bad scripts", move |_| Script::of(text.clone()));
    }
    let wrong_byte = |random: &mut Random| Script::of(bad_scripts::with_wrong_byte(random));
    plan.random("bad scripts", 200 * times, wrong_byte);
    plan.jobs()
}

#[cfg(test)]
mod tests {
    use super::*;
    use crate::player::play;
    use crate::script::MOST_BYTES;

    fn first_of_each_kind() -> Vec<Job<Script>> {
        let mut jobs = jobs(1);
        jobs.retain(|job| job.number == 0);
        jobs
    }

    fn count<T>(jobs: &[Job<T>], kind: &str) -> u64 {
        jobs.iter().filter(|job| job.kind == kind).count() as u64
    }

    #[test]
    fn every_kind_that_makes_calls_is_played_in_both_ways() {
        let (scripts, pairs) = (jobs(2), pairs(2));
        for kind in OF_CALLS {
            assert!(count(&pairs, kind) > 0, "{kind}");
            assert_eq!(count(&pairs, kind), count(&scripts, kind), "{kind}");
        }
        for job in jobs(1) {
            let known = OF_CALLS.contains(&job.kind);
            let other = [PLAYED_LISTS, LONGEST_LISTS, "bad scripts"].contains(&job.kind);
            if !known && !other {
                let script = job.made(1);
                let mut lines = script.text.split(|&byte| byte == b'\n');
                let calls = [b"back".as_slice(), b"word=", b"run="];
                let call = lines.find(|line| calls.iter().any(|key| line.starts_with(key)));
                assert_eq!(call, None, "{}", job.kind);
            }
        }
    }

    #[test]
    fn a_pair_is_of_its_script() {
        let (scripts, pairs) = (jobs(1), pairs(1));
        for pair in pairs.iter().filter(|pair| pair.number == 3) {
            let same = |job: &&Job<Script>| job.kind == pair.kind && job.number == 3;
            let script = scripts.iter().find(same).map(|job| Pair::of(&job.made(1)));
            let texts = |pair: Pair| pair.scripts.map(|script| script.text);
            assert_eq!(
                script.map(texts),
                Some(texts(pair.made(1))),
                "{}",
                pair.kind
            );
        }
    }

    #[test]
    fn a_seed_gives_the_same_script_again() {
        for job in first_of_each_kind() {
            assert_eq!(job.made(3).text, job.made(3).text, "{}", job.kind);
        }
        let walk = |seed| {
            let walks = first_of_each_kind().into_iter();
            let mut walks = walks.filter(|job| job.kind == "random walks");
            walks.next().map(|job| job.made(seed).text)
        };
        assert_ne!(walk(1), walk(2));
    }

    #[test]
    fn scripts_are_short_enough_and_played_as_a_whole_alike() {
        for job in first_of_each_kind() {
            let script = job.made(1);
            assert!(script.text.len() <= MOST_BYTES, "{}", job.kind);
            let whole = play(&script.text);
            assert!(whole.output == script.played.output, "{}", job.kind);
        }
    }
}

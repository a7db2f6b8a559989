//! Times a program and the loop, in turns, or counts their instructions.

use std::path::Path;
use std::process::Command;
use std::time::Duration;

use super::rows::{rows, Row};
use super::workload::Workload;
use crate::process::run;

/// How often each is timed. Odd, so that there is a middle one.
const TIMES: usize = 7;
const LIMIT: Duration = Duration::from_secs(600);
const MOST_OUTPUT: usize = 65_536;

/// Instructions are counted for so many rounds, and what fewer rounds take is
/// taken off, so that the start and the end of a process do not count.
const COUNTED_ROUNDS: u64 = 9;
const FEWER_ROUNDS: u64 = 1;
/// What valgrind writes goes where the program writes, in lines of its own.
const CALLGRIND: [&str; 3] = [
    "--tool=callgrind",
    "--callgrind-out-file=/dev/null",
    "--log-fd=1",
];

/// The two that are timed. The loop is a process of its own too: this program,
/// called with `bench-loop`.
struct Sides<'a> {
    simulator: &'a Path,
    own: &'a Path,
}

impl Sides<'_> {
    fn commands(&self) -> [Command; 2] {
        let mut own = Command::new(self.own);
        own.arg("bench-loop");
        [Command::new(self.simulator), own]
    }

    fn counting_commands(&self) -> [Command; 2] {
        self.commands().map(|command| {
            let mut counting = Command::new("valgrind");
            counting.args(CALLGRIND).arg(command.get_program());
            counting.args(command.get_args());
            counting
        })
    }
}

/// A table of nanoseconds of processor time for each word or step back: the best
/// and the median.
pub fn times(simulator: &Path, own: &Path) -> Result<String, String> {
    let sides = Sides { simulator, own };
    let mut lines = vec![
        format!(
            "{:22} {:>17} {:>17} {:>10}",
            "ns for", "simulator", "Rust loop", "ratio of"
        ),
        format!(
            "{:22} {:>8} {:>8} {:>8} {:>8} {:>10}",
            "each word or call", "best", "median", "best", "median", "medians"
        ),
    ];
    for row in rows() {
        let [simulator, rust] = row_times(&sides, &row)?;
        lines.push(format!(
            "{:22} {:>8.2} {:>8.2} {:>8.2} {:>8.2} {:>10.2}",
            row.name,
            simulator.best,
            simulator.median,
            rust.best,
            rust.median,
            simulator.median / rust.median
        ));
    }
    Ok(lines.join("\n"))
}

struct Times {
    best: f64,
    median: f64,
}

impl Times {
    fn of(mut nanoseconds: Vec<f64>) -> Times {
        nanoseconds.sort_by(f64::total_cmp);
        Times {
            best: nanoseconds[0],
            median: nanoseconds[nanoseconds.len() / 2],
        }
    }
}

fn row_times(sides: &Sides, row: &Row) -> Result<[Times; 2], String> {
    let workload = &row.workload;
    let input = workload.bytes();
    let all = workload.rounds * workload.words_and_steps_back();
    let mut nanoseconds = [vec![], vec![]];
    for _ in 0..TIMES {
        let mut texts = vec![];
        for (mut command, nanoseconds) in sides.commands().into_iter().zip(&mut nanoseconds) {
            let (text, time) = answer(&mut command, &input)?;
            let time = time.ok_or("processor times cannot be read from /proc")?;
            nanoseconds.push(time.as_secs_f64() * 1e9 / all as f64);
            texts.push(text);
        }
        same(row.name, all, &texts[0], &texts[1])?;
    }
    Ok(nanoseconds.map(Times::of))
}

/// A table of instructions for each word or step back, by valgrind.
pub fn instructions(simulator: &Path, own: &Path) -> Result<String, String> {
    let sides = Sides { simulator, own };
    let mut lines = vec![
        "instructions for".to_string(),
        format!(
            "{:22} {:>10} {:>10} {:>8}",
            "each word or call", "simulator", "Rust loop", "ratio"
        ),
    ];
    for row in rows() {
        let [simulator, rust] = row_instructions(&sides, row.name, row.workload)?;
        lines.push(format!(
            "{:22} {simulator:>10.1} {rust:>10.1} {:>8.2}",
            row.name,
            simulator / rust
        ));
    }
    Ok(lines.join("\n"))
}

fn row_instructions(sides: &Sides, name: &str, mut workload: Workload) -> Result<[f64; 2], String> {
    let mut counts = [[0; 2]; 2];
    for (which, rounds) in [COUNTED_ROUNDS, FEWER_ROUNDS].into_iter().enumerate() {
        workload.rounds = rounds;
        let all = rounds * workload.words_and_steps_back();
        let input = workload.bytes();
        let [mut simulator, mut rust] = sides.counting_commands();
        let (one, _) = answer(&mut simulator, &input)?;
        let (other, _) = answer(&mut rust, &input)?;
        same(name, all, &without_log(&one), &without_log(&other))?;
        counts[0][which] = counted(&one)?;
        counts[1][which] = counted(&other)?;
    }
    let all = (COUNTED_ROUNDS - FEWER_ROUNDS) * workload.words_and_steps_back();
    Ok(counts.map(|[more, fewer]| (more - fewer) as f64 / all as f64))
}

/// Valgrind's lines begin with `==`.
fn without_log(output: &str) -> String {
    let lines = output.lines().filter(|line| !line.starts_with("=="));
    lines.map(|line| format!("{line}\n")).collect()
}

/// The number of the line `==12345== Collected : 67890`.
fn counted(output: &str) -> Result<u64, String> {
    let number = output.lines().find_map(|line| {
        let (_, number) = line.strip_prefix("==")?.split_once("== Collected : ")?;
        number.trim().parse().ok()
    });
    number.ok_or_else(|| format!("valgrind has counted nothing\n{output}"))
}

/// What a program wrote, and its processor time.
fn answer(command: &mut Command, input: &[u8]) -> Result<(String, Option<Duration>), String> {
    let program = command.get_program().to_string_lossy().into_owned();
    let ended = run(command, input, MOST_OUTPUT, LIMIT)
        .map_err(|error| format!("{program} cannot be run: {error}"))?;
    match ended.status {
        None => Err(format!("{program}: not ended after {LIMIT:?}, and killed")),
        Some(status) if !status.success() => Err(format!("{program}: {status}")),
        Some(_) => {
            let text = String::from_utf8_lossy(&ended.output).into_owned();
            Ok((text, ended.processor_time))
        }
    }
}

/// Both must have written the same, and every word must have been done.
fn same(name: &str, all: u64, simulator: &str, rust: &str) -> Result<(), String> {
    if simulator != rust {
        return Err(format!(
            "{name}: different answers\nsimulator:\n{simulator}Rust loop:\n{rust}"
        ));
    }
    if !rust.starts_with(&format!("words={all:016x}\n")) {
        return Err(format!("{name}: not all {all} were done\n{rust}"));
    }
    Ok(())
}

#[cfg(test)]
mod tests {
    use super::*;

    #[test]
    fn best_and_median_are_the_least_and_the_middle_one() {
        let times = Times::of(vec![5.0, 1.0, 9.0, 2.0, 8.0]);
        assert_eq!((times.best, times.median), (1.0, 5.0));
    }

    #[test]
    fn what_valgrind_writes_is_told_from_the_answer() {
        let output = "==7== Callgrind\nwords=1\n==7== \n==7== Collected : 1234\nchecksum=2\n";
        assert_eq!(without_log(output), "words=1\nchecksum=2\n");
        assert_eq!(counted(output), Ok(1234));
        assert!(counted("words=1\n").is_err());
        assert!(counted("==7== Collected : no\n").is_err());
    }

    #[test]
    fn different_answers_and_words_not_done_are_told() {
        let text = "words=0000000000000002\nchecksum=0000000000000000\n";
        assert_eq!(same("row", 2, text, text), Ok(()));
        assert!(same("row", 3, text, text).is_err());
        assert!(same("row", 2, text, "words=0000000000000002\n").is_err());
    }
}

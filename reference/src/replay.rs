//! Runs a program on scripts and compares what it writes, byte by byte.

use std::fmt;
use std::path::Path;
use std::process::Command;
use std::time::Duration;

use crate::generate::pairs::{without_lists, Pair, WAYS};
use crate::generate::Script;
use crate::plan::Job;
use crate::process::{run, Ended};
use crate::trials::{try_all, Failure, Summary};

/// An output, and whose it is.
type Output<'a> = (&'static str, &'a [u8]);
/// A line of it, or nothing where it has ended.
type OutputLine = (&'static str, Option<String>);

/// The first line on which two outputs disagree, counted from 1.
#[derive(Debug, PartialEq)]
pub struct Differing {
    line: usize,
    sides: [OutputLine; 2],
}

pub fn first_difference(one: Output, other: Output) -> Option<Differing> {
    if one.1 == other.1 {
        return None;
    }
    let lines = |text: &[u8]| -> Vec<String> {
        let lines = text.split_inclusive(|&byte| byte == b'\n');
        lines.map(|line| line.escape_ascii().to_string()).collect()
    };
    let (ones, others) = (lines(one.1), lines(other.1));
    let alike = ones
        .iter()
        .zip(&others)
        .take_while(|(one, other)| one == other);
    let place = alike.count();
    Some(Differing {
        line: place + 1,
        sides: [
            (one.0, ones.get(place).cloned()),
            (other.0, others.get(place).cloned()),
        ],
    })
}

impl fmt::Display for Differing {
    fn fmt(&self, out: &mut fmt::Formatter) -> fmt::Result {
        write!(out, "output line {}", self.line)?;
        let longest = self.sides.iter().map(|(name, _)| name.len()).max();
        let width = longest.map_or(0, |length| length + 1);
        for (name, line) in &self.sides {
            let shown = line.as_deref().unwrap_or("(no more output)");
            write!(out, "\n  {:width$} {shown}", format!("{name}:"))?;
        }
        Ok(())
    }
}

/// How long a program may take for one script.
const LIMIT: Duration = Duration::from_secs(120);
/// Of an output that is too long, no more than this is read.
const TOO_MUCH: usize = 65_536;

/// What a program wrote for a script, if it ended, and why it failed, if it
/// did.
struct Tried {
    output: Option<Vec<u8>>,
    complaint: Option<String>,
}

impl Tried {
    fn without_output(complaint: String) -> Tried {
        Tried {
            output: None,
            complaint: Some(complaint),
        }
    }
}

/// The manual promises nothing of the exit status, so only a program ended by
/// a signal is blamed for its end.
fn tried(program: &mut Command, script: &Script, limit: Duration) -> Tried {
    let expected = &script.played.output;
    let most_output = expected.len() + TOO_MUCH;
    match run(program, &script.text, most_output, limit) {
        Err(error) => Tried::without_output(format!("{program:?} cannot be run: {error}")),
        Ok(Ended { status: None, .. }) => {
            Tried::without_output(format!("not ended after {} s, and killed", limit.as_secs()))
        }
        Ok(Ended {
            output,
            status: Some(status),
            ..
        }) => {
            let complaint = match first_difference(("reference", expected), ("program", &output)) {
                Some(differing) => Some(differing.to_string()),
                None if status.code().is_none() => Some(format!("right output, but {status}")),
                None => None,
            };
            Tried {
                output: Some(output),
                complaint,
            }
        }
    }
}

/// Why one script failed, or nothing.
fn complaint(program: &mut Command, script: &Script, limit: Duration) -> Option<String> {
    tried(program, script, limit).complaint
}

/// Why a script failed in one of the ways or in both, or what the program
/// writes in one way and not in the other, or nothing.
fn complaint_both_ways(program: &mut Command, pair: &Pair, limit: Duration) -> Option<String> {
    let ways = pair.scripts.each_ref();
    let ways = ways.map(|script| tried(program, script, limit));
    let of_way = |(way, tried): (&&str, &Tried)| {
        let complaint = tried.complaint.as_ref()?;
        Some(format!("{way}: {complaint}"))
    };
    let mut complaints: Vec<String> = WAYS.iter().zip(&ways).filter_map(of_way).collect();
    if let [Some(alone), Some(lists)] = ways.each_ref().map(|tried| tried.output.as_deref()) {
        complaints.extend(difference_of_ways(alone, lists));
    }
    (!complaints.is_empty()).then(|| complaints.join("\n"))
}

fn difference_of_ways(alone: &[u8], lists: &[u8]) -> Option<String> {
    let [one, other] = [alone, lists].map(without_lists);
    let differing = first_difference((WAYS[0], &one), (WAYS[1], &other))?;
    Some(format!("both ways, without the played lines: {differing}"))
}

/// Tries a program on all scripts.
pub fn replay(
    program: &Path,
    jobs: &[Job<Script>],
    seed: u64,
    threads: usize,
) -> Result<Summary, Failure> {
    try_all(jobs, seed, threads, |script| {
        complaint(&mut Command::new(program), script, LIMIT)
    })
}

/// Tries a program on all scripts in both ways.
pub fn replay_both_ways(
    program: &Path,
    jobs: &[Job<Pair>],
    seed: u64,
    threads: usize,
) -> Result<Summary, Failure> {
    try_all(jobs, seed, threads, |pair| {
        complaint_both_ways(&mut Command::new(program), pair, LIMIT)
    })
}

#[cfg(test)]
mod tests {
    use super::*;
    use crate::generate::{jobs, pairs};
    use std::fs;

    #[test]
    fn the_first_differing_line_is_found() {
        for (one, other, line, sides) in [
            ("a\nb\n", "a\nc\n", 2, [Some("b\\n"), Some("c\\n")]),
            ("a\nb\n", "a\n", 2, [Some("b\\n"), None]),
            ("a\n", "a\nb\n", 2, [None, Some("b\\n")]),
            ("a\n", "a", 1, [Some("a\\n"), Some("a")]),
        ] {
            let sides = sides.map(|line: Option<&str>| line.map(str::to_string));
            let [one_line, other_line] = sides;
            assert_eq!(
                first_difference(("one", one.as_bytes()), ("other", other.as_bytes())),
                Some(Differing {
                    line,
                    sides: [("one", one_line), ("other", other_line)],
                })
            );
        }
        for equal in ["", "a\nb\n"] {
            let equal = equal.as_bytes();
            assert_eq!(first_difference(("one", equal), ("other", equal)), None);
        }
    }

    #[test]
    fn a_difference_is_shown_line_below_line() {
        let found = first_difference(("reference", b"a\n"), ("program", b""));
        let text = found.map(|differing| differing.to_string());
        let expected = "output line 1\n  reference: a\\n\n  program:   (no more output)";
        assert_eq!(text.as_deref(), Some(expected));
    }

    fn first_job(kind: &str) -> Vec<Job<Script>> {
        let mut jobs = jobs(1);
        jobs.retain(|job| job.kind == kind && job.number == 0);
        jobs
    }

    #[test]
    fn a_wrong_program_is_caught_and_its_script_kept() {
        // `cat` gives the script back, and so answers a remark with a remark.
        let jobs = first_job("rows of the paper");
        let Err(failure) = replay(Path::new("cat"), &jobs, 5, 2) else {
            panic!("cat plays no scripts");
        };
        let text = failure.to_string();
        let begin = "rows of the paper, script 0, seed 5: output line 1\n  reference: code=0\\n\n  program:   # P1\\n\n";
        assert!(text.starts_with(begin), "{text}");
        let [file] = failure.files.as_slice() else {
            panic!("one script is tried");
        };
        let kept = fs::read(file).expect("the script is kept");
        assert_eq!(kept, jobs[0].made(5).text);
        fs::remove_file(file).expect("the script can be removed");
    }

    #[test]
    fn a_program_need_not_read_its_script() {
        let script = Script::of(vec![b'\n'; 4_194_304]);
        assert_eq!(complaint(&mut Command::new("true"), &script, LIMIT), None);
        let missing = complaint(&mut Command::new("/no/such/program"), &script, LIMIT);
        assert!(missing.is_some_and(|text| text.contains("cannot be run")));
    }

    #[test]
    fn a_program_that_does_not_end_is_blamed() {
        // `yes` writes for ever; what it writes is wrong at once.
        let script = Script::of(b"show\n".to_vec());
        let endless = complaint(&mut Command::new("yes"), &script, LIMIT);
        assert!(endless.is_some_and(|text| text.contains("program:   y\\n")));
        // No time at all is too short for any program.
        let hanging = complaint(&mut Command::new("cat"), &script, Duration::ZERO);
        assert_eq!(hanging.as_deref(), Some("not ended after 0 s, and killed"));
    }

    #[test]
    fn both_scripts_of_a_pair_are_kept() {
        let mut jobs = pairs(1);
        jobs.retain(|job| job.kind == "rows of the paper");
        let Err(failure) = replay_both_ways(Path::new("cat"), &jobs, 6, 2) else {
            panic!("cat plays no scripts");
        };
        let text = failure.to_string();
        for part in [
            "rows of the paper, pair 0, seed 6: play=0: output line 1\n",
            "\nplay=1: output line 1\n  reference: fresh=0000000000000000\\n\n  program:   play=1\\n\n",
            "\nboth ways, without the played lines: output line 1\n  play=0: play=0\\n\n  play=1: play=1\\n\n",
        ] {
            assert!(text.contains(part), "{text}");
        }
        let pair = jobs[0].made(6);
        assert_eq!(failure.files.len(), 2);
        for (file, script) in failure.files.iter().zip(&pair.scripts) {
            assert!(text.contains(&file.display().to_string()), "{text}");
            assert_eq!(fs::read(file).expect("the script is kept"), script.text);
            fs::remove_file(file).expect("the script can be removed");
        }
    }

    /// What is said of a program that answers the ways with these texts.
    fn of_answers(pair: &Pair, alone: &str, lists: &str) -> Option<String> {
        let answers =
            "read way; case $way in play=0) printf %s \"$1\";; *) printf %s \"$2\";; esac";
        let mut program = Command::new("sh");
        program.args(["-c", answers, "sh", alone, lists]);
        complaint_both_ways(&mut program, pair, LIMIT)
    }

    #[test]
    fn a_program_must_answer_right_and_alike_in_both_ways() {
        let pair = Pair::of(&Script::of(b"back\nback\n".to_vec()));
        let [alone, lists] = pair.scripts.each_ref().map(|script| {
            let output = script.played.output.clone();
            String::from_utf8(output).expect("the output is plain text")
        });
        let wrong = |text: &str| text.replacen("code=6", "code=7", 1);
        assert_eq!(of_answers(&pair, &alone, &lists), None);
        assert_eq!(
            of_answers(&pair, &alone, &wrong(&lists)).as_deref(),
            Some(
                "play=1: output line 2\n  reference: code=6\\n\n  program:   code=7\\n\n\
                 both ways, without the played lines: output line 1\n  \
                 play=0: code=6\\n\n  play=1: code=7\\n"
            )
        );
        assert_eq!(
            of_answers(&pair, &wrong(&alone), &lists).as_deref(),
            Some(
                "play=0: output line 1\n  reference: code=6\\n\n  program:   code=7\\n\n\
                 both ways, without the played lines: output line 1\n  \
                 play=0: code=7\\n\n  play=1: code=6\\n"
            )
        );
        let alike = of_answers(&pair, &wrong(&alone), &wrong(&lists)).expect("both are wrong");
        assert!(
            alike.contains("play=0: ") && alike.contains("play=1: "),
            "{alike}"
        );
        assert!(!alike.contains("both ways"), "{alike}");
        // Only the list's own line is wrong.
        let lists = lists.replace("played=00 00000002", "played=00 00000001");
        assert_eq!(
            of_answers(&pair, &alone, &lists).as_deref(),
            Some(
                "play=1: output line 1\n  \
                 reference: played=00 00000002\\n\n  program:   played=00 00000001\\n"
            )
        );
    }
}

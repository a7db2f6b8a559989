//! Runs a session program on inputs and compares what it answers, byte by
//! byte.

pub(crate) mod changes;
pub(crate) mod drafts;
mod facts;
pub(crate) mod inputs;
pub(crate) mod lengths;
pub mod minima;
pub(crate) mod wrong_lines;

use std::path::Path;
use std::process::Command;
use std::time::Duration;

use crate::plan::Job;
use crate::process::{run_fed, Ended, Feed};
use crate::session::{answer, Session};
use crate::tally::Tally;
use crate::trials::{try_all, Failure, Input, Summary, Trial};
pub use inputs::jobs;

/// An input with what must be answered.
pub struct Case {
    input: Vec<u8>,
    /// Where the input is cut into pieces that come one after another.
    cuts: Vec<usize>,
    answer: Vec<u8>,
    tally: Tally,
}

impl Case {
    fn of(input: Vec<u8>) -> Case {
        let answer = answer(&input);
        let mut tally = Tally::default();
        facts::count(&mut tally, &input);
        Case {
            input,
            cuts: Vec::new(),
            answer,
            tally,
        }
    }

    fn of_session(session: &Session) -> Case {
        Case::of(drafts::ended(&drafts::lines(session)))
    }

    /// The input, and where it is cut into pieces.
    pub(crate) fn into_input(self) -> (Vec<u8>, Vec<usize>) {
        (self.input, self.cuts)
    }

    fn feed(&self) -> Feed {
        in_pieces(&self.input, &self.cuts)
    }
}

/// An input cut at these places into pieces that come one after another.
pub(crate) fn in_pieces(input: &[u8], cuts: &[usize]) -> Feed {
    let edges = [&[0], cuts, &[input.len()]].concat();
    let pieces = edges.windows(2);
    Feed {
        pieces: pieces
            .map(|edges| input[edges[0]..edges[1]].to_vec())
            .collect(),
        pause: PAUSE,
    }
}

impl Trial for Case {
    const NAME: &'static str = "session";

    fn inputs(&self) -> Vec<Input<'_>> {
        vec![Input {
            ending: "session",
            text: &self.input,
            answer: &self.answer,
        }]
    }

    fn tally(&self) -> &Tally {
        &self.tally
    }
}

/// How long a program may take for one input.
pub(crate) const LIMIT: Duration = Duration::from_secs(20);
/// Between two pieces of an input. Long enough for a program to start and to
/// read what is there.
const PAUSE: Duration = Duration::from_millis(8);
/// Of an answer that is too long, no more than this is read.
pub(crate) const TOO_MUCH: usize = 4096;

/// Tries a program on all inputs.
pub fn compare(
    program: &Path,
    jobs: &[Job<Case>],
    seed: u64,
    threads: usize,
) -> Result<Summary, Failure> {
    try_all(jobs, seed, threads, |case| {
        complaint(&mut Command::new(program), case, LIMIT)
    })
}

/// Why one input failed, or nothing. The manual promises that the program
/// always ends normally.
fn complaint(program: &mut Command, case: &Case, limit: Duration) -> Option<String> {
    let most_output = case.answer.len() + TOO_MUCH;
    let fault = match run_fed(program, case.feed(), most_output, limit) {
        Err(error) => return Some(format!("{program:?} cannot be run: {error}")),
        Ok(Ended { status: None, .. }) => {
            format!("not ended after {} s, and killed", limit.as_secs())
        }
        Ok(Ended { output, .. }) if output != case.answer => {
            format!("another answer\n{}", shown("program", &output))
        }
        Ok(Ended {
            status: Some(status),
            ..
        }) if !status.success() => format!("right answer, but {status}"),
        Ok(_) => return None,
    };
    let reference = shown("reference", &case.answer);
    let input = shown("input", &case.input);
    Some(format!("{fault}\n{reference}\n{input}"))
}

/// What is shown of a text at its begin and at its end.
const SHOWN: usize = 400;

/// A text line by line; of a long one the middle is left out.
pub(crate) fn shown(name: &str, text: &[u8]) -> String {
    let lines = |part: &[u8]| -> String {
        let lines = part.split_inclusive(|&byte| byte == b'\n');
        let lines = lines.map(|line| format!("\n  {}", line.escape_ascii()));
        lines.collect()
    };
    let length = text.len();
    let parts = match length {
        0..=1200 => lines(text),
        _ => format!(
            "{}\n  ... {} bytes ...{}",
            lines(&text[..SHOWN]),
            length - 2 * SHOWN,
            lines(&text[length - SHOWN..])
        ),
    };
    format!("{name}, {length} bytes:{parts}")
}

#[cfg(test)]
mod tests {
    use super::*;
    use std::fs;

    /// What is said of a shell script.
    fn of_script(script: &str, case: &Case) -> Option<String> {
        complaint(Command::new("sh").args(["-c", script]), case, LIMIT)
    }

    fn long_case() -> Case {
        Case::of(vec![b'\n'; 4 << 20])
    }

    #[test]
    fn a_program_need_not_read_its_input() {
        let closing = "exec <&-; echo bad=0001";
        assert_eq!(of_script(closing, &long_case()), None);
        let reading_later = "echo bad=0001; cat >/dev/null";
        assert_eq!(of_script(reading_later, &long_case()), None);
    }

    #[test]
    fn pieces_make_up_the_input() {
        let mut case = Case::of(b"abcdef".to_vec());
        assert_eq!(case.feed().pieces, [b"abcdef"]);
        case.cuts = vec![0, 2, 6];
        let pieces: [&[u8]; 4] = [b"", b"ab", b"cdef", b""];
        assert_eq!(case.feed().pieces, pieces);
    }

    #[test]
    fn another_answer_is_shown_with_the_input() {
        let text = of_script("echo bad=0002", &Case::of(b"\n\xFF".to_vec()));
        let expected = "another answer
program, 9 bytes:
  bad=0002\\n
reference, 9 bytes:
  bad=0001\\n
input, 2 bytes:
  \\n
  \\xff";
        assert_eq!(text.as_deref(), Some(expected));
        assert!(of_script("echo bad=0001; echo", &long_case()).is_some());
    }

    #[test]
    fn a_program_must_end_normally() {
        let failing = of_script("echo bad=0001; exit 1", &long_case());
        let text = failing.unwrap_or_default();
        assert!(
            text.starts_with("right answer, but exit status: 1\n"),
            "{text}"
        );
        let mut sleeping = Command::new("sleep");
        let short = Duration::from_millis(300);
        let hanging = complaint(sleeping.arg("600"), &long_case(), short);
        let text = hanging.unwrap_or_default();
        assert!(
            text.starts_with("not ended after 0 s, and killed\n"),
            "{text}"
        );
        let missing = complaint(&mut Command::new("/no/such/program"), &long_case(), LIMIT);
        assert!(missing.is_some_and(|text| text.contains("cannot be run")));
    }

    #[test]
    fn of_a_long_text_the_middle_is_left_out() {
        let text = shown("input", &vec![b'a'; 1201]);
        let ends = "a".repeat(400);
        let expected = format!("input, 1201 bytes:\n  {ends}\n  ... 401 bytes ...\n  {ends}");
        assert_eq!(text, expected);
        assert!(!shown("input", &vec![b'a'; 1200]).contains("..."));
    }

    #[test]
    fn a_wrong_program_fails_and_its_input_is_kept() {
        // `cat` gives the input back.
        let mut jobs = jobs(1);
        jobs.retain(|job| job.kind == inputs::kinds::CUT && job.number == 22);
        let Err(failure) = compare(Path::new("cat"), &jobs, 7, 2) else {
            panic!("cat answers no sessions");
        };
        let text = failure.to_string();
        let begin = "cut short, session 22, seed 7: another answer\nprogram, 22 bytes:\n  base=";
        assert!(text.starts_with(begin), "{text}");
        let [file] = failure.files.as_slice() else {
            panic!("a session is one input");
        };
        let kept = fs::read(file).expect("the input is kept");
        assert_eq!(kept, changes::good()[..22]);
        fs::remove_file(file).expect("the input can be removed");
    }
}

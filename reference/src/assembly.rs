//! Runs the program that lists a session and the one that assembles a listing
//! on inputs, and compares all that they write, byte by byte.

mod files;
mod inputs;
mod large;
pub mod minima;
mod summary;
pub mod written;

use std::path::Path;
use std::process::{Command, Stdio};
use std::time::Duration;

use crate::code::Code;
use crate::plan::Job;
use crate::process::{run_fed, Ended};
use crate::replay::first_difference;
use crate::session;
use crate::sessions::{in_pieces, shown, LIMIT, TOO_MUCH};
use crate::tally::Tally;
use crate::trials::{try_all, Failure, Input, Summary, Trial};
use crate::words::form_of;
pub use inputs::jobs;
pub use summary::in_short;
use written::{Expected, Program, Refusal, MOST_BYTES};

/// Inputs by the program that gets them.
const GIVEN: &str = "given to";
/// Inputs by how they are answered.
const TOLD_BY_LIST: &str = "told by list";
const TOLD_BY_ASSEMBLE: &str = "told by assemble";
/// Sessions of which each program undid what the other did, by their words.
const UNDONE: &str = "undone, of words";
/// Inputs of the most bytes and of one more, by what they would be without
/// that limit.
const SIZE: &str = "size";

/// How an input is answered that is not refused.
const DONE: &str = "done";

/// An input of a program with what must be written for it.
struct Given {
    program: Program,
    input: Vec<u8>,
    /// Where the input is cut into pieces that come one after another.
    cuts: Vec<usize>,
    output: Vec<u8>,
    errors: Vec<u8>,
}

/// An input of one program, or a session and its listing, one for each.
pub struct Case {
    given: Vec<Given>,
    tally: Tally,
}

impl Case {
    fn of(program: Program, input: Vec<u8>) -> Case {
        let mut tally = Tally::default();
        let given = vec![Given::counted(program, input, &mut tally)];
        Case { given, tally }
    }

    /// A session whose words are all defined is listed, and its listing is
    /// assembled.
    fn both(session: Vec<u8>) -> Case {
        let mut tally = Tally::default();
        let listed = Given::counted(Program::List, session, &mut tally);
        let assembled = Given::counted(Program::Assemble, listed.output.clone(), &mut tally);
        assert_eq!(assembled.output, listed.input, "one undoes the other");
        count_words(&mut tally, &listed.input);
        let given = vec![listed, assembled];
        Case { given, tally }
    }

    fn in_pieces(mut self, cuts: &[usize]) -> Case {
        for given in &mut self.given {
            given.cuts = cuts.to_vec();
        }
        self
    }
}

impl Given {
    fn counted(program: Program, input: Vec<u8>, tally: &mut Tally) -> Given {
        let (output, refusal) = match program.answer(&input) {
            Ok(output) => (output, None),
            Err(refusal) => (Vec::new(), Some(refusal)),
        };
        let told = match program {
            Program::List => TOLD_BY_LIST,
            Program::Assemble => TOLD_BY_ASSEMBLE,
        };
        let name = refusal.as_ref().map(|refusal| refusal.name());
        tally.count_case(told, name.as_deref().unwrap_or(DONE));
        if refusal.as_ref().is_some_and(Refusal::is_undefined) {
            tally.count_word(None, Code::Undefined);
        }
        tally.count_case(GIVEN, program.name());
        count_size(tally, program, &input);
        Given {
            program,
            input,
            cuts: Vec::new(),
            output,
            errors: refusal.map_or_else(Vec::new, |refusal| refusal.text()),
        }
    }
}

fn count_size(tally: &mut Tally, program: Program, input: &[u8]) {
    let bytes = input.len();
    if !(MOST_BYTES..=MOST_BYTES + 1).contains(&bytes) {
        return;
    }
    let looks = match program.of_any_size(input) {
        Ok(_) => LOOKS[0],
        Err(Refusal::Line {
            expected: Expected::End,
            ..
        }) => LOOKS[1],
        Err(_) => LOOKS[2],
    };
    tally.count_case(SIZE, &size_name(program, bytes, looks));
}

/// What an input would be if it might have any size.
const LOOKS: [&str; 3] = ["good", "an extra line", "malformed"];

fn size_name(program: Program, bytes: usize, looks: &str) -> String {
    format!("{}, {bytes} bytes, {looks}", program.name())
}

/// The words of a session, which are listed and assembled again.
fn count_words(tally: &mut Tally, session: &[u8]) {
    let words = session::read(session).map_or_else(|_| Vec::new(), |session| session.words);
    for &word in &words {
        tally.count_word(form_of(word), Code::Done);
    }
    let count = match words.len() {
        count @ (0 | 1 | 255 | 256) => count.to_string(),
        _ => "others".to_string(),
    };
    tally.count_case(UNDONE, &count);
}

impl Trial for Case {
    const NAME: &'static str = "trial";

    /// What is written to standard error counts as an answer: no input has
    /// both.
    fn inputs(&self) -> Vec<Input<'_>> {
        self.given.iter().map(Given::input).collect()
    }

    fn tally(&self) -> &Tally {
        &self.tally
    }
}

impl Given {
    fn input(&self) -> Input<'_> {
        Input {
            ending: self.program.ending(),
            text: &self.input,
            answer: match self.errors.as_slice() {
                [] => &self.output,
                errors => errors,
            },
        }
    }

    /// Why the program failed, or nothing. It always ends normally.
    fn complaint(&self, command: &mut Command, limit: Duration) -> Option<String> {
        let most_output = self.output.len() + self.errors.len() + TOO_MUCH;
        command.stderr(Stdio::piped());
        let feed = in_pieces(&self.input, &self.cuts);
        let fault = match run_fed(command, feed, most_output, limit) {
            Err(error) => return Some(format!("{command:?} cannot be run: {error}")),
            Ok(Ended { status: None, .. }) => {
                format!("not ended after {} s, and killed", limit.as_secs())
            }
            Ok(Ended { output, .. }) if output != self.output => {
                format!("another output\n{}", self.output_shown(&output))
            }
            Ok(Ended { errors, .. }) if errors != self.errors => {
                format!("another standard error\n{}", shown("program", &errors))
            }
            Ok(Ended {
                status: Some(status),
                ..
            }) if !status.success() => format!("right answer, but {status}"),
            Ok(_) => return None,
        };
        Some(format!(
            "{}: {fault}\n{}\n{}\n{}",
            self.program.name(),
            shown("reference, output", &self.output),
            shown("reference, standard error", &self.errors),
            shown("input", &self.input)
        ))
    }
}

impl Given {
    /// What was written in the place of the output: the first line that
    /// differs, or all of it where there must be none.
    fn output_shown(&self, output: &[u8]) -> String {
        let [right, wrong] = [("reference", self.output.as_slice()), ("program", output)];
        match first_difference(right, wrong) {
            Some(differing) if !self.output.is_empty() => differing.to_string(),
            _ => shown("program", output),
        }
    }
}

/// Tries both programs on all inputs.
pub fn compare(
    list: &Path,
    assemble: &Path,
    jobs: &[Job<Case>],
    seed: u64,
    threads: usize,
) -> Result<Summary, Failure> {
    let complaint = |given: &Given| {
        let program = match given.program {
            Program::List => list,
            Program::Assemble => assemble,
        };
        given.complaint(&mut Command::new(program), LIMIT)
    };
    try_all(jobs, seed, threads, |case: &Case| {
        case.given.iter().find_map(complaint)
    })
}

#[cfg(test)]
mod tests {
    use super::*;
    use std::fs;

    /// What is said of a shell script.
    fn of_script(script: &str, case: &Case) -> Option<String> {
        let mut complaints = case.given.iter().map(|given| {
            let mut command = Command::new("sh");
            given.complaint(command.args(["-c", script]), LIMIT)
        });
        complaints.find_map(|complaint| complaint)
    }

    const BASE: &str = "expected: base= and 16 lower-case hexadecimal digits";

    #[test]
    fn both_outputs_and_the_status_are_compared() {
        let case = Case::of(Program::List, b"/\n".to_vec());
        let told = format!("echo 'line 1: /' >&2; echo '{BASE}' >&2");
        assert_eq!(of_script(&told, &case), None);
        for (script, begin) in [
            (
                format!("{told}; echo"),
                "list: another output\nprogram, 1 bytes:\n  \\n\n",
            ),
            (
                "echo 'line 1: /' >&2".into(),
                "list: another standard error\nprogram, 10 bytes:\n  line 1: /\\n\n",
            ),
            (
                format!("{told}; echo >&2"),
                "list: another standard error\n",
            ),
            (
                format!("{told}; exit 2"),
                "list: right answer, but exit status: 2\n",
            ),
        ] {
            let text = of_script(&script, &case).unwrap_or_default();
            assert!(text.starts_with(begin), "{text}");
        }
        let mut missing = Command::new("/no/such/program");
        let text = case.given[0].complaint(&mut missing, LIMIT);
        assert!(text.is_some_and(|text| text.contains("cannot be run")));
        let short = Duration::from_millis(300);
        let text = case.given[0].complaint(Command::new("sleep").arg("600"), short);
        assert!(text.is_some_and(|text| text.contains("not ended after 0 s, and killed")));
    }

    #[test]
    fn a_wrong_program_fails_and_both_inputs_are_kept() {
        // `cat` gives the input back.
        let mut jobs = jobs(1);
        jobs.retain(|job| job.kind == inputs::kinds::EACH_VALUE && job.number == 0);
        let cat = Path::new("cat");
        let Err(failure) = compare(cat, cat, &jobs, 9, 2) else {
            panic!("cat lists no sessions");
        };
        let text = failure.to_string();
        let begin = ", seed 9: list: another output\noutput line 10\n  reference: addg x0, ";
        assert!(text.contains(begin), "{text}");
        let case = jobs[0].made(9);
        assert_eq!(failure.files.len(), 2);
        for (file, given) in failure.files.iter().zip(&case.given) {
            assert_eq!(fs::read(file).expect("the input is kept"), given.input);
            fs::remove_file(file).expect("the input can be removed");
        }
    }
}

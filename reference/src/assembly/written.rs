//! What the two programs write for any input: `list` the listing of a
//! session, `assemble` the session of a listing, and both two lines on
//! standard error for an input that is refused, or one if it is too large.

use std::fmt;

use crate::listing::reader::word_of;
use crate::listing::writer::line_of;
use crate::session::{self, MOST_WORDS, SETTINGS};

/// An input of more bytes is refused, whatever it holds.
pub const MOST_BYTES: usize = 1_048_576;
/// The name of such a refusal.
pub const TOO_LARGE: &str = "too large";

#[derive(Clone, Copy, Debug, PartialEq)]
pub enum Program {
    List,
    Assemble,
}

impl Program {
    pub fn name(self) -> &'static str {
        match self {
            Program::List => "list",
            Program::Assemble => "assemble",
        }
    }

    /// How the name of a file ends that the program reads.
    pub fn ending(self) -> &'static str {
        match self {
            Program::List => "session",
            Program::Assemble => "s",
        }
    }

    /// What is written to standard output, or why the input is refused.
    pub fn answer(self, input: &[u8]) -> Result<Vec<u8>, Refusal> {
        match input.len() {
            0..=MOST_BYTES => self.of_any_size(input),
            _ => Err(Refusal::TooLarge),
        }
    }

    /// The same if an input may have any size.
    pub fn of_any_size(self, input: &[u8]) -> Result<Vec<u8>, Refusal> {
        match self {
            Program::List => list(input),
            Program::Assemble => assemble(input),
        }
    }
}

#[derive(Clone, Debug, PartialEq)]
pub enum Refusal {
    /// A line, its number from 1.
    Line {
        number: usize,
        fault: Fault,
        expected: Expected,
    },
    TooLarge,
}

#[derive(Clone, Debug, PartialEq)]
pub enum Fault {
    /// The line without its line feed.
    Wrong(Vec<u8>),
    /// All that is left of the text.
    NotEnded(Vec<u8>),
    Missing,
}

/// What had to stand in the place of a line.
#[derive(Clone, Copy, Debug, PartialEq)]
pub enum Expected {
    /// One of a session's first lines, by its key.
    Setting(&'static str),
    Word,
    ListingLine,
    ModelledWord,
    End,
}

impl Refusal {
    /// What is written to standard error.
    pub fn text(&self) -> Vec<u8> {
        let Refusal::Line {
            number,
            fault,
            expected,
        } = self
        else {
            return format!("more than {MOST_BYTES} bytes\n").into_bytes();
        };
        let (told, line): (&str, &[u8]) = match fault {
            Fault::Wrong(line) => (": ", line),
            Fault::NotEnded(line) => (" is not ended: ", line),
            Fault::Missing => (" is missing", b""),
        };
        let begin = format!("line {number}{told}").into_bytes();
        let end = format!("\n{expected}\n").into_bytes();
        [&begin, line, &end].concat()
    }

    /// Whether a word of a good session is undefined.
    pub fn is_undefined(&self) -> bool {
        match self {
            Refusal::Line { expected, .. } => *expected == Expected::ModelledWord,
            Refusal::TooLarge => false,
        }
    }

    /// What it is a case of.
    pub fn name(&self) -> String {
        let Refusal::Line {
            fault, expected, ..
        } = self
        else {
            return TOO_LARGE.into();
        };
        let fault = match fault {
            Fault::Wrong(_) => "wrong",
            Fault::NotEnded(_) => "not ended",
            Fault::Missing => "missing",
        };
        format!("{fault}: {}", expected.name())
    }
}

impl Expected {
    pub fn name(self) -> &'static str {
        match self {
            Expected::Setting(key) => key,
            Expected::Word => "a word",
            Expected::ListingLine => "a listing line",
            Expected::ModelledWord => "a modelled word",
            Expected::End => "the end",
        }
    }

    /// The setting behind so many others, if there is one.
    fn setting(before: usize) -> Option<Expected> {
        SETTINGS.get(before).copied().map(Expected::Setting)
    }
}

impl fmt::Display for Expected {
    fn fmt(&self, out: &mut fmt::Formatter) -> fmt::Result {
        match self {
            Expected::Setting("granules") => write!(
                out,
                "expected: granules= and 4 lower-case hexadecimal digits, at most 0400"
            ),
            Expected::Setting("access") => write!(out, "expected: access= and 0 or 1"),
            Expected::Setting(key) => {
                let digits = match *key {
                    "exclude" | "seed" => 4,
                    _ => 16,
                };
                write!(
                    out,
                    "expected: {key}= and {digits} lower-case hexadecimal digits"
                )
            }
            Expected::Word => write!(
                out,
                "expected: word= and 8 lower-case hexadecimal digits, or the end"
            ),
            Expected::ListingLine => write!(
                out,
                "BADLINE, expected: a listing line, as stg x0, [x0], #16, or the end"
            ),
            Expected::ModelledWord => write!(
                out,
                "UNDEFINED, expected: the word of a modelled instruction"
            ),
            Expected::End => write!(out, "expected: the end, after {MOST_WORDS} words"),
        }
    }
}

/// A malformed session goes before an undefined word.
fn list(input: &[u8]) -> Result<Vec<u8>, Refusal> {
    let session = session::read(input).map_err(|number| refused(input, number))?;
    let mut output = input[..start_of(input, SETTINGS.len() + 1)].to_vec();
    for (number, &word) in (SETTINGS.len() + 1..).zip(&session.words) {
        let line = line_of(word).ok_or_else(|| Refusal::Line {
            number,
            fault: fault_of(input, number),
            expected: Expected::ModelledWord,
        })?;
        output.extend(line.into_bytes());
    }
    Ok(output)
}

/// The first line of a session that is not as it must be: all before it are.
fn refused(input: &[u8], number: usize) -> Refusal {
    let words = (number - 1).saturating_sub(SETTINGS.len());
    let expected = match Expected::setting(number - 1) {
        Some(setting) => setting,
        None if words < MOST_WORDS => Expected::Word,
        None => Expected::End,
    };
    Refusal::Line {
        number,
        fault: fault_of(input, number),
        expected,
    }
}

/// Where the line of a number from 1 begins; all before it are ended.
fn start_of(input: &[u8], number: usize) -> usize {
    let lines = input.split_inclusive(|&byte| byte == b'\n');
    lines.take(number - 1).map(<[u8]>::len).sum()
}

/// What there is in the place of a line.
fn fault_of(input: &[u8], number: usize) -> Fault {
    let rest = &input[start_of(input, number)..];
    let end = rest.iter().position(|&byte| byte == b'\n');
    match end {
        Some(end) => Fault::Wrong(rest[..end].to_vec()),
        None if rest.is_empty() => Fault::Missing,
        None => Fault::NotEnded(rest.to_vec()),
    }
}

/// A file that is read line by line.
#[derive(Default)]
struct Assembling {
    /// The lines of the session's start, as they stand in the file.
    start: Vec<u8>,
    settings: usize,
    words: Vec<u32>,
}

fn assemble(input: &[u8]) -> Result<Vec<u8>, Refusal> {
    let mut assembling = Assembling::default();
    let mut lines = 0;
    for line in input.split_inclusive(|&byte| byte == b'\n') {
        lines += 1;
        let expected = assembling.expected();
        assembling.take(line).map_err(|fault| Refusal::Line {
            number: lines,
            fault,
            expected,
        })?;
    }
    if assembling.settings < SETTINGS.len() {
        return Err(Refusal::Line {
            number: lines + 1,
            fault: Fault::Missing,
            expected: assembling.expected(),
        });
    }
    Ok(assembling.session())
}

impl Assembling {
    fn expected(&self) -> Expected {
        match Expected::setting(self.settings) {
            Some(setting) => setting,
            None if self.words.len() < MOST_WORDS => Expected::ListingLine,
            None => Expected::End,
        }
    }

    /// Takes a line, or passes it over. A line that is not ended is that,
    /// whatever it holds.
    fn take(&mut self, line: &[u8]) -> Result<(), Fault> {
        let Some(text) = line.strip_suffix(b"\n") else {
            return Err(Fault::NotEnded(line.to_vec()));
        };
        let passed_over = text.is_empty() || text.starts_with(b"//");
        if passed_over || self.takes(line) {
            return Ok(());
        }
        Err(Fault::Wrong(text.to_vec()))
    }

    fn takes(&mut self, line: &[u8]) -> bool {
        match self.expected() {
            Expected::Setting(_) => self.takes_setting(line),
            Expected::ListingLine => match word_of(line) {
                Some(word) => {
                    self.words.push(word);
                    true
                }
                None => false,
            },
            _ => false,
        }
    }

    /// A setting is right if a session that begins so is wrong only later.
    fn takes_setting(&mut self, line: &[u8]) -> bool {
        let start = [self.start.as_slice(), line].concat();
        if session::read(&start) == Err(self.settings + 1) {
            return false;
        }
        self.start = start;
        self.settings += 1;
        true
    }

    fn session(self) -> Vec<u8> {
        let words = self.words.iter().map(|word| format!("word={word:08x}\n"));
        let mut session = self.start;
        session.extend(words.collect::<String>().into_bytes());
        session
    }
}

#[cfg(test)]
mod tests {
    use super::Program::{Assemble, List};
    use super::*;

    /// Document 01's S1 without its word.
    const START: &str = "\
base=0000000000001000
granules=0004
access=1
exclude=0000
seed=0000
x0=0500000000001000
x1=0000000000000000
x2=0000000000000000
sp=0000000000000000
";

    fn told(program: Program, input: &str) -> String {
        let written = match program.answer(input.as_bytes()) {
            Ok(output) => [b"output\n".to_vec(), output].concat(),
            Err(refusal) => refusal.text(),
        };
        String::from_utf8(written).expect("plain text")
    }

    fn assert_undone(session: &str, listing: &str) {
        assert_eq!(told(List, session), format!("output\n{listing}"));
        assert_eq!(told(Assemble, listing), format!("output\n{session}"));
    }

    #[test]
    fn each_undoes_the_other() {
        assert_undone(START, START);
        assert_undone(
            &format!("{START}word=d9201400\nword=9adf1020\n"),
            &format!("{START}stg x0, [x0], #16\nirg x0, x1, xzr\n"),
        );
        assert_undone(
            &format!("{START}{}", "word=91810420\n".repeat(256)),
            &format!("{START}{}", "addg x0, x1, #16, #1\n".repeat(256)),
        );
    }

    #[test]
    fn some_lines_of_a_file_are_passed_over() {
        let lines = START.split_inclusive('\n');
        let apart: String = lines.map(|line| format!("\n// {line}//\n{line}")).collect();
        let file = format!("{apart}//\r\nstg x0, [x0], #16\n\n\n//stg\nldg x1, [x0]\n// end\n\n");
        let session = format!("output\n{START}word=d9201400\nword=d9600001\n");
        assert_eq!(told(Assemble, &file), session);
        let full = format!("{START}{}", "irg x0, x0, x0\n".repeat(256));
        let session = told(Assemble, &full);
        assert_eq!(told(Assemble, &format!("{full}// end\n\n")), session);
    }

    /// What is said of each of the first nine lines.
    const SETTINGS_TOLD: [&str; 9] = [
        "expected: base= and 16 lower-case hexadecimal digits",
        "expected: granules= and 4 lower-case hexadecimal digits, at most 0400",
        "expected: access= and 0 or 1",
        "expected: exclude= and 4 lower-case hexadecimal digits",
        "expected: seed= and 4 lower-case hexadecimal digits",
        "expected: x0= and 16 lower-case hexadecimal digits",
        "expected: x1= and 16 lower-case hexadecimal digits",
        "expected: x2= and 16 lower-case hexadecimal digits",
        "expected: sp= and 16 lower-case hexadecimal digits",
    ];

    #[test]
    fn wrong_settings() {
        let lines: Vec<&str> = START.split_inclusive('\n').collect();
        for (place, expected) in SETTINGS_TOLD.iter().enumerate() {
            let (before, number) = (lines[..place].concat(), place + 1);
            for program in [List, Assemble] {
                let missing = format!("line {number} is missing\n{expected}\n");
                assert_eq!(told(program, &before), missing);
                let wrong = format!("line {number}: wrong=1\r\n{expected}\n");
                let input = format!("{before}wrong=1\r\n{}", lines[place]);
                assert_eq!(told(program, &input), wrong);
                let cut = lines[place].trim_end();
                let not_ended = format!("line {number} is not ended: {cut}\n{expected}\n");
                assert_eq!(told(program, &format!("{before}{cut}")), not_ended);
            }
        }
    }

    const BADLINE: &str = "BADLINE, expected: a listing line, as stg x0, [x0], #16, or the end\n";
    const WORD: &str = "expected: word= and 8 lower-case hexadecimal digits, or the end\n";
    const UNDEFINED: &str = "UNDEFINED, expected: the word of a modelled instruction\n";
    const END: &str = "expected: the end, after 256 words\n";

    #[test]
    fn wrong_lines_of_a_file() {
        for (behind, line) in [
            ("word=d9201400\n", "line 10: word=d9201400\n"),
            ("stg x0, [x0]\n/\n", "line 11: /\n"),
            ("stg x0, [x0]\n\n //\n", "line 12:  //\n"),
            ("// one\n\nSTG x0, [x0]\n/\n", "line 12: STG x0, [x0]\n"),
            ("stg x0, [x0]", "line 10 is not ended: stg x0, [x0]\n"),
            ("stg x0, [x0]\n//", "line 11 is not ended: //\n"),
            ("\r\n", "line 10: \r\n"),
        ] {
            let input = format!("{START}{behind}");
            assert_eq!(told(Assemble, &input), format!("{line}{BADLINE}"));
        }
    }

    #[test]
    fn wrong_lines_of_a_session() {
        for (behind, line) in [
            ("\n", "line 10: \n"),
            ("// text\n", "line 10: // text\n"),
            ("word=d9201400\nword=0000000G\n", "line 11: word=0000000G\n"),
            ("word=d9201400", "line 10 is not ended: word=d9201400\n"),
            ("word=00000000\nw", "line 11 is not ended: w\n"),
        ] {
            let input = format!("{START}{behind}");
            assert_eq!(told(List, &input), format!("{line}{WORD}"));
        }
        let input = format!("{START}word=d9201400\nword=91804020\nword=00000000\n");
        let told = told(List, &input);
        assert_eq!(told, format!("line 11: word=91804020\n{UNDEFINED}"));
    }

    #[test]
    fn extra_lines() {
        let session = format!("{START}{}", "word=00000000\n".repeat(256));
        assert_eq!(
            told(List, &format!("{session}\n")),
            format!("line 266: \n{END}")
        );
        let not_ended = format!("line 266 is not ended: w\n{END}");
        assert_eq!(told(List, &format!("{session}w")), not_ended);
        let file = format!("//\n{START}{}", "irg x0, x0, x0\n".repeat(256));
        let extra = format!("{file}\nirg x0, x0, x0\nirg x0, x0, x0\n");
        assert_eq!(
            told(Assemble, &extra),
            format!("line 268: irg x0, x0, x0\n{END}")
        );
        let not_ended = format!("line 267 is not ended: //\n{END}");
        assert_eq!(told(Assemble, &format!("{file}//")), not_ended);
    }

    #[test]
    fn passed_over_lines_count_where_one_is_missing() {
        let base = SETTINGS_TOLD[0];
        assert_eq!(told(Assemble, ""), format!("line 1 is missing\n{base}\n"));
        let file = "// one\n\n\n// four\n";
        assert_eq!(told(Assemble, file), format!("line 5 is missing\n{base}\n"));
        assert_eq!(told(List, file), format!("line 1: // one\n{base}\n"));
    }

    const TOO_LARGE_TOLD: &str = "more than 1048576 bytes\n";

    #[test]
    fn a_file_may_have_so_many_bytes() {
        let most = format!("{START}//{}\n", "/".repeat(MOST_BYTES - START.len() - 3));
        assert_eq!(most.len(), 1_048_576);
        assert_eq!(told(Assemble, &most), format!("output\n{START}"));
        assert_eq!(told(Assemble, &format!("{most}\n")), TOO_LARGE_TOLD);
    }

    #[test]
    fn a_session_of_so_many_bytes_is_told_its_wrong_line() {
        let words = "word=d9201400\n".repeat(256);
        let begin = format!("{START}{words}");
        let most = format!("{begin}{}", "\n".repeat(MOST_BYTES - begin.len()));
        assert_eq!(told(List, &most), format!("line 266: \n{END}"));
        assert_eq!(told(List, &format!("{most}\n")), TOO_LARGE_TOLD);
        // An undefined word, and a wrong line at the beginning.
        let undefined = most.replacen("d9201400", "00000000", 1);
        assert_eq!(told(List, &format!("{undefined}\n")), TOO_LARGE_TOLD);
        assert_eq!(told(List, &format!("\n{most}")), TOO_LARGE_TOLD);
    }

    #[test]
    fn what_is_too_large_is_told_no_line() {
        let (base, most) = (SETTINGS_TOLD[0], "x".repeat(MOST_BYTES));
        for program in [List, Assemble] {
            let not_ended = format!("line 1 is not ended: {most}\n{base}\n");
            assert_eq!(told(program, &most), not_ended);
            assert_eq!(told(program, &format!("{most}x")), TOO_LARGE_TOLD);
            assert_eq!(told(program, &format!("{most}\n")), TOO_LARGE_TOLD);
        }
    }

    #[test]
    fn a_line_is_told_byte_for_byte() {
        let refusal = Assemble.answer(b"\xFF\0\r\n");
        let text = refusal.map_err(|refusal| refusal.text());
        let expected = format!("\n{}\n", SETTINGS_TOLD[0]).into_bytes();
        assert_eq!(
            text,
            Err([b"line 1: \xFF\0\r", expected.as_slice()].concat())
        );
    }
}

//! The session program (document 01, "The session program"; the manual,
//! "Sessions"): the lines of a session, and the answer to any input.

use std::io::{self, Write};

use crate::code::Code;
use crate::machine::Machine;
use crate::recorded::Recorded;
use crate::script::{below, number, yes_or_no};

pub const MOST_GRANULES: usize = 0x400;
pub const MOST_WORDS: usize = 256;
/// The lines before the words, by their keys.
pub const SETTINGS: [&str; 9] = [
    "base", "granules", "access", "exclude", "seed", "x0", "x1", "x2", "sp",
];

/// What a session is about: a machine at its start, and the words to run.
#[derive(Clone, Debug, PartialEq)]
pub struct Session {
    pub machine: Machine,
    pub words: Vec<u32>,
}

/// What is written for an input.
pub fn answer(input: &[u8]) -> Vec<u8> {
    match read(input) {
        Ok(session) => {
            let (code, done, machine) = session.run();
            let mut out = Vec::new();
            write_answer(code, done, &machine, &mut out).expect("writing to memory");
            out
        }
        Err(number) => format!("bad={number:04x}\n").into_bytes(),
    }
}

/// A session, or the number from 1 of the first line that is wrong, missing,
/// not ended or one too many.
pub fn read(input: &[u8]) -> Result<Session, usize> {
    let mut lines = Lines {
        rest: input,
        number: 0,
    };
    let mut machine = Machine::fresh(lines.next("base", |text| number(text, 16))?);
    let granules = lines.next("granules", |text| {
        below(number(text, 4)?, MOST_GRANULES + 1)
    })?;
    machine.tags = vec![0; granules];
    machine.data = vec![0; 16 * granules];
    machine.access = lines.next("access", yes_or_no)?;
    machine.exclude = lines.next("exclude", |text| number(text, 4))? as u16;
    machine.seed = lines.next("seed", |text| number(text, 4))? as u16;
    for (key, register) in [("x0", 0), ("x1", 1), ("x2", 2)] {
        machine.x[register] = lines.next(key, |text| number(text, 16))?;
    }
    machine.sp = lines.next("sp", |text| number(text, 16))?;
    let words = lines.words()?;
    Ok(Session { machine, words })
}

/// The lines of an input that are not read yet, and the number of the last
/// one that was asked for.
struct Lines<'a> {
    rest: &'a [u8],
    number: usize,
}

impl Lines<'_> {
    /// The value of the next line, which must have this key.
    fn next<T>(&mut self, key: &str, value: impl Fn(&[u8]) -> Option<T>) -> Result<T, usize> {
        self.number += 1;
        let number = self.number;
        let line = self.ended().ok_or(number)?;
        let text = line.strip_prefix(key.as_bytes());
        let text = text.and_then(|text| text.strip_prefix(b"="));
        text.and_then(value).ok_or(number)
    }

    /// The next line without its line feed, if it is ended by one.
    fn ended(&mut self) -> Option<&[u8]> {
        let end = self.rest.iter().position(|&byte| byte == b'\n')?;
        let line = &self.rest[..end];
        self.rest = &self.rest[end + 1..];
        Some(line)
    }

    /// All lines that are left are words; whatever comes after the most of
    /// them is an extra line.
    fn words(&mut self) -> Result<Vec<u32>, usize> {
        let mut words = Vec::new();
        while !self.rest.is_empty() {
            if words.len() == MOST_WORDS {
                return Err(self.number + 1);
            }
            words.push(self.next("word", |text| number(text, 8))? as u32);
        }
        Ok(words)
    }
}

impl Session {
    /// The code, how many words were done, and the machine after them.
    pub fn run(&self) -> (Code, u64, Machine) {
        let mut recorded = Recorded {
            machine: self.machine.clone(),
            ..Recorded::fresh(0)
        };
        let (code, done) = recorded.run(&self.words);
        (code, done, recorded.machine)
    }
}

fn write_answer(code: Code, done: u64, machine: &Machine, out: &mut Vec<u8>) -> io::Result<()> {
    writeln!(out, "done={done:04x}")?;
    writeln!(out, "code={:x}", code as u8)?;
    for number in 0..3 {
        writeln!(out, "x{number}={:016x}", machine.x[number])?;
    }
    writeln!(out, "sp={:016x}", machine.sp)?;
    writeln!(out, "nzcv={:x}", machine.nzcv)?;
    write!(out, "tags=")?;
    for byte in &machine.tags {
        write!(out, "{:x}", byte & 15)?;
    }
    writeln!(out)
}

#[cfg(test)]
mod tests {
    use super::*;

    /// Document 01's S1.
    const S1: &str = "\
base=0000000000001000
granules=0004
access=1
exclude=0000
seed=0000
x0=0500000000001000
x1=0000000000000000
x2=0000000000000000
sp=0000000000000000
word=d9201400
";
    const S1_ANSWER: &str = "\
done=0001
code=0
x0=0500000000001010
x1=0000000000000000
x2=0000000000000000
sp=0000000000000000
nzcv=0
tags=5000
";
    const STG_POST: &str = "word=d9201400\n";

    fn text(input: &str) -> String {
        String::from_utf8(answer(input.as_bytes())).expect("the answer is plain text")
    }

    /// S1 without its word.
    fn settings() -> &'static str {
        S1.strip_suffix(STG_POST)
            .expect("S1's word is its last line")
    }

    fn assert_bad(input: &str, number: usize) {
        assert_eq!(text(input), format!("bad={number:04x}\n"), "{input:?}");
    }

    /// Nothing done, this code, S1's registers as they were read, and tags 0.
    fn untouched(code: u8, tags: &str) -> String {
        let answer = S1_ANSWER.replace("done=0001", "done=0000");
        let answer = answer.replace("x0=0500000000001010", "x0=0500000000001000");
        let answer = answer.replace("code=0", &format!("code={code}"));
        answer.replace("tags=5000", &format!("tags={tags}"))
    }

    #[test]
    fn s1_whole() {
        assert_eq!(text(S1), S1_ANSWER);
    }

    #[test]
    fn no_words() {
        assert_eq!(text(settings()), untouched(0, "0000"));
    }

    #[test]
    fn a_refused_word_ends_the_run() {
        let words = format!("{STG_POST}word=91804020\n{STG_POST}");
        let refused = S1_ANSWER.replace("code=0", "code=2");
        assert_eq!(text(&format!("{}{words}", settings())), refused);
        let past_the_end = format!("{}{}", settings(), STG_POST.repeat(6));
        let refused = text(&past_the_end);
        assert!(refused.starts_with("done=0004\ncode=5\nx0=0500000000001040\n"));
        assert!(refused.ends_with("\ntags=5555\n"));
    }

    #[test]
    fn no_granules() {
        let empty = settings().replace("granules=0004", "granules=0000");
        assert_eq!(text(&empty), untouched(0, ""));
        assert_eq!(text(&format!("{empty}{STG_POST}")), untouched(5, ""));
        let at_the_top = empty.replace("base=0000000000001000", "base=0100000000000000");
        assert_eq!(text(&at_the_top), untouched(0, ""));
    }

    #[test]
    fn most_granules() {
        let most = S1.replace("granules=0004", "granules=0400");
        let tags = format!("tags=5{}", "0".repeat(1023));
        assert_eq!(text(&most), S1_ANSWER.replace("tags=5000", &tags));
        assert_bad(&S1.replace("granules=0004", "granules=0401"), 2);
        assert_bad(&S1.replace("granules=0004", "granules=ffff"), 2);
    }

    #[test]
    fn a_broken_base_gives_code_1() {
        for base in [
            "0000000000001001",
            "0000000000001008",
            "00ffffffffffffd0",
            "0100000000000000",
            "fffffffffffffff0",
            "ffffffffffffffff",
        ] {
            let broken = S1.replace("0000000000001000\ng", &format!("{base}\ng"));
            assert_eq!(text(&broken), untouched(1, "0000"), "{base}");
            let without_words = broken.replace(STG_POST, "");
            assert_eq!(text(&without_words), untouched(1, "0000"), "{base}");
        }
        let sound = S1.replace("0000000000001000\ng", "00ffffffffffffc0\ng");
        assert_eq!(text(&sound), untouched(5, "0000"));
    }

    #[test]
    fn up_to_256_words() {
        let words = |count: usize| format!("{}{}", settings(), "word=91800000\n".repeat(count));
        for (count, done) in [(255, "done=00ff\n"), (256, "done=0100\n")] {
            assert!(text(&words(count)).starts_with(done));
        }
        assert_eq!(words(256).len(), 3732);
        for count in [257, 258, 300, 300_000] {
            assert_bad(&words(count), 0x10A);
        }
        for extra in ["\n", "w", "word=91800000", "\0", " "] {
            assert_bad(&format!("{}{extra}", words(256)), 0x10A);
        }
        assert_bad(&format!("{}w", words(255)), 0x109);
        assert_bad(&words(256)[..3731], 0x109);
    }

    #[test]
    fn missing_and_unended_lines() {
        let lines: Vec<&str> = S1.split_inclusive('\n').collect();
        for missing in 0..SETTINGS.len() {
            assert_bad(&lines[..missing].concat(), missing + 1);
        }
        for unended in 0..lines.len() {
            let begin = lines[..=unended].concat();
            assert_bad(begin.trim_end(), unended + 1);
        }
    }

    #[test]
    fn each_line_in_wrong_ways() {
        let lines: Vec<&str> = S1.lines().collect();
        for (place, line) in lines.iter().enumerate() {
            let (key, value) = line.split_once('=').expect("a key and a value");
            for wrong in [
                String::new(),
                "# remark".to_string(),
                format!(" {line}"),
                format!("{line} "),
                format!("{line}\r"),
                format!("{line}\0"),
                format!("{line}0"),
                format!("{key}=0{value}"),
                format!("{key}={}", &value[1..]),
                format!("{key}=+{}", &value[1..]),
                format!("{key}=A{}", &value[1..]),
                format!("{key}=g{}", &value[1..]),
                format!("{key}{value}"),
                format!("{key}=={}", &value[1..]),
                format!("{}={value}", key.to_uppercase()),
                format!("x3={value}"),
            ] {
                let mut lines: Vec<&str> = lines.clone();
                lines[place] = &wrong;
                assert_bad(&format!("{}\n", lines.join("\n")), place + 1);
            }
        }
        for access in "23456789abcdef".chars() {
            assert_bad(&S1.replace("access=1", &format!("access={access}")), 3);
        }
    }

    #[test]
    fn a_wrong_line_goes_before_every_code() {
        let broken = S1.replace("0000000000001000\ng", "0000000000001008\ng");
        assert_bad(&format!("{broken}word=0000000g\n"), 11);
        assert_bad(&format!("{S1}word=00000000\nword=\n"), 12);
    }

    #[test]
    fn the_first_wrong_line_is_named() {
        let both = S1.replace("access=1", "access=2").replace("sp=", "SP=");
        assert_bad(&both, 3);
        assert_bad(&format!("{S1}\n{S1}"), 11);
    }

    #[test]
    fn tag_access_exclude_and_seed_are_taken_over() {
        // IRG X0, X0, of which P14 has the tag for seed 1.
        let irg = S1.replace("d9201400", "9adf1000");
        let x0 = |input: &str| text(input).lines().nth(2).map(str::to_string);
        let with_tag = |tag: u8| Some(format!("x0=0{tag}00000000001000"));
        assert_eq!(x0(&irg.replace("seed=0000", "seed=0001")), with_tag(1));
        let excluded = irg.replace("exclude=0000", "exclude=0007");
        assert_eq!(x0(&excluded), with_tag(3));
        assert_eq!(x0(&excluded.replace("access=1", "access=0")), with_tag(0));
    }
}

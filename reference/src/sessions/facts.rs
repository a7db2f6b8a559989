//! Which cases an input is, told from what the reference reads in it.

use crate::code::Code;
use crate::facts::count_run;
use crate::machine::Machine;
use crate::session::{read, Session, MOST_GRANULES, MOST_WORDS, SETTINGS};
use crate::tally::Tally;

pub const NAMED: &str = "line named";
pub const GRANULES: &str = "granules";
pub const WORDS: &str = "words";
pub const BASE: &str = "base";
pub const EXCLUDE: &str = "exclude";
pub const CODE: &str = "code";

const TOP: u128 = 1 << 56;
const WRAP: u128 = 1 << 64;

pub fn count(tally: &mut Tally, input: &[u8]) {
    match read(input) {
        Ok(session) => count_session(tally, &session),
        Err(number) => tally.count_case(NAMED, &named(number)),
    }
}

/// Of the words' lines the first, the last and the one too many by
/// themselves.
fn named(number: usize) -> String {
    let first = SETTINGS.len() + 1;
    let last = SETTINGS.len() + MOST_WORDS;
    match number {
        _ if number > first && number < last => "000b to 0108".into(),
        _ => format!("{number:04x}"),
    }
}

fn count_session(tally: &mut Tally, session: &Session) {
    let machine = &session.machine;
    tally.count_case(GRANULES, granules(machine.tags.len()));
    tally.count_case(WORDS, words(session.words.len()));
    for name in bases(machine) {
        tally.count_case(BASE, name);
    }
    let exclude = match machine.exclude {
        0 => "none",
        0xFFFF => "all",
        _ => "some",
    };
    tally.count_case(EXCLUDE, exclude);
    let (code, done, _) = session.run();
    count_run(tally, &session.words, code, done as usize);
    tally.count_case(CODE, &code_and_access(code, machine.access));
}

pub fn code_and_access(code: Code, access: bool) -> String {
    let access = if access { "on" } else { "off" };
    format!("{code:?}, access {access}")
}

fn granules(count: usize) -> &'static str {
    match count {
        0 => "0",
        1 => "1",
        1023 => "1023",
        MOST_GRANULES => "1024",
        _ => "others",
    }
}

fn words(count: usize) -> &'static str {
    match count {
        0 => "0",
        1 => "1",
        255 => "255",
        MOST_WORDS => "256",
        _ => "others",
    }
}

/// What is the case with a base; the sums are over the whole numbers.
fn bases(machine: &Machine) -> Vec<&'static str> {
    let base = u128::from(machine.base);
    let end = base + 16 * machine.tags.len() as u128;
    let cases = [
        ("0", base == 0),
        ("no multiple of 16", base % 16 != 0),
        ("end at 2^56", end == TOP),
        ("end beyond 2^56 by a granule", end == TOP + 16),
        ("2^56", base == TOP),
        ("beyond 2^56", base > TOP),
        ("2^64 - 16", base == WRAP - 16),
        ("end at 2^64", end == WRAP),
        ("sound", machine.well_formed()),
    ];
    let met = cases.into_iter().filter(|&(_, met)| met);
    met.map(|(name, _)| name).collect()
}

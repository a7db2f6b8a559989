//! The lines of a script (the manual, "Replaying a script"): what each one
//! says, and which line is the first wrong one.

use crate::encoder::fields;
use crate::list::Lent;
use crate::words::{Form, FORMS};

pub const MOST_BYTES: usize = 4_194_304;
pub const MOST_TAGS: usize = 0x10010;
pub const MOST_DATA: usize = 0x100100;
pub const MOST_HISTORY: usize = 0x2010;
/// Words in the list that a run takes its words from.
pub const MOST_LISTED: usize = 0x1000;

#[derive(Debug, PartialEq)]
pub enum Line {
    Fresh(u64),
    Access(bool),
    Exclude(u16),
    Nzcv(u8),
    RgsrTag(u8),
    Seed(u16),
    Next(u64),
    Held(u64),
    Tags(usize),
    Data(usize),
    History(usize),
    Register(u64, u64),
    TagByte(usize, u8),
    DataByte(usize, u8),
    HistoryWord(usize, u64),
    ListedWord(usize, u32),
    Word(u32),
    Run(usize),
    Back,
    Dump(bool),
    Play(bool),
    Lend(Lent),
    Show,
    Decode(u32),
    Encode(&'static Form, Vec<u64>),
    Choose(u8, u8, u16),
    Draw(u16),
    Reach(u64),
    /// Empty, or a remark.
    Nothing,
}

impl Line {
    /// What such a line is called.
    pub fn name(&self) -> &'static str {
        match self {
            Line::Fresh(_) => "fresh",
            Line::Access(_) => "access",
            Line::Exclude(_) => "exclude",
            Line::Nzcv(_) => "nzcv",
            Line::RgsrTag(_) => "rgsr",
            Line::Seed(_) => "seed",
            Line::Next(_) => "next",
            Line::Held(_) => "held",
            Line::Tags(_) => "tags",
            Line::Data(_) => "data",
            Line::History(_) => "history",
            Line::Register(..) => "x",
            Line::TagByte(..) => "tag",
            Line::DataByte(..) => "byte",
            Line::HistoryWord(..) => "log",
            Line::ListedWord(..) => "list",
            Line::Word(_) => "word",
            Line::Run(_) => "run",
            Line::Back => "back",
            Line::Dump(_) => "dump",
            Line::Play(_) => "play",
            Line::Lend(_) => "lend",
            Line::Show => "show",
            Line::Decode(_) => "decode",
            Line::Encode(..) => "a form",
            Line::Choose(..) => "choose",
            Line::Draw(_) => "draw",
            Line::Reach(_) => "reach",
            Line::Nothing => "passed over",
        }
    }
}

/// All lines of a script, or the number of its first wrong line from 1; the
/// number is 0 if the script is too long.
pub fn lines(script: &[u8]) -> Result<Vec<Line>, usize> {
    if script.len() > MOST_BYTES {
        return Err(0);
    }
    let pieces = script.split_inclusive(|&byte| byte == b'\n');
    let numbered = (1..).zip(pieces);
    numbered
        .map(|(number, piece)| ended(piece).and_then(line).ok_or(number))
        .collect()
}

fn ended(piece: &[u8]) -> Option<&[u8]> {
    piece.strip_suffix(b"\n")
}

/// What one line says, without its line feed; nothing if it is a wrong line.
pub fn line(text: &[u8]) -> Option<Line> {
    if text.is_empty() || text[0] == b'#' {
        return Some(Line::Nothing);
    }
    if text == b"show" {
        return Some(Line::Show);
    }
    if text == b"back" {
        return Some(Line::Back);
    }
    let sign = text.iter().position(|&byte| byte == b'=')?;
    let (key, values) = (&text[..sign], &text[sign + 1..]);
    setting(key, values)
        .or_else(|| call(key, values))
        .or_else(|| encoding(key, values))
}

fn setting(key: &[u8], values: &[u8]) -> Option<Line> {
    Some(match key {
        b"fresh" => Line::Fresh(number(values, 16)?),
        b"access" => Line::Access(yes_or_no(values)?),
        b"exclude" => Line::Exclude(number(values, 4)? as u16),
        b"nzcv" => Line::Nzcv(number(values, 2)? as u8),
        b"rgsr" => Line::RgsrTag(number(values, 2)? as u8),
        b"seed" => Line::Seed(number(values, 4)? as u16),
        b"next" => Line::Next(number(values, 16)?),
        b"held" => Line::Held(number(values, 16)?),
        b"tags" => Line::Tags(below(number(values, 8)?, MOST_TAGS + 1)?),
        b"data" => Line::Data(below(number(values, 8)?, MOST_DATA + 1)?),
        b"history" => Line::History(below(number(values, 8)?, MOST_HISTORY + 1)?),
        b"x" => {
            let [register, value] = numbers(values, [2, 16])?;
            Line::Register(below(register, 32)? as u64, value)
        }
        b"tag" => {
            let [index, byte] = numbers(values, [8, 2])?;
            Line::TagByte(below(index, MOST_TAGS)?, byte as u8)
        }
        b"byte" => {
            let [index, byte] = numbers(values, [8, 2])?;
            Line::DataByte(below(index, MOST_DATA)?, byte as u8)
        }
        b"log" => {
            let [index, word] = numbers(values, [8, 16])?;
            Line::HistoryWord(below(index, MOST_HISTORY)?, word)
        }
        b"list" => {
            let [index, word] = numbers(values, [8, 8])?;
            Line::ListedWord(below(index, MOST_LISTED)?, word as u32)
        }
        _ => return None,
    })
}

fn call(key: &[u8], values: &[u8]) -> Option<Line> {
    Some(match key {
        b"word" => Line::Word(number(values, 8)? as u32),
        b"run" => Line::Run(below(number(values, 8)?, MOST_LISTED + 1)?),
        b"dump" => Line::Dump(yes_or_no(values)?),
        b"play" => Line::Play(yes_or_no(values)?),
        b"lend" => {
            let [codes, counts, words] = numbers(values, [8, 8, 8])?;
            Line::Lend(Lent::at_most(codes, counts, words))
        }
        b"decode" => Line::Decode(number(values, 8)? as u32),
        b"choose" => {
            let [start, offset, mask] = numbers(values, [1, 1, 4])?;
            Line::Choose(start as u8, offset as u8, mask as u16)
        }
        b"draw" => Line::Draw(number(values, 4)? as u16),
        b"reach" => Line::Reach(number(values, 16)?),
        _ => return None,
    })
}

/// A form's line. The mode, if the form has one, comes before its fields.
fn encoding(key: &[u8], values: &[u8]) -> Option<Line> {
    let shape = FORMS.iter().find(|form| form.key().as_bytes() == key)?;
    let mut digits = vec![16; fields(shape.instruction).len()];
    if shape.mode.is_some() {
        digits.insert(0, 1);
    }
    let mut values = list(values, &digits)?;
    let mode = shape.mode.map(|_| values.remove(0));
    let wanted = |form: &&Form| {
        form.instruction == shape.instruction && form.mode.map(|mode| mode as u64) == mode
    };
    Some(Line::Encode(FORMS.iter().find(wanted)?, values))
}

fn numbers<const COUNT: usize>(text: &[u8], digits: [usize; COUNT]) -> Option<[u64; COUNT]> {
    list(text, &digits)?.try_into().ok()
}

/// Numbers with one space between two of them, as many as digits are given.
fn list(text: &[u8], digits: &[usize]) -> Option<Vec<u64>> {
    let parts: Vec<&[u8]> = text.split(|&byte| byte == b' ').collect();
    if parts.len() != digits.len() {
        return None;
    }
    let pairs = parts.iter().zip(digits);
    pairs.map(|(part, &digits)| number(part, digits)).collect()
}

/// A number in lower-case hexadecimal with exactly so many digits, at most 16.
pub(crate) fn number(text: &[u8], digits: usize) -> Option<u64> {
    if text.len() != digits {
        return None;
    }
    text.iter().try_fold(0, |number, &byte| {
        let digit = match byte {
            b'0'..=b'9' => byte - b'0',
            b'a'..=b'f' => byte - b'a' + 10,
            _ => return None,
        };
        Some(number << 4 | u64::from(digit))
    })
}

pub(crate) fn yes_or_no(text: &[u8]) -> Option<bool> {
    match text {
        b"0" => Some(false),
        b"1" => Some(true),
        _ => None,
    }
}

pub(crate) fn below(number: u64, limit: usize) -> Option<usize> {
    let number = usize::try_from(number).ok()?;
    (number < limit).then_some(number)
}

#[cfg(test)]
mod tests {
    use super::*;

    const RIGHT: [&str; 45] = [
        "",
        "#",
        "#show \r\0",
        "fresh=00000000000abcde",
        "access=0",
        "access=1",
        "exclude=ffff",
        "nzcv=ff",
        "rgsr=10",
        "seed=0000",
        "next=ffffffffffffffff",
        "held=0000000000000001",
        "tags=00010010",
        "data=00100100",
        "x=00 0123456789abcdef",
        "x=1f 0123456789abcdef",
        "tag=0001000f ff",
        "byte=001000ff 00",
        "history=00002010",
        "log=0000200f fedcba9876543210",
        "list=00000fff ffffffff",
        "word=ffffffff",
        "run=00000000",
        "run=00000abc",
        "run=00001000",
        "back",
        "dump=0",
        "dump=1",
        "play=0",
        "play=1",
        "lend=00001000 00001000 00004000",
        "lend=00000000 00000000 00000000",
        "lend=ffffffff ffffffff ffffffff",
        "show",
        "decode=00000000",
        "choose=f 0 ffff",
        "draw=00ff",
        "reach=05ffffffffffffff",
        "addg=ffffffffffffffff 0000000000000000 0000000000000010 00000000000000ff",
        "subps=0000000000000000 0000000000000000 0000000000000000",
        "ldg=0000000000000000 0000000000000000 0000000000000000",
        "stg=1 0000000000000000 0000000000000000 0000000000000000",
        "stz2g=2 0000000000000000 0000000000000000 0000000000000000",
        "st2g=3 0000000000000000 0000000000000000 0000000000000000",
        "stgp=3 0000000000000000 0000000000000000 0000000000000000 0000000000000000",
    ];

    #[test]
    fn right_lines() {
        for text in RIGHT {
            assert!(line(text.as_bytes()).is_some(), "{text}");
        }
    }

    #[test]
    fn a_right_line_with_anything_at_an_end_is_wrong() {
        for text in RIGHT
            .iter()
            .filter(|text| !text.is_empty() && !text.starts_with('#'))
        {
            for more in [" ", "\r", "\0", "0", "=", "\t", "#"] {
                assert_eq!(
                    line(format!("{text}{more}").as_bytes()),
                    None,
                    "{text}{more:?}"
                );
            }
            for more in [" ", "\r", "\0", "=", "\t", "0"] {
                assert_eq!(
                    line(format!("{more}{text}").as_bytes()),
                    None,
                    "{more:?}{text}"
                );
            }
            assert_eq!(line(&text.as_bytes()[..text.len() - 1]), None, "{text} cut");
        }
    }

    #[test]
    fn wrong_lines() {
        for text in [
            " ",
            "\r",
            " #",
            "=",
            "show=",
            "Show",
            "fresh",
            "fresh=",
            "FRESH=0000000000000000",
            "fresh=000000000000000A",
            "fresh=000000000000000g",
            "fresh=+000000000000000",
            "fresh=0x00000000000000",
            "access=2",
            "access=f",
            "access=00",
            "dump=2",
            "play=2",
            "play=f",
            "play=00",
            "play=-",
            "play=",
            "play",
            "play 1",
            "Play=1",
            "plays=1",
            "played=00 00000001",
            "lend",
            "lend=",
            "lend=00000001",
            "lend=00000001 00000001",
            "lend=00000001 00000001 00000001 00000001",
            "lend=0001 00000001 00000001",
            "lend=00000001 0001 00000001",
            "lend=00000001 00000001 0001",
            "lend=000000001 00000001 00000001",
            "lend=00000001 00000001 0000000000000001",
            "lend=00000001  00000001 00000001",
            "lend=00000001 00000001 0000000A",
            "lent=00000001 00000001 00000001",
            "tags=00010011",
            "tags=ffffffff",
            "data=00100101",
            "tag=00010010 00",
            "byte=00100100 00",
            "history=00002011",
            "history=ffffffff",
            "history=0000",
            "history=",
            "log=00002010 0000000000000000",
            "log=ffffffff 0000000000000000",
            "log=00000000",
            "log=00000000 00000000",
            "log=0000 0000000000000000",
            "list=00001000 00000000",
            "list=00000000",
            "list=00000000 0000000000000000",
            "run=00001001",
            "run=ffffffff",
            "run=0001",
            "run=",
            "run",
            "back=",
            "back=0",
            "back=1",
            "Back",
            "step",
            "x=20 0000000000000000",
            "x=00  0000000000000000",
            "x=000000000000000000",
            "x=00\t0000000000000000",
            "choose=00000",
            "reach",
            "reach=",
            "reach=00001000",
            "reach=0000000000001000 0",
            "reached=00000000 00000000 0000000000000000",
            "stg=0 0000000000000000 0000000000000000 0000000000000000",
            "stg=4 0000000000000000 0000000000000000 0000000000000000",
            "stg=01 0000000000000000 0000000000000000 0000000000000000",
            "ldg=1 0000000000000000 0000000000000000 0000000000000000",
            "addg=0000000000000000 0000000000000000 0000000000000000",
            "stgp=0000000000000000 0000000000000000 0000000000000000 0000000000000000",
        ] {
            assert_eq!(line(text.as_bytes()), None, "{text:?}");
        }
    }

    #[test]
    fn no_more_is_lent_than_a_list_may_have() {
        let lent = |text: &str| line(text.as_bytes());
        let most = Some(Line::Lend(Lent::MOST));
        assert_eq!(lent("lend=00001000 00001000 00004000"), most);
        assert_eq!(lent("lend=00001001 00001001 00004001"), most);
        assert_eq!(lent("lend=ffffffff ffffffff ffffffff"), most);
        let fewer = |codes, counts, words| {
            Some(Line::Lend(Lent {
                codes,
                counts,
                words,
            }))
        };
        assert_eq!(
            lent("lend=00000fff 00004000 00001001"),
            fewer(0xFFF, 0x1000, 0x1001)
        );
        assert_eq!(
            lent("lend=80000000 00000001 00003fff"),
            fewer(0x1000, 1, 0x3FFF)
        );
        assert_eq!(lent("lend=00000000 00000000 00000000"), fewer(0, 0, 0));
    }

    #[test]
    fn modes_name_forms() {
        for (mode, name) in [(1, "STGP post"), (3, "STGP pre"), (2, "STGP offset")] {
            let zero = "0000000000000000";
            let text = format!("stgp={mode} {zero} {zero} {zero} {zero}");
            let Some(Line::Encode(form, values)) = line(text.as_bytes()) else {
                panic!("{text} is a form's line");
            };
            assert_eq!((form.name, values), (name, vec![0; 4]));
        }
    }

    #[test]
    fn the_first_wrong_line_is_numbered() {
        assert_eq!(lines(b""), Ok(vec![]));
        assert_eq!(
            lines(b"\n#\nshow\n"),
            Ok(vec![Line::Nothing, Line::Nothing, Line::Show])
        );
        assert_eq!(lines(b"shwo\nshow\n"), Err(1));
        assert_eq!(lines(b"\n#\n\r\nshow"), Err(3));
        assert_eq!(lines(b"show\nshow"), Err(2));
        assert_eq!(lines(b"show\n#"), Err(2));
        assert_eq!(lines(b"#"), Err(1));
    }

    #[test]
    fn the_longest_script() {
        let mut script = vec![b'#'; MOST_BYTES];
        assert_eq!(lines(&script), Err(1));
        script[MOST_BYTES - 1] = b'\n';
        assert_eq!(lines(&script), Ok(vec![Line::Nothing]));
        script.push(b'\n');
        assert_eq!(lines(&script), Err(0));
    }
}

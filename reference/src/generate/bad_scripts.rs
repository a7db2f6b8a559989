//! Scripts of which nothing may be played, and a few that are just right.

use super::random::Random;
use crate::script::MOST_BYTES;

/// A right line of every kind, with letters among its digits where it can.
const RIGHT: [&str; 40] = [
    "fresh=00000000000abcd0",
    "access=1",
    "exclude=00ef",
    "nzcv=0a",
    "rgsr=0b",
    "seed=abcd",
    "next=0000000000000000",
    "held=000000000000000c",
    "tags=0000000a",
    "data=000000a0",
    "x=1a 0123456789abcdef",
    "tag=0000000c 0d",
    "byte=0000000c ef",
    "history=0000001a",
    "log=0000001c 0123456789abcdef",
    "list=00000abc d9201400",
    "word=d9201400",
    "run=0000000a",
    "back",
    "dump=1",
    "play=1",
    "lend=0000000a 0000000b 0000abcd",
    "show",
    "decode=9adf1020",
    "choose=a b cdef",
    "draw=000f",
    "reach=0a000000000abcd0",
    "addg=000000000000000a 000000000000000b 0000000000000010 000000000000000c",
    "subg=000000000000000a 000000000000000b 0000000000000010 000000000000000c",
    "subp=000000000000000a 000000000000000b 000000000000000c",
    "subps=000000000000000a 000000000000000b 000000000000000c",
    "irg=000000000000000a 000000000000000b 000000000000000c",
    "gmi=000000000000000a 000000000000000b 000000000000000c",
    "ldg=000000000000000a 000000000000000b fffffffffffffff0",
    "stg=1 000000000000000a 000000000000000b fffffffffffffff0",
    "stzg=2 000000000000000a 000000000000000b fffffffffffffff0",
    "st2g=3 000000000000000a 000000000000000b fffffffffffffff0",
    "stz2g=1 000000000000000a 000000000000000b fffffffffffffff0",
    "stgp=2 000000000000000a 000000000000000b 000000000000000c fffffffffffffff0",
    "# a remark, then an empty line",
];

/// Lines at their limits, right or wrong by one.
const AT_LIMITS: [&str; 101] = [
    "access=2",
    "access=9",
    "access=a",
    "access=f",
    "access=01",
    "dump=2",
    "dump=f",
    "dump=-",
    "play=0",
    "play=2",
    "play=9",
    "play=a",
    "play=f",
    "play=01",
    "play=10",
    "play=-",
    "play=1 1",
    "lend=00000000 00000000 00000000",
    "lend=00001000 00001000 00004000",
    "lend=00001001 00001001 00004001",
    "lend=80000000 80000000 80000000",
    "lend=ffffffff ffffffff ffffffff",
    "lend=00001000",
    "lend=00001000 00001000",
    "lend=00001000 00001000 ",
    "lend=00001000 00001000 00004000 00000000",
    "lend=1000 00001000 00004000",
    "lend=00001000 1000 00004000",
    "lend=00001000 00001000 4000",
    "lend=000001000 00001000 00004000",
    "lend=00001000 000001000 00004000",
    "lend=00001000 00001000 000004000",
    "lend=0000000000001000 0000000000001000 0000000000004000",
    "lend=00001000,00001000,00004000",
    "lend=00001000  00001000 00004000",
    "tags=00010010",
    "tags=00010011",
    "tags=00020000",
    "tags=80000000",
    "tags=ffffffff",
    "data=00100100",
    "data=00100101",
    "data=00200000",
    "data=ffffffff",
    "tag=0001000f 01",
    "tag=00010010 01",
    "tag=ffffffff 01",
    "byte=001000ff 01",
    "byte=00100100 01",
    "byte=ffffffff 01",
    "history=00002010",
    "history=00002011",
    "history=00003010",
    "history=00012010",
    "history=80000008",
    "history=ffffffff",
    "log=0000200f 0000000000000001",
    "log=00002010 0000000000000001",
    "log=00003000 0000000000000001",
    "log=80000000 0000000000000001",
    "log=ffffffff 0000000000000001",
    "log=00000000 00000001",
    "log=00000000 00000000000000001",
    "log=0000 0000000000000001",
    "log=00000000",
    "log=00000000 ",
    "list=00000fff d9201400",
    "list=00001000 d9201400",
    "list=00002000 d9201400",
    "list=ffffffff d9201400",
    "list=00000000 0000000091810420",
    "list=00000000",
    "run=00001000",
    "run=00001001",
    "run=00002000",
    "run=80000000",
    "run=ffffffff",
    "run=00000001 00000001",
    "run=0001",
    "x=1e 0000000000000001",
    "x=1f 0000000000000001",
    "x=20 0000000000000001",
    "x=ff 0000000000000001",
    "nzcv=100",
    "reach=ffffffffffffffff",
    "reach=0ffffffffffffffff",
    "reach=00000fff",
    "reach=05 0000000000001000",
    "reach=0000000000001000 00000010",
    "choose=10 0 0000",
    "choose=0 10 0000",
    "choose=0 0 10000",
    "stg=0 0000000000000000 0000000000000000 0000000000000000",
    "stg=4 0000000000000000 0000000000000000 0000000000000000",
    "stzg=5 0000000000000000 0000000000000000 0000000000000000",
    "st2g=9 0000000000000000 0000000000000000 0000000000000000",
    "stz2g=f 0000000000000000 0000000000000000 0000000000000000",
    "stgp=0 0000000000000000 0000000000000000 0000000000000000 0000000000000000",
    "stgp=4 0000000000000000 0000000000000000 0000000000000000 0000000000000000",
    "ldg=2 0000000000000000 0000000000000000 0000000000000000",
    "addg=1 0000000000000000 0000000000000000 0000000000000000 0000000000000000",
];

/// Lines of no kind.
const OF_NO_KIND: [&str; 58] = [
    " ",
    "\r",
    "\0",
    "\t",
    "=",
    "==",
    "0",
    " #",
    "\0#",
    "show=",
    "show=1",
    "Show",
    "sho",
    "shows",
    "back=",
    "back=0",
    "back=1",
    "back 1",
    "Back",
    "bac",
    "backs",
    "backward",
    "step",
    "history",
    "history=",
    "log=",
    "list=",
    "run",
    "run=",
    "reach",
    "reach=",
    "reachable=0000000000001000",
    "reached=00000000 00000000 0000000000000000",
    "ran=0 00000000",
    "play",
    "play=",
    "play 1",
    "Play=1",
    "plays=1",
    "playing=1",
    "played=00 00000001",
    "played=0a 00000000",
    "lend",
    "lend=",
    "lent=00000001 00000001 00000001",
    "lends=00000001 00000001 00000001",
    "fresh",
    "fresh=",
    "word",
    "word=",
    "mode=1",
    "base=0000000000001000",
    "granules=0004",
    "x0=0000000000000000",
    "sp=0000000000000000",
    "code=0",
    "bad=00000001",
    "\u{feff}show",
];

pub fn all() -> Vec<Vec<u8>> {
    let mut changed: Vec<Vec<u8>> = Vec::new();
    RIGHT.iter().for_each(|line| changed.extend(changes(line)));
    changed.extend(AT_LIMITS.iter().map(|line| line.as_bytes().to_vec()));
    changed.extend(OF_NO_KIND.iter().map(|line| line.as_bytes().to_vec()));
    let placed = changed.iter().enumerate();
    let mut scripts: Vec<Vec<u8>> = placed
        .map(|(number, line)| with_line(line, number))
        .collect();
    scripts.extend(unended());
    scripts.extend(whole_scripts());
    scripts
}

/// A right line in many wrong ways; a change may now and then be right again.
fn changes(line: &str) -> Vec<Vec<u8>> {
    let text = line.as_bytes();
    let mut list: Vec<Vec<u8>> = Vec::new();
    for more in ["0", " ", "\r", "\0", " 0"] {
        list.push([text, more.as_bytes()].concat());
    }
    for more in [" ", "\0"] {
        list.push([more.as_bytes(), text].concat());
    }
    list.push(line.to_uppercase().into_bytes());
    list.push(text[..text.len() - 1].to_vec());
    if let Some((key, values)) = line.split_once('=') {
        for text in [
            format!("{key}{values}"),
            format!("{key} ={values}"),
            format!("{key}= {values}"),
            format!("{key}=={values}"),
            format!("{key}=0{values}"),
            format!("{key}={}", &values[1..]),
            format!("{key}={}", values.to_uppercase()),
            format!("{key}={}", values.replacen(' ', "  ", 1)),
            format!("{key}={}", values.replacen(' ', "", 1)),
            format!("{key}={}", values.replacen(' ', "\t", 1)),
            format!("{key}=g{}", &values[1..]),
            format!("{key}=\0{}", &values[1..]),
            format!("{key}=+{}", &values[1..]),
            format!("{key}0={values}"),
        ] {
            list.push(text.into_bytes());
        }
    }
    list.retain(|changed| changed != text);
    list
}

/// A script with the line at its begin, in the middle or at its end.
fn with_line(line: &[u8], number: usize) -> Vec<u8> {
    let around = ["show", "", "# remark", "word=d9201400", "show"];
    let place = [0, 2, 5][number % 3];
    let (before, after) = around.split_at(place);
    let mut script = ended(before);
    script.extend_from_slice(line);
    script.push(b'\n');
    script.extend(ended(after));
    script
}

fn ended(lines: &[&str]) -> Vec<u8> {
    lines
        .iter()
        .flat_map(|line| [line.as_bytes(), b"\n"].concat())
        .collect()
}

/// Each kind of line as the last one, not ended.
fn unended() -> Vec<Vec<u8>> {
    let cut = |line: &&str| [b"show\n", line.as_bytes()].concat();
    RIGHT.iter().map(cut).collect()
}

fn whole_scripts() -> Vec<Vec<u8>> {
    let right = ended(&RIGHT);
    let with_end = |script: &[u8], end: &[u8]| [script, end].concat();
    vec![
        Vec::new(),
        b"\n".to_vec(),
        b"\n\n\n".to_vec(),
        b"#".to_vec(),
        b"# \0\r\xFF\x80\n".to_vec(),
        b"\0".to_vec(),
        b"\xFF\n".to_vec(),
        right.clone(),
        with_end(&right, b"\r"),
        with_end(&right, b"\0"),
        with_end(&right, b" "),
        with_end(&right, b"\0\n"),
        ended(&["show", "shwo", "show", "shwo"]),
        ended(&["play=1", "back", "word=d9201400", "play=2"]),
        ended(&["play=1", "back", "# remark", "run=00001001", "back"]),
        with_end(&ended(&["play=1", "back"]), b"back"),
        ended(&["show", "shwo", "fresh="]),
        with_end(b"shwo\n", b"show"),
        with_end(&ended(&RIGHT).repeat(20), b"access=2\nshow\n"),
        right
            .iter()
            .flat_map(|&byte| {
                if byte == b'\n' {
                    vec![b'\r', b'\n']
                } else {
                    vec![byte]
                }
            })
            .collect(),
        with_length(MOST_BYTES, b"show\n"),
        with_length(MOST_BYTES, b"show"),
        with_length(MOST_BYTES, b"shwo\n"),
        with_length(MOST_BYTES + 1, b"show\n"),
        with_length(MOST_BYTES + 1, b"shwo\n"),
        with_length(MOST_BYTES + 1, b"show"),
        with_length(MOST_BYTES + 4096, b"show\n"),
        with_length(2 * MOST_BYTES, b"show\n"),
        vec![b'\n'; MOST_BYTES],
        vec![b'\n'; MOST_BYTES + 1],
        vec![b'#'; MOST_BYTES],
        vec![b'#'; MOST_BYTES + 1],
        vec![0; MOST_BYTES + 1],
        [vec![b'\n'; MOST_BYTES - 1], vec![b'0']].concat(),
    ]
}

/// A remark, and then the end, in so many bytes.
fn with_length(length: usize, end: &[u8]) -> Vec<u8> {
    let mut script = vec![b'#'; length - end.len() - 1];
    script.push(b'\n');
    script.extend_from_slice(end);
    script
}

/// Right lines with one byte changed, put in or taken out.
pub fn with_wrong_byte(random: &mut Random) -> Vec<u8> {
    let lines: Vec<&str> = (0..6).map(|_| random.pick(&RIGHT)).collect();
    let mut script = ended(&lines);
    let place = random.below(script.len() as u64) as usize;
    let any = random.bits() as u8;
    let byte = random.pick(&[b' ', b'\n', b'=', b'0', b'a', b'A', b'#', b'\r', 0, any]);
    match random.below(3) {
        0 => script[place] = byte,
        1 => script.insert(place, byte),
        _ => drop(script.remove(place)),
    }
    script
}

#[cfg(test)]
mod tests {
    use super::*;
    use crate::script::{line, lines};

    #[test]
    fn the_right_lines_are_right() {
        for text in RIGHT {
            assert!(line(text.as_bytes()).is_some(), "{text}");
        }
    }

    #[test]
    fn every_kind_of_line_is_made_wrong_in_many_ways() {
        for text in RIGHT.iter().filter(|text| !text.starts_with('#')) {
            let changed = changes(text);
            let wrong = changed.iter().filter(|text| line(text).is_none());
            let least = if text.contains('=') { 15 } else { 8 };
            assert!(wrong.count() >= least, "{text}");
        }
    }

    #[test]
    fn the_limits_are_tried_on_both_sides() {
        for key in [
            "history", "log", "list", "run", "tags", "data", "tag", "byte", "reach", "play", "lend",
        ] {
            let of_key = |text: &&&str| text.split('=').next() == Some(key);
            let tried: Vec<_> = AT_LIMITS.iter().filter(of_key).collect();
            let right = tried.iter().filter(|text| line(text.as_bytes()).is_some());
            let right = right.count();
            assert!(right >= 1 && right < tried.len(), "{key}");
        }
    }

    #[test]
    fn most_scripts_are_bad() {
        let scripts = all();
        let bad = scripts
            .iter()
            .filter(|script| lines(script).is_err())
            .count();
        assert!(
            bad > 500 && bad < scripts.len(),
            "{bad} of {}",
            scripts.len()
        );
    }

    #[test]
    fn lengths_are_as_wanted() {
        assert_eq!(with_length(10, b"show\n"), b"####\nshow\n");
    }
}

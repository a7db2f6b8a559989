//! Files to be assembled: lines that are passed over, and lines that are
//! wrong, missing, not ended or one too many.

use super::written::Program;
use crate::generate::operands::{any_form, any_word};
use crate::generate::random::Random;
use crate::listing::spellings::Rewrite;
use crate::listing::writer::line_of;
use crate::session::{Session, SETTINGS};
use crate::sessions::changes::{byte_changed, byte_deleted, byte_inserted, GOOD};
use crate::sessions::drafts::{ended, lines, sound};
use crate::sessions::wrong_lines::WAYS;

/// Lines without their line feeds.
pub type Lines = Vec<Vec<u8>>;

pub fn joined(lines: &[Vec<u8>]) -> Vec<u8> {
    let lines = lines.iter();
    lines
        .flat_map(|line| [line, b"\n".as_slice()].concat())
        .collect()
}

/// The lines of a text whose lines are all ended.
pub fn split(text: &[u8]) -> Lines {
    let mut lines: Lines = text
        .split(|&byte| byte == b'\n')
        .map(<[u8]>::to_vec)
        .collect();
    assert_eq!(lines.pop(), Some(Vec::new()), "the last line is ended");
    lines
}

/// A session with any start and so many defined words.
pub fn session_of(random: &mut Random, words: Vec<u32>) -> Vec<u8> {
    let machine = sound(random).machine;
    ended(&lines(&Session { machine, words }))
}

pub fn any_words(random: &mut Random, count: usize) -> Vec<u32> {
    let word = |_| {
        let form = any_form(random);
        any_word(random, form)
    };
    (0..count).map(word).collect()
}

/// How many words there are in a session: often few, often the most.
pub fn count_of_words(random: &mut Random) -> usize {
    let any = random.below(257) as usize;
    random.pick(&[0, 1, 2, 3, 5, 8, 20, any, any, 254, 255, 256, 256])
}

/// The listing of a session whose words are all defined.
pub fn listing_of(session: &[u8]) -> Vec<u8> {
    let listing = Program::List.answer(session);
    listing.expect("a good session of defined words")
}

/// Any file without a line that is passed over.
fn any_file(random: &mut Random) -> Lines {
    let count = count_of_words(random);
    let words = any_words(random, count);
    split(&listing_of(&session_of(random, words)))
}

/// The file of the good session, with a line passed over here and there.
pub fn good_file() -> Vec<u8> {
    let mut lines = split(&listing_of(&ended(&GOOD)));
    lines.insert(0, b"// A file of every kind of line.".to_vec());
    lines.insert(5, Vec::new());
    lines.insert(12, b"//".to_vec());
    lines.insert(15, b"//stg x0, [x0], #16".to_vec());
    lines.push(b"// The end.".to_vec());
    joined(&lines)
}

/// A line that is passed over.
fn passed_over(random: &mut Random) -> Vec<u8> {
    let any = (0..random.below(60)).map(|_| random.bits() as u8);
    let any: Vec<u8> = any.filter(|&byte| byte != b'\n').collect();
    let texts: [&[u8]; 14] = [
        b"",
        b"",
        b"",
        b"//",
        b"// ",
        b"///",
        b"// text",
        b"//text\r",
        b"//\t\0\xFF",
        b"// stg x0, [x0], #16",
        b"//base=0000000000001000",
        b"//word=d9201400",
        b"// \xC3\xA4\xE2\x82\xAC",
        &[b"//".as_slice(), &any].concat(),
    ];
    texts[random.below(texts.len() as u64) as usize].to_vec()
}

/// Lines passed over before some of the lines, and behind the last.
fn with_passed_over(random: &mut Random, lines: Lines) -> Lines {
    let often = random.pick(&[1, 2, 8, 60]);
    let mut all = Vec::new();
    for line in lines.into_iter().map(Some).chain([None]) {
        while random.one_in(1 + often) {
            all.push(passed_over(random));
        }
        all.extend(line);
    }
    all
}

/// The same in a text whose lines are all ended.
pub fn commented_text(random: &mut Random, text: &[u8]) -> Vec<u8> {
    joined(&with_passed_over(random, split(text)))
}

/// A file that is right, with lines that are passed over anywhere.
pub fn commented(random: &mut Random) -> Vec<u8> {
    let lines = any_file(random);
    joined(&with_passed_over(random, lines))
}

/// So many lines of the good session's start.
pub fn first_settings(count: usize) -> Vec<u8> {
    ended(&GOOD[..count])
}

/// A listing line of any file in another spelling.
pub fn misspelled(random: &mut Random, rewrite: Rewrite) -> Vec<u8> {
    let wrong = loop {
        let form = any_form(random);
        let line = line_of(any_word(random, form)).expect("a defined word");
        let text = rewrite(&line);
        if text != line {
            break text.into_bytes();
        }
    };
    let lines = any_file(random);
    let place = SETTINGS.len() + random.below((lines.len() - SETTINGS.len()) as u64 + 1) as usize;
    let before = with_passed_over(random, lines[..place].to_vec());
    let behind = with_passed_over(random, lines[place..].to_vec());
    [joined(&before), wrong, joined(&behind)].concat()
}

/// A setting of any file wrong in one of the ways of sessions.
pub fn wrong_setting(random: &mut Random, way: usize) -> Vec<u8> {
    let way = &WAYS[way];
    let place = loop {
        let place = random.below(SETTINGS.len() as u64) as usize;
        if way.applies_to(&format!("{}=", SETTINGS[place])) {
            break place;
        }
    };
    let mut lines = any_file(random);
    let rest = lines.split_off(place + 1);
    let setting = lines.pop().expect("a setting");
    let setting = String::from_utf8(setting).expect("plain text");
    let wrong = way.with_wrong(&[setting], 0);
    let before = with_passed_over(random, lines);
    let behind = with_passed_over(random, rest);
    [joined(&before), wrong, joined(&behind)].concat()
}

/// Any file with one to three bytes changed, taken out or put in.
pub fn bytes_astray(random: &mut Random) -> Vec<u8> {
    let mut text = match random.below(2) {
        0 => good_file(),
        _ => commented(random),
    };
    for _ in 0..1 + random.below(3) {
        let place = random.below(text.len() as u64) as usize;
        text = match random.below(3) {
            0 => byte_changed(random, text, place),
            1 => byte_deleted(text, place),
            _ => byte_inserted(random, text, place),
        };
    }
    text
}

/// Any file with two lines swapped, a line doubled, or one dropped.
pub fn lines_astray(random: &mut Random) -> Vec<u8> {
    let lines = any_file(random);
    let mut lines = with_passed_over(random, lines);
    // Mostly one of the first, where the order counts.
    let count = lines.len() as u64;
    let most = random.pick(&[count, count.min(14)]);
    let (place, other) = (random.below(most) as usize, random.below(count) as usize);
    match random.below(3) {
        0 => lines.swap(place, other),
        1 => lines.insert(other, lines[place].clone()),
        _ => drop(lines.remove(place)),
    }
    joined(&lines)
}

pub fn cut_anywhere(random: &mut Random) -> Vec<u8> {
    let mut text = commented(random);
    text.truncate(random.below(text.len() as u64) as usize);
    text
}

/// Lines that may be taken for one that is passed over, or for one of a file.
pub const ODD: [&[u8]; 38] = [
    b"",
    b"//",
    b"// text",
    b"///",
    b"//\r",
    b"/",
    b"/ /",
    b"/\0/",
    b"/x",
    b"\\\\",
    b" ",
    b"\t",
    b"\r",
    b"\0",
    b"\x0B",
    b" //",
    b"\t// text",
    b" \r",
    b"\r//",
    b"\xEF\xBB\xBF//",
    b"#",
    b"# text",
    b"; text",
    b"@ text",
    b"/* text */",
    b"-- text",
    b"stg x0, [x0], #16 // text",
    b"stg x0, [x0], #16//",
    b"stg x0, [x0], #16\r",
    b"stg x0, [x0], #0x10",
    b"ldr x0, [x1]",
    b"start:",
    b".text",
    b"word=d9201400",
    b"base=0000000000001000",
    b"sp=0000000000000000",
    b"=",
    b"\xFF\xFE",
];

/// The places of the good file at which odd lines are put in: before its
/// first line, among its settings, around its listing lines, and at its end.
pub fn odd_places() -> [usize; 7] {
    let last = split(&good_file()).len();
    [0, 1, 7, 11, 14, last - 1, last]
}

/// The good file with an odd line before the line at a place.
pub fn with_odd(odd: &[u8], place: usize, is_ended: bool) -> Vec<u8> {
    let lines = split(&good_file());
    match is_ended {
        true => [
            joined(&lines[..place]),
            [odd, b"\n"].concat(),
            joined(&lines[place..]),
        ]
        .concat(),
        // All that is behind it is gone with its end.
        false => [joined(&lines[..place]), odd.to_vec()].concat(),
    }
}

/// What may stand behind the listing lines of a file.
pub const TAILS: [&[u8]; 22] = [
    b"",
    b"\n",
    b"\n\n\n",
    b"//\n",
    b"// text\n\n//\n",
    b"/",
    b"//",
    b"// text",
    b"\n\n// text",
    b"//\nx",
    b"/\n",
    b" //\n",
    b" ",
    b" \n",
    b"\r\n",
    b"\0",
    b"stg x0, [x0], #16\n",
    b"\nstg x0, [x0], #16\n//\n",
    b"stg x0, [x0], #16",
    b"stg x0, [x0], #1\n",
    b"word=d9201400\n",
    b"sp=0000000000000000\n",
];

/// A file of so many listing lines and something behind them.
pub fn with_tail(random: &mut Random, count: usize, tail: &[u8], plain: bool) -> Vec<u8> {
    let words = any_words(random, count.min(256));
    let mut lines = split(&listing_of(&session_of(random, words)));
    for _ in 256..count {
        let form = any_form(random);
        let line = line_of(any_word(random, form)).expect("a defined word");
        lines.push(line.trim_end().into());
    }
    if !plain {
        lines = with_passed_over(random, lines);
    }
    [joined(&lines), tail.to_vec()].concat()
}

#[cfg(test)]
mod tests {
    use super::*;
    use crate::assembly::written::Refusal;
    use crate::listing::spellings::ALL;

    fn refusal(file: &[u8]) -> Option<String> {
        let answer = Program::Assemble.answer(file);
        answer.err().map(|refusal: Refusal| refusal.name())
    }

    #[test]
    fn good_files_are_assembled() {
        let session = Program::Assemble.answer(&good_file());
        assert_eq!(session, Ok(ended(&GOOD)));
        let mut random = Random::new(1);
        for _ in 0..100 {
            assert_eq!(refusal(&commented(&mut random)), None);
        }
    }

    #[test]
    fn other_spellings_are_mostly_bad_lines() {
        let mut random = Random::new(1);
        let mut bad = |rewrite| {
            let mut refusals = (0..20).map(|_| refusal(&misspelled(&mut random, rewrite)));
            refusals.any(|name| name.is_some_and(|name| name.ends_with(": a listing line")))
        };
        let bad: Vec<bool> = ALL.iter().map(|(_, rewrite)| bad(*rewrite)).collect();
        // Some are mostly other lines, two lines, or a line and an empty one.
        assert!(bad.iter().filter(|&&bad| bad).count() > 80);
    }

    #[test]
    fn wrong_settings_are_named() {
        let mut random = Random::new(1);
        for (way, told) in WAYS.iter().enumerate() {
            let file = wrong_setting(&mut random, way);
            let passed_over = ["an empty line before it", "an empty line after it"];
            let wrong = !passed_over.contains(&told.name);
            assert_eq!(refusal(&file).is_some(), wrong, "{}", told.name);
        }
    }

    #[test]
    fn more_lines_than_there_may_be() {
        let mut random = Random::new(1);
        for plain in [true, false] {
            let mut of = |count| refusal(&with_tail(&mut random, count, b"// end\n", plain));
            assert_eq!(of(255), None);
            assert_eq!(of(256), None);
            assert_eq!(of(257).as_deref(), Some("wrong: the end"));
            assert_eq!(of(300).as_deref(), Some("wrong: the end"));
        }
    }
}

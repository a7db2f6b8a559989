//! Sessions cut short, with bytes changed, and with lines moved.

use super::drafts::{ended, lines, sound};
use crate::generate::random::Random;

/// A session of moderate length whose words are all accepted, with letters
/// among its digits where it can.
pub const GOOD: [&str; 17] = [
    "base=00000000000abcd0",
    "granules=000c",
    "access=1",
    "exclude=00ef",
    "seed=abcd",
    "x0=05000000000abcd0",
    "x1=0a000000000abce0",
    "x2=0123456789abcdef",
    "sp=00000000000abcf0",
    "word=d9201400",
    "word=9adf1022",
    "word=bac2003f",
    "word=d9600023",
    "word=69000be1",
    "word=d9e00821",
    "word=91850c42",
    "word=d93ff400",
];

pub fn good() -> Vec<u8> {
    ended(&GOOD)
}

/// The text of any sound session.
pub fn any_good(random: &mut Random) -> Vec<u8> {
    ended(&lines(&sound(random)))
}

/// Bytes that a loose reader might take for another.
fn interesting_byte(random: &mut Random) -> u8 {
    let any = random.bits() as u8;
    random.pick(&[
        b' ', b'\n', b'=', b'0', b'9', b'a', b'f', b'A', b'F', b'g', b'/', b':', b'`', b'\r',
        b'\t', b'#', 0, 0x80, 0xFF, any,
    ])
}

/// Another byte at a place; bit 5, which tells the cases of letters apart,
/// and bit 7 are flipped often.
pub fn byte_changed(random: &mut Random, mut text: Vec<u8>, place: usize) -> Vec<u8> {
    let old = text[place];
    let new = match random.below(4) {
        0 => old ^ 0x20,
        1 => old ^ 0x80,
        _ => interesting_byte(random),
    };
    text[place] = if new == old { old ^ 1 } else { new };
    text
}

pub fn byte_deleted(mut text: Vec<u8>, place: usize) -> Vec<u8> {
    text.remove(place);
    text
}

pub fn byte_inserted(random: &mut Random, mut text: Vec<u8>, place: usize) -> Vec<u8> {
    text.insert(place, interesting_byte(random));
    text
}

/// Any session with one to three bytes changed, taken out or put in.
pub fn bytes_astray(random: &mut Random) -> Vec<u8> {
    let mut text = any_good(random);
    for _ in 0..1 + random.below(3) {
        let place = random.below(text.len() as u64) as usize;
        text = match random.below(3) {
            0 => byte_changed(random, text, place),
            1 => byte_deleted(text, place),
            _ => byte_inserted(random, text, place),
        };
    }
    text
}

pub fn cut_anywhere(random: &mut Random) -> Vec<u8> {
    let mut text = any_good(random);
    text.truncate(random.below(text.len() as u64) as usize);
    text
}

pub fn lines_swapped(one: usize, other: usize) -> Vec<u8> {
    let mut lines = GOOD;
    lines.swap(one, other);
    ended(&lines)
}

pub fn line_doubled(place: usize) -> Vec<u8> {
    let mut lines = GOOD.to_vec();
    lines.insert(place, lines[place]);
    ended(&lines)
}

pub fn line_dropped(place: usize) -> Vec<u8> {
    let mut lines = GOOD.to_vec();
    lines.remove(place);
    ended(&lines)
}

/// Any session with two lines swapped, a line doubled, or one dropped.
pub fn lines_astray(random: &mut Random) -> Vec<u8> {
    let mut lines = lines(&sound(random));
    let count = lines.len() as u64;
    let place = random.below(count) as usize;
    match random.below(3) {
        0 => lines.swap(place, random.below(count) as usize),
        1 => lines.insert(random.below(count) as usize, lines[place].clone()),
        _ => drop(lines.remove(place)),
    }
    ended(&lines)
}

#[cfg(test)]
mod tests {
    use super::*;
    use crate::session::{answer, read, SETTINGS};

    #[test]
    fn the_good_session_is_answered() {
        let text = String::from_utf8(answer(&good())).expect("plain text");
        assert!(text.starts_with("done=0008\ncode=0\n"), "{text}");
    }

    #[test]
    fn a_changed_byte_is_another() {
        let mut random = Random::new(1);
        for place in (0..good().len()).cycle().take(2000) {
            assert_ne!(byte_changed(&mut random, good(), place), good());
        }
    }

    #[test]
    fn lines_in_another_order_are_wrong() {
        for place in 0..SETTINGS.len() {
            assert_eq!(read(&lines_swapped(place, place + 1)), Err(place + 1));
            assert_eq!(read(&line_doubled(place)), Err(place + 2));
            assert_eq!(read(&line_dropped(place)), Err(place + 1));
        }
        for place in SETTINGS.len()..GOOD.len() {
            assert!(read(&line_doubled(place)).is_ok());
            assert!(read(&line_dropped(place)).is_ok());
        }
    }
}

//! Inputs of many words, with something after the last line, of certain
//! lengths, and very long ones.

use super::changes::{good, GOOD};
use super::drafts::ended;
use super::wrong_lines::with_words;
use crate::generate::random::Random;
use crate::session::SETTINGS;

/// The bytes of the longest session.
pub const LONGEST: usize = 3732;
const MIB: usize = 1 << 20;

/// GOOD's settings with so many times this word.
fn with_word(word: &str, count: usize) -> Vec<u8> {
    let mut text = ended(&GOOD[..SETTINGS.len()]);
    text.extend(format!("word={word}\n").repeat(count).into_bytes());
    text
}

/// ADDG X0, X0, #16, #1: always accepted, so that the end is reached, and
/// how many of them were done shows in X0.
pub fn moving(count: usize) -> Vec<u8> {
    with_word("91810400", count)
}

/// The same with an undefined word for the last.
pub fn moving_to_undefined(count: usize) -> Vec<u8> {
    [moving(count - 1), b"word=91814400\n".to_vec()].concat()
}

/// What may stand after the last line.
pub const TAILS: [&[u8]; 25] = [
    b"\n",
    b"\n\n",
    b" ",
    b" \n",
    b"\t",
    b"\0",
    b"\0\n",
    b"\r",
    b"\r\n",
    b"\x04",
    b"\x1A",
    b"\xFF",
    b"#",
    b"# remark\n",
    b"w",
    b"word",
    b"word=",
    b"word=\n",
    b"word=9181040",
    b"word=91810400",
    b"word=9181040\n",
    b"word=9181040A\n",
    b"x0=0000000000000000\n",
    b"sp=0000000000000000\n",
    b"\nword=91810400\n",
];

pub fn with_tail(words: usize, tail: &[u8]) -> Vec<u8> {
    [moving(words), tail.to_vec()].concat()
}

/// Lengths at which a reader with a bounded buffer may go wrong: around the
/// longest session and around powers of two.
pub fn edge_lengths() -> Vec<usize> {
    let around = |length: usize| length - 2..=length + 2;
    let longest = LONGEST - 16..=LONGEST + 16;
    let powers = [1 << 10, 1 << 11, 1 << 12, 1 << 13, 1 << 14, 1 << 16];
    longest.chain(powers.into_iter().flat_map(around)).collect()
}

/// Inputs of exactly so many bytes.
pub const SHAPES: [fn(usize) -> Vec<u8>; 7] = [
    cut_words,
    long_last_line,
    long_first_word,
    tail_of_zeros,
    |length| vec![b'\n'; length],
    |length| vec![0; length],
    |length| vec![b'w'; length],
];

/// Words without end, cut.
fn cut_words(length: usize) -> Vec<u8> {
    let mut text = moving(length / 14 + 1);
    text.truncate(length);
    text
}

/// A few words, and then a line that fills the rest and is ended.
fn long_last_line(length: usize) -> Vec<u8> {
    let mut text = ended(&with_words(3));
    text.extend_from_slice(b"word=");
    text.resize(length - 1, b'0');
    text.push(b'\n');
    text
}

/// A first word as long as makes the length together with ten words after it.
fn long_first_word(length: usize) -> Vec<u8> {
    let after = b"word=91810400\n".repeat(10);
    let mut text = moving(0);
    text.extend_from_slice(b"word=");
    text.resize(length - after.len() - 1, b'0');
    text.push(b'\n');
    text.extend(after);
    text
}

/// As many words as there is room for, at most 256, and zeros up to the length.
fn tail_of_zeros(length: usize) -> Vec<u8> {
    let words = (length - moving(0).len()) / 14;
    let mut text = moving(words.min(256));
    text.resize(length, 0);
    text
}

/// Inputs of a MiB and more.
pub fn very_long() -> Vec<Vec<u8>> {
    let then = |begin: Vec<u8>, end: Vec<u8>| [begin, end].concat();
    let mut list = vec![
        moving(300_000),
        with_word("00000000", 300_000),
        then(moving(256), vec![b'\n'; 3 * MIB]),
        then(moving(256), vec![b'w'; 3 * MIB]),
        then(moving(256), vec![0; 3 * MIB]),
        then(moving(255), vec![0xFF; 3 * MIB]),
        then(moving(10), then(b"word=0\n".to_vec(), moving(200_000))),
        then(good(), good().repeat(8_000)),
        vec![b'\n'; 3 * MIB],
        vec![b'0'; 3 * MIB],
        vec![0; 3 * MIB],
        vec![0xFF; 3 * MIB],
    ];
    for place in 0..=SETTINGS.len() {
        let key = GOOD[place].split('=').next().expect("a key");
        let endless = format!("{key}={}", "0".repeat(MIB)).into_bytes();
        let begin = then(ended(&GOOD[..place]), endless);
        list.push(begin.clone());
        list.push(then(begin, then(b"\n".to_vec(), ended(&GOOD[place + 1..]))));
    }
    list
}

/// Some MiB of any bytes, from the start or after some lines of a session.
pub fn garbage(random: &mut Random) -> Vec<u8> {
    let place = random.pick(&[0, 0, 1, 5, 9, 10, 17]);
    let mut text = ended(&GOOD[..place]);
    for _ in 0..MIB / 8 {
        text.extend(random.bits().to_le_bytes());
    }
    text
}

#[cfg(test)]
mod tests {
    use super::*;
    use crate::session::read;

    #[test]
    fn lengths_are_as_wanted() {
        assert_eq!(moving(256).len(), LONGEST);
        for length in edge_lengths() {
            for shape in SHAPES {
                assert_eq!(shape(length).len(), length);
            }
        }
    }

    #[test]
    fn a_session_that_fills_its_bytes_is_right() {
        let right = |length: usize| {
            let shapes = SHAPES.iter();
            shapes.filter(|shape| read(&shape(length)).is_ok()).count()
        };
        assert_eq!(right(LONGEST), 2);
        assert_eq!(right(LONGEST - 14), 2);
        for length in [LONGEST - 1, LONGEST + 1, LONGEST + 2, LONGEST + 14] {
            assert_eq!(right(length), 0, "{length}");
        }
    }

    #[test]
    fn the_first_wrong_line_of_a_very_long_input() {
        let named: Vec<_> = very_long().iter().map(|text| read(text).err()).collect();
        let numbers = [266, 266, 266, 266, 266, 265, 20, 18, 1, 1, 1, 1];
        let endless = (1..=10).flat_map(|number| [number, number]);
        let expected: Vec<_> = numbers.into_iter().chain(endless).map(Some).collect();
        assert_eq!(named, expected);
    }
}

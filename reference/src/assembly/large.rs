//! Inputs of about the most bytes that there may be, of many more, and long
//! ones of fewer. Both programs get all of them.

use super::files::{good_file, listing_of};
use super::written::MOST_BYTES;
use crate::session::SETTINGS;
use crate::sessions::changes::GOOD;
use crate::sessions::drafts::ended;
use crate::sessions::lengths::moving;

/// A text of so many bytes: a beginning, an end, and between them other bytes
/// again and again. It is put together where it is tried.
#[derive(Clone)]
pub struct Large {
    shape: Shape,
    pub length: usize,
}

#[derive(Clone)]
struct Shape {
    begin: Vec<u8>,
    filling: Vec<u8>,
    end: Vec<u8>,
}

impl Large {
    pub fn text(&self) -> Vec<u8> {
        let Shape {
            begin,
            filling,
            end,
        } = &self.shape;
        let room = self.length - begin.len() - end.len();
        let filling = filling.repeat(room.div_ceil(filling.len()));
        [begin, &filling[..room], end].concat()
    }
}

fn shape(begin: &[u8], filling: &[u8], end: &[u8]) -> Shape {
    Shape {
        begin: begin.to_vec(),
        filling: filling.to_vec(),
        end: end.to_vec(),
    }
}

/// Files that are right, and files that are not.
fn files() -> [Shape; 9] {
    let good = good_file();
    let behind = |text: &[u8]| [good.as_slice(), text].concat();
    let (start, most) = (listing_of(&moving(0)), listing_of(&moving(256)));
    [
        shape(&good, b"\n", b""),
        shape(&behind(b"//"), b" ", b"\n"),
        shape(&behind(b"//"), b" ", b""),
        shape(&behind(b"x"), b" ", b"\n"),
        shape(b"", b"\n", &good),
        shape(b"//", b"/", &[b"\n", good.as_slice()].concat()),
        shape(&start, b"irg x0, x1, xzr\n", b"\n"),
        shape(&most, b"/", b""),
        shape(b"", b"\0", b""),
    ]
}

/// Texts that begin as a session, or end as one, or are wrong at once.
fn sessions() -> Vec<Shape> {
    let (none, most) = (moving(0), moving(256));
    let mut shapes = vec![
        shape(&most, b"\n", b""),
        shape(&most, b"w", b""),
        shape(&none, b"word=91810400\n", b""),
        shape(&none, b"word=00000000\n", b""),
        shape(&[&moving(255), b"word=".as_slice()].concat(), b"0", b"\n"),
        shape(&moving(255), b"\xFF", b""),
        shape(&[b"\n", most.as_slice()].concat(), b"\n", b""),
        shape(b"", b"\n", &most),
    ];
    shapes.extend((0..SETTINGS.len()).map(endless_setting));
    shapes
}

/// A setting with digits without end, or with an end and all that follows.
fn endless_setting(place: usize) -> Shape {
    let key = format!("{}=", SETTINGS[place]).into_bytes();
    let begin = [ended(&GOOD[..place]), key].concat();
    let end = match place % 2 {
        0 => Vec::new(),
        _ => [b"\n".to_vec(), ended(&GOOD[place + 1..])].concat(),
    };
    shape(&begin, b"0", &end)
}

fn of_lengths(shapes: &[Shape], lengths: impl IntoIterator<Item = usize>) -> Vec<Large> {
    let large = |length| {
        shapes
            .iter()
            .cloned()
            .map(move |shape| Large { shape, length })
    };
    lengths.into_iter().flat_map(large).collect()
}

/// A good file, the beginning of a good session, and what is neither.
fn few() -> [Shape; 3] {
    [
        shape(&good_file(), b"\n", b""),
        shape(&moving(256), b"\n", b""),
        shape(b"", b"x", b""),
    ]
}

pub fn inputs() -> Vec<Large> {
    let all = [files().as_slice(), &sessions()].concat();
    let good = good_file();
    let long = [
        shape(&[&good, b"//".as_slice()].concat(), b"\xFF", b"\n"),
        shape(&[&good, b"//".as_slice()].concat(), b"\0", b""),
        shape(&[&good, b"x".as_slice()].concat(), b"x", b"\n"),
        shape(b"base=", b"0", b"\n"),
        shape(&good, b"\n", b"stg x0, [x0]\n"),
        shape(&moving(256), b"w", b"\n"),
        shape(&moving(7), b"\0", b""),
    ];
    let others = [
        MOST_BYTES - 1,
        MOST_BYTES + 2,
        2 * MOST_BYTES,
        5 * MOST_BYTES / 2,
        3 * MOST_BYTES,
    ];
    [
        of_lengths(&all, [MOST_BYTES, MOST_BYTES + 1]),
        of_lengths(&few(), others),
        of_lengths(&long, [1 << 12, 1 << 16, 1 << 18]),
    ]
    .concat()
}

/// Inputs of the most bytes and of one more, whose last byte or end comes by
/// itself.
pub fn in_pieces() -> Vec<Large> {
    of_lengths(&few(), [MOST_BYTES, MOST_BYTES + 1])
}

#[cfg(test)]
mod tests {
    use super::*;
    use crate::assembly::written::Program::{self, Assemble, List};
    use std::collections::BTreeMap;

    #[test]
    fn texts_have_their_lengths() {
        for large in inputs().iter().chain(&in_pieces()) {
            assert_eq!(large.text().len(), large.length);
        }
    }

    fn refusals(program: Program, length: usize) -> BTreeMap<String, usize> {
        let mut refusals = BTreeMap::new();
        for large in inputs().iter().filter(|large| large.length == length) {
            let refusal = program.answer(&large.text()).err();
            let name = refusal.map_or("none".into(), |refusal| refusal.name());
            *refusals.entry(name).or_default() += 1;
        }
        refusals
    }

    #[test]
    fn one_byte_more_than_the_most_is_too_large() {
        let count = files().len() + sessions().len();
        let too_large = BTreeMap::from([("too large".to_string(), count)]);
        for program in [List, Assemble] {
            assert_eq!(refusals(program, MOST_BYTES + 1), too_large);
            let most = refusals(program, MOST_BYTES);
            assert!(!most.contains_key("too large"));
            for name in ["wrong: the end", "not ended: base", "wrong: granules"] {
                assert!(most.contains_key(name), "{name}");
            }
        }
        assert_eq!(refusals(Assemble, MOST_BYTES)["none"], 4);
    }
}

//! A memory of which a part is lent to the writer, beside what it must hold
//! after each call, every byte of it.

use super::writer::line_of;
use super::Library;
use crate::code::Code;

/// The bytes on either side of the lent part, which no call may write.
const BESIDE: usize = 40;

/// What a call answers: its code, and the place after it.
#[derive(Clone, Copy, Debug, PartialEq)]
pub struct Listed {
    pub code: Code,
    pub next: usize,
}

/// What a call in so much room answers, and the line that it writes at the
/// place before it. An undefined word is judged first.
pub fn listed(room: usize, at: usize, word: u32) -> (Listed, String) {
    let refused = |code| (Listed { code, next: at }, String::new());
    match line_of(word) {
        None => refused(Code::Undefined),
        Some(line) if line.len() > room.saturating_sub(at) => refused(Code::NoRoom),
        Some(line) => {
            let next = at + line.len();
            let code = Code::Done;
            (Listed { code, next }, line)
        }
    }
}

pub struct Desk {
    library: Library,
    room: usize,
    memory: Vec<u8>,
    expected: Vec<u8>,
}

impl Desk {
    /// No byte of a line is 128 or more, as all are that lie here at first.
    pub fn new(library: Library, room: usize) -> Desk {
        let bytes = 0..room + 2 * BESIDE;
        let memory: Vec<u8> = bytes.map(|place| 128 | (37 * place + room) as u8).collect();
        Desk {
            library,
            room,
            expected: memory.clone(),
            memory,
        }
    }

    /// Lists a word at a place, and compares the answer and the whole memory.
    pub fn list(&mut self, at: usize, word: u32) -> Result<Listed, String> {
        let room = self.room;
        let (listed, line) = listed(room, at, word);
        if listed.code == Code::Done {
            let begin = BESIDE + at;
            self.expected[begin..begin + line.len()].copy_from_slice(line.as_bytes());
        }
        let lent = BESIDE..BESIDE + room;
        let (code, next) = (self.library.list)(&mut self.memory, lent, at, word);
        let told = (listed.code as u32, listed.next as u64);
        if (code, next) == told && self.memory == self.expected {
            return Ok(listed);
        }
        Err(format!(
            "word {word:#010x} at place {at} of {room} bytes: reference code {}, place {}, library code {code}, place {next}{}",
            told.0,
            told.1,
            self.difference()
        ))
    }

    /// The bytes that are lent.
    pub fn text(&self) -> &[u8] {
        &self.memory[BESIDE..BESIDE + self.room]
    }

    /// Where the memory differs, if it does.
    fn difference(&self) -> String {
        let mut both = self.expected.iter().zip(&self.memory);
        let Some(first) = both.position(|(one, other)| one != other) else {
            return String::new();
        };
        let shown = |memory: &[u8]| {
            let end = memory.len().min(first + 32);
            memory[first..end].escape_ascii().to_string()
        };
        let from = first as i64 - BESIDE as i64;
        format!(
            "\nfrom byte {from} on\n  reference: {}\n  library:   {}",
            shown(&self.expected),
            shown(&self.memory)
        )
    }
}

#[cfg(test)]
mod tests {
    use super::*;
    use crate::listing::tests::right;

    const STG: u32 = 0xD920_1400;
    const LENGTH: usize = 18;

    #[test]
    fn codes_and_places() {
        let answer = |room, at, word| {
            let (listed, _) = listed(room, at, word);
            (listed.code as u32, listed.next)
        };
        assert_eq!(answer(LENGTH, 0, STG), (0, LENGTH));
        assert_eq!(answer(100, 3, STG), (0, LENGTH + 3));
        assert_eq!(answer(LENGTH - 1, 0, STG), (10, 0));
        assert_eq!(answer(LENGTH, 1, STG), (10, 1));
        assert_eq!(answer(0, 0, STG), (10, 0));
        assert_eq!(answer(LENGTH, usize::MAX, STG), (10, usize::MAX));
        assert_eq!(answer(100, 0, 0), (2, 0));
        assert_eq!(answer(0, 7, 0), (2, 7));
    }

    #[test]
    fn the_line_stands_in_its_place_alone() {
        let mut desk = Desk::new(right(), 30);
        let before = desk.memory.clone();
        let listed = desk.list(5, STG);
        assert_eq!(listed.map(|listed| listed.next), Ok(5 + LENGTH));
        let text = desk.text();
        assert_eq!(&text[5..5 + LENGTH], b"stg x0, [x0], #16\n");
        assert_eq!(text[..5], before[BESIDE..BESIDE + 5]);
        assert_eq!(desk.memory[BESIDE + 23..], before[BESIDE + 23..]);
    }

    #[test]
    fn a_byte_written_beside_the_lent_part_is_found() {
        let mut library = right();
        library.list = |memory, lent, at, word| {
            let answer = (right().list)(memory, lent.clone(), at, word);
            memory[lent.end] = 0;
            answer
        };
        let text = Desk::new(library, 30).list(0, STG).unwrap_err();
        assert!(
            text.starts_with("word 0xd9201400 at place 0 of 30 bytes: reference code 0, place 18, library code 0, place 18\nfrom byte 30 on\n  reference: \\x"),
            "{text}"
        );
    }
}

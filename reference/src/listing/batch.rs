//! Calls of one kind, compared one after another and counted by what they
//! are a case of.

use super::desk::{Desk, Listed};
use super::reader::word_of;
use super::writer::line_of;
use super::Library;
use crate::code::Code;
use crate::encoder::fields;
use crate::tally::Tally;
use crate::words::{form_of, Form};

/// Words by their form, listed in a roomy buffer and read back.
pub const LISTED: &str = "listed and read back";
/// The fields of the forms, with how often that value was met that was met
/// least often.
pub const VALUES: &str = "least often a value of";
/// Calls with an undefined word, by the room and the place.
pub const UNDEFINED: &str = "undefined in";
/// Calls with a defined word, by the room that is left at the place.
pub const ROOM: &str = "room left";
/// The same by the form and the length of the line.
pub const LENGTH: &str = "rooms for";
/// Calls in a row, by how they ended and what came before.
pub const ENDED: &str = "in a row";
/// Rows, by what became of them.
pub const ROWS: &str = "rows";
/// Texts that are no line, by their kind.
pub const REFUSED: &str = "refused";
/// Texts that are a line, by their kind.
pub const READ: &str = "read";

/// More than any line takes.
const ROOMY: usize = 64;

/// A call of the writer in a memory of its own.
#[derive(Clone, Copy, Debug)]
pub struct Call {
    pub room: usize,
    pub at: usize,
    pub word: u32,
}

/// Calls in a row: each is made at the place that the last one left.
#[derive(Debug)]
pub struct Row {
    pub room: usize,
    pub at: usize,
    pub words: Vec<u32>,
}

/// A text to be read: the beginning of a memory, so that what lies behind it
/// is known.
#[derive(Debug)]
pub struct Text {
    pub memory: Vec<u8>,
    pub length: usize,
}

impl Text {
    /// A line feed lies behind the text.
    pub fn of(text: Vec<u8>) -> Text {
        let length = text.len();
        let mut memory = text;
        memory.push(b'\n');
        Text { memory, length }
    }

    /// The beginning of a text, whose rest lies behind it.
    pub fn cut(text: &str, length: usize) -> Text {
        Text {
            memory: text.into(),
            length,
        }
    }

    pub fn text(&self) -> &[u8] {
        &self.memory[..self.length]
    }
}

pub enum Batch {
    Words(Vec<u32>),
    Calls(Vec<Call>),
    Rows(Vec<Row>),
    Texts(Vec<Text>),
}

impl Batch {
    pub fn compare(&self, library: Library, kind: &str) -> Result<Tally, String> {
        let mut tally = Tally::default();
        match self {
            Batch::Words(words) => compare_words(library, words, &mut tally)?,
            Batch::Calls(calls) => {
                for call in calls {
                    let listed = Desk::new(library, call.room).list(call.at, call.word)?;
                    count_call(&mut tally, call, listed);
                }
            }
            Batch::Rows(rows) => {
                for row in rows {
                    compare_row(library, row, &mut tally)?;
                }
            }
            Batch::Texts(texts) => {
                for text in texts {
                    let group = match compare_text(library, text)? {
                        Some(_) => READ,
                        None => REFUSED,
                    };
                    tally.count_case(group, kind);
                }
            }
        }
        Ok(tally)
    }
}

/// Lists each word at place 0, and reads back what was listed.
fn compare_words(library: Library, words: &[u32], tally: &mut Tally) -> Result<(), String> {
    for &word in words {
        let mut desk = Desk::new(library, ROOMY);
        let Listed { code, next } = desk.list(0, word)?;
        assert_eq!(code, Code::Done, "a defined word has room");
        let line = Text::of(desk.text()[..next].to_vec());
        let read = compare_text(library, &line)?;
        assert_eq!(read, Some(word), "a line reads back to its word");
    }
    if let Some(form) = words.first().and_then(|&word| form_of(word)) {
        tally.count_cases(LISTED, form.name, words.len() as u64);
        count_values(tally, form, words);
    }
    Ok(())
}

/// The name of a form's field, which has the number from 1 in its order.
pub fn field_name(form: &Form, number: usize) -> String {
    let field = fields(form.instruction)[number - 1];
    format!("{}, field {number}, {:?}", form.name, field.kind)
}

fn count_values(tally: &mut Tally, form: &Form, words: &[u32]) {
    for (number, field) in (1..).zip(fields(form.instruction)) {
        let (ones, lowest) = (
            field.ones_in_place(),
            field.ones_in_place().trailing_zeros(),
        );
        let mut counts = vec![0; 1 << field.bits];
        for &word in words {
            counts[((word & ones) >> lowest) as usize] += 1;
        }
        let least = counts.into_iter().min().unwrap_or(0);
        tally.count_cases(VALUES, &field_name(form, number), least);
    }
}

fn count_call(tally: &mut Tally, call: &Call, listed: Listed) {
    let &Call { room, at, word } = call;
    let Some((line, form)) = line_of(word).zip(form_of(word)) else {
        tally.count_case(UNDEFINED, where_undefined(room, at));
        return;
    };
    let left = room.saturating_sub(at);
    let name = match line.len() {
        _ if at == usize::MAX => "the last place there is",
        _ if at > room => "a place beyond the buffer",
        _ if left == 0 => "none",
        length if left == length => "exactly",
        length if left + 1 == length => "one too few",
        length if left == length + 1 => "one more",
        length if left < length => "too few",
        _ => "plenty",
    };
    let right = listed.code == Code::Done;
    assert_eq!(right, left >= line.len(), "the room decides");
    tally.count_case(ROOM, name);
    tally.count_case(LENGTH, &length_name(form.name, line.len()));
}

pub fn length_name(form: &str, length: usize) -> String {
    format!("{form}, {length} bytes")
}

fn where_undefined(room: usize, at: usize) -> &'static str {
    match room.saturating_sub(at) {
        _ if at == usize::MAX => "the last place there is",
        _ if at > room => "a place beyond the buffer",
        0 => "no room",
        1..30 => "little room",
        _ => "plenty of room",
    }
}

/// Lists the words of a row, and reads back every line that was listed.
fn compare_row(library: Library, row: &Row, tally: &mut Tally) -> Result<(), String> {
    let mut desk = Desk::new(library, row.room);
    let mut at = row.at;
    let mut done = Vec::new();
    let mut before = None;
    for (number, &word) in row.words.iter().enumerate() {
        let in_row = |error| format!("call {} of a row: {error}", number + 1);
        let listed = desk.list(at, word).map_err(in_row)?;
        if listed.code == Code::Done {
            done.push((at..listed.next, word));
        }
        at = listed.next;
        tally.count_case(ENDED, &ended_name(listed.code, before));
        before = Some(listed.code);
    }
    for (place, word) in &done {
        let line = Text::of(desk.text()[place.clone()].to_vec());
        let read = compare_text(library, &line)?;
        assert_eq!(read, Some(*word), "a line reads back to its word");
    }
    tally.count_case(ROWS, "all");
    tally.count_cases(ROWS, "lines read back", done.len() as u64);
    if at == row.room && !done.is_empty() {
        tally.count_case(ROWS, "filled to the last byte");
    }
    if at == row.at {
        tally.count_case(ROWS, "left empty");
    }
    Ok(())
}

/// How a call ended, after another or as the first.
pub fn ended_name(code: Code, before: Option<Code>) -> String {
    match before {
        Some(before) => format!("{code:?} after {before:?}"),
        None => format!("{code:?} first"),
    }
}

/// What a text is read to.
fn compare_text(library: Library, text: &Text) -> Result<Option<u32>, String> {
    let word = word_of(text.text());
    let told = match word {
        Some(word) => (Code::Done as u32, word),
        None => (Code::BadLine as u32, 0),
    };
    let answered = (library.read)(&text.memory, text.length);
    if answered == told {
        return Ok(word);
    }
    Err(format!(
        "a text of {} bytes: reference code {}, word {:08x}, library code {}, word {:08x}\n  {}",
        text.length,
        told.0,
        told.1,
        answered.0,
        answered.1,
        shown(text.text())
    ))
}

/// Of a long text the end is left out.
fn shown(text: &[u8]) -> String {
    match text.get(..400) {
        Some(begin) => format!("{} ...", begin.escape_ascii()),
        None => text.escape_ascii().to_string(),
    }
}

//! Words listed in a row in one buffer until it is full, and on.

use super::batch::Row;
use super::desk::listed;
use super::sample::{near, of_each_length};
use super::writer::line_of;
use crate::code::Code;
use crate::generate::operands::{any_form, any_word};
use crate::generate::random::Random;
use crate::words::FORMS;

/// Rows of one batch.
const ROWS: usize = 250;
/// A row goes on so long after the first word that has no room.
const AFTER_FULL: usize = 8;
/// No row has more words.
const MOST_WORDS: usize = 120;

/// What the words of a row are taken from.
struct Stock {
    /// Defined words by the length of their lines, from none on.
    by_length: Vec<Vec<u32>>,
    undefined: Vec<u32>,
}

pub fn rows(random: &mut Random) -> Vec<Row> {
    let stock = Stock::new(random);
    (0..ROWS).map(|_| row(random, &stock)).collect()
}

impl Stock {
    fn new(random: &mut Random) -> Stock {
        let mut by_length = vec![Vec::new(); 40];
        for form in &FORMS {
            for word in of_each_length(random, form, 2) {
                by_length[length(word)].push(word);
            }
        }
        let form = any_form(random);
        let undefined = near(random, form);
        Stock {
            by_length,
            undefined,
        }
    }

    /// A word whose line is just so long, if there is one.
    fn just(&self, random: &mut Random, length: usize) -> Option<u32> {
        let words = self.by_length.get(length)?;
        (!words.is_empty()).then(|| random.pick(words))
    }
}

fn length(word: u32) -> usize {
    line_of(word).map_or(0, |line| line.len())
}

/// One buffer, of a size at which the lines go up just so, or of any.
fn row(random: &mut Random, stock: &Stock) -> Row {
    let room = match random.below(8) {
        0 => random.below(20) as usize,
        1 => 1000 + random.below(2000) as usize,
        _ => random.below(400) as usize,
    };
    let start = match random.below(6) {
        0 => random.below(room as u64 + 2) as usize,
        1 if random.one_in(4) => usize::MAX - random.below(30) as usize,
        _ => 0,
    };
    let mut words = Vec::new();
    let (mut at, mut refused) = (start, 0);
    while words.len() < MOST_WORDS && refused < AFTER_FULL {
        let word = next_word(random, stock, room.saturating_sub(at));
        let (listed, _) = listed(room, at, word);
        refused += usize::from(listed.code == Code::NoRoom);
        at = listed.next;
        words.push(word);
    }
    Row {
        room,
        at: start,
        words,
    }
}

/// A word that often just fits, or is just too long, where little is left.
fn next_word(random: &mut Random, stock: &Stock, left: usize) -> u32 {
    let wanted = match random.below(6) {
        0 => return random.pick(&stock.undefined),
        1 | 2 => stock.just(random, left),
        3 => stock.just(random, left + 1),
        _ => None,
    };
    wanted.unwrap_or_else(|| {
        let form = any_form(random);
        any_word(random, form)
    })
}

//! Random lists of steps, runs and steps back from an empty history, with no
//! setup between them.

use super::author::{Author, Script};
use super::chosen_words::{accepted, refused, words_of_run, Refused};
use super::random::Random;
use super::walks::{setup, some_addresses};

/// Lists in a script.
const LISTS: usize = 100;
pub const SLOTS: [u64; 5] = [0, 1, 2, 3, 7];

pub const GROUP: &str = "random lists";

pub fn lists(random: &mut Random) -> Script {
    let mut author = Author::default();
    (0..LISTS).for_each(|_| list(&mut author, random));
    author.finish()
}

fn list(author: &mut Author, random: &mut Random) {
    let granules = random.pick(&[0, 1, 1, 2, 2, 2, 3, 3, 3, 4, 4, 5, 5, 6, 7, 8]);
    setup(author, random, granules);
    some_addresses(author, random);
    let slots = random.pick(&SLOTS);
    empty_history(author, random, slots);
    let all_shown = random.one_in(3);
    author.line(&format!("dump={}", u8::from(all_shown)));
    // Some lists go back often, some seldom.
    let back_in_8 = random.pick(&[1, 2, 3, 4]);
    for _ in 0..8 + random.below(20) {
        if random.below(8) < back_in_8 {
            author.back();
            if !all_shown {
                author.show();
            }
        } else if random.one_in(4) {
            run(author, random);
        } else {
            step(author, random);
        }
    }
    if !all_shown {
        author.show();
    }
    author.case(GROUP, &format!("C = {slots}"));
}

/// Nothing is held, whatever the words hold and wherever the next slot is.
fn empty_history(author: &mut Author, random: &mut Random, slots: u64) {
    let words = 8 * slots + random.below(8);
    author.history(words);
    if words > 0 && random.one_in(2) {
        for _ in 0..3 {
            author.log(random.below(words), random.bits());
        }
        author.log(words - 1, random.bits());
    }
    if slots > 0 {
        author.cursor(random.below(slots), 0);
    }
}

fn step(author: &mut Author, random: &mut Random) {
    let machine = author.machine();
    let word = match random.below(6) {
        0 => Some(refused(random, machine)),
        _ => accepted(random, machine),
    };
    if let Some(word) = word {
        author.word(word);
    }
}

fn run(author: &mut Author, random: &mut Random) {
    let count = random.pick(&[0, 1, 1, 2, 3, 4, 5, 6, 8, 12]);
    let refusal = match random.below(5) {
        0 => Refused::At(0),
        1 => Refused::At(count / 2),
        2 => Refused::At(count.saturating_sub(1)),
        _ => Refused::Nowhere,
    };
    let words = words_of_run(random, author.machine(), count, refusal);
    author.run(&words);
}

#[cfg(test)]
mod tests {
    use super::*;
    use crate::code::Code;

    #[test]
    fn lists_are_held_to_the_plain_machine() {
        let tally = lists(&mut Random::new(1)).played.tally;
        assert_eq!(tally.beside.lists, LISTS as u64);
        assert!(tally.beside.calls > 10 * LISTS as u64);
        for code in [Code::Done, Code::NoHistory] {
            assert!(tally.steps_back(code) > LISTS as u64, "{code:?}");
        }
        assert_eq!(tally.steps_back(Code::BadRecord), 0);
        for code in [Code::Done, Code::Undefined, Code::Outside] {
            assert!(tally.runs(code) > 10, "{code:?}");
        }
    }
}

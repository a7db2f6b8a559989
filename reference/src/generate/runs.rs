//! Runs of every length, with the refused word first, in the middle, last or
//! nowhere, and what can be taken back of them.

use super::author::{Author, Script};
use super::chosen_words::{words_of_run, Refused};
use super::random::Random;
use super::walks::{setup, some_addresses};
use crate::script::{MOST_HISTORY, MOST_LISTED};

/// Slots of the longest history that a script can lend.
const MOST_SLOTS: u64 = MOST_HISTORY as u64 / 8;

fn refusals(count: usize) -> [Refused; 4] {
    [
        Refused::At(0),
        Refused::At(count / 2),
        Refused::At(count.saturating_sub(1)),
        Refused::Nowhere,
    ]
}

/// Runs of few words, each on its own machine and then again as it was left.
pub fn short(random: &mut Random) -> Script {
    let mut author = Author::default();
    for slots in [0, 1, 2, 3, 7] {
        for count in [0, 1, 2, 3, 4, 5, 7, 8, 15, 16, 17, 64] {
            for refusal in refusals(count) {
                begin(&mut author, random, slots);
                author.line("dump=1");
                for _ in 0..2 {
                    let words = words_of_run(random, author.machine(), count, refusal);
                    author.run(&words);
                }
                (0..slots + 1).for_each(|_| author.back());
            }
        }
    }
    author.finish()
}

/// The longest run, taken back as far as the history goes, and once more.
pub fn longest(random: &mut Random) -> Script {
    let mut author = Author::default();
    for (slots, refusal) in [0, 7, MOST_SLOTS, 512]
        .into_iter()
        .zip(refusals(MOST_LISTED))
    {
        begin(&mut author, random, slots);
        author.line("dump=0");
        let words = words_of_run(random, author.machine(), MOST_LISTED, refusal);
        author.run(&words);
        author.show();
        (0..slots.min(5) + 1).for_each(|_| author.back());
        author.show();
        (0..slots).for_each(|_| author.back());
        author.show();
    }
    // All the words are done, with the longest history too.
    begin(&mut author, random, MOST_SLOTS);
    let words = words_of_run(random, author.machine(), MOST_LISTED, Refused::Nowhere);
    author.run(&words);
    (0..MOST_SLOTS + 1).for_each(|_| author.back());
    author.show();
    author.finish()
}

fn begin(author: &mut Author, random: &mut Random, slots: u64) {
    let granules = random.pick(&[1, 2, 3, 4, 5]);
    setup(author, random, granules);
    some_addresses(author, random);
    author.history((8 * slots + random.below(8)).min(MOST_HISTORY as u64));
    if slots > 0 {
        author.cursor(random.below(slots), 0);
    }
}

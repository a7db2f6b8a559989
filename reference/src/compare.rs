//! Comparisons of the reference with another answer, case by case.

use std::fmt;
use std::ops::Range;
use std::thread;

use crate::tag_choice::front_end_answer;
use crate::words::word_code;

/// A case on which the two disagree.
#[derive(Debug, PartialEq)]
pub struct Difference {
    pub case: String,
    pub reference: u32,
    pub library: u32,
}

impl fmt::Display for Difference {
    fn fmt(&self, out: &mut fmt::Formatter) -> fmt::Result {
        write!(
            out,
            "{}: reference {}, library {}",
            self.case, self.reference, self.library
        )
    }
}

/// Starts and offsets beyond 17; some would be a tag again if cut to 4, 8 or 16 bits.
const LARGE_NUMBERS: [u32; 7] = [
    0xFF,
    0x100,
    0x103,
    0x1_0000,
    0x1_0003,
    0x8000_0002,
    0xFFFF_FFFF,
];

/// Masks beyond 16 bits; cut to 16 bits they would be any kind of mask.
const LARGE_MASKS: [u32; 10] = [
    0x1_0000,
    0x1_0001,
    0x1_0008,
    0x1_FFFE,
    0x1_FFFF,
    0x2_0000,
    0x8000_0000,
    0x8000_0004,
    0xFFFF_0000,
    0xFFFF_FFFF,
];

fn starts_or_offsets() -> impl Iterator<Item = u32> {
    (0..=17).chain(LARGE_NUMBERS)
}

fn masks() -> impl Iterator<Item = u32> {
    (0..=0xFFFF).chain(LARGE_MASKS)
}

/// Compares the tag choice on its whole domain and some way beyond each of
/// its bounds. Gives the number of cases.
pub fn tag_choice(library: impl Fn(u32, u32, u32) -> u32) -> Result<u64, Difference> {
    let mut cases = 0;
    for start in starts_or_offsets() {
        for offset in starts_or_offsets() {
            cases += tag_choice_on_all_masks(start, offset, &library)?;
        }
    }
    Ok(cases)
}

fn tag_choice_on_all_masks(
    start: u32,
    offset: u32,
    library: impl Fn(u32, u32, u32) -> u32,
) -> Result<u64, Difference> {
    let mut cases = 0;
    for mask in masks() {
        let expected = front_end_answer(start, offset, mask);
        let answered = library(start, offset, mask);
        if expected != answered {
            return Err(Difference {
                case: format!("tag choice: start {start}, offset {offset}, mask {mask:#06x}"),
                reference: expected,
                library: answered,
            });
        }
        cases += 1;
    }
    Ok(cases)
}

/// Compares the code of every word in the range, which ends at 2^32 at most,
/// shared out over threads. Gives the number of words the reference calls
/// defined. Of several differences the one with the lowest word is given.
pub fn word_codes(
    words: Range<u64>,
    threads: u64,
    library: impl Fn(u32) -> u32 + Sync,
) -> Result<u64, Difference> {
    let library = &library;
    thread::scope(|scope| {
        let shares: Vec<_> = (0..threads)
            .map(|number| share(&words, number, threads))
            .map(|share| scope.spawn(move || word_codes_of_one_thread(share, library)))
            .collect();
        let results = shares.into_iter().map(|share| share.join());
        results
            .map(|result| result.expect("a comparing thread has ended early"))
            .sum()
    })
}

/// The part of a range that falls to one thread, counted from 0.
fn share(words: &Range<u64>, number: u64, threads: u64) -> Range<u64> {
    let bound = |number| words.start + (words.end - words.start) * number / threads;
    bound(number)..bound(number + 1)
}

fn word_codes_of_one_thread(
    words: Range<u64>,
    library: impl Fn(u32) -> u32,
) -> Result<u64, Difference> {
    let mut defined = 0;
    for word in words {
        let word = word as u32;
        let expected = word_code(word);
        let answered = library(word);
        if expected != answered {
            return Err(Difference {
                case: format!("word code: word {word:#010x}"),
                reference: expected,
                library: answered,
            });
        }
        defined += u64::from(expected == 0);
    }
    Ok(defined)
}

#[cfg(test)]
mod tests {
    use super::*;

    #[test]
    fn one_wrong_tag_is_found() {
        let wrong = |start, offset, mask| match (start, offset, mask) {
            (0, 2, 0xFFFE) => 1,
            _ => front_end_answer(start, offset, mask),
        };
        let text = tag_choice(wrong).unwrap_err().to_string();
        assert_eq!(
            text,
            "tag choice: start 0, offset 2, mask 0xfffe: reference 0, library 1"
        );
    }

    #[test]
    fn masks_beyond_16_bits_are_compared() {
        let wrong = |start, offset, mask| front_end_answer(start, offset, mask & 0xFFFF);
        let text = tag_choice(wrong).unwrap_err().to_string();
        assert_eq!(
            text,
            "tag choice: start 0, offset 0, mask 0x10000: reference 16, library 0"
        );
    }

    #[test]
    fn equal_words_are_counted() {
        // From 16 words before LDG on, 32 words: only LDG's own 16 are defined.
        assert_eq!(word_codes(0xD95F_FFF0..0xD960_0010, 2, word_code), Ok(16));
    }

    #[test]
    fn the_lowest_wrong_word_is_found_among_the_threads() {
        let wrong = |word| match word {
            0x9180_4020 | 0x9180_4030 => 0,
            _ => word_code(word),
        };
        let text = word_codes(0x9180_4000..0x9180_4040, 3, wrong)
            .unwrap_err()
            .to_string();
        assert_eq!(text, "word code: word 0x91804020: reference 2, library 0");
    }

    #[test]
    fn shares_cover_the_range_without_a_gap() {
        for threads in 1..=7 {
            let shares: Vec<_> = (0..threads)
                .map(|number| share(&(5..1 << 32), number, threads))
                .collect();
            assert_eq!(shares[0].start, 5);
            assert!(shares.windows(2).all(|pair| pair[0].end == pair[1].start));
            assert_eq!(shares.last().map(|share| share.end), Some(1 << 32));
        }
    }
}

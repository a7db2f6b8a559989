//! Calls of the writer with more or less room, and at places of every kind.

use super::batch::Call;
use super::sample::of_each_length;
use super::writer::line_of;
use crate::generate::random::Random;
use crate::words::Form;

/// Words of each shape and length that are tried in every room.
const OF_EACH_LENGTH: usize = 4;
/// Places with bytes before them that must stay.
const PLACES: [usize; 4] = [0, 1, 18, 77];

/// Every room from none to one more than the line takes, at several places,
/// and places beyond the buffer, the last of all too.
pub fn rooms(random: &mut Random, form: &Form) -> Vec<Call> {
    let words = of_each_length(random, form, OF_EACH_LENGTH);
    words.into_iter().flat_map(rooms_for).collect()
}

fn rooms_for(word: u32) -> Vec<Call> {
    let length = line_of(word).expect("a defined word").len();
    let mut calls = Vec::new();
    for at in PLACES {
        for left in (0..=length + 1).chain([length + 50]) {
            let room = at + left;
            calls.push(Call { room, at, word });
        }
    }
    for room in [0, 1, length - 1, length, length + 1, 80] {
        for at in beyond(room, length) {
            calls.push(Call { room, at, word });
        }
    }
    calls
}

/// Places beyond a buffer. Some would be in it if they were cut to fewer
/// bits, or if a sum with the length wrapped.
fn beyond(room: usize, length: usize) -> [usize; 14] {
    [
        room + 1,
        room + 2,
        room + length,
        1 << 16,
        1 << 31,
        1 << 32,
        (1 << 32) + 1,
        1 << 63,
        (1 << 63) + 1,
        usize::MAX - length,
        usize::MAX - length + 1,
        usize::MAX - room,
        usize::MAX - 1,
        usize::MAX,
    ]
}

/// Each word with room and without, at places of every kind.
pub fn undefined(words: &[u32]) -> Vec<Call> {
    let places = [
        (80, 0),
        (80, 41),
        (0, 0),
        (20, 7),
        (80, 80),
        (80, 81),
        (0, 1 << 32),
        (80, usize::MAX),
    ];
    let calls = words
        .iter()
        .flat_map(|&word| places.map(|(room, at)| Call { room, at, word }));
    calls.collect()
}

#[cfg(test)]
mod tests {
    use super::*;

    #[test]
    fn places_beyond_a_buffer_are() {
        for room in [0, 1, 30, 80] {
            for length in 13..=30 {
                assert!(beyond(room, length).iter().all(|&at| at > room));
            }
        }
    }

    #[test]
    fn every_room_is_tried() {
        let calls = rooms_for(0xD920_1400);
        for left in 0..=19 {
            let tried = |call: &&Call| call.room.checked_sub(call.at) == Some(left);
            assert!(calls.iter().filter(tried).count() >= 4, "{left}");
        }
    }
}

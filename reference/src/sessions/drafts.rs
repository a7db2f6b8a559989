//! Sessions that are right, with operands and words biased to the edges.

use crate::code::Code;
use crate::generate::chosen_words::{code, refused, words_of_run, Refused};
use crate::generate::operands::{address, any_form, any_word, base, mask, pointer};
use crate::generate::random::Random;
use crate::machine::{Machine, SP};
use crate::session::Session;

const TOP: u64 = 1 << 56;
/// How many refused words are looked at for one of a wanted code.
const TRIES: usize = 200;

/// The lines of a session, without their line feeds.
pub fn lines(session: &Session) -> Vec<String> {
    let machine = &session.machine;
    let mut lines = vec![
        format!("base={:016x}", machine.base),
        format!("granules={:04x}", machine.tags.len()),
        format!("access={}", u8::from(machine.access)),
        format!("exclude={:04x}", machine.exclude),
        format!("seed={:04x}", machine.seed),
    ];
    lines.extend((0..3).map(|number| format!("x{number}={:016x}", machine.x[number])));
    lines.push(format!("sp={:016x}", machine.sp));
    let words = session.words.iter();
    lines.extend(words.map(|word| format!("word={word:08x}")));
    lines
}

/// Lines as bytes, each ended by a line feed.
pub fn ended(lines: &[impl AsRef<str>]) -> Vec<u8> {
    let ends = lines.iter().map(|line| format!("{}\n", line.as_ref()));
    ends.collect::<String>().into_bytes()
}

/// Any session whose base is sound.
pub fn sound(random: &mut Random) -> Session {
    let mut machine = machine(random);
    let words = match random.below(6) {
        0 => any_words(random, 16),
        1 | 2 => accepted_words(random, &machine),
        _ => words_refused_somewhere(random, &mut machine),
    };
    Session { machine, words }
}

/// A session whose base breaks a rule; else its words might well be accepted.
pub fn broken(random: &mut Random) -> Session {
    let mut session = sound(random);
    let granules = session.machine.tags.len() as u64;
    session.machine.base = broken_base(random, granules);
    session
}

fn machine(random: &mut Random) -> Machine {
    let granules = random.pick(&[
        0, 1, 1, 2, 2, 3, 4, 4, 4, 5, 6, 8, 17, 64, 1022, 1023, 1024, 1024,
    ]);
    let mut machine = Machine {
        access: !random.one_in(3),
        exclude: mask(random),
        seed: random.bits() as u16,
        tags: vec![0; granules],
        data: vec![0; 16 * granules],
        ..Machine::fresh(base(random, granules as u64))
    };
    for number in [0, 1, 2, SP] {
        let value = match random.below(6) {
            0 => pointer(random, &machine),
            1 => address(random, &machine, 2),
            _ => address(random, &machine, 1),
        };
        machine.set_register_or_sp(number, value);
    }
    machine
}

fn broken_base(random: &mut Random, granules: u64) -> u64 {
    let size = 16 * granules;
    match random.below(6) {
        0 => base(random, granules) | random.pick(&[1, 2, 4, 8, 15]),
        1 => TOP - size + 16,
        2 => TOP + 16 * u64::from(granules == 0),
        3 => 16_u64.wrapping_neg(),
        // The end wraps to 0.
        4 => size.max(16).wrapping_neg(),
        _ => (random.bits() | TOP << 1) & !15,
    }
}

fn count_of_words(random: &mut Random) -> usize {
    let any = random.below(257) as usize;
    random.pick(&[0, 0, 1, 1, 2, 2, 3, 4, 5, 8, 16, 40, any, 255, 256, 256])
}

/// Words of any forms with any fields.
fn any_words(random: &mut Random, count: usize) -> Vec<u32> {
    let word = |_| {
        let form = any_form(random);
        any_word(random, form)
    };
    (0..count).map(word).collect()
}

fn accepted_words(random: &mut Random, machine: &Machine) -> Vec<u32> {
    let count = count_of_words(random);
    words_of_run(random, machine, count, Refused::Nowhere)
}

/// Accepted words, then a refused one, then words that must not be run. A
/// register is put off its granule where that makes the wanted code likely.
fn words_refused_somewhere(random: &mut Random, machine: &mut Machine) -> Vec<u32> {
    let wanted = random.pick(&[Code::Undefined, Code::SpAlign, Code::Align, Code::Outside]);
    let off = random.pick(&[1, 2, 4, 8]);
    match wanted {
        Code::SpAlign => machine.sp |= off,
        Code::Align => machine.x[random.below(3) as usize] |= off,
        _ => {}
    }
    let count = count_of_words(random).max(1);
    let place = random.pick(&[0, count / 2, count - 1]);
    let mut words = words_of_run(random, machine, place, Refused::Nowhere);
    let mut machine = machine.clone();
    for &word in &words {
        machine.carry_out(word);
    }
    words.push(refused_with(random, &machine, wanted));
    words.extend(any_words(random, count - words.len()));
    words
}

/// A refused word, with the wanted code if one is found.
fn refused_with(random: &mut Random, machine: &Machine, wanted: Code) -> u32 {
    let mut tries = (0..TRIES).map(|_| refused(random, machine));
    let found = tries.find(|&word| code(machine, word) == wanted);
    found.unwrap_or_else(|| refused(random, machine))
}

#[cfg(test)]
mod tests {
    use super::*;
    use crate::session::read;

    #[test]
    fn the_lines_say_what_the_session_is() {
        let mut random = Random::new(1);
        for _ in 0..200 {
            for session in [sound(&mut random), broken(&mut random)] {
                assert_eq!(read(&ended(&lines(&session))), Ok(session));
            }
        }
    }

    #[test]
    fn bases_are_sound_or_broken_as_wanted() {
        let mut random = Random::new(1);
        for _ in 0..200 {
            assert!(sound(&mut random).machine.well_formed());
            assert!(!broken(&mut random).machine.well_formed());
        }
    }
}

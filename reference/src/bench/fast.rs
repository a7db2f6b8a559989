//! The machine of document 01 in the fastest plain shape: changed in place,
//! one match on the top bits of each word, records written where they stay.
//! It shares nothing with the machine that the comparisons use.

pub const DONE: u8 = 0;
pub const SETUP: u8 = 1;
pub const UNDEFINED: u8 = 2;
pub const SPALIGN: u8 = 3;
pub const ALIGN: u8 = 4;
pub const OUTSIDE: u8 = 5;
pub const NOHISTORY: u8 = 6;
pub const BADRECORD: u8 = 7;

pub type Granule = [u64; 2];
pub type Slot = [u64; 8];

const SP: usize = 31;
const NO_REGISTER: u64 = 32;
const LOCATION: u64 = (1 << 56) - 1;
const TAG: u64 = 15 << 56;

pub struct Machine {
    /// The last one is SP.
    pub x: [u64; 32],
    pub nzcv: u8,
    pub rgsr_tag: u8,
    pub seed: u16,
    pub exclude: u16,
    pub access: bool,
    pub base: u64,
    pub next: usize,
    pub held: usize,
    pub tags: Vec<u8>,
    /// Data bytes, eight to a number, the first one lowest.
    pub data: Vec<Granule>,
    pub history: Vec<Slot>,
}

/// A call of a list.
#[derive(Clone, Copy, Debug, PartialEq)]
pub enum Call {
    Back,
    Step,
    /// Of so many words.
    Run(usize),
}

const POST: u32 = 1;
const OFFSET: u32 = 2;
const PRE: u32 = 3;

impl Machine {
    fn well_formed(&self) -> bool {
        let granules = self.tags.len();
        let slots = self.history.len();
        granules <= 65_536
            && self.data.len() == granules
            && self.base & 15 == 0
            && self.base <= 1 << 56
            && self.base + 16 * granules as u64 <= 1 << 56
            && self.nzcv <= 15
            && self.rgsr_tag <= 15
            && (self.next < slots || slots == 0 && self.next == 0)
            && self.held <= slots
    }

    /// The code and how many words were done.
    pub fn run(&mut self, words: &[u32]) -> (u8, u64) {
        if !self.well_formed() {
            return (SETUP, 0);
        }
        if self.history.is_empty() {
            self.run_words::<false>(words)
        } else {
            self.run_words::<true>(words)
        }
    }

    #[inline(never)]
    fn run_words<const RECORDS: bool>(&mut self, words: &[u32]) -> (u8, u64) {
        for (done, &word) in words.iter().enumerate() {
            let code = self.take::<RECORDS>(word);
            if code != DONE {
                return (code, done as u64);
            }
        }
        (DONE, words.len() as u64)
    }

    pub fn step(&mut self, word: u32) -> u8 {
        if !self.well_formed() {
            return SETUP;
        }
        if self.history.is_empty() {
            self.take::<false>(word)
        } else {
            self.take::<true>(word)
        }
    }

    /// Makes the calls of a list, which take its words in order, and gives
    /// each one's code and each run's count; for other calls a count of 0.
    /// No call breaks the setup, so it is checked once.
    pub fn play(&mut self, calls: &[Call], words: &[u32], codes: &mut [u8], counts: &mut [u64]) {
        assert!(codes.len() == calls.len() && counts.len() == calls.len());
        if !self.well_formed() {
            codes.fill(SETUP);
            counts.fill(0);
        } else if self.history.is_empty() {
            self.play_calls::<false>(calls, words, codes, counts);
        } else {
            self.play_calls::<true>(calls, words, codes, counts);
        }
    }

    #[inline(never)]
    fn play_calls<const RECORDS: bool>(
        &mut self,
        calls: &[Call],
        words: &[u32],
        codes: &mut [u8],
        counts: &mut [u64],
    ) {
        let mut at = 0;
        for (call, answer) in calls.iter().zip(codes.iter_mut().zip(counts)) {
            let (code, count) = match *call {
                Call::Back => (self.take_back(), 0),
                Call::Step => {
                    let word = words[at];
                    at += 1;
                    (self.take::<RECORDS>(word), 0)
                }
                Call::Run(length) => {
                    let run = &words[at..][..length];
                    at += length;
                    self.run_words::<RECORDS>(run)
                }
            };
            (*answer.0, *answer.1) = (code, count);
        }
    }

    #[inline(always)]
    fn take<const RECORDS: bool>(&mut self, word: u32) -> u8 {
        match word >> 21 {
            0x48C | 0x48D if word & 0xC000 == 0 => self.addg::<RECORDS>(word, amount_6(word)),
            0x68C | 0x68D if word & 0xC000 == 0 => {
                self.addg::<RECORDS>(word, amount_6(word).wrapping_neg())
            }
            0x4D6 => match word >> 10 & 63 {
                0 => self.subp::<RECORDS, false>(word),
                4 => self.irg::<RECORDS>(word),
                5 => self.gmi::<RECORDS>(word),
                _ => UNDEFINED,
            },
            0x5D6 if word >> 10 & 63 == 0 => self.subp::<RECORDS, true>(word),
            0x6C9 => self.tag_store::<RECORDS, false, false>(word),
            0x6CB if word >> 10 & 3 == 0 => self.ldg::<RECORDS>(word),
            0x6CB => self.tag_store::<RECORDS, false, true>(word),
            0x6CD => self.tag_store::<RECORDS, true, false>(word),
            0x6CF => self.tag_store::<RECORDS, true, true>(word),
            0x344 | 0x345 => self.stgp::<RECORDS, POST>(word),
            0x34C | 0x34D => self.stgp::<RECORDS, PRE>(word),
            0x348 | 0x349 => self.stgp::<RECORDS, OFFSET>(word),
            _ => UNDEFINED,
        }
    }

    /// The first word is word 0 without NZCV and RGSR.
    #[inline(always)]
    fn record(&mut self, low: u64, old_value: u64, index: u64, data: [u64; 4]) {
        let flags = u64::from(self.nzcv) << 32
            | u64::from(self.rgsr_tag) << 36
            | u64::from(self.seed) << 40;
        let slots = self.history.len();
        self.history[self.next] = [
            low | flags,
            old_value,
            index,
            data[0],
            data[1],
            data[2],
            data[3],
            0,
        ];
        let next = self.next + 1;
        self.next = if next == slots { 0 } else { next };
        self.held += usize::from(self.held < slots);
    }

    #[inline(always)]
    fn record_register<const RECORDS: bool>(&mut self, number: usize) {
        if RECORDS {
            self.record(number as u64, self.x[number], 0, [0; 4]);
        }
    }

    /// Register 31 is the zero register.
    #[inline(always)]
    fn record_register_or_none<const RECORDS: bool>(&mut self, number: usize) {
        if RECORDS {
            if number == 31 {
                self.record(NO_REGISTER, 0, 0, [0; 4]);
            } else {
                self.record(number as u64, self.x[number], 0, [0; 4]);
            }
        }
    }

    #[inline(always)]
    fn register_or_zero(&self, number: usize) -> u64 {
        if number == 31 {
            0
        } else {
            self.x[number]
        }
    }

    #[inline(always)]
    fn set_register_or_drop(&mut self, number: usize, value: u64) {
        if number != 31 {
            self.x[number] = value;
        }
    }

    #[inline(always)]
    fn addg<const RECORDS: bool>(&mut self, word: u32, amount: u64) -> u8 {
        let pointer = self.x[rn(word)];
        let tag = if self.access {
            choose(tag_of(pointer), word >> 10 & 15, self.exclude)
        } else {
            0
        };
        self.record_register::<RECORDS>(rd(word));
        self.x[rd(word)] = with_tag(pointer.wrapping_add(amount), tag);
        DONE
    }

    #[inline(always)]
    fn subp<const RECORDS: bool, const FLAGS: bool>(&mut self, word: u32) -> u8 {
        let one = (self.x[rn(word)] << 8) as i64 >> 8;
        let other = (self.x[rm(word)] << 8) as i64 >> 8;
        self.record_register_or_none::<RECORDS>(rd(word));
        let difference = one.wrapping_sub(other);
        if FLAGS {
            let n = difference < 0;
            let z = difference == 0;
            let c = one as u64 >= other as u64;
            let v = (one ^ other) & (one ^ difference) < 0;
            self.nzcv = u8::from(n) << 3 | u8::from(z) << 2 | u8::from(c) << 1 | u8::from(v);
        }
        self.set_register_or_drop(rd(word), difference as u64);
        DONE
    }

    #[inline(always)]
    fn irg<const RECORDS: bool>(&mut self, word: u32) -> u8 {
        let pointer = self.x[rn(word)];
        let mask = self.exclude | self.register_or_zero(rm(word)) as u16;
        self.record_register::<RECORDS>(rd(word));
        let tag = if self.access {
            // The bits that move in from above are not reached by four draws.
            let seed = self.seed;
            let bits = (seed >> 5 ^ seed >> 3 ^ seed >> 2 ^ seed) & 15;
            self.seed = seed >> 4 | bits << 12;
            let tag = choose(u32::from(self.rgsr_tag), u32::from(bits), mask);
            self.rgsr_tag = tag as u8;
            tag
        } else {
            0
        };
        self.x[rd(word)] = with_tag(pointer, tag);
        DONE
    }

    #[inline(always)]
    fn gmi<const RECORDS: bool>(&mut self, word: u32) -> u8 {
        let mask = self.register_or_zero(rm(word)) | 1 << tag_of(self.x[rn(word)]);
        self.record_register_or_none::<RECORDS>(rd(word));
        self.set_register_or_drop(rd(word), mask);
        DONE
    }

    /// The place that a location would have in the memory.
    #[inline(always)]
    fn granule(&self, address: u64) -> usize {
        ((address & LOCATION).wrapping_sub(self.base) >> 4) as usize
    }

    #[inline(always)]
    fn ldg<const RECORDS: bool>(&mut self, word: u32) -> u8 {
        let pointer = self.x[rn(word)];
        if rn(word) == SP && pointer & 15 != 0 {
            return SPALIGN;
        }
        let granule = self.granule(pointer.wrapping_add(amount_9(word)));
        let Some(&tag) = self.tags.get(granule) else {
            return OUTSIDE;
        };
        let tag = if self.access { u32::from(tag) & 15 } else { 0 };
        self.record_register_or_none::<RECORDS>(rd(word));
        let value = with_tag(self.register_or_zero(rd(word)), tag);
        self.set_register_or_drop(rd(word), value);
        DONE
    }

    /// STG, STZG, ST2G and STZ2G.
    #[inline(always)]
    fn tag_store<const RECORDS: bool, const PAIR: bool, const ZERO: bool>(
        &mut self,
        word: u32,
    ) -> u8 {
        let mode = word >> 10 & 3;
        if mode == 0 {
            return UNDEFINED;
        }
        let unmoved = self.x[rn(word)];
        let moved = unmoved.wrapping_add(amount_9(word));
        let address = if mode == POST { unmoved } else { moved };
        if address & 15 != 0 {
            return misaligned(word);
        }
        let granule = self.granule(address);
        let count = if PAIR { 2 } else { 1 };
        let tag = tag_of(self.x[rd(word)]) as u8;
        // Only a granule inside is in these ranges; it does not wrap, as
        // `granule` is at most 2^60.
        let Some(tags) = self.tags.get_mut(granule..granule + count) else {
            return OUTSIDE;
        };
        let old_tags = if PAIR {
            u64::from(tags[0]) << 16 | u64::from(tags[1]) << 24
        } else {
            u64::from(tags[0]) << 16
        };
        if self.access {
            tags.fill(tag);
        }
        let mut old_data = [0; 4];
        if ZERO {
            let data = &mut self.data[granule..granule + count];
            [old_data[0], old_data[1]] = data[0];
            data[0] = [0; 2];
            if PAIR {
                [old_data[2], old_data[3]] = data[1];
                data[1] = [0; 2];
            }
        }
        if RECORDS {
            let (register, old_value) = if mode == OFFSET {
                (NO_REGISTER, 0)
            } else {
                (rn(word) as u64, unmoved)
            };
            let shape = (count as u64) << 8 | u64::from(ZERO) << 10;
            self.record(
                register | shape | old_tags,
                old_value,
                granule as u64,
                old_data,
            );
        }
        self.x[rn(word)] = if mode == OFFSET { unmoved } else { moved };
        DONE
    }

    #[inline(always)]
    fn stgp<const RECORDS: bool, const MODE: u32>(&mut self, word: u32) -> u8 {
        let unmoved = self.x[rn(word)];
        let moved = unmoved.wrapping_add(amount_7(word));
        let address = if MODE == POST { unmoved } else { moved };
        if address & 15 != 0 {
            return misaligned(word);
        }
        let granule = self.granule(address);
        let one = self.register_or_zero(rd(word));
        let other = self.register_or_zero(rt2(word));
        let Some(tag) = self.tags.get_mut(granule) else {
            return OUTSIDE;
        };
        let old_tag = u64::from(*tag);
        if self.access {
            *tag = tag_of(address) as u8;
        }
        let data = &mut self.data[granule];
        let old_data = *data;
        *data = [one, other];
        if RECORDS {
            let (register, old_value) = if MODE == OFFSET {
                (NO_REGISTER, 0)
            } else {
                (rn(word) as u64, unmoved)
            };
            let low = register | 1 << 8 | 1 << 10 | old_tag << 16;
            let old_data = [old_data[0], old_data[1], 0, 0];
            self.record(low, old_value, granule as u64, old_data);
        }
        if MODE != OFFSET {
            self.x[rn(word)] = moved;
        }
        DONE
    }

    #[inline(always)]
    fn take_back(&mut self) -> u8 {
        if self.held == 0 {
            return NOHISTORY;
        }
        let slot = if self.next == 0 {
            self.history.len() - 1
        } else {
            self.next - 1
        };
        let words = &self.history[slot];
        let low = words[0];
        let register = low & 63;
        let data_saved = low & 1 << 10 != 0;
        let first = words[2] as usize;
        if register > NO_REGISTER
            || low & 0xFF00_0000_0000_F8C0 != 0
            || register == NO_REGISTER && words[1] != 0
            || words[7] != 0
        {
            return BADRECORD;
        }
        match low >> 8 & 3 {
            0 => {
                let others = words[2] | words[3] | words[4] | words[5] | words[6];
                if low & 0xFFFF_0400 != 0 || others != 0 {
                    return BADRECORD;
                }
            }
            1 => {
                let unsaved = if data_saved { 0 } else { words[3] | words[4] };
                if low & 0xFF00_0000 != 0 || unsaved | words[5] | words[6] != 0 {
                    return BADRECORD;
                }
                let Some(tag) = self.tags.get_mut(first) else {
                    return BADRECORD;
                };
                *tag = (low >> 16) as u8;
                if data_saved {
                    self.data[first] = [words[3], words[4]];
                }
            }
            2 => {
                let data = words[3] | words[4] | words[5] | words[6];
                if !data_saved && data != 0 || first >= self.tags.len().saturating_sub(1) {
                    return BADRECORD;
                }
                let tags = &mut self.tags[first..first + 2];
                tags[0] = (low >> 16) as u8;
                tags[1] = (low >> 24) as u8;
                if data_saved {
                    let data = &mut self.data[first..first + 2];
                    data[0] = [words[3], words[4]];
                    data[1] = [words[5], words[6]];
                }
            }
            _ => return BADRECORD,
        }
        if register != NO_REGISTER {
            self.x[register as usize & 31] = words[1];
        }
        self.nzcv = (low >> 32 & 15) as u8;
        self.rgsr_tag = (low >> 36 & 15) as u8;
        self.seed = (low >> 40) as u16;
        self.next = slot;
        self.held -= 1;
        DONE
    }
}

/// Amounts are whole granules, so SP is as misaligned as the address.
#[inline(always)]
fn misaligned(word: u32) -> u8 {
    if rn(word) == SP {
        SPALIGN
    } else {
        ALIGN
    }
}

#[inline(always)]
fn rd(word: u32) -> usize {
    (word & 31) as usize
}

#[inline(always)]
fn rn(word: u32) -> usize {
    (word >> 5 & 31) as usize
}

#[inline(always)]
fn rt2(word: u32) -> usize {
    (word >> 10 & 31) as usize
}

#[inline(always)]
fn rm(word: u32) -> usize {
    (word >> 16 & 31) as usize
}

#[inline(always)]
fn amount_6(word: u32) -> u64 {
    u64::from(word >> 16 & 63) << 4
}

/// The nine bits from bit 12 on with their sign, times 16.
#[inline(always)]
fn amount_9(word: u32) -> u64 {
    i64::from((word << 11) as i32 >> 23 << 4) as u64
}

/// The seven bits from bit 15 on with their sign, times 16.
#[inline(always)]
fn amount_7(word: u32) -> u64 {
    i64::from((word << 10) as i32 >> 25 << 4) as u64
}

#[inline(always)]
fn tag_of(pointer: u64) -> u32 {
    (pointer >> 56) as u32 & 15
}

#[inline(always)]
fn with_tag(pointer: u64, tag: u32) -> u64 {
    pointer & !TAG | u64::from(tag) << 56
}

#[inline(always)]
fn choose(start: u32, offset: u32, mask: u16) -> u32 {
    if mask == 0 {
        return (start + offset) & 15;
    }
    choose_among(start, offset, !mask)
}

/// The admitted tags as a circle that begins at the start tag.
fn choose_among(start: u32, offset: u32, admitted: u16) -> u32 {
    if admitted == 0 {
        return 0;
    }
    let circle = admitted.rotate_right(start);
    let skipped = u32::from(circle & 1 == 0 && offset > 0);
    let mut left = circle;
    for _ in 0..offset - skipped {
        left &= left - 1;
        if left == 0 {
            left = circle;
        }
    }
    (start + left.trailing_zeros()) & 15
}

#[cfg(test)]
mod tests {
    use super::*;
    use crate::generate::chosen_words::{accepted, refused};
    use crate::generate::operands::{address, any_form, any_word, base, mask};
    use crate::generate::random::Random;
    use crate::machine;
    use crate::recorded::Recorded;

    fn any_recorded(random: &mut Random) -> Recorded {
        let granules = random.pick(&[0, 1, 2, 3, 4, 5, 64]);
        let slots = random.pick(&[0, 1, 2, 3, 7]);
        let mut machine = machine::Machine::fresh(base(random, granules));
        machine.access = !random.one_in(4);
        machine.exclude = mask(random);
        machine.nzcv = random.below(16) as u8;
        machine.rgsr_tag = random.below(16) as u8;
        machine.seed = random.bits() as u16;
        machine.tags = (0..granules).map(|_| random.bits() as u8).collect();
        machine.data = (0..16 * granules).map(|_| random.bits() as u8).collect();
        for number in 0..32 {
            let value = match random.below(8) {
                0 => random.bits(),
                _ => address(random, &machine, 1),
            };
            machine.set_register_or_sp(number, value);
        }
        let (next, held) = match slots {
            0 => (0, 0),
            _ => (random.below(slots), random.below(slots + 1)),
        };
        Recorded {
            machine,
            history: (0..8 * slots).map(|_| history_word(random)).collect(),
            next,
            held,
        }
    }

    /// Words that now and then make up a well-formed record.
    fn history_word(random: &mut Random) -> u64 {
        match random.below(8) {
            0 => random.below(64),
            1 => random.bits(),
            2 => random.below(64) | random.below(4) << 8,
            _ => 0,
        }
    }

    fn fast(recorded: &Recorded) -> Machine {
        let machine = &recorded.machine;
        let numbers = |bytes: &[u8]| -> Vec<u64> {
            let (eights, _) = bytes.as_chunks::<8>();
            eights
                .iter()
                .map(|&eight| u64::from_le_bytes(eight))
                .collect()
        };
        Machine {
            x: std::array::from_fn(|number| machine.register_or_sp(number as u64)),
            nzcv: machine.nzcv,
            rgsr_tag: machine.rgsr_tag,
            seed: machine.seed,
            exclude: machine.exclude,
            access: machine.access,
            base: machine.base,
            next: recorded.next as usize,
            held: recorded.held as usize,
            tags: machine.tags.clone(),
            data: numbers(&machine.data).as_chunks().0.to_vec(),
            history: recorded.history.as_chunks().0.to_vec(),
        }
    }

    fn assert_same(recorded: &Recorded, fast_one: &Machine) {
        let same = fast(recorded);
        assert_eq!(fast_one.x, same.x);
        assert_eq!(
            (fast_one.nzcv, fast_one.rgsr_tag, fast_one.seed),
            (same.nzcv, same.rgsr_tag, same.seed)
        );
        assert_eq!(fast_one.tags, same.tags);
        assert_eq!(fast_one.data, same.data);
        assert_eq!(fast_one.history, same.history);
        assert_eq!((fast_one.next, fast_one.held), (same.next, same.held));
    }

    /// Steps back, by a list of one call.
    fn step_back(machine: &mut Machine) -> u8 {
        let (mut code, mut count) = ([9], [9]);
        machine.play(&[Call::Back], &[], &mut code, &mut count);
        assert_eq!(count, [0]);
        code[0]
    }

    fn any_word_on(random: &mut Random, recorded: &Recorded) -> u32 {
        let form = any_form(random);
        let word = match random.below(6) {
            0 => Some(refused(random, &recorded.machine)),
            1 => Some(any_word(random, form) ^ 1 << random.below(32)),
            2 => Some(any_word(random, form)),
            _ => accepted(random, &recorded.machine),
        };
        word.unwrap_or_else(|| any_word(random, form))
    }

    /// A call, the words that it takes, and what the machine of the
    /// comparisons answers.
    fn any_call(random: &mut Random, recorded: &mut Recorded) -> (Call, Vec<u32>, (u8, u64)) {
        if random.one_in(4) {
            return (Call::Back, vec![], (recorded.step_back() as u8, 0));
        }
        let word = any_word_on(random, recorded);
        if random.one_in(2) {
            return (Call::Step, vec![word], (recorded.step(word) as u8, 0));
        }
        let words = vec![word; random.below(4) as usize];
        let (code, done) = recorded.run(&words);
        (Call::Run(words.len()), words, (code as u8, done))
    }

    #[test]
    fn the_loop_does_what_the_machine_of_the_comparisons_does() {
        let mut random = Random::new(1);
        let mut seen = [0; 8];
        for _ in 0..3000 {
            let mut recorded = any_recorded(&mut random);
            let mut machine = fast(&recorded);
            let mut player = fast(&recorded);
            let (mut calls, mut list_words, mut answers) = (vec![], vec![], vec![]);
            for _ in 0..20 {
                let (call, words, answer) = any_call(&mut random, &mut recorded);
                let own = match call {
                    Call::Back => (step_back(&mut machine), 0),
                    Call::Step => (machine.step(words[0]), 0),
                    Call::Run(_) => machine.run(&words),
                };
                assert_eq!(own, answer, "{call:?} {words:x?}");
                assert_same(&recorded, &machine);
                seen[usize::from(answer.0)] += 1;
                calls.push(call);
                list_words.extend(words);
                answers.push(answer);
            }
            let (mut codes, mut counts) = (vec![9; calls.len()], vec![9; calls.len()]);
            player.play(&calls, &list_words, &mut codes, &mut counts);
            assert_eq!(codes.into_iter().zip(counts).collect::<Vec<_>>(), answers);
            assert_same(&recorded, &player);
        }
        for (code, count) in seen.iter().enumerate() {
            assert!(code == usize::from(SETUP) || *count > 200, "{seen:?}");
        }
    }

    #[test]
    fn malformed_setups_are_refused() {
        let mut random = Random::new(2);
        let breaks: [fn(&mut Machine); 9] = [
            |machine| machine.nzcv = 16,
            |machine| machine.rgsr_tag = 16,
            |machine| machine.base += 8,
            |machine| machine.base = 1 << 56,
            |machine| machine.base = u64::MAX - 15,
            |machine| machine.next = machine.history.len() + 1,
            |machine| machine.next = machine.history.len().max(1),
            |machine| machine.held = machine.history.len() + 1,
            |machine| machine.data.push([0; 2]),
        ];
        for _ in 0..50 {
            let recorded = any_recorded(&mut random);
            for broken in breaks {
                let mut machine = fast(&recorded);
                broken(&mut machine);
                if machine.base == 1 << 56 && machine.tags.is_empty() {
                    continue;
                }
                assert_eq!(machine.run(&[]), (SETUP, 0));
                assert_eq!(machine.run(&[0x9181_0420]), (SETUP, 0));
                assert_eq!(machine.step(0x9181_0420), SETUP);
                let (mut codes, mut counts) = ([9; 3], [9; 3]);
                let calls = [Call::Step, Call::Back, Call::Run(0)];
                machine.play(&calls, &[0x9181_0420], &mut codes, &mut counts);
                assert_eq!((codes, counts), ([SETUP; 3], [0; 3]));
            }
        }
    }

    #[test]
    fn tags_are_chosen_as_by_the_comparisons() {
        for mask in (0..=u16::MAX).step_by(7).chain([0xFFFF, 0xFFFE, 0x7FFF]) {
            for start in 0..16 {
                for offset in 0..16 {
                    let chosen = crate::tag_choice::choose(start, offset, mask);
                    let own = choose(u32::from(start), u32::from(offset), mask);
                    assert_eq!(own, u32::from(chosen), "{start} {offset} {mask:04x}");
                }
            }
        }
    }
}

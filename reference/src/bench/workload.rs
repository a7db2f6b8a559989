//! What is timed: a machine to start from, words, and how each round makes its
//! calls (the manual, "The benchmark").

use super::fast::{Call, Machine, DONE};

const MOST_WORDS: u64 = 65_536;
const MOST_STEPS_BACK: u64 = 1024;
const MOST_SLOTS: u64 = 1024;
const MOST_GRANULES: u64 = 1024;
/// Of eight bytes each, before the words.
const NUMBERS: usize = 44;
const REGISTERS: usize = 32;

/// The calls of a round.
#[derive(Clone, Copy, Debug, PartialEq)]
pub enum Kind {
    Run,
    /// One for each word.
    Steps,
    /// A run and the steps back, as one list.
    ListOfARun,
    /// A step for each word and the steps back, as one list.
    ListOfSteps,
}

const KINDS: [Kind; 4] = [Kind::Run, Kind::Steps, Kind::ListOfARun, Kind::ListOfSteps];

/// The settings, registers and status that each round starts from.
#[derive(Clone, Debug, PartialEq)]
pub struct Start {
    pub base: u64,
    pub exclude: u16,
    pub access: bool,
    pub nzcv: u8,
    pub rgsr_tag: u8,
    pub seed: u16,
    /// The last one is SP.
    pub x: [u64; REGISTERS],
}

#[derive(Clone, Debug, PartialEq)]
pub struct Workload {
    pub rounds: u64,
    pub kind: Kind,
    pub steps_back: u64,
    pub slots: u64,
    pub granules: u64,
    pub start: Start,
    pub words: Vec<u32>,
}

/// What is to be written for a workload.
#[derive(Debug, PartialEq)]
pub struct Answer {
    /// Words and steps back that were done.
    pub words: u64,
    pub checksum: u64,
}

impl Answer {
    pub fn text(&self) -> String {
        format!(
            "words={:016x}\nchecksum={:016x}\n",
            self.words, self.checksum
        )
    }
}

impl Workload {
    pub fn bytes(&self) -> Vec<u8> {
        let start = &self.start;
        let numbers = [
            self.rounds,
            self.kind as u64,
            self.steps_back,
            self.slots,
            self.words.len() as u64,
            self.granules,
            start.base,
            start.exclude.into(),
            start.access.into(),
            start.nzcv.into(),
            start.rgsr_tag.into(),
            start.seed.into(),
        ];
        let numbers = numbers.iter().chain(&start.x);
        let numbers = numbers.flat_map(|number| number.to_le_bytes());
        let words = self.words.iter().flat_map(|word| word.to_le_bytes());
        numbers.chain(words).collect()
    }

    pub fn read(bytes: &[u8]) -> Option<Workload> {
        let (numbers, words) = bytes.split_at_checked(8 * NUMBERS)?;
        let (numbers, _) = numbers.as_chunks::<8>();
        let number = |place: usize| u64::from_le_bytes(numbers[place]);
        let at_most = |place: usize, most: u64| (number(place) <= most).then(|| number(place));
        let (words, rest) = words.as_chunks::<4>();
        let workload = Workload {
            rounds: number(0),
            kind: *KINDS.get(usize::try_from(number(1)).ok()?)?,
            steps_back: at_most(2, MOST_STEPS_BACK)?,
            slots: at_most(3, MOST_SLOTS)?,
            granules: at_most(5, MOST_GRANULES)?,
            start: Start {
                base: number(6),
                exclude: u16::try_from(number(7)).ok()?,
                access: at_most(8, 1)? == 1,
                nzcv: at_most(9, 15)? as u8,
                rgsr_tag: at_most(10, 15)? as u8,
                seed: u16::try_from(number(11)).ok()?,
                x: std::array::from_fn(|register| number(NUMBERS - REGISTERS + register)),
            },
            words: words.iter().map(|&word| u32::from_le_bytes(word)).collect(),
        };
        let sound = at_most(4, MOST_WORDS)? == words.len() as u64
            && rest.is_empty()
            && (workload.is_list() || workload.steps_back == 0);
        sound.then_some(workload)
    }

    fn is_list(&self) -> bool {
        matches!(self.kind, Kind::ListOfARun | Kind::ListOfSteps)
    }

    /// How many words and steps back a round has.
    pub fn words_and_steps_back(&self) -> u64 {
        self.words.len() as u64 + self.steps_back
    }

    /// The calls of a round, as a list.
    fn calls(&self) -> Vec<Call> {
        let mut calls = match self.kind {
            Kind::Run | Kind::ListOfARun => vec![Call::Run(self.words.len())],
            Kind::Steps | Kind::ListOfSteps => vec![Call::Step; self.words.len()],
        };
        calls.extend((0..self.steps_back).map(|_| Call::Back));
        calls
    }

    /// Goes through all rounds with the fast loop.
    pub fn run(&self) -> Answer {
        let start = &self.start;
        let mut machine = Machine {
            x: start.x,
            nzcv: start.nzcv,
            rgsr_tag: start.rgsr_tag,
            seed: start.seed,
            exclude: start.exclude,
            access: start.access,
            base: start.base,
            next: 0,
            held: 0,
            tags: vec![0; self.granules as usize],
            data: vec![[0; 2]; self.granules as usize],
            history: vec![[0; 8]; self.slots as usize],
        };
        let calls = self.calls();
        let mut codes = vec![0; calls.len()];
        let mut counts = vec![0; calls.len()];
        let mut done = 0;
        for _ in 0..self.rounds {
            machine.x = start.x;
            machine.nzcv = start.nzcv;
            machine.rgsr_tag = start.rgsr_tag;
            machine.seed = start.seed;
            match self.kind {
                Kind::Run => done += machine.run(&self.words).1,
                Kind::Steps => {
                    for &word in &self.words {
                        done += u64::from(machine.step(word) == DONE);
                    }
                }
                Kind::ListOfARun | Kind::ListOfSteps => {
                    machine.play(&calls, &self.words, &mut codes, &mut counts);
                    done += done_by(&calls, &codes, &counts);
                }
            }
        }
        Answer {
            words: done,
            checksum: checksum(&machine),
        }
    }
}

/// How many words and steps back the calls of a list did.
fn done_by(calls: &[Call], codes: &[u8], counts: &[u64]) -> u64 {
    let answers = codes.iter().zip(counts);
    let done = calls
        .iter()
        .zip(answers)
        .map(|(call, (&code, &count))| match call {
            Call::Run(_) => count,
            Call::Step | Call::Back => u64::from(code == DONE),
        });
    done.sum()
}

fn checksum(machine: &Machine) -> u64 {
    let numbers = [
        u64::from(machine.nzcv),
        u64::from(machine.rgsr_tag),
        u64::from(machine.seed),
        machine.next as u64,
        machine.held as u64,
    ];
    let tags = machine.tags.iter().map(|&tag| u64::from(tag));
    let data = machine.data.iter().flatten();
    let bytes = data.flat_map(|number| number.to_le_bytes().map(u64::from));
    let history = machine.history.iter().flatten().copied();
    let all = machine.x.into_iter().chain(numbers);
    let all = all.chain(tags).chain(bytes).chain(history);
    all.fold(0, |sum: u64, number| {
        sum.wrapping_mul(31).wrapping_add(number)
    })
}

#[cfg(test)]
mod tests {
    use super::super::rows::{rows, start};
    use super::super::words::{mix, tight};
    use super::*;
    use crate::code::Code;
    use crate::machine;
    use crate::recorded::Recorded;

    const STORED_WORKLOAD: &[u8] = include_bytes!("../../../crates/bench/stdin");
    const STORED_ANSWER: &str = include_str!("../../../crates/bench/stdout");

    /// What the machine of the comparisons comes to.
    fn answer_of_comparisons(workload: &Workload) -> Answer {
        let start = &workload.start;
        let granules = workload.granules as usize;
        let mut recorded = Recorded {
            machine: machine::Machine {
                exclude: start.exclude,
                access: start.access,
                tags: vec![0; granules],
                data: vec![0; 16 * granules],
                ..machine::Machine::fresh(start.base)
            },
            history: vec![0; 8 * workload.slots as usize],
            next: 0,
            held: 0,
        };
        let mut done = 0;
        for _ in 0..workload.rounds {
            recorded.machine.x.copy_from_slice(&start.x[..31]);
            recorded.machine.sp = start.x[31];
            recorded.machine.nzcv = start.nzcv;
            recorded.machine.rgsr_tag = start.rgsr_tag;
            recorded.machine.seed = start.seed;
            match workload.kind {
                Kind::Run | Kind::ListOfARun => done += recorded.run(&workload.words).1,
                Kind::Steps | Kind::ListOfSteps => {
                    for &word in &workload.words {
                        done += u64::from(recorded.step(word) == Code::Done);
                    }
                }
            }
            for _ in 0..workload.steps_back {
                done += u64::from(recorded.step_back() == Code::Done);
            }
        }
        let machine = &recorded.machine;
        let mut numbers: Vec<u64> = machine.x.to_vec();
        numbers.push(machine.sp);
        numbers.push(machine.nzcv.into());
        numbers.push(machine.rgsr_tag.into());
        numbers.push(machine.seed.into());
        numbers.push(recorded.next);
        numbers.push(recorded.held);
        numbers.extend(machine.tags.iter().map(|&tag| u64::from(tag)));
        numbers.extend(machine.data.iter().map(|&byte| u64::from(byte)));
        numbers.extend(&recorded.history);
        let mut checksum = 0_u64;
        for number in numbers {
            checksum = checksum.wrapping_mul(31).wrapping_add(number);
        }
        Answer {
            words: done,
            checksum,
        }
    }

    fn workload(rounds: u64, kind: Kind, steps_back: u64, slots: u64, words: &[u32]) -> Workload {
        Workload {
            rounds,
            kind,
            steps_back,
            slots,
            granules: 1024,
            start: start(),
            words: words.to_vec(),
        }
    }

    #[test]
    fn every_timed_word_is_done_and_comes_to_the_same() {
        for row in rows() {
            let mut workload = row.workload;
            workload.rounds = 3;
            let answer = workload.run();
            assert_eq!(answer.words, 3 * workload.words_and_steps_back());
            assert_eq!(answer, answer_of_comparisons(&workload), "{}", row.name);
        }
    }

    #[test]
    fn every_kind_comes_to_the_same() {
        for words in [tight(), mix(4096)] {
            for kind in KINDS {
                for (rounds, slots) in [(1, 0), (3, 0), (3, 3), (3, 1024)] {
                    let workload = workload(rounds, kind, 0, slots, &words);
                    let answer = workload.run();
                    assert_eq!(answer.words, rounds * 4096);
                    assert_eq!(answer, answer_of_comparisons(&workload));
                }
            }
        }
    }

    #[test]
    fn other_starts_come_to_the_same() {
        let mut workload = workload(3, Kind::ListOfSteps, 7, 7, &mix(4096));
        workload.start.exclude = 0xA5A5;
        workload.start.nzcv = 15;
        workload.start.rgsr_tag = 9;
        workload.start.seed = 0xBEEF;
        assert_eq!(workload.run().words, 3 * 4103);
        assert_eq!(workload.run(), answer_of_comparisons(&workload));
        workload.start.access = false;
        assert_eq!(workload.run(), answer_of_comparisons(&workload));
        workload.granules = 500;
        assert_eq!(workload.run(), answer_of_comparisons(&workload));
        workload.start.base = 8;
        assert_eq!(workload.run().words, 0);
        assert_eq!(workload.run(), answer_of_comparisons(&workload));
    }

    #[test]
    fn every_word_of_the_mix_is_done_on_many_rounds() {
        for slots in [0, 1024] {
            let workload = workload(500, Kind::Run, 0, slots, &mix(4096));
            assert_eq!(workload.run().words, 500 * 4096);
        }
    }

    #[test]
    fn refused_words_and_steps_back_are_not_counted() {
        let mut words = tight();
        words[100] = 0x9180_4020;
        for (slots, steps_back) in [(0, 5), (1, 5), (7, 7), (1024, 1024)] {
            let run = workload(3, Kind::ListOfARun, steps_back, slots, &words);
            let answer = run.run();
            let taken_back = steps_back.min(slots).min(100);
            assert!(answer.words >= 3 * (100 + taken_back));
            assert_eq!(answer, answer_of_comparisons(&run));
            let steps = workload(3, Kind::ListOfSteps, steps_back, slots, &words);
            let answer = steps.run();
            assert_eq!(answer.words, 3 * (4095 + steps_back.min(slots)));
            assert_eq!(answer, answer_of_comparisons(&steps));
        }
        assert_eq!(workload(3, Kind::Run, 0, 0, &words).run().words, 300);
        assert_eq!(workload(3, Kind::Steps, 0, 0, &words).run().words, 12_285);
        for kind in KINDS {
            assert_eq!(workload(0, kind, 0, 0, &words).run().words, 0);
            assert_eq!(workload(9, kind, 0, 0, &[]).run().words, 0);
        }
    }

    #[test]
    fn the_stored_run_of_the_program_is_the_loop_s() {
        let workload = Workload::read(STORED_WORKLOAD).expect("a workload");
        assert_eq!(workload.run().text(), STORED_ANSWER);
        assert_eq!(workload.run(), answer_of_comparisons(&workload));
    }

    #[test]
    fn workloads_read_back() {
        let one = workload(5, Kind::ListOfSteps, 7, 1024, &[1, 0x8000_0002]);
        assert_eq!(one.bytes().len(), 8 * NUMBERS + 8);
        assert_eq!(Workload::read(&one.bytes()), Some(one.clone()));
        let mut longest = workload(u64::MAX, Kind::ListOfARun, 1024, 0, &[7; 65_536]);
        longest.start = Start {
            base: u64::MAX,
            exclude: u16::MAX,
            access: false,
            nzcv: 15,
            rgsr_tag: 15,
            seed: u16::MAX,
            x: [u64::MAX; 32],
        };
        assert_eq!(Workload::read(&longest.bytes()), Some(longest));
        let no_words = workload(0, Kind::Run, 0, 0, &[]);
        assert_eq!(Workload::read(&no_words.bytes()), Some(no_words));
    }

    #[test]
    fn malformed_workloads_are_refused() {
        let one = workload(5, Kind::ListOfSteps, 7, 1024, &[1, 0x8000_0002]);
        let bytes = one.bytes();
        for short in [0, 1, 8 * NUMBERS - 1, 8 * NUMBERS, bytes.len() - 1] {
            assert_eq!(Workload::read(&bytes[..short]), None);
        }
        let longer = [&bytes[..], &[0]].concat();
        assert_eq!(Workload::read(&longer), None);
        let too_many = workload(1, Kind::Run, 0, 0, &[7; 65_537]);
        assert_eq!(Workload::read(&too_many.bytes()), None);
        for kind in [Kind::Run, Kind::Steps] {
            let with_steps_back = workload(1, kind, 1, 1, &[]);
            assert_eq!(Workload::read(&with_steps_back.bytes()), None);
        }
        let most = [
            (1, 3),
            (2, 1024),
            (3, 1024),
            (4, 2),
            (5, 1024),
            (7, 0xFFFF),
            (8, 1),
            (9, 15),
            (10, 15),
            (11, 0xFFFF),
        ];
        for (place, most) in most {
            let with = |number: u64| {
                let mut bytes = bytes.clone();
                bytes[8 * place..][..8].copy_from_slice(&number.to_le_bytes());
                Workload::read(&bytes)
            };
            assert!(with(most).is_some(), "{place}");
            assert!(with(most + 1).is_none(), "{place}");
            assert!(with(u64::MAX).is_none(), "{place}");
        }
    }
}

//! The eight words of a record (document 01, "History").
//!
//! A word's record is taken from the machine before the word is carried out:
//! the old values of the places that a word of its form may change. To step
//! back, they are put into their places again.

use crate::encoder::{RD, RN};
use crate::machine::Machine;
use crate::words::{form_of, Form, Instruction, Mode};

pub const WORDS: usize = 8;
const NO_REGISTER: u64 = 32;
const GRANULE: usize = 16;

/// What a record says. Of data there are 16 bytes for each tag, or none.
#[derive(Clone, Debug, PartialEq)]
pub struct Record {
    /// 31 is SP, and none is none.
    pub register: Option<u64>,
    pub old_value: u64,
    pub first_granule: u64,
    /// As many as there are granules, at most 2.
    pub old_tags: Vec<u8>,
    pub old_data: Option<Vec<u8>>,
    pub nzcv: u8,
    pub rgsr_tag: u8,
    pub seed: u16,
}

impl Record {
    /// The record of a word on this machine, if the word is accepted; nothing
    /// or anything if it is refused.
    pub fn before(machine: &Machine, word: u32) -> Option<Record> {
        let form = form_of(word)?;
        let register = written_register(form, word);
        let granules = match form.mode {
            None => Vec::new(),
            Some(_) => {
                let (address, _) = machine.addresses_of_store(form, word);
                machine.named_granules(form.instruction, address)?
            }
        };
        let old_data = writes_data(form.instruction).then(|| {
            let bytes = |&granule: &usize| machine.data[GRANULE * granule..][..GRANULE].to_vec();
            granules.iter().flat_map(bytes).collect()
        });
        Some(Record {
            register,
            old_value: register.map_or(0, |number| machine.register_or_sp(number)),
            first_granule: granules.first().map_or(0, |&granule| granule as u64),
            old_tags: granules
                .iter()
                .map(|&granule| machine.tags[granule])
                .collect(),
            old_data,
            nzcv: machine.nzcv,
            rgsr_tag: machine.rgsr_tag,
            seed: machine.seed,
        })
    }

    /// Puts the old values in their places. The record's granules must be
    /// among the machine's.
    pub fn restore(&self, machine: &mut Machine) {
        if let Some(number) = self.register {
            machine.set_register_or_sp(number, self.old_value);
        }
        machine.nzcv = self.nzcv;
        machine.rgsr_tag = self.rgsr_tag;
        machine.seed = self.seed;
        let first = self.first_granule as usize;
        let count = self.old_tags.len();
        machine.tags[first..first + count].copy_from_slice(&self.old_tags);
        if let Some(data) = &self.old_data {
            machine.data[GRANULE * first..GRANULE * (first + count)].copy_from_slice(data);
        }
    }

    /// The record in its eight words. Each place not in use is zero.
    pub fn words(&self) -> [u64; WORDS] {
        let tag = |place: usize| u64::from(self.old_tags.get(place).copied().unwrap_or(0));
        let data = |place: usize| -> u64 {
            let bytes = self.old_data.iter().flatten().skip(8 * place).take(8);
            bytes
                .enumerate()
                .map(|(place, &byte)| u64::from(byte) << (8 * place))
                .sum()
        };
        let word_0 = self.register.unwrap_or(NO_REGISTER)
            | (self.old_tags.len() as u64) << 8
            | u64::from(self.old_data.is_some()) << 10
            | tag(0) << 16
            | tag(1) << 24
            | u64::from(self.nzcv) << 32
            | u64::from(self.rgsr_tag) << 36
            | u64::from(self.seed) << 40;
        [
            word_0,
            self.old_value,
            self.first_granule,
            data(0),
            data(1),
            data(2),
            data(3),
            0,
        ]
    }

    /// What eight words say, or nothing if they are malformed on a memory of
    /// so many granules. A number out of its range says nothing. Of a place
    /// not in use nothing is read, so it is not zero exactly when the record
    /// read would be written otherwise.
    pub fn read(words: &[u64; WORDS], memory: u64) -> Option<Record> {
        let fields = Fields::of(words);
        if fields.register > NO_REGISTER || fields.granules > 2 {
            return None;
        }
        if fields.data_saved && fields.granules == 0 {
            return None;
        }
        let count = fields.granules as usize;
        let register = (fields.register != NO_REGISTER).then_some(fields.register);
        let old_value = register.map_or(0, |_| words[1]);
        let first_granule = if count > 0 { words[2] } else { 0 };
        if u128::from(first_granule) + count as u128 > u128::from(memory) {
            return None;
        }
        let bytes = words[3..7].iter().flat_map(|word| word.to_le_bytes());
        let record = Record {
            register,
            old_value,
            first_granule,
            old_tags: fields.tags[..count].to_vec(),
            old_data: fields
                .data_saved
                .then(|| bytes.take(GRANULE * count).collect()),
            nzcv: fields.nzcv,
            rgsr_tag: fields.rgsr_tag,
            seed: fields.seed,
        };
        (record.words() == *words).then_some(record)
    }

    /// Register, granules and data by kind, for counts.
    pub fn kind(&self) -> String {
        let register = match self.register {
            None => "no register",
            Some(31) => "SP",
            Some(_) => "X",
        };
        let data = if self.old_data.is_some() {
            ", data"
        } else {
            ""
        };
        format!("{register}, granules {}{data}", self.old_tags.len())
    }
}

/// The fields of word 0.
struct Fields {
    register: u64,
    granules: u64,
    data_saved: bool,
    tags: [u8; 2],
    nzcv: u8,
    rgsr_tag: u8,
    seed: u16,
}

impl Fields {
    fn of(words: &[u64; WORDS]) -> Fields {
        let bits = |high: u32, low: u32| words[0] >> low & ((1 << (high - low + 1)) - 1);
        Fields {
            register: bits(5, 0),
            granules: bits(9, 8),
            data_saved: bits(10, 10) == 1,
            tags: [bits(23, 16) as u8, bits(31, 24) as u8],
            nzcv: bits(35, 32) as u8,
            rgsr_tag: bits(39, 36) as u8,
            seed: bits(55, 40) as u16,
        }
    }
}

/// Every rule that eight words break, each by its own look at the words. They
/// are malformed if there is one.
pub fn faults(words: &[u64; WORDS], memory: u64) -> Vec<&'static str> {
    let word_0 = words[0];
    let register = word_0 & 0x3F;
    let granules = word_0 >> 8 & 3;
    let data_saved = word_0 >> 10 & 1 == 1;
    let unsaved = |first: usize, last: usize| {
        let used = data_saved && granules > (first as u64 - 3) / 2;
        !used && words[first..=last].iter().any(|&word| word != 0)
    };
    let rules = [
        ("register above 32", register > 32),
        ("bits 7:6", word_0 & 0xC0 != 0),
        ("granules 3", granules == 3),
        ("data saved, no granules", data_saved && granules == 0),
        ("bits 15:11", word_0 & 0xF800 != 0),
        (
            "first tag not in use",
            granules == 0 && word_0 >> 16 & 0xFF != 0,
        ),
        (
            "second tag not in use",
            granules < 2 && word_0 >> 24 & 0xFF != 0,
        ),
        ("bits 63:56", word_0 >> 56 != 0),
        ("word 1 not in use", register == 32 && words[1] != 0),
        ("word 2 not in use", granules == 0 && words[2] != 0),
        ("words 3 and 4 not in use", unsaved(3, 4)),
        ("words 5 and 6 not in use", unsaved(5, 6)),
        ("word 7", words[7] != 0),
        (
            "granules beyond G",
            granules > 0 && (granules > memory || words[2] > memory - granules),
        ),
    ];
    let broken = rules.into_iter().filter(|&(_, broken)| broken);
    broken.map(|(name, _)| name).collect()
}

/// The destination or the writeback target; none if it is the zero register.
fn written_register(form: &Form, word: u32) -> Option<u64> {
    use Instruction::*;
    match (form.instruction, form.mode) {
        (Addg | Subg | Irg, _) => Some(RD.of(word)),
        (Subp | Subps | Gmi | Ldg, _) => Some(RD.of(word)).filter(|&number| number != 31),
        (_, Some(Mode::Post | Mode::Pre)) => Some(RN.of(word)),
        _ => None,
    }
}

fn writes_data(instruction: Instruction) -> bool {
    use Instruction::*;
    matches!(instruction, Stzg | Stz2g | Stgp)
}

#[cfg(test)]
mod tests {
    use super::*;
    use crate::code::Code;
    use crate::machine::tests::small;
    use crate::words::FORMS;

    /// Four granules with tags of eight bits, and registers that point to
    /// the second granule.
    fn filled() -> Machine {
        let mut machine = small();
        machine.tags = vec![0xA1, 0xB2, 0xC3, 0xD4];
        machine.data = (0..64).collect();
        for (number, value) in machine.x.iter_mut().enumerate() {
            *value = (number as u64) << 56 | 0x1010;
        }
        machine.sp = 0x1F00_0000_0000_1010;
        machine.nzcv = 9;
        machine.rgsr_tag = 5;
        machine.seed = 0xBEEF;
        machine
    }

    fn words_of(word: u32) -> [u64; WORDS] {
        let record = Record::before(&filled(), word);
        record.expect("an accepted word").words()
    }

    const FLAGS_AND_RGSR: u64 = 0x00BE_EF59_0000_0000;

    #[test]
    fn layouts_by_hand() {
        let value = |number: u64| number << 56 | 0x1010;
        let pair = [
            0x1716_1514_1312_1110,
            0x1F1E_1D1C_1B1A_1918,
            0x2726_2524_2322_2120,
            0x2F2E_2D2C_2B2A_2928,
        ];
        for (name, word, low, others) in [
            ("ADDG X0, X1", 0x9181_0420, 0, [value(0), 0, 0, 0, 0, 0]),
            ("ADDG SP, X1", 0x9181_043F, 31, [value(31), 0, 0, 0, 0, 0]),
            ("IRG SP, X1", 0x9ADF_103F, 31, [value(31), 0, 0, 0, 0, 0]),
            ("GMI XZR, X1, XZR", 0x9ADF_143F, 32, [0; 6]),
            ("SUBPS XZR, X1, X2", 0xBAC2_003F, 32, [0; 6]),
            ("SUBP X3, X1, X2", 0x9AC2_0023, 3, [value(3), 0, 0, 0, 0, 0]),
            ("LDG XZR, [X0]", 0xD960_001F, 32, [0; 6]),
            ("LDG X1, [X0]", 0xD960_0001, 1, [value(1), 0, 0, 0, 0, 0]),
            ("STG X0, [X2]", 0xD920_0840, 0xB2_0120, [0, 1, 0, 0, 0, 0]),
            (
                "STG X0, [X2], #16",
                0xD920_1440,
                0xB2_0102,
                [value(2), 1, 0, 0, 0, 0],
            ),
            (
                "STG X0, [SP, #16]!",
                0xD920_1FE0,
                0xC3_011F,
                [value(31), 2, 0, 0, 0, 0],
            ),
            (
                "ST2G X0, [X2]",
                0xD9A0_0840,
                0xC3B2_0220,
                [0, 1, 0, 0, 0, 0],
            ),
            (
                "STZG X0, [X2]",
                0xD960_0840,
                0xB2_0520,
                [0, 1, pair[0], pair[1], 0, 0],
            ),
            (
                "STZ2G X0, [X2], #16",
                0xD9E0_1440,
                0xC3B2_0602,
                [value(2), 1, pair[0], pair[1], pair[2], pair[3]],
            ),
            (
                "STGP X1, X2, [X0, #16]!",
                0x6980_8801,
                0xC3_0500,
                [value(0), 2, pair[2], pair[3], 0, 0],
            ),
            (
                "STGP X1, X2, [X0], #16",
                0x6880_8801,
                0xB2_0500,
                [value(0), 1, pair[0], pair[1], 0, 0],
            ),
        ] {
            let words = words_of(word);
            assert_eq!(words[0], low | FLAGS_AND_RGSR, "{name}");
            assert_eq!(words[1..7], others, "{name}");
            assert_eq!(words[7], 0, "{name}");
        }
    }

    #[test]
    fn access_off_records_the_same_granules() {
        for word in [0xD920_0840, 0xD9A0_0840, 0xD9E0_1440, 0x6980_8801] {
            let mut machine = filled();
            machine.access = false;
            let record = Record::before(&machine, word).expect("an accepted word");
            assert_eq!(record.words(), words_of(word));
        }
    }

    #[test]
    fn a_record_of_every_form_takes_its_word_back() {
        for form in &FORMS {
            for registers in [0x041, 0x3FF, 0x05F, 0x3E2, 0x0A5] {
                for access in [true, false] {
                    let mut machine = filled();
                    machine.access = access;
                    let before = machine.clone();
                    let word = form.fixed | registers;
                    let record = Record::before(&machine, word).expect("an accepted word");
                    assert_eq!(machine.carry_out(word), Code::Done, "{word:08x}");
                    let read = Record::read(&record.words(), 4);
                    assert_eq!(read.as_ref(), Some(&record), "{word:08x}");
                    record.restore(&mut machine);
                    assert_eq!(machine, before, "{word:08x}");
                }
            }
        }
    }

    const X3: [u64; WORDS] = [3, 7, 0, 0, 0, 0, 0, 0];
    const PAIR: [u64; WORDS] = [0xFFFF_0620, 0, 2, 1, 2, 3, 4, 0];

    fn changed(words: [u64; WORDS], place: usize, word: u64) -> [u64; WORDS] {
        let mut words = words;
        words[place] = word;
        words
    }

    #[test]
    fn well_formed_words() {
        for words in [
            X3,
            PAIR,
            [32, 0, 0, 0, 0, 0, 0, 0],
            [0; 8],
            [0x20, 0, 0, 0, 0, 0, 0, 0],
            [0x00FF_FFFF_0000_001F, u64::MAX, 0, 0, 0, 0, 0, 0],
            [0x0000_0000_FFFF_0200, 0, 2, 0, 0, 0, 0, 0],
            [0x0000_0000_00FF_0500, 0, 3, 1, 1, 0, 0, 0],
        ] {
            assert!(Record::read(&words, 4).is_some(), "{words:x?}");
            assert_eq!(faults(&words, 4), [""; 0], "{words:x?}");
        }
    }

    #[test]
    fn each_fault_by_itself() {
        for (words, fault) in [
            (changed(X3, 0, 33), "register above 32"),
            (changed(X3, 0, 63), "register above 32"),
            (changed(X3, 0, 0x43), "bits 7:6"),
            (changed(X3, 0, 0x83), "bits 7:6"),
            (changed(X3, 0, 0x0803), "bits 15:11"),
            (changed(X3, 0, 0x8003), "bits 15:11"),
            (changed(X3, 0, 1 << 56 | 3), "bits 63:56"),
            (changed(X3, 0, 1 << 63 | 3), "bits 63:56"),
            (changed(X3, 0, 0x1_0003), "first tag not in use"),
            (changed(X3, 0, 0x8000_0003), "second tag not in use"),
            (changed(X3, 0, 0x8000_0103), "second tag not in use"),
            (changed(X3, 0, 0x0403), "data saved, no granules"),
            (changed(X3, 0, 32), "word 1 not in use"),
            (changed(X3, 2, 1), "word 2 not in use"),
            (changed(X3, 3, 1), "words 3 and 4 not in use"),
            (changed(X3, 4, 1), "words 3 and 4 not in use"),
            (changed(X3, 5, 1), "words 5 and 6 not in use"),
            (changed(X3, 6, 1 << 63), "words 5 and 6 not in use"),
            (changed(X3, 7, 1), "word 7"),
            (changed(X3, 0, 0x0303), "granules 3"),
            (changed(PAIR, 0, 0x00FF_0520), "words 5 and 6 not in use"),
            (changed(PAIR, 2, 3), "granules beyond G"),
            (changed(PAIR, 2, 4), "granules beyond G"),
            (changed(PAIR, 2, u64::MAX), "granules beyond G"),
            (changed(PAIR, 2, u64::MAX - 1), "granules beyond G"),
            (changed(PAIR, 2, 1 << 60), "granules beyond G"),
            (changed(PAIR, 7, 1 << 63), "word 7"),
        ] {
            assert_eq!(Record::read(&words, 4), None, "{words:x?}");
            assert_eq!(faults(&words, 4), [fault], "{words:x?}");
        }
    }

    #[test]
    fn the_memory_may_be_smaller_than_a_record() {
        for memory in [0, 1] {
            assert_eq!(Record::read(&changed(PAIR, 2, 0), memory), None);
            assert_eq!(
                faults(&changed(PAIR, 2, 0), memory),
                ["granules beyond G"],
                "{memory}"
            );
        }
        assert!(Record::read(&changed(PAIR, 2, 0), 2).is_some());
        assert!(Record::read(&X3, 0).is_some());
    }
}

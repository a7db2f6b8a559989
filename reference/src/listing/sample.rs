//! Words to be listed: of each form with every value of each field, and
//! words that are undefined.

use std::collections::BTreeMap;

use super::writer::line_of;
use crate::encoder::{fields, Field, Kind};
use crate::generate::operands::any_word;
use crate::generate::random::Random;
use crate::words::{defined, Form};

/// A form with no more words than this is taken whole.
const FEW: u32 = 1 << 15;

/// Different words of a form: every two values of any two of its fields with
/// any others, and so many mixtures.
pub fn words(random: &mut Random, form: &Form, mixtures: u64) -> Vec<u32> {
    let mut words = match 1 << form.mask.count_zeros() {
        0..=FEW => all(form),
        _ => pairs(random, form),
    };
    words.extend((0..mixtures).map(|_| any_word(random, form)));
    words.sort_unstable();
    words.dedup();
    words
}

/// Every word of a form, by its last field's values for each of the others'.
fn all(form: &Form) -> Vec<u32> {
    let fields = fields(form.instruction).iter();
    let none = vec![form.fixed];
    fields.fold(none, |words, field| {
        let placed = |word: u32| field.places().map(move |bits| word | bits);
        words.into_iter().flat_map(placed).collect()
    })
}

fn pairs(random: &mut Random, form: &Form) -> Vec<u32> {
    let fields = fields(form.instruction);
    let mut words = Vec::new();
    for (number, one) in fields.iter().enumerate() {
        for other in &fields[number + 1..] {
            let ones = one.ones_in_place() | other.ones_in_place();
            for bits in one.places() {
                for others in other.places() {
                    words.push(any_word(random, form) & !ones | bits | others);
                }
            }
        }
    }
    words
}

/// Words of a form with each value of each field, and with any others.
pub fn each_value(random: &mut Random, form: &Form) -> Vec<u32> {
    let mut words = Vec::new();
    for field in fields(form.instruction) {
        let ones = field.ones_in_place();
        for bits in field.places() {
            words.push(any_word(random, form) & !ones | bits);
        }
    }
    words
}

/// Words of a form, so many of each shape and length that its lines have.
pub fn of_each_length(random: &mut Random, form: &Form, count: usize) -> Vec<u32> {
    let mut groups: BTreeMap<(usize, usize), Vec<u32>> = BTreeMap::new();
    for word in (0..count).flat_map(|_| of_each_class(random, form)) {
        let line = line_of(word).expect("a defined word");
        let group = (line.len(), line.matches('#').count());
        groups.entry(group).or_default().push(word);
    }
    let groups = groups.into_values();
    let chosen =
        groups.flat_map(|group| (0..count).map(|_| random.pick(&group)).collect::<Vec<_>>());
    chosen.collect()
}

/// A word of a form for each combination of the classes of its fields.
fn of_each_class(random: &mut Random, form: &Form) -> Vec<u32> {
    let fields = fields(form.instruction).iter();
    fields.fold(vec![form.fixed], |words, field| {
        let classes = classes(field);
        let mut more = Vec::new();
        for word in words {
            more.extend(classes.iter().map(|class| word | random.pick(class)));
        }
        more
    })
}

/// What can stand in a field's place, by the length and the sign of its
/// text; register 31, which has a name, by itself.
fn classes(field: &Field) -> Vec<Vec<u32>> {
    let mut classes: BTreeMap<(bool, String, usize), Vec<u32>> = BTreeMap::new();
    for bits in field.places() {
        let value = field.of(bits) as i64;
        let named = field.kind == Kind::Register && value == 31;
        let sign = value.signum().to_string();
        let class = (named, sign, value.to_string().len());
        classes.entry(class).or_default().push(bits);
    }
    classes.into_values().collect()
}

/// Undefined words a bit or some bits away from a form's, and any others.
pub fn near(random: &mut Random, form: &Form) -> Vec<u32> {
    let mut words = Vec::new();
    for _ in 0..80 {
        let word = any_word(random, form);
        words.extend((0..32).map(|bit| word ^ 1 << bit));
        let fixed = random.bits() as u32 & random.bits() as u32 & form.mask;
        words.push(word ^ fixed);
    }
    words.extend((0..200).map(|_| random.bits() as u32));
    words.retain(|&word| !defined(word));
    words.sort_unstable();
    words.dedup();
    words
}

/// Words of document 01's row 15, of words that requests to come will define,
/// and of instructions that are close to the modelled ones.
pub const UNDEFINED: [u32; 22] = [
    0,
    1,
    u32::MAX,
    0x8000_0000,
    0x9180_4020,
    0xD9A0_0001,
    0xD9A0_0000,
    0xD9E0_0000,
    0xD920_0000,
    0xF940_0000,
    0xF900_0000,
    0x9180_8020,
    0x9180_C020,
    0xD180_4020,
    0xD180_C020,
    0x9100_0000,
    0x9AC0_0400,
    0x9AC0_1800,
    0x1AC0_1000,
    0x6840_0000,
    0x6940_0000,
    0xD503_201F,
];

#[cfg(test)]
mod tests {
    use super::*;
    use crate::listing::minima::LENGTHS;
    use crate::words::{form_of, FORMS};
    use std::collections::{BTreeSet, HashSet};

    #[test]
    fn every_two_values_of_two_fields_are_there() {
        let mut random = Random::new(1);
        for form in &FORMS {
            let words = words(&mut random, form, 0);
            assert!(words.iter().all(|&word| form_of(word) == Some(form)));
            let fields = fields(form.instruction);
            for (number, one) in fields.iter().enumerate() {
                for other in &fields[number + 1..] {
                    let met = words.iter().map(|&word| (one.of(word), other.of(word)));
                    let met: HashSet<_> = met.collect();
                    assert_eq!(met.len(), 1 << (one.bits + other.bits), "{}", form.name);
                }
            }
        }
    }

    #[test]
    fn forms_of_three_registers_are_whole() {
        let mut random = Random::new(1);
        let few = FORMS.iter().filter(|form| form.mask.count_zeros() == 15);
        let counts: Vec<usize> = few.map(|form| words(&mut random, form, 9).len()).collect();
        assert_eq!(counts, [1 << 15; 4]);
    }

    #[test]
    fn each_value_is_there() {
        let mut random = Random::new(1);
        for form in &FORMS {
            let words = each_value(&mut random, form);
            for field in fields(form.instruction) {
                let met: HashSet<u64> = words.iter().map(|&word| field.of(word)).collect();
                assert_eq!(met.len(), 1 << field.bits, "{}", form.name);
            }
        }
    }

    #[test]
    fn lines_have_the_lengths_told_by_hand() {
        let mut random = Random::new(1);
        for (name, lengths) in LENGTHS {
            let form = FORMS.iter().find(|form| form.name == name);
            let form = form.expect("a form's name");
            let words = of_each_length(&mut random, form, 2);
            let lengths: Vec<usize> = lengths.iter().cloned().flatten().collect();
            let met = |words: &[u32]| -> BTreeSet<usize> {
                let lines = words.iter().filter_map(|&word| line_of(word));
                lines.map(|line| line.len()).collect()
            };
            assert_eq!(met(&words), lengths.iter().copied().collect(), "{name}");
            let many: Vec<u32> = (0..20_000).map(|_| any_word(&mut random, form)).collect();
            assert!(met(&many).is_subset(&met(&words)), "{name}");
        }
    }

    #[test]
    fn undefined_words_are() {
        let mut random = Random::new(1);
        for form in &FORMS {
            let near = near(&mut random, form);
            assert!(near.len() > 500, "{}", form.name);
            assert!(near.iter().all(|&word| !defined(word)));
        }
        assert!(UNDEFINED.iter().all(|&word| !defined(word)));
    }
}

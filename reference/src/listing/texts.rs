//! Texts to be read: lines with bytes astray, with other numbers and names,
//! and texts that are far from a line.

use super::batch::Text;
use super::sample::of_each_length;
use super::spellings::Rewrite;
use super::writer::line_of;
use crate::code::Code;
use crate::encoder::{encode, fields, Kind};
use crate::generate::random::Random;
use crate::words::{Form, FORMS};

pub const LONG: &str = "long texts";
pub const EMPTY: &str = "the empty text";

type OfAForm = fn(&mut Random, &'static Form) -> Vec<Text>;
type AtRandom = fn(&mut Random) -> Vec<Text>;

/// Texts that are made for each form.
#[rustfmt::skip]
pub const OF_A_FORM: [(&str, OfAForm); 12] = [
    ("a byte changed", byte_changed),
    ("a byte dropped", |random, form| at_each_place(random, form, dropped)),
    ("a byte doubled", |random, form| at_each_place(random, form, doubled)),
    ("neighbours swapped", |random, form| at_each_place(random, form, swapped)),
    ("a byte put in", byte_put_in),
    ("cut short", cut_short),
    ("the beginning cut off", |random, form| at_each_place(random, form, cut_off)),
    ("other amounts", amounts),
    ("amounts of many digits", many_digits),
    ("other tag offsets", tag_offsets),
    ("other registers", registers),
    ("other mnemonics", mnemonics),
];

/// Texts that are made at random, of no form.
pub const RANDOM: [(&str, AtRandom); 4] = [
    ("random bytes", random_bytes),
    ("random letters", random_letters),
    ("random pieces", random_pieces),
    ("random operands", random_operands),
];

/// So many lines of each shape and length of a form.
fn lines(random: &mut Random, form: &Form, count: usize) -> Vec<String> {
    let words = of_each_length(random, form, count).into_iter();
    words.filter_map(line_of).collect()
}

/// Each text once.
fn once_each(mut texts: Vec<Vec<u8>>) -> Vec<Text> {
    texts.sort_unstable();
    texts.dedup();
    texts.into_iter().map(Text::of).collect()
}

/// Every other byte at each place of lines of every length.
fn byte_changed(random: &mut Random, form: &'static Form) -> Vec<Text> {
    let mut texts = Vec::new();
    for line in lines(random, form, 1) {
        for place in 0..line.len() {
            let mut text = line.clone().into_bytes();
            let old = text[place];
            for byte in (0..=u8::MAX).filter(|&byte| byte != old) {
                text[place] = byte;
                texts.push(text.clone());
            }
        }
    }
    once_each(texts)
}

/// A change at each place of lines of every length.
fn at_each_place(
    random: &mut Random,
    form: &Form,
    change: fn(&[u8], usize) -> Vec<u8>,
) -> Vec<Text> {
    let mut texts = Vec::new();
    for line in lines(random, form, 6) {
        let line = line.as_bytes();
        let changed = (0..line.len()).map(|place| change(line, place));
        texts.extend(changed.filter(|text| text != line));
    }
    once_each(texts)
}

fn dropped(line: &[u8], place: usize) -> Vec<u8> {
    [&line[..place], &line[place + 1..]].concat()
}

fn doubled(line: &[u8], place: usize) -> Vec<u8> {
    [&line[..=place], &line[place..]].concat()
}

/// The last byte with the first.
fn swapped(line: &[u8], place: usize) -> Vec<u8> {
    let mut text = line.to_vec();
    text.swap(place, (place + 1) % line.len());
    text
}

fn cut_off(line: &[u8], place: usize) -> Vec<u8> {
    line[place + 1..].to_vec()
}

/// Bytes that a loose reader might pass over or take for another.
const PUT_IN: &[u8] = b" \t\n\r,#-+0123456789abxXgps[]{}()!/;=_\0\x0B\x0C\x7F\x80\xA0\xFF";

fn byte_put_in(random: &mut Random, form: &'static Form) -> Vec<Text> {
    let mut texts = Vec::new();
    for line in lines(random, form, 1) {
        for place in 0..=line.len() {
            for &byte in PUT_IN {
                let (before, behind) = line.as_bytes().split_at(place);
                texts.push([before, &[byte], behind].concat());
            }
        }
    }
    once_each(texts)
}

/// Every beginning of a line, with its rest behind it in memory.
fn cut_short(random: &mut Random, form: &'static Form) -> Vec<Text> {
    let mut texts = Vec::new();
    for line in lines(random, form, 6) {
        texts.extend((0..line.len()).map(|length| Text::cut(&line, length)));
    }
    texts
}

/// A line of a form with the registers 5, 6 and 7 in their order, amount 16
/// and tag offset 1, so that each of them can be found in it.
fn plain_line(form: &Form) -> String {
    let mut register = 4;
    let value = |kind| match kind {
        Kind::Register => {
            register += 1;
            register
        }
        Kind::TagOffset => 1,
        Kind::Amount | Kind::SignedAmount => 16,
    };
    let fields = fields(form.instruction).iter().map(|field| field.kind);
    match encode(form, &fields.map(value).collect::<Vec<u64>>()) {
        (Code::Done, word) => line_of(word).expect("a defined word"),
        _ => unreachable!("fields in range"),
    }
}

/// The plain line of a form with other texts in the place of a part; none if
/// it has no such part.
fn with(form: &Form, part: &str, others: impl Iterator<Item = String>) -> Vec<Vec<u8>> {
    let line = plain_line(form);
    let Some((before, behind)) = line.split_once(part) else {
        return Vec::new();
    };
    let texts = others.map(|other| format!("{before}{other}{behind}").into_bytes());
    texts.collect()
}

/// What may stand in the place of the amount 16 and look like a number.
#[rustfmt::skip]
const AMOUNTS: [&str; 51] = [
    "", "#", "#-", "#--16", "#-+16", "#+16", "#+-16", "#-0", "#+0", "#00", "#000", "#-00", "#016",
    "#-016", "#0016", "#0x10", "#0X10", "#-0x10", "#0xffffffffffffffF0", "#0b10000", "#0o20",
    "#020", "#1e1", "#16.", "#16.0", "#.16", "#1_6", "#1 6", "#1,6", "# 16", "#16 ", "#- 16",
    "#-16-", "#16h", "#10h", "#$10", "#16u", "#16L", "#(16)", "#8+8", "#32-16", "#x5", "x5", "sp",
    "#sp", "16", "-16", "##16", "$16", "=16", "#16!",
];

/// Every whole number some way beyond both ends of every range, and what is
/// no number.
fn amounts(_: &mut Random, form: &'static Form) -> Vec<Text> {
    let numbers = (-4200..=4200).map(|number| format!("#{number}"));
    let others = AMOUNTS.map(str::to_string);
    once_each(with(form, "#16", numbers.chain(others)))
}

/// Numbers that would be in range if they were cut to some bits, and numbers
/// of up to 30 digits.
fn many_digits(random: &mut Random, form: &'static Form) -> Vec<Text> {
    let mut numbers = Vec::new();
    for power in (8..=100).map(|bits| 1_i128 << bits) {
        for step in [-4096, -1024, -32, -16, -1, 0, 1, 16, 32, 1008, 4080] {
            numbers.extend([power + step, step - power].map(|number| number.to_string()));
        }
    }
    for count in 1..=30 {
        for _ in 0..12 {
            let sign = if random.one_in(2) { "-" } else { "" };
            let digits = (0..count).map(|_| random.below(10).to_string());
            let digits: String = digits.collect();
            numbers.push(format!("{sign}{digits}"));
            numbers.push(format!("{sign}{:0count$}", 16));
            numbers.push(format!("{sign}16{:0count$}", 0));
        }
    }
    let numbers = numbers.iter().map(|number| format!("#{number}"));
    once_each(with(form, "#16", numbers))
}

/// What may stand in the place of the tag offset 1.
const TAG_OFFSETS: [&str; 23] = [
    "#", "1", "#-1", "#-0", "#+1", "#00", "#01", "#001", "#015", "#0x1", "#0xf", "#a", "#f",
    "#1.0", "# 1", "#1 ", "#x1", "x1", "##1", "#1, #1", "#1]", "#1!", "#1, ",
];

fn tag_offsets(_: &mut Random, form: &'static Form) -> Vec<Text> {
    let small = (-20..=600).map(|number: i128| number);
    let cut = (8..=70).flat_map(|bits| (-1..=16).map(move |step| (1_i128 << bits) + step));
    let numbers = small.chain(cut).map(|number| format!("#{number}"));
    let others = TAG_OFFSETS.iter().map(|text| text.to_string());
    let ended = |text| format!(", {text}\n");
    once_each(with(form, ", #1\n", numbers.chain(others).map(ended)))
}

/// What may stand in the place of a register.
#[rustfmt::skip]
const REGISTERS: [&str; 44] = [
    "", "x", "X5", "sp", "SP", "Sp", "xzr", "XZR", "zr", "wsp", "wzr", "w5", "r5", "v5", "d5", "q5",
    "z5", "lr", "fp", "ip0", "pc", "x05", "x005", "x00", "x030", "x-1", "x-5", "x+5", "x 5", "x5 ",
    " x5", "x5.", "x5x", "xx5", "x0x5", "x1f", "xf", "5", "#5", "[x5]", "{x5}", "x5!", "x5, x5",
    "x5, lsl #0",
];

/// Other names at the place of each register.
fn registers(_: &mut Random, form: &'static Form) -> Vec<Text> {
    let small = (0..=400).map(|number: u128| number);
    let cut = (8..=70).flat_map(|bits| (0..=32).map(move |step| (1_u128 << bits) + step));
    let names: Vec<String> = small
        .chain(cut)
        .map(|number| format!("x{number}"))
        .collect();
    let others = || REGISTERS.iter().map(|name| name.to_string());
    let at = |register| with(form, register, names.iter().cloned().chain(others()));
    once_each(["x5", "x6", "x7"].into_iter().flat_map(at).collect())
}

/// The twelve mnemonics, and others that are close to them or to a line.
#[rustfmt::skip]
const MNEMONICS: [&str; 66] = [
    "addg", "subg", "subp", "subps", "irg", "gmi", "ldg", "stg", "stzg", "st2g", "stz2g", "stgp",
    "", " ", "add", "adds", "sub", "subs", "addgs", "subgs", "subpss", "cmpp", "cmp", "mov", "nop", "ret", "irgs", "gmis",
    "ldgm", "ldgp", "ldg2", "ldr", "ldrb", "ldrh", "ldur", "ldp", "str", "strb", "strh", "stur", "stp", "stgm", "stzgm",
    "st3g", "stz3g", "stg2", "stgz", "st2zg", "sttg", "stzgp", "st2gp", "stg.", "stg:", "stgp2", "Stg", "STG", "sTg",
    "st g", "stg,", "word=", "word=d9201400", "0xd9201400", ".inst", "//", "#", "x0",
];

/// Every mnemonic there is, and some that are not, before the operands of
/// lines of every length.
fn mnemonics(random: &mut Random, form: &'static Form) -> Vec<Text> {
    let mut texts = Vec::new();
    for line in lines(random, form, 1).into_iter().chain([plain_line(form)]) {
        let (old, operands) = line.split_once(' ').expect("operands");
        for mnemonic in MNEMONICS.iter().filter(|&&mnemonic| mnemonic != old) {
            texts.push(format!("{mnemonic} {operands}").into_bytes());
        }
    }
    once_each(texts)
}

/// Lines of every form and length, spelled in another way where that is
/// another text.
pub fn spelled(random: &mut Random, rewrite: Rewrite) -> Vec<Text> {
    let mut texts = Vec::new();
    for form in &FORMS {
        for line in lines(random, form, 8).into_iter().chain([plain_line(form)]) {
            let text = rewrite(&line);
            if text != line {
                texts.push(text.into_bytes());
            }
        }
    }
    once_each(texts)
}

/// How many texts of each random kind there are in a batch.
const AT_RANDOM: usize = 8000;

fn random_bytes(random: &mut Random) -> Vec<Text> {
    let text = |_| {
        let length = random.below(40);
        let bytes = (0..length).map(|_| random.bits() as u8);
        let bytes: Vec<u8> = bytes.collect();
        match random.below(2) {
            0 => bytes,
            _ => [bytes.as_slice(), b"\n"].concat(),
        }
    };
    once_each((0..AT_RANDOM).map(text).collect())
}

fn random_letters(random: &mut Random) -> Vec<Text> {
    let letters = b"adgilmprstuz0123456789xsp ,#[]!-";
    let text = |_| {
        let length = random.below(30);
        let bytes = (0..length).map(|_| random.pick(letters));
        let bytes: Vec<u8> = bytes.chain([b'\n']).collect();
        bytes
    };
    once_each((0..AT_RANDOM).map(text).collect())
}

/// Pieces of lines in any order.
fn random_pieces(random: &mut Random) -> Vec<Text> {
    let pieces = [
        "stg ", "ldg ", "irg ", "addg ", "stgp ", "subp ", "x0", "x1", "x30", "sp", "xzr", ", ",
        ", ", ", ", "[", "]", "!", "#", "#16", "#-16", "#0", "-", "16", " ", "\n",
    ];
    let text = |_| {
        let count = random.below(12);
        let text: String = (0..count).map(|_| random.pick(&pieces)).collect();
        match random.below(4) {
            0 => text.into_bytes(),
            _ => format!("{text}\n").into_bytes(),
        }
    };
    once_each((0..AT_RANDOM).map(text).collect())
}

/// A mnemonic and operands that fit it or do not.
fn random_operands(random: &mut Random) -> Vec<Text> {
    let text = |_| {
        let mnemonic = random.pick(&MNEMONICS[..12]);
        let count = 1 + random.below(4);
        let operands: Vec<String> = (0..count).map(|_| operand(random)).collect();
        format!("{mnemonic} {}\n", operands.join(", ")).into_bytes()
    };
    once_each((0..AT_RANDOM).map(text).collect())
}

fn operand(random: &mut Random) -> String {
    let register = match random.below(6) {
        0 => "sp".to_string(),
        1 => "xzr".to_string(),
        _ => format!("x{}", random.below(32)),
    };
    let amount = 16 * random.below(10) as i64 - 64;
    match random.below(8) {
        0..=3 => register,
        4 => format!("[{register}]"),
        5 => format!("[{register}, #{amount}]"),
        6 => format!("[{register}, #{amount}]!"),
        _ => format!("#{amount}"),
    }
}

/// Texts longer than any line: more lines, endless numbers and names.
pub fn long() -> Vec<Text> {
    let line = "stg x0, [x0], #16\n";
    let many = 1 << 20;
    let mut texts = vec![
        line.repeat(2),
        line.repeat(256),
        line.repeat(many / 16),
        format!("{line}{}", "\n".repeat(many)),
        format!("{line}{}", "\0".repeat(many)),
        format!("{line}{}", " ".repeat(300)),
        format!("{}{line}", "\n".repeat(many)),
        format!("{}{line}", " ".repeat(many)),
        format!("stg x0, [x0], #16{}\n", " ".repeat(many)),
        format!("stg x0, [x0], #{}16\n", "0".repeat(many)),
        format!("stg x0, [x0], #16{}\n", "0".repeat(many)),
        format!("stg x0, [x0], #-{}16\n", "0".repeat(many)),
        format!("stg x{}, [x0], #16\n", "0".repeat(many)),
        format!("stg x{}5, [x0], #16\n", "0".repeat(many)),
        format!("{}tg x0, [x0], #16\n", "s".repeat(many)),
        format!("stg {}x0, [x0], #16\n", " ".repeat(many)),
        format!("stg x0, {}x0], #16\n", "[".repeat(many)),
        format!("stg x0, [x0, #16]{}\n", "!".repeat(many)),
        format!("addg x0, x1, #16, #{}1\n", "0".repeat(many)),
        "x".repeat(many),
        "9".repeat(many),
        "\0".repeat(many),
        "\n".repeat(many),
    ];
    // Lengths at which a count of few bits begins anew.
    for length in [1 << 8, 1 << 16] {
        for more in 0..40 {
            let behind = length + more - line.len();
            texts.push(format!("{line}{}", "x".repeat(behind)));
        }
    }
    texts.extend(FORMS.iter().map(|form| plain_line(form).repeat(3)));
    texts
        .into_iter()
        .map(|text| Text::of(text.into()))
        .collect()
}

#[cfg(test)]
mod tests {
    use super::*;
    use crate::listing::reader::word_of;

    #[test]
    fn plain_lines_have_each_part_once() {
        for form in &FORMS {
            let line = plain_line(form);
            for field in fields(form.instruction) {
                if matches!(field.kind, Kind::Amount | Kind::SignedAmount) {
                    assert_eq!(line.matches("#16").count(), 1, "{line}");
                }
            }
            assert_eq!(line.matches("x5").count(), 1, "{line}");
            assert_eq!(line.matches("x6").count(), 1, "{line}");
        }
    }

    #[test]
    fn no_text_stands_twice_in_a_batch() {
        let mut random = Random::new(1);
        for (kind, make) in OF_A_FORM {
            let texts = make(&mut random, &FORMS[7]);
            let mut once: Vec<&[u8]> = texts.iter().map(Text::text).collect();
            once.sort_unstable();
            once.dedup();
            assert!(kind == "cut short" || once.len() == texts.len(), "{kind}");
        }
    }

    #[test]
    fn what_is_beside_a_line_is_mostly_no_line() {
        let mut random = Random::new(1);
        let refused = |texts: &[Text]| {
            let refused = texts.iter().filter(|text| word_of(text.text()).is_none());
            refused.count()
        };
        for (kind, make) in OF_A_FORM {
            let texts = make(&mut random, &FORMS[7]);
            if kind != "other tag offsets" {
                assert!(2 * refused(&texts) > texts.len(), "{kind}");
            }
        }
        assert_eq!(refused(&long()), long().len());
    }
}

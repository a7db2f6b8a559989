//! The word that a text says, if the text is exactly one line of a listing,
//! line feed and all (document 02, E1). The text is read byte by byte along
//! the grammar; no line is written for that.

use crate::code::Code;
use crate::encoder::encode;
use crate::words::Instruction::{self, *};
use crate::words::{Form, Mode, FORMS};

/// The word of a line, or nothing if the text is no such line.
pub fn word_of(text: &[u8]) -> Option<u32> {
    let mut text = Text { rest: text };
    let instruction = text.mnemonic()?;
    let (mode, values) = text.operands(instruction)?;
    text.expect(b"\n")?;
    text.end()?;
    match encode(form(instruction, mode), &values) {
        (Code::Done, word) => Some(word),
        _ => None,
    }
}

fn form(instruction: Instruction, mode: Option<Mode>) -> &'static Form {
    let mut forms = FORMS.iter();
    let form = forms.find(|form| form.instruction == instruction && form.mode == mode);
    form.expect("the stores alone have a mode")
}

/// A mode, if the instruction has one, and its fields in their order.
type Operands = (Option<Mode>, Vec<u64>);

/// What is not read yet.
struct Text<'a> {
    rest: &'a [u8],
}

impl Text<'_> {
    /// Letters and digits up to a space, and the space.
    fn mnemonic(&mut self) -> Option<Instruction> {
        let end = self.rest.iter().position(|&byte| byte == b' ')?;
        let instruction = match &self.rest[..end] {
            b"addg" => Addg,
            b"subg" => Subg,
            b"subp" => Subp,
            b"subps" => Subps,
            b"irg" => Irg,
            b"gmi" => Gmi,
            b"ldg" => Ldg,
            b"stg" => Stg,
            b"stzg" => Stzg,
            b"st2g" => St2g,
            b"stz2g" => Stz2g,
            b"stgp" => Stgp,
            _ => return None,
        };
        self.rest = &self.rest[end + 1..];
        Some(instruction)
    }

    fn operands(&mut self, instruction: Instruction) -> Option<Operands> {
        match instruction {
            Addg | Subg => self.moved_pointer(),
            Subp | Subps => self.three_registers([b"xzr", b"sp", b"sp"]),
            Irg => self.three_registers([b"sp", b"sp", b"xzr"]),
            Gmi => self.three_registers([b"xzr", b"sp", b"xzr"]),
            Ldg => self.load(),
            Stg | Stzg | St2g | Stz2g => self.store(&[b"sp"]),
            Stgp => self.store(&[b"xzr", b"xzr"]),
        }
    }

    fn moved_pointer(&mut self) -> Option<Operands> {
        let d = self.register(b"sp")?;
        self.expect(b", ")?;
        let n = self.register(b"sp")?;
        self.expect(b", #")?;
        let amount = self.number()?;
        self.expect(b", #")?;
        let offset = self.number()?;
        Some((None, vec![d, n, amount, offset]))
    }

    fn three_registers(&mut self, names_of_31: [&[u8]; 3]) -> Option<Operands> {
        let [d, n, m] = names_of_31;
        let d = self.register(d)?;
        self.expect(b", ")?;
        let n = self.register(n)?;
        self.expect(b", ")?;
        let m = self.register(m)?;
        Some((None, vec![d, n, m]))
    }

    fn load(&mut self) -> Option<Operands> {
        match self.store(&[b"xzr"])? {
            (Some(Mode::Offset), values) => Some((None, values)),
            _ => None,
        }
    }

    /// Registers to be stored, and an address.
    fn store(&mut self, names_of_31: &[&[u8]]) -> Option<Operands> {
        let mut values = Vec::new();
        for name in names_of_31 {
            values.push(self.register(name)?);
            self.expect(b", ")?;
        }
        self.expect(b"[")?;
        values.push(self.register(b"sp")?);
        let (mode, amount) = self.behind_base()?;
        values.push(amount);
        Some((Some(mode), values))
    }

    /// What stands behind the base register of an address. An amount of zero
    /// is left out in the offset form, and there alone.
    fn behind_base(&mut self) -> Option<(Mode, u64)> {
        if self.skip(b"], ") {
            return Some((Mode::Post, self.amount()?));
        }
        if self.skip(b"]") {
            return Some((Mode::Offset, 0));
        }
        self.expect(b", ")?;
        let amount = self.amount()?;
        self.expect(b"]")?;
        if self.skip(b"!") {
            return Some((Mode::Pre, amount));
        }
        (amount != 0).then_some((Mode::Offset, amount))
    }

    /// `x0` to `x30`, or the name that 31 has at this place.
    fn register(&mut self, name_of_31: &[u8]) -> Option<u64> {
        if self.skip(name_of_31) {
            return Some(31);
        }
        self.expect(b"x")?;
        self.number().filter(|&number| number < 31)
    }

    /// A signed amount, modulo 2^64. Zero has no sign.
    fn amount(&mut self) -> Option<u64> {
        self.expect(b"#")?;
        let negative = self.skip(b"-");
        let size = i64::try_from(self.number()?).ok()?;
        match (negative, size) {
            (true, 0) => None,
            (true, _) => Some(-size as u64),
            (false, _) => Some(size as u64),
        }
    }

    /// Decimal digits without a zero before them. A number that 64 bits do
    /// not hold is in range nowhere.
    fn number(&mut self) -> Option<u64> {
        let digits = self.rest.iter().take_while(|byte| byte.is_ascii_digit());
        let (digits, rest) = self.rest.split_at(digits.count());
        self.rest = rest;
        match digits {
            [] | [b'0', _, ..] => None,
            _ => digits.iter().try_fold(0_u64, |number, digit| {
                let tens = number.checked_mul(10)?;
                tens.checked_add(u64::from(digit - b'0'))
            }),
        }
    }

    fn expect(&mut self, text: &[u8]) -> Option<()> {
        self.skip(text).then_some(())
    }

    /// Whether this text came next; then it is read.
    fn skip(&mut self, text: &[u8]) -> bool {
        let rest = self.rest.strip_prefix(text);
        self.rest = rest.unwrap_or(self.rest);
        rest.is_some()
    }

    fn end(&self) -> Option<()> {
        self.rest.is_empty().then_some(())
    }
}

#[cfg(test)]
mod tests {
    use super::*;
    use crate::listing::by_hand::{LINES, NO_LINES};

    fn read(text: &str) -> Option<u32> {
        word_of(text.as_bytes())
    }

    #[test]
    fn lines_by_hand() {
        for (word, line) in LINES {
            assert_eq!(read(&format!("{line}\n")), Some(word), "{line}");
        }
    }

    #[test]
    fn other_spellings_are_no_lines() {
        for text in NO_LINES {
            assert_eq!(read(text), None, "{text:?}");
        }
    }

    #[test]
    fn a_line_ends_with_its_line_feed() {
        for (_, line) in LINES {
            for text in [
                line.to_string(),
                format!("{line}\r\n"),
                format!("{line} \n"),
                format!("{line}\n\n"),
                format!("{line}\n{line}\n"),
                format!("\n{line}\n"),
                format!(" {line}\n"),
                format!("\t{line}\n"),
                format!("{}\n", line.to_uppercase()),
                format!("{}\n", line.replacen(' ', "\t", 1)),
                format!("{}\n", line.replacen(' ', "  ", 1)),
                format!("{}\n", line.replacen(", ", ",", 1)),
            ] {
                assert_eq!(read(&text), None, "{text:?}");
            }
        }
    }

    #[test]
    fn every_beginning_of_a_line_is_no_line() {
        for (_, line) in LINES {
            let line = format!("{line}\n");
            for end in 0..line.len() {
                assert_eq!(read(&line[..end]), None, "{:?}", &line[..end]);
            }
        }
    }

    /// Lines with an amount, and its range as document 01 prints it.
    const AMOUNTS: [(&str, &str, i64, i64); 7] = [
        ("addg x0, x1, #", ", #0\n", 0, 1008),
        ("subg x0, x1, #", ", #0\n", 0, 1008),
        ("ldg x0, [x1, #", "]\n", -4096, 4080),
        ("stg x0, [x1], #", "\n", -4096, 4080),
        ("stz2g x0, [x1, #", "]!\n", -4096, 4080),
        ("stgp x0, x1, [x2], #", "\n", -1024, 1008),
        ("stgp x0, x1, [x2, #", "]!\n", -1024, 1008),
    ];

    #[test]
    fn amounts_are_whole_granules_in_range() {
        for (before, after, lowest, highest) in AMOUNTS {
            let offset_form = before.starts_with("ldg");
            for amount in -5000..=5000 {
                let text = format!("{before}{amount}{after}");
                let in_range = amount >= lowest && amount <= highest && amount % 16 == 0;
                let right = in_range && !(offset_form && amount == 0);
                assert_eq!(read(&text).is_some(), right, "{text:?}");
            }
        }
    }

    #[test]
    fn amounts_of_many_digits_are_not_cut() {
        let powers: [i128; 6] = [1 << 13, 1 << 16, 1 << 31, 1 << 32, 1 << 63, 1 << 64];
        for (before, after, _, _) in AMOUNTS {
            for power in powers {
                for amount in [power, power + 16, power - 16, -power, 16 - power] {
                    let text = format!("{before}{amount}{after}");
                    assert_eq!(read(&text), None, "{text:?}");
                }
            }
            let digits = "9".repeat(30);
            assert_eq!(read(&format!("{before}{digits}{after}")), None);
            let digits = format!("1{}", "0".repeat(30));
            assert_eq!(read(&format!("{before}-{digits}{after}")), None);
        }
    }

    #[test]
    fn tag_offsets_and_registers_are_in_range() {
        for number in 0..400_u64 {
            let offset = read(&format!("addg x0, x1, #16, #{number}\n"));
            assert_eq!(offset.is_some(), number < 16, "{number}");
            let register = read(&format!("irg x{number}, x1, x2\n"));
            assert_eq!(register.is_some(), number < 31, "{number}");
        }
        for number in ["4294967297", "18446744073709551617", "00", "01", "-1", ""] {
            assert_eq!(read(&format!("addg x0, x1, #16, #{number}\n")), None);
            assert_eq!(read(&format!("irg x{number}, x1, x2\n")), None);
        }
    }
}

//! The line of a word: Arm's A64 text of its form, ended by a line feed
//! (document 02, E1). It is put together from the form and its fields.

use crate::encoder::decode;
use crate::words::Form;
use crate::words::Instruction::*;
use crate::words::Mode;

/// The line of a word, or nothing if the word is undefined.
pub fn line_of(word: u32) -> Option<String> {
    let (form, values) = decode(word)?;
    let mnemonic = form.key();
    let operands = operands(form, &values);
    Some(format!("{mnemonic} {operands}\n"))
}

fn operands(form: &Form, values: &[u64]) -> String {
    let address = |n, amount| address(form.mode, n, amount as i64);
    match (form.instruction, values) {
        (Addg | Subg, &[d, n, amount, offset]) => {
            format!("{}, {}, #{amount}, #{offset}", or_sp(d), or_sp(n))
        }
        (Subp | Subps, &[d, n, m]) => format!("{}, {}, {}", or_xzr(d), or_sp(n), or_sp(m)),
        (Irg, &[d, n, m]) => format!("{}, {}, {}", or_sp(d), or_sp(n), or_xzr(m)),
        (Gmi, &[d, n, m]) => format!("{}, {}, {}", or_xzr(d), or_sp(n), or_xzr(m)),
        (Ldg, &[t, n, amount]) => format!("{}, {}", or_xzr(t), address(n, amount)),
        (Stg | Stzg | St2g | Stz2g, &[t, n, amount]) => {
            format!("{}, {}", or_sp(t), address(n, amount))
        }
        (Stgp, &[t, t2, n, amount]) => {
            format!("{}, {}, {}", or_xzr(t), or_xzr(t2), address(n, amount))
        }
        _ => unreachable!("a form has all its fields"),
    }
}

/// LDG, which has no mode, is written as the offset form; in both an amount
/// of zero is left out.
fn address(mode: Option<Mode>, n: u64, amount: i64) -> String {
    let n = or_sp(n);
    match mode {
        Some(Mode::Post) => format!("[{n}], #{amount}"),
        Some(Mode::Pre) => format!("[{n}, #{amount}]!"),
        Some(Mode::Offset) | None if amount == 0 => format!("[{n}]"),
        Some(Mode::Offset) | None => format!("[{n}, #{amount}]"),
    }
}

/// A register at a place where 31 is the stack pointer.
fn or_sp(number: u64) -> String {
    register(number, "sp")
}

/// A register at a place where 31 reads as zero and drops writes.
fn or_xzr(number: u64) -> String {
    register(number, "xzr")
}

fn register(number: u64, at_31: &str) -> String {
    match number {
        31 => at_31.to_string(),
        _ => format!("x{number}"),
    }
}

#[cfg(test)]
mod tests {
    use super::*;
    use crate::listing::by_hand::LINES;

    #[test]
    fn lines_by_hand() {
        for (word, line) in LINES {
            let written = line_of(word);
            assert_eq!(written, Some(format!("{line}\n")), "{word:#010x}");
        }
    }

    #[test]
    fn an_undefined_word_has_no_line() {
        for word in [0, u32::MAX, 0x9180_4020, 0xD9A0_0001, 0xF940_0000] {
            assert_eq!(line_of(word), None, "{word:#010x}");
        }
    }
}

//! Other spellings of a line, which a reader may take for it.

/// Of a line with its line feed. A spelling that does not apply to the line
/// gives the line itself.
pub type Rewrite = fn(&str) -> String;

/// The line with other bytes for its line feed.
fn ended(line: &str, end: &str) -> String {
    format!("{}{end}", line.trim_end())
}

/// The line without what is behind the last of these.
fn before_last(line: &str, part: &str) -> String {
    match line.rsplit_once(part) {
        Some((before, _)) => format!("{before}\n"),
        None => line.to_string(),
    }
}

/// Only the mnemonic changed.
fn mnemonic(line: &str, change: fn(&str) -> String) -> String {
    let (mnemonic, operands) = line.split_once(' ').unwrap_or((line, ""));
    format!("{} {operands}", change(mnemonic))
}

/// Only the operands changed.
fn operands(line: &str, change: fn(&str) -> String) -> String {
    let (mnemonic, operands) = line.split_once(' ').unwrap_or((line, ""));
    format!("{mnemonic} {}", change(operands))
}

/// Every amount and tag offset in another spelling.
fn numbers(line: &str, change: fn(i64) -> String) -> String {
    let mut parts = line.split('#');
    let mut text = parts.next().unwrap_or("").to_string();
    for part in parts {
        let end = part.find([',', ']', '\n']).unwrap_or(part.len());
        let number = part[..end].parse().expect("a decimal number");
        text += &format!("#{}{}", change(number), &part[end..]);
    }
    text
}

/// Only the first of them changed.
fn first_number(line: &str, change: fn(i64) -> String) -> String {
    match line.split_once(", #") {
        Some((before, behind)) if behind.contains(", #") => {
            let (first, others) = behind.split_once(", #").unwrap_or((behind, ""));
            let first = numbers(&format!("#{first}\n"), change);
            format!("{before}, {}, #{others}", first.trim_end())
        }
        _ => numbers(line, change),
    }
}

fn hexadecimal(number: i64) -> String {
    let sign = if number < 0 { "-" } else { "" };
    format!("{sign}{:#x}", number.unsigned_abs())
}

fn upper_hexadecimal(number: i64) -> String {
    hexadecimal(number).to_uppercase()
}

fn digits_before(number: i64, digits: &str) -> String {
    let sign = if number < 0 { "-" } else { "" };
    format!("{sign}{digits}{}", number.unsigned_abs())
}

/// The `x` of each register in another spelling.
fn registers(line: &str, new: &str) -> String {
    let parts: Vec<String> = line
        .split("xzr")
        .map(|part| part.replace('x', new))
        .collect();
    parts.join("xzr")
}

/// Operands from the last to the first.
fn reversed(line: &str) -> String {
    operands(line, |text| {
        let mut parts: Vec<&str> = text.trim_end().split(", ").collect();
        parts.reverse();
        format!("{}\n", parts.join(", "))
    })
}

#[rustfmt::skip]
pub const ALL: [(&str, Rewrite); 94] = [
    ("upper case", |l| l.to_uppercase()),
    ("mnemonic in upper case", |l| mnemonic(l, str::to_uppercase)),
    ("operands in upper case", |l| operands(l, str::to_uppercase)),
    ("registers in upper case", |l| registers(l, "X")),
    ("SP in upper case", |l| l.replace("sp", "SP")),
    ("XZR in upper case", |l| l.replace("xzr", "XZR")),
    ("first letter in upper case", |l| format!("{}{}", l[..1].to_uppercase(), &l[1..])),
    ("hexadecimal numbers", |l| numbers(l, hexadecimal)),
    ("hexadecimal amount", |l| first_number(l, hexadecimal)),
    ("upper-case hexadecimal numbers", |l| numbers(l, upper_hexadecimal)),
    ("octal numbers", |l| numbers(l, |n| format!("0{n:o}"))),
    ("binary numbers", |l| numbers(l, |n| format!("{n:#b}"))),
    ("a zero before numbers", |l| numbers(l, |n| digits_before(n, "0"))),
    ("two zeros before numbers", |l| numbers(l, |n| digits_before(n, "00"))),
    ("30 zeros before numbers", |l| numbers(l, |n| digits_before(n, "000000000000000000000000000000"))),
    ("a zero before the sign", |l| numbers(l, |n| format!("0{n}"))),
    ("plus before numbers", |l| numbers(l, |n| format!("{n:+}"))),
    ("plus before the amount", |l| first_number(l, |n| format!("{n:+}"))),
    ("minus before numbers", |l| numbers(l, |n| format!("-{n}"))),
    ("minus before zero", |l| numbers(l, |n| if n == 0 { "-0".into() } else { n.to_string() })),
    ("plus before zero", |l| numbers(l, |n| if n == 0 { "+0".into() } else { n.to_string() })),
    ("no minus", |l| l.replace("#-", "#")),
    ("a space behind minus", |l| l.replace("#-", "#- ")),
    ("minus before the number sign", |l| l.replace("#-", "-#")),
    ("numbers one more", |l| numbers(l, |n| (n + 1).to_string())),
    ("numbers one less", |l| numbers(l, |n| (n - 1).to_string())),
    ("numbers of granules", |l| first_number(l, |n| if n % 16 == 0 { (n / 16).to_string() } else { n.to_string() })),
    ("numbers of 64 bits", |l| numbers(l, |n| (n as u64).to_string())),
    ("numbers and 2^64", |l| numbers(l, |n| (i128::from(n) + (1 << 64)).to_string())),
    ("numbers and 2^32", |l| numbers(l, |n| (n + (1 << 32)).to_string())),
    ("numbers and 2^16", |l| numbers(l, |n| (n + (1 << 16)).to_string())),
    ("a point behind numbers", |l| numbers(l, |n| format!("{n}."))),
    ("a fraction", |l| numbers(l, |n| format!("{n}.0"))),
    ("no digits", |l| numbers(l, |_| String::new())),
    ("no number sign", |l| l.replace('#', "")),
    ("no first number sign", |l| l.replacen('#', "", 1)),
    ("two number signs", |l| l.replace('#', "##")),
    ("another number sign", |l| l.replace('#', "$")),
    ("a space behind the number sign", |l| l.replace('#', "# ")),
    ("no spaces", |l| l.replace(' ', "")),
    ("no space behind the mnemonic", |l| l.replacen(' ', "", 1)),
    ("no space behind commas", |l| l.replace(", ", ",")),
    ("no space behind the first comma", |l| l.replacen(", ", ",", 1)),
    ("no space behind the last comma", |l| { let (a, b) = l.rsplit_once(", ").unwrap_or((l, "")); format!("{a},{b}") }),
    ("two spaces behind the mnemonic", |l| l.replacen(' ', "  ", 1)),
    ("many spaces behind the mnemonic", |l| l.replacen(' ', "        ", 1)),
    ("two spaces behind commas", |l| l.replace(", ", ",  ")),
    ("a space before commas", |l| l.replace(',', " ,")),
    ("a space before the mnemonic", |l| format!(" {l}")),
    ("a space at the end", |l| ended(l, " \n")),
    ("a space behind the line feed", |l| format!("{l} ")),
    ("spaces in brackets", |l| l.replace('[', "[ ").replace(']', " ]")),
    ("a space before the bracket's end", |l| l.replace(']', " ]")),
    ("a space before the mark", |l| l.replace('!', " !")),
    ("a tab behind the mnemonic", |l| l.replacen(' ', "\t", 1)),
    ("tabs for spaces", |l| l.replace(' ', "\t")),
    ("a tab before the mnemonic", |l| format!("\t{l}")),
    ("a tab at the end", |l| ended(l, "\t\n")),
    ("no commas", |l| l.replace(',', "")),
    ("no first comma", |l| l.replacen(',', "", 1)),
    ("a comma at the end", |l| ended(l, ",\n")),
    ("no brackets", |l| l.replace(['[', ']'], "")),
    ("other brackets", |l| l.replace('[', "(").replace(']', ")")),
    ("no bracket's end", |l| l.replace(']', "")),
    ("a zero amount shown", |l| if l.contains("]\n") && !l.contains('#') { l.replace(']', ", #0]") } else { l.into() }),
    ("a zero amount shown behind", |l| if l.contains("]\n") { l.replace("]\n", "], #0\n") } else { l.into() }),
    ("a zero amount left out", |l| l.replace(", #0", "")),
    ("the amount left out", |l| before_last(l, ", #")),
    ("no mark", |l| l.replace('!', "")),
    ("a mark", |l| l.replace("]\n", "]!\n")),
    ("two marks", |l| l.replace('!', "!!")),
    ("no line feed", |l| ended(l, "")),
    ("carriage return and line feed", |l| ended(l, "\r\n")),
    ("carriage return", |l| ended(l, "\r")),
    ("line feed and carriage return", |l| ended(l, "\n\r")),
    ("NUL for the line feed", |l| ended(l, "\0")),
    ("NUL behind the line feed", |l| ended(l, "\n\0")),
    ("an empty line behind", |l| format!("{l}\n")),
    ("an empty line before", |l| format!("\n{l}")),
    ("two lines", |l| l.repeat(2)),
    ("two lines, the second not ended", |l| format!("{l}{}", l.trim_end())),
    ("a comment behind", |l| ended(l, " // text\n")),
    ("another comment behind", |l| ended(l, "; text\n")),
    ("the last operand left out", |l| before_last(l, ", ")),
    ("the last operand twice", |l| { let last = l.trim_end().rsplit(", ").next().unwrap_or(""); ended(l, &format!(", {last}\n")) }),
    ("operands from the last to the first", reversed),
    ("cmpp", |l| if l.starts_with("subps xzr, ") { l.replace("subps xzr, ", "cmpp ") } else { l.replacen("subps", "cmpp", 1) }),
    ("irg with two registers", |l| if l.starts_with("irg") { before_last(l, ", ") } else { l.into() }),
    ("registers of 32 bits", |l| registers(l, "w")),
    ("a zero before registers", |l| registers(l, "x0")),
    ("x31 for sp", |l| l.replace("sp", "x31")),
    ("xzr for sp", |l| l.replace("sp", "xzr")),
    ("sp for xzr", |l| l.replace("xzr", "sp")),
    ("x31 for xzr", |l| l.replace("xzr", "x31")),
];

#[cfg(test)]
mod tests {
    use super::*;
    use crate::listing::texts::{OF_A_FORM, RANDOM};
    use std::collections::HashSet;

    fn spelled(name: &str, line: &str) -> String {
        let found = ALL.iter().find(|(other, _)| *other == name);
        let (_, rewrite) = found.expect("a spelling's name");
        rewrite(line)
    }

    #[test]
    fn spellings_by_hand() {
        for (name, line, text) in [
            (
                "hexadecimal numbers",
                "addg x0, x1, #1008, #15\n",
                "addg x0, x1, #0x3f0, #0xf\n",
            ),
            (
                "hexadecimal amount",
                "addg x0, x1, #1008, #15\n",
                "addg x0, x1, #0x3f0, #15\n",
            ),
            (
                "hexadecimal amount",
                "stg x0, [x1, #-16]!\n",
                "stg x0, [x1, #-0x10]!\n",
            ),
            (
                "two zeros before numbers",
                "stg x0, [x1], #-16\n",
                "stg x0, [x1], #-0016\n",
            ),
            (
                "minus before zero",
                "stg x0, [x1], #0\n",
                "stg x0, [x1], #-0\n",
            ),
            (
                "numbers of 64 bits",
                "stg x0, [x1], #-16\n",
                "stg x0, [x1], #18446744073709551600\n",
            ),
            (
                "a zero amount shown",
                "ldg x0, [x1]\n",
                "ldg x0, [x1, #0]\n",
            ),
            (
                "a zero amount shown",
                "ldg x0, [x1, #16]\n",
                "ldg x0, [x1, #16]\n",
            ),
            ("cmpp", "subps xzr, x1, x2\n", "cmpp x1, x2\n"),
            (
                "irg with two registers",
                "irg x0, x1, xzr\n",
                "irg x0, x1\n",
            ),
            (
                "registers of 32 bits",
                "gmi xzr, x1, x2\n",
                "gmi xzr, w1, w2\n",
            ),
            ("x31 for sp", "irg sp, sp, xzr\n", "irg x31, x31, xzr\n"),
            ("sp for xzr", "irg sp, sp, xzr\n", "irg sp, sp, sp\n"),
            (
                "the last operand twice",
                "irg x0, x1, x2\n",
                "irg x0, x1, x2, x2\n",
            ),
            (
                "operands from the last to the first",
                "irg x0, x1, x2\n",
                "irg x2, x1, x0\n",
            ),
            (
                "no space behind the last comma",
                "irg x0, x1, x2\n",
                "irg x0, x1,x2\n",
            ),
        ] {
            assert_eq!(spelled(name, line), text, "{name}");
        }
    }

    #[test]
    fn each_kind_of_text_has_a_name_of_its_own() {
        let spellings = ALL.iter().map(|(name, _)| *name);
        let of_a_form = OF_A_FORM.iter().map(|(name, _)| *name);
        let random = RANDOM.iter().map(|(name, _)| *name);
        let names: Vec<&str> = spellings.chain(of_a_form).chain(random).collect();
        let once: HashSet<&str> = names.iter().copied().collect();
        assert_eq!(once.len(), names.len());
    }
}

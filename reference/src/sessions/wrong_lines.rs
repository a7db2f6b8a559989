//! Every way that is tried in which one line can be wrong.

use super::changes::GOOD;
use super::drafts::ended;
use crate::session::SETTINGS;

/// What stands in the place of a line of this key and value, with its end.
type Rewrite = fn(&str, &str) -> Vec<u8>;

/// A way in which a line can be wrong.
#[derive(Clone, Copy)]
pub struct Way {
    pub name: &'static str,
    rewrite: Rewrite,
    /// The key of the line that it belongs to, if not to each.
    key: Option<&'static str>,
}

const fn way(name: &'static str, rewrite: Rewrite) -> Way {
    let key = None;
    Way { name, rewrite, key }
}

/// The number in the place of the value, of which the rules of one line
/// allow fewer than its digits do.
const fn too_large(name: &'static str, key: &'static str, rewrite: Rewrite) -> Way {
    let key = Some(key);
    Way { name, rewrite, key }
}

/// A text in the place of the line, ended by a line feed.
fn line(text: String) -> Vec<u8> {
    format!("{text}\n").into_bytes()
}

/// The value with another byte for its first digit.
fn first(key: &str, value: &str, byte: u8) -> Vec<u8> {
    let mut text = line(format!("{key}={value}"));
    text[key.len() + 1] = byte;
    text
}

/// The value with another byte for its last digit.
fn last(key: &str, value: &str, byte: u8) -> Vec<u8> {
    let mut text = line(format!("{key}={value}"));
    let place = text.len() - 2;
    text[place] = byte;
    text
}

/// The line with another byte at a place of it.
fn byte_at(key: &str, value: &str, place: usize, byte: u8) -> Vec<u8> {
    let mut text = line(format!("{key}={value}"));
    text[place] = byte;
    text
}

fn around(before: &[u8], key: &str, value: &str, after: &[u8]) -> Vec<u8> {
    [before, format!("{key}={value}").as_bytes(), after, b"\n"].concat()
}

/// The key that is so many lines on in the order, round from the words to
/// the base.
fn neighbour(key: &str, on: usize) -> &'static str {
    let keys: Vec<&str> = SETTINGS.iter().copied().chain(["word"]).collect();
    let place = keys.iter().position(|&other| other == key);
    keys[(place.expect("a key of a session") + on) % keys.len()]
}

#[rustfmt::skip]
pub const WAYS: [Way; 105] = [
    way("a key of no line", |_, v| line(format!("x3={v}"))),
    way("the key of the line before", |k, v| line(format!("{}={v}", neighbour(k, 9)))),
    way("the key of the line after", |k, v| line(format!("{}={v}", neighbour(k, 1)))),
    way("a letter more in the key", |k, v| line(format!("{k}s={v}"))),
    way("a letter less in the key", |k, v| line(format!("{}={v}", &k[1..]))),
    way("no key", |_, v| line(format!("={v}"))),
    way("upper-case key", |k, v| line(format!("{}={v}", k.to_uppercase()))),
    way("no equals sign", |k, v| line(format!("{k}{v}"))),
    way("two equals signs", |k, v| line(format!("{k}=={v}"))),
    way("an equals sign for the first digit", |k, v| first(k, v, b'=')),
    way("a colon for the equals sign", |k, v| byte_at(k, v, k.len(), b':')),
    way("a space for the equals sign", |k, v| byte_at(k, v, k.len(), b' ')),
    way("the first digit missing", |k, v| line(format!("{k}={}", &v[1..]))),
    way("no digits", |k, _| line(format!("{k}="))),
    way("a zero before the digits", |k, v| line(format!("{k}=0{v}"))),
    way("a zero after the digits", |k, v| line(format!("{k}={v}0"))),
    way("eight digits too many", |k, v| line(format!("{k}=00000000{v}"))),
    way("an upper-case first digit", |k, v| first(k, v, b'A')),
    way("an upper-case last digit", |k, v| last(k, v, b'F')),
    way("g for the first digit", |k, v| first(k, v, b'g')),
    way("g for the last digit", |k, v| last(k, v, b'g')),
    way("G for the last digit", |k, v| last(k, v, b'G')),
    way("the byte before 0 for the last digit", |k, v| last(k, v, b'/')),
    way("the byte after 9 for the last digit", |k, v| last(k, v, b':')),
    way("the byte before A for the last digit", |k, v| last(k, v, b'@')),
    way("the byte before a for the last digit", |k, v| last(k, v, b'`')),
    way("a point for the last digit", |k, v| last(k, v, b'.')),
    way("an underscore for the first digit", |k, v| first(k, v, b'_')),
    way("plus for the first digit", |k, v| first(k, v, b'+')),
    way("minus for the first digit", |k, v| first(k, v, b'-')),
    way("plus before the digits", |k, v| line(format!("{k}=+{v}"))),
    way("minus before the digits", |k, v| line(format!("{k}=-{v}"))),
    way("0x before the digits", |k, v| line(format!("{k}=0x{v}"))),
    way("0x for the first digits", |k, v| line(format!("{k}=0x{}", v.get(2..).unwrap_or("")))),
    way("h after the digits", |k, v| line(format!("{k}={v}h"))),
    way("space before the key", |k, v| around(b" ", k, v, b"")),
    way("space after the key", |k, v| line(format!("{k} ={v}"))),
    way("space before the digits", |k, v| line(format!("{k}= {v}"))),
    way("space after the digits", |k, v| around(b"", k, v, b" ")),
    way("space for the first digit", |k, v| first(k, v, b' ')),
    way("space for the last digit", |k, v| last(k, v, b' ')),
    way("tab before the key", |k, v| around(b"\t", k, v, b"")),
    way("tab after the key", |k, v| line(format!("{k}\t={v}"))),
    way("tab before the digits", |k, v| line(format!("{k}=\t{v}"))),
    way("tab after the digits", |k, v| around(b"", k, v, b"\t")),
    way("vertical tab after the digits", |k, v| around(b"", k, v, b"\x0B")),
    way("form feed after the digits", |k, v| around(b"", k, v, b"\x0C")),
    way("an empty line in its place", |_, _| line(String::new())),
    way("an empty line before it", |k, v| around(b"\n", k, v, b"")),
    way(EMPTY_LINE_AFTER, |k, v| around(b"", k, v, b"\n")),
    way("a space in its place", |_, _| line(" ".into())),
    way("a tab in its place", |_, _| line("\t".into())),
    way("a remark in its place", |_, _| line("# remark".into())),
    way("a remark before it", |k, v| around(b"# remark\n", k, v, b"")),
    way("a remark after the digits", |k, v| around(b"", k, v, b"# remark")),
    way("the line made a remark", |k, v| around(b"#", k, v, b"")),
    way("carriage return and line feed", |k, v| around(b"", k, v, b"\r")),
    way("carriage return for the line feed", |k, v| format!("{k}={v}\r").into_bytes()),
    way("line feed and carriage return", |k, v| around(b"\r", k, v, b"")),
    way("an empty line of carriage return and line feed", |_, _| line("\r".into())),
    way("no line feed", |k, v| format!("{k}={v}").into_bytes()),
    way("a line feed after the key", |k, v| line(format!("{k}\n={v}"))),
    way("a line feed before the digits", |k, v| line(format!("{k}=\n{v}"))),
    way("a line feed for the last digit", |k, v| last(k, v, b'\n')),
    way("the line twice in one", |k, v| line(format!("{k}={v}{k}={v}"))),
    way("the line twice with a space between", |k, v| line(format!("{k}={v} {k}={v}"))),
    way("NUL before the key", |k, v| around(b"\0", k, v, b"")),
    way("NUL in the key", |k, v| byte_at(k, v, 1, 0)),
    way("NUL for the equals sign", |k, v| byte_at(k, v, k.len(), 0)),
    way("NUL for the first digit", |k, v| first(k, v, 0)),
    way("NUL for the last digit", |k, v| last(k, v, 0)),
    way("NUL after the digits", |k, v| around(b"", k, v, b"\0")),
    way("NUL for the line feed", |k, v| format!("{k}={v}\0").into_bytes()),
    way("NUL in its place", |_, _| line("\0".into())),
    way("bit 7 set in the key", |k, v| byte_at(k, v, 0, k.as_bytes()[0] | 0x80)),
    way("bit 7 set in the equals sign", |k, v| byte_at(k, v, k.len(), b'=' | 0x80)),
    way("bit 7 set in the first digit", |k, v| first(k, v, v.as_bytes()[0] | 0x80)),
    way("bit 7 set in the last digit", |k, v| last(k, v, v.as_bytes()[v.len() - 1] | 0x80)),
    way("bit 7 set in the line feed", |k, v| around(b"", k, v, b"\x8A")),
    way("ff before the key", |k, v| around(b"\xFF", k, v, b"")),
    way("ff for the last digit", |k, v| last(k, v, 0xFF)),
    way("ff after the digits", |k, v| around(b"", k, v, b"\xFF")),
    way("a byte order mark before the key", |k, v| around(b"\xEF\xBB\xBF", k, v, b"")),
    way("a wide zero for the last digit", |k, v| line(format!("{k}={}\u{FF10}", &v[1..]))),
    too_large("granules 0401", "granules", |_, _| line("granules=0401".into())),
    too_large("granules 0402", "granules", |_, _| line("granules=0402".into())),
    too_large("granules 0500", "granules", |_, _| line("granules=0500".into())),
    too_large("granules 0800", "granules", |_, _| line("granules=0800".into())),
    too_large("granules 1000", "granules", |_, _| line("granules=1000".into())),
    too_large("granules 8004", "granules", |_, _| line("granules=8004".into())),
    too_large("granules ffff", "granules", |_, _| line("granules=ffff".into())),
    too_large("access 2", "access", |_, _| line("access=2".into())),
    too_large("access 3", "access", |_, _| line("access=3".into())),
    too_large("access 4", "access", |_, _| line("access=4".into())),
    too_large("access 5", "access", |_, _| line("access=5".into())),
    too_large("access 6", "access", |_, _| line("access=6".into())),
    too_large("access 7", "access", |_, _| line("access=7".into())),
    too_large("access 8", "access", |_, _| line("access=8".into())),
    too_large("access 9", "access", |_, _| line("access=9".into())),
    too_large("access a", "access", |_, _| line("access=a".into())),
    too_large("access b", "access", |_, _| line("access=b".into())),
    too_large("access c", "access", |_, _| line("access=c".into())),
    too_large("access d", "access", |_, _| line("access=d".into())),
    too_large("access e", "access", |_, _| line("access=e".into())),
    too_large("access f", "access", |_, _| line("access=f".into())),
];

/// The only way in which not the line itself is wrong, but the next.
const EMPTY_LINE_AFTER: &str = "an empty line after it";

impl Way {
    pub fn applies_to(&self, line: &str) -> bool {
        self.key
            .is_none_or(|key| line.split('=').next() == Some(key))
    }

    /// Lines with one of them wrong in this way.
    pub fn with_wrong(&self, lines: &[impl AsRef<str>], place: usize) -> Vec<u8> {
        let line = lines[place].as_ref();
        let (key, value) = line.split_once('=').expect("a line of a session");
        let wrong = (self.rewrite)(key, value);
        [ended(&lines[..place]), wrong, ended(&lines[place + 1..])].concat()
    }
}

/// GOOD with so many words, its own again and again.
pub fn with_words(count: usize) -> Vec<&'static str> {
    let (settings, words) = GOOD.split_at(SETTINGS.len());
    let words = words.iter().cycle().take(count);
    settings.iter().chain(words).copied().collect()
}

/// GOOD with all its lines ended by these bytes.
pub fn all_ended_by(end: &[u8]) -> Vec<u8> {
    let lines = GOOD.iter();
    lines
        .flat_map(|line| [line.as_bytes(), end].concat())
        .collect()
}

/// What might be taken for a line feed.
pub const ENDS: [&[u8]; 10] = [
    b"\r\n", b"\r", b"\n\r", b" \n", b"\t\n", b"\0", b"\0\n", b"\n\0", b"\n\n", b"",
];

/// The places at which lines of a session of this length are made wrong: all
/// of a short one, of a long one the first and the last words.
pub fn places(lines: usize) -> Vec<usize> {
    match lines {
        0..=20 => (0..lines).collect(),
        _ => vec![SETTINGS.len(), SETTINGS.len() + 1, lines - 2, lines - 1],
    }
}

#[cfg(test)]
mod tests {
    use super::*;
    use crate::session::read;

    #[test]
    fn the_line_that_is_made_wrong_is_named() {
        for count in [0, 8, 256, 257] {
            let lines = with_words(count);
            for way in WAYS {
                let places = places(lines.len()).into_iter();
                for place in places.filter(|&place| way.applies_to(lines[place])) {
                    let wrong = place + 1 + usize::from(way.name == EMPTY_LINE_AFTER);
                    let named = read(&way.with_wrong(&lines, place));
                    assert_eq!(named, Err(wrong.min(266)), "{} {place}", way.name);
                }
            }
        }
    }

    #[test]
    fn no_other_end_is_right() {
        assert!(read(&all_ended_by(b"\n")).is_ok());
        for end in ENDS {
            let named = if end.starts_with(b"\n") { 2 } else { 1 };
            assert_eq!(read(&all_ended_by(end)), Err(named), "{end:?}");
        }
    }

    #[test]
    fn each_way_has_a_name_and_a_text_of_its_own() {
        for (number, one) in WAYS.iter().enumerate() {
            for other in &WAYS[..number] {
                assert_ne!(one.name, other.name);
                let text = |way: &Way| way.with_wrong(&GOOD, 5);
                let alike = one.key.is_none() && other.key.is_none() && text(one) == text(other);
                assert!(!alike, "{} and {}", one.name, other.name);
            }
        }
    }
}

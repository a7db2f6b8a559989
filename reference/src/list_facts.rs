//! Which cases a list of calls is that is played as one.

use crate::code::Code;
use crate::list::{Call, Full, Lent, List, MOST_CALLS, MOST_WORDS};
use crate::recorded::Recorded;
use crate::tally::Tally;

pub const SIZE: &str = "lists of";
pub const LENT: &str = "lists lent";
pub const BEGUN: &str = "lists begun";
pub const BETWEEN: &str = "lines between calls of a list";
pub const ENDED: &str = "lists ended by";
pub const STATE: &str = "state after lists";

const MOST_BUT_ONE_CALL: usize = MOST_CALLS - 1;
const MOST_BUT_ONE_WORD: usize = MOST_WORDS - 1;

/// What ends a list that is full.
pub fn name(full: Full) -> &'static str {
    match full {
        Full::Calls => "a call too many",
        Full::Words => "words too many",
        Full::Both => "both too many",
    }
}

pub fn count(tally: &mut Tally, list: &List, lent: &Lent, ended_by: &'static str) {
    tally
        .lists
        .count(list.code(lent), list.calls().len() as u64);
    tally.count_case(ENDED, ended_by);
    for name in sizes(list) {
        tally.count_case(SIZE, name);
    }
    for (name, met) in loans(list, lent) {
        if met {
            tally.count_case(LENT, name);
        }
    }
    for name in list.between() {
        tally.count_case(BETWEEN, name);
    }
}

/// On which machine a list is played or refused, and whether the state is
/// written after it.
pub fn count_around(tally: &mut Tally, recorded: &Recorded, code: Code, state: bool) {
    let on = match recorded.held {
        _ if !recorded.well_formed() => "malformed setup",
        0 => "held = 0",
        _ => "held > 0",
    };
    tally.count_case(BEGUN, &format!("{on}, {code:?}"));
    let state = if state { "written" } else { "not written" };
    tally.count_case(STATE, &format!("{state}, {code:?}"));
}

fn sizes(list: &List) -> Vec<&'static str> {
    let calls = match list.calls().len() {
        1 => "one call",
        MOST_BUT_ONE_CALL => "4095 calls",
        MOST_CALLS => "4096 calls",
        _ => "several calls",
    };
    let words = match list.words() {
        0 => "no words",
        MOST_BUT_ONE_WORD => "16383 words",
        MOST_WORDS => "16384 words",
        _ => "some words",
    };
    let mut names = vec![calls, words];
    if list.calls().iter().any(|call| call == &Call::Run(vec![])) {
        names.push("an empty run among them");
    }
    if listed_anew(list) {
        names.push("runs of words listed anew");
    }
    names
}

/// Whether a run has another word than the run before it at the same place.
fn listed_anew(list: &List) -> bool {
    let runs: Vec<&Vec<u32>> = list
        .calls()
        .iter()
        .filter_map(|call| match call {
            Call::Run(words) => Some(words),
            _ => None,
        })
        .collect();
    let differ = |pair: &[&Vec<u32>]| pair[0].iter().zip(pair[1]).any(|(one, other)| one != other);
    runs.windows(2).any(differ)
}

/// What is the case with what a list is lent. Of what is not named as too few
/// or as nothing there is enough.
fn loans(list: &List, lent: &Lent) -> [(&'static str, bool); 13] {
    let (calls, words) = (list.calls().len(), list.words());
    let enough_codes = lent.codes >= calls;
    let enough_counts = lent.counts >= calls;
    let enough_words = lent.words >= words;
    let one_code_short = lent.codes + 1 == calls;
    let one_count_short = lent.counts + 1 == calls;
    let one_word_short = lent.words + 1 == words;
    [
        (
            "exactly enough",
            lent.codes == calls && lent.counts == calls && lent.words == words,
        ),
        (
            "a code too few alone",
            one_code_short && enough_counts && enough_words,
        ),
        (
            "a count too few alone",
            one_count_short && enough_codes && enough_words,
        ),
        (
            "a word too few alone",
            one_word_short && enough_codes && enough_counts,
        ),
        (
            "a code and a count too few",
            one_code_short && one_count_short && enough_words,
        ),
        (
            "a code and a word too few",
            one_code_short && enough_counts && one_word_short,
        ),
        (
            "a count and a word too few",
            one_count_short && enough_codes && one_word_short,
        ),
        (
            "no codes alone",
            lent.codes == 0 && enough_counts && enough_words,
        ),
        (
            "no counts alone",
            lent.counts == 0 && enough_codes && enough_words,
        ),
        (
            "no words alone, some taken",
            lent.words == 0 && words > 0 && enough_codes && enough_counts,
        ),
        (
            "no words, none taken",
            lent.words == 0 && words == 0 && enough_codes && enough_counts,
        ),
        (
            "nothing",
            (lent.codes, lent.counts, lent.words) == (0, 0, 0),
        ),
        ("the most", lent == &Lent::MOST),
    ]
}

#[cfg(test)]
mod tests {
    use super::*;
    use crate::player::play;

    /// The cases that a script is, of one group.
    fn cases(group: &'static str, script: &str) -> String {
        let tally = play(script.as_bytes()).tally;
        let line = tally.by_case();
        let begin = format!("{group}: ");
        let line = line.lines().find_map(|line| line.strip_prefix(&begin));
        line.unwrap_or("").to_string()
    }

    #[test]
    fn sizes_are_told() {
        let size = |script: &str| cases(SIZE, &format!("dump=0\nplay=1\n{script}"));
        assert_eq!(size("back\n"), "no words 1; one call 1");
        assert_eq!(
            size("word=00000000\nrun=00000000\n"),
            "an empty run among them 1; several calls 1; some words 1"
        );
        assert_eq!(
            size("list=00000000 00000001\nrun=00000001\nlist=00000000 00000002\nrun=00000001\n"),
            "runs of words listed anew 1; several calls 1; some words 1"
        );
        assert_eq!(
            size(&"back\n".repeat(0x1FFF)),
            "4095 calls 1; 4096 calls 1; no words 2"
        );
        assert_eq!(
            size("run=00001000\nrun=00001000\nrun=00001000\nrun=00001000\nrun=00000001\n"),
            "16384 words 1; one call 1; several calls 1; some words 1"
        );
        assert_eq!(
            size("run=00001000\nrun=00001000\nrun=00001000\nrun=00000fff\nrun=00000002\n"),
            "16383 words 1; one call 1; several calls 1; some words 1"
        );
    }

    #[test]
    fn what_is_lent_is_told() {
        // Two calls that take three words.
        let calls = "run=00000002\nword=00000000\n";
        for (lend, told) in [
            ("00000002 00000002 00000003", "exactly enough 1"),
            ("00000001 00000002 00000003", "a code too few alone 1"),
            ("00000009 00000001 00000003", "a count too few alone 1"),
            ("00000002 00000002 00000002", "a word too few alone 1"),
            ("00000001 00000002 00000002", "a code and a word too few 1"),
            ("00000002 00000001 00000002", "a count and a word too few 1"),
            ("00000000 00000002 00000003", "no codes alone 1"),
            ("00000002 00000000 00000003", "no counts alone 1"),
            ("00000002 00000002 00000000", "no words alone, some taken 1"),
            ("00000000 00000000 00000000", "nothing 1"),
            ("00009000 00009000 00009000", "the most 1"),
            ("00000001 00000001 00000003", "a code and a count too few 1"),
            ("00000003 00000003 00000004", ""),
        ] {
            let script = format!("play=1\nlend={lend}\n{calls}");
            assert_eq!(cases(LENT, &script), told, "{lend}");
        }
        let script = "play=1\nlend=00000001 00000001 00000000\nback\n";
        assert_eq!(
            cases(LENT, script),
            "exactly enough 1; no words, none taken 1"
        );
    }

    #[test]
    fn ends_and_begins_are_told() {
        let script = "\
dump=0
play=1
back
#

list=00000000 00000001
back
show
back
nzcv=10
back
lend=00000000 00000000 00000000
back
";
        assert_eq!(
            cases(ENDED, script),
            "lend 1; nzcv 1; show 1; the end of the script 1"
        );
        assert_eq!(cases(BETWEEN, script), "list 1; passed over 2");
        assert_eq!(
            cases(BEGUN, script),
            "held = 0, Done 2; malformed setup, Done 1; malformed setup, NoRoom 1"
        );
        assert_eq!(
            cases(STATE, &script.replacen("show", "dump=1", 1)),
            "not written, Done 1; written, Done 2; written, NoRoom 1"
        );
    }
}

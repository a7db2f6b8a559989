//! Scripts of calls in both ways: every call by itself, and the calls in a row
//! as lists. Apart from the lists' own lines the same must be written.

use super::author::Script;
use crate::player::play;
use crate::script::MOST_BYTES;
use crate::tally::Tally;
use crate::trials::{Input, Trial};

/// The first line of each script of a pair.
pub const WAYS: [&str; 2] = ["play=0", "play=1"];

/// One script in both ways.
pub struct Pair {
    pub scripts: [Script; 2],
    /// What the script of lists did.
    tally: Tally,
}

impl Pair {
    pub fn of(script: &Script) -> Pair {
        let scripts = WAYS.map(|way| {
            let text = in_way(&script.text, way);
            assert!(text.len() <= MOST_BYTES, "a pair's script is played");
            let played = play(&text);
            Script { text, played }
        });
        let [alone, lists] = &scripts;
        let mut tally = lists.played.tally.clone();
        let output = &alone.played.output;
        tally.lines_both_ways = output.iter().filter(|&&byte| byte == b'\n').count() as u64;
        Pair { scripts, tally }
    }
}

impl Trial for Pair {
    const NAME: &'static str = "pair";

    fn inputs(&self) -> Vec<Input<'_>> {
        let [alone, lists] = &self.scripts;
        vec![alone.input("play-0.script"), lists.input("play-1.script")]
    }

    fn tally(&self) -> &Tally {
        &self.tally
    }
}

/// The script in one way, with the state not after calls but before each fresh
/// machine and at the end.
fn in_way(script: &[u8], way: &str) -> Vec<u8> {
    let mut lines: Vec<&[u8]> = vec![way.as_bytes(), b"\n", b"dump=0\n"];
    let show = b"show\n".as_slice();
    let own_lines = script.split_inclusive(|&byte| byte == b'\n');
    for (number, line) in own_lines.enumerate() {
        if number > 0 && line.starts_with(b"fresh=") {
            lines.push(show);
        }
        if line != show && !line.starts_with(b"dump=") {
            lines.push(line);
        }
    }
    lines.push(show);
    lines.concat()
}

/// What is written, without the lists' own lines.
pub fn without_lists(output: &[u8]) -> Vec<u8> {
    let lines = output.split_inclusive(|&byte| byte == b'\n');
    let others = lines.filter(|line| !line.starts_with(b"played="));
    others.collect::<Vec<_>>().concat()
}

#[cfg(test)]
mod tests {
    use super::*;
    use crate::code::Code;

    const SCRIPT: &str = "\
fresh=0000000000001000
dump=1
word=91810400
show
back
# remark
fresh=0000000000002000
dump=0
list=00000000 91810400
run=00000001
show
";

    #[test]
    fn states_stand_before_fresh_machines_and_at_the_end() {
        for way in WAYS {
            let expected = "\
dump=0
fresh=0000000000001000
word=91810400
back
# remark
show
fresh=0000000000002000
list=00000000 91810400
run=00000001
show
";
            let text = in_way(SCRIPT.as_bytes(), way);
            assert_eq!(
                String::from_utf8_lossy(&text),
                format!("{way}\n{expected}"),
                "{way}"
            );
        }
        let later = in_way(b"# remark\nfresh=0000000000001000\n", "play=1");
        let expected = "play=1\ndump=0\n# remark\nshow\nfresh=0000000000001000\nshow\n";
        assert_eq!(String::from_utf8_lossy(&later), expected);
    }

    #[test]
    fn only_the_lists_own_lines_differ() {
        let pair = Pair::of(&Script::of(SCRIPT.into()));
        let [alone, lists] = &pair.scripts;
        let begin = "code=0\ncode=6\nfresh=0000000000001000\n";
        let lists = String::from_utf8_lossy(&lists.played.output);
        assert!(
            lists.starts_with(&format!("played=00 00000002\n{begin}")),
            "{lists}"
        );
        assert!(alone.played.output.starts_with(begin.as_bytes()));
        assert!(alone.played.output != lists.as_bytes());
        assert_eq!(without_lists(lists.as_bytes()), alone.played.output);
        assert_eq!(without_lists(&alone.played.output), alone.played.output);
        let tally = pair.tally();
        assert_eq!(tally.lists.ended(Code::Done), 2);
        assert_eq!((tally.lists.calls, tally.lists.longest), (3, 2));
        // Three answers, and two states of eleven lines and a register each.
        assert_eq!(tally.lines_both_ways, 3 + 2 * 12);
    }
}

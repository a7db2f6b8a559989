//! Writes a script and plays it as it grows, so that the next line can be
//! chosen by the state.

use crate::machine::Machine;
use crate::player::{play, Played, Player};
use crate::record::WORDS;
use crate::recorded::Recorded;
use crate::script;
use crate::tally::Tally;
use crate::trials::{Input, Trial};

/// A script with what must be written for it.
pub struct Script {
    pub text: Vec<u8>,
    pub played: Played,
}

/// The group of cases that scripts given whole are.
pub const WHOLE: &str = "scripts given whole";

impl Script {
    /// A script that may be bad.
    pub fn of(text: Vec<u8>) -> Script {
        let mut played = play(&text);
        let bad = played.output.starts_with(b"bad=");
        let name = if bad { "bad" } else { "played" };
        played.tally.count_case(WHOLE, name);
        Script { text, played }
    }

    /// As an input whose file's name ends so.
    pub fn input(&self, ending: &'static str) -> Input<'_> {
        Input {
            ending,
            text: &self.text,
            answer: &self.played.output,
        }
    }
}

impl Trial for Script {
    const NAME: &'static str = "script";

    fn inputs(&self) -> Vec<Input<'_>> {
        vec![self.input("script")]
    }

    fn tally(&self) -> &Tally {
        &self.played.tally
    }
}

#[derive(Default)]
pub struct Author {
    text: Vec<u8>,
    player: Player,
}

impl Author {
    /// Adds one line, which must be a right one.
    pub fn line(&mut self, line: &str) {
        let parsed = script::line(line.as_bytes()).expect("an author writes right lines");
        self.text.extend_from_slice(line.as_bytes());
        self.text.push(b'\n');
        self.player.play(parsed);
    }

    pub fn fresh(&mut self, base: u64) {
        self.line(&format!("fresh={base:016x}"));
    }

    /// So many tag bytes, and the data bytes that belong to them.
    pub fn granules(&mut self, granules: u64) {
        self.line(&format!("tags={granules:08x}"));
        self.line(&format!("data={:08x}", 16 * granules));
    }

    pub fn register(&mut self, number: u64, value: u64) {
        self.line(&format!("x={number:02x} {value:016x}"));
    }

    pub fn tag(&mut self, index: u64, byte: u8) {
        self.line(&format!("tag={index:08x} {byte:02x}"));
    }

    pub fn byte(&mut self, index: u64, byte: u8) {
        self.line(&format!("byte={index:08x} {byte:02x}"));
    }

    pub fn word(&mut self, word: u32) {
        self.line(&format!("word={word:08x}"));
    }

    pub fn history(&mut self, words: u64) {
        self.line(&format!("history={words:08x}"));
    }

    pub fn cursor(&mut self, next: u64, held: u64) {
        self.line(&format!("next={next:016x}"));
        self.line(&format!("held={held:016x}"));
    }

    pub fn log(&mut self, index: u64, word: u64) {
        self.line(&format!("log={index:08x} {word:016x}"));
    }

    /// Eight history words, from the begin of a slot on.
    pub fn record(&mut self, slot: u64, words: &[u64; WORDS]) {
        let places = WORDS as u64 * slot..;
        places
            .zip(words)
            .for_each(|(index, &word)| self.log(index, word));
    }

    /// A run of these words, which are put in the list first.
    pub fn run(&mut self, words: &[u32]) {
        for (index, word) in words.iter().enumerate() {
            self.line(&format!("list={index:08x} {word:08x}"));
        }
        self.line(&format!("run={:08x}", words.len()));
    }

    pub fn back(&mut self) {
        self.line("back");
    }

    pub fn show(&mut self) {
        self.line("show");
    }

    /// Counts a case that the author means to make.
    pub fn case(&mut self, group: &'static str, name: &str) {
        self.player.tally().count_case(group, name);
    }

    pub fn machine(&self) -> &Machine {
        &self.recorded().machine
    }

    /// Without the calls of a list that has not ended.
    pub fn recorded(&self) -> &Recorded {
        self.player.recorded()
    }

    /// What must be written for the lines so far.
    pub fn output(&self) -> &[u8] {
        self.player.output()
    }

    pub fn finish(self) -> Script {
        Script {
            text: self.text,
            played: self.player.played(),
        }
    }
}

#[cfg(test)]
mod tests {
    use super::*;

    #[test]
    fn playing_line_by_line_is_playing_the_whole() {
        let mut author = Author::default();
        author.fresh(0x1000);
        author.granules(4);
        author.register(0, 0x0500_0000_0000_1000);
        author.tag(3, 0xFF);
        author.byte(63, 0x80);
        author.word(0xD920_1400);
        assert_eq!(author.machine().tags, [5, 0, 0, 0xFF]);
        let script = author.finish();
        assert_eq!(script.played.output, play(&script.text).output);
    }
}

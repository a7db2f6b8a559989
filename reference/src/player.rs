//! Plays scripts (the manual, "Replaying a script").

use std::fmt;
use std::io::{self, Write};
use std::mem;

use crate::code::Code;
use crate::draw::draw;
use crate::encoder::{decode, encode};
use crate::facts;
use crate::list::{Call, Lent, List};
use crate::list_facts;
use crate::machine::SP;
use crate::plain::Plain;
use crate::reach::checksum;
use crate::reach_facts;
use crate::recorded::Recorded;
use crate::script::{lines, Line, MOST_DATA, MOST_HISTORY, MOST_LISTED, MOST_TAGS};
use crate::tag_choice::choose;
use crate::tally::Tally;
use crate::words::{form_of, Form};

/// What is written for a whole script, and what it did.
pub struct Played {
    pub output: Vec<u8>,
    pub tally: Tally,
}

pub fn play(script: &[u8]) -> Played {
    match lines(script) {
        Ok(lines) => {
            let mut player = Player::default();
            lines.into_iter().for_each(|line| player.play(line));
            player.played()
        }
        Err(number) => Played {
            output: format!("bad={number:08x}\n").into_bytes(),
            tally: Tally::default(),
        },
    }
}

/// With more data than this the state is not held to the plain machine's
/// after each call, but when the machine is set next.
const SMALL_DATA: usize = 4096;

/// Plays line by line; calls that are played as a list are put by until it
/// ends. From a call on a well-formed setup with held = 0 on, the plain machine
/// is played beside, up to the next line that sets anything of the machine.
/// Where the two disagree, the reference itself is wrong.
pub struct Player {
    recorded: Recorded,
    plain: Option<Plain>,
    listed: Vec<u32>,
    kept_tags: Vec<u8>,
    kept_data: Vec<u8>,
    kept_history: Vec<u64>,
    state_after_call: bool,
    as_lists: bool,
    lent: Lent,
    /// Not played yet.
    list: List,
    output: Vec<u8>,
    tally: Tally,
}

impl Default for Player {
    fn default() -> Player {
        Player {
            recorded: Recorded::fresh(0),
            plain: None,
            listed: vec![0; MOST_LISTED],
            kept_tags: vec![0; MOST_TAGS],
            kept_data: vec![0; MOST_DATA],
            kept_history: vec![0; MOST_HISTORY],
            state_after_call: true,
            as_lists: false,
            lent: Lent::MOST,
            list: List::default(),
            output: Vec::new(),
            tally: Tally::default(),
        }
    }
}

impl Player {
    pub fn recorded(&self) -> &Recorded {
        &self.recorded
    }

    pub fn output(&self) -> &[u8] {
        &self.output
    }

    pub fn tally(&mut self) -> &mut Tally {
        &mut self.tally
    }

    pub fn played(mut self) -> Played {
        self.play_list("the end of the script");
        self.end_beside();
        Played {
            output: self.output,
            tally: self.tally,
        }
    }

    pub fn play(&mut self, line: Line) {
        match line {
            Line::Word(word) => self.call(Call::Step(word)),
            Line::Run(count) => self.call(Call::Run(self.listed[..count].to_vec())),
            Line::Back => self.call(Call::Back),
            Line::ListedWord(index, word) => {
                self.list.pass(line.name());
                self.listed[index] = word;
            }
            Line::Nothing => self.list.pass(line.name()),
            other => {
                self.play_list(other.name());
                self.play_alone(other);
            }
        }
    }

    /// A call by itself, or one more of a list.
    fn call(&mut self, call: Call) {
        if self.as_lists {
            if let Some(full) = self.list.full_for(&call) {
                self.play_list(list_facts::name(full));
            }
            self.list.add(call);
        } else {
            self.carry_out(&call);
            self.after_calls();
        }
    }

    /// Plays the list that has begun, if one has.
    fn play_list(&mut self, ended_by: &'static str) {
        let list = mem::take(&mut self.list);
        if list.calls().is_empty() {
            return;
        }
        let code = list.code(&self.lent);
        let calls = match code {
            Code::Done => list.calls(),
            _ => &[],
        };
        list_facts::count(&mut self.tally, &list, &self.lent, ended_by);
        let state = self.state_after_call;
        list_facts::count_around(&mut self.tally, &self.recorded, code, state);
        self.write(format_args!(
            "played={:02x} {:08x}",
            code as u8,
            calls.len()
        ));
        calls.iter().for_each(|call| self.carry_out(call));
        self.after_calls();
    }

    /// A line that is no call and does not stand in a list.
    fn play_alone(&mut self, line: Line) {
        match line {
            Line::Dump(wanted) => self.state_after_call = wanted,
            Line::Play(wanted) => self.as_lists = wanted,
            Line::Lend(lent) => self.lent = lent,
            Line::Show => self.show(),
            Line::Decode(word) => self.decode(word),
            Line::Encode(form, values) => self.encode(form, &values),
            Line::Choose(start, offset, mask) => {
                self.tally.choices += 1;
                self.write(format_args!("chosen={:x}", choose(start, offset, mask)));
            }
            Line::Draw(seed) => {
                self.tally.draws += 1;
                let (bits, seed) = draw(seed);
                self.write(format_args!("drawn={bits:x} {seed:04x}"));
            }
            Line::Reach(pointer) => self.reach(pointer),
            setting => {
                self.end_beside();
                self.set(setting);
            }
        }
    }

    fn set(&mut self, line: Line) {
        let recorded = &mut self.recorded;
        let machine = &mut recorded.machine;
        match line {
            Line::Fresh(base) => {
                *recorded = Recorded::fresh(base);
                self.kept_tags.fill(0);
                self.kept_data.fill(0);
                self.kept_history.fill(0);
                self.listed.fill(0);
            }
            Line::Access(access) => machine.access = access,
            Line::Exclude(mask) => machine.exclude = mask,
            Line::Nzcv(flags) => machine.nzcv = flags,
            Line::RgsrTag(tag) => machine.rgsr_tag = tag,
            Line::Seed(seed) => machine.seed = seed,
            Line::Next(next) => recorded.next = next,
            Line::Held(held) => recorded.held = held,
            Line::Tags(number) => resize(&mut machine.tags, &mut self.kept_tags, number),
            Line::Data(number) => resize(&mut machine.data, &mut self.kept_data, number),
            Line::History(number) => resize(&mut recorded.history, &mut self.kept_history, number),
            Line::Register(number, value) => machine.set_register_or_sp(number, value),
            Line::TagByte(index, byte) => set(&mut machine.tags, &mut self.kept_tags, index, byte),
            Line::DataByte(index, byte) => set(&mut machine.data, &mut self.kept_data, index, byte),
            Line::HistoryWord(index, word) => {
                set(&mut recorded.history, &mut self.kept_history, index, word)
            }
            call => unreachable!("{call:?} sets nothing"),
        }
    }

    /// One call, and the line that it writes.
    fn carry_out(&mut self, call: &Call) {
        self.begin_beside();
        match call {
            Call::Step(word) => self.step(*word),
            Call::Run(words) => self.run(words),
            Call::Back => self.step_back(),
        }
        if self.recorded.machine.data.len() <= SMALL_DATA {
            self.hold_to_plain();
        }
    }

    fn step(&mut self, word: u32) {
        facts::count_step(&mut self.tally, &self.recorded);
        let code = self.recorded.step(word);
        if let Some(plain) = &mut self.plain {
            assert_eq!(code, plain.step(word), "the plain machine's step");
        }
        self.tally.count_word(form_of(word), code);
        self.write(format_args!("code={}", code as u8));
    }

    fn run(&mut self, words: &[u32]) {
        facts::count_run_begin(&mut self.tally, &self.recorded);
        let (code, done) = self.recorded.run(words);
        if let Some(plain) = &mut self.plain {
            assert_eq!((code, done), plain.run(words), "the plain machine's run");
        }
        facts::count_run(&mut self.tally, words, code, done as usize);
        self.write(format_args!("ran={} {done:08x}", code as u8));
    }

    fn step_back(&mut self) {
        let before = facts::before_step_back(&mut self.tally, &self.recorded);
        let code = self.recorded.step_back();
        if let Some(plain) = &mut self.plain {
            assert_eq!(code, plain.step_back(), "the plain machine's step back");
        }
        facts::count_step_back(&mut self.tally, before, code);
        self.write(format_args!("code={}", code as u8));
    }

    /// The state after a call by itself, or after a list of calls.
    fn after_calls(&mut self) {
        if self.state_after_call {
            self.show();
        }
    }

    fn begin_beside(&mut self) {
        let recorded = &self.recorded;
        if self.plain.is_none() && recorded.held == 0 && recorded.well_formed() {
            self.plain = Some(Plain::beside(&recorded.machine, recorded.slots()));
            self.tally.beside.lists += 1;
        }
        self.tally.beside.calls += u64::from(self.plain.is_some());
    }

    fn end_beside(&mut self) {
        self.hold_to_plain();
        self.plain = None;
    }

    fn hold_to_plain(&mut self) {
        if let Some(plain) = &self.plain {
            let equal = plain.state() == &self.recorded.machine;
            assert!(
                equal,
                "the plain machine's state:\n{:?}\nbut with records:\n{:?}",
                plain.state(),
                self.recorded
            );
            self.tally.beside.states += 1;
        }
    }

    fn decode(&mut self, word: u32) {
        match decode(word) {
            Some((form, values)) => {
                self.tally.count_decoding(Code::Done);
                self.write(format_args!("decoded={}", Code::Done as u8));
                self.write(format_args!("{}", form_line(form, &values)));
            }
            None => {
                self.tally.count_decoding(Code::Undefined);
                self.write(format_args!("decoded={}", Code::Undefined as u8));
            }
        }
    }

    fn encode(&mut self, form: &Form, values: &[u64]) {
        let (code, word) = encode(form, values);
        self.tally.count_encoding(code);
        self.write(format_args!("encoded={} {word:08x}", code as u8));
    }

    fn reach(&mut self, pointer: u64) {
        let part = self.recorded.machine.reachable(pointer);
        reach_facts::count(&mut self.tally, &self.recorded, pointer, &part);
        let (start, length) = (part.start, part.len());
        let checksum = checksum(&self.recorded.machine.data[part]);
        self.write(format_args!(
            "reached={start:08x} {length:08x} {checksum:016x}"
        ));
    }

    /// Writes the state as the lines that would set it up.
    fn show(&mut self) {
        self.tally.states += 1;
        write_state(&self.recorded, &mut self.output).expect("writing to memory");
    }

    fn write(&mut self, line: fmt::Arguments) {
        writeln!(self.output, "{line}").expect("writing to memory");
    }
}

fn write_state(recorded: &Recorded, out: &mut Vec<u8>) -> io::Result<()> {
    let machine = &recorded.machine;
    writeln!(out, "fresh={:016x}", machine.base)?;
    writeln!(out, "access={}", u8::from(machine.access))?;
    writeln!(out, "exclude={:04x}", machine.exclude)?;
    writeln!(out, "nzcv={:02x}", machine.nzcv)?;
    writeln!(out, "rgsr={:02x}", machine.rgsr_tag)?;
    writeln!(out, "seed={:04x}", machine.seed)?;
    writeln!(out, "next={:016x}", recorded.next)?;
    writeln!(out, "held={:016x}", recorded.held)?;
    writeln!(out, "tags={:08x}", machine.tags.len())?;
    writeln!(out, "data={:08x}", machine.data.len())?;
    writeln!(out, "history={:08x}", recorded.history.len())?;
    let registers = (0..=SP).map(|number| (number, machine.register_or_sp(number)));
    for (number, value) in registers.filter(|&(_, value)| value != 0) {
        writeln!(out, "x={number:02x} {value:016x}")?;
    }
    for (key, bytes) in [("tag", &machine.tags), ("byte", &machine.data)] {
        for (index, byte) in bytes.iter().enumerate().filter(|(_, &byte)| byte != 0) {
            writeln!(out, "{key}={index:08x} {byte:02x}")?;
        }
    }
    let words = recorded.history.iter().enumerate();
    for (index, word) in words.filter(|(_, &word)| word != 0) {
        writeln!(out, "log={index:08x} {word:016x}")?;
    }
    Ok(())
}

/// A form's line: its key, its mode if it has one, and its fields.
pub fn form_line(form: &Form, values: &[u64]) -> String {
    let mode = form.mode.map(|mode| format!("{:x}", mode as u8));
    let values = values.iter().map(|value| format!("{value:016x}"));
    let numbers: Vec<String> = mode.into_iter().chain(values).collect();
    format!("{}={}", form.key(), numbers.join(" "))
}

/// Lends the machine another number of bytes or words. Those it has come back
/// first, so that those past the number are kept.
fn resize<T: Copy>(lent: &mut Vec<T>, kept: &mut [T], number: usize) {
    kept[..lent.len()].copy_from_slice(lent);
    lent.clear();
    lent.extend_from_slice(&kept[..number]);
}

fn set<T: Copy>(lent: &mut [T], kept: &mut [T], index: usize, value: T) {
    match lent.get_mut(index) {
        Some(place) => *place = value,
        None => kept[index] = value,
    }
}

#[cfg(test)]
mod tests {
    use super::*;

    fn text(script: &str) -> String {
        String::from_utf8(play(script.as_bytes()).output).expect("the output is plain text")
    }

    /// The manual's example, which is S1's step.
    const S1: &str = "\
fresh=0000000000001000
tags=00000004
data=00000040
x=00 0500000000001000
word=d9201400
";

    const S1_OUTPUT: &str = "\
code=0
fresh=0000000000001000
access=1
exclude=0000
nzcv=00
rgsr=00
seed=0000
next=0000000000000000
held=0000000000000000
tags=00000004
data=00000040
history=00000000
x=00 0500000000001010
tag=00000000 05
";

    #[test]
    fn example_of_the_manual() {
        assert_eq!(text(S1), S1_OUTPUT);
    }

    #[test]
    fn a_script_starts_from_a_fresh_machine() {
        let state = S1_OUTPUT.strip_prefix("code=0\n").expect("a code");
        let fresh = state.replace("fresh=0000000000001000", "fresh=0000000000000000");
        let fresh = fresh.replace("tags=00000004", "tags=00000000");
        let fresh = fresh.replace("data=00000040", "data=00000000");
        let fresh = fresh.replace("x=00 0500000000001010\ntag=00000000 05\n", "");
        assert_eq!(text("show\n"), fresh);
        assert_eq!(
            text(&format!("{S1}dump=0\nfresh=0000000000000000\nshow\n"))[S1_OUTPUT.len()..],
            fresh
        );
        assert_eq!(text(""), "");
    }

    #[test]
    fn a_state_sets_itself_up() {
        let script = "\
fresh=fffffffffffffff0
access=0
exclude=1234
nzcv=ff
rgsr=fe
seed=5678
next=0000000000000001
held=8000000000000000
tags=00000003
data=00000005
history=0000000a
x=00 0000000000000001
x=1e 0000000000000002
x=1f 0000000000000003
tag=00000002 ff
byte=00000004 80
log=00000000 8000000000000000
log=00000009 0000000000000001
";
        assert_eq!(text(&format!("{script}show\n")), script);
        let refused = format!("code=1\n{script}");
        assert_eq!(text(&format!("{script}word=91810420\n")), refused);
        assert_eq!(text(&format!("{script}word=00000000\n")), refused);
        assert_eq!(text(&format!("{script}back\n")), refused);
        let refused = format!("ran=1 00000000\n{script}");
        assert_eq!(text(&format!("{script}run=00000000\n")), refused);
        assert_eq!(text(&format!("{script}run=00000001\n")), refused);
    }

    #[test]
    fn without_dump_only_codes() {
        let script = format!("dump=0\n{S1}word=91804020\ndump=1\nword=91804020\n");
        assert_eq!(
            text(&script),
            format!("code=0\ncode=2\n{}", S1_OUTPUT.replace("code=0", "code=2"))
        );
    }

    #[test]
    fn bytes_past_the_number_are_kept() {
        let bytes = |script: &str| {
            let output = text(script);
            let lines = output
                .lines()
                .filter(|line| line.starts_with("tag=") || line.starts_with("byte="));
            lines.collect::<Vec<_>>().join(",")
        };
        assert_eq!(
            bytes("tag=00000001 07\nshow\ntags=00000002\nshow\n"),
            "tag=00000001 07"
        );
        assert_eq!(
            bytes("data=00100100\nbyte=001000ff 07\ndata=00000000\ndata=00100100\nshow\n"),
            "byte=001000ff 07"
        );
        assert_eq!(
            bytes("tag=00000001 07\nfresh=0000000000000000\ntags=00000002\nshow\n"),
            ""
        );
        assert_eq!(bytes("tags=00000002\ntag=00000001 07\ntags=00000001\ntag=00000001 08\ntags=00000002\nshow\n"), "tag=00000001 08");
    }

    /// S1's step with 8 history words, and its two steps back.
    #[test]
    fn s1_with_its_history() {
        let script = S1.replace("word=", "history=00000008\nword=");
        let stepped = S1_OUTPUT.replace("history=00000000", "history=00000008");
        let log = "log=00000000 0000000000000100\nlog=00000001 0500000000001000\n";
        let stepped =
            format!("{stepped}{log}").replace("held=0000000000000000", "held=0000000000000001");
        let back = stepped.replace("held=0000000000000001", "held=0000000000000000");
        let back = back.replace("x=00 0500000000001010", "x=00 0500000000001000");
        let back = back.replace("tag=00000000 05\n", "");
        let again = back.replace("code=0", "code=6");
        assert_eq!(
            text(&format!("{script}back\nback\n")),
            format!("{stepped}{back}{again}")
        );
    }

    #[test]
    fn a_run_takes_its_words_from_the_list() {
        let script = "\
dump=0
tags=00000004
data=00000040
history=0000000f
list=00000000 d9201400
list=00000001 91810400
list=00000002 91804020
";
        let runs = "run=00000000\nrun=00000001\nrun=00000002\nrun=00000003\nrun=00001000\n";
        assert_eq!(
            text(&format!("{script}{runs}back\nback\n")),
            "ran=0 00000000\nran=0 00000001\nran=0 00000002\nran=2 00000002\nran=5 00000000\ncode=0\ncode=6\n"
        );
        assert_eq!(
            text(&format!("{script}run=00000003\nrun=00000003\n")),
            "ran=2 00000002\nran=2 00000002\n"
        );
        assert_eq!(
            text(&format!(
                "{script}fresh=0000000000000000\nrun=00000001\nlist=00000000 91810400\nrun=00000001\nback\n"
            )),
            "ran=2 00000000\nran=0 00000001\ncode=6\n",
            "a fresh machine has an empty list and no history"
        );
    }

    #[test]
    fn history_words_past_the_number_are_kept() {
        let words = |script: &str| {
            let output = text(script);
            let lines = output.lines().filter(|line| line.starts_with("log="));
            lines.collect::<Vec<_>>().join(",")
        };
        assert_eq!(
            words("log=00000001 000000000000000a\nshow\nhistory=00000002\nshow\n"),
            "log=00000001 000000000000000a"
        );
        assert_eq!(
            words("history=00002010\nlog=0000200f 000000000000000a\nhistory=00000000\nhistory=00002010\nshow\n"),
            "log=0000200f 000000000000000a"
        );
        assert_eq!(
            words(
                "log=00000001 000000000000000a\nfresh=0000000000000000\nhistory=00000002\nshow\n"
            ),
            ""
        );
        // A record written while the number was lower stays below it.
        assert_eq!(
            words("history=00000011\ndump=0\nlog=00000010 000000000000000a\nhistory=00000008\nx=02 0000000000000007\nword=91810422\nhistory=00000011\nshow\n"),
            "log=00000000 0000000000000002,log=00000001 0000000000000007,log=00000010 000000000000000a"
        );
    }

    #[test]
    fn the_plain_machine_is_played_beside() {
        let script = format!("dump=0\nhistory=00000010\n{S1}");
        let beside = |more: &str| {
            let tally = play(format!("{script}{more}").as_bytes()).tally;
            (tally.beside.lists, tally.beside.calls)
        };
        // `fresh` in S1 takes the history away again.
        assert_eq!(beside(""), (1, 1));
        assert_eq!(beside("word=d9201400\nback\nrun=00000001\n"), (1, 4));
        assert_eq!(
            beside("history=00000010\nheld=0000000000000001\nback\n"),
            (1, 1)
        );
        assert_eq!(
            beside("history=00000010\nheld=0000000000000001\nnext=0000000000000001\nback\nback\n"),
            (2, 2),
            "from held = 0 on"
        );
        assert_eq!(beside("nzcv=10\nword=d9201400\nback\n"), (1, 1));
        assert_eq!(beside("list=00000000 d9201400\nrun=00000001\n"), (1, 2));
        assert_eq!(beside("x=00 0000000000001000\nword=d9201400\n"), (2, 2));
    }

    /// S1's setup with a history of one slot, calls played as lists, and no
    /// states.
    const AS_LISTS: &str = "\
fresh=0000000000001000
tags=00000004
data=00000040
history=00000008
x=00 0500000000001000
dump=0
play=1
";

    fn as_lists(script: &str) -> String {
        text(&format!("{AS_LISTS}{script}"))
    }

    #[test]
    fn calls_in_a_row_are_one_list_with_one_state() {
        let state = S1_OUTPUT.strip_prefix("code=0\n").expect("a code");
        let s1 = S1.replace("word=", "play=1\nword=");
        assert_eq!(text(&s1), format!("played=00 00000001\ncode=0\n{state}"));
        assert_eq!(
            text(&format!("{s1}word=91804020\nrun=00000000\nback\n")),
            format!("played=00 00000004\ncode=0\ncode=2\nran=0 00000000\ncode=6\n{state}")
        );
        assert_eq!(
            as_lists("word=d9201400\nback\nback\nlist=00000000 d9201400\nrun=00000002\nback\n"),
            "played=00 00000005\ncode=0\ncode=0\ncode=6\nran=2 00000001\ncode=0\n"
        );
    }

    #[test]
    fn without_calls_no_list_is_played() {
        assert_eq!(as_lists(""), "");
        assert_eq!(
            as_lists("play=0\nplay=1\n\n# remark\nlist=00000000 d9201400\n"),
            ""
        );
        assert_eq!(
            as_lists("play=0\nback\nplay=1\nplay=0\nback\n"),
            "code=6\ncode=6\n"
        );
    }

    #[test]
    fn passed_over_lines_and_list_lines_do_not_end_a_list() {
        for line in ["", "#", "# remark", "list=00000fff ffffffff"] {
            assert_eq!(
                as_lists(&format!("back\n{line}\n{line}\nword=91804020\n")),
                "played=00 00000002\ncode=6\ncode=2\n",
                "{line}"
            );
        }
    }

    #[test]
    fn every_other_line_ends_a_list() {
        for line in [
            "fresh=0000000000000000",
            "access=1",
            "exclude=0000",
            "nzcv=00",
            "rgsr=00",
            "seed=0000",
            "next=0000000000000000",
            "held=0000000000000000",
            "tags=00000004",
            "data=00000040",
            "history=00000008",
            "x=00 0500000000001000",
            "tag=00010000 00",
            "byte=00000000 00",
            "log=00000000 0000000000000000",
            "dump=0",
            "play=1",
            "lend=00000001 00000001 00000000",
        ] {
            assert_eq!(
                as_lists(&format!("back\n{line}\nback\n")),
                "played=00 00000001\ncode=6\n".repeat(2),
                "{line}"
            );
        }
        for (line, answer) in [
            ("decode=91804020", "decoded=2\n"),
            ("choose=2 1 0008", "chosen=4\n"),
            ("draw=0001", "drawn=1 1000\n"),
            (
                "irg=0000000000000020 0000000000000000 0000000000000000",
                "encoded=8 00000000\n",
            ),
            (
                "reach=0000000000000000",
                "reached=00000000 00000000 0000000000000000\n",
            ),
        ] {
            assert_eq!(
                as_lists(&format!("back\n{line}\nback\n")),
                format!("played=00 00000001\ncode=6\n{answer}played=00 00000001\ncode=6\n")
            );
        }
    }

    #[test]
    fn a_list_is_played_before_the_line_that_ends_it() {
        let state = text(&AS_LISTS.replace("dump=0\nplay=1", "show"));
        let list = "played=00 00000001\ncode=6\n";
        assert_eq!(as_lists("back\nshow\n"), format!("{list}{state}"));
        assert_eq!(
            as_lists("dump=1\nback\ndump=0\n"),
            format!("{list}{state}"),
            "a state while a dump=1 holds"
        );
        assert_eq!(as_lists("back\ndump=1\n"), list);
        assert_eq!(
            as_lists("dump=1\nback\nshow\n"),
            format!("{list}{state}{state}")
        );
        assert_eq!(
            as_lists("dump=1\nback\nx=00 0000000000000000\n"),
            format!("{list}{state}")
        );
        assert_eq!(
            as_lists("dump=1\nback\nfresh=0000000000000000\n"),
            format!("{list}{state}")
        );
        assert_eq!(
            as_lists("back\nlend=00000000 00000000 00000000\nback\n"),
            format!("{list}played=0a 00000000\n")
        );
        assert_eq!(as_lists("back\nplay=0\nback\n"), format!("{list}code=6\n"));
    }

    /// ADDG X0, X0, #16, #1 is done; the other word is undefined.
    #[test]
    fn a_run_of_a_list_has_the_words_of_its_place() {
        assert_eq!(
            as_lists("list=00000000 91810400\nrun=00000001\nlist=00000000 91804020\nrun=00000001\nlist=00000000 91810400\n"),
            "played=00 00000002\nran=0 00000001\nran=2 00000000\n"
        );
        assert_eq!(
            as_lists(
                "list=00000000 91810400\nrun=00000001\nfresh=0000000000000000\nrun=00000001\n"
            ),
            "played=00 00000001\nran=0 00000001\nplayed=00 00000001\nran=2 00000000\n"
        );
    }

    /// Three calls, which take three words: S1's step, a run of an undefined
    /// word and another, and a step back.
    #[test]
    fn a_list_is_refused_where_too_little_is_lent() {
        let calls = "word=d9201400\nlist=00000000 91804020\nrun=00000002\nback\n";
        let played = "played=00 00000003\ncode=0\nran=2 00000000\ncode=0\n";
        let (no_room, no_words) = ("played=0a 00000000\n", "played=0f 00000000\n");
        for (lent, answer) in [
            ("00001000 00001000 00004000", played),
            ("ffffffff ffffffff ffffffff", played),
            ("00000003 00000003 00000003", played),
            ("00000002 00000003 00000003", no_room),
            ("00000003 00000002 00000003", no_room),
            ("00000003 00000003 00000002", no_words),
            ("00000002 00000003 00000002", no_room),
            ("00000003 00000002 00000000", no_room),
            ("00000000 00001000 00004000", no_room),
            ("00001000 00000000 00004000", no_room),
            ("00001000 00001000 00000000", no_words),
            ("00000000 00000000 00000000", no_room),
        ] {
            assert_eq!(as_lists(&format!("lend={lent}\n{calls}")), answer, "{lent}");
        }
        assert_eq!(
            as_lists("lend=00000002 00000002 00000000\nback\nrun=00000000\n"),
            "played=00 00000002\ncode=6\nran=0 00000000\n"
        );
        assert_eq!(
            as_lists(&format!("lend=00000000 00000000 00000000\nplay=0\n{calls}")),
            "code=0\nran=2 00000000\ncode=0\n",
            "a call by itself is lent nothing"
        );
    }

    #[test]
    fn a_refused_list_does_nothing() {
        let state = text(&AS_LISTS.replace("dump=0\nplay=1", "show"));
        for (lent, code) in [
            ("00000000 00000001 00000001", "0a"),
            ("00000001 00000001 00000000", "0f"),
        ] {
            assert_eq!(
                as_lists(&format!("lend={lent}\ndump=1\nword=d9201400\nshow\n")),
                format!("played={code} 00000000\n{state}{state}")
            );
            let begun = play(format!("{AS_LISTS}lend={lent}\nword=d9201400\n").as_bytes());
            assert_eq!(begun.tally.beside.calls, 0);
        }
    }

    #[test]
    fn a_fresh_machine_leaves_what_is_lent_and_the_way_of_playing() {
        assert_eq!(
            as_lists("lend=00000001 00000001 00000000\nfresh=0000000000001000\nback\nshow\nback\nback\ndecode=00000000\nword=91810400\n"),
            format!(
                "played=00 00000001\ncode=6\n{}played=0a 00000000\ndecoded=2\nplayed=0f 00000000\n",
                text("fresh=0000000000001000\nshow\n")
            )
        );
    }

    #[test]
    fn a_malformed_setup_refuses_the_calls_and_not_the_list() {
        assert_eq!(
            as_lists("nzcv=10\nword=d9201400\nrun=00000000\nrun=00000001\nback\n"),
            "played=00 00000004\ncode=1\nran=1 00000000\nran=1 00000000\ncode=1\n"
        );
    }

    #[test]
    fn a_list_has_at_most_4096_calls() {
        let answer = |calls: usize| format!("played=00 {calls:08x}\n{}", "code=6\n".repeat(calls));
        let played = |calls: usize| as_lists(&"back\n".repeat(calls));
        assert_eq!(played(0xFFF), answer(0xFFF));
        assert_eq!(played(0x1000), answer(0x1000));
        assert_eq!(played(0x1001), answer(0x1000) + &answer(1));
        assert_eq!(played(0x2001), answer(0x1000).repeat(2) + &answer(1));
        // Too few places for the first list are enough for the second.
        assert_eq!(
            as_lists(&format!(
                "lend=00000fff 00001000 00004000\n{}",
                "back\n".repeat(0x1001)
            )),
            "played=0a 00000000\n".to_string() + &answer(1)
        );
    }

    #[test]
    fn the_calls_of_a_list_take_at_most_16384_words() {
        let run = |count: usize| format!("run={count:08x}\n");
        let longest = run(0x1000).repeat(4);
        // The words are all undefined.
        let ran = |calls: usize| {
            format!(
                "played=00 {calls:08x}\n{}",
                "ran=2 00000000\n".repeat(calls)
            )
        };
        assert_eq!(as_lists(&longest), ran(4));
        assert_eq!(as_lists(&(longest.clone() + &run(1))), ran(4) + &ran(1));
        assert_eq!(
            as_lists(&format!(
                "{longest}back\nrun=00000000\nword=00000000\nback\n"
            )),
            format!(
                "{}code=6\nran=0 00000000\nplayed=00 00000002\ncode=2\ncode=6\n",
                ran(4).replace("00000004", "00000006")
            )
        );
        let almost = run(0x1000).repeat(3) + &run(0xFFF);
        assert_eq!(
            as_lists(&format!("{almost}word=00000000\nword=00000000\n")),
            format!(
                "{}code=2\nplayed=00 00000001\ncode=2\n",
                ran(4).replace("00000004", "00000005")
            )
        );
        assert_eq!(as_lists(&(almost.clone() + &run(2))), ran(4) + &ran(1));
        assert_eq!(
            as_lists(&format!(
                "lend=00001000 00001000 00003fff\n{longest}{}",
                run(1)
            )),
            "played=0f 00000000\n".to_string() + &ran(1)
        );
        assert_eq!(
            as_lists(&format!("lend=00001000 00001000 00003fff\n{almost}")),
            ran(4)
        );
    }

    #[test]
    fn the_plain_machine_is_played_beside_lists() {
        let beside = |script: &str| {
            let tally = play(format!("{AS_LISTS}{script}").as_bytes()).tally;
            (tally.beside.lists, tally.beside.calls)
        };
        assert_eq!(beside("word=d9201400\nback\nrun=00000001\n"), (1, 3));
        assert_eq!(beside("word=d9201400\nshow\nback\n"), (1, 2));
        assert_eq!(
            beside("word=d9201400\nx=00 0000000000001000\nback\nback\n"),
            (2, 2),
            "from held = 0 on"
        );
        assert_eq!(beside("nzcv=10\nword=d9201400\nback\n"), (0, 0));
    }

    #[test]
    fn other_calls() {
        assert_eq!(text("decode=91804020\n"), "decoded=2\n");
        assert_eq!(
            text("decode=d93ffc01\n"),
            "decoded=0\nstg=3 0000000000000001 0000000000000000 fffffffffffffff0\n"
        );
        assert_eq!(
            text("addg=0000000000000000 0000000000000001 0000000000000010 0000000000000001\n"),
            "encoded=0 91810420\n"
        );
        assert_eq!(
            text("addg=0000000000000020 0000000000000001 0000000000000010 0000000000000001\n"),
            "encoded=8 00000000\n"
        );
        assert_eq!(text("choose=2 1 0008\n"), "chosen=4\n");
        assert_eq!(text("draw=0001\n"), "drawn=1 1000\n");
    }

    #[test]
    fn the_reachable_part_is_asked_for() {
        let script = "\
dump=0
fresh=0000000000001000
tags=00000003
data=00000030
tag=00000000 a5
tag=00000001 05
byte=0000001e 02
byte=0000001f 03
byte=00000020 04
";
        for (pointer, reached) in [
            ("0500000000001000", "00000000 00000020 0000000000000041"),
            ("c50000000000101e", "0000001e 00000002 0000000000000041"),
            ("050000000000101f", "0000001f 00000001 0000000000000003"),
            ("0000000000001020", "00000020 00000010 37b5052f8647777c"),
            ("0500000000001020", "00000000 00000000 0000000000000000"),
            ("0500000000000fff", "00000000 00000000 0000000000000000"),
        ] {
            let script = format!("{script}reach={pointer}\n");
            assert_eq!(text(&script), format!("reached={reached}\n"), "{pointer}");
        }
    }

    #[test]
    fn a_bad_script_is_not_played() {
        assert_eq!(text("show\nshow \n"), "bad=00000002\n");
        assert_eq!(text("show\nshow"), "bad=00000002\n");
        assert_eq!(text("play=1\nback\nplay=2\n"), "bad=00000003\n");
        assert_eq!(text("played=00 00000001\n"), "bad=00000001\n");
        assert_eq!(text(&"\n".repeat(4_194_304)), "");
        assert_eq!(text(&"\n".repeat(4_194_305)), "bad=00000000\n");
    }
}

//! Which cases of the history a call is, told from the machine before it and
//! from its answer.

use crate::code::Code;
use crate::record::{faults, Record};
use crate::recorded::Recorded;
use crate::tally::Tally;
use crate::words::form_of;

pub const STEPS: &str = "steps on cursors";
pub const RUNS: &str = "runs on cursors";
pub const STEPS_BACK: &str = "steps back on cursors";
pub const RING: &str = "ring";
pub const RUN: &str = "runs";
pub const RESTORED: &str = "restored";
pub const MALFORMED: &str = "malformed";

/// A run of the longest list.
const LONGEST: usize = 4096;

pub fn count_step(tally: &mut Tally, recorded: &Recorded) {
    count_cursor(tally, STEPS, recorded);
    if recorded.well_formed() && recorded.slots() > 0 {
        let slots = recorded.slots();
        if recorded.held == slots {
            tally.count_case(RING, "step with all slots held");
        }
        if recorded.next == slots - 1 {
            tally.count_case(RING, "step into the last slot");
        }
    }
}

pub fn count_run_begin(tally: &mut Tally, recorded: &Recorded) {
    count_cursor(tally, RUNS, recorded);
}

pub fn count_run(tally: &mut Tally, words: &[u32], code: Code, done: usize) {
    tally.count_run(code);
    let count = words.len();
    for &word in &words[..done] {
        tally.count_word(form_of(word), Code::Done);
    }
    let length = match count {
        0 => "no words",
        1 => "one word",
        LONGEST => "4096 words",
        _ => "several words",
    };
    let end = match code {
        Code::Setup => "malformed setup",
        Code::Done => "none refused",
        _ => {
            tally.count_word(form_of(words[done]), code);
            match done {
                0 => "the first refused",
                _ if done == count - 1 => "the last refused",
                _ => "one in the middle refused",
            }
        }
    };
    tally.count_case(RUN, &format!("{length}, {end}"));
}

/// What a step back would step onto.
pub enum Onto {
    Nothing,
    /// Malformed by these rules.
    Malformed(Vec<&'static str>),
    Record {
        kind: String,
        access: bool,
    },
}

pub fn before_step_back(tally: &mut Tally, recorded: &Recorded) -> Onto {
    count_cursor(tally, STEPS_BACK, recorded);
    if !recorded.well_formed() {
        return Onto::Nothing;
    }
    if recorded.slots() > 0 && recorded.held > 0 && recorded.next == 0 {
        tally.count_case(RING, "step back into the last slot");
    }
    let Some(words) = recorded.newest() else {
        return Onto::Nothing;
    };
    let granules = recorded.machine.tags.len() as u64;
    let faults = faults(&words, granules);
    let record = Record::read(&words, granules);
    assert_eq!(faults.is_empty(), record.is_some(), "{words:x?}");
    match record {
        Some(record) => Onto::Record {
            kind: record.kind(),
            access: recorded.machine.access,
        },
        None => Onto::Malformed(faults),
    }
}

pub fn count_step_back(tally: &mut Tally, onto: Onto, code: Code) {
    tally.count_step_back(code);
    match onto {
        Onto::Nothing => assert!(matches!(code, Code::Setup | Code::NoHistory)),
        Onto::Malformed(faults) => {
            assert_eq!(code, Code::BadRecord);
            match faults.as_slice() {
                [fault] => tally.count_case(MALFORMED, fault),
                _ => tally.count_case(MALFORMED, "several faults"),
            }
        }
        Onto::Record { kind, access } => {
            assert_eq!(code, Code::Done);
            let off = if access { "" } else { ", access off" };
            tally.count_case(RESTORED, &format!("{kind}{off}"));
        }
    }
}

/// The numbers at and past each bound of the cursor.
fn count_cursor(tally: &mut Tally, group: &'static str, recorded: &Recorded) {
    let (slots, next, held) = (recorded.slots(), recorded.next, recorded.held);
    if !recorded.history.len().is_multiple_of(8) {
        tally.count_case(group, "history no multiple of 8");
    }
    if !recorded.machine.well_formed() {
        tally.count_case(group, "malformed without the cursor");
    }
    if slots == 0 {
        let name = match (next, held) {
            (0, 0) => "C = 0",
            (0, _) => "C = 0, held not 0",
            (_, 0) => "C = 0, next not 0",
            _ => "C = 0, neither 0",
        };
        tally.count_case(group, name);
        return;
    }
    let far = |number: u64, bound: &'static str, past: &'static str, end: &'static str| {
        if number == slots {
            Some(bound)
        } else if number == slots + 1 {
            Some(past)
        } else if number == u64::MAX {
            Some(end)
        } else {
            None
        }
    };
    if next == slots - 1 {
        tally.count_case(group, "next = C - 1");
    }
    if held == 0 {
        tally.count_case(group, "held = 0");
    }
    let next = far(next, "next = C", "next = C + 1", "next = 2^64 - 1");
    let held = far(held, "held = C", "held = C + 1", "held = 2^64 - 1");
    let names = next.into_iter().chain(held);
    names.for_each(|name| tally.count_case(group, name));
}

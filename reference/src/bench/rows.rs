//! The rows of the benchmark's tables: a workload each.

use super::words::{mix, tight, WORDS};
use super::workload::{Kind, Start, Workload};

/// The largest number of slots.
const SLOTS: u64 = 1024;
const DISTINCT: usize = 65_536;

pub struct Row {
    pub name: &'static str,
    pub workload: Workload,
}

/// A fresh machine's settings and status, but for the seed; register i (SP is
/// 31) holds i × 2^56 + 0x3000 + 16 × i.
pub fn start() -> Start {
    Start {
        base: 0x1000,
        exclude: 0,
        access: true,
        nzcv: 0,
        rgsr_tag: 0,
        seed: 1,
        x: std::array::from_fn(|number| (number as u64) << 56 | (0x3000 + 16 * number as u64)),
    }
}

/// With so many millions of words and steps back in all.
fn row(name: &'static str, kind: Kind, millions: u64, slots: u64, words: Vec<u32>) -> Row {
    let steps_back = if kind == Kind::ListOfARun { SLOTS } else { 0 };
    let mut workload = Workload {
        rounds: 0,
        kind,
        steps_back,
        slots,
        granules: 1024,
        start: start(),
        words,
    };
    workload.rounds = millions * 1_000_000 / workload.words_and_steps_back();
    Row { name, workload }
}

/// Each takes the faster side a tenth of a second or more.
pub fn rows() -> Vec<Row> {
    use Kind::*;
    let (mix, distinct) = (|| mix(WORDS), || mix(DISTINCT));
    vec![
        row("tight, no slots", Run, 60, 0, tight()),
        row("tight, 1024 slots", Run, 40, SLOTS, tight()),
        row("mix, no slots", Run, 30, 0, mix()),
        row("mix, 1024 slots", Run, 25, SLOTS, mix()),
        row("distinct, no slots", Run, 16, 0, distinct()),
        row("distinct, 1024 slots", Run, 16, SLOTS, distinct()),
        row("back, 1024 slots", ListOfARun, 40, SLOTS, tight()),
        row("step tight, 1024 slots", Steps, 16, SLOTS, tight()),
        row("step mix, 1024 slots", Steps, 16, SLOTS, mix()),
        row("play tight, 1024 slots", ListOfSteps, 16, SLOTS, tight()),
        row("play mix, 1024 slots", ListOfSteps, 16, SLOTS, mix()),
    ]
}

#[cfg(test)]
mod tests {
    use super::*;

    #[test]
    fn the_start_is_that_of_the_manual() {
        let x = start().x;
        assert_eq!(x[0], 0x3000);
        assert_eq!(x[1], 0x0100_0000_0000_3010);
        assert_eq!(x[31], 0x1F00_0000_0000_31F0);
    }
}

//! Document 01, "Numbers at the edges", and S1's step, as lines of a script.

use super::author::{Author, Script};

/// Base 0x1000, G = 4, access on, Exclude 0, tags 0.
const SETUP: &str = "fresh=0000000000001000,tags=00000004,data=00000040";
const BASE_0: &str = "fresh=0000000000000000,tags=00000004,data=00000040";

struct Row {
    name: &'static str,
    setup: &'static str,
    /// What the row gives, its word last.
    given: &'static str,
    /// Lines that must be in the answer.
    result: &'static str,
}

const fn row(name: &'static str, given: &'static str, result: &'static str) -> Row {
    let setup = SETUP;
    Row {
        name,
        setup,
        given,
        result,
    }
}

#[rustfmt::skip]
const ROWS: [Row; 25] = [
    row("P1", "x=01 0200000000001000,word=91810420", "code=0,x=00 0300000000001010"),
    row("P2", "x=01 0200000000001000,exclude=0008,word=91810420", "code=0,x=00 0400000000001010"),
    row("P3", "x=01 0200000000001000,exclude=ffff,word=91810420", "code=0,x=00 0000000000001010"),
    row("P4", "x=01 0200000000001000,exclude=0004,word=91800020", "code=0,x=00 0300000000001000"),
    row("P5", "x=01 0200000000001000,exclude=0004,word=91800420", "code=0,x=00 0300000000001000"),
    row("P6", "x=01 0ffffffffffffff0,word=91810020", "code=0,x=00 1f00000000000000"),
    Row {
        name: "P7",
        setup: BASE_0,
        given: "x=00 0afffffffffffff0,x=01 8000000000000001,x=02 4000000000000002,word=69008801",
        result: "code=0,tag=00000000 0b,byte=00000000 01,byte=00000007 80,byte=00000008 02,byte=0000000f 40",
    },
    row("P8", "x=00 0000000000001000,word=d93ffc01", "code=5"),
    row("P9 at the end", "x=00 0000000000001030,word=d9a00801", "code=5"),
    row("P9 before the end", "x=00 0000000000001020,word=d9a00801", "code=0"),
    row("P10", "x=00 0000000000001008,word=d9600801", "code=4"),
    row("P11", "x=00 0000000000001008,x=01 0f00000000000042,tag=00000000 07,word=d9600001", "code=0,x=01 0700000000000042"),
    row("P12", "x=1f 0000000000001008,word=d9200be0", "code=3"),
    row("P13", "x=01 0300000000001000,x=02 0900000000001000,word=bac2003f", "code=0,nzcv=06"),
    row("P14", "x=01 0000000000001000,seed=0001,word=9adf1020", "code=0,x=00 0100000000001000,rgsr=01,seed=1000"),
    row("15 of ADDG", "word=91804020", "code=2"),
    row("15 of ST2G", "word=d9a00001", "code=2"),
    row("16", "x=01 0300000000001000,word=9adf1422", "code=0,x=02 0000000000000008"),
    row("S1", "x=00 0500000000001000,word=d9201400", "code=0,x=00 0500000000001010,tag=00000000 05"),
    row("S1 with 8 history words", "x=00 0500000000001000,history=00000008,word=d9201400", "code=0,log=00000000 0000000000000100,log=00000001 0500000000001000"),
    row("S1 and a step back", "x=00 0500000000001000,history=00000008,dump=0,word=d9201400,dump=1,back", "code=0,x=00 0500000000001000,held=0000000000000000,log=00000000 0000000000000100,log=00000001 0500000000001000"),
    row("S1 and two steps back", "x=00 0500000000001000,history=00000008,dump=0,word=d9201400,back,dump=1,back", "code=6,x=00 0500000000001000,held=0000000000000000,log=00000000 0000000000000100,log=00000001 0500000000001000"),
    // P9 again with a tag to store, so that both granules show.
    row("P9 with a tag", "x=00 0000000000001020,x=01 0900000000000000,word=d9a00801", "code=0,tag=00000002 09,tag=00000003 09"),
    // P10 and P12 with all else in order, so that the codes are those alone.
    row("P10 mended", "x=00 0000000000001000,byte=0000000f 01,x=01 0900000000000000,word=d9600801", "code=0,tag=00000000 09"),
    row("P12 mended", "x=1f 0000000000001030,x=00 0900000000000000,word=d9200be0", "code=0,tag=00000003 09"),
];

pub fn names() -> impl Iterator<Item = &'static str> {
    ROWS.iter().map(|row| row.name)
}

/// All rows. The reference itself is held to their results first.
pub fn all() -> Script {
    let mut author = Author::default();
    for row in &ROWS {
        author.line(&format!("# {}", row.name));
        let before = author.output().len();
        let lines = row.setup.split(',').chain(row.given.split(','));
        lines.for_each(|line| author.line(line));
        author.case("rows of the paper", row.name);
        let answer = String::from_utf8_lossy(&author.output()[before..]).into_owned();
        for wanted in row.result.split(',') {
            let given = answer.lines().any(|line| line == wanted);
            assert!(given, "{}: no {wanted} in\n{answer}", row.name);
        }
    }
    author.finish()
}

#[cfg(test)]
mod tests {
    #[test]
    fn the_reference_gives_the_papers_results() {
        super::all();
    }
}

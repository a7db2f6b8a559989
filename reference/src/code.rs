//! The answers of document 01, "Codes and their order", of document 02's E1,
//! and the refusals of a list of calls (the manual, "A list of calls").

#[derive(Clone, Copy, Debug, PartialEq, Eq, PartialOrd, Ord)]
pub enum Code {
    Done = 0,
    Setup = 1,
    Undefined = 2,
    SpAlign = 3,
    Align = 4,
    Outside = 5,
    NoHistory = 6,
    BadRecord = 7,
    Field = 8,
    NoRoom = 10,
    BadLine = 11,
    NoWords = 15,
}

//! The pure part of the reference: what document 01 and document 02's E1 say,
//! and the comparisons of it with any other answer. Nothing in here needs the
//! libraries under test.

mod accesses;
pub mod assembly;
pub mod bench;
pub mod code;
pub mod compare;
pub mod draw;
pub mod encoder;
mod facts;
pub mod generate;
pub mod list;
mod list_facts;
pub mod listing;
pub mod machine;
pub mod minima;
pub mod plain;
pub mod plan;
pub mod player;
mod pointers;
mod process;
mod reach;
mod reach_facts;
pub mod record;
pub mod recorded;
pub mod replay;
pub mod script;
pub mod session;
pub mod sessions;
pub mod tag_choice;
pub mod tally;
pub mod trials;
pub mod words;

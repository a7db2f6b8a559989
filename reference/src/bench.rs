//! The benchmark: a program and a plain loop in Rust are timed on the same
//! words. Nothing in here has a part in the comparisons.

mod fast;
mod rows;
mod timing;
mod words;
mod workload;

pub use timing::{instructions, times};

/// What is to be written for a workload, as the loop comes to it.
pub fn answer(workload: &[u8]) -> String {
    match workload::Workload::read(workload) {
        Some(workload) => workload.run().text(),
        None => "bad\n".to_string(),
    }
}

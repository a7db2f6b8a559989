//! The boundary to the static libraries under test: libfrontend.a with the two
//! functions the C front end calls (document 01, "The reachable part", last
//! paragraph), and liblisting_exports.a with the writer and the reader of
//! lines (document 02, E1).

use std::ops::Range;

use reference::listing::Library;

/// `build.rs` looks for the archives only when the variable is set.
const _: &str = env!(
    "FRONTEND_LIB_DIR",
    "set FRONTEND_LIB_DIR to the folder that holds libfrontend.a and liblisting_exports.a"
);

#[link(name = "frontend", kind = "static")]
extern "C" {
    fn mte_choose_tag(start: u32, offset: u32, mask: u32) -> u32;
    fn mte_word_code(word: u32) -> u32;
}

#[link(name = "listing_exports", kind = "static")]
extern "C" {
    fn mte_list_word(out: *mut u8, room: usize, at: usize, word: u32, next: *mut u64) -> u32;
    fn mte_read_line(text: *const u8, length: usize, word: *mut u32) -> u32;
}

pub const LISTING: Library = Library {
    list: list_word,
    read: read_line,
};

pub fn choose_tag(start: u32, offset: u32, mask: u32) -> u32 {
    // SAFETY: plain numbers in and out; any numbers are allowed.
    unsafe { mte_choose_tag(start, offset, mask) }
}

pub fn word_code(word: u32) -> u32 {
    // SAFETY: plain numbers in and out; any number is allowed.
    unsafe { mte_word_code(word) }
}

/// The place is another before the call, so that it shows if it is not told.
fn list_word(memory: &mut [u8], lent: Range<usize>, at: usize, word: u32) -> (u32, u64) {
    assert!(lent.start <= lent.end && lent.end <= memory.len());
    let mut next = !(at as u64);
    // SAFETY: as many bytes are there as are lent; any place and word are
    // allowed. A byte written beside them is in the memory, and is found.
    let code = unsafe {
        let out = memory.as_mut_ptr().add(lent.start);
        mte_list_word(out, lent.len(), at, word, &mut next)
    };
    (code, next)
}

/// The word is one that no text is read to before the call.
fn read_line(memory: &[u8], length: usize) -> (u32, u32) {
    assert!(length <= memory.len());
    let mut word = u32::MAX;
    // SAFETY: as many bytes are there as are lent, and they are only read.
    let code = unsafe { mte_read_line(memory.as_ptr(), length, &mut word) };
    (code, word)
}

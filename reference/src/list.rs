//! Calls in a row that are played as one list, and when such a list is refused
//! (the manual, "A list of calls").

use crate::code::Code;

/// Calls in a list, and words that they take.
pub const MOST_CALLS: usize = 0x1000;
pub const MOST_WORDS: usize = 0x4000;

#[derive(Clone, Debug, PartialEq)]
pub enum Call {
    Step(u32),
    Run(Vec<u32>),
    Back,
}

impl Call {
    /// How many words it takes.
    pub fn words(&self) -> usize {
        match self {
            Call::Step(_) => 1,
            Call::Run(words) => words.len(),
            Call::Back => 0,
        }
    }
}

/// Places for codes, places for counts, and words that a list is lent.
#[derive(Clone, Copy, Debug, PartialEq)]
pub struct Lent {
    pub codes: usize,
    pub counts: usize,
    pub words: usize,
}

impl Lent {
    pub const MOST: Lent = Lent {
        codes: MOST_CALLS,
        counts: MOST_CALLS,
        words: MOST_WORDS,
    };

    /// These numbers, each cut to the most there can be.
    pub fn at_most(codes: u64, counts: u64, words: u64) -> Lent {
        let cut = |number: u64, most: usize| number.min(most as u64) as usize;
        Lent {
            codes: cut(codes, MOST_CALLS),
            counts: cut(counts, MOST_CALLS),
            words: cut(words, MOST_WORDS),
        }
    }

    pub fn too_few_places(&self, list: &List) -> bool {
        self.codes.min(self.counts) < list.calls.len()
    }

    pub fn too_few_words(&self, list: &List) -> bool {
        self.words < list.words
    }
}

/// The calls so far, and the words that they take.
#[derive(Debug, Default)]
pub struct List {
    calls: Vec<Call>,
    words: usize,
    /// Names of the lines that stand between two of the calls, and of those
    /// that stand after the last.
    between: Vec<&'static str>,
    after: Vec<&'static str>,
}

/// Why a call cannot be added to a list.
#[derive(Clone, Copy, Debug, PartialEq)]
pub enum Full {
    Calls,
    Words,
    Both,
}

impl List {
    pub fn calls(&self) -> &[Call] {
        &self.calls
    }

    pub fn words(&self) -> usize {
        self.words
    }

    pub fn between(&self) -> &[&'static str] {
        &self.between
    }

    /// Why the call would be too many, or take too many words.
    pub fn full_for(&self, call: &Call) -> Option<Full> {
        let calls = self.calls.len() + 1 > MOST_CALLS;
        let words = self.words + call.words() > MOST_WORDS;
        match (calls, words) {
            (false, false) => None,
            (true, false) => Some(Full::Calls),
            (false, true) => Some(Full::Words),
            (true, true) => Some(Full::Both),
        }
    }

    pub fn add(&mut self, call: Call) {
        self.words += call.words();
        self.calls.push(call);
        self.between.append(&mut self.after);
    }

    /// A line that does not end the list, if one has begun.
    pub fn pass(&mut self, name: &'static str) {
        if !self.calls.is_empty() {
            self.after.push(name);
        }
    }

    /// The lower code goes before.
    pub fn code(&self, lent: &Lent) -> Code {
        if lent.too_few_places(self) {
            Code::NoRoom
        } else if lent.too_few_words(self) {
            Code::NoWords
        } else {
            Code::Done
        }
    }
}

#[cfg(test)]
mod tests {
    use super::*;

    fn list(calls: Vec<Call>) -> List {
        let mut list = List::default();
        calls.into_iter().for_each(|call| list.add(call));
        list
    }

    fn lent(codes: usize, counts: usize, words: usize) -> Lent {
        Lent {
            codes,
            counts,
            words,
        }
    }

    #[test]
    fn a_run_takes_its_words_and_a_step_one() {
        let calls = vec![Call::Step(7), Call::Back, Call::Run(vec![1; 5]), Call::Back];
        assert_eq!(list(calls).words(), 6);
        assert_eq!(list(vec![Call::Run(vec![]), Call::Back]).words(), 0);
    }

    #[test]
    fn the_lower_refusal_is_given() {
        let list = list(vec![Call::Step(7), Call::Run(vec![1; 5]), Call::Back]);
        for (lent, code) in [
            (Lent::MOST, Code::Done),
            (lent(3, 3, 6), Code::Done),
            (lent(2, 3, 6), Code::NoRoom),
            (lent(3, 2, 6), Code::NoRoom),
            (lent(3, 3, 5), Code::NoWords),
            (lent(2, 3, 5), Code::NoRoom),
            (lent(3, 2, 5), Code::NoRoom),
            (lent(0, 0, 0), Code::NoRoom),
            (lent(3, 3, 0), Code::NoWords),
        ] {
            assert_eq!(list.code(&lent), code, "{lent:?}");
        }
    }

    #[test]
    fn a_list_that_takes_no_words_needs_none() {
        let list = list(vec![Call::Run(vec![]), Call::Back]);
        assert_eq!(list.code(&lent(2, 2, 0)), Code::Done);
        assert_eq!(list.code(&lent(1, 2, 0)), Code::NoRoom);
    }

    #[test]
    fn a_list_is_full_at_either_limit() {
        let steps = |count: usize| vec![Call::Step(0); count];
        assert_eq!(list(steps(0xFFF)).full_for(&Call::Step(0)), None);
        assert_eq!(list(steps(0x1000)).full_for(&Call::Back), Some(Full::Calls));
        let longest = Call::Run(vec![0; 0x1000]);
        assert_eq!(list(vec![longest.clone(); 3]).full_for(&longest), None);
        let full = list(vec![longest.clone(); 4]);
        assert_eq!(full.full_for(&Call::Step(0)), Some(Full::Words));
        assert_eq!(full.full_for(&Call::Run(vec![0])), Some(Full::Words));
        assert_eq!(full.full_for(&Call::Run(vec![])), None);
        assert_eq!(full.full_for(&Call::Back), None);
        let backs = vec![Call::Back; 0xFFC];
        let full = list([vec![longest.clone(); 4], backs].concat());
        assert_eq!(full.full_for(&Call::Back), Some(Full::Calls));
        assert_eq!(full.full_for(&Call::Step(0)), Some(Full::Both));
    }

    #[test]
    fn lines_are_between_calls_if_a_call_follows() {
        let mut list = List::default();
        list.pass("before");
        list.add(Call::Back);
        list.pass("one");
        list.pass("other");
        assert!(list.between().is_empty());
        list.add(Call::Back);
        list.pass("after");
        assert_eq!(list.between(), ["one", "other"]);
    }
}

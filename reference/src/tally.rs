//! Counts of what scripts did, so that a reader sees that nothing is starved,
//! and nothing is: `src/minima.rs` holds them to what is wanted at least.

use std::collections::BTreeMap;
use std::fmt;

use crate::code::Code;
use crate::words::{Form, FORMS};

type Codes = BTreeMap<Code, u64>;

/// What was played beside the plain machine and held to it.
#[derive(Clone, Debug, Default, PartialEq)]
pub struct Beside {
    pub lists: u64,
    pub calls: u64,
    pub states: u64,
}

/// Lists of calls that were played as one, and the calls of those that were
/// not refused.
#[derive(Clone, Debug, Default, PartialEq)]
pub struct Lists {
    codes: Codes,
    pub calls: u64,
    pub longest: u64,
}

impl Lists {
    pub fn count(&mut self, code: Code, calls: u64) {
        *self.codes.entry(code).or_default() += 1;
        if code == Code::Done {
            self.calls += calls;
            self.longest = self.longest.max(calls);
        }
    }

    pub fn ended(&self, code: Code) -> u64 {
        self.codes.get(&code).copied().unwrap_or(0)
    }

    fn add(&mut self, other: &Lists) {
        add_codes(&mut self.codes, &other.codes);
        self.calls += other.calls;
        self.longest = self.longest.max(other.longest);
    }
}

#[derive(Clone, Debug, Default, PartialEq)]
pub struct Tally {
    /// By the name of the form; undefined words have none.
    words: BTreeMap<Option<&'static str>, Codes>,
    runs: Codes,
    steps_back: Codes,
    decodings: Codes,
    encodings: Codes,
    pub choices: u64,
    pub draws: u64,
    pub reaches: u64,
    pub states: u64,
    pub beside: Beside,
    pub lists: Lists,
    /// Lines that were the same whether calls were played one by one or as
    /// lists.
    pub lines_both_ways: u64,
    /// Cases by the name of their group and by their own.
    cases: BTreeMap<&'static str, BTreeMap<String, u64>>,
}

impl Tally {
    pub fn count_word(&mut self, form: Option<&'static Form>, code: Code) {
        let codes = self.words.entry(form.map(|form| form.name)).or_default();
        *codes.entry(code).or_default() += 1;
    }

    pub fn count_run(&mut self, code: Code) {
        *self.runs.entry(code).or_default() += 1;
    }

    pub fn count_step_back(&mut self, code: Code) {
        *self.steps_back.entry(code).or_default() += 1;
    }

    pub fn count_case(&mut self, group: &'static str, name: &str) {
        self.count_cases(group, name, 1);
    }

    pub fn count_cases(&mut self, group: &'static str, name: &str, cases: u64) {
        let group = self.cases.entry(group).or_default();
        match group.get_mut(name) {
            Some(count) => *count += cases,
            None => drop(group.insert(name.to_string(), cases)),
        }
    }

    pub fn cases(&self, group: &str, name: &str) -> u64 {
        let count = self.cases.get(group).and_then(|group| group.get(name));
        count.copied().unwrap_or(0)
    }

    /// Of a group, whatever their names.
    pub fn all_cases(&self, group: &str) -> u64 {
        let group = self.cases.get(group);
        group.map_or(0, |group| group.values().sum())
    }

    pub fn words(&self, form: &Form, code: Code) -> u64 {
        let codes = self.words.get(&Some(form.name));
        codes
            .and_then(|codes| codes.get(&code))
            .copied()
            .unwrap_or(0)
    }

    pub fn runs(&self, code: Code) -> u64 {
        self.runs.get(&code).copied().unwrap_or(0)
    }

    pub fn steps_back(&self, code: Code) -> u64 {
        self.steps_back.get(&code).copied().unwrap_or(0)
    }

    pub fn count_decoding(&mut self, code: Code) {
        *self.decodings.entry(code).or_default() += 1;
    }

    pub fn count_encoding(&mut self, code: Code) {
        *self.encodings.entry(code).or_default() += 1;
    }

    pub fn add(&mut self, other: &Tally) {
        for (name, codes) in &other.words {
            add_codes(self.words.entry(*name).or_default(), codes);
        }
        add_codes(&mut self.runs, &other.runs);
        add_codes(&mut self.steps_back, &other.steps_back);
        add_codes(&mut self.decodings, &other.decodings);
        add_codes(&mut self.encodings, &other.encodings);
        self.choices += other.choices;
        self.draws += other.draws;
        self.reaches += other.reaches;
        self.states += other.states;
        self.beside.lists += other.beside.lists;
        self.beside.calls += other.beside.calls;
        self.beside.states += other.beside.states;
        self.lists.add(&other.lists);
        self.lines_both_ways += other.lines_both_ways;
        for (group, cases) in &other.cases {
            let sum = self.cases.entry(group).or_default();
            for (name, count) in cases {
                *sum.entry(name.clone()).or_default() += count;
            }
        }
    }

    /// A line for each form with how its words ended, and one for the
    /// undefined words.
    pub fn by_form(&self) -> String {
        let names = FORMS.iter().map(|form| Some(form.name)).chain([None]);
        let line = |name: Option<&'static str>| {
            let none = Codes::new();
            let codes = self.words.get(&name).unwrap_or(&none);
            format!("{:12} {}", name.unwrap_or("no form"), counts(codes))
        };
        names.map(line).collect::<Vec<_>>().join("\n")
    }

    /// A line for each group of cases.
    pub fn by_case(&self) -> String {
        let line = |(group, cases): (&&str, &BTreeMap<String, u64>)| {
            let each = cases.iter().map(|(name, count)| format!("{name} {count}"));
            format!("{group}: {}", each.collect::<Vec<_>>().join("; "))
        };
        self.cases.iter().map(line).collect::<Vec<_>>().join("\n")
    }

    /// The cases of a group in short.
    pub fn spread(&self, group: &str) -> Spread<'_> {
        self.spread_where(group, |_| true)
    }

    /// Of the names that are wanted.
    pub fn spread_where(&self, group: &str, wanted: impl Fn(&str) -> bool) -> Spread<'_> {
        let cases = self.cases.get(group).into_iter().flatten();
        let cases = cases.map(|(name, &count)| (name.as_str(), count));
        Spread::of(cases.filter(|(name, _)| wanted(name)))
    }

    /// The words of each form that ended with a code, in short.
    pub fn spread_of_forms(&self, code: Code) -> Spread<'static> {
        let forms = FORMS.iter();
        Spread::of(forms.map(|form| (form.name, self.words(form, code))))
    }

    fn all_words(&self) -> Codes {
        let mut all = Codes::new();
        self.words
            .values()
            .for_each(|codes| add_codes(&mut all, codes));
        all
    }
}

/// Counts by their names in short: how many names there are, the sum, and the
/// names of the least and of the greatest count.
#[derive(Debug, Default, PartialEq)]
pub struct Spread<'a> {
    pub names: u64,
    pub all: u64,
    least: Option<(&'a str, u64)>,
    most: Option<(&'a str, u64)>,
}

impl<'a> Spread<'a> {
    /// Of equal counts the first is named.
    pub fn of(counts: impl Iterator<Item = (&'a str, u64)>) -> Spread<'a> {
        let mut spread = Spread::default();
        for (name, count) in counts {
            spread.names += 1;
            spread.all += count;
            if spread.least.is_none_or(|(_, least)| count < least) {
                spread.least = Some((name, count));
            }
            if spread.most.is_none_or(|(_, most)| count > most) {
                spread.most = Some((name, count));
            }
        }
        spread
    }

    pub fn least_count(&self) -> u64 {
        self.least.map_or(0, |(_, count)| count)
    }

    pub fn least(&self) -> String {
        let least = self
            .least
            .map(|(name, count)| format!("least {count} ({name})"));
        least.unwrap_or_else(|| "none".into())
    }

    pub fn least_and_most(&self) -> String {
        let most = self
            .most
            .map(|(name, count)| format!(", most {count} ({name})"));
        format!("{}{}", self.least(), most.unwrap_or_default())
    }
}

fn add_codes(sum: &mut Codes, codes: &Codes) {
    for (&code, count) in codes {
        *sum.entry(code).or_default() += count;
    }
}

fn counts(codes: &Codes) -> String {
    let each = codes
        .iter()
        .map(|(code, count)| format!("{code:?} {count}"));
    each.collect::<Vec<_>>().join(", ")
}

/// What there is of each kind of call.
impl fmt::Display for Tally {
    fn fmt(&self, out: &mut fmt::Formatter) -> fmt::Result {
        let listed = |what: &str, codes: Codes| {
            let total: u64 = codes.values().sum();
            (total > 0).then(|| format!("{total} {what} ({})", counts(&codes)))
        };
        let counted = |what: &str, count: u64| (count > 0).then(|| format!("{count} {what}"));
        let parts = [
            listed("words", self.all_words()),
            listed("runs", self.runs.clone()),
            listed("steps back", self.steps_back.clone()),
            listed("decodings", self.decodings.clone()),
            listed("encodings", self.encodings.clone()),
            counted("choices", self.choices),
            counted("draws", self.draws),
            counted("reaches", self.reaches),
            counted("states", self.states),
            counted("lists beside the plain machine", self.beside.lists),
            counted("calls in them", self.beside.calls),
            counted("states of them compared", self.beside.states),
            listed("lists played as one", self.lists.codes.clone()),
            counted("calls in those", self.lists.calls),
            counted("calls in the longest", self.lists.longest),
            counted("lines alike both ways", self.lines_both_ways),
        ];
        let parts: Vec<String> = parts.into_iter().flatten().collect();
        out.write_str(&parts.join(", "))
    }
}

#[cfg(test)]
mod tests {
    use super::*;

    #[test]
    fn counts_add_up() {
        let mut one = Tally::default();
        one.count_word(Some(&FORMS[0]), Code::Done);
        one.count_word(None, Code::Undefined);
        one.draws = 3;
        one.reaches = 4;
        let mut sum = one.clone();
        sum.add(&one);
        sum.count_word(Some(&FORMS[0]), Code::Setup);
        let text = "5 words (Done 2, Setup 1, Undefined 2), 6 draws, 8 reaches";
        assert_eq!(sum.to_string(), text);
        assert!(sum
            .by_form()
            .starts_with("ADDG         Done 2, Setup 1\nSUBG         \n"));
        assert!(sum.by_form().ends_with("no form      Undefined 2"));
    }

    #[test]
    fn lists_add_up() {
        let mut one = Tally::default();
        one.lists.count(Code::Done, 3);
        one.lists.count(Code::Done, 5);
        one.lists.count(Code::NoRoom, 9);
        one.lines_both_ways = 7;
        let mut sum = one.clone();
        sum.lists.count(Code::NoWords, 9);
        sum.lists.count(Code::Done, 1);
        sum.add(&one);
        assert_eq!(sum.lists.ended(Code::NoRoom), 2);
        assert_eq!(sum.lists.ended(Code::NoWords), 1);
        assert_eq!(
            sum.to_string(),
            "8 lists played as one (Done 5, NoRoom 2, NoWords 1), 17 calls in those, 5 calls in the longest, 14 lines alike both ways"
        );
    }

    #[test]
    fn counts_in_short() {
        let mut tally = Tally::default();
        for (name, count) in [("one", 3), ("other", 9), ("third", 3)] {
            tally.count_cases("group", name, count);
        }
        let spread = tally.spread("group");
        assert_eq!((spread.names, spread.all), (3, 15));
        assert_eq!(spread.least(), "least 3 (one)");
        assert_eq!(spread.least_count(), 3);
        assert_eq!(spread.least_and_most(), "least 3 (one), most 9 (other)");
        let others = tally.spread_where("group", |name| name != "one");
        assert_eq!((others.names, others.all), (2, 12));
        assert_eq!(others.least(), "least 3 (third)");
        assert_eq!(tally.spread("nothing").least_and_most(), "none");
        tally.count_word(Some(&FORMS[1]), Code::Done);
        let forms = tally.spread_of_forms(Code::Done);
        assert_eq!(forms.least_and_most(), "least 0 (ADDG), most 1 (SUBG)");
    }

    #[test]
    fn cases_add_up() {
        let mut one = Tally::default();
        one.count_case("ring", "full");
        one.count_case("ring", "full");
        one.count_case("ring", "empty");
        one.count_run(Code::Done);
        one.count_step_back(Code::BadRecord);
        let mut sum = one.clone();
        sum.add(&one);
        sum.count_cases("lists", "long", 1);
        assert_eq!(sum.cases("ring", "full"), 4);
        assert_eq!(sum.all_cases("ring"), 6);
        assert_eq!(sum.all_cases("runs"), 0);
        assert_eq!(sum.cases("ring", "half"), 0);
        assert_eq!(sum.by_case(), "lists: long 1\nring: empty 2; full 4");
        assert_eq!(sum.runs(Code::Done), 2);
        assert_eq!(sum.steps_back(Code::BadRecord), 2);
        assert_eq!(
            sum.to_string(),
            "2 runs (Done 2), 2 steps back (BadRecord 2)"
        );
    }
}

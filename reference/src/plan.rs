//! The inputs to be made for a comparison, each from random numbers of its own.

use std::collections::BTreeMap;

use crate::generate::random::Random;

type Make<Made> = Box<dyn Fn(&mut Random) -> Made + Send + Sync>;

/// One input to be made. Its random choices hang on the run's seed, on its
/// kind and on its number within the kind, and on nothing else.
pub struct Job<Made> {
    pub kind: &'static str,
    pub number: u64,
    make: Make<Made>,
}

impl<Made> Job<Made> {
    pub fn made(&self, seed: u64) -> Made {
        let mut random = Random::new(seed);
        for byte in self.kind.bytes() {
            random = Random::new(random.bits() ^ u64::from(byte));
        }
        (self.make)(&mut Random::new(random.bits() ^ self.number))
    }

    /// The same choices, of which something else is made.
    pub fn map<Other>(self, change: impl Fn(Made) -> Other + Send + Sync + 'static) -> Job<Other>
    where
        Made: 'static,
    {
        let make = self.make;
        Job {
            kind: self.kind,
            number: self.number,
            make: Box::new(move |random| change(make(random))),
        }
    }
}

pub struct Plan<Made> {
    jobs: Vec<Job<Made>>,
    numbers: BTreeMap<&'static str, u64>,
}

impl<Made> Default for Plan<Made> {
    fn default() -> Plan<Made> {
        Plan {
            jobs: Vec::new(),
            numbers: BTreeMap::new(),
        }
    }
}

impl<Made> Plan<Made> {
    pub fn once(
        &mut self,
        kind: &'static str,
        make: impl Fn(&mut Random) -> Made + Send + Sync + 'static,
    ) {
        let next = self.numbers.entry(kind).or_default();
        let number = *next;
        *next += 1;
        let make = Box::new(make);
        self.jobs.push(Job { kind, number, make });
    }

    pub fn random(
        &mut self,
        kind: &'static str,
        times: u64,
        make: impl Fn(&mut Random) -> Made + Send + Sync + Copy + 'static,
    ) {
        (0..times).for_each(|_| self.once(kind, make));
    }

    pub fn jobs(self) -> Vec<Job<Made>> {
        self.jobs
    }
}

#[cfg(test)]
mod tests {
    use super::*;

    fn number(jobs: &[Job<u64>], place: usize, seed: u64) -> u64 {
        jobs[place].made(seed)
    }

    #[test]
    fn the_choices_hang_on_seed_kind_and_number() {
        let mut plan = Plan::default();
        plan.random("one", 2, |random: &mut Random| random.bits());
        plan.once("other", |random| random.bits());
        let jobs = plan.jobs();
        assert_eq!(number(&jobs, 0, 1), number(&jobs, 0, 1));
        assert_ne!(number(&jobs, 0, 1), number(&jobs, 0, 2));
        assert_ne!(number(&jobs, 0, 1), number(&jobs, 1, 1));
        assert_ne!(number(&jobs, 0, 1), number(&jobs, 2, 1));
        let numbers: Vec<u64> = jobs.iter().map(|job| job.number).collect();
        assert_eq!(numbers, [0, 1, 0]);
        let made: Vec<u64> = jobs.iter().map(|job| job.made(1)).collect();
        let others = jobs.into_iter().map(|job| job.map(|number| !number));
        let others: Vec<u64> = others.map(|job| !job.made(1)).collect();
        assert_eq!(others, made);
    }
}

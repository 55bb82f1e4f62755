//! How often something came up in generated cases, so that a test can ask for everything to occur.

use std::collections::BTreeMap;
use std::fmt;
use std::sync::atomic::{AtomicU64, Ordering};
use std::thread;

use crate::generate::Rng;
use crate::progress;
use crate::property::case_rng;

/// Counts by a word and a number.
#[derive(Clone, Debug, Default, PartialEq, Eq)]
pub struct Tally {
    counts: BTreeMap<(&'static str, usize), u64>,
}

impl Tally {
    pub fn count(&mut self, what: &'static str, number: usize) {
        *self.counts.entry((what, number)).or_default() += 1;
    }

    pub fn of(&self, what: &'static str, number: usize) -> u64 {
        self.counts.get(&(what, number)).copied().unwrap_or(0)
    }

    /// All counts of a word together.
    pub fn all(&self, what: &'static str) -> u64 {
        let counts = self.counts.range((what, 0)..=(what, usize::MAX));
        counts.map(|(_, count)| count).sum()
    }

    pub fn add(&mut self, other: &Tally) {
        for (&key, more) in &other.counts {
            *self.counts.entry(key).or_default() += more;
        }
    }

    /// Panics unless each of these numbers came up so often.
    pub fn assert_each(&self, what: &'static str, numbers: &[usize], at_least: u64) {
        for &number in numbers {
            let count = self.of(what, number);
            assert!(count >= at_least, "{what} {number}: {count}, {self:?}");
        }
    }
}

/// A line for each word: how many numbers came up, and how often the rarest of them.
impl fmt::Display for Tally {
    fn fmt(&self, f: &mut fmt::Formatter) -> fmt::Result {
        let mut words: BTreeMap<&str, Vec<u64>> = BTreeMap::new();
        for (&(what, _), &count) in &self.counts {
            words.entry(what).or_default().push(count);
        }
        for (what, counts) in words {
            let kinds = if counts.len() == 1 { "kind" } else { "kinds" };
            let rarest = counts.iter().min().unwrap_or(&0);
            writeln!(
                f,
                "  {what}: {} {kinds}, the rarest {rarest} times",
                counts.len()
            )?;
        }
        Ok(())
    }
}

/// Plays so many cases of a seed on two threads, and adds up what they have met.
pub fn each_case(seed: u64, cases: u64, case: impl Fn(&mut Rng, &mut Tally) + Sync) -> Tally {
    const THREADS: u64 = 2;
    // A thread that had a long case leaves the next ones to the other.
    let next = AtomicU64::new(0);
    let part = || {
        let mut tally = Tally::default();
        loop {
            let number = next.fetch_add(1, Ordering::Relaxed);
            if number >= cases {
                return tally;
            }
            let _named = Named {
                seed,
                number,
                next: &next,
                cases,
            };
            case(&mut case_rng(seed, number), &mut tally);
            progress::step();
        }
    };
    let mut tally = Tally::default();
    thread::scope(|scope| {
        let parts: Vec<_> = (0..THREADS).map(|_| scope.spawn(part)).collect();
        for part in parts {
            tally.add(&part.join().expect("a case failed"));
        }
    });
    tally
}

/// Names the case that fails, after which no other is begun.
struct Named<'a> {
    seed: u64,
    number: u64,
    next: &'a AtomicU64,
    cases: u64,
}

impl Drop for Named<'_> {
    fn drop(&mut self) {
        if thread::panicking() {
            eprintln!("failed: case {} of seed {}", self.number, self.seed);
            self.next.store(self.cases, Ordering::Relaxed);
        }
    }
}

#[cfg(test)]
mod tests {
    use super::*;

    #[test]
    fn every_case_is_counted_once() {
        let tally = each_case(1, 1001, |rng, tally| tally.count("drawn", rng.below(3)));
        assert_eq!(tally.all("drawn"), 1001);
        let one_by_one = (0..3).map(|number| tally.of("drawn", number));
        assert_eq!(one_by_one.sum::<u64>(), 1001);
        tally.assert_each("drawn", &[0, 1, 2], 250);
    }

    #[test]
    #[should_panic(expected = "a case failed")]
    fn one_case_that_fails_is_told() {
        each_case(1, 100, |rng, _| assert_ne!(rng.below(100), 50));
    }

    #[test]
    fn a_tally_is_printed_by_its_words() {
        let mut tally = Tally::default();
        for (what, number) in [("read", 0), ("read", 3), ("read", 3), ("append", 1)] {
            tally.count(what, number);
        }
        let expected =
            "  append: 1 kind, the rarest 1 times\n  read: 2 kinds, the rarest 1 times\n";
        assert_eq!(tally.to_string(), expected);
    }

    #[test]
    #[should_panic(expected = "drawn 3: 0")]
    fn what_never_came_up_is_told() {
        let tally = each_case(1, 10, |rng, tally| tally.count("drawn", rng.below(3)));
        tally.assert_each("drawn", &[3], 1);
    }
}

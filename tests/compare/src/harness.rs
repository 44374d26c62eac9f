//! Runs a comparison on many cases, counts the numbers that came up, prints them, and fails when
//! one that can come up never did.

use crate::random::Random;
use reference::examples::hex;
use std::collections::BTreeMap;
use std::env;
use std::fmt::{Debug, Display};
use std::io::Write;

const CASES: u64 = 100_000;
const SEED: u64 = 1;

/// What differed, in words.
pub type Difference = String;

/// How many cases each entry gets.
pub fn cases() -> u64 {
    from_environment("RIMEMAGPIE_CASES", CASES)
}

/// What the cases are drawn from.
pub fn seed() -> u64 {
    from_environment("RIMEMAGPIE_SEED", SEED)
}

fn from_environment(name: &str, default: u64) -> u64 {
    match env::var(name) {
        Ok(text) => text
            .parse()
            .unwrap_or_else(|_| panic!("{name} is no number: {text}")),
        Err(_) => default,
    }
}

/// Compares one entry on all its cases. A case gives the number that both implementations returned,
/// or what differed; `reachable` is each number that must have come up.
pub fn compare(
    entry: &str,
    reachable: &[u8],
    mut one_case: impl FnMut(&mut Random) -> Result<u8, Difference>,
) {
    let mut tally = Tally::new(entry);
    for_each_case(entry, cases(), |random| {
        tally.count(one_case(random)?);
        Ok(())
    });
    tally.print();
    tally.require(reachable);
}

/// Runs a number of cases, each from its own source, and stops at the first that differs.
pub fn for_each_case(
    name: &str,
    cases: u64,
    mut one_case: impl FnMut(&mut Random) -> Result<(), Difference>,
) {
    let seed = seed();
    for case in 0..cases {
        if let Err(difference) = one_case(&mut Random::of_case(seed, name, case)) {
            panic!("{name}, case {case} of seed {seed}: {difference}");
        }
    }
}

/// How often each number came up, or each of other things.
pub struct Tally<T> {
    name: String,
    counts: BTreeMap<T, u64>,
}

impl<T: Ord + Display> Tally<T> {
    pub fn new(name: &str) -> Self {
        Tally {
            name: name.to_string(),
            counts: BTreeMap::new(),
        }
    }

    pub fn count(&mut self, what: T) {
        *self.counts.entry(what).or_default() += 1;
    }

    /// Prints a line past the test harness, which holds back what a passing test prints.
    pub fn print(&self) {
        let total: u64 = self.counts.values().sum();
        let parts: Vec<String> = self
            .counts
            .iter()
            .map(|(what, count)| format!("{what}: {count}"))
            .collect();
        say(&format!("{}: {total} ({})", self.name, parts.join(", ")));
    }

    /// None of these came up.
    pub fn forbid(&self, unreachable: &[T]) {
        for what in unreachable {
            let count = self.counts.get(what).copied().unwrap_or(0);
            assert!(count == 0, "{}: {what} came up {count} times", self.name);
        }
    }

    pub fn require(&self, reachable: &[T]) {
        self.require_often(reachable, 1);
    }

    /// Each of these came up at least so often.
    pub fn require_often(&self, reachable: &[T], least: u64) {
        for what in reachable {
            let count = self.counts.get(what).copied().unwrap_or(0);
            assert!(
                count >= least,
                "{}: {what} came up {count} times, not {least}",
                self.name
            );
        }
    }
}

/// Writes a line to standard output, also from a test that passes.
pub fn say(line: &str) {
    let mut out = std::io::stdout().lock();
    writeln!(out, "  {line}").expect("standard output takes a line");
}

/// Whether two values are the same.
pub fn same<T: PartialEq + Debug>(what: &str, expected: &T, found: &T) -> Result<(), Difference> {
    if expected == found {
        return Ok(());
    }
    Err(format!("{what} is {found:?} and should be {expected:?}"))
}

/// Whether two sequences are the same; if not, where they first differ.
pub fn same_items<T: PartialEq + Debug>(
    what: &str,
    expected: &[T],
    found: &[T],
) -> Result<(), Difference> {
    same(
        &format!("the length of {what}"),
        &expected.len(),
        &found.len(),
    )?;
    match (0..expected.len()).find(|i| expected[*i] != found[*i]) {
        None => Ok(()),
        Some(i) => same(&format!("{what}[{i}]"), &expected[i], &found[i]),
    }
}

/// A difference with the bytes it was found on.
pub fn on_bytes<T>(
    result: Result<T, Difference>,
    what: &str,
    bytes: &[u8],
) -> Result<T, Difference> {
    result.map_err(|difference| format!("{difference}\n{what}: {}", hex(bytes)))
}

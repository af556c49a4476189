//! What a drive has done.

use super::compare::Expected;
use super::{allowed, Made};
use crate::reply::{self, Pair};
use std::collections::{BTreeMap, BTreeSet};
use std::fmt;

#[derive(Default)]
pub struct Counts {
    scripts: BTreeMap<&'static str, u64>,
    pairs: BTreeMap<Pair, u64>,
    /// The pairs that a whole drive must reach.
    wanted: BTreeSet<Pair>,
    dumps: u64,
    cuts: u64,
    to_program: u64,
    from_program: u64,
    pub passed: u64,
    pub failed: u64,
}

impl Counts {
    pub fn add(&mut self, made: &Made, expected: &Expected) {
        *self.scripts.entry(made.kind).or_default() += 1;
        for pair in expected.pairs() {
            *self.pairs.entry(pair).or_default() += 1;
        }
        self.dumps += expected.dumps() as u64;
        self.cuts += made.cuts;
        self.to_program += made.bytes.len() as u64;
        self.from_program += expected.len() as u64;
    }

    pub fn calls(&self) -> u64 {
        self.pairs.values().sum()
    }

    /// The drive ends: pairs that were not reached are one failure.
    pub fn close(&mut self, reading: bool) {
        let wanted = reply::pairs().filter(|(name, _)| allowed(name, reading));
        self.wanted = wanted.collect();
        self.failed += !self.missing().is_empty() as u64;
    }

    fn missing(&self) -> Vec<Pair> {
        let reached = |pair: &&Pair| self.pairs.contains_key(pair);
        let missing = self.wanted.iter().filter(|pair| !reached(pair));
        missing.copied().collect()
    }
}

impl fmt::Display for Counts {
    fn fmt(&self, f: &mut fmt::Formatter) -> fmt::Result {
        write!(f, "scripts {}:", self.scripts.values().sum::<u64>())?;
        for (kind, times) in &self.scripts {
            write!(f, " {kind} {times}")?;
        }
        write!(f, "\ncalls {}:", self.calls())?;
        let mut calls: BTreeMap<&str, u64> = BTreeMap::new();
        for ((name, _), times) in &self.pairs {
            *calls.entry(name).or_default() += times;
        }
        for (name, times) in calls {
            write!(f, " {name} {times}")?;
        }
        let (wanted, missing) = (self.wanted.len(), self.missing());
        let reached = wanted - missing.len();
        write!(f, "\npairs of call and reply {reached} of {wanted}")?;
        for (name, reply) in missing {
            write!(f, ", not {name} {reply}")?;
        }
        writeln!(f, "\ndumps {} cuts {}", self.dumps, self.cuts)?;
        let (to, from) = (self.to_program, self.from_program);
        writeln!(f, "bytes to the program {to}, from it {from}")?;
        write!(f, "{} passed, {} failed", self.passed, self.failed)
    }
}

//! How often each call was answered by each number.

use std::collections::BTreeMap;
use std::fmt;

const LETTERS: [(char, &str); 13] = [
    ('v', "vertex insert"),
    ('f', "face insert"),
    ('r', "face remove"),
    ('s', "face split"),
    ('p', "face poke"),
    ('b', "face bridge"),
    ('x', "face extrude, shift"),
    ('X', "face extrude, scale"),
    ('j', "arc bridge"),
    ('a', "arc extrude, shift"),
    ('A', "arc extrude, scale"),
    ('n', "arity"),
    ('c', "check"),
];

const NUMBERS: [u32; 10] = [0, 1, 2, 3, 4, 5, 6, 7, 8, 13];

#[derive(Clone, Default)]
pub struct Counts {
    answers: BTreeMap<(char, u32), u64>,
    notes: BTreeMap<String, u64>,
}

impl Counts {
    pub fn answered(&mut self, letter: char, number: u32) {
        *self.answers.entry((letter, number)).or_default() += 1;
    }

    pub fn note(&mut self, what: &str) {
        *self.notes.entry(what.into()).or_default() += 1;
    }

    pub fn noted(&self, what: &str) -> u64 {
        self.notes.get(what).copied().unwrap_or(0)
    }

    /// What a run of some length must have met, lest it show nothing.
    pub fn must_have_met(&self, what: &str, met: bool) {
        assert!(met || self.calls() < 2000, "never met in {} calls: {what}", self.calls());
    }

    pub fn calls(&self) -> u64 {
        self.answers.values().sum()
    }

    /// Of all calls, those answered by this number.
    pub fn with(&self, number: u32) -> u64 {
        self.answers.iter().filter(|((_, n), _)| *n == number).map(|(_, count)| count).sum()
    }
}

impl fmt::Display for Counts {
    fn fmt(&self, f: &mut fmt::Formatter<'_>) -> fmt::Result {
        writeln!(f, "| {:<20} |{}", "call", NUMBERS.iter().map(|n| format!(" {n:>7} |")).collect::<String>())?;
        for (letter, name) in LETTERS {
            let row = NUMBERS.map(|n| self.answers.get(&(letter, n)).copied().unwrap_or(0));
            if row.iter().any(|n| *n > 0) {
                writeln!(f, "| {name:<20} |{}", row.iter().map(|n| format!(" {n:>7} |")).collect::<String>())?;
            }
        }
        writeln!(f, "| {:<20} |{}", "all", NUMBERS.iter().map(|n| format!(" {:>7} |", self.with(*n))).collect::<String>())?;
        for (note, n) in &self.notes {
            writeln!(f, "{note}: {n}")?;
        }
        Ok(())
    }
}

//! Counters of the answers, situations and bounds that inputs come to.

use super::bounds::bounds;
use super::charges::Charges;
use super::gaps::Gaps;
use super::restored::Restored;
use super::seen::Seen;
use super::situations::situations;
use super::table::{letters_of, pairs, NO_LETTERS, TABLE};
use crate::lines;
use crate::monitor::*;
use std::collections::{BTreeMap, BTreeSet};

/// Counts of answers and situations, and the numbers that came up.
#[derive(Default)]
pub struct Coverage {
    answers: BTreeMap<(&'static str, u8), u64>,
    situations: BTreeMap<&'static str, u64>,
    bounds: BTreeSet<(&'static str, usize, u64)>,
    pub lines: u64,
    pub done: u64,
}

/// What the calls of an input have come to; `before` is one call behind `after`.
#[derive(Default)]
struct Past {
    before: Monitor,
    after: Monitor,
    restored: Restored,
    charges: Charges,
    gaps: Gaps,
    booted: bool,
}

impl Coverage {
    pub fn new() -> Self {
        Self::default()
    }

    pub fn count(&mut self, letters: &'static str, answer: u8) {
        *self.answers.entry((letters, answer)).or_default() += 1;
        self.lines += 1;
        self.done += u64::from(answer == 0);
    }

    /// Note a readable line's numbers.
    fn note(&mut self, letters: &'static str, line: &[u8]) {
        let mut fields = line.split(|&b| b == b',');
        let domain = fields.next().and_then(lines::number);
        self.bounds.extend(domain.map(|d| (NO_LETTERS, 0, d)));
        for (i, field) in fields.skip(1).enumerate() {
            let value = lines::number(field);
            self.bounds.extend(value.map(|value| (letters, i, value)));
        }
    }

    fn note_situations(&mut self, seen: &Seen) {
        for (name, test) in situations() {
            if test(seen) {
                *self.situations.entry(name).or_default() += 1;
            }
        }
    }

    /// Run an input and count it.
    pub fn run(&mut self, mut input: &[u8]) {
        let mut past = Past::default();
        let mut line = Vec::new();
        while let Some(whole) =
            lines::next_line(&mut input, &mut line).expect("memory does not fail")
        {
            let letters = letters_of(&line);
            match lines::read(&line) {
                Some((domain, call)) if whole => {
                    self.note(letters, &line);
                    self.run_call(&mut past, letters, domain, &call);
                }
                _ => self.count(letters, Refusal::Unreadable as u8),
            }
        }
    }

    fn run_call(&mut self, past: &mut Past, letters: &'static str, domain: u64, call: &Call) {
        let outcome = past.after.call(domain, call);
        let answer = outcome.as_ref().map_or_else(|&r| r as u8, |_| 0);
        self.count(letters, answer);
        self.note_situations(&Seen {
            before: &past.before,
            after: &past.after,
            restored: &past.restored,
            charges: &past.charges,
            gaps: &past.gaps,
            booted: past.booted,
            domain,
            call,
            outcome: &outcome,
        });
        past.charges.note(&past.before, domain, call, answer == 0);
        if answer == 0 {
            past.restored.note(&past.before, &past.after, call);
            past.gaps.note(&past.before, domain, call);
            past.booted |= letters == "BT";
        }
        drop(past.before.call(domain, call));
    }

    pub fn times(&self, letters: &'static str, answer: u8) -> u64 {
        self.answers.get(&(letters, answer)).copied().unwrap_or(0)
    }

    pub fn situation(&self, name: &'static str) -> u64 {
        self.situations.get(name).copied().unwrap_or(0)
    }

    /// Pairs that were reached and are not in the table.
    pub fn strange(&self) -> Vec<(&'static str, u8)> {
        let listed = |pair: &(&str, u8)| {
            TABLE
                .iter()
                .any(|&(l, answers)| l == pair.0 && answers.contains(&pair.1))
        };
        let pairs = self.answers.keys().copied();
        pairs.filter(|pair| !listed(pair)).collect()
    }

    /// All that was never reached: pairs of call and answer, situations, bounds.
    pub fn missing(&self) -> Vec<String> {
        let mut missing = Vec::new();
        for (letters, answer) in pairs() {
            if self.times(letters, answer) == 0 {
                missing.push(format!("{letters} with answer {answer}"));
            }
        }
        for (name, _) in situations() {
            if self.situation(name) == 0 {
                missing.push(name.to_string());
            }
        }
        for bound in bounds() {
            if !self.bounds.contains(&bound) {
                let (letters, i, value) = bound;
                missing.push(format!("{letters} with number {} at {value}", i + 1));
            }
        }
        missing
    }

    /// How much there is to reach, and the rarest pair and situation.
    pub fn summary(&self) -> String {
        let rarest = pairs().into_iter().min_by_key(|&(l, a)| self.times(l, a));
        let (letters, answer) = rarest.expect("the table is not empty");
        let names = situations().map(|(name, _)| name);
        let rare = names.min_by_key(|name| self.situation(name));
        let rare = rare.expect("the list is not empty");
        format!(
            "{} pairs of call and answer (the rarest, {letters} with {answer}, {} times), \
             {} situations (the rarest, {rare}, {} times), {} bounds",
            pairs().len(),
            self.times(letters, answer),
            situations().count(),
            self.situation(rare),
            bounds().len(),
        )
    }
}

// Knows how to count what a row of requests reaches: refusal numbers and record kinds.

use std::collections::BTreeMap;

use crate::console::Console;

/// How often each refusal number, each kind and each sort of answer came.
#[derive(Clone, Debug, Default)]
pub struct Survey {
    pub requests: usize,
    pub accepted: usize,
    pub bad_requests: usize,
    pub refusals: BTreeMap<u32, usize>,
    pub kinds: BTreeMap<u32, usize>,
}

/// Counts the answers of a new console to these lines.
pub fn survey(lines: impl IntoIterator<Item = String>) -> Survey {
    let mut console = Console::default();
    let mut survey = Survey::default();
    for line in lines {
        survey.count(&console.answer(line.as_bytes()));
    }
    survey
}

impl Survey {
    /// Counts one answer.
    pub fn count(&mut self, answer: &str) {
        self.requests += 1;
        let words: Vec<&str> = answer.split(' ').collect();
        match words.as_slice() {
            ["no", number, _] => {
                *self.refusals.entry(number.parse().expect("a number")).or_default() += 1;
            }
            ["bad", "request"] => self.bad_requests += 1,
            ["ok", _, _, _, records] => {
                self.accepted += 1;
                self.count_kinds(records);
            }
            _ => self.accepted += 1,
        }
    }

    /// Counts the last number of each record.
    fn count_kinds(&mut self, records: &str) {
        for kind in records.split(',').skip(7).step_by(8) {
            *self.kinds.entry(kind.parse().expect("a kind")).or_default() += 1;
        }
    }
}

impl std::fmt::Display for Survey {
    /// One line: requests, accepted ones, then each refusal and each kind with its count.
    fn fmt(&self, formatter: &mut std::fmt::Formatter) -> std::fmt::Result {
        write!(formatter, "{} requests, {} accepted", self.requests, self.accepted)?;
        write!(formatter, ", {} bad; refusals", self.bad_requests)?;
        for (number, count) in &self.refusals {
            write!(formatter, " {number}:{count}")?;
        }
        if !self.kinds.is_empty() {
            write!(formatter, "; kinds")?;
        }
        for (kind, count) in &self.kinds {
            write!(formatter, " {kind}:{count}")?;
        }
        Ok(())
    }
}

// Knows how to compare the desk with the plain ledger on a desk value, call by call, to the first difference.

use crate::console::Console;
use crate::generator::desks::{desks, ledger_of, DeskCase};
use crate::ledger_console::LedgerConsole;
use crate::survey::Survey;

/// Compares on so many desk values; answers one line with the counts, or the report of the first difference.
pub fn compare_desks(seed: u64, count: usize) -> Result<String, String> {
    let mut calls = 0;
    for (index, case) in desks(seed).take(count).enumerate() {
        let answers =
            answers_of(&case).map_err(|report| format!("difference in desk value {index}\n{report}"))?;
        calls += answers.len();
    }
    Ok(format!("same answers: desk and ledger, {count} desk values of {calls} requests"))
}

/// Counts the desk's answers on so many desk values.
pub fn survey_desks(seed: u64, count: usize) -> Result<Survey, String> {
    let mut survey = Survey::default();
    for case in desks(seed).take(count) {
        answers_of(&case)?.iter().for_each(|answer| survey.count(answer));
    }
    Ok(survey)
}

/// The desk's answers to the calls of a case, or the report of the first that the ledger or the refusal does not have.
pub fn answers_of(case: &DeskCase) -> Result<Vec<String>, String> {
    let before = Console::at(case.desk, case.pool.clone());
    let mut console = before.clone();
    let mut other = Other::of(case);
    let mut answers = Vec::new();
    for line in &case.calls {
        let received = console.answer(line.as_bytes());
        match other.answer(line) {
            Some(expected) if expected != received => {
                return Err(report(case, answers.len(), &expected, &received));
            }
            _ => answers.push(received),
        }
    }
    if case.refused.is_some() && console != before {
        return Err(report(case, answers.len(), "the desk and the pool as they were", "others"));
    }
    Ok(answers)
}

/// What the desk is compared with: one refusal for every call, or the ledger.
enum Other {
    Refusal(u32),
    Ledger(LedgerConsole),
}

impl Other {
    /// The refusal of a case, or the ledger at its value.
    fn of(case: &DeskCase) -> Other {
        match case.refused {
            Some(number) => Other::Refusal(number),
            None => Other::Ledger(LedgerConsole::at(ledger_of(&case.desk, &case.pool))),
        }
    }

    /// The answer that a call must have; a look at the pool is no call.
    fn answer(&mut self, line: &str) -> Option<String> {
        match self {
            Other::Ledger(ledger) => ledger.answer(line.as_bytes()),
            Other::Refusal(_) if line.starts_with("pool ") => None,
            Other::Refusal(_) if line.starts_with("show ") => Some("-".to_string()),
            Other::Refusal(number) => Some(format!("no {number} 0")),
        }
    }
}

/// The report of a difference: the desk value, the calls up to it, and both answers.
fn report(case: &DeskCase, calls: usize, expected: &str, received: &str) -> String {
    let calls = case.calls.iter().take(calls + 1).cloned().collect::<Vec<String>>().join("\n");
    format!("{:?}\ncalls:\n{calls}\nexpected:\n{expected}\nreceived:\n{received}", case.desk)
}

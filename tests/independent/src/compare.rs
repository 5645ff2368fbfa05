// Knows how to compare another console, or the C routines, with this program, request by request, to the first difference.

use std::collections::BTreeMap;
use std::io::{BufRead, BufReader, BufWriter, Write};
use std::process::{Child, ChildStdin, ChildStdout, Command, Stdio};
use std::sync::mpsc::{channel, Receiver, Sender};
use std::thread;

use crate::console::Console;
use crate::generator::dates::dates;
use crate::generator::alternatives::alternatives;
use crate::generator::editions::editions;
use crate::generator::folds::folds;
use crate::generator::labels::labels;
use crate::generator::line_faults::line_faults;
use crate::generator::lists::lists;
use crate::generator::merges::merges;
use crate::generator::names::names;
use crate::generator::octets::octets;
use crate::generator::protocol::protocol;
use crate::generator::readers;
use crate::generator::reports::reports;
use crate::generator::texts::texts;
use crate::generator::version3::version3;
use crate::generator::watches::watches;
use crate::ledger_console::LedgerConsole;
use crate::survey::Survey;

/// Families of which the comparison says how often each refusal was reached.
const SURVEYED: [&str; 3] = ["version3", "merges", "watches"];

/// How much of each family is compared; a family of 0 is left out. Desk values are compared inside this program (`beside`).
#[derive(Clone, Copy, Debug, PartialEq, Eq)]
pub struct Plan {
    pub protocol: usize,
    pub readers: usize,
    pub line_faults: usize,
    pub names: usize,
    pub dates: usize,
    pub octets: usize,
    pub editions: usize,
    pub alternatives: usize,
    pub folds: usize,
    pub texts: usize,
    pub labels: usize,
    pub lists: usize,
    pub desks: usize,
    pub reports: usize,
    pub version3: usize,
    pub merges: usize,
    pub watches: usize,
    pub seed: u64,
}

impl Default for Plan {
    /// What is compared if nothing else is said.
    fn default() -> Plan {
        Plan {
            protocol: 1000,
            readers: 160_000,
            line_faults: 30_000,
            names: 30_000,
            dates: 60_000,
            octets: 40_000,
            editions: 40_000,
            alternatives: 30_000,
            folds: 10_000,
            texts: 80_000,
            labels: 50_000,
            lists: 2_000,
            desks: 3_000,
            reports: 3_000,
            version3: 40_000,
            merges: 40_000,
            watches: 1_500,
            seed: 1,
        }
    }
}

/// A request line with the family it comes from; `begins` marks the first line of a list.
#[derive(Clone, Debug, PartialEq, Eq)]
pub struct Step {
    pub family: &'static str,
    pub begins: bool,
    pub line: String,
}

/// All steps of a plan, in order. Protocol comes first, for it tries a console at its start.
pub fn steps(plan: Plan) -> impl Iterator<Item = Step> {
    let of = |family| move |line| Step { family, begins: false, line };
    let calls = listed("lists", lists(plan.seed).take(plan.lists));
    let mornings = listed("reports", reports(plan.seed).take(plan.reports));
    (protocol().into_iter().take(plan.protocol).map(of("protocol")))
        .chain(readers(plan.seed).take(plan.readers).map(of("readers")))
        .chain(line_faults(plan.seed).take(plan.line_faults).map(of("line faults")))
        .chain(names(plan.seed).take(plan.names).map(of("names")))
        .chain(dates(plan.seed).take(plan.dates).map(of("dates")))
        .chain(octets(plan.seed).take(plan.octets).map(of("octets")))
        .chain(editions(plan.seed).take(plan.editions).map(of("editions")))
        .chain(alternatives(plan.seed).take(plan.alternatives).map(of("alternatives")))
        .chain(folds(plan.seed).take(plan.folds).map(of("folds")))
        .chain(texts(plan.seed).take(plan.texts).map(of("texts")))
        .chain(labels(plan.seed).take(plan.labels).map(of("labels")))
        .chain(calls)
        .chain(mornings)
        .chain(version3(plan.seed).take(plan.version3).map(of("version3")))
        .chain(merges(plan.seed).take(plan.merges).map(of("merges")))
        .chain(listed("watches", watches(plan.seed).take(plan.watches)))
}

/// The steps of lists whose requests belong together.
fn listed(family: &'static str, lists: impl Iterator<Item = Vec<String>>) -> impl Iterator<Item = Step> {
    lists.flat_map(move |list| {
        let numbered = list.into_iter().enumerate();
        numbered.map(move |(index, line)| Step { family, begins: index == 0, line })
    })
}

/// What speaks on the other side.
#[derive(Clone, Copy, Debug, PartialEq, Eq)]
pub enum Side {
    /// A console: every request of CONSOLE.md.
    Console,
    /// The C routines: `judge`, whose answer has the cards alone, `fold` and `unescape`.
    Routines,
}

impl Side {
    /// The steps of a plan that this side can answer; the counts are of such steps.
    fn steps(self, plan: Plan) -> Box<dyn Iterator<Item = Step>> {
        match self {
            Side::Console => Box::new(steps(plan)),
            Side::Routines => Box::new(routine_steps(plan)),
        }
    }

    /// This side's answer where a console has the one given.
    fn answer(self, step: &Step, answer: String) -> String {
        match (self, answer.split(' ').collect::<Vec<&str>>().as_slice()) {
            (Side::Routines, ["ok", cards, _]) if step.line.starts_with("judge ") => format!("ok {cards}"),
            _ => answer,
        }
    }
}

/// The steps of a plan for the C routines: inputs judged, folds, texts unescaped.
fn routine_steps(plan: Plan) -> impl Iterator<Item = Step> {
    let of = |family| move |line| Step { family, begins: false, line };
    let judged = readers(plan.seed).filter(|line| line.starts_with("judge "));
    let faulty = line_faults(plan.seed).filter(|line| !line.starts_with("read "));
    let named = names(plan.seed).filter(|line| line.starts_with("judge "));
    let dated = dates(plan.seed).filter(|line| line.starts_with("judge "));
    let placed = octets(plan.seed).filter(|line| line.starts_with("judge ") || line.starts_with("fold "));
    let tagged = alternatives(plan.seed).filter(|line| !line.starts_with("read "));
    let raised = folds(plan.seed).filter(|line| line.starts_with("fold "));
    let unescaped = texts(plan.seed).filter(|line| line.starts_with("unescape "));
    (judged.take(plan.readers).map(of("readers")))
        .chain(faulty.take(plan.line_faults).map(of("line faults")))
        .chain(named.take(plan.names).map(of("names")))
        .chain(dated.take(plan.dates).map(of("dates")))
        .chain(placed.take(plan.octets).map(of("octets")))
        .chain(tagged.take(plan.alternatives).map(of("alternatives")))
        .chain(raised.take(plan.folds).map(of("folds")))
        .chain(unescaped.take(plan.texts).map(of("texts")))
}

/// Compares the program that this command starts; answers one line with the counts, or the report
/// of the first difference.
pub fn compare(side: Side, program: &str, arguments: &[String], plan: Plan) -> Result<String, String> {
    let mut command = Command::new(program);
    command.args(arguments).stdin(Stdio::piped()).stdout(Stdio::piped());
    let mut child = command.spawn().map_err(|error| format!("cannot start {program}: {error}"))?;
    let input = child.stdin.take().expect("a pipe to the console");
    let output = child.stdout.take().expect("a pipe from the console");
    let (sender, receiver) = channel();
    let writer = thread::spawn(move || write_steps(side.steps(plan), input, sender));
    let result = compare_answers(side, receiver, output).and_then(|counts| {
        check_end(&mut child)?;
        Ok(counts)
    });
    // After a difference the console may still be running; it was started here.
    child.kill().ok();
    child.wait().ok();
    writer.join().expect("the writer ends");
    result
}

/// Sends each step to the comparing side and its line to the console. The channel has no bound, so
/// that this side waits only for the console; it stops when either side has gone.
fn write_steps(steps: impl Iterator<Item = Step>, input: ChildStdin, sender: Sender<Step>) {
    let mut input = BufWriter::with_capacity(1 << 16, input);
    for step in steps {
        let line = step.line.clone();
        if sender.send(step).is_err() || writeln!(input, "{line}").is_err() {
            return;
        }
    }
}

/// Compares answer by answer; then the console must have nothing more to say.
fn compare_answers(side: Side, receiver: Receiver<Step>, output: ChildStdout) -> Result<String, String> {
    let mut answers = BufReader::with_capacity(1 << 16, output);
    let mut own = Own::default();
    for step in receiver {
        let received = next_line(&mut answers)?;
        own.check(side, step, received)?;
    }
    match next_line(&mut answers)? {
        None => Ok(own.counts()),
        Some(more) => Err(format!("difference: a line too many\nreceived: {more}")),
    }
}

/// The next line without its LF, or nothing at the end.
fn next_line(answers: &mut impl BufRead) -> Result<Option<String>, String> {
    let mut line = Vec::new();
    let count = answers.read_until(b'\n', &mut line);
    match count.map_err(|error| format!("cannot read from the console: {error}"))? {
        0 => Ok(None),
        _ if line.ends_with(b"\n") => {
            line.pop();
            Ok(Some(String::from_utf8_lossy(&line).into_owned()))
        }
        _ => Ok(Some(format!("{} (without line end)", String::from_utf8_lossy(&line)))),
    }
}

/// A console that has answered everything ends by itself and well.
fn check_end(child: &mut Child) -> Result<(), String> {
    let status = child.wait().map_err(|error| format!("cannot wait for the console: {error}"))?;
    match status.success() {
        true => Ok(()),
        false => Err(format!("difference: all answers are the same, but the console ended with {status}")),
    }
}

/// This program's side of the comparison.
#[derive(Default)]
struct Own {
    console: Console,
    ledger: LedgerConsole,
    list: Vec<String>,
    counts: Vec<(&'static str, usize)>,
    lists: BTreeMap<&'static str, usize>,
    surveys: BTreeMap<&'static str, Survey>,
}

impl Own {
    /// Compares the console's answer, none if it has ended, with the own one and the ledger's.
    fn check(&mut self, side: Side, step: Step, received: Option<String>) -> Result<(), String> {
        self.count(&step);
        let received = received.unwrap_or("(nothing: the console has ended)".to_string());
        let expected = side.answer(&step, self.console.answer(step.line.as_bytes()));
        if received != expected {
            return Err(self.report(&step, "expected", &expected, &received));
        }
        if SURVEYED.contains(&step.family) {
            self.surveys.entry(step.family).or_default().count(&expected);
        }
        if step.family == "lists" {
            match self.ledger.answer(step.line.as_bytes()) {
                Some(entry) if entry != received => {
                    return Err(self.report(&step, "ledger", &entry, &received));
                }
                _ => (),
            }
        }
        Ok(())
    }

    /// Counts the step, and keeps the lines of the call list that it belongs to.
    fn count(&mut self, step: &Step) {
        match self.counts.last_mut() {
            Some((family, count)) if *family == step.family => *count += 1,
            _ => self.counts.push((step.family, 1)),
        }
        if step.begins {
            *self.lists.entry(step.family).or_default() += 1;
            self.list.clear();
        }
        if self.lists.contains_key(step.family) {
            self.list.push(step.line.clone());
        }
    }

    /// The report of a difference; for a call list, with the lines that lead to it.
    fn report(&self, step: &Step, who: &str, expected: &str, received: &str) -> String {
        let (_, number) = self.counts.last().expect("the step is counted");
        let mut report = format!("difference in {}, request {number}\n", step.family);
        if let Some((_, before)) = self.list.split_last() {
            report += "after these requests:\n";
            before.iter().for_each(|line| report += &format!("{line}\n"));
        }
        report + &format!("request:\n{}\n{who}:\n{expected}\nreceived:\n{received}", step.line)
    }

    /// One line with the counts of each family, and one for each family of which the refusals are counted.
    fn counts(&self) -> String {
        let mut line = "same answers:".to_string();
        for (family, count) in &self.counts {
            line += &match self.lists.get(family) {
                Some(lists) => format!(" {lists} {family} of {count} requests,"),
                None => format!(" {family} {count},"),
            };
        }
        let surveys = self.surveys.iter().map(|(family, survey)| format!("\n{family}: {survey}"));
        line.trim_end_matches(',').to_string() + &surveys.collect::<String>()
    }
}

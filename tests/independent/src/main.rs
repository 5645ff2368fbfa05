// Knows the command line: console, ledger, generate, survey, desks, compare and routines.

use std::io::{self, BufWriter, Write};
use std::process::ExitCode;

use independent::beside::{compare_desks, survey_desks};
use independent::compare::{compare, steps, Plan, Side};
use independent::console::{serve, Console, BAD_REQUEST};
use independent::ledger_console::LedgerConsole;
use independent::survey::survey;

const USAGE: &str = "usage:
  independent console                          answers requests (CONSOLE.md) on standard input
  independent ledger                           answers desk requests from the plain ledger
  independent generate [COUNTS]                prints the generated requests
  independent survey [COUNTS]                  counts what they reach, family by family
  independent desks [COUNTS]                   compares desk and ledger on generated desk values
  independent compare PROGRAM [COUNTS] [-- ARGUMENTS]
                                               compares another console with this one
  independent routines PROGRAM [COUNTS] [-- ARGUMENTS]
                                               compares the C routines, called by tests/routines.c, with this program
COUNTS: --readers N --line-faults N --names N --dates N --octets N --editions N --alternatives N --folds N --texts N --labels N --lists N --desks N --reports N --version3 N --merges N --watches N --protocol N --seed S; a family of 0 is left out";

fn main() -> ExitCode {
    let arguments: Vec<String> = std::env::args().skip(1).collect();
    match run(&arguments) {
        Ok(()) => ExitCode::SUCCESS,
        Err(report) => {
            // A reader that has gone away doesn't want the report.
            writeln!(io::stdout(), "{report}").ok();
            ExitCode::FAILURE
        }
    }
}

/// Does what the arguments say; an error is a report for the user.
fn run(arguments: &[String]) -> Result<(), String> {
    let words: Vec<&str> = arguments.iter().map(String::as_str).collect();
    match words.as_slice() {
        ["console"] => run_console(),
        ["ledger"] => run_ledger(),
        ["generate", counts @ ..] => generate(plan_of(counts)?),
        ["survey", counts @ ..] => run_survey(plan_of(counts)?),
        ["desks", counts @ ..] => run_desks(plan_of(counts)?),
        ["compare", program, rest @ ..] => run_compare(Side::Console, program, rest),
        ["routines", program, rest @ ..] => run_compare(Side::Routines, program, rest),
        _ => Err(USAGE.to_string()),
    }
}

fn run_console() -> Result<(), String> {
    let mut console = Console::default();
    let output = BufWriter::with_capacity(1 << 16, io::stdout());
    serve(io::stdin(), output, |line| console.answer(line)).map_err(|error| error.to_string())
}

fn run_ledger() -> Result<(), String> {
    let mut ledger = LedgerConsole::default();
    let answer = |line: &[u8]| ledger.answer(line).unwrap_or(BAD_REQUEST.to_string());
    serve(io::stdin(), BufWriter::new(io::stdout()), answer).map_err(|error| error.to_string())
}

fn generate(plan: Plan) -> Result<(), String> {
    let mut output = BufWriter::new(io::stdout());
    for step in steps(plan) {
        writeln!(output, "{}", step.line).map_err(|error| error.to_string())?;
    }
    output.flush().map_err(|error| error.to_string())
}

fn run_survey(plan: Plan) -> Result<(), String> {
    for family in ["protocol", "readers", "line faults", "names", "dates", "octets", "editions", "alternatives", "folds", "texts", "labels", "lists", "reports", "version3", "merges", "watches"] {
        let lines = steps(plan).filter(|step| step.family == family).map(|step| step.line);
        println!("{family}: {}", survey(lines));
    }
    println!("desks: {}", survey_desks(plan.seed, plan.desks)?);
    Ok(())
}

fn run_desks(plan: Plan) -> Result<(), String> {
    println!("{}", compare_desks(plan.seed, plan.desks)?);
    Ok(())
}

fn run_compare(side: Side, program: &str, rest: &[&str]) -> Result<(), String> {
    let (counts, arguments) = match rest.iter().position(|word| *word == "--") {
        Some(at) => (&rest[..at], &rest[at + 1..]),
        None => (rest, &[][..]),
    };
    let arguments: Vec<String> = arguments.iter().map(|word| word.to_string()).collect();
    println!("{}", compare(side, program, &arguments, plan_of(counts)?)?);
    Ok(())
}

/// The plan that the words `--family N` say, the rest as usual.
fn plan_of(words: &[&str]) -> Result<Plan, String> {
    let mut plan = Plan::default();
    for pair in words.chunks(2) {
        let [name, number] = pair else {
            return Err(USAGE.to_string());
        };
        let count: u64 = number.parse().map_err(|_| format!("{name}: {number} is no number"))?;
        match *name {
            "--readers" => plan.readers = count as usize,
            "--line-faults" => plan.line_faults = count as usize,
            "--names" => plan.names = count as usize,
            "--dates" => plan.dates = count as usize,
            "--octets" => plan.octets = count as usize,
            "--editions" => plan.editions = count as usize,
            "--alternatives" => plan.alternatives = count as usize,
            "--folds" => plan.folds = count as usize,
            "--texts" => plan.texts = count as usize,
            "--labels" => plan.labels = count as usize,
            "--desks" => plan.desks = count as usize,
            "--reports" => plan.reports = count as usize,
            "--merges" => plan.merges = count as usize,
            "--watches" => plan.watches = count as usize,
            "--version3" => plan.version3 = count as usize,
            "--lists" => plan.lists = count as usize,
            "--protocol" => plan.protocol = count as usize,
            "--seed" => plan.seed = count,
            _ => return Err(format!("{name} is unknown\n{USAGE}")),
        }
    }
    Ok(plan)
}

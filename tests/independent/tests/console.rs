// Knows the console's protocol: words, numbers, octets, bad requests, and the ledger's console.

use independent::console::{serve, Console};
use independent::ledger_console::LedgerConsole;

/// The answers of one console to these lines.
fn answers(lines: &[&str]) -> Vec<String> {
    let mut console = Console::default();
    lines.iter().map(|line| console.answer(line.as_bytes())).collect()
}

#[test]
fn lines_that_are_no_request() {
    for line in [
        "", " ", "judge", "judge ", " judge -", "judge  -", "judge - -", "judge 0", "judge 0g", "JUDGE -",
        "judge\t-", "judge -\r\r", "read 1 -", "read 1 1", "read +1 1 -", "read 70001 1 -", "read 1 70001 -",
        "fold x -", "fold 70001 -", "escape 1 6", "desk 1", "desk 1 655361", "desk 18446744073709551616 0",
        "open 4294967296 0", "open 0 4294967296", "open 0", "open -1 0", "add 1", "add 1 61", "held 4294967296", "pool 0 1", "pool 1 0", "nothing 1",
    ] {
        assert_eq!(answers(&[line]), ["bad request"], "{line}");
    }
}

#[test]
fn octets_and_numbers_in_their_spellings() {
    assert_eq!(answers(&["judge -"]), ["no 2 0"]);
    assert_eq!(answers(&["judge -\r"]), ["no 2 0"]);
    assert_eq!(
        answers(&["escape 0 -", "escape 70000 4A4b", "escape 002 2C"]),
        ["ok 0 -", "ok 2 4a4b", "ok 2 5c2c"]
    );
    assert_eq!(answers(&["unescape 0 61"]), ["no 15 1"]);
    assert_eq!(answers(&["desk 18446744073709551615 0", "open 4294967295 4294967295"]), ["no 26 0", "no 25 0"]);
}

#[test]
fn the_length_of_a_line() {
    let line = |octets: usize| format!("judge {}", "61".repeat(octets));
    assert_eq!(line(69_997).len(), 140_000);
    assert_eq!(answers(&[&line(69_997), &line(69_998)]), ["no 1 16384", "bad request"]);
    assert_eq!(answers(&[&(line(69_997) + "\r")]), ["no 1 16384"]);
}

#[test]
fn a_desk_stays_until_the_next_and_a_bad_request_changes_nothing() {
    let requests = [
        "open 0 0", "pool 0 0", "desk 1 16384", "open 5 0", "add 1 0 6162", "desk 1 655361", "held 1", "show 1",
        "pool 0 3", "pool 16383 1", "pool 16384 0", "pool 16384 1", "desk 0 4", "held 1", "pool 0 4",
        "show 1",
    ];
    let expected = [
        "no 25 0", "-", "ok 0", "ok 1", "ok 2", "bad request", "ok 2", "6162", "6162a5", "a5", "-",
        "bad request", "no 26 0", "no 25 0", "a5a5a5a5", "-",
    ];
    assert_eq!(answers(&requests), expected);
}

#[test]
fn serving_takes_lines_with_and_without_their_ends() {
    let served = |input: &str| {
        let mut output = Vec::new();
        let mut console = Console::default();
        serve(input.as_bytes(), &mut output, |line| console.answer(line)).expect("no fault");
        String::from_utf8(output).expect("ASCII")
    };
    assert_eq!(served("judge -\r\n\njudge -"), "no 2 0\nbad request\nno 2 0\n");
    assert_eq!(served(""), "");
}

#[test]
fn the_ledgers_console_answers_only_for_a_fresh_desk_with_a_proper_pool() {
    let mut ledger = LedgerConsole::default();
    let mut answer = |line: &str| ledger.answer(line.as_bytes());
    let some = |answer: &str| Some(answer.to_string());
    assert_eq!(answer("open 0 0"), None);
    assert_eq!(answer("desk 2 32768"), some("ok 0"));
    assert_eq!(answer("open 0 0"), some("ok 1"));
    assert_eq!(answer("add 1 0 41"), some("ok 1"));
    assert_eq!(answer("check 1"), some("no 4 1"));
    assert_eq!(answer("show 1"), some("41"));
    assert_eq!(answer("show 2"), some("-"));
    assert_eq!(answer("pool 0 1"), None);
    assert_eq!(answer("release 1"), some("ok 0"));
    assert_eq!(answer("held 1"), some("no 22 0"));
    for improper in ["desk 0 0", "desk 41 671744", "desk 2 32767", "desk 41 655360"] {
        assert_eq!(answer(improper), None);
        assert_eq!(answer("open 0 0"), None);
    }
}

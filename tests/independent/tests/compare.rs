// Knows that the comparison passes against this program's own console and fails against wrong ones.

use independent::compare::{compare, Plan, Side};

const SELF: &str = env!("CARGO_BIN_EXE_independent");

/// A plan of nothing.
const NOTHING: Plan = Plan {
    protocol: 0,
    readers: 0,
    line_faults: 0,
    names: 0,
    dates: 0,
    octets: 0,
    editions: 0,
    alternatives: 0,
    folds: 0,
    texts: 0,
    labels: 0,
    lists: 0,
    desks: 0,
    reports: 0,
    version3: 0,
    merges: 0,
    watches: 0,
    seed: 1,
};

/// A plan that takes no time.
fn small() -> Plan {
    Plan {
        protocol: 1000,
        readers: 2_000,
        line_faults: 300,
        names: 200,
        dates: 400,
        octets: 400,
        editions: 400,
        alternatives: 200,
        folds: 500,
        texts: 1_000,
        labels: 1_000,
        lists: 60,
        desks: 0,
        reports: 40,
        version3: 300,
        merges: 300,
        watches: 30,
        seed: 5,
    }
}

/// Compares a shell pipeline that may use `$0` for this program.
fn compare_shell(script: &str, plan: Plan) -> Result<String, String> {
    compare_side(Side::Console, script, plan)
}

/// The same for either side.
fn compare_side(side: Side, script: &str, plan: Plan) -> Result<String, String> {
    compare(side, "sh", &["-c".to_string(), script.to_string(), SELF.to_string()], plan)
}

#[test]
fn the_own_console_gives_the_same_answers() {
    let counts = compare(Side::Console, SELF, &["console".to_string()], small()).expect("no difference");
    assert!(counts.starts_with(
        "same answers: protocol 188, readers 2000, line faults 300, names 200, dates 400, octets 400, editions 400, alternatives 200, folds 500, texts 1000, labels 1000, 60 lists of "
    ));
}

#[test]
fn a_changed_answer_is_reported_with_its_request() {
    let report =
        compare_shell("\"$0\" console | sed 's/^no 12 /no 11 /'", small()).expect_err("a difference");
    assert!(report.starts_with("difference in readers, request "), "{report}");
    assert!(report.contains("request:\n") && report.contains("expected:\nno 12 "), "{report}");
    assert!(report.contains("received:\nno 11 "), "{report}");
}

#[test]
fn a_difference_in_a_call_list_comes_with_the_calls_before_it() {
    let plan = Plan { lists: 60, seed: 5, ..NOTHING };
    let report =
        compare_shell("\"$0\" console | sed 's/^ok 16384$/ok 16383/'", plan).expect_err("a difference");
    assert!(report.starts_with("difference in lists, request "), "{report}");
    assert!(report.contains("after these requests:\ndesk 1 16384\nopen 7 0\n"));
}

#[test]
fn a_console_that_ends_early_or_says_too_much_or_ends_badly_differs() {
    let early = compare_shell("\"$0\" console | head -n 700", small()).expect_err("a difference");
    assert!(early.contains("(nothing: the console has ended)"), "{early}");
    let silent = compare_shell("exit 0", small()).expect_err("a difference");
    assert!(silent.contains("(nothing: the console has ended)"), "{silent}");
    let more = compare_shell("\"$0\" console; echo more", small()).expect_err("a difference");
    assert_eq!(more, "difference: a line too many\nreceived: more");
    let badly = compare_shell("\"$0\" console; exit 3", small()).expect_err("a difference");
    assert!(badly.contains("ended with"), "{badly}");
    let none = compare(Side::Console, "/does/not/exist", &[], small()).expect_err("no program");
    assert!(none.starts_with("cannot start"), "{none}");
}

#[test]
fn families_that_the_console_does_not_know_can_be_left_out() {
    let only_readers = Plan { readers: 500, ..NOTHING };
    let script = "\"$0\" console | sed 's/^ok \\([0-9]*\\)$/gone/'";
    assert_eq!(compare_shell(script, only_readers), Ok("same answers: readers 500".to_string()));
    assert!(compare_shell(script, Plan { lists: 1, ..only_readers }).is_err());
}

#[test]
fn the_c_routines_are_asked_for_what_they_answer() {
    let counts_alone = "\"$0\" console | sed 's/^\\(ok [0-9]*\\) [0-9]*$/\\1/'";
    // A text's octets may look like a count of lines to the pattern.
    let plan = Plan { texts: 0, ..small() };
    let same = compare_side(Side::Routines, counts_alone, plan);
    assert_eq!(
        same,
        Ok("same answers: readers 2000, line faults 300, names 200, dates 400, octets 400, alternatives 200, folds 500".to_string())
    );
    let lines_too = compare_side(Side::Routines, "\"$0\" console", plan).expect_err("a difference");
    assert!(lines_too.starts_with("difference in readers, request 1\nrequest:\njudge "), "{lines_too}");
    let touched = format!("{counts_alone} | sed 's/^no 15 .*/& touched/'");
    let report = compare_side(Side::Routines, &touched, plan).expect_err("a difference");
    assert!(report.starts_with("difference in folds, request "), "{report}");
    assert!(report.contains("request:\nfold ") && report.ends_with(" touched"), "{report}");
    let unescapes = Plan { readers: 0, line_faults: 0, names: 0, dates: 0, octets: 0, editions: 0, alternatives: 0, folds: 0, ..small() };
    let same = compare_side(Side::Routines, "\"$0\" console", unescapes);
    assert_eq!(same, Ok("same answers: texts 1000".to_string()));
}

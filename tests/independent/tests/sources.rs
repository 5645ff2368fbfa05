// Knows that every example of sources 002 and 003 gets the verdict that its data file gives it.

mod common;

use common::{copy_and_records, folded_as_read};
use independent::console::Console;
use independent::examples::{m_with, source_examples, SourceExample};
use independent::requests::judge_line;

/// The accepted examples.
fn accepted() -> Vec<SourceExample> {
    source_examples().into_iter().filter(|example| example.verdict.starts_with("ok")).collect()
}

#[test]
fn every_example_gets_its_verdict() {
    for example in source_examples() {
        let answer = Console::default().answer(judge_line(&example.input).as_bytes());
        let text = String::from_utf8_lossy(&example.input);
        assert_eq!(answer, example.verdict, "{} {}\n{text}", example.source, example.section);
    }
}

#[test]
fn every_accepted_lone_line_gets_its_kind() {
    let mut lone_lines = 0;
    for example in accepted() {
        if let Some(kind) = example.kind {
            let (_, records) = copy_and_records(&example.input);
            let text = String::from_utf8_lossy(&example.input);
            assert_eq!(records[31], kind, "{} {}\n{text}", example.source, example.section);
            lone_lines += 1;
        }
    }
    assert_eq!(lone_lines, 152);
}

#[test]
fn the_files_are_whole() {
    let count = |source, verdict| {
        let examples = source_examples().into_iter();
        examples.filter(|e| e.source == source && e.verdict.starts_with(verdict)).count()
    };
    assert_eq!((count("002", "ok"), count("002", "no")), (65, 8));
    assert_eq!((count("003", "ok"), count("003", "no")), (120, 20));
}

#[test]
fn an_accepted_example_reads_the_same_after_folding() {
    for example in accepted() {
        let form = folded_as_read(&example.input, 16_384).expect("a small form");
        assert_eq!(copy_and_records(&form), copy_and_records(&example.input));
    }
}

#[test]
fn the_three_notes_of_section_3_2_are_one_line() {
    let copy_of = |line: &str| copy_and_records(&m_with(line.as_bytes())).0;
    let whole = copy_of("NOTE:This is a long description that exists on a long line.");
    assert_eq!(copy_of("NOTE:This is a long description\r\n  that exists on a long line."), whole);
    assert_eq!(copy_of("NOTE:This is a long descrip\r\n tion that exists o\r\n n a long line."), whole);
}

// Knows the morning report: document 02's and READINGS-02's examples, its limits and its rows.

use independent::console::Console;
use independent::examples::{m_with, CARD_M};
use independent::hex::{octets_of, word_of};
use independent::report::{count_named, moved, which_of, Count};

/// The answers of one console to these lines.
fn answers(lines: &[String]) -> Vec<String> {
    let mut console = Console::default();
    lines.iter().map(|line| console.answer(line.as_bytes())).collect()
}

/// The report that is printed after these lines.
fn printed(lines: &[String]) -> String {
    let mut lines = lines.to_vec();
    lines.push("print 70000".to_string());
    let answer = answers(&lines).pop().expect("an answer");
    let words: Vec<&str> = answer.split(' ').collect();
    let octets = octets_of(words[2].as_bytes()).expect("octets");
    assert_eq!(words[1], octets.len().to_string());
    String::from_utf8(octets).expect("ASCII")
}

fn take(octets: &[u8]) -> String {
    format!("take {}", word_of(octets))
}

fn set(which: u32, number: u32) -> String {
    format!("count {which} {number}")
}

#[test]
fn document_02_s_example() {
    let rows = ["uploads 1", "accepted 1", "cards 1", "lines 4", "octets 43", "p1 1", "p2 1", "p6 1", "p34 1", ""];
    assert_eq!(printed(&[take(CARD_M)]), rows.join("\n"));
}

#[test]
fn a_fresh_report_has_five_rows() {
    assert_eq!(printed(&[]), "uploads 0\naccepted 0\ncards 0\nlines 0\noctets 0\n");
    assert_eq!(printed(&[take(CARD_M), "report".to_string()]), printed(&[]));
}

#[test]
fn readings_02_s_example() {
    let inputs = [CARD_M.to_vec(), m_with(b"X-A:1"), Vec::new(), vec![b'a'; 16_385], m_with(b"BDAY;1")];
    let lines: Vec<String> = inputs.iter().map(|input| take(input)).collect();
    assert_eq!(answers(&lines), ["ok 0"; 5]);
    let rows = [
        "uploads 5", "accepted 2", "cards 2", "lines 9", "octets 93", "r1 1", "r2 1", "r41 1", "p0 1", "p1 2", "p2 2",
        "p6 2", "p34 2", "",
    ];
    assert_eq!(printed(&lines), rows.join("\n"));
}

#[test]
fn octets_are_those_of_the_input_with_its_folds() {
    let folded = b"BEGIN:VCARD\r\nVERSION:4.0\r\nFN:\r\n A\r\nEND:VCARD\r\n";
    assert!(printed(&[take(folded)]).contains("\nlines 4\noctets 46\n"));
}

#[test]
fn eighty_exactly_where_a_count_would_pass() {
    for (count, more) in moved(CARD_M) {
        let which = which_of(count);
        let full = answers(&[set(which, u32::MAX - more), take(CARD_M), take(CARD_M)]);
        assert_eq!(full[1..], ["ok 0", "no 80 0"], "{count:?}");
        let over = [set(which, u32::MAX - more + 1), take(CARD_M)];
        assert_eq!(answers(&over)[1], "no 80 0", "{count:?}");
        assert_eq!(printed(&over), printed(&over[..1]), "{count:?}");
    }
}

#[test]
fn a_count_that_is_not_moved_does_not_matter() {
    let all_full: Vec<String> = [105, 111, 200, 207].map(|which| set(which, u32::MAX)).to_vec();
    let lines = [all_full, vec![take(CARD_M)]].concat();
    assert_eq!(answers(&lines)[4], "ok 0");
}

#[test]
fn rooms() {
    let text = printed(&[]);
    let exact = answers(&[format!("print {}", text.len()), format!("print {}", text.len() - 1), "print 0".to_string()]);
    assert_eq!(exact[0], format!("ok {} {}", text.len(), word_of(text.as_bytes())));
    assert_eq!(exact[1..], [format!("no 15 {}", text.len()), format!("no 15 {}", text.len())]);
}

#[test]
fn which_counts_there_are() {
    let named: Vec<u64> = (0..500).filter(|&which| count_named(which).is_some()).collect();
    let expected = (0..=4).chain(101..=105).chain(107..=112).chain(140..=143).chain(200..=238);
    assert_eq!(named, expected.collect::<Vec<u64>>());
    assert!(named.iter().all(|&which| u64::from(which_of(count_named(which).expect("a count"))) == which));
    for line in ["count 5 1", "count 106 1", "count 239 1", "count 0 4294967296", "count 0", "take", "print", "report -", "print 70001"] {
        assert_eq!(answers(&[line.to_string()]), ["bad request"], "{line}");
    }
    assert_eq!(answers(&[set(0, u32::MAX)]), ["ok 4294967295"]);
}

#[test]
fn rows_stand_by_number() {
    let lines: Vec<String> = [238, 200, 143, 101, 112].map(|which| set(which, 7)).to_vec();
    assert!(printed(&lines).ends_with("octets 0\nr1 7\nr12 7\nr43 7\np0 7\np38 7\n"));
    assert!(Count::Refused(43) < Count::Property(0));
}

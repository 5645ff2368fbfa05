// Knows that each sample phone book has the verdict that samples/EXPECTED names, and that the ordinary ones have what such books have.

use std::collections::BTreeSet;
use std::path::{Path, PathBuf};

use independent::console::{verdict_line, Console};
use independent::folder::fold;
use independent::hex::word_of;
use independent::merging::{row_of_card, Edits};
use independent::reader::judge;
use independent::requests::{plan_line, room_line};

fn samples() -> PathBuf {
    Path::new(env!("CARGO_MANIFEST_DIR")).join("../../samples")
}

/// The names in EXPECTED, each with its verdict as the console answers it.
fn expected() -> Vec<(String, String)> {
    expected_in("")
}

/// The same of a folder.
fn expected_in(folder: &str) -> Vec<(String, String)> {
    let table = std::fs::read_to_string(samples().join(folder).join("EXPECTED")).expect("a table");
    let rows = table.lines().filter(|line| !line.starts_with('#'));
    rows.map(|row| row.split_once(' ').expect("a name and a verdict"))
        .map(|(name, verdict)| (name.to_string(), verdict.to_string()))
        .collect()
}

fn octets_of(name: &str) -> Vec<u8> {
    std::fs::read(samples().join(name)).expect("a sample")
}

/// The ordinary books.
fn ordinary() -> Vec<(String, Vec<u8>)> {
    let books = expected().into_iter().filter(|(_, verdict)| verdict.starts_with("ok "));
    books.map(|(name, _)| (name.clone(), octets_of(&name))).collect()
}

/// The books of a folder, named from samples on.
fn books_in(folder: &str) -> BTreeSet<String> {
    let entries = std::fs::read_dir(samples().join(folder)).expect("a folder");
    let names = entries.map(|entry| entry.expect("an entry").file_name().into_string().expect("a name"));
    names.filter(|name| name.ends_with(".vcf")).map(|name| format!("{folder}{name}")).collect()
}

#[test]
fn each_sample_has_its_verdict() {
    for (name, verdict) in expected() {
        assert_eq!(verdict_line(judge(&octets_of(&name))), verdict, "{name}");
    }
}

#[test]
fn the_table_names_forty_books_fifteen_damaged_ones_and_no_other() {
    let (ordinary, damaged) = (books_in(""), books_in("damaged/"));
    assert_eq!((ordinary.len(), damaged.len()), (40, 15));
    let named: BTreeSet<String> = expected().into_iter().map(|(name, _)| name).collect();
    assert_eq!(named, &ordinary | &damaged);
}

#[test]
fn the_damaged_books_have_one_refusal_each() {
    let verdicts = expected().into_iter().filter(|(_, verdict)| verdict.starts_with("no "));
    let numbers = verdicts.map(|(_, verdict)| verdict.split(' ').nth(1).map(str::to_string));
    assert!(numbers.eq((1..=5).chain(7..=12).chain(40..=43).map(|number: u32| Some(number.to_string()))));
}

#[test]
fn ordinary_books_have_1_to_15_kilobytes_several_cards_groups_folds_and_accents() {
    let (mut groups, mut members) = (0, 0);
    for (name, book) in ordinary() {
        let text = String::from_utf8(book.clone()).expect("UTF-8");
        assert!((1_000..=15_360).contains(&book.len()), "{name}: {} octets", book.len());
        assert!(text.matches("BEGIN:VCARD").count() >= 3, "{name}");
        assert!(text.contains("\r\n ") || text.contains("\r\n\t"), "{name}: no fold");
        assert!(!text.is_ascii(), "{name}: no accent");
        groups += usize::from(text.contains("item1."));
        members += usize::from(text.contains("MEMBER:"));
    }
    assert!(groups >= 30 && members >= 10, "{groups} {members}");
}

#[test]
fn ordinary_books_can_be_folded() {
    for (name, book) in ordinary() {
        assert!(fold(&book, &mut [0; 16_384]).is_ok(), "{name}");
    }
}

#[test]
fn each_version_3_card_is_taken_in_as_its_table_says() {
    let mut taken = [0, 0];
    for (name, answer) in expected_in("version3") {
        let line = room_line("v3-in", 16_384, &octets_of(&format!("version3/{name}")));
        let wanted = match answer.as_str() {
            "ok" => {
                let card = octets_of(&format!("version3/taken/{name}"));
                format!("ok {} {}", card.len(), word_of(&card))
            }
            refusal => refusal.to_string(),
        };
        taken[usize::from(answer == "ok")] += 1;
        assert_eq!(Console::default().answer(line.as_bytes()), wanted, "{name}");
    }
    assert_eq!(taken, [2, 2]);
    assert_eq!((books_in("version3/").len(), books_in("version3/taken/").len()), (4, 2));
}

#[test]
fn each_two_edits_have_the_plan_that_their_table_says() {
    for (first, rest) in expected_in("merge") {
        let (second, answer) = rest.split_once(' ').expect("a name and an answer");
        let cards = [first.as_str(), second].map(|name| octets_of(&format!("merge/{name}")));
        let rows = cards.each_ref().map(|card| row_of_card(card));
        let line = plan_line(100, &Edits { cards, rows });
        assert_eq!(Console::default().answer(line.as_bytes()), answer, "{first} {second}");
    }
}

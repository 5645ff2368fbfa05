// Knows request 13: what edition two adds, and that it takes what edition one takes without the new names.

mod common;

use std::collections::BTreeSet;

use independent::examples::m_with;
use independent::folder::{fold_by, STYLES};
use independent::generator::editions::editions;
use independent::generator::readers;
use independent::properties::{row_in, Edition, EDITIONS, NEWER, UNLISTED};
use independent::reader::{accepted_lines_in, copy_of, judge_in, records_of, Counts};
use independent::refusal::Refusal;
use independent::requests::{request_of, Request};

/// The verdict on card M with this line, its place counted from the line's start.
fn verdict(edition: Edition, line: &str) -> Result<(), (u32, usize)> {
    match judge_in(edition, &m_with(line.as_bytes())) {
        Ok(Counts { .. }) => Ok(()),
        Err(Refusal { number, place }) => Err((number, place - 32)),
    }
}

#[test]
fn names_and_counts_are_those_of_the_edition() {
    for (line, first, second) in [
        ("N:;;;", Err((7, 5)), Err((7, 5))),
        ("N:;;;;", Ok(()), Ok(())),
        ("N:;;;;;", Err((7, 6)), Ok(())),
        ("N:;;;;;;", Err((7, 6)), Ok(())),
        ("N:;;;;;;;", Err((7, 6)), Err((7, 8))),
        ("ADR:;;;;;", Err((7, 9)), Err((7, 9))),
        ("ADR:;;;;;;;", Err((7, 10)), Ok(())),
        ("ADR:;;;;;;;;;;;;;;;;;", Err((7, 10)), Ok(())),
        ("ADR:;;;;;;;;;;;;;;;;;;", Err((7, 10)), Err((7, 21))),
        ("CREATED:x", Ok(()), Err((7, 8))),
        ("CREATED;VALUE=text:x", Ok(()), Err((7, 19))),
        ("CREATED:20220705T093412Z\r\ncreated:20220705T093412Z", Ok(()), Err((10, 26))),
        ("GRAMGENDER:a,b", Ok(()), Err((7, 12))),
        ("LANGUAGE:de\r\nLANGUAGE:en", Ok(()), Err((10, 13))),
        ("LANGUAGE;ALTID=1:de\r\nLANGUAGE;ALTID=1:en", Ok(()), Ok(())),
        ("LANGUAGE;VALUE=uri:de", Ok(()), Err((7, 21))),
        ("PRONOUNS:a,b", Ok(()), Err((7, 10))),
        ("SOCIALPROFILE:cab", Ok(()), Err((7, 17))),
        ("SOCIALPROFILE;VALUE=text:cab", Ok(()), Ok(())),
    ] {
        assert_eq!(verdict(Edition::First, line), first, "{line}");
        assert_eq!(verdict(Edition::Second, line), second, "{line}");
    }
}

#[test]
fn the_new_rows_are_edition_twos_alone() {
    for (index, row) in NEWER.into_iter().enumerate() {
        assert_eq!(row.number as usize, 39 + index);
        assert_eq!(row_in(Edition::First, row.name.as_bytes()), UNLISTED);
        assert_eq!(row_in(Edition::Second, row.name.to_ascii_lowercase().as_bytes()), row);
    }
}

#[test]
fn edition_two_takes_what_edition_one_takes_without_the_new_names() {
    let mut taken = 0;
    for request in readers(13).take(60_000) {
        let Some(Request::Judge { octets }) = request_of(request.as_bytes()) else {
            continue;
        };
        let Ok(lines) = accepted_lines_in(Edition::First, &octets) else {
            continue;
        };
        let is_new = |name: &[u8]| NEWER.iter().any(|row| row.name.as_bytes().eq_ignore_ascii_case(name));
        if lines.iter().any(|line| is_new(&line.parts.name)) {
            continue;
        }
        let again = accepted_lines_in(Edition::Second, &octets).expect("edition two takes it too");
        assert_eq!((copy_of(&again), records_of(&again)), (copy_of(&lines), records_of(&lines)));
        for style in STYLES {
            let rooms = EDITIONS.map(|edition| {
                let mut room = vec![0; 16_384];
                (fold_by(edition, style, &octets, &mut room), room)
            });
            assert_eq!(rooms[0], rooms[1]);
        }
        taken += 1;
    }
    assert!(taken > 5_000, "{taken}");
}

#[test]
fn the_family_reaches_both_sides_in_both_editions() {
    let mut reached = BTreeSet::new();
    let mut rows = BTreeSet::new();
    for request in editions(1).take(20_000) {
        let Some(Request::JudgeIn { edition, octets }) = request_of(request.as_bytes()) else {
            continue;
        };
        match accepted_lines_in(edition, &octets) {
            Ok(lines) => rows.extend(lines.iter().map(|line| (edition as usize, line.property))),
            Err(refusal) => drop(reached.insert((edition as usize, refusal.number))),
        }
    }
    for number in [7, 10] {
        assert!(reached.contains(&(1, number)));
    }
    assert!(reached.contains(&(0, 7)));
    assert!((39..=43).all(|row| rows.contains(&(1, row)) && !rows.contains(&(0, row))));
}

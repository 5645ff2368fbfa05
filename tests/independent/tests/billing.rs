// Knows request 14: no folding has fewer physical lines than the greedy one, and equal octets are written exactly of equal copies.

mod common;

use common::*;
use independent::billing::{fewest_of_all, fewest_parts};
use independent::dice::Dice;
use independent::examples::m_with;
use independent::folder::{fold, fold_as_read, folded_line, MOST_LINE_OCTETS};
use independent::generator::folds::folds;
use independent::generator::grammar::folded;
use independent::lines::logical_lines;
use independent::requests::{request_of, Request};

/// Characters of one to four octets.
const CHARACTERS: [&str; 4] = ["x", "é", "€", "🚋"];

/// How many physical lines octets in CR LF pairs have.
fn physical_lines(octets: &[u8]) -> usize {
    octets.iter().filter(|octet| **octet == b'\n').count()
}

/// The logical lines of card M with a NOTE of this value.
fn lines_of_m(value: &str) -> Vec<Vec<u8>> {
    logical_lines(&m_with(format!("NOTE:{value}").as_bytes())).into_iter().map(|line| line.octets).collect()
}

#[test]
fn greedy_is_the_fewest_of_all_cuttings_at_small_widths() {
    let mut dice = Dice::new(14);
    for width in 5..=7 {
        for length in 0..=11 {
            for _ in 0..200 {
                let line: String = (0..length).map(|_| CHARACTERS[dice.below(4)]).collect();
                let fewest = fewest_of_all(&line, width);
                assert_eq!(fewest_parts(&line, width), fewest, "{line} at {width}");
                assert_eq!(physical_lines(&folded_line(line.as_bytes(), width)), fewest, "{line} at {width}");
            }
        }
    }
}

#[test]
fn greedy_is_the_fewest_at_75_on_every_fold_of_the_generator() {
    let mut lines = 0;
    for request in folds(14).take(20_000) {
        let Some(Request::Fold { octets, .. }) = request_of(request.as_bytes()) else {
            continue;
        };
        let mut room = vec![0; 16_384];
        let Ok(count) = fold(&octets, &mut room) else {
            continue;
        };
        let fewest = |octets: Vec<u8>| fewest_parts(std::str::from_utf8(&octets).expect("check 5 passed"), MOST_LINE_OCTETS);
        let sum: usize = logical_lines(&octets).into_iter().map(|line| fewest(line.octets)).sum();
        assert_eq!(physical_lines(&room[..count]), sum, "{request}");
        lines += sum;
    }
    assert!(lines > 100_000, "{lines} physical lines");
}

#[test]
fn equal_octets_are_written_exactly_of_equal_copies() {
    let mut dice = Dice::new(15);
    let mut alike = 0;
    for turn in 0..20_000 {
        let value = |dice: &mut Dice| CHARACTERS[dice.below(4)].repeat(dice.below(60));
        let first = value(&mut dice);
        let second = if turn % 2 == 0 { first.clone() } else { value(&mut dice) };
        let inputs = [first, second].map(|value| folded(&mut dice, &lines_of_m(&value)));
        let written = [0, 1].map(|side| {
            let mut room = vec![0; 16_384];
            let count = fold_as_read(&inputs[side], &mut room).expect("a small card");
            room[..count].to_vec()
        });
        let copies = [0, 1].map(|side| copy_and_records(&inputs[side]).0);
        assert_eq!(written[0] == written[1], copies[0] == copies[1]);
        alike += usize::from(copies[0] == copies[1]);
    }
    assert!((9_000..=12_000).contains(&alike), "{alike} pairs alike");
}

#[test]
fn raised_equal_octets_do_not_tell_equal_copies() {
    let written = ["x:1", "X:1"].map(|line| {
        let mut room = vec![0; 16_384];
        let count = fold(&m_with(line.as_bytes()), &mut room).expect("a small card");
        room[..count].to_vec()
    });
    assert_eq!(written[0], written[1]);
}

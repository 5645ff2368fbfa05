// Knows how to make cards with several lines of a property that a card has once, with and without ALTID, folded too.

use crate::dice::Dice;
use crate::generator::grammar::folded;
use crate::generator::{mixed, rooms};
use crate::properties::{Row, ROWS};
use crate::requests::{judge_line, room_line};

/// ALTID as it may stand in a line, nothing for a line without one.
const ALTIDS: [&str; 16] = [
    "", ";ALTID=", ";ALTID=\"\"", ";ALTID=1", ";ALTID=\"1\"", ";altid=1", ";ALTID=01", ";ALTID=2",
    ";ALTID=a", ";ALTID=A", ";ALTID=1,2", ";ALTID=\"1,2\"", ";ALTID=1;ALTID=2", ";ALTID=2;ALTID=1",
    ";TYPE=x;ALTID=1;PREF=1", ";ALTIDS=1;X-ALTID=1",
];

/// Requests without end, of cards with such lines: judged, read and folded by turns.
pub fn alternatives(seed: u64) -> impl Iterator<Item = String> {
    let cards = mixed(seed, cards_by_hand(), 1, card_by_chance);
    let mut dice = Dice::new(seed + 1);
    cards.enumerate().map(move |(index, lines)| {
        let input = folded(&mut dice, &lines);
        match index % 3 {
            0 => judge_line(&input),
            1 => rooms::read_request(&input, index),
            _ => room_line("fold", 16_384, &input),
        }
    })
}

/// The lines of one card around these.
fn card_of(inner: &[Vec<u8>]) -> Vec<Vec<u8>> {
    let start = [b"BEGIN:VCARD".to_vec(), b"VERSION:4.0".to_vec(), b"FN:A".to_vec()];
    [&start, inner, &[b"END:VCARD".to_vec()]].concat()
}

/// A line of the row with this ALTID.
fn line_of(row: Row, altid: &str) -> Vec<u8> {
    let values = ["a", "a", "a", "a:b", ";;;;", ";;;;;;", "a", "M", "1;a:", "19850412", "19961022T140000Z"];
    let value = values[row.kind as usize];
    format!("{}{altid}:{value}", row.name).into_bytes()
}

fn singles() -> Vec<Row> {
    ROWS.into_iter().filter(|row| row.single).collect()
}

/// Each pair of ALTIDs, as two lines of N; each property twice with one ALTID; and ALTIDs of other properties and of the card before.
fn cards_by_hand() -> Vec<Vec<Vec<u8>>> {
    let rows = singles();
    let name = rows.iter().copied().find(|row| row.name == "N").expect("N");
    let mut cards = Vec::new();
    for first in ALTIDS {
        for second in ALTIDS {
            cards.push(card_of(&[line_of(name, first), line_of(name, second)]));
        }
    }
    for row in &rows {
        for other in &rows {
            let lines = [line_of(*row, ";ALTID=1"), line_of(*other, ";ALTID=22"), line_of(*row, ";ALTID=1")];
            cards.push(card_of(&lines));
            let swapped =
                [line_of(*row, ";ALTID=22"), line_of(*other, ";ALTID=1"), line_of(*row, ";ALTID=1")];
            cards.push(card_of(&swapped));
        }
        let one = card_of(&[line_of(*row, ";ALTID=1")]);
        let next = card_of(&[line_of(*row, ";ALTID=2"), line_of(*row, ";ALTID=2")]);
        cards.push([one, next].concat());
    }
    for kinds in [["group", "x"], ["x", "group"], ["x", "x"]] {
        let lines = kinds.map(|kind| format!("KIND;ALTID=1:{kind}").into_bytes());
        cards.push(card_of(&[lines.to_vec(), vec![b"MEMBER:a:b".to_vec()]].concat()));
    }
    cards
}

/// One or two cards of some lines of some of these properties; mostly one ALTID for each property.
fn card_by_chance(dice: &mut Dice) -> Vec<Vec<u8>> {
    let rows = singles();
    let mut lines = Vec::new();
    for _ in 0..dice.between(1, 2) {
        let tags: Vec<String> = rows.iter().map(|_| altid_by_chance(dice)).collect();
        let mut inner = Vec::new();
        for _ in 0..dice.between(1, 7) {
            let which = dice.below(rows.len());
            let tag = if dice.once_in(8) { altid_by_chance(dice) } else { tags[which].clone() };
            inner.push(line_of(rows[which], &tag));
        }
        if dice.once_in(8) {
            inner.push(b"MEMBER:a:b".to_vec());
        }
        lines.extend(card_of(&inner));
    }
    lines
}

/// An ALTID of the list, or a longer one.
fn altid_by_chance(dice: &mut Dice) -> String {
    if dice.once_in(3) {
        return dice.pick(&ALTIDS).to_string();
    }
    let length = dice.between(1, 40);
    let octets: String = (0..length).map(|_| *dice.pick(&['a', 'b', '1', 'ä', '-'])).collect();
    if dice.once_in(2) {
        return format!(";ALTID=\"{octets}\"");
    }
    format!(";ALTID={octets}")
}

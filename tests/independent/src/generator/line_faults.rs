// Knows how to make lines that break the line rule at each of their parts, folded too.

use crate::content::parse;
use crate::dice::Dice;
use crate::generator::grammar::{folded, property_line};
use crate::generator::{mixed, rooms};
use crate::properties::ROWS;
use crate::requests::{judge_line, room_line};

/// The lines of READINGS-02's table, with the number of each.
pub const TABLE: [(u32, &str); 32] = [
    (40, ""),
    (40, ":v"),
    (40, ";A=b:v"),
    (40, ".X:v"),
    (40, "g."),
    (40, "g.:v"),
    (40, "g.h.X:v"),
    (40, "X Y"),
    (40, "X=1:v"),
    (40, "F\"N:x"),
    (40, " X:1"),
    (41, "BDAY;19531015T231000Z"),
    (41, "X;"),
    (41, "X;A"),
    (41, "X;A:v"),
    (41, "X;A;B=1:v"),
    (41, "X;;"),
    (41, "X;=v:v"),
    (41, "X;A\"=1:v"),
    (41, "X;A b=1:v"),
    (42, "X;A=\"b"),
    (42, "X;A=\"b\"c:v"),
    (42, "X;A=\"b\"\"c\":v"),
    (42, "X;A=b\"c:v"),
    (42, "X;A=b\""),
    (43, "X"),
    (43, "g.X"),
    (43, "X;A="),
    (43, "X;A=b"),
    (43, "X;A=b,"),
    (43, "X;A=\"b\""),
    (42, "X;A=\"\"\""),
];

/// Octets that a part of a line may not have, or that end it.
const STRAY: &[u8] = b"\"\"\"\"\";:,.= a-1";

/// Requests without end, of inputs with a line that breaks the line rule or nearly: judged, read and folded by turns.
pub fn line_faults(seed: u64) -> impl Iterator<Item = String> {
    let by_hand = TABLE.iter().map(|(_, line)| line.as_bytes().to_vec()).collect();
    let lines = mixed(seed, by_hand, 1, broken_line);
    let mut dice = Dice::new(seed + 1);
    lines.enumerate().map(move |(index, line)| {
        let input = input_with(&mut dice, &line);
        match index % 3 {
            0 => judge_line(&input),
            1 => rooms::read_request(&input, index),
            _ => room_line("fold", 16_384, &input),
        }
    })
}

/// A card with this line after FN, folded somehow.
fn input_with(dice: &mut Dice, line: &[u8]) -> Vec<u8> {
    let lines: Vec<Vec<u8>> =
        [b"BEGIN:VCARD", b"VERSION:4.0".as_slice(), b"FN:A", line, b"END:VCARD"].map(<[u8]>::to_vec).to_vec();
    folded(dice, &lines)
}

/// A line that is cut off, or has an octet too many, too few or a wrong one, somewhere before its value.
fn broken_line(dice: &mut Dice) -> Vec<u8> {
    let row = *dice.pick(&ROWS);
    let mut line = property_line(dice, row.name);
    let end = parse(&line).expect("a well-formed line").value_start;
    let place = dice.below(end);
    match dice.below(5) {
        0 | 1 => line.truncate(place),
        2 => drop(line.remove(place)),
        3 => line[place] = *dice.pick(STRAY),
        _ => line.insert(place, *dice.pick(STRAY)),
    }
    line
}

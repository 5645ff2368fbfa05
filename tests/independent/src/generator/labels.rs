// Knows the label requests: all short values and labels over the octets that matter, borders, and chance.

use crate::dice::Dice;
use crate::generator::grammar::{character, push};
use crate::generator::hand::{rows_up_to, SEQUENCES};
use crate::generator::mixed;
use crate::generator::rooms::room_around;
use crate::labels::{decode, encode, Rule, RULES};
use crate::requests::label_line;

/// The words of both entries.
const BOTH: [&str; 2] = ["encode", "decode"];

/// Octets of the values of up to five octets that are encoded, and of the labels that are decoded.
const TO_ENCODE: &[u8; 5] = b"a^\"\nn";
const TO_DECODE: &[u8; 6] = b"a^'nN\"";

/// An entry, a rule and the octets handed in.
pub type Asked = (&'static str, Rule, Vec<u8>);

/// Label requests without end: large ones, then borders, all short ones and chance.
pub fn labels(seed: u64) -> impl Iterator<Item = String> {
    let asked =
        mixed(seed, by_hand(), 3, |dice| (*dice.pick(&BOTH), *dice.pick(&RULES), octets_by_chance(dice)));
    let requests = asked.enumerate().map(|(index, asked)| request(&asked, index / 3));
    large().into_iter().chain(requests)
}

/// The request of an entry, with a room that goes round with the turn.
fn request((word, rule, octets): &Asked, turn: usize) -> String {
    let room = match *word {
        "encode" => room_around(|input, out| encode(*rule, input, out), octets, turn),
        _ => room_around(|input, out| decode(*rule, input, out), octets, turn),
    };
    label_line(word, *rule, room, octets)
}

/// All short values and labels and all borders, each with the entry that it is for, under both rules.
pub fn by_hand() -> Vec<Asked> {
    let mut asked = Vec::new();
    for rule in RULES {
        asked.extend(rows_up_to(5, TO_ENCODE).into_iter().map(|value| ("encode", rule, value)));
        asked.extend(rows_up_to(5, TO_DECODE).into_iter().map(|label| ("decode", rule, label)));
        for octets in borders() {
            asked.extend(BOTH.map(|word| (word, rule, octets.clone())));
        }
    }
    asked
}

/// Every octet alone, between others, after and before a caret; bad UTF-8 of every kind with marks around it; and
/// octets with two faults.
fn borders() -> Vec<Vec<u8>> {
    let mut all = Vec::new();
    for octet in 0..=255u8 {
        all.extend([vec![octet], vec![b'a', octet, b'b'], vec![b'^', octet], vec![octet, b'"', 0]]);
        all.extend([vec![b'"', octet], vec![b'\n', octet, b'"'], vec![b'^', b'^', octet], vec![octet, b'^']]);
    }
    for sequence in SEQUENCES {
        for (before, after) in
            [("", ""), ("ab", "c"), ("é", "\""), ("\"", ""), ("^", "^"), ("\n", "\n"), ("^n", "")]
        {
            all.push([before.as_bytes(), sequence, after.as_bytes()].concat());
        }
    }
    all
}

/// Values and labels at both sides of 16,384 octets, as given and as written, with rooms around what they need.
fn large() -> Vec<String> {
    let of = |count: usize, end: &[u8]| [&vec![b'a'; count], end].concat();
    let all = [
        of(16_384, b""),
        of(16_385, b""),
        of(16_385, b"\""),
        of(16_382, b"^"),
        of(16_383, b"^"),
        of(16_383, b"\""),
        of(16_382, b"\"\x00"),
        of(16_382, b"^n"),
        of(16_382, b"\n\""),
        of(16_383, b"\xC3"),
        b"^".repeat(8_192),
        b"^".repeat(8_193),
        b"^".repeat(16_384),
        b"\n".repeat(8_193),
        b"^'".repeat(8_192),
        of(60_000, b""),
    ];
    let mut requests = Vec::new();
    for octets in all {
        for (word, rule) in BOTH.iter().flat_map(|word| RULES.map(|rule| (word, rule))) {
            for room in [0, 8_191, 8_192, 8_193, 16_383, 16_384, 16_385] {
                requests.push(label_line(word, rule, room, &octets));
            }
        }
    }
    requests
}

/// Characters and pairs, and now and then a mark by itself or an octet that is no character.
fn octets_by_chance(dice: &mut Dice) -> Vec<u8> {
    let mut octets = Vec::new();
    for _ in 0..*dice.pick(&[1, 2, 4, 8, 16, 31, 32, 33, 64, 200]) {
        match dice.below(80) {
            0 => octets.push(dice.octet()),
            1..=8 => octets.extend(*dice.pick(&[b"^n", b"^^", b"^'", b"^N", b"^a", b"^ "])),
            9 => octets.push(b'\n'),
            10 => octets.push(b'"'),
            11 => octets.push(b'^'),
            _ => match character(dice) {
                '"' => octets.push(b'.'),
                other => push(&mut octets, other),
            },
        }
    }
    octets
}

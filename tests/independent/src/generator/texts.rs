// Knows the text requests: all short texts over the octets that matter, borders, and chance.

use crate::dice::Dice;
use crate::examples::text_examples;
use crate::generator::grammar::{character, push};
use crate::generator::hand::{rows_up_to, SEQUENCES};
use crate::generator::rooms::room_request;
use crate::generator::{mixed, requests_of};
use crate::requests::room_line;
use crate::text::{escape, unescape};

/// The words of both entries.
const BOTH: [&str; 2] = ["escape", "unescape"];

/// Octets of the texts of up to six octets that are escaped, and of those that are unescaped.
const TO_ESCAPE: &[u8; 5] = b"a\\,;\n";
const TO_UNESCAPE: &[u8; 5] = b"a\\,;n";

/// Octets of the texts of up to four octets that are both escaped and unescaped.
const MIXED: &[u8; 9] = b"\\,;nN\n\t\xC3\xA9";

/// Text requests without end: the paper's examples, large texts, then borders, all short texts and chance.
pub fn texts(seed: u64) -> impl Iterator<Item = String> {
    let texts = mixed(seed, by_hand(), 4, |dice| (*dice.pick(&BOTH), text_by_chance(dice)));
    let requests = texts.enumerate().map(|(index, (word, text))| match word {
        "escape" => room_request(word, escape, &text, index / 2),
        _ => room_request(word, unescape, &text, index / 2),
    });
    requests_of(text_examples()).into_iter().chain(large_texts()).chain(requests)
}

/// All short texts and all borders, each with the entry that it is for.
pub fn by_hand() -> Vec<(&'static str, Vec<u8>)> {
    let mut texts = Vec::new();
    texts.extend(rows_up_to(6, TO_ESCAPE).into_iter().map(|text| ("escape", text)));
    texts.extend(rows_up_to(6, TO_UNESCAPE).into_iter().map(|text| ("unescape", text)));
    for text in [border_texts(), rows_up_to(4, MIXED)].concat() {
        texts.extend(BOTH.map(|word| (word, text.clone())));
    }
    texts
}

/// Every octet alone, between others and after a backslash; bad UTF-8 of every kind at start,
/// middle and end; and texts with two faults.
fn border_texts() -> Vec<Vec<u8>> {
    let mut texts = Vec::new();
    for octet in 0..=255u8 {
        texts.extend([vec![octet], vec![b'a', octet, b'b'], vec![b'\\', octet], vec![octet, b',', 0]]);
    }
    for sequence in SEQUENCES {
        for (before, after) in [("", ""), ("ab", "c"), ("é", ""), ("a,", ","), ("\\", ""), ("\u{7F}", "")] {
            texts.push([before.as_bytes(), sequence, after.as_bytes()].concat());
        }
    }
    // Each text as often as there are sorts of room, so that all of them get their turn.
    (0..3).flat_map(|_| texts.clone()).collect()
}

/// Texts at both sides of 16,384 octets, before and after escaping, with rooms around what they need.
fn large_texts() -> Vec<String> {
    let of = |count: usize, end: &[u8]| [&vec![b'a'; count], end].concat();
    let texts = [
        of(16_384, b""),
        of(16_385, b""),
        of(16_385, b"\x00"),
        of(16_382, b","),
        of(16_383, b","),
        of(16_383, b"\x00"),
        of(16_382, b",\x00"),
        of(16_383, b"\\"),
        of(16_382, b"\\n"),
        of(16_383, b"\xC3"),
        of(16_382, "é".as_bytes()),
        b",".repeat(8_192),
        b",".repeat(8_193),
        b"\n".repeat(8_192),
        b"\n".repeat(8_193),
        b"\\,".repeat(8_192),
        b"\\n".repeat(8_192),
        b"\\".repeat(16_384),
        of(60_000, b""),
    ];
    let mut requests = Vec::new();
    for text in texts {
        for word in BOTH {
            for room in [0, 8_191, 8_192, 8_193, 16_383, 16_384, 16_385] {
                requests.push(room_line(word, room, &text));
            }
        }
    }
    requests
}

/// A text of characters, escapes and now and then octets that are no character.
fn text_by_chance(dice: &mut Dice) -> Vec<u8> {
    let mut text = Vec::new();
    for _ in 0..*dice.pick(&[1, 2, 4, 8, 16, 32, 64, 200]) {
        match dice.below(60) {
            0 => text.push(dice.octet()),
            1..=8 => text.extend(*dice.pick(&[b"\\\\", b"\\,", b"\\;", b"\\n", b"\\N"])),
            9 => text.push(b'\n'),
            _ => match character(dice) {
                ',' | '\\' if dice.once_in(2) => text.push(b'.'),
                other => push(&mut text, other),
            },
        }
    }
    text
}

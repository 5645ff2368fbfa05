// Knows how to make inputs in which the two editions differ: the new names, and N and ADR with each count of components.

use crate::dice::Dice;
use crate::examples::{m_with, CARD_M};
use crate::generator::grammar::{folded, input};
use crate::generator::{mixed, rooms};
use crate::properties::{Edition, EDITIONS, NEWER};
use crate::requests::judge_in_line;

/// What may stand between the new names and their values.
const PARAMETERS: [&str; 10] = [
    "", ";VALUE=text", ";value=URI", ";VALUE=timestamp", ";VALUE=\"text\"", ";ALTID=1", ";ALTID=2", ";CALSCALE=julian",
    ";LANGUAGE=de", ";X=\"a:b\"",
];

/// Values that fit some of the kinds 0, 1, 3 and 10 and not the others.
const VALUES: [&str; 14] = [
    "", "a", "a,b", "a\\,b", "a\\", "a\\x", "urn:a", "urn:a,b", "urn:é", "20220705T093412Z", "20220705T093412",
    "20220705T093412-2400", "20220705", "é,",
];

/// Requests without end: each input judged, read and folded in both editions.
pub fn editions(seed: u64) -> impl Iterator<Item = String> {
    let inputs = mixed(seed, by_hand(), 2, by_chance);
    inputs.enumerate().flat_map(|(index, input)| EDITIONS.map(|edition| request(edition, &input, index)))
}

/// The request of a turn.
fn request(edition: Edition, input: &[u8], turn: usize) -> String {
    match turn % 3 {
        0 => judge_in_line(edition, input),
        1 => rooms::read_in_request(edition, input, turn / 3),
        _ => rooms::fold_by_request(edition, input, turn / 3),
    }
}

/// Each new name with each parameter and value, twice in a card, and every count of components.
pub fn by_hand() -> Vec<Vec<u8>> {
    let mut lines = Vec::new();
    for row in NEWER {
        let (name, small) = (row.name, row.name.to_ascii_lowercase());
        for parameters in PARAMETERS {
            lines.extend(VALUES.map(|value| format!("{name}{parameters}:{value}")));
            let value = VALUES[9];
            lines.extend(PARAMETERS.map(|other| format!("{name}{parameters}:{value}\r\n{small}{other}:{value}")));
        }
        lines.extend([&name[1..], &name[..name.len() - 1], &format!("{name}S"), &format!("g.{small}")].map(|name| format!("{name}:a,\\x")));
    }
    for semicolons in 0..=20 {
        for name in ["N", "ADR"] {
            lines.push(format!("{name}:{}", ";".repeat(semicolons)));
            lines.push(format!("{name}:{}", ";\\;".repeat(semicolons)));
            lines.push(format!("{name}:a,b{}c\\", ";".repeat(semicolons)));
            lines.push(format!("{name};LANGUAGE=de:a\\n{}é", ";".repeat(semicolons)));
        }
    }
    lines.iter().map(|line| m_with(line.as_bytes())).collect()
}

/// Lines by chance in a card or a book, some of them folded.
fn by_chance(dice: &mut Dice) -> Vec<u8> {
    if dice.once_in(4) {
        return renamed(dice);
    }
    let count = dice.between(1, 4);
    let lines: Vec<String> = (0..count).map(|_| line(dice)).collect();
    let lines = [vec!["BEGIN:VCARD".to_string(), "VERSION:4.0".to_string(), "FN:A".to_string()], lines, vec!["END:VCARD".to_string()]].concat();
    let octets: Vec<Vec<u8>> = lines.into_iter().map(String::into_bytes).collect();
    let card = folded(dice, &octets);
    match dice.once_in(3) {
        true => [CARD_M, &card].concat(),
        false => card,
    }
}

/// A line of a new name, of N or of ADR.
fn line(dice: &mut Dice) -> String {
    let semicolons = dice.below(20);
    let mut parts = String::new();
    for _ in 0..semicolons {
        parts += *dice.pick(&[";", ";", ";", "a;", ",;", "\\;;", "é;"]);
    }
    match dice.below(4) {
        0 => format!("N:{parts}"),
        1 => format!("ADR{}:{parts}", dice.pick(&PARAMETERS)),
        _ => {
            let name = dice.pick(&NEWER).name;
            let name = if dice.once_in(3) { name.to_ascii_lowercase() } else { name.to_string() };
            format!("{name}{}:{}", dice.pick(&PARAMETERS), dice.pick(&VALUES))
        }
    }
}

/// An input by grammar in which a name that is as long is a new one.
fn renamed(dice: &mut Dice) -> Vec<u8> {
    let mut octets = input(dice);
    let name = *dice.pick(&[("\r\nNOTE:", "\r\nCREATED:"), ("\r\nTEL", "\r\nPRONOUNS"), ("\r\nLANG", "\r\nLANGUAGE"), ("\r\nURL", "\r\nSOCIALPROFILE")]);
    let (old, new) = (name.0.as_bytes(), name.1.as_bytes());
    if let Some(at) = octets.windows(old.len()).position(|part| part == old) {
        octets.splice(at..at + old.len(), new.iter().copied());
    }
    octets
}

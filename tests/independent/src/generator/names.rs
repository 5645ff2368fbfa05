// Knows how to make lines whose name is a property's, nearly one, or of any length and first octet, so that finding a row by name is tried.

use crate::dice::Dice;
use crate::generator::grammar::folded;
use crate::generator::mixed;
use crate::properties::ROWS;
use crate::requests::{judge_line, read_line};

/// The longest name tried; the longest of the table has twelve octets.
pub const LONGEST: usize = 14;

/// What a name may consist of.
const NAME_OCTETS: &[u8] = b"ABCDEFGHIJKLMNOPQRSTUVWXYZabcdefghijklmnopqrstuvwxyz0123456789-";

/// Values of all kinds, so that an answer tells which row was found.
const VALUES: [&str; 12] =
    ["", "a", "urn:a", "a,b", "a;b", "a\\x", ";;;;", ";;;;;;", "1;urn:a", "M;a", "4.0", "VCARD"];

/// Requests without end, of inputs with a line of such a name: judged and read by turns.
pub fn names(seed: u64) -> impl Iterator<Item = String> {
    let names = mixed(seed, names_by_hand(), 1, name_by_chance);
    let mut dice = Dice::new(seed + 1);
    names.enumerate().map(move |(index, name)| {
        let input = input_with(&mut dice, &name);
        match index % 2 {
            0 => judge_line(&input),
            _ => read_line(20_000, 40_000, &input),
        }
    })
}

/// Every length with every first octet, every name of the table in both cases, and every name one octet away from it.
pub fn names_by_hand() -> Vec<Vec<u8>> {
    let mut names = Vec::new();
    for length in 1..=LONGEST {
        for &first in NAME_OCTETS {
            for filler in [first, b'x', b'-'] {
                names.push([vec![first], vec![filler; length - 1]].concat());
            }
        }
    }
    for row in &ROWS {
        let name = row.name.as_bytes();
        names.push(name.to_vec());
        names.push(name.to_ascii_lowercase());
        for place in 0..name.len() {
            names.extend(near(name, place));
        }
        for octet in [b'S', b'-', b'0'] {
            names.push([name, &[octet]].concat());
        }
    }
    names
}

/// The names that differ from this one at a place: another case, its neighbours, a digit, an octet that agrees but for the bit of 32, one left
/// out, one put in.
fn near(name: &[u8], place: usize) -> Vec<Vec<u8>> {
    let octet = name[place];
    let mut names: Vec<Vec<u8>> = [octet ^ 32, octet - 1, octet + 1, octet ^ 64, b'0', b'-', b'Q']
        .into_iter()
        .filter(|other| NAME_OCTETS.contains(other))
        .map(|other| {
            let mut changed = name.to_vec();
            changed[place] = other;
            changed
        })
        .collect();
    names.push([&name[..place], &name[place + 1..]].concat());
    names.push([&name[..place], &[octet, octet], &name[place + 1..]].concat());
    names.retain(|name| !name.is_empty());
    names
}

/// A name of the table in some case, changed at no place or at some; or any name.
fn name_by_chance(dice: &mut Dice) -> Vec<u8> {
    if dice.once_in(4) {
        let length = dice.between(1, LONGEST);
        return (0..length).map(|_| *dice.pick(NAME_OCTETS)).collect();
    }
    let row = dice.pick(&ROWS);
    let name: Vec<u8> =
        row.name.bytes().map(|octet| if dice.once_in(3) { octet ^ 32 } else { octet }).collect();
    if dice.once_in(2) {
        return name;
    }
    let place = dice.below(name.len());
    dice.pick(&near(name.to_ascii_uppercase().as_slice(), place)).clone()
}

/// A card with a line of this name and some value after FN, with a group at times, folded somehow.
fn input_with(dice: &mut Dice, name: &[u8]) -> Vec<u8> {
    let group: &[u8] = if dice.once_in(8) { b"g." } else { b"" };
    let value = dice.pick(&VALUES).as_bytes();
    let line = [group, name, b":", value].concat();
    let frame: [&[u8]; 5] = [b"BEGIN:VCARD", b"VERSION:4.0", b"FN:A", &line, b"END:VCARD"];
    folded(dice, &frame.map(<[u8]>::to_vec))
}

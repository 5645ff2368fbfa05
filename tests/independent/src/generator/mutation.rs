// Knows how to change an input at random places: octets, runs of octets, lines, cases, ends.

use crate::dice::Dice;

/// Octets that mean something to some rule, and octets at the borders of the classes.
const SPECIAL: &[u8] = b"\r\n \t:;,.=\"\\-+ANnmVvGg09@~!\x00\x08\x0B\x1F\x7F\x80\xBF\xC2\xE0\xF4\xFF";

/// Runs of octets that mean something together.
const RUNS: [&[u8]; 16] = [
    b"\r\n", b"\r\n ", b"\r\n\t", b"\r\n\r\n", b";VALUE=text", b";VALUE=uri", b"\\,", b"\\n", b"a.", b"\"",
    b"END:VCARD\r\n", b"BEGIN:VCARD\r\n", b"MEMBER:a:b\r\n", b"N:;;;;\r\n", b"\xE2\x82\xAC",
    b"\xF0\x9F\x9A\x8B",
];

/// An input from the maker with one to three changes.
pub fn mutated(dice: &mut Dice, mut maker: impl FnMut(&mut Dice) -> Vec<u8>) -> Vec<u8> {
    let mut input = maker(dice);
    for _ in 0..*dice.pick(&[1, 1, 1, 2, 3]) {
        if !input.is_empty() {
            change(dice, &mut input);
        }
    }
    input
}

/// One change of an input that isn't empty.
fn change(dice: &mut Dice, input: &mut Vec<u8>) {
    let place = dice.below(input.len());
    let end = (place + dice.between(1, 12)).min(input.len());
    match dice.below(14) {
        0 => input[place] ^= 1 << dice.below(8),
        1 => input[place] = dice.octet(),
        2 | 3 => input[place] = *dice.pick(SPECIAL),
        4 => drop(input.remove(place)),
        5 => drop(input.drain(place..end)),
        6 => input.insert(place, *dice.pick(SPECIAL)),
        7 => {
            let copied = input[place..end].to_vec();
            input.splice(end..end, copied);
        }
        8 | 9 => {
            let run = *dice.pick(&RUNS);
            input.splice(place..place, run.iter().copied());
        }
        10 => change_lines(dice, input),
        11 => change_case(&mut input[place..end]),
        12 => change_line_end(dice, input),
        _ => input.truncate(place),
    }
}

/// Swaps, repeats or removes physical lines.
fn change_lines(dice: &mut Dice, input: &mut Vec<u8>) {
    let mut lines: Vec<Vec<u8>> = input.split_inclusive(|&o| o == b'\n').map(<[u8]>::to_vec).collect();
    let (first, second) = (dice.below(lines.len()), dice.below(lines.len()));
    match dice.below(3) {
        0 => lines.swap(first, second),
        1 => lines.insert(first, lines[second].clone()),
        _ => drop(lines.remove(first)),
    }
    *input = lines.concat();
}

/// Turns capitals into small letters and the other way round.
fn change_case(octets: &mut [u8]) {
    for octet in octets {
        if octet.is_ascii_alphabetic() {
            *octet ^= 0x20;
        }
    }
}

/// Removes a CR or an LF, or puts one elsewhere.
fn change_line_end(dice: &mut Dice, input: &mut Vec<u8>) {
    let ends: Vec<usize> = (0..input.len()).filter(|&at| b"\r\n".contains(&input[at])).collect();
    if ends.is_empty() || dice.once_in(2) {
        input.insert(dice.below(input.len() + 1), *dice.pick(b"\r\n"));
    } else {
        input.remove(*dice.pick(&ends));
    }
}

// Knows how to break one rule of a well-formed input, so that each refusal comes about as often.

use crate::dice::Dice;
use crate::generator::grammar::{book, folded, property_line};

/// Lines that break the line rule.
pub const BROKEN_LINES: [&str; 14] = [
    "", "NOTE", ":a", "a.:b", ".NOTE:a", "a.b.NOTE:c", "NO TE:a", "NOTE;:a", "NOTE;x:a", "NOTE;=x:a",
    "NOTE;x=\"a:b", "NOTE;x=\"a\"b:c", "NOTE;x=a\"b:c", " NOTE:a",
];

/// Lines whose value breaks its kind.
const UNFIT_LINES: [&str; 27] = [
    "NOTE:a,b", "NOTE:a\\", "NOTE:\\x", "NICKNAME:a,\\x", "URL:a", "URL::a", "URL:1a:b", "URL:a:b c",
    "N:a;b;c;d", "N:a;b;c;d;e;f", "ADR:a;b;c;d;e;f", "ADR:;;;;;;;", "ORG:a,b", "GENDER:X", "GENDER:MM",
    "CLIENTPIDMAP:;a:b", "TEL;VALUE=uri:1", "BDAY:20230229", "BDAY:1985-04-12", "ANNIVERSARY:--0431", "BDAY:",
    "REV:19961022", "REV:19961022T240000Z", "REV;VALUE=text:a", "BDAY:T-22Z", "TZ;VALUE=utc-offset:Z",
    "TZ;VALUE=utc-offset:-2400",
];

/// Lines whose octets check 5 refuses.
pub const BAD_OCTETS: [&[u8]; 8] = [
    b"NOTE:\x00", b"NOTE:a\x7Fb", b"NO\x1FTE:a", b"NOTE:\x80", b"NOTE:\xC3", b"NOTE:\xED\xA0\x80",
    b"NOTE:\xC0\x80x", b"NOTE;x=\xF4\x90\x80\x80:a",
];

/// Lines of properties that may stand once.
const SINGLE_NAMES: [&str; 8] = ["KIND", "N", "BDAY", "ANNIVERSARY", "GENDER", "PRODID", "REV", "UID"];

/// A well-formed input in which one rule has been broken.
pub fn input(dice: &mut Dice) -> Vec<u8> {
    let mut lines = book(dice);
    break_one_rule(dice, &mut lines);
    let mut input = folded(dice, &lines);
    if dice.once_in(12) {
        break_line_ends(dice, &mut input);
    }
    input
}

/// Breaks a rule of a line or of a card.
fn break_one_rule(dice: &mut Dice, lines: &mut Vec<Vec<u8>>) {
    match dice.below(16) {
        0 | 1 => remove_named(lines, b"FN"),
        2 | 3 => insert_inside(dice, lines, b"MEMBER:a:b"),
        4 | 5 => repeat_single(dice, lines),
        6 | 7 => decorate_frame(dice, lines),
        8 | 9 => {
            let line = *dice.pick(&UNFIT_LINES);
            insert_inside(dice, lines, line.as_bytes());
        }
        10 => {
            let line = *dice.pick(&BROKEN_LINES);
            insert_inside(dice, lines, line.as_bytes());
        }
        11 => {
            let line = *dice.pick(&BAD_OCTETS);
            insert_inside(dice, lines, line);
        }
        12 => change_frame_value(dice, lines),
        13 => {
            let line = dice.below(lines.len());
            lines.remove(line);
        }
        14 => {
            let (first, second) = (dice.below(lines.len()), dice.below(lines.len()));
            lines.swap(first, second);
        }
        _ => {
            let line = *dice.pick(&["BEGIN:VCARD", "VERSION:4.0", "END:VCARD", "FN:a"]);
            lines.insert(dice.below(lines.len() + 1), line.as_bytes().to_vec());
        }
    }
}

/// Puts a line somewhere after the first card's VERSION and before the last END.
fn insert_inside(dice: &mut Dice, lines: &mut Vec<Vec<u8>>, line: &[u8]) {
    let place = dice.between(2, lines.len() - 1);
    lines.insert(place, line.to_vec());
}

/// Removes the lines that start with this name and have no group.
fn remove_named(lines: &mut Vec<Vec<u8>>, name: &[u8]) {
    lines.retain(|line| !line.to_ascii_uppercase().starts_with(name));
    if lines.is_empty() {
        lines.push(b"FN:A".to_vec());
    }
}

/// Puts two lines of a single property into the book, each with its own group and parameters.
fn repeat_single(dice: &mut Dice, lines: &mut Vec<Vec<u8>>) {
    let name = *dice.pick(&SINGLE_NAMES);
    for _ in 0..2 {
        let line = property_line(dice, name);
        insert_inside(dice, lines, &line);
    }
}

/// Gives a BEGIN, VERSION or END line a group or a parameter.
fn decorate_frame(dice: &mut Dice, lines: &mut [Vec<u8>]) {
    let last = lines.len() - 1;
    let line = &mut lines[*dice.pick(&[0, 1, last])];
    if dice.once_in(2) {
        line.splice(0..0, *b"g.");
    } else if let Some(colon) = line.iter().position(|&octet| octet == b':') {
        line.splice(colon..colon, *b";x=y");
    }
}

/// Gives a BEGIN, VERSION or END line another value.
fn change_frame_value(dice: &mut Dice, lines: &mut [Vec<u8>]) {
    let values = ["", "VCARD ", "VCAR", "VCARDS", "4.1", "4.0 ", "3.0", "4"];
    let last = lines.len() - 1;
    let line = &mut lines[*dice.pick(&[0, 1, last])];
    if let Some(colon) = line.iter().position(|&octet| octet == b':') {
        line.truncate(colon + 1);
        line.extend(dice.pick(&values).as_bytes());
    }
}

/// Takes a CR or LF away, adds one, or cuts the end of the input off.
fn break_line_ends(dice: &mut Dice, input: &mut Vec<u8>) {
    let place = dice.below(input.len());
    let end = (place..input.len()).find(|&at| input[at] == b'\r').unwrap_or(0);
    match dice.below(5) {
        0 => drop(input.remove(end)),
        1 => drop(input.remove(end + 1)),
        2 => input.insert(place, b'\r'),
        3 => input.insert(place, b'\n'),
        _ => input.truncate(place),
    }
}

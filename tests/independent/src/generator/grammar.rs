// Knows how to make well-formed inputs by chance: values of every kind, lines, cards and folds.

use crate::content::parse;
use crate::dice::Dice;
use crate::generator::dates;
use crate::properties::{is_frame, kind_of, row_of, KIND, MEMBER, ROWS};

/// Characters at the borders of each length.
const BORDERS: [char; 10] = [
    '\u{7E}', '\u{80}', '\u{9F}', '\u{7FF}', '\u{800}', '\u{D7FF}', '\u{E000}', '\u{FFFF}', '\u{10000}',
    '\u{10FFFF}',
];

/// Names that no row has, some of them close to one.
const UNLISTED_NAMES: [&str; 10] =
    ["X-TRAM", "x-a", "NN", "FNA", "F", "9", "-", "BEGI", "NOTES", "VND-123-MUDPIE"];

/// Parameter names, some of them in odd cases.
const PARAMETER_NAMES: [&str; 9] =
    ["TYPE", "PREF", "ALTID", "PID", "LANGUAGE", "x-p", "value-", "9", "Sort-As"];

/// Spellings of a VALUE or CALSCALE parameter.
const VALUES: [&str; 22] = [
    "VALUE=text", "VALUE=uri", "value=TEXT", "Value=Uri", "VALUE=\"text\"", "VALUE=\"uri\"",
    "VALUE=text,uri", "VALUE=\"text,uri\"", "VALUE=date", "VALUE=", "VALUE=x;VALUE=text",
    "VALUE=uri;VALUE=text", "VALUE=\"\"", "VALUE=,text", "VALUE=utc-offset", "value=\"UTC-Offset\"",
    "VALUE=timestamp", "CALSCALE=gregorian", "Calscale=\"GREGORIAN\"", "CALSCALE=julian", "CALSCALE=",
    "CALSCALE=x;CALSCALE=gregorian",
];

/// A well-formed input of one to three cards, folded somehow.
pub fn input(dice: &mut Dice) -> Vec<u8> {
    let lines = book(dice);
    folded(dice, &lines)
}

/// The logical lines of one to three cards.
pub fn book(dice: &mut Dice) -> Vec<Vec<u8>> {
    let cards = *dice.pick(&[1, 1, 1, 1, 1, 2, 2, 3]);
    (0..cards).flat_map(|_| card(dice)).collect()
}

/// The logical lines of one card; a group card has KIND:group and may have members.
pub fn card(dice: &mut Dice) -> Vec<Vec<u8>> {
    let is_group = dice.once_in(5);
    let mut inside = vec![property_line(dice, "FN")];
    let mut singles = Vec::new();
    if is_group {
        singles.push(KIND);
        let kind = [in_some_case(dice, "KIND"), b":".to_vec(), in_some_case(dice, "group")];
        insert_anywhere(dice, &mut inside, kind.concat());
    }
    for _ in 0..*dice.pick(&[0, 1, 1, 2, 2, 3, 4, 6, 9]) {
        let row = *dice.pick(&ROWS);
        let lone_member = row.number == MEMBER && !is_group;
        if is_frame(row) || lone_member || singles.contains(&row.number) {
            continue;
        }
        if row.single {
            singles.push(row.number);
        }
        let line = property_line(dice, row.name);
        insert_anywhere(dice, &mut inside, line);
    }
    if dice.once_in(4) {
        let name = *dice.pick(&UNLISTED_NAMES);
        let line = property_line(dice, name);
        insert_anywhere(dice, &mut inside, line);
    }
    framed(dice, inside)
}

/// Puts the line before, between or after the others.
pub fn insert_anywhere(dice: &mut Dice, lines: &mut Vec<Vec<u8>>, line: Vec<u8>) {
    lines.insert(dice.below(lines.len() + 1), line);
}

/// The lines with BEGIN and VERSION before them and END after them.
fn framed(dice: &mut Dice, inside: Vec<Vec<u8>>) -> Vec<Vec<u8>> {
    let begin = [in_some_case(dice, "BEGIN"), b":".to_vec(), in_some_case(dice, "VCARD")];
    let version = [in_some_case(dice, "VERSION"), b":4.0".to_vec()];
    let end = [in_some_case(dice, "END"), b":".to_vec(), in_some_case(dice, "VCARD")];
    let mut lines = vec![begin.concat(), version.concat()];
    lines.extend(inside);
    lines.push(end.concat());
    lines
}

/// A well-formed line of this property, with or without group and parameters.
pub fn property_line(dice: &mut Dice, name: &str) -> Vec<u8> {
    let mut line = Vec::new();
    if dice.once_in(4) {
        line.extend(token(dice));
        line.push(b'.');
    }
    line.extend(in_some_case(dice, name));
    for _ in 0..*dice.pick(&[0, 0, 0, 0, 1, 1, 2, 4]) {
        line.push(b';');
        line.extend(parameter(dice));
    }
    line.push(b':');
    let parts = parse(&line).expect("a well-formed line with an empty value");
    let kind = kind_of(row_of(name.as_bytes()), &parts.parameters);
    line.extend(value(dice, kind));
    line
}

/// The name, mostly as given, else with letters of either case.
pub fn in_some_case(dice: &mut Dice, name: &str) -> Vec<u8> {
    let mut octets = name.as_bytes().to_vec();
    if dice.once_in(3) {
        for octet in &mut octets {
            if dice.once_in(2) {
                octet.make_ascii_lowercase();
            }
        }
    }
    octets
}

/// One or more letters, digits or hyphens.
pub fn token(dice: &mut Dice) -> Vec<u8> {
    let length = dice.between(1, 6);
    (0..length).map(|_| *dice.pick(b"abyzABYZ019-")).collect()
}

/// A parameter: VALUE, a known name or a made-up one, with one to three values.
pub fn parameter(dice: &mut Dice) -> Vec<u8> {
    if dice.once_in(3) {
        return dice.pick(&VALUES).as_bytes().to_vec();
    }
    let name = *dice.pick(&PARAMETER_NAMES);
    let mut parameter = match dice.once_in(4) {
        true => token(dice),
        false => in_some_case(dice, name),
    };
    for index in 0..*dice.pick(&[1, 1, 1, 2, 3]) {
        parameter.push(if index == 0 { b'=' } else { b',' });
        parameter.extend(parameter_value(dice));
    }
    parameter
}

/// A bare value, possibly empty, or a quoted one.
fn parameter_value(dice: &mut Dice) -> Vec<u8> {
    let quoted = dice.once_in(3);
    let length = *dice.pick(&[0, 1, 2, 4, 8, 20]);
    let mut octets = Vec::new();
    for _ in 0..length {
        match character(dice) {
            '"' => octets.push(b'\''),
            ';' | ':' | ',' if !quoted => octets.push(b'='),
            other => push(&mut octets, other),
        }
    }
    match quoted {
        true => [b"\"", octets.as_slice(), b"\""].concat(),
        false => octets,
    }
}

/// Any character that may stand in a line: a tab, ASCII, or one of two to four octets.
pub fn character(dice: &mut Dice) -> char {
    let code = match dice.below(24) {
        0 => return *dice.pick(&BORDERS),
        1 => 0x09,
        2 | 3 => dice.between(0x80, 0x7FF),
        4 => dice.between(0x800, 0xD7FF),
        5 => dice.between(0xE000, 0xFFFF),
        6 => dice.between(0x10000, 0x10FFFF),
        7..=9 => usize::from(*dice.pick(b";:,\\\".=- ")),
        _ => dice.between(0x20, 0x7E),
    };
    char::from_u32(code as u32).expect("no surrogate")
}

/// Appends a character's octets.
pub fn push(octets: &mut Vec<u8>, character: char) {
    octets.extend(character.encode_utf8(&mut [0; 4]).bytes());
}

/// A value that fits the kind.
pub fn value(dice: &mut Dice, kind: u32) -> Vec<u8> {
    match kind {
        0 => free(dice),
        1 => text(dice, true),
        2 => joined(dice, b',', 3, |dice| text(dice, true)),
        3 => uri(dice),
        4 => components(dice, 5),
        5 => components(dice, 7),
        6 => joined(dice, b';', 4, |dice| text(dice, false)),
        7 => gender(dice),
        9 => dates::date_and_or_time(dice),
        10 => dates::timestamp(dice),
        11 => dates::offset(dice),
        _ => {
            let digits = dice.between(1, 4);
            let number: Vec<u8> = (0..digits).map(|_| *dice.pick(b"0123456789")).collect();
            [number, b";".to_vec(), uri(dice)].concat()
        }
    }
}

/// How many pieces a value has: mostly few, now and then enough for several physical lines.
fn length(dice: &mut Dice) -> usize {
    *dice.pick(&[0, 1, 2, 3, 5, 8, 13, 21, 34, 60, 90, 160])
}

/// Any characters.
fn free(dice: &mut Dice) -> Vec<u8> {
    let mut octets = Vec::new();
    for _ in 0..length(dice) {
        push(&mut octets, character(dice));
    }
    octets
}

/// Text with escapes; a bare `;` only where it is allowed.
fn text(dice: &mut Dice, semicolons: bool) -> Vec<u8> {
    let mut octets = Vec::new();
    for _ in 0..length(dice) {
        match character(dice) {
            '\\' | ',' => octets.extend(*dice.pick(&[b"\\\\", b"\\,", b"\\;", b"\\n", b"\\N"])),
            ';' if !semicolons => octets.extend(b"\\;"),
            other => push(&mut octets, other),
        }
    }
    octets
}

/// One to so many parts with a separator between them.
fn joined(dice: &mut Dice, separator: u8, most: usize, part: fn(&mut Dice) -> Vec<u8>) -> Vec<u8> {
    let count = dice.between(1, most);
    let parts: Vec<Vec<u8>> = (0..count).map(|_| part(dice)).collect();
    parts.join(&separator)
}

/// So many components, each a list; most of them short or empty.
pub fn components(dice: &mut Dice, count: usize) -> Vec<u8> {
    let mut parts = Vec::new();
    for _ in 0..count {
        parts.push(match dice.once_in(3) {
            true => joined(dice, b',', 2, |dice| text(dice, false)),
            false => token(dice),
        });
    }
    parts.join(&b';')
}

/// A letter, a run of scheme octets, a colon, a run of octets 21-7E.
fn uri(dice: &mut Dice) -> Vec<u8> {
    let mut octets = vec![*dice.pick(b"abyzABYZ")];
    for _ in 0..dice.below(6) {
        octets.push(*dice.pick(b"ayAZ09+-."));
    }
    octets.push(b':');
    for _ in 0..length(dice) {
        octets.push(dice.between(0x21, 0x7E) as u8);
    }
    octets
}

/// Empty or a letter, then perhaps `;` and text.
fn gender(dice: &mut Dice) -> Vec<u8> {
    let mut octets = dice.pick(&["", "M", "f", "O", "n", "U"]).as_bytes().to_vec();
    if dice.once_in(2) {
        octets.push(b';');
        octets.extend(text(dice, true));
    }
    octets
}

/// The lines, each ended by CR LF, with folds of one sort.
pub fn folded(dice: &mut Dice, lines: &[Vec<u8>]) -> Vec<u8> {
    let sort = dice.below(8);
    let every = dice.between(1, 80);
    let mut input = Vec::new();
    for line in lines {
        for (index, octet) in line.iter().enumerate() {
            let cut = match sort {
                0..=3 => false,
                4 => dice.once_in(25),
                5 => index > 0 && index % every == 0,
                6 => index == 0 && dice.once_in(2) || dice.once_in(40),
                _ => *octet >= 0x80 && dice.once_in(2) || dice.once_in(60),
            };
            if cut {
                add_fold(dice, &mut input);
            }
            input.push(*octet);
        }
        if sort > 3 && dice.once_in(8) {
            add_fold(dice, &mut input);
        }
        input.extend(b"\r\n");
    }
    input
}

/// A fold with space or tab; now and then several, so that a continuation has nothing in it.
fn add_fold(dice: &mut Dice, input: &mut Vec<u8>) {
    let times = if dice.once_in(6) { dice.between(2, 3) } else { 1 };
    for _ in 0..times {
        input.extend(*dice.pick(&[b"\r\n ", b"\r\n ", b"\r\n\t"]));
    }
}

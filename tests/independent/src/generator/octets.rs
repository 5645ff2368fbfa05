// Knows how to make inputs with one wrong octet, or a value that ends too early, with folds at every octet around it.

use crate::content::parse;
use crate::dice::Dice;
use crate::examples::CARD_M;
use crate::generator::dates;
use crate::generator::grammar::{folded, property_line};
use crate::generator::{mixed, rooms};
use crate::properties::ROWS;
use crate::requests::{judge_line, offset_line, room_line};

/// Lines whose value fits, breaks its kind at each octet that can break it, or ends too early; every kind has some.
pub const LINES: &[&str] = &[
    "XML:a,\\x", "X-A:", "CREATED:x\\", "NOTE:a\\n", "NOTE:\\x", "NOTE:a\\", "NOTE:a,b", "NOTE:,",
    "NOTE:\\\\\\", "NOTE:é\\é", "NOTE:\\€", "FN:🚋,🚋", "g.NOTE;x=\"a:b\":c\\,\\d", "NICKNAME:a,\\,",
    "NICKNAME:a,\\x", "NICKNAME:,,\\", "NICKNAME:é,\\🚋", "UID:a:", "UID:1", "UID:ab", "UID:", "UID::",
    "URL:a b:c", "URL:ab:c d", "URL:ab:é", "URL:a+-.9:~", "URL:é:", "URL:a\u{80}:", "FN;VALUE=uri:a",
    "FN;VALUE=uri:a:\t", "N:;;;;", "N:Doe;J", "N:;;;;;", "N:a;b;c;d;e\\", "N:\\;;;;;", "N:;;\\:;;",
    "N:,;,;,;,;,;,", "N:山;田;太;郎", "N:", "ADR:;;;;;;", "ADR:;;;;;;;", "ADR:a;b", "ADR:;;;;;\\",
    "ADR:;\\é;;;;;", "ORG:a;b", "ORG:a,b", "ORG:a;b;\\", "ORG:\\x", "GENDER:", "GENDER:X", "GENDER:MX",
    "GENDER:m;a,b", "GENDER:;\\", "GENDER:é", "GENDER:Mé", "GENDER:MM", "GENDER:;;\\n", "CLIENTPIDMAP:1;a:",
    "CLIENTPIDMAP:", "CLIENTPIDMAP:1", "CLIENTPIDMAP:1;", "CLIENTPIDMAP:1;a", "CLIENTPIDMAP:;a:",
    "CLIENTPIDMAP:a;a:", "CLIENTPIDMAP:12x", "CLIENTPIDMAP:1;1:", "CLIENTPIDMAP:1;a:é", "BDAY:20230229",
    "BDAY:20230230", "BDAY:20230431", "BDAY:198513", "BDAY:19852", "BDAY:T102261", "BDAY:1985-",
    "BDAY:---32", "BDAY:--0230", "BDAY:T10+24", "BDAY:", "BDAY:é", "BDAY:T235960-2359", "REV:19961022T1400",
    "REV:19961022T240000", "REV:19961022T140000Z0", "REV:1996-10", "REV:", "TZ;VALUE=utc-offset:-2400",
    "TZ;VALUE=utc-offset:05", "TZ;VALUE=utc-offset:-050", "TZ;VALUE=utc-offset:+0060",
    "TZ;VALUE=utc-offset:-0530",
];

/// Lines with a control, or with octets that are no character.
const BAD_OCTETS: &[&[u8]] = &[
    b"NOTE:\x00", b"NOTE:a\x7Fb", b"NO\x1FTE:a", b"NOTE:\x80", b"NOTE:\xC3", b"NOTE:\xED\xA0\x80",
    b"NOTE:\xC0\x80x", b"NOTE;x=\xF4\x90\x80\x80:a", b"NOTE:\xE2\x82\x00", b"NOTE:\xE2\x82a",
    b"NOTE:\xF0\x9F\x9A", b"NOTE:\xC3\xA9\xE2\x82", b"NOTE:\xC3\xA9\x01\xFF", b"\x01",
    b"N:\xC3\xA9;\xFF;;;;;", b"NOTE:a\xF0\x9F\x9A\x8B\x08", b"NOTE:,\x02", b"\xFF",
];

/// Values of BEGIN, END and VERSION, fitting and not.
const FRAMES: &[&str] = &[
    "VCARD", "vCard", "VCARDS", "VCAR", "", "V", "XCARD", "VCXRD", "VCARD ", "VCARDé", "é", "4.0", "3.0",
    "4.1", "4", "4.", "4.00", "4,0", "40",
];

/// Requests without end: each line in a card with one fold or two at every octet, judged, read and folded by turns, and offsets.
pub fn octets(seed: u64) -> impl Iterator<Item = String> {
    let inputs = by_hand().into_iter().map(Asked::Input);
    let offsets = dates::offsets().into_iter().map(Asked::Offset);
    let dates = dates::by_hand();
    let asked =
        mixed(seed, inputs.chain(offsets).collect(), 2, move |dice| Asked::Input(by_chance(dice, &dates)));
    asked.enumerate().map(|(index, asked)| match asked {
        Asked::Offset(value) => offset_line(value.as_bytes()),
        Asked::Input(input) => match index % 3 {
            0 => judge_line(&input),
            1 => rooms::read_request(&input, index),
            _ => room_line("fold", 16_384, &input),
        },
    })
}

/// A whole input, or the octets of an offset.
enum Asked {
    Input(Vec<u8>),
    Offset(String),
}

/// Every line with no fold and with one fold, two and three before each of its octets and at its end, and with a fold before every octet; and BEGIN
/// alone.
pub fn by_hand() -> Vec<Vec<u8>> {
    let lines = LINES.iter().map(|line| line.as_bytes()).chain(BAD_OCTETS.iter().copied());
    let mut inputs: Vec<Vec<u8>> =
        lines.flat_map(|line| with_folds(line).into_iter().map(|line| card(2, true, &line))).collect();
    inputs.extend(FRAMES.iter().map(|value| format!("BEGIN:{value}\r\n").into_bytes()));
    for value in FRAMES {
        for (index, name) in ["BEGIN", "VERSION", "END"].into_iter().enumerate() {
            let line = format!("{name}:{value}");
            let place = if index == 2 { 3 } else { index };
            inputs.extend(with_folds(line.as_bytes()).iter().map(|line| card(place, false, line)));
        }
    }
    inputs
}

/// Card M with this line before the line of that index, or in its place.
fn card(index: usize, before: bool, line: &[u8]) -> Vec<u8> {
    let mut lines: Vec<&[u8]> = CARD_M.split_inclusive(|&octet| octet == b'\n').collect();
    let ended = [line, b"\r\n"].concat();
    let rest = index + usize::from(!before);
    lines.splice(index..rest, [ended.as_slice()]);
    lines.concat()
}

/// The line with folds of each sort.
fn with_folds(line: &[u8]) -> Vec<Vec<u8>> {
    let everywhere = line.iter().flat_map(|&octet| [b'\r', b'\n', b'\t', octet]).collect();
    let mut lines = vec![line.to_vec(), everywhere];
    for place in 0..=line.len() {
        for fold in ["\r\n ", "\r\n \r\n\t", "\r\n\t\r\n \r\n "] {
            lines.push([&line[..place], fold.as_bytes(), &line[place..]].concat());
        }
    }
    lines
}

/// A card with one of these dates or another line, whose value has an octet too many, too few or a wrong one, or is cut off; folded somehow.
fn by_chance(dice: &mut Dice, dates: &[String]) -> Vec<u8> {
    let mut line = match dice.once_in(3) {
        true => dice.pick(dates).as_bytes().to_vec(),
        false => {
            let row = *dice.pick(&ROWS);
            property_line(dice, row.name)
        }
    };
    let start = parse(&line).expect("a well-formed line").value_start;
    let place = dice.between(start, line.len());
    match dice.below(8) {
        0 | 1 => line.truncate(place),
        2 | 3 => line.insert(place, *dice.pick(b"\\,;:0129-+TZ M\x80\xC3\xFF\x00\x7F")),
        4 if place < line.len() => drop(line.remove(place)),
        5 | 6 if place < line.len() => line[place] = *dice.pick(b"\\,;:x0169-+TZ \xE2\xFF\x1F"),
        _ => (),
    }
    let mut lines: Vec<Vec<u8>> =
        CARD_M.split_inclusive(|&octet| octet == b'\n').map(|line| line[..line.len() - 2].to_vec()).collect();
    lines.insert(3, line);
    folded(dice, &lines)
}

// Knows version 3 requests: RFC 2426's examples, short values, types and orders of lines by hand, and cards by chance, each both ways.

use crate::dice::Dice;
use crate::examples::version3_examples;
use crate::generator::faults::{BAD_OCTETS, BROKEN_LINES};
use crate::generator::grammar::{components, folded, in_some_case, insert_anywhere, parameter, token, value};
use crate::generator::hand::rows_up_to;
use crate::generator::mixed;
use crate::generator::mutation::mutated;
use crate::generator::rooms::room_request;
use crate::lines::logical_lines;
use crate::properties::{kind_of, row_of};
use crate::refusal::MOST_OCTETS;
use crate::requests::room_line;
use crate::version3::{give_out, take_in, ELEVEN};

/// Which way a card goes, which is also the version that it has.
#[derive(Clone, Copy, Debug, PartialEq, Eq)]
pub enum Way {
    In,
    Out,
}

impl Way {
    /// The value of VERSION.
    fn version(self) -> &'static str {
        match self {
            Way::In => "3.0",
            Way::Out => "4.0",
        }
    }

    /// The request, with a room that goes round with the turn.
    fn request(self, input: &[u8], turn: usize) -> String {
        match self {
            Way::In => room_request("v3-in", take_in, input, turn),
            Way::Out => room_request("v3-out", give_out, input, turn),
        }
    }
}

/// Octets of the short values, by name and parameters.
const SHORT_VALUES: [(&str, &[u8], usize); 11] = [
    ("NOTE", b"a\\,;nN", 3),
    ("N", b"a\\,;N", 4),
    ("ADR", b"\\,;N", 4),
    ("ORG", b"a\\,;N", 3),
    ("URL", b"a:;\\N ", 3),
    ("GEO", b"1.+-;,", 4),
    ("GEO;VALUE=text", b"1;,", 3),
    ("GEO;VALUE=x", b"1;,", 3),
    ("NOTE;VALUE=uri", b"a:\\;", 3),
    ("NOTE;VALUE=x", b"a\\,;", 3),
    ("URL;VALUE=\"TEXT\"", b"a\\,;N", 3),
];

/// TYPE and PREF values as they may stand.
const TYPES: [&str; 8] = ["pref", "PReF", "\"pref\"", "home", "", "\"pref,x\"", "prefs", "\"\""];
const PREFERENCES: [&str; 12] =
    ["1", "\"1\"", "01", "", "2", "1,1", "1,", "\"1,1\"", "100", "1;PREF=1", "1;x=y;pref=2", "\"\""];

/// Floats, and what is none.
const FLOATS: [&str; 16] = [
    "1", "0", "-2", "+1.5", "00.10", "37.386013", "-122.082932", "999.999", "1.", ".5", "", "+", "1e5",
    "--1", "1.2.3", " 1",
];

/// Lines that a version 3 card may not have.
const OTHER_LINES: [&str; 16] = [
    "X-A:1", "KIND:individual", "BDAY:19850412", "UID:urn:x", "NICKNAME:a,b", "REV:19961022T140000Z", "TZ:a",
    "PHOTO:a:b", "CATEGORIES:a", "KEY:a:b", "LABEL:a", "AGENT:a", "MAILER:a", "CLASS:a", "SORT-STRING:a",
    "XML:a",
];

/// Lines that try the words themselves; most are no requests.
const WORDS: [&str; 16] = [
    "v3-in", "v3-in 1", "v3-in -", "v3-in 1 -", "v3-in 1 - -", "v3-in 70000 -", "v3-in 70001 -", "v3-in x -",
    "v3-in 1 6", "V3-in 1 -", "v3-out", "v3-out 1 -", "v3-out 00 -", "v3-out 70001 -", "v3-out 1 0g",
    "v3-ou 1 -",
];

/// Requests without end: the words, large forms, then by hand and by chance; each card both ways.
pub fn version3(seed: u64) -> impl Iterator<Item = String> {
    let cards = mixed(seed, by_hand(), 2, |dice| match dice.once_in(2) {
        true => (Way::In, card_of_version_3(dice)),
        false => (Way::Out, card_of_version_4(dice)),
    });
    let requests = cards
        .enumerate()
        .flat_map(|(turn, (way, input))| [way.request(&input, turn), back(way, input, turn)]);
    WORDS.map(str::to_string).into_iter().chain(large()).chain(requests)
}

/// The request of the other way: what was taken in is given out and the other way round; a refused card goes as it is, mostly with the version that is wanted.
fn back(way: Way, input: Vec<u8>, turn: usize) -> String {
    let mut out = vec![0; MOST_OCTETS];
    let (answer, other) = match way {
        Way::In => (take_in(&input, &mut out), Way::Out),
        Way::Out => (give_out(&input, &mut out), Way::In),
    };
    match answer {
        Ok(count) => other.request(&out[..count], turn / 3),
        Err(_) if turn % 8 == 0 => other.request(&input, turn / 3),
        Err(_) => other.request(&with_version(other, input), turn / 3),
    }
}

/// The input with the other version where it names one.
fn with_version(way: Way, mut input: Vec<u8>) -> Vec<u8> {
    let name = b"VERSION:";
    let found = input.windows(name.len() + 3).position(|part| part.to_ascii_uppercase().starts_with(name));
    if let Some(at) = found {
        input[at + name.len()] = way.version().as_bytes()[0];
    }
    input
}

/// The unfolded lines of an input.
pub fn lines_of(input: &[u8]) -> Vec<Vec<u8>> {
    logical_lines(input).into_iter().map(|line| line.octets).collect()
}

/// A card with this line after FN and N.
fn card_with(way: Way, line: &[u8]) -> Vec<u8> {
    let name = if line.to_ascii_uppercase().starts_with(b"N:") { "" } else { "N:Doe;J;;;\r\n" };
    let head = format!("BEGIN:VCARD\r\nVERSION:{}\r\nFN:A\r\n{name}", way.version());
    [head.as_bytes(), line, b"\r\nEND:VCARD\r\n"].concat()
}

/// Every example of source 004, every short value, every row of TYPE values and every PREF, floats, and the lines of a card in every order.
pub fn by_hand() -> Vec<(Way, Vec<u8>)> {
    let mut cards: Vec<(Way, Vec<u8>)> =
        version3_examples().into_iter().map(|example| (Way::In, example.input)).collect();
    for way in [Way::In, Way::Out] {
        cards.extend(lines_by_hand(way).into_iter().map(|line| (way, card_with(way, &line))));
        cards.extend(orders(way).into_iter().map(|card| (way, card)));
    }
    cards
}

/// Lines with short values, types, preferences and floats.
fn lines_by_hand(way: Way) -> Vec<Vec<u8>> {
    let mut lines = Vec::new();
    for (start, octets, most) in SHORT_VALUES {
        let values = rows_up_to(most, octets).into_iter();
        lines.extend(values.map(|value| [start.as_bytes(), b":", &value].concat()));
    }
    for count in 0..9 {
        let separators = ";".repeat(count);
        lines.extend(
            ["N:", "ADR:", "N:a", "ADR:,", "N:\\;", "ADR:\\N"]
                .map(|start| format!("{start}{separators}").into_bytes()),
        );
    }
    for first in TYPES {
        for second in TYPES {
            lines.push(format!("TEL;TYPE={first},{second}:1").into_bytes());
            lines.push(format!("g.EMAIL;a=b;type={first};TYPE=\"x;y\",{second};c=d:1").into_bytes());
            lines.extend(TYPES.map(|third| format!("TEL;TYPE={first},{second},{third}:1").into_bytes()));
        }
        lines.extend(PREFERENCES.map(|pref| format!("ADR;PREF={pref};TYPE={first}:;;;;;;").into_bytes()));
        lines.extend(PREFERENCES.map(|pref| format!("NOTE;TYPE={first};Pref={pref}:a").into_bytes()));
        lines.push(format!("URL;TYPES={first};X-TYPE={first}:a:b").into_bytes());
    }
    lines.extend(PREFERENCES.map(|pref| format!("NOTE;PREF={pref}:a").into_bytes()));
    for first in FLOATS {
        for second in FLOATS {
            lines.push(match way {
                Way::In => format!("GEO:{first};{second}").into_bytes(),
                Way::Out => format!("GEO:geo:{first},{second}").into_bytes(),
            });
        }
        lines.extend(
            ["GEO:", "GEO:Geo:", "GEO:geo:", "GEO:geo:1,2,"]
                .map(|start| format!("{start}{first}").into_bytes()),
        );
        lines.push(format!("GEO:geo:{first},2;u=1").into_bytes());
    }
    lines.extend(OTHER_LINES.map(|line| line.as_bytes().to_vec()));
    lines.extend(ELEVEN.map(|name| format!("{name}:").into_bytes()));
    lines.extend(ELEVEN.map(|name| format!("{}:1;2", name.to_lowercase()).into_bytes()));
    lines
}

/// The lines of a card in every order, each line left out, each twice, frame lines changed, and two cards.
fn orders(way: Way) -> Vec<Vec<u8>> {
    let version = format!("VERSION:{}", way.version());
    let whole = ["BEGIN:VCARD", version.as_str(), "FN:A", "N:;;;;", "END:VCARD"];
    let mut rows = permutations(&whole);
    for at in 0..whole.len() {
        rows.push([&whole[..at], &whole[at + 1..]].concat());
        for line in whole.iter().chain(&[
            "VERSION:2.1", "VERSION:3.0 ", "VERSION:", "FN:B", "X:1", "a.END:VCARD", "BEGIN;a=b:VCARD",
        ]) {
            rows.push([&whole[..at], &[line], &whole[at..]].concat());
            rows.push([&whole[..at], &[line], &whole[at + 1..]].concat());
        }
        for changed in [
            "BEGIN:VCARDS", "BEGIN:vCard", "a.BEGIN:VCARD", "VERSION;a=b:3.0", "version:3.0", "version:4.0",
            "END:", "end:vcard", "END;x=y:V",
        ] {
            rows.push([&whole[..at], &[changed], &whole[at + 1..]].concat());
        }
    }
    let cards = [
        &whole[..],
        &["BEGIN:VCARD", "\u{1}"],
        &["BEGIN;:VCARD"],
        &["a.BEGIN:VCARD"],
        &["BEGIN:X"],
        &["END:VCARD"],
        &[""],
        &["FN:A"],
    ];
    rows.extend(cards.map(|more| [&whole[..], more].concat()));
    rows.into_iter()
        .map(|row| row.iter().flat_map(|line| format!("{line}\r\n").into_bytes()).collect())
        .collect()
}

/// The elements in every order.
fn permutations<'a>(row: &[&'a str]) -> Vec<Vec<&'a str>> {
    if row.is_empty() {
        return vec![Vec::new()];
    }
    let mut rows = Vec::new();
    for at in 0..row.len() {
        let rest = [&row[..at], &row[at + 1..]].concat();
        rows.extend(permutations(&rest).into_iter().map(|tail| [&row[at..=at], &tail].concat()));
    }
    rows
}

/// Cards around 16,384 octets, as given and as written, with rooms around what they need; bare semicolons make a form grow.
fn large() -> Vec<String> {
    let mut requests = Vec::new();
    for (word, way) in [("v3-in", Way::In), ("v3-out", Way::Out)] {
        let card = |value: &str| card_with(way, format!("NOTE:{value}").as_bytes());
        let mut cards =
            vec![vec![b'a'; 16_384], vec![b'a'; 16_385], Vec::new(), b"\r\n".to_vec(), b"a".to_vec()];
        for length in (15_650..15_700).chain([16_000, 16_300, 16_317, 16_318, 16_319, 16_320]) {
            cards.push(card(&"a".repeat(length)));
        }
        for length in (7_800..7_860).chain([8_192, 12_000, 16_300]) {
            cards.push(card(&";".repeat(length)));
        }
        for input in cards {
            for room in [0, 16_383, 16_384, 20_000] {
                requests.push(room_line(word, room, &input));
            }
        }
    }
    requests
}

/// A version 3 card by chance, mostly with nothing wrong.
pub fn card_of_version_3(dice: &mut Dice) -> Vec<u8> {
    card_by_chance(dice, Way::In)
}

/// A version 4 card by chance, mostly of what version 3 has too.
pub fn card_of_version_4(dice: &mut Dice) -> Vec<u8> {
    card_by_chance(dice, Way::Out)
}

/// A card for this way: whole, with one rule broken, or mutated; folded somehow.
fn card_by_chance(dice: &mut Dice, way: Way) -> Vec<u8> {
    match dice.below(8) {
        0..=3 => whole(dice, way),
        4..=6 => {
            let mut lines = lines_by_chance(dice, way);
            break_one_rule(dice, way, &mut lines);
            folded(dice, &lines)
        }
        _ => mutated(dice, |dice| whole(dice, way)),
    }
}

/// A card with nothing wrong.
fn whole(dice: &mut Dice, way: Way) -> Vec<u8> {
    let lines = lines_by_chance(dice, way);
    folded(dice, &lines)
}

/// The lines of a card with nothing wrong: FN, one N and some of the eleven, VERSION anywhere inside in version 3.
fn lines_by_chance(dice: &mut Dice, way: Way) -> Vec<Vec<u8>> {
    let mut inside = vec![line_of(dice, way, "FN")];
    let name = line_of(dice, way, "N");
    insert_anywhere(dice, &mut inside, name);
    for _ in 0..*dice.pick(&[0, 1, 2, 3, 4, 6, 9]) {
        match *dice.pick(&ELEVEN) {
            "N" => (),
            name => {
                let line = line_of(dice, way, name);
                insert_anywhere(dice, &mut inside, line);
            }
        }
    }
    let version = [in_some_case(dice, "VERSION"), format!(":{}", way.version()).into_bytes()].concat();
    match way {
        Way::In => insert_anywhere(dice, &mut inside, version),
        Way::Out => inside.insert(0, version),
    }
    inside.insert(0, [in_some_case(dice, "BEGIN"), b":".to_vec(), in_some_case(dice, "VCARD")].concat());
    inside.push([in_some_case(dice, "END"), b":".to_vec(), in_some_case(dice, "VCARD")].concat());
    inside
}

/// A line of this name that goes this way.
fn line_of(dice: &mut Dice, way: Way, name: &str) -> Vec<u8> {
    let mut line = Vec::new();
    if dice.once_in(6) {
        line.extend(token(dice));
        line.push(b'.');
    }
    line.extend(in_some_case(dice, name));
    for parameter in parameters_by_chance(dice, way, name) {
        line.push(b';');
        line.extend(parameter);
    }
    line.push(b':');
    let parts = crate::content::parse(&line).expect("a well-formed line with an empty value");
    let value = match (name, way) {
        ("GEO", Way::In) => [float(dice), b";".to_vec(), float(dice)].concat(),
        ("GEO", Way::Out) => [b"geo:".to_vec(), float(dice), b",".to_vec(), float(dice)].concat(),
        ("N", Way::In) => components_up_to(dice, 5),
        ("ADR", Way::In) => components_up_to(dice, 7),
        _ => value(dice, kind_of(row_of(name.as_bytes()), &parts.parameters)),
    };
    [line, value].concat()
}

/// TYPE more often than others, pref more often than other types; PREF=1 only where version 4 has it.
fn parameters_by_chance(dice: &mut Dice, way: Way, name: &str) -> Vec<Vec<u8>> {
    let mut parameters = Vec::new();
    for _ in 0..*dice.pick(&[0, 0, 1, 1, 2, 3]) {
        match dice.below(8) {
            0 if name != "GEO" => parameters.push(parameter(dice)),
            1 => parameters.push([token(dice), b"=pref".to_vec()].concat()),
            2 if way == Way::Out => parameters.push([in_some_case(dice, "PREF"), b"=1".to_vec()].concat()),
            _ => {
                let count = dice.between(1, 4);
                let values: Vec<&str> = (0..count).map(|_| *dice.pick(&TYPES)).collect();
                parameters.push(
                    [in_some_case(dice, "TYPE"), b"=".to_vec(), values.join(",").into_bytes()].concat(),
                );
            }
        }
    }
    let mut has_preference = false;
    parameters.retain(|parameter| {
        let is_preference = parameter.to_ascii_uppercase().starts_with(b"PREF=");
        let is_kept = !is_preference || way == Way::Out && !has_preference && parameter.ends_with(b"=1");
        has_preference |= is_preference;
        is_kept
    });
    parameters
}

/// One to so many components.
fn components_up_to(dice: &mut Dice, most: usize) -> Vec<u8> {
    let count = dice.between(1, most);
    components(dice, count)
}

/// A float.
fn float(dice: &mut Dice) -> Vec<u8> {
    match dice.once_in(2) {
        true => dice.pick(&FLOATS[..8]).as_bytes().to_vec(),
        false => format!("{}{}.{}", dice.pick(&["", "+", "-"]), dice.below(200), dice.below(1_000_000))
            .into_bytes(),
    }
}

/// Breaks one rule of version 3, of version 4 or of what goes this way.
fn break_one_rule(dice: &mut Dice, way: Way, lines: &mut Vec<Vec<u8>>) {
    let inside = dice.between(1, lines.len() - 1);
    let any = dice.below(lines.len());
    match *dice.pick(&[0, 0, 0, 1, 1, 1, 2, 3, 3, 4, 5, 6, 7, 8, 9, 10, 11, 12, 13, 14]) {
        0 => lines.insert(inside, dice.pick(&OTHER_LINES).as_bytes().to_vec()),
        1 => lines.insert(inside, format!("TEL;PREF={}:1", dice.pick(&PREFERENCES)).into_bytes()),
        2 => {
            let name = line_of(dice, way, "N");
            lines.insert(inside, name);
        }
        3 => {
            let (first, second) = (*dice.pick(&FLOATS), *dice.pick(&FLOATS));
            let geo = [format!("GEO:{first};{second}"), format!("GEO:geo:{first},{second}")];
            lines.insert(inside, dice.pick(&geo).as_bytes().to_vec());
        }
        4 => lines.insert(
            inside,
            dice.pick(&["VERSION:3.0", "VERSION:4.0", "BEGIN:VCARD", "END:VCARD"]).as_bytes().to_vec(),
        ),
        5 => drop(lines.remove(any)),
        6 => {
            let more = lines_by_chance(dice, way);
            lines.extend(more);
        }
        7 => lines.push(
            dice.pick(&["FN:A", "END:VCARD", "BEGIN:VCARD", "a.BEGIN:VCARD", "BEGIN", ""])
                .as_bytes()
                .to_vec(),
        ),
        8 => {
            let other = dice.below(lines.len());
            lines.swap(any, other);
        }
        9 => lines.insert(
            inside,
            dice.pick(&["NOTE:a,b", "NOTE:\\x", "ORG:a,b", "ADR:;;;;;;;", "URL:a", "TEL:\\"])
                .as_bytes()
                .to_vec(),
        ),
        10 => lines.insert(inside, dice.pick(&BROKEN_LINES).as_bytes().to_vec()),
        11 => lines.insert(inside, dice.pick(&BAD_OCTETS).to_vec()),
        12 => lines[any].splice(0..0, *b"g.").for_each(drop),
        13 => {
            let colon = lines[any].iter().position(|&octet| octet == b':').expect("a colon");
            lines[any].splice(colon..colon, *b";x=y");
        }
        _ => {
            let octets = dice.below(lines[any].len() + 1);
            lines[any].truncate(octets);
        }
    }
}

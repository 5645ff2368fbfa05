// Knows merge requests: pairs of edits by hand and by chance, rows that are right and rows damaged in each field, and plans of every sort.

use crate::dice::Dice;
use crate::examples::CARD_M;
use crate::generator::grammar::{folded, in_some_case, insert_anywhere};
use crate::generator::hand::rows_up_to;
use crate::generator::mixed;
use crate::generator::mutation::mutated;
use crate::merging::{demanded, plan, row_of_card, side_of, Edits, Source};
use crate::requests::{check_plan_line, plan_line};

/// Two edits, and a plan where the checker is asked.
pub type Asked = (Edits, Option<Vec<u32>>);

/// PID parameters as they may stand.
const PIDS: [&str; 26] = [
    "", ";PID=1.1", ";PID=01.1", ";PID=1.01", ";PID=1.2", ";PID=2.1", ";PID=1.3", ";PID=0.0", ";PID=1",
    ";PID=1.", ";PID=.1", ";PID=1.1.1", ";PID= 1.1", ";PID=\"1.1\"", ";PID=\"1.1,2.1\"", ";PID=2.2,1.1",
    ";PID=2.2;pid=1.1", ";PID=+1.1", ";PIDS=1.1", ";PID=65535.1", ";PID=65536.1", ";PID=1.65536",
    ";PID=65536", ";PID=99999999999999999999.1", ";PID=4294967297.1", ";PID=x,1.1,",
];

/// CLIENTPIDMAP values as they may stand, the first three with the usual numbers.
const MAPS: [&str; 16] = [
    "1;urn:a", "2;urn:b", "1;urn:b", "01;urn:a", "3;urn:a", "1;URN:a", "1;urn:", "0;urn:a", "65535;urn:a",
    "65536;urn:a", "4294967297;urn:a", "18446744073709551617;urn:a", "00000000000000000000001;urn:a",
    "1;urn:a;b", "2;urn:a", "1;a:b",
];

/// Properties that a card has once, each with a value of its kind.
const SINGLES: [&str; 8] = [
    "KIND:x", "N:;;;;", "BDAY:19850412", "ANNIVERSARY:19850412", "GENDER:M", "PRODID:x",
    "REV:19961022T140000Z", "UID:urn:x",
];

/// Names of lines that may have PIDs, unknown ones in several cases too.
const NAMES: [&str; 12] =
    ["TEL", "TEL", "TEL", "EMAIL", "NOTE", "X-A", "x-a", "X-b", "FN", "TITLE", "created", "CREATED"];

/// Lines that try the words themselves and PARTS that do not come apart; most are no requests.
fn words() -> Vec<String> {
    let none = "00000000";
    let lines = [
        "plan", "plan 0", "plan -", "plan 0 -", "check-plan", "check-plan -", "plan 0 00",
        "check-plan 000000", "plan 0 0 0",
    ];
    let mut words: Vec<String> = lines.map(str::to_string).to_vec();
    for count in 0..=6 {
        let parts = none.repeat(count);
        words.extend([0, 70_000, 70_001].map(|room| format!("plan {room} {parts}")));
        words.push(format!("check-plan {parts}"));
        for last in [
            "00", "0000000141", "00000001", "0000000400000000", "0000000c00000000", "ffffffff", "80000000",
            "000000020000",
        ] {
            words.extend([format!("plan 9 {parts}{last}"), format!("check-plan {parts}{last}")]);
        }
        words.push(format!("plan 9 {parts}0000000c{}", "00".repeat(12)));
        words.push(format!("check-plan {parts}0000000c{}", "00".repeat(12)));
    }
    words
}

/// Requests without end: the words, large ones, then by hand and by chance.
pub fn merges(seed: u64) -> impl Iterator<Item = String> {
    let asked = mixed(seed, by_hand(), 1, by_chance);
    let requests = asked.enumerate().map(|(turn, asked)| request(&asked, turn));
    words().into_iter().chain(large()).chain(requests)
}

/// The request; the planner's room goes round with the turn.
fn request((edits, checked): &Asked, turn: usize) -> String {
    match checked {
        Some(numbers) => check_plan_line(edits, numbers),
        None => plan_line(room_around(edits, turn), edits),
    }
}

/// Room for the pairs that the planner writes: exact, one number short, one over, half, none or large.
fn room_around(edits: &Edits, turn: usize) -> usize {
    let needed = 2 * plan(edits, &mut vec![0; 16_384]).unwrap_or(1);
    match turn / 2 % 7 {
        0 | 1 => needed,
        2 => needed.saturating_sub(1),
        3 => needed + 1,
        4 => needed / 2,
        5 => 0,
        _ => 16_384,
    }
}

/// The card of these lines between BEGIN, VERSION and END.
fn card_of(lines: &[&str]) -> Vec<u8> {
    let all = [&["BEGIN:VCARD", "VERSION:4.0"], lines, &["END:VCARD"]].concat();
    all.iter().flat_map(|line| format!("{line}\r\n").into_bytes()).collect()
}

/// Two cards with their right rows.
fn edits_of(first: Vec<u8>, second: Vec<u8>) -> Edits {
    let rows = [row_of_card(&first), row_of_card(&second)];
    Edits { cards: [first, second], rows }
}

/// Two cards of FN, one UID and these lines, the first of them line 4.
fn with_lines(first: &[&str], second: &[&str]) -> Edits {
    let card = |lines: &[&str]| card_of(&[&["FN:A", "UID:urn:x"], lines].concat());
    edits_of(card(first), card(second))
}

/// The demanded pairs as a plan, whether it passes or not; none for cards that are refused.
pub fn demanded_plan(edits: &Edits) -> Vec<u32> {
    match (side_of(&edits.cards[0]), side_of(&edits.cards[1])) {
        (Ok(first), Ok(second)) => demanded(&first, &second)
            .into_iter()
            .flat_map(|(one, other)| [one as u32, other as u32])
            .collect(),
        _ => Vec::new(),
    }
}

/// Planner, and checker on the demanded pairs, on a plan that lacks one, on none and on one that has a pair more.
fn all_asked(edits: Edits) -> Vec<Asked> {
    let whole = demanded_plan(&edits);
    let plans =
        [whole.clone(), whole[..whole.len().saturating_sub(2)].to_vec(), [&whole[..], &[0, 0]].concat()];
    let mut asked: Vec<Asked> = plans.into_iter().map(|plan| (edits.clone(), Some(plan))).collect();
    asked.push((edits, None));
    asked
}

/// All pairs by hand, each with planner and checker.
pub fn by_hand() -> Vec<Asked> {
    let mut asked = readings();
    asked.extend(every_plan());
    let pairs =
        [pids(), maps(), damaged_rows(), counts(), singles(), names(), identities(), conflicts(), orders()]
            .concat();
    asked.extend(pairs.into_iter().flat_map(all_asked));
    asked
}

/// The example of READINGS-02 with its plans.
fn readings() -> Vec<Asked> {
    let first = card_of(&["UID:urn:x", "FN:A", "TEL;PID=1.1:5", "TEL:6", "CLIENTPIDMAP:1;urn:a"]);
    let second = |line: &str| card_of(&["FN:A", "UID:urn:x", line, "TEL;PID=1.2:7", "CLIENTPIDMAP:2;urn:a"]);
    let plans: [&[u32]; 10] = [
        &[2, 3, 4, 5],
        &[4, 5, 2, 3],
        &[2, 3, 4, 5, 5, 4],
        &[2, 3, 4, 5, 0, 0],
        &[2, 3],
        &[2, 3, 4, 5, 0],
        &[2, 3, 4, 5, 2, 3],
        &[2, 3, 4, 5, 99, 0],
        &[2, 3, 4, 5, 0, 1],
        &[],
    ];
    let mut asked = Vec::new();
    for line in ["TEL:6", "TEL;PID=1.2:6"] {
        let edits = edits_of(first.clone(), second(line));
        asked.extend((0..14).map(|_| (edits.clone(), None)));
        asked.extend(plans.iter().map(|plan| (edits.clone(), Some(plan.to_vec()))));
    }
    asked
}

/// Every plan of up to four numbers for small cards, numbers past the last line counted in.
fn every_plan() -> Vec<Asked> {
    let map = "CLIENTPIDMAP:1;urn:a";
    let small = [
        with_lines(&[], &[]),
        edits_of(card_of(&["FN:A", "UID:urn:x"]), card_of(&["UID:urn:x", "FN:B", "X-A:1"])),
        with_lines(&["TEL;PID=1.1:1", map], &["TEL;PID=1.1:2", map]),
        edits_of(card_of(&["FN:A"]), card_of(&["FN:A", "UID:urn:x"])),
    ];
    let mut asked = Vec::new();
    for edits in small {
        let lines = edits.cards.each_ref().map(|card| side_of(card).expect("an accepted card").count());
        let numbers: Vec<u32> = (0..=lines[0].max(lines[1]) as u32).collect();
        asked.extend(rows_up_to(4, &numbers).into_iter().map(|plan| (edits.clone(), Some(plan))));
    }
    asked
}

/// Every two PID parameters, beside a second line with a PID.
fn pids() -> Vec<Edits> {
    let maps = ["CLIENTPIDMAP:1;urn:a", "CLIENTPIDMAP:2;urn:b", "CLIENTPIDMAP:1;urn:b"];
    let mut pairs = Vec::new();
    for first in PIDS {
        for second in PIDS {
            let one = format!("TEL{first}:1");
            let other = format!("TEL{second}:2");
            pairs.push(with_lines(
                &[&[one.as_str()], &maps[..]].concat(),
                &[&[other.as_str(), "TEL;PID=7.1:3"], &maps[..]].concat(),
            ));
        }
    }
    pairs
}

/// Every two maps, alone and after another.
fn maps() -> Vec<Edits> {
    let mut pairs = Vec::new();
    for first in MAPS {
        for second in MAPS {
            let (one, other) = (format!("CLIENTPIDMAP:{first}"), format!("g.CLIENTPIDMAP;PID=9.1:{second}"));
            pairs.push(with_lines(&["TEL;PID=1.1:1", &one], &["TEL;PID=1.1:2", &other]));
            pairs.push(with_lines(
                &["TEL;PID=1.1:1", "CLIENTPIDMAP:2;urn:a", &one],
                &[&other, "TEL;PID=1.2:2", "CLIENTPIDMAP:2;urn:a"],
            ));
        }
    }
    pairs
}

/// Rows changed in each field of each entry, with an entry too few or too many, in another order, and empty; of either card.
fn damaged_rows() -> Vec<Edits> {
    let lines = [
        "TEL;PID=1.1:1", "CLIENTPIDMAP:1;urn:a", "CLIENTPIDMAP:02;urn:bb", "NOTE:\r\n x",
        "CLIENTPIDMAP:1;u\r\n rn:a",
    ];
    let right = with_lines(&lines, &lines);
    let mut pairs = vec![right.clone()];
    for side in 0..2 {
        let row = &right.rows[side];
        pairs.extend(damages(row).into_iter().map(|damaged| {
            let mut edits = right.clone();
            edits.rows[side] = damaged;
            edits
        }));
    }
    pairs
}

/// The row with each damage.
fn damages(row: &[Source]) -> Vec<Vec<Source>> {
    let mut rows = vec![Vec::new(), [row, &row[..1]].concat(), [&row[..1], row].concat()];
    let others = |number: u32| [number.wrapping_add(1), number.wrapping_sub(1), 0, 65_536, u32::MAX];
    for at in 0..row.len() {
        rows.push([&row[..at], &row[at + 1..]].concat());
        let next = (at + 1) % row.len();
        let mut swapped = row.to_vec();
        swapped.swap(at, next);
        rows.push(swapped);
        for field in 0..3 {
            let mut numbers = [row[at].number, row[at].place, row[at].length];
            for other in others(numbers[field]) {
                numbers[field] = other;
                let mut damaged = row.to_vec();
                damaged[at] = Source { number: numbers[0], place: numbers[1], length: numbers[2] };
                rows.push(damaged);
            }
        }
    }
    rows
}

/// 15 to 18 CLIENTPIDMAP lines with rows of 0 and of 15 to 18 entries, on either side; and several cards.
fn counts() -> Vec<Edits> {
    let card = |count: usize| {
        let maps: Vec<String> =
            (0..count).map(|number| format!("CLIENTPIDMAP:{number};urn:{number}")).collect();
        let lines: Vec<&str> = ["FN:A", "UID:urn:x", "TEL;PID=1.15:1"]
            .into_iter()
            .chain(maps.iter().map(String::as_str))
            .collect();
        card_of(&lines)
    };
    let mut pairs = Vec::new();
    for side in 0..2 {
        for maps in [0, 1, 15, 16, 17, 18] {
            for entries in [0, 1, 15, 16, 17, 18] {
                let mut edits = edits_of(card(16), card(16));
                edits.cards[side] = card(maps);
                let spare = Source { number: 99, place: 5, length: 5 };
                let mut row = row_of_card(&edits.cards[side]);
                row.resize(entries, spare);
                edits.rows[side] = row;
                pairs.push(edits);
            }
        }
        let mut edits = edits_of(card(2), card(2));
        edits.cards[side] = [card(1), card(1)].concat();
        pairs.push(edits.clone());
        edits.rows[side] = row_of_card(&edits.cards[side]);
        pairs.push(edits);
    }
    pairs
}

/// No line, one and two of each single property on each side; two have one ALTID.
fn singles() -> Vec<Edits> {
    let mut pairs = Vec::new();
    for single in SINGLES {
        let tagged = single.replacen(':', ";ALTID=1:", 1);
        let counts: [&[&str]; 4] = [&[], &[single], &[&tagged], &[&tagged, &tagged]];
        for first in counts {
            for second in counts {
                let card = |lines: &[&str]| {
                    let identity: &[&str] =
                        if single.starts_with("UID") { &["FN:A"] } else { &["FN:A", "UID:urn:x"] };
                    card_of(&[identity, lines].concat())
                };
                pairs.push(edits_of(card(first), card(second)));
            }
        }
    }
    pairs
}

/// Names that are one property and names that are not, with one global value.
fn names() -> Vec<Edits> {
    let names = [
        "TEL", "tel", "g.TEL", "X-A", "x-a", "g.X-a", "X-B", "X", "CREATED", "Created", "LANG", "FN", "fn",
        "EMAIL",
    ];
    let line = |name: &str| match name {
        "CLIENTPIDMAP" => "CLIENTPIDMAP;PID=1.1:5;urn:q".to_string(),
        _ => format!("{name};PID=1.1:x"),
    };
    let map = "CLIENTPIDMAP:1;urn:a";
    let mut pairs = Vec::new();
    for first in names.into_iter().chain(["CLIENTPIDMAP"]) {
        for second in names.into_iter().chain(["CLIENTPIDMAP"]) {
            pairs.push(with_lines(&[&line(first), map], &[map, &line(second)]));
        }
    }
    pairs
}

/// UIDs that are missing, equal, different, empty, folded, of other kinds or several.
fn identities() -> Vec<Edits> {
    let uids: [&[&str]; 13] = [
        &[],
        &["UID:urn:x"],
        &["UID:urn:X"],
        &["uid:urn:x"],
        &["g.UID;x=y:urn:x"],
        &["UID;VALUE=text:urn:x"],
        &["UID;VALUE=text:"],
        &["UID;VALUE=x:"],
        &["UID:urn:\r\n x"],
        &["UID:urn:"],
        &["UID;ALTID=1:urn:x", "UID;ALTID=1:urn:y"],
        &["UID;ALTID=1:urn:y", "UID;ALTID=1:urn:x"],
        &["UID;PID=1.1:urn:x", "CLIENTPIDMAP:1;urn:a"],
    ];
    let card = |lines: &[&str]| card_of(&[lines, &["FN:A"]].concat());
    uids.iter().flat_map(|first| uids.iter().map(move |second| edits_of(card(first), card(second)))).collect()
}

/// Lines that share a value with several others, in every small form.
fn conflicts() -> Vec<Edits> {
    let rows: [&[&str]; 9] = [
        &[],
        &["TEL;PID=1.1:1"],
        &["TEL;PID=1.1:1", "TEL;PID=1.1:1"],
        &["TEL;PID=1.1,2.1:1"],
        &["TEL;PID=1.1:1", "TEL;PID=2.1:2"],
        &["TEL;PID=2.1:1", "EMAIL;PID=1.1:2"],
        &["TEL;PID=1.1,1.1:1"],
        &["N;PID=1.1:;;;;"],
        &["N;ALTID=1;PID=1.1:;;;;", "N;ALTID=1;PID=2.1:;;;;"],
    ];
    let map: &[&str] = &["CLIENTPIDMAP:1;urn:a"];
    let pair = |first: &[&str], second: &[&str]| with_lines(&[first, map].concat(), &[second, map].concat());
    rows.iter().flat_map(|first| rows.iter().map(move |second| pair(first, second))).collect()
}

/// One thing wrong with each card, every two: which comes first.
fn orders() -> Vec<Edits> {
    let right = with_lines(&["CLIENTPIDMAP:1;urn:a"], &["CLIENTPIDMAP:1;urn:a"]);
    let card = right.cards[0].clone();
    let row = right.rows[0].clone();
    let wrong = Source { number: 2, ..row[0] };
    let high = card_of(&["FN:A", "UID:urn:x", "TEL;PID=65536.1:1", "CLIENTPIDMAP:1;urn:a"]);
    let states: [(Vec<u8>, Vec<Source>); 12] = [
        (card.clone(), row.clone()),
        (Vec::new(), row.clone()),
        (vec![b'a'; 16_385], row.clone()),
        (b"\n".to_vec(), row.clone()),
        ([&card[..], b"X"].concat(), row.clone()),
        (card_of(&["UID:urn:x", "CLIENTPIDMAP:x"]), Vec::new()),
        ([CARD_M, CARD_M].concat(), Vec::new()),
        (high.clone(), row_of_card(&high)),
        (card.clone(), vec![row[0]; 17]),
        (card.clone(), vec![wrong]),
        (
            card_of(&["FN:A", "CLIENTPIDMAP:1;urn:a"]),
            row_of_card(&card_of(&["FN:A", "CLIENTPIDMAP:1;urn:a"])),
        ),
        (high, vec![wrong]),
    ];
    let pair = |(first, one): &(Vec<u8>, Vec<Source>), (second, other): &(Vec<u8>, Vec<Source>)| Edits {
        cards: [first.clone(), second.clone()],
        rows: [one.clone(), other.clone()],
    };
    states.iter().flat_map(|first| states.iter().map(move |second| pair(first, second))).collect()
}

/// Cards of nearly 16,384 octets: many lines with a PID each, many PIDs in a line, none alike and all alike; and long plans.
fn large() -> Vec<String> {
    let card = |start: usize, count: usize| {
        let tels: Vec<String> = (start..start + count).map(|number| format!("TEL;PID={number}.1:")).collect();
        let lines = ["FN:A", "UID:urn:x", "CLIENTPIDMAP:1;urn:a"];
        card_of(&lines.into_iter().chain(tels.iter().map(String::as_str)).collect::<Vec<&str>>())
    };
    let dense = |start: usize, count: usize| {
        let pids: Vec<String> = (start..start + count).map(|number| format!("{number}.1")).collect();
        card_of(&["FN:A", "UID:urn:x", "CLIENTPIDMAP:1;urn:a", &format!("TEL;PID={}:", pids.join(","))])
    };
    let pairs = [
        edits_of(card(1, 900), card(1, 900)),
        edits_of(card(1, 900), card(901, 900)),
        edits_of(card(1000, 900), card(1899, 900)),
        edits_of(dense(0, 2_300), dense(2_299, 2_200)),
        edits_of(dense(0, 2_300), dense(2_300, 2_200)),
        edits_of(dense(0, 2_300), card(2_200, 800)),
        edits_of(card(0, 700), dense(699, 2_200)),
    ];
    let mut requests = Vec::new();
    for edits in pairs {
        let whole = demanded_plan(&edits);
        let reversed: Vec<u32> = whole.chunks(2).rev().flatten().copied().collect();
        for room in [0, whole.len().saturating_sub(1), whole.len(), whole.len() + 1, 70_000] {
            requests.push(plan_line(room, &edits));
        }
        requests.push(check_plan_line(&edits, &whole));
        requests.push(check_plan_line(&edits, &reversed));
        requests.push(check_plan_line(&edits, &whole[..whole.len() - 2]));
        requests.push(check_plan_line(&edits, &[&whole[..], &whole[..2]].concat()));
    }
    requests
}

/// Two edits by chance: planner or checker.
fn by_chance(dice: &mut Dice) -> Asked {
    let mut edits = edits_by_chance(dice);
    damage(dice, &mut edits);
    match dice.once_in(2) {
        true => (edits, None),
        false => {
            let plan = plan_by_chance(dice, &edits);
            (edits, Some(plan))
        }
    }
}

/// What one card knows of its sources: the URIs with the numbers that it gives them.
type Numbers = Vec<(usize, &'static str)>;

/// Two cards that were one, each with its own numbers for the sources; mostly the same entries share a PID.
fn edits_by_chance(dice: &mut Dice) -> Edits {
    let uris = ["urn:a", "urn:b", "urn:c", "urn:A", "urn:dd"];
    let used = dice.between(1, uris.len());
    let numbers = [numbers_by_chance(dice, &uris[..used]), numbers_by_chance(dice, &uris[..used])];
    let mut lines = [Vec::new(), Vec::new()];
    for entry in 0..*dice.pick(&[0, 1, 2, 3, 4, 6, 10]) {
        let name = *dice.pick(&NAMES);
        let uri = *dice.pick(&uris[..used]);
        let first = if dice.once_in(12) { dice.below(3) } else { entry + 1 };
        for side in 0..2 {
            if !dice.once_in(4) {
                let line = line_by_chance(dice, name, first, uri, &numbers[side]);
                insert_anywhere(dice, &mut lines[side], line);
            }
        }
    }
    let cards = [0, 1].map(|side| card_by_chance(dice, &numbers[side], std::mem::take(&mut lines[side])));
    let [first, second] = cards;
    edits_of(first, second)
}

/// A number for each URI, now and then one number for two or two for one.
fn numbers_by_chance(dice: &mut Dice, uris: &[&'static str]) -> Numbers {
    let mut numbers: Numbers = uris.iter().enumerate().map(|(index, &uri)| (index + 1, uri)).collect();
    for last in (1..numbers.len()).rev() {
        let other = dice.below(last + 1);
        let number = numbers[last].0;
        numbers[last].0 = numbers[other].0;
        numbers[other].0 = number;
    }
    if dice.once_in(6) {
        numbers.push((dice.between(1, 3), *dice.pick(uris)));
    }
    if dice.once_in(6) {
        numbers.remove(dice.below(numbers.len()));
    }
    if dice.once_in(40) {
        numbers.extend((0..dice.between(8, 13)).map(|more| (more + 20, "urn:z")));
    }
    numbers
}

/// A line of this name with a PID for this entry, in some spelling, among other parameters.
fn line_by_chance(dice: &mut Dice, name: &str, first: usize, uri: &str, numbers: &Numbers) -> Vec<u8> {
    let of_uri = numbers.iter().find(|(_, other)| *other == uri);
    let source = if dice.once_in(15) { dice.below(8) } else { of_uri.map_or(9, |(number, _)| *number) };
    let mut pid = match dice.below(12) {
        0 => format!("0{first}.{source}"),
        1 => format!("{first}.00{source}"),
        2 => format!("\"{first}.{source}\""),
        3 => format!("{}.{},{first}.{source}", first + 50, source),
        4 => format!("{first}.{source},x"),
        5 => format!("{first}.{source};TYPE=home"),
        _ => format!("{first}.{source}"),
    };
    match dice.below(60) {
        0 => pid = dice.pick(&["65535.1", "65536.1", "1.65536", "0.0", "1.1.1"]).to_string(),
        1 | 2 => pid = format!("{pid};PID=1.1"),
        _ => (),
    }
    let parameter = if dice.once_in(5) { String::new() } else { format!(";PID={pid}") };
    let value = *dice.pick(&["1", "22", "x", "", "a\\,b"]);
    [in_some_case(dice, name), format!("{parameter}:{value}").into_bytes()].concat()
}

/// A card with these lines, its maps, FN, mostly a UID, and some single properties; folded somehow.
fn card_by_chance(dice: &mut Dice, numbers: &Numbers, mut lines: Vec<Vec<u8>>) -> Vec<u8> {
    insert_anywhere(dice, &mut lines, b"FN:A".to_vec());
    if !dice.once_in(30) {
        let uid = if dice.once_in(30) { "UID:urn:y" } else { "UID:urn:x" };
        insert_anywhere(dice, &mut lines, uid.as_bytes().to_vec());
    }
    for single in &SINGLES[..7] {
        if dice.once_in(6) {
            insert_anywhere(dice, &mut lines, single.as_bytes().to_vec());
        }
    }
    let mut at = 0;
    for (number, uri) in numbers {
        at = dice.between(at, lines.len());
        let zeros = if dice.once_in(6) { "00" } else { "" };
        lines.insert(at, format!("CLIENTPIDMAP:{zeros}{number};{uri}").into_bytes());
    }
    let frame = ["BEGIN:VCARD", "VERSION:4.0", "END:VCARD"].map(|line| line.as_bytes().to_vec());
    let all = [&frame[..2], &lines, &frame[2..]].concat();
    folded(dice, &all)
}

/// Now and then a row, a card or both rows are not as they should be.
fn damage(dice: &mut Dice, edits: &mut Edits) {
    let side = dice.below(2);
    match dice.below(24) {
        0..=2 if !edits.rows[side].is_empty() => {
            let rows = damages(&edits.rows[side]);
            edits.rows[side] = dice.pick(&rows).clone();
        }
        3 => {
            let card = edits.cards[side].clone();
            edits.cards[side] = mutated(dice, |_| card.clone());
            if dice.once_in(2) {
                edits.rows[side] = row_of_card(&edits.cards[side]);
            }
        }
        4 => {
            let other = edits.cards[1 - side].clone();
            edits.cards[side].extend(other);
        }
        5 => edits.rows.swap(0, 1),
        6 => {
            let entries = dice.between(14, 20);
            edits.rows[side].resize(entries, Source { number: 1, place: 0, length: 0 });
        }
        _ => (),
    }
}

/// The demanded pairs, mostly in another order or with one thing changed: a pair more, less or twice, a number more, less or another.
fn plan_by_chance(dice: &mut Dice, edits: &Edits) -> Vec<u32> {
    let mut pairs: Vec<Vec<u32>> = demanded_plan(edits).chunks(2).map(<[u32]>::to_vec).collect();
    let lines = 12;
    if dice.once_in(2) {
        for last in (1..pairs.len()).rev() {
            pairs.swap(last, dice.below(last + 1));
        }
    }
    let which = dice.below(pairs.len().max(1));
    match dice.below(12) {
        0 | 1 => pairs.push(vec![dice.below(lines) as u32, dice.below(lines) as u32]),
        2 => pairs.push(vec![0, 0]),
        3 => pairs.push(vec![1, 1]),
        4 if !pairs.is_empty() => drop(pairs.remove(which)),
        5 if !pairs.is_empty() => pairs.push(pairs[which].clone()),
        6 if !pairs.is_empty() => pairs[which].reverse(),
        7 if !pairs.is_empty() => pairs[which][dice.below(2)] = dice.below(lines) as u32,
        8 => pairs.push(vec![dice.below(lines) as u32]),
        9 => pairs.push(vec![*dice.pick(&[u32::MAX, 1 << 16, 4_096, 30]), 0]),
        _ => (),
    }
    pairs.concat()
}

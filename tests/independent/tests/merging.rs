// Knows merges (document 02, No. 11): the readings' examples, every plan of small cards by brute force, limits, rows and the order of refusals.

use std::collections::BTreeSet;

use independent::console::Console;
use independent::dice::Dice;
use independent::generator::merges::{by_hand, demanded_plan, merges};
use independent::merging::{check, plan, row_of_card, side_of, Edits, Side, Source};
use independent::refusal::Refusal;

/// The card of these lines between BEGIN, VERSION and END.
fn card_of(lines: &[&str]) -> Vec<u8> {
    let all = [&["BEGIN:VCARD", "VERSION:4.0"], lines, &["END:VCARD"]].concat();
    all.iter().flat_map(|line| format!("{line}\r\n").into_bytes()).collect()
}

/// Two cards of these lines with their right rows.
fn edits(first: &[&str], second: &[&str]) -> Edits {
    let cards = [card_of(first), card_of(second)];
    let rows = cards.each_ref().map(|card| row_of_card(card));
    Edits { cards, rows }
}

/// Two cards of FN, UID and these lines, the first of them line 4.
fn with_lines(first: &[&str], second: &[&str]) -> Edits {
    edits(&[&["FN:A", "UID:urn:x"], first].concat(), &[&["FN:A", "UID:urn:x"], second].concat())
}

/// What the planner writes with room for so many numbers, or its refusal; other room stays.
fn planned(edits: &Edits, room: usize) -> Result<Vec<u32>, (u32, usize)> {
    let mut out = vec![7; room];
    match plan(edits, &mut out) {
        Ok(pairs) => {
            assert!(out[2 * pairs..].iter().all(|&number| number == 7));
            out.truncate(2 * pairs);
            Ok(out)
        }
        Err(Refusal { number, place }) => {
            assert!(out.iter().all(|&number| number == 7));
            Err((number, place))
        }
    }
}

/// The checker's answer.
fn checked(edits: &Edits, plan: &[u32]) -> Result<usize, (u32, usize)> {
    check(edits, plan).map_err(|refusal| (refusal.number, refusal.place))
}

const NONE: Result<usize, (u32, usize)> = Err((70, 0));
const ANOTHER: Result<usize, (u32, usize)> = Err((73, 0));

#[test]
fn the_example_of_the_readings() {
    let first = ["UID:urn:x", "FN:A", "TEL;PID=1.1:5", "TEL:6", "CLIENTPIDMAP:1;urn:a"];
    let second = ["FN:A", "UID:urn:x", "TEL:6", "TEL;PID=1.2:7", "CLIENTPIDMAP:2;urn:a"];
    let pair = edits(&first, &second);
    assert_eq!(pair.rows, [1, 2].map(|number| vec![Source { number, place: 80, length: 5 }]));
    assert_eq!(planned(&pair, 4), Ok(vec![2, 3, 4, 5]));
    assert_eq!(planned(&pair, 9), Ok(vec![2, 3, 4, 5]));
    assert_eq!(planned(&pair, 3), Err((14, 4)));
    for (plan, answer) in [
        ([2, 3, 4, 5].as_slice(), Ok(2)),
        (&[4, 5, 2, 3], Ok(2)),
        (&[2, 3, 4, 5, 5, 4], Ok(3)),
        (&[2, 3, 4, 5, 0, 0], Ok(3)),
        (&[2, 3], ANOTHER),
        (&[2, 3, 4, 5, 0], ANOTHER),
        (&[2, 3, 4, 5, 2, 3], ANOTHER),
        (&[2, 3, 4, 5, 99, 0], ANOTHER),
        (&[2, 3, 4, 5, 0, 1], ANOTHER),
    ] {
        assert_eq!(checked(&pair, plan), answer, "{plan:?}");
    }
    let second = ["FN:A", "UID:urn:x", "TEL;PID=1.2:6", "TEL;PID=1.2:7", "CLIENTPIDMAP:2;urn:a"];
    let pair = edits(&first, &second);
    assert_eq!((planned(&pair, 4), checked(&pair, &[2, 3, 4, 5])), (Err((70, 0)), NONE));
}

/// Every plan that has no line twice and none of BEGIN, VERSION and END: every way to pair some inner lines of the first card with some of the second.
fn matchings(first: usize, second: usize) -> Vec<Vec<u32>> {
    assert!(first <= 8 && second <= 8, "few enough plans");
    let mut plans: Vec<Vec<u32>> = vec![Vec::new()];
    for one in 2..first as u32 - 1 {
        let mut longer = Vec::new();
        for plan in &plans {
            for other in (2..second as u32 - 1)
                .filter(|other| !plan.iter().skip(1).step_by(2).any(|taken| taken == other))
            {
                longer.push([&plan[..], &[one, other]].concat());
            }
        }
        plans.extend(longer);
    }
    plans
}

/// The request's sentence, asked of each plan in its own words.
fn passes_by_words(cards: &[Side; 2], edits: &Edits, plan: &[u32]) -> bool {
    let lines: Vec<Vec<String>> = edits.cards.iter().map(|card| lines_of(card)).collect();
    let pairs: Vec<(usize, usize)> =
        plan.chunks(2).map(|pair| (pair[0] as usize, pair[1] as usize)).collect();
    assert!(pairs.iter().all(|&(one, other)| one < cards[0].count() && other < cards[1].count()));
    let uid = |side: usize| lines[side].iter().find_map(|line| line.strip_prefix("UID:"));
    let name = |line: &str| line.split([';', ':']).next().expect("a name").to_ascii_uppercase();
    let count = |side: usize, wanted: &str| lines[side].iter().filter(|line| name(line) == wanted).count();
    let is_single = |line: &str| {
        ["KIND", "N", "BDAY", "ANNIVERSARY", "GENDER", "PRODID", "REV", "UID"].contains(&name(line).as_str())
    };
    let same_property = pairs.iter().all(|&(one, other)| name(&lines[0][one]) == name(&lines[1][other]));
    let mut demands_met = true;
    for (one, line) in lines[0].iter().enumerate() {
        for (other, partner) in lines[1].iter().enumerate() {
            let alone = is_single(line) && count(0, &name(line)) == 1 && count(1, &name(line)) == 1;
            let shared =
                values(&lines[0], line).iter().any(|value| values(&lines[1], partner).contains(value));
            if name(line) == name(partner) && (alone || shared) {
                demands_met &= pairs.contains(&(one, other));
            }
        }
    }
    uid(0).is_some() && uid(0) == uid(1) && same_property && demands_met
}

/// The unfolded lines of a card of ASCII without quotes.
fn lines_of(card: &[u8]) -> Vec<String> {
    let text = String::from_utf8(card.to_vec()).expect("ASCII").replace("\r\n ", "").replace("\r\n\t", "");
    text.split_terminator("\r\n").map(str::to_string).collect()
}

/// The global values of a line of plain PIDs, written in one PID parameter.
fn values(lines: &[String], line: &str) -> Vec<(u32, String)> {
    let maps: Vec<(u32, String)> = lines
        .iter()
        .filter_map(|line| line.strip_prefix("CLIENTPIDMAP:")?.split_once(';'))
        .map(|(number, uri)| (number.parse().expect("a number"), uri.to_string()))
        .collect();
    let head = line.split(':').next().expect("a head");
    let pids = head.split(';').filter_map(|part| part.strip_prefix("PID=")).flat_map(|pids| pids.split(','));
    let numbers = pids
        .filter_map(|pid| pid.split_once('.'))
        .map(|(first, source)| (first.parse().expect("one"), source.parse().expect("two")));
    numbers
        .filter_map(|(first, source): (u32, u32)| {
            Some((first, maps.iter().find(|map| map.0 == source)?.1.clone()))
        })
        .collect()
}

/// A small card by chance: FN, mostly UID, two or three lines that may have PIDs, one or two maps.
fn small_card(dice: &mut Dice) -> Vec<u8> {
    let mut lines = vec!["FN:A".to_string()];
    if !dice.once_in(12) {
        lines.push(if dice.once_in(12) { "UID:urn:y" } else { "UID:urn:x" }.to_string());
    }
    for _ in 0..dice.between(1, 2) {
        let name = *dice.pick(&["TEL", "TEL", "TEL", "X-A", "x-a"]);
        let pid = |dice: &mut Dice| format!("{}.{}", *dice.pick(&[1, 1, 2]), *dice.pick(&[1, 1, 2]));
        let pids = match dice.below(4) {
            0 => String::new(),
            1 => format!(";PID={},{}", pid(dice), pid(dice)),
            _ => format!(";PID={}", pid(dice)),
        };
        lines.push(format!("{name}{pids}:1"));
    }
    if dice.once_in(3) {
        lines.push("N:;;;;".to_string());
    }
    for _ in 0..*dice.pick(&[0, 1, 1, 1, 2]) {
        lines.push(format!(
            "CLIENTPIDMAP:{};urn:{}",
            dice.pick(&[1, 1, 1, 2]),
            dice.pick(&["a", "a", "a", "b"])
        ));
    }
    for last in (1..lines.len()).rev() {
        lines.swap(last, dice.below(last + 1));
    }
    card_of(&lines.iter().map(String::as_str).collect::<Vec<&str>>())
}

#[test]
fn every_plan_of_small_cards_by_brute_force() {
    let mut dice = Dice::new(3);
    let mut counts = [0, 0, 0];
    let mut tried = 0;
    while counts.iter().sum::<usize>() < 200 {
        let cards = [small_card(&mut dice), small_card(&mut dice)];
        let rows = cards.each_ref().map(|card| row_of_card(card));
        let pair = Edits { cards, rows };
        let sides = pair.cards.each_ref().map(|card| side_of(card).expect("an accepted card"));
        if sides.iter().any(|side| side.count() > 8) {
            continue;
        }
        let plans = matchings(sides[0].count(), sides[1].count());
        tried += plans.len();
        let passing: BTreeSet<&Vec<u32>> =
            plans.iter().filter(|plan| passes_by_words(&sides, &pair, plan)).collect();
        for plan in &plans {
            let wanted = match (passing.contains(plan), passing.is_empty()) {
                (true, _) => Ok(plan.len() / 2),
                (false, true) => NONE,
                (false, false) => ANOTHER,
            };
            assert_eq!(checked(&pair, plan), wanted, "{pair:?} {plan:?}");
        }
        let smallest = passing.iter().min_by_key(|plan| plan.len());
        assert_eq!(planned(&pair, 99).ok(), smallest.map(|plan| plan.to_vec()), "{pair:?}");
        counts[smallest.map_or(0, |plan| 1 + usize::from(plan.len() > 2))] += 1;
    }
    assert!(counts.iter().all(|&count| count >= 10) && tried >= 50_000, "{counts:?} {tried}");
}

#[test]
fn every_row_of_four_numbers_passes_or_not_as_the_pairs_say() {
    let pair =
        with_lines(&["TEL;PID=1.1:1", "CLIENTPIDMAP:1;urn:a"], &["CLIENTPIDMAP:1;urn:a", "TEL;PID=1.1:1"]);
    assert_eq!(planned(&pair, 4), Ok(vec![3, 3, 4, 5]));
    let mut passing = 0;
    for code in 0..9u32.pow(4) {
        let numbers = [code / 729, code / 81 % 9, code / 9 % 9, code % 9];
        let wanted = [[3, 3, 4, 5], [4, 5, 3, 3]].contains(&numbers);
        assert_eq!(checked(&pair, &numbers), if wanted { Ok(2) } else { ANOTHER }, "{numbers:?}");
        passing += usize::from(wanted);
    }
    assert_eq!(passing, 2);
}

#[test]
fn what_counts_as_a_pid() {
    let shares = |pid: &str| {
        let line = format!("TEL;{pid}:1");
        let pair = with_lines(&[&line, "CLIENTPIDMAP:1;urn:a"], &["TEL;PID=1.1:2", "CLIENTPIDMAP:01;urn:a"]);
        match planned(&pair, 9) {
            Ok(numbers) => Ok(numbers.len() == 4),
            Err((number, _)) => Err(number),
        }
    };
    for pid in [
        "PID=1.1", "PID=01.001", "PID=\"1.1\"", "pid=2.1,1.1", "PID=2.1;PID=1.1", "PID=x,1.1",
        "PID=1.1;PID=1.1",
    ] {
        assert_eq!(shares(pid), Ok(true), "{pid}");
    }
    for pid in [
        "PID=1", "PID=1.", "PID=.1", "PID=1.1.1", "PID= 1.1", "PID=\"1.1,2.1\"", "PID=2.1", "PID=1.2",
        "PIDS=1.1", "PID=+1.1", "PID=0.1", "PID=", "PID=65535.1", "PID=1.65535", "PID=65536", "PID=65536.x",
        "X=65536.1",
    ] {
        assert_eq!(shares(pid), Ok(false), "{pid}");
    }
    for pid in [
        "PID=65536.1", "PID=1.65536", "PID=x,4294967297.1", "PID=\"1.99999999999999999999\"",
        "PID=000065536.1",
    ] {
        assert_eq!(shares(pid), Err(71), "{pid}");
    }
}

#[test]
fn the_first_entry_of_a_number_counts_and_uris_compare_octet_for_octet() {
    let shares = |first: &[&str], second: &[&str]| {
        let one = [&["TEL;PID=1.1:1"], first].concat();
        let other = [&["TEL;PID=1.2:1"], second].concat();
        planned(&with_lines(&one, &other), 9).map(|numbers| numbers.len() == 4)
    };
    assert_eq!(shares(&["CLIENTPIDMAP:1;urn:a"], &["CLIENTPIDMAP:2;urn:a"]), Ok(true));
    assert_eq!(shares(&["CLIENTPIDMAP:1;urn:a"], &["CLIENTPIDMAP:2;urn:A"]), Ok(false));
    assert_eq!(shares(&["CLIENTPIDMAP:1;urn:a"], &["CLIENTPIDMAP:2;u\r\n rn:a"]), Ok(true));
    assert_eq!(shares(&["CLIENTPIDMAP:1;urn:a"], &[]), Ok(false));
    assert_eq!(
        shares(&["CLIENTPIDMAP:1;urn:a", "CLIENTPIDMAP:1;urn:b"], &["CLIENTPIDMAP:2;urn:b"]),
        Ok(false)
    );
    assert_eq!(
        shares(&["CLIENTPIDMAP:1;urn:b", "CLIENTPIDMAP:1;urn:a"], &["CLIENTPIDMAP:002;urn:b"]),
        Ok(true)
    );
}

#[test]
fn properties_and_singles() {
    let map = "CLIENTPIDMAP:1;urn:a";
    let pairs = |first: &[&str], second: &[&str]| {
        planned(&with_lines(&[first, &[map]].concat(), &[second, &[map]].concat()), 99)
            .map(|numbers| numbers[2..].to_vec())
    };
    assert_eq!(pairs(&["g.X-a;PID=1.1:1"], &["x-A;PID=1.1:2"]), Ok(vec![4, 4]));
    assert_eq!(pairs(&["X-A;PID=1.1:1"], &["X-B;PID=1.1:2"]), Ok(vec![]));
    assert_eq!(pairs(&["TEL;PID=1.1:1"], &["EMAIL;PID=1.1:2"]), Ok(vec![]));
    assert_eq!(pairs(&["N:;;;;"], &["n:a;;;;"]), Ok(vec![4, 4]));
    assert_eq!(pairs(&["N;ALTID=1:;;;;", "N;ALTID=1:;;;;"], &["N:a;;;;"]), Ok(vec![]));
    assert_eq!(pairs(&["CREATED:1"], &["CREATED:2"]), Ok(vec![]));
    assert_eq!(pairs(&["CLIENTPIDMAP;PID=1.1:5;urn:q"], &["CLIENTPIDMAP;PID=1.1:6;urn:r"]), Ok(vec![4, 4]));
    assert_eq!(pairs(&["TEL;PID=1.1:1"], &["TEL;PID=1.1:1", "TEL;PID=1.1:1"]), Err((70, 0)));
    assert_eq!(pairs(&["TEL;PID=1.1:1", "TEL;PID=1.1:1"], &["TEL;PID=1.1:1"]), Err((70, 0)));
    let frames = with_lines(&[map], &[map]);
    assert_eq!(checked(&frames, &[3, 3, 0, 0, 1, 1, 2, 2, 4, 4, 5, 5]), Ok(6));
    assert_eq!(checked(&frames, &[3, 3, 0, 5]), ANOTHER);
}

#[test]
fn identities() {
    let answer =
        |first: &[&str], second: &[&str]| planned(&edits(first, second), 9).map(|numbers| numbers.len() / 2);
    assert_eq!(answer(&["FN:A", "UID:urn:x"], &["FN:A", "UID:urn:x"]), Ok(1));
    assert_eq!(answer(&["FN:A", "UID:urn:x"], &["FN:A", "UID:urn:X"]), Err((70, 0)));
    assert_eq!(answer(&["FN:A", "UID:urn:x"], &["FN:A"]), Err((70, 0)));
    assert_eq!(answer(&["FN:A"], &["FN:A"]), Err((70, 0)));
    assert_eq!(answer(&["FN:A", "UID;VALUE=text:"], &["FN:A", "UID;VALUE=x:"]), Ok(1));
    let two = ["FN:A", "UID;ALTID=1:urn:x", "UID;ALTID=1:urn:y"];
    assert_eq!(answer(&two, &["FN:A", "UID:urn:x"]), Ok(0));
    assert_eq!(answer(&two, &["FN:A", "UID:urn:y"]), Err((70, 0)));
}

#[test]
fn limits_rows_and_the_order_of_refusals() {
    let maps = |count: usize| {
        (0..count).map(|number| format!("CLIENTPIDMAP:{number};urn:{number}")).collect::<Vec<String>>()
    };
    let of = |count: usize| {
        let maps = maps(count);
        let lines: Vec<&str> = maps.iter().map(String::as_str).collect();
        with_lines(&lines, &lines)
    };
    assert_eq!(planned(&of(16), 99), Ok(vec![3, 3]));
    assert_eq!(planned(&of(17), 99), Err((71, 0)));
    let mut pair = of(16);
    pair.rows[1].push(Source { number: 1, place: 1, length: 1 });
    assert_eq!(planned(&pair, 99), Err((71, 0)));
    pair.rows[1].truncate(15);
    assert_eq!((planned(&pair, 99), checked(&pair, &[])), (Err((72, 0)), Err((72, 0))));
    for (number, answer) in [
        ("65535", Ok(vec![3, 3])),
        ("0065535", Ok(vec![3, 3])),
        ("65536", Err((71, 0))),
        ("99999999999999999999", Err((71, 0))),
    ] {
        let line = format!("CLIENTPIDMAP:{number};urn:a");
        assert_eq!(planned(&with_lines(&[], &[&line]), 9), answer, "{number}");
    }
    let two = [card_of(&["FN:A"]), card_of(&["FN:A"])].concat();
    let states: [(Vec<u8>, usize, u32); 5] = [
        (b"\n".to_vec(), 0, 3),
        (two, 0, 71),
        (card_of(&["FN:A"]), 17, 71),
        (card_of(&["FN:A"]), 1, 72),
        (card_of(&["FN:A"]), 0, 70),
    ];
    for (first, entries, one) in &states {
        for (second, more, other) in &states {
            let row = |count: usize| vec![Source { number: 1, place: 1, length: 1 }; count];
            let pair = Edits { cards: [first.clone(), second.clone()], rows: [row(*entries), row(*more)] };
            let rank =
                |number: u32| [3, 71, 72, 70].iter().position(|other| *other == number).expect("a number");
            let wanted = if rank(*one) <= rank(*other) { *one } else { *other };
            assert_eq!(planned(&pair, 0), Err((wanted, 0)));
            assert_eq!(checked(&pair, &[]), Err((wanted, 0)));
        }
    }
    let bad = |lines: &[&str]| Edits { cards: [card_of(&["FN:A"]), card_of(lines)], rows: [vec![], vec![]] };
    assert_eq!(planned(&bad(&["FN:A,"]), 0), Err((7, 30)));
}

#[test]
fn what_the_planner_writes_the_checker_accepts() {
    let mut accepted = 0;
    for (edits, _) in by_hand() {
        if let Ok(numbers) = planned(&edits, 16_384) {
            assert_eq!(checked(&edits, &numbers), Ok(numbers.len() / 2));
            assert_eq!(numbers, demanded_plan(&edits));
            accepted += 1;
        }
    }
    assert!(accepted >= 1_000, "{accepted}");
}

#[test]
fn parts_that_do_not_come_apart_are_bad_requests() {
    let answer = |line: &str| Console::default().answer(line.as_bytes());
    let none = "00000000";
    assert_eq!(answer(&format!("plan 0 {}", none.repeat(4))), "no 2 0");
    assert_eq!(answer(&format!("check-plan {}", none.repeat(5))), "no 2 0");
    for line in [
        format!("plan 0 {}", none.repeat(3)),
        format!("plan 0 {}", none.repeat(5)),
        format!("check-plan {}", none.repeat(4)),
        format!("check-plan {}", none.repeat(6)),
        format!("plan 0 {}00", none.repeat(4)),
        format!("plan 0 {}0000000141", none.repeat(3)),
        format!("plan 0 {}0000000400000000", none.repeat(3)),
        format!("plan 0 {}0000000c00000000", none.repeat(3)),
        format!("check-plan {}000000020000", none.repeat(4)),
        format!("plan 0 ffffffff{}", none.repeat(3)),
        format!("plan 70001 {}", none.repeat(4)),
        "plan 0 -".to_string(),
        "check-plan -".to_string(),
        "plan -".to_string(),
    ] {
        assert_eq!(answer(&line), "bad request", "{line}");
    }
    let bad = merges(1).take(2_000).filter(|line| answer(line) == "bad request").count();
    assert!((90..200).contains(&bad), "{bad}");
}

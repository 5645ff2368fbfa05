// Knows that the generator reaches every refusal and every kind, and gives the same lines every time.

use std::collections::HashSet;

use independent::beside::{compare_desks, survey_desks};
use independent::compare::{steps, Plan};
use independent::generator::{
    alternatives::alternatives,
    dates,
    dates::dates,
    desks::desks,
    folds,
    folds::folds,
    hand, labels,
    labels::labels,
    line_faults::line_faults,
    lists,
    lists::lists,
    merges,
    merges::merges,
    names::{names, names_by_hand, LONGEST},
    octets::octets,
    readers, reports,
    reports::reports,
    texts,
    texts::texts,
    version3,
    version3::version3,
    watches,
    watches::watches,
};
use independent::console::Console;
use independent::examples::m_with;
use independent::hex::{octets_of, word_of};
use independent::properties::row_of;
use independent::report::{moved, which_of};
use independent::requests::{check_plan_line, plan_line};
use independent::survey::{survey, Survey};

/// How often a refusal number came.
fn times(survey: &Survey, number: u32) -> usize {
    survey.refusals.get(&number).copied().unwrap_or(0)
}

#[test]
fn readers_reach_every_refusal_and_every_kind() {
    let survey = survey(readers(1).take(100_000));
    let reached: Vec<u32> = survey.refusals.keys().copied().collect();
    assert_eq!(reached, (1..=5).chain(7..=14).chain(40..=43).collect::<Vec<u32>>());
    for number in (3..=5).chain(7..=14) {
        assert!(times(&survey, number) >= 1_000, "{number}: {survey}");
    }
    for kind in 0..=10 {
        assert!(survey.kinds.get(&kind).is_some_and(|&count| count >= 300), "{kind}: {survey}");
    }
    assert!(survey.accepted >= 20_000 && survey.bad_requests == 0, "{survey}");
}

#[test]
fn line_faults_reach_40_to_43_in_every_request() {
    for word in ["judge ", "read ", "fold "] {
        let survey = survey(line_faults(1).take(30_000).filter(|line| line.starts_with(word)));
        for number in 40..=43 {
            assert!(times(&survey, number) >= 500, "{word}{number}: {survey}");
        }
        assert_eq!(times(&survey, 6), 0);
        assert!(survey.accepted >= 500, "{word}: {survey}");
    }
}

#[test]
fn dates_reach_both_sides_of_every_kind() {
    let survey = survey(dates(1).take(60_000));
    assert!(survey.refusals.keys().copied().eq([7, 13, 14]), "{survey}");
    assert!(times(&survey, 7) >= 10_000 && survey.accepted >= 10_000 && survey.bad_requests == 0, "{survey}");
    for kind in 9..=11 {
        assert!(survey.kinds.get(&kind).is_some_and(|&count| count >= 500), "{kind}: {survey}");
    }
}

#[test]
fn octets_reach_5_and_7_of_every_kind_and_accept_every_kind() {
    for word in ["judge ", "read ", "fold "] {
        let survey = survey(octets(1).take(40_000).filter(|line| line.starts_with(word)));
        assert!(times(&survey, 5) >= 1_000 && times(&survey, 7) >= 3_000, "{word}: {survey}");
        assert!(survey.accepted >= 1_500 && survey.bad_requests == 0, "{word}: {survey}");
    }
    let survey = survey(octets(1).take(40_000));
    for kind in 0..=11 {
        assert!(survey.kinds.get(&kind).is_some_and(|&count| count >= 20), "{kind}: {survey}");
    }
}

/// The octets of an input that is asked for.
fn input_of(line: &str) -> Vec<u8> {
    octets_of(line.rsplit(' ').next().expect("a word").as_bytes()).expect("octets")
}

#[test]
fn octets_point_at_octets_and_at_ends_with_folds_right_before() {
    let mut after_a_fold = [0, 0];
    let mut ends = [0, 0];
    for line in octets(1).take(40_000).filter(|line| line.starts_with("judge ")) {
        let answer = Console::default().answer(line.as_bytes());
        let words: Vec<&str> = answer.split(' ').collect();
        let ["no", number @ ("5" | "7"), place] = words.as_slice() else { continue };
        let (input, place): (Vec<u8>, usize) = (input_of(&line), place.parse().expect("a place"));
        let which = usize::from(*number == "7");
        after_a_fold[which] +=
            usize::from(input[..place].ends_with(b"\r\n ") || input[..place].ends_with(b"\r\n\t"));
        ends[which] += usize::from(input[place] == b'\r');
    }
    assert!(after_a_fold[0] >= 100 && after_a_fold[1] >= 300, "{after_a_fold:?}");
    assert!(ends[0] == 0 && ends[1] >= 500, "{ends:?}");
}

#[test]
fn names_have_every_length_and_first_letter_and_reach_every_row() {
    let by_hand: HashSet<Vec<u8>> = names_by_hand().into_iter().collect();
    for length in 1..=LONGEST {
        for first in (b'A'..=b'Z').chain(b'a'..=b'z').chain(b'0'..=b'9').chain([b'-']) {
            assert!(by_hand.iter().any(|name| name.len() == length && name[0] == first), "{length} {first}");
        }
    }
    let found: HashSet<u32> = by_hand.iter().map(|name| row_of(name).number).collect();
    assert_eq!(found, (0..=38).collect());
    let survey = survey(names(1).take(30_000));
    for number in [7, 8, 9, 12] {
        assert!(times(&survey, number) >= 10, "{number}: {survey}");
    }
    for kind in 0..=8 {
        assert!(survey.kinds.get(&kind).is_some_and(|&count| count >= 10), "{kind}: {survey}");
    }
    assert!(survey.accepted >= 10_000 && survey.bad_requests == 0, "{survey}");
}

#[test]
fn alternatives_are_accepted_and_refused_in_every_request() {
    for word in ["judge ", "read ", "fold "] {
        let survey = survey(alternatives(1).take(30_000).filter(|line| line.starts_with(word)));
        assert!(times(&survey, 10) >= 1_000, "{word}: {survey}");
        assert!(times(&survey, 12) >= 20, "{word}: {survey}");
        assert!(survey.accepted >= 1_000 && survey.bad_requests == 0, "{word}: {survey}");
    }
}

#[test]
fn folds_reach_every_refusal() {
    let survey = survey(folds(1).take(10_000));
    let reached: Vec<u32> = survey.refusals.keys().copied().collect();
    assert_eq!(reached, [1, 2, 3, 4, 5, 7, 8, 9, 10, 11, 12, 15, 16, 40, 41, 42, 43]);
    assert!(survey.accepted >= 4_000 && survey.bad_requests == 0, "{survey}");
}

#[test]
fn texts_reach_1_15_16_30_and_31() {
    let survey = survey(texts(1).take(80_000));
    let reached: Vec<u32> = survey.refusals.keys().copied().collect();
    assert_eq!(reached, [1, 15, 16, 30, 31]);
    assert!(survey.accepted >= 20_000 && survey.bad_requests == 0, "{survey}");
}

#[test]
fn labels_reach_every_refusal_under_both_rules() {
    for (start, numbers) in [
        ("encode 0 ", [1, 15, 31, 44].as_slice()),
        ("encode 1 ", &[1, 15, 16, 31]),
        ("decode 0 ", &[1, 15, 31]),
        ("decode 1 ", &[1, 15, 31]),
    ] {
        let survey = survey(labels(1).take(40_000).filter(|line| line.starts_with(start)));
        assert_eq!(survey.refusals.keys().copied().collect::<Vec<u32>>(), numbers, "{start}");
        for &number in numbers.iter().filter(|&&number| number >= 31 || number == 15) {
            assert!(times(&survey, number) >= 500, "{start}{number}: {survey}");
        }
        assert!(
            survey.requests >= 5_000 && survey.accepted >= 1_000 && survey.bad_requests == 0,
            "{start}{survey}"
        );
    }
}

#[test]
fn lists_reach_20_to_26_and_the_reader_s() {
    let survey = survey(lists(1).take(2_000).flatten());
    for number in 20..=26 {
        assert!(times(&survey, number) >= 100, "{number}: {survey}");
    }
    for number in (2..=5).chain(7..=12) {
        assert!(times(&survey, number) >= 5, "{number}: {survey}");
    }
    assert_eq!(times(&survey, 1), 0);
}

#[test]
fn desk_values_reach_20_to_25_and_the_reader_s() {
    let survey = survey_desks(1, Plan::default().desks).expect("desk and ledger agree");
    let reached: Vec<u32> = survey.refusals.keys().copied().collect();
    assert_eq!(reached, (2..=5).chain(7..=12).chain(20..=25).chain(40..=43).collect::<Vec<u32>>());
    for number in 20..=25 {
        assert!(times(&survey, number) >= 1_000, "{number}: {survey}");
    }
    assert!(survey.accepted >= 20_000, "{survey}");
}

#[test]
fn desk_values_are_sound_where_no_rule_is_broken() {
    let mut broken = 0;
    for case in desks(2).take(1_000) {
        assert_eq!(case.desk.is_sound(), case.refused != Some(25), "{:?}", case.desk);
        broken += usize::from(case.refused == Some(25));
    }
    assert!(broken >= 100);
}

#[test]
fn desk_and_ledger_agree_on_desk_values() {
    for seed in 2..6 {
        let counts = compare_desks(seed, 500).expect("no difference");
        assert!(counts.starts_with("same answers: desk and ledger, 500 desk values of "), "{counts}");
    }
}

/// The takes of lists of report requests: the count that was set just before, what it was set to, the input and the answer.
fn takes_after_a_count(lists: impl Iterator<Item = Vec<String>>) -> Vec<(u32, u32, String, String)> {
    let mut takes = Vec::new();
    for list in lists {
        let mut console = Console::default();
        let mut set = None;
        for line in list {
            let answer = console.answer(line.as_bytes());
            let words: Vec<&str> = line.split(' ').collect();
            match (words.as_slice(), set.take()) {
                (["count", which, number], _) => set = Some((which.parse().expect("a count"), number.parse().expect("a number"))),
                (["take", octets], Some((which, number))) => takes.push((which, number, octets.to_string(), answer)),
                _ => (),
            }
        }
    }
    takes
}

#[test]
fn reports_reach_15_and_80_and_every_count_on_both_sides_of_its_limit() {
    let survey = survey(reports(1).take(3_000).flatten());
    assert_eq!(survey.refusals.keys().copied().collect::<Vec<u32>>(), [15, 80]);
    assert!(times(&survey, 15) >= 1_000 && times(&survey, 80) >= 1_000 && survey.bad_requests == 0, "{survey}");
    let takes = takes_after_a_count(reports(1).take(3_000));
    for which in (0..=4).chain(101..=105).chain(107..=112).chain(140..=143).chain(200..=238) {
        let sides = |answer: &str, past: u64| {
            takes.iter().any(|(of, number, octets, given)| {
                let input = octets_of(octets.as_bytes()).expect("octets");
                let more = moved(&input).into_iter().find(|(count, _)| which_of(*count) == which).map_or(0, |(_, more)| more);
                *of == which && given == answer && u64::from(*number) + u64::from(more) == u64::from(u32::MAX) + past
            })
        };
        assert!(sides("ok 0", 0) && sides("no 80 0", 1), "count {which}");
    }
}

#[test]
fn version_3_reaches_every_refusal_both_ways() {
    let reader = (1..=5).chain([8, 9, 15, 16]).chain(40..=43);
    let mut numbers_in: Vec<u32> = reader.clone().chain([50]).collect();
    let mut numbers_out: Vec<u32> = reader.chain([7, 10, 11, 51]).collect();
    numbers_in.sort();
    numbers_out.sort();
    for (start, numbers, number) in [("v3-in ", numbers_in, 50), ("v3-out ", numbers_out, 51)] {
        let survey = survey(version3(1).take(40_000).filter(|line| line.starts_with(start)));
        assert_eq!(survey.refusals.keys().copied().collect::<Vec<u32>>(), numbers, "{start}");
        assert!(times(&survey, number) >= 1_000 && times(&survey, 16) >= 50, "{start}{survey}");
        assert!(survey.accepted >= 5_000 && survey.bad_requests <= 12, "{start}{survey}");
    }
    let asked = last_words(version3(1).take(Plan::default().version3));
    assert!(version3::by_hand().iter().all(|(_, input)| asked.contains(&word_of(input))));
}

#[test]
fn merges_reach_every_refusal_of_planner_and_checker() {
    for (start, last) in [("plan ", 14), ("check-plan ", 73)] {
        let survey = survey(merges(1).take(40_000).filter(|line| line.starts_with(start)));
        let reached: Vec<u32> = survey.refusals.keys().copied().collect();
        assert!([1, 2, 3, 4, 7, 9, 11, last, 70, 71, 72].iter().all(|number| reached.contains(number)), "{start}{survey}");
        assert!(reached.iter().all(|number| *number < 44 || (70..=73).contains(number)), "{start}{survey}");
        for number in [last, 70, 71, 72] {
            assert!(times(&survey, number) >= 500, "{start}{number}: {survey}");
        }
        assert!(survey.accepted >= 2_000 && survey.bad_requests <= 100, "{start}{survey}");
    }
    let asked = last_words(merges(1).take(Plan::default().merges));
    let of = |(edits, plan): &merges::Asked| match plan {
        Some(numbers) => check_plan_line(edits, numbers),
        None => plan_line(0, edits),
    };
    let words = last_words(merges::by_hand().iter().map(of));
    assert!(words.is_subset(&asked));
}

#[test]
fn watches_reach_every_refusal_of_chunk_and_end() {
    let lists: Vec<Vec<String>> = watches(1).take(Plan::default().watches).collect();
    assert!(watches::by_hand().len() < lists.len());
    let survey = survey(lists.iter().flatten().cloned());
    let reached: Vec<u32> = survey.refusals.keys().copied().collect();
    assert_eq!(reached, (1..=5).chain(7..=12).chain(40..=43).chain([45, 46]).collect::<Vec<u32>>(), "{survey}");
    assert!(times(&survey, 45) >= 50 && times(&survey, 46) >= 300 && survey.bad_requests <= 24, "{survey}");
    for list in &lists[1..] {
        assert!(list[0].starts_with("begin "));
        assert!(list[1..].iter().all(|line| !line.starts_with("begin ")));
        let of_full_length = list[0] == "begin 16384";
        let chunks = list.iter().filter(|line| line.starts_with("chunk ")).count();
        let ends = list.iter().filter(|line| *line == "end").count();
        let buffers = list.iter().filter(|line| *line == "buffer 0 16384").count();
        assert!(ends >= chunks || list.len() == 5, "{list:?}");
        assert!(!of_full_length || buffers >= chunks, "{list:?}");
    }
}

#[test]
fn a_usual_run_takes_over_20_000_judgements_after_those_by_hand() {
    assert!(reports::by_hand().len() < Plan::default().reports);
    let of_the_gate = reports(1).take(9_000).flatten().filter(|line| line.starts_with("take ")).count();
    assert!(of_the_gate >= 20_000, "{of_the_gate}");
}

/// Every number of the papers' tables, and no other.
#[test]
fn together_they_reach_every_refusal_of_the_paper() {
    let plan = Plan::default();
    let requests = survey(steps(plan).map(|step| step.line));
    let desk_values = survey_desks(plan.seed, plan.desks).expect("desk and ledger agree");
    let mut reached = requests.refusals;
    reached.extend(desk_values.refusals);
    let all = (1..=5).chain(7..=16).chain(20..=26).chain([30, 31]).chain(40..=46).chain([50, 51]).chain(70..=73).chain([80]);
    assert_eq!(reached.into_keys().collect::<Vec<u32>>(), all.collect::<Vec<u32>>());
}

/// The octets of request lines, the last word of each.
fn last_words(lines: impl Iterator<Item = String>) -> HashSet<String> {
    lines.map(|line| line.rsplit(' ').next().expect("a word").to_string()).collect()
}

#[test]
fn a_usual_run_has_everything_made_by_hand() {
    let plan = Plan::default();
    let read = last_words(readers(1).take(plan.readers));
    assert!(hand::inputs().iter().all(|input| read.contains(&word_of(input))));
    let dated = last_words(dates(1).take(plan.dates));
    assert!(dates::by_hand().iter().all(|line| dated.contains(&word_of(&m_with(line.as_bytes())))));
    assert!(dates::offsets().iter().all(|value| dated.contains(&word_of(value.as_bytes()))));
    let folded = last_words(folds(1).take(plan.folds));
    assert!(folds::by_hand().iter().all(|input| folded.contains(&word_of(input))));
    let texts = last_words(texts(1).take(plan.texts));
    assert!(texts::by_hand().iter().all(|(_, text)| texts.contains(&word_of(text))));
    let labelled = last_words(labels(1).take(plan.labels));
    assert!(labels::by_hand().iter().all(|(_, _, octets)| labelled.contains(&word_of(octets))));
    assert!(lists::by_hand().len() < plan.lists);
}

#[test]
fn every_list_begins_with_its_desk() {
    for list in lists(3).take(500) {
        assert!(list[0].starts_with("desk "));
        assert!(list[1..].iter().all(|line| !line.starts_with("desk ")));
    }
}

#[test]
fn the_same_seed_gives_the_same_lines_and_another_gives_others() {
    let plan =
        Plan { readers: 60_000, folds: 4_000, texts: 70_000, labels: 30_000, lists: 60, version3: 8_000, merges: 8_000, watches: 200, ..Plan::default() };
    assert!(steps(plan).eq(steps(plan)));
    assert!(!steps(plan).eq(steps(Plan { seed: 2, ..plan })));
}

#[test]
fn no_line_is_longer_than_the_console_takes() {
    let plan = Plan { protocol: 0, ..Plan::default() };
    assert!(steps(plan).all(|step| step.line.len() <= 140_000));
}

#[test]
fn a_family_of_0_is_left_out() {
    let plan = Plan {
        protocol: 0,
        readers: 10,
        line_faults: 0,
        names: 0,
        dates: 0,
        octets: 0,
        editions: 0,
        alternatives: 0,
        folds: 0,
        texts: 5,
        labels: 0,
        lists: 0,
        desks: 0,
        reports: 0,
        version3: 0,
        merges: 0,
        watches: 0,
        seed: 1,
    };
    let families: Vec<&str> = steps(plan).map(|step| step.family).collect();
    assert_eq!(families, [["readers"; 10].as_slice(), &["texts"; 5]].concat());
}

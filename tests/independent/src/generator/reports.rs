// Knows lists of report requests: each begins with `report`, and has counts set, judgements taken and rows printed.

use crate::dice::Dice;
use crate::examples::{m_with, CARD_M};
use crate::generator::{faults, grammar, input_by_chance, source_inputs};
use crate::hex::word_of;
use crate::properties::ROWS;
use crate::report::{moved, which_of, Count, Report};
use crate::requests::MOST_ROOM;

/// Lists without end: those by hand, then by chance.
pub fn reports(seed: u64) -> impl Iterator<Item = Vec<String>> {
    let sources = source_inputs();
    let mut dice = Dice::new(seed);
    let by_chance = std::iter::repeat_with(move || list_by_chance(&mut dice, &sources));
    by_hand().into_iter().chain(by_chance)
}

/// The paper's card; the example of READINGS-02; and for each count an input that moves it, with the count at its limit and on both sides of it.
pub fn by_hand() -> Vec<Vec<String>> {
    let with_unknown = m_with(b"X-A:1");
    let without_equals = m_with(b"BDAY;1");
    let long = vec![b'a'; 16_385];
    let readings = [CARD_M, &with_unknown, b"", &long, &without_equals];
    let mut lists = vec![morning(&[CARD_M]), morning(&readings), morning(&[])];
    for input in inputs_by_hand() {
        for (count, more) in moved(&input) {
            lists.push(near_the_limit(count, more, &input));
        }
    }
    lists
}

/// Inputs that move every count: a card with a line of each property, and one input for each refusal.
pub fn inputs_by_hand() -> Vec<Vec<u8>> {
    let group = b"KIND:group\r\nMEMBER:a:b".as_slice();
    let values = ["x", "a:b", ";;;;", ";;;;;;", "1;a:b", "M", "19850412", "19961022T140000Z", "+0100"];
    let mut inputs = vec![CARD_M.to_vec(), m_with(b"X-A:1\r\nX-B:2"), m_with(group)];
    for row in ROWS {
        let cards = values.iter().map(|value| m_with(format!("{}:{value}", row.name).as_bytes()));
        inputs.extend(cards.into_iter().find(|card| moved(card).contains(&(Count::Property(row.number), 1))));
    }
    let faulty: [&[u8]; 9] = [b"N:;", b"N:;;;;\r\nN:;;;;", b"BEGIN:VCARD", b"a.END:VCARD", b"MEMBER:a:b", b"NOTE:\x07", b"", b"X;A", b"X;A=\""];
    inputs.extend(faulty.map(m_with));
    inputs.extend([m_with(b"X"), vec![b'a'; 16_385], Vec::new(), b"\r".to_vec(), b"a".to_vec()]);
    inputs.push(b"BEGIN:VCARD\r\nVERSION:4.0\r\nEND:VCARD\r\n".to_vec());
    inputs
}

/// These judgements on a fresh report, the rows printed after each.
fn morning(inputs: &[&[u8]]) -> Vec<String> {
    let mut list = vec!["report".to_string(), print(MOST_ROOM)];
    for input in inputs {
        list.extend([take(input), print(MOST_ROOM)]);
    }
    list
}

/// One count so near its limit that the input's judgement is counted, just, and so near that it is not; then the input again.
fn near_the_limit(count: Count, more: u32, input: &[u8]) -> Vec<String> {
    let mut list = vec!["report".to_string()];
    for number in [u32::MAX - more, u32::MAX - more + 1, u32::MAX] {
        list.extend([set(count, number), take(input), print(MOST_ROOM), take(input), print(MOST_ROOM)]);
    }
    list
}

/// A morning by chance: counts set, near their limits or not, judgements, and rows printed into rooms of every size.
fn list_by_chance(dice: &mut Dice, sources: &[Vec<u8>]) -> Vec<String> {
    let mut list = vec!["report".to_string()];
    let mut report = Report::default();
    for _ in 0..dice.between(1, 6) {
        let input = input(dice, sources);
        if dice.once_in(2) {
            let moved = moved(&input);
            let (count, more) = *dice.pick(&moved);
            let number = near(dice, more);
            report.set(count, number);
            list.push(set(count, number));
        }
        list.push(take(&input));
        report = report.take(&input).1;
        if dice.once_in(2) {
            list.push(print(room(dice, report.text().len())));
        }
    }
    list.push(print(MOST_ROOM));
    list
}

/// An input as the readers have them, short ones more often.
fn input(dice: &mut Dice, sources: &[Vec<u8>]) -> Vec<u8> {
    match dice.below(8) {
        0..=2 => grammar::input(dice),
        3 => faults::input(dice),
        4 => dice.pick(sources).clone(),
        5 => CARD_M.to_vec(),
        _ => input_by_chance(dice, sources),
    }
}

/// A count to which so many can be added, just or just not, or any count.
fn near(dice: &mut Dice, more: u32) -> u32 {
    match dice.below(8) {
        0 | 1 => u32::MAX - more,
        2 | 3 => u32::MAX - more + 1,
        4 => u32::MAX,
        5 => u32::MAX - more - 1,
        6 => 0,
        _ => dice.roll() as u32 >> dice.below(32),
    }
}

/// Room for rows of so many octets: one short, exact, one over, none or some.
fn room(dice: &mut Dice, needed: usize) -> usize {
    match dice.below(6) {
        0 => needed,
        1 => needed - 1,
        2 => needed + 1,
        3 => 0,
        4 => dice.below(needed + 40),
        _ => MOST_ROOM,
    }
}

fn take(input: &[u8]) -> String {
    format!("take {}", word_of(input))
}

fn print(room: usize) -> String {
    format!("print {room}")
}

fn set(count: Count, number: u32) -> String {
    format!("count {} {number}", which_of(count))
}

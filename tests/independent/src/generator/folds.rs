// Knows the fold requests: lines near every cut, folded forms near 16,384 octets, and chance.

use crate::dice::Dice;
use crate::examples::{folder_examples, m_with};
use crate::generator::grammar::{book, character, folded, push};
use crate::generator::rooms::{fold_in_request, fold_request};
use crate::generator::{input_by_chance, mixed, requests_of, source_inputs};
use crate::refusal::MOST_OCTETS;
use crate::requests::room_line;

/// Characters of one to four octets.
const CHARACTERS: [&str; 4] = ["x", "é", "€", "🚋"];

/// Octets of logical lines at whose end a cut may or may not fall.
const LENGTHS: [usize; 13] = [74, 75, 76, 77, 148, 149, 150, 151, 222, 223, 224, 225, 226];

/// Octets of a logical line before its first, second and third cut, if all are ASCII.
const CUTS: [usize; 3] = [75, 149, 223];

/// Fold requests without end: the paper's examples, large forms, then lines near the cuts and chance.
pub fn folds(seed: u64) -> impl Iterator<Item = String> {
    let sources = source_inputs();
    let inputs = mixed(seed, by_hand(), 1, move |dice| fold_input_by_chance(dice, &sources));
    let requests = inputs.enumerate().flat_map(|(index, input)| [fold_request(&input, index), fold_in_request(&input, index)]);
    requests_of(folder_examples()).into_iter().chain(large_forms()).chain(requests)
}

/// All inputs by hand.
pub fn by_hand() -> Vec<Vec<u8>> {
    [source_inputs(), near_cuts(), of_wide_characters(), in_parameters()].concat()
}

/// A NOTE with this value in card M, three times: the rooms go round with the turn.
fn three_times(inputs: &mut Vec<Vec<u8>>, value: &str) {
    let input = m_with(format!("NOTE:{value}").as_bytes());
    inputs.extend([input.clone(), input.clone(), input]);
}

/// Lines of each length with one character of one to four octets around each cut.
fn near_cuts() -> Vec<Vec<u8>> {
    let mut inputs = Vec::new();
    for length in LENGTHS {
        for character in CHARACTERS {
            for place in CUTS.into_iter().flat_map(|cut| cut - 5..=cut + 1) {
                if place + character.len() <= length {
                    let before = "a".repeat(place - 5);
                    let after = "b".repeat(length - place - character.len());
                    three_times(&mut inputs, &format!("{before}{character}{after}"));
                }
            }
        }
    }
    inputs
}

/// Lines of wide characters only, after no to three ASCII octets, so that cuts fall anywhere.
fn of_wide_characters() -> Vec<Vec<u8>> {
    let mut inputs = Vec::new();
    for character in &CHARACTERS[1..] {
        for shift in 0..4 {
            for length in [70, 74, 78, 140, 144, 150, 216, 220, 228] {
                let value = "a".repeat(shift) + &character.repeat(length / character.len());
                three_times(&mut inputs, &value);
            }
        }
    }
    inputs
}

/// Cuts that fall into group, name, parameters and colon.
fn in_parameters() -> Vec<Vec<u8>> {
    let mut inputs = Vec::new();
    for length in 60..80 {
        let filler = "a".repeat(length);
        for line in [
            format!("{filler}.NOTE;x=y:z"),
            format!("X-{filler};x=y:z"),
            format!("NOTE;x=\"{filler}é\":z"),
            format!("NOTE;x={filler},\"€\":z"),
        ] {
            inputs.push(m_with(line.as_bytes()));
        }
    }
    inputs
}

/// No octets; folded forms of 16,383 to 16,386 octets with rooms around them; far larger ones.
fn large_forms() -> Vec<String> {
    let mut requests = vec![room_line("fold", 0, b""), room_line("fold", 5, b"")];
    for size in MOST_OCTETS - 1..=MOST_OCTETS + 2 {
        let input = input_with_form_of(size);
        for room in [0, size - 1, size, size + 1, MOST_OCTETS, 20_000] {
            requests.push(room_line("fold", room, &input));
        }
    }
    for length in [16_000, 16_334, 16_335] {
        let input = m_with(format!("NOTE:{}", "a".repeat(length)).as_bytes());
        requests.push(room_line("fold", 20_000, &input));
        requests.push(room_line("fold", 0, &input));
    }
    requests
}

/// Card M with two notes whose folded form has this size.
fn input_with_form_of(size: usize) -> Vec<u8> {
    let lengths = (size - 1000..size - 600).flat_map(|long| (0..8).map(move |short| (long, short)));
    let mut inputs = lengths.map(|(long, short)| {
        m_with(format!("NOTE:{}\r\nNOTE:{}", "a".repeat(short), "b".repeat(long)).as_bytes())
    });
    inputs.find(|input| form_length(input) == size).expect("a form of this size")
}

/// The length of the folded form of unfolded ASCII lines, counted: 3 octets more for each cut.
fn form_length(input: &[u8]) -> usize {
    let lines = input.split_inclusive(|&octet| octet == b'\n');
    lines.map(|line| line.len() + 3 * (line.len().saturating_sub(4) / 74)).sum()
}

/// Well-formed inputs with long lines, and a few of every other sort.
fn fold_input_by_chance(dice: &mut Dice, sources: &[Vec<u8>]) -> Vec<u8> {
    if dice.once_in(4) {
        return input_by_chance(dice, sources);
    }
    let mut lines = book(dice);
    let mut note = b"X-NOTE:".to_vec();
    for _ in 0..dice.between(60, 260) {
        match dice.once_in(3) {
            true => push(&mut note, character(dice)),
            false => note.push(b'a'),
        }
    }
    lines.insert(2, note);
    folded(dice, &lines)
}

#[cfg(test)]
mod tests {
    use super::input_with_form_of;
    use crate::folder::fold;
    use crate::refusal::Refusal;

    #[test]
    fn large_forms_have_the_size_asked_for() {
        let fold_of = |size| fold(&input_with_form_of(size), &mut [0; 20_000]);
        assert_eq!(fold_of(16_383), Ok(16_383));
        assert_eq!(fold_of(16_384), Ok(16_384));
        assert_eq!(fold_of(16_385), Err(Refusal { number: 16, place: 16_384 }));
    }
}

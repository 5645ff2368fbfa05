// Knows the families of request lines that every comparison uses; the same seed gives the same lines.

pub mod alternatives;
pub mod dates;
pub mod desks;
pub mod editions;
pub mod faults;
pub mod folds;
pub mod grammar;
pub mod hand;
pub mod labels;
pub mod line_faults;
pub mod lists;
pub mod merges;
pub mod mutation;
pub mod names;
pub mod octets;
pub mod protocol;
pub mod reports;
pub mod rooms;
pub mod texts;
pub mod version3;
pub mod watches;

use crate::dice::Dice;
use crate::examples::{reader_examples, source_examples, PaperExample};
use crate::requests::judge_line;

/// Reader requests without end: the paper's examples, then inputs by hand, of the sources and by chance.
/// Each input is judged, and read with rooms that change from input to input.
pub fn readers(seed: u64) -> impl Iterator<Item = String> {
    let sources = source_inputs();
    let by_hand = [sources.clone(), hand::inputs()].concat();
    let inputs = mixed(seed, by_hand, 1, move |dice| input_by_chance(dice, &sources));
    let requests = inputs
        .enumerate()
        .flat_map(|(index, input)| [judge_line(&input), rooms::read_request(&input, index)]);
    requests_of(reader_examples()).into_iter().chain(requests)
}

/// Those made by hand, in an order by chance, with one made by chance after each so many of them; in
/// the end only by chance. So a short run is a fair sample, and a long one has all made by hand.
pub fn mixed<T>(
    seed: u64,
    mut by_hand: Vec<T>,
    hand_share: usize,
    mut by_chance: impl FnMut(&mut Dice) -> T,
) -> impl Iterator<Item = T> {
    let mut dice = Dice::new(seed);
    for last in (1..by_hand.len()).rev() {
        by_hand.swap(last, dice.below(last + 1));
    }
    (0..).map(move |turn| {
        let is_by_hand = turn % (hand_share + 1) != hand_share;
        let next = if is_by_hand { by_hand.pop() } else { None };
        next.unwrap_or_else(|| by_chance(&mut dice))
    })
}

/// The inputs of all examples of the sources.
pub fn source_inputs() -> Vec<Vec<u8>> {
    source_examples().into_iter().map(|example| example.input).collect()
}

/// The requests of document 01's examples, without the answers.
pub fn requests_of(examples: Vec<PaperExample>) -> Vec<String> {
    let steps = examples.into_iter().flat_map(|example| example.steps);
    steps.map(|(request, _)| request).collect()
}

/// An input by grammar, with one rule broken, or mutated.
pub fn input_by_chance(dice: &mut Dice, sources: &[Vec<u8>]) -> Vec<u8> {
    match dice.below(20) {
        0..=6 => grammar::input(dice),
        7..=11 => faults::input(dice),
        12..=16 => mutation::mutated(dice, grammar::input),
        17 => mutation::mutated(dice, faults::input),
        _ => mutation::mutated(dice, |dice| dice.pick(sources).clone()),
    }
}

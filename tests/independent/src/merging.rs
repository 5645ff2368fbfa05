// Knows two edits of one card (document 02, No. 11): which lines share a global value, which plans pass, the planner and the checker.

use std::collections::BTreeSet;

use crate::card::AcceptedLine;
use crate::properties::{row_of, END};
use crate::reader::{accepted_lines, copy_of};
use crate::refusal::{refuse, Refusal};

const UID: u32 = 31;
const CLIENTPIDMAP: u32 = 32;

/// The most entries of a row, CLIENTPIDMAP lines of a card, and the highest number of a PID or CLIENTPIDMAP.
pub const MOST_SOURCES: usize = 16;
pub const HIGHEST_NUMBER: u64 = 65_535;

/// An entry of the source map that the host lends: a number, and the URI's place and length in the copy.
#[derive(Clone, Copy, Debug, PartialEq, Eq)]
pub struct Source {
    pub number: u32,
    pub place: u32,
    pub length: u32,
}

/// Two edits of one card with their source maps.
#[derive(Clone, Debug, PartialEq, Eq)]
pub struct Edits {
    pub cards: [Vec<u8>; 2],
    pub rows: [Vec<Source>; 2],
}

/// A pair of line numbers, the first card's first.
pub type Pair = (usize, usize);

/// Writes the demanded pairs to the room; answers their count.
pub fn plan(edits: &Edits, room: &mut [u32]) -> Result<usize, Refusal> {
    let [first, second] = ready(edits)?;
    let pairs = demanded(&first, &second);
    if !any_plan_passes(&first, &second) {
        return refuse(70, 0);
    }
    let numbers: Vec<u32> = pairs.iter().flat_map(|&(one, other)| [one as u32, other as u32]).collect();
    if room.len() < numbers.len() {
        return refuse(14, numbers.len());
    }
    room[..numbers.len()].copy_from_slice(&numbers);
    Ok(pairs.len())
}

/// Answers the count of pairs of a plan that passes.
pub fn check(edits: &Edits, plan: &[u32]) -> Result<usize, Refusal> {
    let [first, second] = ready(edits)?;
    if passes(&first, &second, plan) {
        return Ok(plan.len() / 2);
    }
    refuse(if any_plan_passes(&first, &second) { 73 } else { 70 }, 0)
}

/// A card's lines with the numbers that they have for a merge.
#[derive(Clone, Debug)]
pub struct Side {
    lines: Vec<AcceptedLine>,
    pids: Vec<Vec<(u64, u64)>>,
    sources: Vec<(u64, Vec<u8>)>,
    row: Vec<(u64, usize, usize)>,
}

/// Both sides after the refusals that no plan plays a part in: each card's own, 71 of either, 72 of either.
fn ready(edits: &Edits) -> Result<[Side; 2], Refusal> {
    let sides = [side_of(&edits.cards[0])?, side_of(&edits.cards[1])?];
    if sides.iter().zip(&edits.rows).any(|(side, row)| side.is_over_a_limit() || row.len() > MOST_SOURCES) {
        return refuse(71, 0);
    }
    if sides.iter().zip(&edits.rows).any(|(side, row)| !side.has_row(row)) {
        return refuse(72, 0);
    }
    Ok(sides)
}

/// What a card that the reader accepts has for a merge.
pub fn side_of(card: &[u8]) -> Result<Side, Refusal> {
    let lines = accepted_lines(card)?;
    let copy = copy_of(&lines);
    let mut side =
        Side { pids: lines.iter().map(pids_of).collect(), sources: Vec::new(), row: Vec::new(), lines };
    let mut start = 0;
    for line in &side.lines {
        if line.property == CLIENTPIDMAP {
            let value = &line.parts.value;
            let digits = value.iter().position(|&octet| octet == b';').expect("kind 8 has a semicolon");
            let (number, length) = (number_of(&value[..digits]), value.len() - digits - 1);
            let place = start + line.parts.value_start + digits + 1;
            side.row.push((number, place, length));
            side.sources.push((number, copy[place..place + length].to_vec()));
        }
        start += line.octets.len() + 2;
    }
    Ok(side)
}

/// The row that a host would lend for a card that the reader accepts; a number that is no 32-bit one becomes the highest.
pub fn row_of_card(card: &[u8]) -> Vec<Source> {
    let fitting = |number: u64| u32::try_from(number).unwrap_or(u32::MAX);
    let source = |&(number, place, length): &(u64, usize, usize)| Source {
        number: fitting(number),
        place: fitting(place as u64),
        length: fitting(length as u64),
    };
    side_of(card).map_or(Vec::new(), |side| side.row.iter().map(source).collect())
}

/// The two numbers of each value of each PID parameter that is digits, dot, digits.
fn pids_of(line: &AcceptedLine) -> Vec<(u64, u64)> {
    let parameters =
        line.parts.parameters.iter().filter(|parameter| parameter.name.eq_ignore_ascii_case(b"PID"));
    parameters.flat_map(|parameter| &parameter.values).filter_map(|value| pid_of(value)).collect()
}

/// The two numbers of digits, dot, digits.
fn pid_of(value: &[u8]) -> Option<(u64, u64)> {
    let parts: Vec<&[u8]> = value.split(|&octet| octet == b'.').collect();
    let are_digits = |part: &&[u8]| !part.is_empty() && part.iter().all(u8::is_ascii_digit);
    match parts.as_slice() {
        [first, source] if parts.iter().all(are_digits) => Some((number_of(first), number_of(source))),
        _ => None,
    }
}

/// The number of these digits; one past 64 bits, far over the limit, is the highest of them.
fn number_of(digits: &[u8]) -> u64 {
    digits
        .iter()
        .fold(0u64, |number, digit| number.saturating_mul(10).saturating_add(u64::from(digit - b'0')))
}

impl Side {
    /// How many lines the card has.
    pub fn count(&self) -> usize {
        self.lines.len()
    }

    /// Several cards, too many CLIENTPIDMAP lines, or too high a number in a PID or a CLIENTPIDMAP.
    fn is_over_a_limit(&self) -> bool {
        let pids = self.pids.iter().flatten().flat_map(|&(first, source)| [first, source]);
        let mut numbers = pids.chain(self.row.iter().map(|&(number, _, _)| number));
        self.lines.iter().filter(|line| line.property == END).count() > 1
            || self.row.len() > MOST_SOURCES
            || numbers.any(|number| number > HIGHEST_NUMBER)
    }

    /// Whether the row is exactly the card's CLIENTPIDMAP lines in order.
    fn has_row(&self, row: &[Source]) -> bool {
        let lent = row
            .iter()
            .map(|source| (u64::from(source.number), source.place as usize, source.length as usize));
        lent.eq(self.row.iter().copied())
    }

    /// The URI of the first entry of a source number.
    fn uri_of(&self, source: u64) -> Option<&Vec<u8>> {
        self.sources.iter().find(|(number, _)| *number == source).map(|(_, uri)| uri)
    }

    /// The global values of each line: a first number and a URI each.
    fn global_values(&self) -> Vec<Vec<(u64, &Vec<u8>)>> {
        let value = |&(first, source): &(u64, u64)| Some((first, self.uri_of(source)?));
        self.pids.iter().map(|pids| pids.iter().filter_map(value).collect()).collect()
    }

    /// The value of the first UID line.
    fn uid(&self) -> Option<&Vec<u8>> {
        self.lines.iter().find(|line| line.property == UID).map(|line| &line.parts.value)
    }

    /// How many lines of this property the card has.
    fn lines_of(&self, property: u32) -> usize {
        self.lines.iter().filter(|line| line.property == property).count()
    }
}

/// Whether two lines have one property: the same number, and the same name without case where it is 0.
fn have_one_property(one: &AcceptedLine, other: &AcceptedLine) -> bool {
    one.property == other.property
        && (one.property != 0 || one.parts.name.eq_ignore_ascii_case(&other.parts.name))
}

/// The pairs that every plan must have: lines of one property that share a global value, and the lines of a *1 property with one on each side.
pub fn demanded(first: &Side, second: &Side) -> BTreeSet<Pair> {
    let (ours, theirs) = (first.global_values(), second.global_values());
    let is_alone = |line: &AcceptedLine| {
        let is_one_in = |side: &Side| side.lines_of(line.property) == 1;
        row_of(&line.parts.name).single && is_one_in(first) && is_one_in(second)
    };
    let mut pairs = BTreeSet::new();
    for (one, line) in first.lines.iter().enumerate() {
        let is_alone = is_alone(line);
        for (other, partner) in second.lines.iter().enumerate() {
            let share_a_value = ours[one].iter().any(|value| theirs[other].contains(value));
            if (is_alone || share_a_value) && have_one_property(line, partner) {
                pairs.insert((one, other));
            }
        }
    }
    pairs
}

/// Whether the first UID values exist and are equal.
fn have_one_uid(first: &Side, second: &Side) -> bool {
    first.uid().is_some() && first.uid() == second.uid()
}

/// Whether no line of either side stands in two of the pairs.
fn stand_once(pairs: &[Pair]) -> bool {
    let ones: BTreeSet<usize> = pairs.iter().map(|pair| pair.0).collect();
    let others: BTreeSet<usize> = pairs.iter().map(|pair| pair.1).collect();
    ones.len() == pairs.len() && others.len() == pairs.len()
}

/// Whether any plan would pass: the demanded pairs alone do, if any does.
pub fn any_plan_passes(first: &Side, second: &Side) -> bool {
    let pairs: Vec<Pair> = demanded(first, second).into_iter().collect();
    have_one_uid(first, second) && stand_once(&pairs)
}

/// Whether a plan passes, clause by clause.
pub fn passes(first: &Side, second: &Side, plan: &[u32]) -> bool {
    let pairs: Vec<Pair> = plan.chunks_exact(2).map(|pair| (pair[0] as usize, pair[1] as usize)).collect();
    let are_lines = |&(one, other): &Pair| one < first.count() && other < second.count();
    let have_one = |&(one, other): &Pair| have_one_property(&first.lines[one], &second.lines[other]);
    plan.len() % 2 == 0
        && have_one_uid(first, second)
        && pairs.iter().all(are_lines)
        && stand_once(&pairs)
        && pairs.iter().all(have_one)
        && demanded(first, second).iter().all(|pair| pairs.contains(pair))
}

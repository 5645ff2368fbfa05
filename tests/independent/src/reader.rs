// Knows the reader: the checks of a whole input, the verdict, the copy and the records.

use crate::card::{AcceptedLine, Card};
use crate::lines::{first_lone_line_end, logical_lines};
use crate::properties::{Edition, END};
use crate::refusal::{refuse, Refusal, MOST_OCTETS};

/// What an accepting reader answers.
#[derive(Clone, Copy, Debug, PartialEq, Eq)]
pub struct Counts {
    pub cards: usize,
    pub lines: usize,
}

/// Numbers in the record of one logical line.
pub const RECORD_NUMBERS: usize = 8;

/// The verdict on an input in edition one: refusals 1 to 12, or the counts.
pub fn judge(input: &[u8]) -> Result<Counts, Refusal> {
    judge_in(Edition::First, input)
}

/// The verdict on an input in an edition.
pub fn judge_in(edition: Edition, input: &[u8]) -> Result<Counts, Refusal> {
    Ok(counts_of(&accepted_lines_in(edition, input)?))
}

/// The verdict with 13 and 14; writes copy and records, and nothing on any refusal.
pub fn read(input: &[u8], copy_room: &mut [u8], record_room: &mut [u32]) -> Result<Counts, Refusal> {
    read_in(Edition::First, input, copy_room, record_room)
}

/// The same in an edition.
pub fn read_in(
    edition: Edition,
    input: &[u8],
    copy_room: &mut [u8],
    record_room: &mut [u32],
) -> Result<Counts, Refusal> {
    let lines = accepted_lines_in(edition, input)?;
    let copy = copy_of(&lines);
    let records = records_of(&lines);
    if copy_room.len() < copy.len() {
        return refuse(13, copy.len());
    }
    if record_room.len() < records.len() {
        return refuse(14, records.len());
    }
    copy_room[..copy.len()].copy_from_slice(&copy);
    record_room[..records.len()].copy_from_slice(&records);
    Ok(counts_of(&lines))
}

/// The logical lines of an accepted input, or the first refusal of 1 to 12.
pub fn accepted_lines(input: &[u8]) -> Result<Vec<AcceptedLine>, Refusal> {
    accepted_lines_in(Edition::First, input)
}

/// The same in an edition.
pub fn accepted_lines_in(edition: Edition, input: &[u8]) -> Result<Vec<AcceptedLine>, Refusal> {
    check_whole(input)?;
    let mut card = Card::of(edition);
    let mut accepted = Vec::new();
    for line in logical_lines(input) {
        accepted.push(card.take(line)?);
    }
    if card.is_open() {
        return refuse(9, input.len());
    }
    Ok(accepted)
}

/// Checks 1, 2, 3, 4, each over the whole input as given.
pub fn check_whole(input: &[u8]) -> Result<(), Refusal> {
    if input.len() > MOST_OCTETS {
        return refuse(1, MOST_OCTETS);
    }
    if input.is_empty() {
        return refuse(2, 0);
    }
    if let Some(place) = first_lone_line_end(input) {
        return refuse(3, place);
    }
    if !input.ends_with(b"\r\n") {
        return refuse(4, input.len());
    }
    Ok(())
}

/// The counts of cards and lines: each card has one END.
fn counts_of(lines: &[AcceptedLine]) -> Counts {
    let cards = lines.iter().filter(|line| line.property == END).count();
    Counts { cards, lines: lines.len() }
}

/// All logical lines in order, each ended by CR LF.
pub fn copy_of(lines: &[AcceptedLine]) -> Vec<u8> {
    let mut copy = Vec::new();
    for line in lines {
        copy.extend(&line.octets);
        copy.extend(b"\r\n");
    }
    copy
}

/// One record a logical line, in order.
pub fn records_of(lines: &[AcceptedLine]) -> Vec<u32> {
    let mut records = Vec::new();
    let mut start = 0;
    for line in lines {
        records.extend(record_of(line, start));
        start += line.octets.len() + 2;
    }
    records
}

/// The record of a line that starts here in the copy.
fn record_of(line: &AcceptedLine, start: usize) -> [u32; RECORD_NUMBERS] {
    let number = |count: usize| u32::try_from(count).expect("an input has at most 16,384 octets");
    [
        line.property,
        number(start),
        number(line.octets.len()),
        number(line.parts.group.as_ref().map_or(0, Vec::len)),
        number(line.parts.name.len()),
        number(line.parts.parameters.len()),
        number(start + line.parts.value_start),
        line.kind,
    ]
}

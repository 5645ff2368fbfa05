// Knows which rooms to ask for: none, one short, exact, one over, and large.

use crate::folder::{fold, fold_by, fold_in, STYLES};
use crate::properties::Edition;
use crate::reader::{accepted_lines_in, copy_of, records_of};
use crate::refusal::{Refusal, MOST_OCTETS};
use crate::requests::{fold_by_line, fold_in_line, read_in_line, read_line, room_line};

/// Room for every copy and for the records of the most lines an input can have.
const LARGE_COPY: usize = 20_000;
const LARGE_RECORDS: usize = 40_000;

/// What is added to the room needed: copy octets and record numbers.
const READ_ROOMS: [(isize, isize); 11] =
    [(0, 0), (-1, 0), (0, -1), (1, 1), (0, 0), (-1, -1), (100, 100), (1, -1), (-1, 1), (0, -8), (7, 7)];

/// A read request whose rooms go round with the turn.
pub fn read_request(input: &[u8], turn: usize) -> String {
    read_by(Edition::First, |copy, records| read_line(copy, records, input), input, turn)
}

/// A read request in an edition, whose rooms go round with the turn.
pub fn read_in_request(edition: Edition, input: &[u8], turn: usize) -> String {
    read_by(edition, |copy, records| read_in_line(edition, copy, records, input), input, turn)
}

/// The line for rooms that go round with the turn.
fn read_by(edition: Edition, line: impl Fn(usize, usize) -> String, input: &[u8], turn: usize) -> String {
    let (copy, records) = match accepted_lines_in(edition, input) {
        Ok(lines) => (copy_of(&lines).len(), records_of(&lines).len()),
        Err(_) => (input.len(), 32),
    };
    match turn % (READ_ROOMS.len() + 2) {
        11 => line(0, 0),
        12 => line(LARGE_COPY, LARGE_RECORDS),
        which => {
            let (more_copy, more_records) = READ_ROOMS[which];
            let copy_room = copy.saturating_add_signed(more_copy);
            line(copy_room, records.saturating_add_signed(more_records))
        }
    }
}

/// The octets that an entry needs for this input, or a guess where it refuses.
pub fn octets_needed(entry: impl Fn(&[u8], &mut [u8]) -> Result<usize, Refusal>, input: &[u8]) -> usize {
    let mut out = vec![0; MOST_OCTETS];
    entry(input, &mut out).unwrap_or(input.len())
}

/// A fold request whose room goes round with the turn.
pub fn fold_request(input: &[u8], turn: usize) -> String {
    room_request("fold", fold, input, turn)
}

/// A fold request in either style, by turns, whose room goes round with the turn.
pub fn fold_in_request(input: &[u8], turn: usize) -> String {
    let style = turn % 2;
    fold_in_line(style, room_around(|input, out| fold_in(STYLES[style], input, out), input, turn / 2), input)
}

/// The same in an edition.
pub fn fold_by_request(edition: Edition, input: &[u8], turn: usize) -> String {
    let style = turn % 2;
    let room = room_around(|input, out| fold_by(edition, STYLES[style], input, out), input, turn / 2);
    fold_by_line(edition, style, room, input)
}

/// A request with one short, exact, one over, no or large room, as the turn says.
pub fn room_request(
    word: &str,
    entry: fn(&[u8], &mut [u8]) -> Result<usize, Refusal>,
    input: &[u8],
    turn: usize,
) -> String {
    room_line(word, room_around(entry, input, turn), input)
}

/// One short, exact, one over, no or large room for what an entry writes, as the turn says.
pub fn room_around(
    entry: impl Fn(&[u8], &mut [u8]) -> Result<usize, Refusal>,
    input: &[u8],
    turn: usize,
) -> usize {
    let needed = octets_needed(entry, input);
    match turn % 8 {
        0 | 4 => needed,
        1 | 5 => needed.saturating_sub(1),
        2 | 6 => needed + 1,
        3 => needed + 40,
        _ if turn % 16 == 7 => 0,
        _ => LARGE_COPY,
    }
}

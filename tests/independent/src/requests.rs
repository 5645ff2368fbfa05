// Knows the console's requests: taking a line apart into a request, and writing one as a line.

use crate::folder::{Style, STYLES};
use crate::hex::{octets_of, word_of};
use crate::labels::{Rule, RULES};
use crate::merging::{Edits, Source};
use crate::properties::{Edition, EDITIONS};
use crate::report::{count_named, Count};

/// The most octets or numbers of room that can be asked for.
pub const MOST_ROOM: usize = 70_000;

/// The most octets of pool that can be asked for.
pub const MOST_POOL: usize = 655_360;

/// The most octets of a buffer for chunks that can be asked for.
pub const MOST_BUFFER: usize = 20_000;

/// The most octets of a request line, its LF and a CR before it not counted.
pub const MOST_LINE: usize = 140_000;

/// A request, as in the table of CONSOLE.md.
#[derive(Clone, Debug, PartialEq, Eq)]
pub enum Request {
    Judge { octets: Vec<u8> },
    Read { copy_room: usize, record_room: usize, octets: Vec<u8> },
    Fold { room: usize, octets: Vec<u8> },
    JudgeIn { edition: Edition, octets: Vec<u8> },
    ReadIn { edition: Edition, copy_room: usize, record_room: usize, octets: Vec<u8> },
    FoldIn { edition: Edition, style: Style, room: usize, octets: Vec<u8> },
    Escape { room: usize, octets: Vec<u8> },
    Unescape { room: usize, octets: Vec<u8> },
    Encode { rule: Rule, room: usize, octets: Vec<u8> },
    Decode { rule: Rule, room: usize, octets: Vec<u8> },
    Offset { octets: Vec<u8> },
    Version3In { room: usize, octets: Vec<u8> },
    Version3Out { room: usize, octets: Vec<u8> },
    Desk { slots: u64, pool: usize },
    Open { tram: u32, tick: u32 },
    Add { ticket: u32, tick: u32, chunk: Vec<u8> },
    Check { ticket: u32 },
    Show { ticket: u32 },
    Held { ticket: u32 },
    Release { ticket: u32 },
    Pool { from: usize, count: usize },
    Next { ticket: u32 },
    Report,
    Take { octets: Vec<u8> },
    Print { room: usize },
    Count { count: Count, number: u32 },
    Plan { room: usize, edits: Edits },
    CheckPlan { edits: Edits, plan: Vec<u32> },
    Begin { length: usize },
    Chunk { octets: Vec<u8> },
    End,
    Buffer { from: usize, count: usize },
    Claim { count: u32 },
}

/// The request of a line without its LF, or nothing for a bad request.
pub fn request_of(line: &[u8]) -> Option<Request> {
    let line = line.strip_suffix(b"\r").unwrap_or(line);
    if line.len() > MOST_LINE {
        return None;
    }
    let words: Vec<&[u8]> = line.split(|&octet| octet == b' ').collect();
    entry_request(&words)
        .or_else(|| desk_request(&words))
        .or_else(|| report_request(&words))
        .or_else(|| merge_request(&words))
        .or_else(|| watch_request(&words))
}

/// The requests to reader, folder, text and labels.
fn entry_request(words: &[&[u8]]) -> Option<Request> {
    match words {
        [b"judge", octets] => Some(Request::Judge { octets: octets_of(octets)? }),
        [b"offset", octets] => Some(Request::Offset { octets: octets_of(octets)? }),
        [b"read", copy, records, octets] => Some(Request::Read {
            copy_room: size_of(copy, MOST_ROOM)?,
            record_room: size_of(records, MOST_ROOM)?,
            octets: octets_of(octets)?,
        }),
        [b"judge-in", edition, octets] => {
            Some(Request::JudgeIn { edition: edition_of(edition)?, octets: octets_of(octets)? })
        }
        [b"read-in", edition, copy, records, octets] => Some(Request::ReadIn {
            edition: edition_of(edition)?,
            copy_room: size_of(copy, MOST_ROOM)?,
            record_room: size_of(records, MOST_ROOM)?,
            octets: octets_of(octets)?,
        }),
        [b"fold-in", edition, style, room, octets] => {
            let edition = edition_of(edition)?;
            let style = *STYLES.get(size_of(style, STYLES.len())?)?;
            Some(Request::FoldIn { edition, style, room: size_of(room, MOST_ROOM)?, octets: octets_of(octets)? })
        }
        [word @ (b"encode" | b"decode"), rule, room, octets] => {
            let rule = *RULES.get(size_of(rule, RULES.len())?)?;
            let room = size_of(room, MOST_ROOM)?;
            let octets = octets_of(octets)?;
            Some(match *word {
                b"encode" => Request::Encode { rule, room, octets },
                _ => Request::Decode { rule, room, octets },
            })
        }
        [word, room, octets] => {
            let room = size_of(room, MOST_ROOM)?;
            let octets = octets_of(octets)?;
            match *word {
                b"fold" => Some(Request::Fold { room, octets }),
                b"escape" => Some(Request::Escape { room, octets }),
                b"unescape" => Some(Request::Unescape { room, octets }),
                b"v3-in" => Some(Request::Version3In { room, octets }),
                b"v3-out" => Some(Request::Version3Out { room, octets }),
                _ => None,
            }
        }
        _ => None,
    }
}

/// The requests to the desk, the one that looks at the pool and the one that sets a next ticket.
fn desk_request(words: &[&[u8]]) -> Option<Request> {
    let ticket_of = |word| number_of(word, u64::from(u32::MAX)).map(|number| number as u32);
    match words {
        [b"desk", slots, pool] => {
            Some(Request::Desk { slots: number_of(slots, u64::MAX)?, pool: size_of(pool, MOST_POOL)? })
        }
        [b"open", tram, tick] => Some(Request::Open { tram: ticket_of(tram)?, tick: ticket_of(tick)? }),
        [b"add", ticket, tick, chunk] => {
            Some(Request::Add { ticket: ticket_of(ticket)?, tick: ticket_of(tick)?, chunk: octets_of(chunk)? })
        }
        [b"check", ticket] => Some(Request::Check { ticket: ticket_of(ticket)? }),
        [b"show", ticket] => Some(Request::Show { ticket: ticket_of(ticket)? }),
        [b"held", ticket] => Some(Request::Held { ticket: ticket_of(ticket)? }),
        [b"release", ticket] => Some(Request::Release { ticket: ticket_of(ticket)? }),
        [b"pool", from, count] => {
            Some(Request::Pool { from: size_of(from, MOST_POOL)?, count: size_of(count, MOST_POOL)? })
        }
        [b"next", ticket] => Some(Request::Next { ticket: ticket_of(ticket)? }),
        _ => None,
    }
}

/// The requests to the report, and the one that sets a count.
fn report_request(words: &[&[u8]]) -> Option<Request> {
    match words {
        [b"report"] => Some(Request::Report),
        [b"take", octets] => Some(Request::Take { octets: octets_of(octets)? }),
        [b"print", room] => Some(Request::Print { room: size_of(room, MOST_ROOM)? }),
        [b"count", which, number] => Some(Request::Count {
            count: count_named(number_of(which, u64::MAX)?)?,
            number: number_of(number, u64::from(u32::MAX))? as u32,
        }),
        _ => None,
    }
}

/// The requests to planner and checker.
fn merge_request(words: &[&[u8]]) -> Option<Request> {
    match words {
        [b"plan", room, octets] => {
            let room = size_of(room, MOST_ROOM)?;
            let parts = parts_of(&octets_of(octets)?)?;
            let [first, second, rows @ ..] = parts.as_slice() else { return None };
            Some(Request::Plan { room, edits: edits_of(first, second, rows)? })
        }
        [b"check-plan", octets] => {
            let parts = parts_of(&octets_of(octets)?)?;
            let [first, second, rows @ .., plan] = parts.as_slice() else { return None };
            Some(Request::CheckPlan { edits: edits_of(first, second, rows)?, plan: numbers_of(plan)? })
        }
        _ => None,
    }
}

/// The requests to the reader of chunks, the one that looks at its buffer and the one that sets a count of its state.
fn watch_request(words: &[&[u8]]) -> Option<Request> {
    match words {
        [b"begin", length] => Some(Request::Begin { length: size_of(length, MOST_BUFFER)? }),
        [b"chunk", octets] => Some(Request::Chunk { octets: octets_of(octets)? }),
        [b"end"] => Some(Request::End),
        [b"buffer", from, count] => {
            Some(Request::Buffer { from: size_of(from, MOST_BUFFER)?, count: size_of(count, MOST_BUFFER)? })
        }
        [b"claim", count] => Some(Request::Claim { count: number_of(count, u64::from(u32::MAX))? as u32 }),
        _ => None,
    }
}

/// The parts of PARTS, each after its length as four octets, the highest first.
fn parts_of(mut octets: &[u8]) -> Option<Vec<Vec<u8>>> {
    let mut parts = Vec::new();
    while !octets.is_empty() {
        let length = numbers_of(octets.get(..4)?)?[0] as usize;
        parts.push(octets.get(4..4 + length)?.to_vec());
        octets = &octets[4 + length..];
    }
    Some(parts)
}

/// The numbers of four octets each, the highest first.
fn numbers_of(octets: &[u8]) -> Option<Vec<u32>> {
    let number = |part: &[u8]| u32::from_be_bytes(part.try_into().expect("four octets"));
    (octets.len() % 4 == 0).then(|| octets.chunks(4).map(number).collect())
}

/// Two cards and their rows, of which there are two; an entry has three numbers.
fn edits_of(first: &[u8], second: &[u8], rows: &[Vec<u8>]) -> Option<Edits> {
    let [one, other] = rows else { return None };
    Some(Edits { cards: [first.to_vec(), second.to_vec()], rows: [sources_of(one)?, sources_of(other)?] })
}

/// The entries of a row.
fn sources_of(octets: &[u8]) -> Option<Vec<Source>> {
    let numbers = numbers_of(octets)?;
    let source = |entry: &[u32]| Source { number: entry[0], place: entry[1], length: entry[2] };
    (numbers.len() % 3 == 0).then(|| numbers.chunks(3).map(source).collect())
}

/// A decimal number up to a limit; leading zeros are allowed, a sign isn't.
fn number_of(word: &[u8], most: u64) -> Option<u64> {
    if word.is_empty() {
        return None;
    }
    let mut number = 0u64;
    for octet in word {
        let digit = octet.is_ascii_digit().then(|| u64::from(octet - b'0'))?;
        number = number.checked_mul(10)?.checked_add(digit)?;
    }
    Some(number).filter(|&number| number <= most)
}

/// An edition by its number, 1 or 2.
fn edition_of(word: &[u8]) -> Option<Edition> {
    EDITIONS.get(size_of(word, EDITIONS.len())?.checked_sub(1)?).copied()
}

/// A decimal number of octets or numbers, up to a limit.
fn size_of(word: &[u8], most: usize) -> Option<usize> {
    number_of(word, most as u64).map(|number| number as usize)
}

/// The line `judge OCTETS`.
pub fn judge_line(octets: &[u8]) -> String {
    format!("judge {}", word_of(octets))
}

/// The line `offset OCTETS`.
pub fn offset_line(octets: &[u8]) -> String {
    format!("offset {}", word_of(octets))
}

/// The line `read COPYROOM RECORDROOM OCTETS`.
pub fn read_line(copy_room: usize, record_room: usize, octets: &[u8]) -> String {
    format!("read {copy_room} {record_room} {}", word_of(octets))
}

/// The line `WORD ROOM OCTETS`, for fold, escape, unescape, v3-in and v3-out.
pub fn room_line(word: &str, room: usize, octets: &[u8]) -> String {
    format!("{word} {room} {}", word_of(octets))
}

/// The line `WORD RULE ROOM OCTETS`, for encode and decode.
pub fn label_line(word: &str, rule: Rule, room: usize, octets: &[u8]) -> String {
    format!("{word} {} {room} {}", rule as usize, word_of(octets))
}

/// The line `fold-in 1 STYLE ROOM OCTETS`.
pub fn fold_in_line(style: usize, room: usize, octets: &[u8]) -> String {
    fold_by_line(Edition::First, style, room, octets)
}

/// The number of an edition.
fn number_of_edition(edition: Edition) -> usize {
    1 + edition as usize
}

/// The line `fold-in EDITION STYLE ROOM OCTETS`.
pub fn fold_by_line(edition: Edition, style: usize, room: usize, octets: &[u8]) -> String {
    format!("fold-in {} {style} {room} {}", number_of_edition(edition), word_of(octets))
}

/// The line `judge-in EDITION OCTETS`.
pub fn judge_in_line(edition: Edition, octets: &[u8]) -> String {
    format!("judge-in {} {}", number_of_edition(edition), word_of(octets))
}

/// The line `read-in EDITION COPYROOM RECORDROOM OCTETS`.
pub fn read_in_line(edition: Edition, copy_room: usize, record_room: usize, octets: &[u8]) -> String {
    format!("read-in {} {copy_room} {record_room} {}", number_of_edition(edition), word_of(octets))
}

/// The line `add TICKET TICK OCTETS`, at tick 0.
pub fn add_line(ticket: u32, chunk: &[u8]) -> String {
    add_line_at(ticket, 0, chunk)
}

/// The line `add TICKET TICK OCTETS`.
pub fn add_line_at(ticket: u32, tick: u32, chunk: &[u8]) -> String {
    format!("add {ticket} {tick} {}", word_of(chunk))
}

/// A line with tick 0 where it is an opening or an add that lacks its tick; any other line as it is.
pub fn at_tick_0(line: &str) -> String {
    match line.split(' ').collect::<Vec<&str>>()[..] {
        ["open", tram] => format!("open {tram} 0"),
        ["add", ticket, chunk] => format!("add {ticket} 0 {chunk}"),
        _ => line.to_string(),
    }
}

/// The line `plan ROOM PARTS`.
pub fn plan_line(room: usize, edits: &Edits) -> String {
    format!("plan {room} {}", word_of(&parts_octets(edits, None)))
}

/// The line `check-plan PARTS`.
pub fn check_plan_line(edits: &Edits, plan: &[u32]) -> String {
    format!("check-plan {}", word_of(&parts_octets(edits, Some(plan))))
}

/// The octets of PARTS: both cards, both rows and the plan, where there is one.
fn parts_octets(edits: &Edits, plan: Option<&[u32]>) -> Vec<u8> {
    let octets = |numbers: &[u32]| numbers.iter().flat_map(|number| number.to_be_bytes()).collect::<Vec<u8>>();
    let row = |row: &[Source]| {
        octets(&row.iter().flat_map(|source| [source.number, source.place, source.length]).collect::<Vec<u32>>())
    };
    let mut parts = edits.cards.to_vec();
    parts.extend(edits.rows.iter().map(|sources| row(sources)));
    parts.extend(plan.map(octets));
    parts.iter().flat_map(|part| [&octets(&[part.len() as u32]), part.as_slice()].concat()).collect()
}

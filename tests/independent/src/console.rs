// Knows the console of CONSOLE.md: it answers each request line from this program's own entries.
//
// Points that CONSOLE.md leaves open, and how they are taken here:
// - Room is at most 70,000 octets and 70,000 numbers, the pool at most 655,360 octets, TICKET,
//   TRAM and TICK at most 4,294,967,295, SLOTS at most 18,446,744,073,709,551,615; a larger number is
//   `bad request`.
// - A number is one or more digits; leading zeros are allowed, a sign isn't.
// - Two spaces, a space at either end, and an empty line make an empty word: `bad request`.
// - Request words are in lower case only. Octets of odd length, or with another sign among the
//   digits, are `bad request`; so is a request with a word too many or too few.
// - A line's 140,000 octets don't count its LF or the one CR before it. The last line is taken
//   without LF too, unless it is empty.
// - A refused new desk (26) replaces the desk by the refused one, and the pool by a new one of
//   POOL octets, for the call hands a desk back; a `bad request` replaces neither.
// - `pool FROM COUNT` past the end of the pool is `bad request`; COUNT 0 gives `-`.
// - `show` has no refusal: `-` for an empty part, whatever the reason (READINGS A24).
// - PARTS that come apart into another number of parts than four, or five for `check-plan`, are `bad request`.
// - `buffer FROM COUNT` past the end of the buffer is `bad request`; COUNT 0 gives `-`. A buffer of `begin` has at most 20,000 octets.
// - After a `claim` of another count than the true one that is not 46, the documents leave the answers free: here the state is as before.
// - `read` answers no count of copy octets, so the console takes from the last record where the
//   copy ends.

use std::io::{self, BufRead, BufReader, Read, Write};

use crate::dates::minutes;
use crate::desk::Desk;
use crate::folder::{fold, fold_by};
use crate::hex::word_of;
use crate::labels::{decode, encode};
use crate::merging::{check, plan, Edits};
use crate::properties::Edition;
use crate::reader::{judge, judge_in, read_in, Counts, RECORD_NUMBERS};
use crate::refusal::Refusal;
use crate::report::Report;
use crate::requests::{request_of, Request};
use crate::text::{escape, unescape};
use crate::version3::{give_out, take_in};
use crate::watching::Watch;

/// What each octet of room and of a new pool is at first.
const ROOM_OCTET: u8 = 165;

/// What each number of room is at first.
const ROOM_NUMBER: u32 = 2_779_096_485;

/// The answer to a line that is no request.
pub const BAD_REQUEST: &str = "bad request";

/// The desk, the pool, the report, and the state and buffer of the reader of chunks, that the console keeps from request to request.
#[derive(Clone, Debug, PartialEq, Eq)]
pub struct Console {
    desk: Desk,
    pool: Vec<u8>,
    report: Report,
    watch: Watch,
    buffer: Vec<u8>,
}

impl Default for Console {
    /// Before the first `desk` there is a refused desk and an empty pool, before the first `begin` a fresh state and an empty buffer.
    fn default() -> Console {
        Console::at(Desk::new(0).1, Vec::new())
    }
}

impl Console {
    /// A console that begins with this desk value and this pool.
    pub fn at(desk: Desk, pool: Vec<u8>) -> Console {
        Console { desk, pool, report: Report::default(), watch: Watch::default(), buffer: Vec::new() }
    }

    /// The answer to one line, given without its LF.
    pub fn answer(&mut self, line: &[u8]) -> String {
        match request_of(line) {
            Some(request) => self.answer_request(request),
            None => BAD_REQUEST.to_string(),
        }
    }

    /// The answer to a request.
    fn answer_request(&mut self, request: Request) -> String {
        match request {
            Request::Judge { octets } => verdict_line(judge(&octets)),
            Request::Read { copy_room, record_room, octets } => {
                read_answer(Edition::First, copy_room, record_room, &octets)
            }
            Request::JudgeIn { edition, octets } => verdict_line(judge_in(edition, &octets)),
            Request::ReadIn { edition, copy_room, record_room, octets } => {
                read_answer(edition, copy_room, record_room, &octets)
            }
            Request::Fold { room, octets } => room_answer(fold, room, &octets),
            Request::FoldIn { edition, style, room, octets } => {
                room_answer(|input, out| fold_by(edition, style, input, out), room, &octets)
            }
            Request::Escape { room, octets } => room_answer(escape, room, &octets),
            Request::Unescape { room, octets } => room_answer(unescape, room, &octets),
            Request::Encode { rule, room, octets } => {
                room_answer(|value, out| encode(rule, value, out), room, &octets)
            }
            Request::Decode { rule, room, octets } => {
                room_answer(|label, out| decode(rule, label, out), room, &octets)
            }
            Request::Version3In { room, octets } => room_answer(take_in, room, &octets),
            Request::Version3Out { room, octets } => room_answer(give_out, room, &octets),
            Request::Offset { octets } => number_line(minutes(&octets)),
            Request::Desk { slots, pool } => self.new_desk(slots, pool),
            Request::Open { tram, tick } => {
                let (answer, next) = self.desk.open(&mut self.pool, tram, tick);
                self.desk = next;
                number_line(answer)
            }
            Request::Add { ticket, tick, chunk } => {
                let (answer, next) = self.desk.add(&mut self.pool, ticket, &chunk, tick);
                self.desk = next;
                number_line(answer)
            }
            Request::Check { ticket } => verdict_line(self.desk.judge(&self.pool, ticket)),
            Request::Show { ticket } => word_of(self.desk.show(&self.pool, ticket)),
            Request::Held { ticket } => number_line(self.desk.held(&self.pool, ticket)),
            Request::Release { ticket } => {
                let (answer, next) = self.desk.release(&mut self.pool, ticket);
                self.desk = next;
                number_line(answer)
            }
            Request::Pool { from, count } => self.pool_part(from, count),
            Request::Next { ticket } => {
                self.desk.next_ticket = ticket;
                format!("ok {ticket}")
            }
            Request::Report => {
                self.report = Report::default();
                "ok 0".to_string()
            }
            Request::Take { octets } => {
                let (answer, next) = self.report.take(&octets);
                self.report = next;
                number_line(answer)
            }
            Request::Print { room } => room_answer(|_, out| self.report.print(out), room, &[]),
            Request::Begin { length } => {
                (self.watch, self.buffer) = (Watch::default(), vec![ROOM_OCTET; length]);
                "ok 0".to_string()
            }
            Request::Chunk { octets } => {
                number_line(self.watch.chunk(&mut self.buffer, &octets).map(|()| 0))
            }
            Request::End => verdict_line(self.watch.end(&self.buffer)),
            Request::Buffer { from, count } => {
                self.buffer.get(from..from + count).map_or(BAD_REQUEST.to_string(), word_of)
            }
            Request::Claim { count } => {
                self.watch.claim(count as usize);
                format!("ok {count}")
            }
            Request::Plan { room, edits } => plan_answer(room, &edits),
            Request::CheckPlan { edits, plan } => number_line(check(&edits, &plan)),
            Request::Count { count, number } => {
                self.report.set(count, number);
                format!("ok {number}")
            }
        }
    }

    /// A new desk, refused or not, and a new pool.
    fn new_desk(&mut self, slots: u64, pool: usize) -> String {
        let (answer, desk) = Desk::new(slots);
        (self.desk, self.pool) = (desk, vec![ROOM_OCTET; pool]);
        number_line(answer)
    }

    /// That part of the pool, if the pool reaches so far.
    fn pool_part(&self, from: usize, count: usize) -> String {
        self.pool.get(from..from + count).map_or(BAD_REQUEST.to_string(), word_of)
    }
}

/// The answer of the reader in an edition, with rooms of these sizes.
fn read_answer(edition: Edition, copy_room: usize, record_room: usize, octets: &[u8]) -> String {
    let mut copy = vec![ROOM_OCTET; copy_room];
    let mut records = vec![ROOM_NUMBER; record_room];
    let verdict = read_in(edition, octets, &mut copy, &mut records);
    let numbers_written = verdict.map_or(0, |counts| RECORD_NUMBERS * counts.lines);
    let octets_written = copy_length(&records[..numbers_written]);
    let touched = copy[octets_written..].iter().any(|&octet| octet != ROOM_OCTET)
        || records[numbers_written..].iter().any(|&number| number != ROOM_NUMBER);
    let mut answer = verdict_line(verdict);
    if verdict.is_ok() {
        let numbers: Vec<String> = records[..numbers_written].iter().map(u32::to_string).collect();
        answer += &format!(" {} {}", word_of(&copy[..octets_written]), numbers.join(","));
    }
    answer + touched_word(touched)
}

/// Where the copy ends: the last record's line start and length, and a CR LF.
fn copy_length(records: &[u32]) -> usize {
    match records.chunks(RECORD_NUMBERS).last() {
        Some(last) => (last[1] + last[2] + 2) as usize,
        None => 0,
    }
}

/// The answer of an entry that writes octets to room of this size.
fn room_answer(
    entry: impl Fn(&[u8], &mut [u8]) -> Result<usize, Refusal>,
    room: usize,
    octets: &[u8],
) -> String {
    let mut out = vec![ROOM_OCTET; room];
    let answer = entry(octets, &mut out);
    let (written, past) = out.split_at(answer.unwrap_or(0));
    let touched = touched_word(past.iter().any(|&octet| octet != ROOM_OCTET));
    match answer {
        Ok(count) => format!("ok {count} {}{touched}", word_of(written)),
        Err(refusal) => refusal_line(refusal) + touched,
    }
}

/// The answer of the planner, with room for so many numbers.
fn plan_answer(room: usize, edits: &Edits) -> String {
    let mut out = vec![ROOM_NUMBER; room];
    let answer = plan(edits, &mut out);
    let (written, past) = out.split_at(answer.map_or(0, |pairs| 2 * pairs));
    let touched = touched_word(past.iter().any(|&number| number != ROOM_NUMBER));
    let numbers: Vec<String> = written.iter().map(u32::to_string).collect();
    let numbers = if numbers.is_empty() { "-".to_string() } else { numbers.join(",") };
    match answer {
        Ok(pairs) => format!("ok {pairs} {numbers}{touched}"),
        Err(refusal) => refusal_line(refusal) + touched,
    }
}

/// The word for room that isn't as it was where it should be.
fn touched_word(touched: bool) -> &'static str {
    if touched {
        " touched"
    } else {
        ""
    }
}

/// `no NUMBER PLACE`.
fn refusal_line(refusal: Refusal) -> String {
    format!("no {} {}", refusal.number, refusal.place)
}

/// `ok CARDS LINES`, or the refusal.
pub fn verdict_line(verdict: Result<Counts, Refusal>) -> String {
    match verdict {
        Ok(counts) => format!("ok {} {}", counts.cards, counts.lines),
        Err(refusal) => refusal_line(refusal),
    }
}

/// `ok NUMBER`, or the refusal.
pub fn number_line<N: ToString>(answer: Result<N, Refusal>) -> String {
    match answer {
        Ok(number) => format!("ok {}", number.to_string()),
        Err(refusal) => refusal_line(refusal),
    }
}

/// Answers line after line; what is written is sent on whenever no further request is waiting.
pub fn serve<I: Read, O: Write>(
    input: I,
    mut output: O,
    mut answer: impl FnMut(&[u8]) -> String,
) -> io::Result<()> {
    let mut input = BufReader::with_capacity(1 << 16, input);
    let mut line = Vec::new();
    while input.read_until(b'\n', &mut line)? > 0 {
        let request = line.strip_suffix(b"\n").unwrap_or(&line);
        writeln!(output, "{}", answer(request))?;
        line.clear();
        if input.buffer().is_empty() {
            output.flush()?;
        }
    }
    output.flush()
}

// Knows shorthand for the tests: verdicts, reads and forms as small values that read well.
#![allow(dead_code)]

use independent::examples::m_with;
use independent::folder::{fold, fold_as_read};
use independent::labels::{decode, encode, Rule};
use independent::reader::{judge, read};
use independent::text::{escape, unescape};
use independent::version3::{give_out, take_in};

/// An answer: what was accepted, or refusal number and place.
pub type Answer<T> = Result<T, (u32, usize)>;

/// Cards and lines, or the refusal.
pub fn verdict(input: &[u8]) -> Answer<(usize, usize)> {
    match judge(input) {
        Ok(counts) => Ok((counts.cards, counts.lines)),
        Err(refusal) => Err((refusal.number, refusal.place)),
    }
}

/// The verdict on card M with this line after its FN; the line starts at 32.
pub fn line_verdict(line: &str) -> Answer<(usize, usize)> {
    verdict(&m_with(line.as_bytes()))
}

/// Copy and records of an accepted input.
pub fn copy_and_records(input: &[u8]) -> (Vec<u8>, Vec<u32>) {
    let mut copy = vec![0; 16_384];
    let mut records = vec![0; 32_768];
    let counts = read(input, &mut copy, &mut records).expect("an accepted input");
    records.truncate(8 * counts.lines);
    let last = &records[records.len() - 8..];
    copy.truncate((last[1] + last[2] + 2) as usize);
    (copy, records)
}

/// The record of the line after FN in card M.
pub fn line_record(line: &str) -> [u32; 8] {
    let (_, records) = copy_and_records(&m_with(line.as_bytes()));
    records[24..32].try_into().expect("eight numbers")
}

/// The kind in that record.
pub fn line_kind(line: &str) -> u32 {
    line_record(line)[7]
}

/// What an entry writes to room of this size, or its refusal; a refusal must leave the room alone.
fn written(
    entry: impl Fn(&[u8], &mut [u8]) -> Result<usize, independent::refusal::Refusal>,
    input: &[u8],
    room: usize,
) -> Answer<Vec<u8>> {
    let mut out = vec![165; room];
    match entry(input, &mut out) {
        Ok(count) => {
            assert!(out[count..].iter().all(|&octet| octet == 165), "room past the form");
            out.truncate(count);
            Ok(out)
        }
        Err(refusal) => {
            assert!(out.iter().all(|&octet| octet == 165), "room after a refusal");
            Err((refusal.number, refusal.place))
        }
    }
}

pub fn folded(input: &[u8], room: usize) -> Answer<Vec<u8>> {
    written(fold, input, room)
}

/// The same as read.
pub fn folded_as_read(input: &[u8], room: usize) -> Answer<Vec<u8>> {
    written(fold_as_read, input, room)
}

pub fn escaped(text: &[u8], room: usize) -> Answer<Vec<u8>> {
    written(escape, text, room)
}

pub fn unescaped(text: &[u8], room: usize) -> Answer<Vec<u8>> {
    written(unescape, text, room)
}

pub fn encoded(rule: Rule, value: &[u8], room: usize) -> Answer<Vec<u8>> {
    written(|value, out| encode(rule, value, out), value, room)
}

pub fn decoded(rule: Rule, label: &[u8], room: usize) -> Answer<Vec<u8>> {
    written(|label, out| decode(rule, label, out), label, room)
}

/// A version 3 card taken in.
pub fn taken(input: &[u8], room: usize) -> Answer<Vec<u8>> {
    written(take_in, input, room)
}

/// A version 4 card given out.
pub fn given(input: &[u8], room: usize) -> Answer<Vec<u8>> {
    written(give_out, input, room)
}

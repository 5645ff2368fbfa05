// Knows labels (document 02, No. 9): parameter values between their quote marks, by RFC 6350 and by RFC 6868.

use crate::characters::first_fault;
use crate::refusal::{refuse, Refusal, MOST_OCTETS};
use crate::text::write;

/// How a caret is read: as itself, or by RFC 6868.
#[derive(Clone, Copy, Debug, PartialEq, Eq)]
pub enum Rule {
    Rfc6350,
    Rfc6868,
}

/// Both rules; the console's numbers are their places.
pub const RULES: [Rule; 2] = [Rule::Rfc6350, Rule::Rfc6868];

/// The three pairs: what is meant, and what stands for it.
const PAIRS: [(u8, &[u8; 2]); 3] = [(b'\n', b"^n"), (b'^', b"^^"), (b'"', b"^'")];

/// Writes the value as a label to the room; answers the octets written.
pub fn encode(rule: Rule, value: &[u8], out: &mut [u8]) -> Result<usize, Refusal> {
    if value.len() > MOST_OCTETS {
        return refuse(1, MOST_OCTETS);
    }
    if let Some(place) = first_fault(value, |octet| matches!(octet, 0x09 | 0x0A | 0x20..=0x7E)) {
        return refuse(31, place);
    }
    match rule {
        Rule::Rfc6350 => match value.iter().position(|octet| matches!(octet, b'\n' | b'"')) {
            Some(place) => refuse(44, place),
            None => write(value, out),
        },
        Rule::Rfc6868 => {
            let label = label_of(value);
            if label.len() > MOST_OCTETS {
                return refuse(16, MOST_OCTETS);
            }
            write(&label, out)
        }
    }
}

/// The value with each newline, caret and quote mark as its pair.
fn label_of(value: &[u8]) -> Vec<u8> {
    let written = |octet: &u8| match PAIRS.iter().find(|(meant, _)| meant == octet) {
        Some((_, pair)) => pair.to_vec(),
        None => vec![*octet],
    };
    value.iter().flat_map(written).collect()
}

/// Writes the value that the label stands for to the room; answers the octets written.
pub fn decode(rule: Rule, label: &[u8], out: &mut [u8]) -> Result<usize, Refusal> {
    if label.len() > MOST_OCTETS {
        return refuse(1, MOST_OCTETS);
    }
    if let Some(place) = first_fault(label, |octet| matches!(octet, 0x09 | 0x20 | 0x21 | 0x23..=0x7E)) {
        return refuse(31, place);
    }
    match rule {
        Rule::Rfc6350 => write(label, out),
        Rule::Rfc6868 => write(&value_of(label), out),
    }
}

/// The label with each pair replaced by what it means; any other caret, and all else, stands for itself.
fn value_of(mut label: &[u8]) -> Vec<u8> {
    let mut value = Vec::new();
    while let Some((&first, rest)) = label.split_first() {
        match PAIRS.iter().find(|(_, pair)| label.starts_with(*pair)) {
            Some((meant, _)) => {
                value.push(*meant);
                label = &label[2..];
            }
            None => {
                value.push(first);
                label = rest;
            }
        }
    }
    value
}

// Knows text: the escapes of refusal 30, escaping a text and unescaping it.

use crate::characters::first_fault;
use crate::refusal::{refuse, Refusal, MOST_OCTETS};

const LINE_FEED: u8 = 0x0A;

/// The first bare comma, or backslash that starts no escape, if there is one.
pub fn first_bad_escape(text: &[u8]) -> Option<usize> {
    let mut at = 0;
    while at < text.len() {
        match text[at] {
            b',' => return Some(at),
            b'\\' if !starts_escape(&text[at..]) => return Some(at),
            b'\\' => at += 2,
            _ => at += 1,
        }
    }
    None
}

/// Whether these octets, the first a backslash, start with an escape.
fn starts_escape(octets: &[u8]) -> bool {
    matches!(octets.get(1), Some(b'\\' | b',' | b';' | b'n' | b'N'))
}

/// Writes the escaped text to the room; answers the octets written.
pub fn escape(text: &[u8], out: &mut [u8]) -> Result<usize, Refusal> {
    if text.len() > MOST_OCTETS {
        return refuse(1, MOST_OCTETS);
    }
    if let Some(place) = first_fault(text, |octet| matches!(octet, 0x09 | 0x0A | 0x20..=0x7E)) {
        return refuse(31, place);
    }
    let escaped = escaped_form(text);
    if escaped.len() > MOST_OCTETS {
        return refuse(16, MOST_OCTETS);
    }
    write(&escaped, out)
}

/// The text with a backslash before each backslash, comma and semicolon, and 0A as `\n`.
pub fn escaped_form(text: &[u8]) -> Vec<u8> {
    let mut escaped = Vec::new();
    for &octet in text {
        match octet {
            b'\\' | b',' | b';' => escaped.extend([b'\\', octet]),
            LINE_FEED => escaped.extend(b"\\n"),
            _ => escaped.push(octet),
        }
    }
    escaped
}

/// Writes the unescaped text to the room; answers the octets written.
pub fn unescape(text: &[u8], out: &mut [u8]) -> Result<usize, Refusal> {
    if text.len() > MOST_OCTETS {
        return refuse(1, MOST_OCTETS);
    }
    if let Some(place) = first_fault(text, |octet| matches!(octet, 0x09 | 0x20..=0x7E)) {
        return refuse(31, place);
    }
    if let Some(place) = first_bad_escape(text) {
        return refuse(30, place);
    }
    write(&unescaped_form(text), out)
}

/// The text with each escape, all of them good, replaced by what it stands for.
pub fn unescaped_form(text: &[u8]) -> Vec<u8> {
    let mut unescaped = Vec::new();
    let mut octets = text.iter().copied();
    while let Some(octet) = octets.next() {
        match octet {
            b'\\' => match octets.next() {
                Some(b'n' | b'N') => unescaped.push(LINE_FEED),
                Some(escaped) => unescaped.push(escaped),
                None => unreachable!("a backslash at the end is no good escape"),
            },
            _ => unescaped.push(octet),
        }
    }
    unescaped
}

/// Writes a form to the room if it fits (15); room past it stays as it was.
pub fn write(form: &[u8], out: &mut [u8]) -> Result<usize, Refusal> {
    if out.len() < form.len() {
        return refuse(15, form.len());
    }
    out[..form.len()].copy_from_slice(form);
    Ok(form.len())
}
